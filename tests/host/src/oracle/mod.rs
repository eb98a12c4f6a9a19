// The independent second program: document 01 read once more, in plain Rust
// and without a look at the library. Slow and simple where there is a choice.

pub mod answer;
pub mod examples;
pub mod lines;
pub mod list;
pub mod result;
pub mod run;
