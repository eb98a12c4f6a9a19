// Host tests of the sky library. The oracle is an independent second program,
// ffi and agree call the library and compare it with the oracle, and lists
// makes what both are given.

pub mod agree;
pub mod ffi;
pub mod lists;
pub mod oracle;
