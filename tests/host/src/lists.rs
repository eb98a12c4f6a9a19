// What the tests give to the library and to the oracle: random, edge and
// damaged list images and raw rows, all made from one seed.

pub mod damaged;
pub mod edges;
pub mod rng;
pub mod runs;
pub mod valid;

use crate::oracle::list::{image_of, rows_of, Job};

/// Jobs from "name:release/cost/deadline", one space between.
pub fn jobs_from_text(text: &str) -> Vec<Job> {
    text.split_whitespace()
        .map(|job| {
            let numbers: Vec<u32> = job
                .split([':', '/'])
                .map(|number| number.parse().expect("a number"))
                .collect();
            Job {
                name: numbers[0].try_into().expect("a name of two bytes"),
                release: numbers[1],
                cost: numbers[2],
                deadline: numbers[3],
            }
        })
        .collect()
}

pub fn image_from_text(text: &str) -> Vec<u8> {
    image_of(&rows_of(&jobs_from_text(text)))
}

pub fn from_hex(text: &str) -> Vec<u8> {
    let digits: Vec<u32> = text.chars().filter_map(|c| c.to_digit(16)).collect();
    let byte = |pair: &[u32]| (pair[0] * 16 + pair[1]) as u8;
    digits.chunks_exact(2).map(byte).collect()
}

pub fn to_hex(bytes: &[u8]) -> String {
    bytes.iter().map(|byte| format!("{byte:02X}")).collect()
}
