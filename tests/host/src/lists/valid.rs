// Random jobs that keep every rule of a list: distinct names, releases that
// never fall, and for each job the time it needs before its deadline.

use super::rng::Rng;
use crate::oracle::list::{Job, MOST_ROWS};

const LAST: u32 = 1_000_000;

/// An accepted list of any length.
pub fn valid(rng: &mut Rng) -> Vec<Job> {
    let most = MOST_ROWS as u32;
    let any = rng.from_to(0, most);
    let few = rng.from_to(0, 8);
    let n = rng.one_of(&[few, few, few, any, any, most - 1, most]);
    valid_rows(rng, n as usize)
}

/// `n` rows that keep the rules, though n itself may be too great.
pub fn valid_rows(rng: &mut Rng, n: usize) -> Vec<Job> {
    let mut release = rng.one_of(&[0, 0, 1, 255, 65_535, LAST / 2, LAST - 1]);
    let step = rng.one_of(&[0, 1, 5, 300, LAST / 64]);
    let mut jobs = Vec::new();
    for _ in 0..n {
        release = (release + rng.below(step + 1)).min(LAST - 1);
        jobs.push(fitting(rng, release));
    }
    rename(rng, &mut jobs);
    jobs
}

/// A job that has just enough time, all the time there is, or some.
fn fitting(rng: &mut Rng, release: u32) -> Job {
    let time = LAST - release;
    let small = rng.from_to(1, time.min(300));
    let any = rng.from_to(1, time);
    let cost = rng.one_of(&[1, small, small, any, time]);
    let near = release + cost + rng.below((time - cost).min(300) + 1);
    let deadline = rng.one_of(&[release + cost, near, near, LAST]);
    Job {
        name: 0,
        release,
        cost,
        deadline,
    }
}

/// Distinct names in no order; some differ in one of their two bytes only.
pub fn rename(rng: &mut Rng, jobs: &mut [Job]) {
    // There are 255 tight names, too few for a list that is far too long.
    let tight = jobs.len() <= MOST_ROWS && rng.once_in(3);
    let mut taken = Vec::new();
    for job in jobs {
        let name = loop {
            let any = rng.from_to(1, 65_535);
            let near = rng.below(16) * 256 + rng.below(16);
            let name = if tight { near } else { any } as u16;
            if name != 0 && !taken.contains(&name) {
                break name;
            }
        };
        taken.push(name);
        job.name = name;
    }
}
