// The text skyrun prints for its standard input: the lines of a result, or
// the one line of a refusal.

use super::list::{jobs_of, Job};
use super::run::{run, Outcome};
use std::fmt::Write;

/// skyrun reads no more than this and judges what it has read.
const MOST_INPUT: usize = 904;

pub fn lines(input: &[u8]) -> String {
    match jobs_of(&input[..input.len().min(MOST_INPUT)]) {
        Ok(jobs) => result_lines(&jobs),
        Err(refusal) => format!("REFUSED {} {}\n", refusal.number, refusal.row),
    }
}

fn result_lines(jobs: &[Job]) -> String {
    let run = run(jobs);
    let mut text = format!("JOBS {} VALUE {}\n", jobs.len(), run.value);
    for (job, settled) in jobs.iter().zip(&run.settled) {
        let word = match settled.outcome {
            Outcome::Finished => "DONE",
            Outcome::Dropped => "DROP",
        };
        let (tick, given) = (settled.tick, settled.given);
        writeln!(text, "{word} {} {tick} {given}", job.name).unwrap();
    }
    for stretch in &run.stretches {
        let name = jobs[stretch.row].name;
        writeln!(text, "RUN {name} {} {}", stretch.first, stretch.after).unwrap();
    }
    text
}
