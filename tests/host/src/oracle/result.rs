// The result image of a run: what sky_run writes, refusals included.

use super::answer::Made;
use super::list::{jobs_of, Job};
use super::run::{run, Outcome, Run};

pub fn result(list: &[u8]) -> Made {
    let jobs = jobs_of(list)?;
    let run = run(&jobs);
    Ok((image(&jobs, &run), run.value as u32))
}

fn image(jobs: &[Job], run: &Run) -> Vec<u8> {
    let mut body = vec![1];
    body.extend((jobs.len() as u16).to_be_bytes());
    body.extend((run.stretches.len() as u16).to_be_bytes());
    body.extend((run.value as u32).to_be_bytes());
    for (job, settled) in jobs.iter().zip(&run.settled) {
        body.extend(job.name.to_be_bytes());
        body.push(match settled.outcome {
            Outcome::Finished => 1,
            Outcome::Dropped => 2,
        });
        body.extend((settled.tick as u32).to_be_bytes());
        body.extend((settled.given as u32).to_be_bytes());
    }
    for stretch in &run.stretches {
        body.extend(jobs[stretch.row].name.to_be_bytes());
        body.extend((stretch.first as u32).to_be_bytes());
        body.extend((stretch.after as u32).to_be_bytes());
    }
    let mut image = (body.len() as u32).to_be_bytes().to_vec();
    image.extend(body);
    image
}
