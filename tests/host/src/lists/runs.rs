// Lists that are worth running: shapes that make jobs wait, be delayed, take
// over and be dropped, all within few ticks; and a few sparse ones over many.

use super::rng::Rng;
use super::valid::rename;
use crate::oracle::list::{Job, MOST_ROWS};

type Shape = fn(&mut Rng) -> Vec<Job>;

pub const SHAPES: &[(&str, Shape)] = &[
    ("few", few),
    ("few", few),
    ("overload", overload),
    ("underload", underload),
    ("equal releases", equal_releases),
    ("equal deadlines", equal_deadlines),
    ("no slack", no_slack),
    ("doubling", doubling),
    ("nested", nested),
    ("intruder", intruder),
    ("mixture", mixture),
    ("full", full),
];

pub const SPARSE_SHAPES: &[(&str, Shape)] = &[
    ("far apart", far_apart),
    ("long doubling", long_doubling),
    ("long jobs", long_jobs),
];

/// A list of one shape; its rows come in order of release and in no other.
pub fn list_of(shape: Shape, rng: &mut Rng) -> Vec<Job> {
    let mut jobs = shape(rng);
    jobs.truncate(MOST_ROWS);
    rng.shuffle(&mut jobs);
    jobs.sort_by_key(|job| job.release);
    rename(rng, &mut jobs);
    jobs
}

fn job(release: u32, cost: u32, slack: u32) -> Job {
    Job {
        name: 0,
        release,
        cost,
        deadline: release + cost + slack,
    }
}

/// `n` jobs with up to `gap` ticks between releases.
fn spread(rng: &mut Rng, n: u32, gap: u32, cost: u32, slack: u32) -> Vec<Job> {
    let mut release = rng.one_of(&[0, 0, 0, 3]);
    let mut jobs = Vec::new();
    for _ in 0..n {
        jobs.push(job(release, rng.from_to(1, cost), rng.from_to(0, slack)));
        release += rng.from_to(0, gap);
    }
    jobs
}

fn few(rng: &mut Rng) -> Vec<Job> {
    let n = rng.from_to(1, 7);
    let (gap, cost, slack) = (rng.below(4), rng.from_to(1, 9), rng.below(10));
    spread(rng, n, gap, cost, slack)
}

fn overload(rng: &mut Rng) -> Vec<Job> {
    let n = rng.from_to(6, 24);
    let (gap, cost, slack) = (rng.below(3), rng.from_to(4, 30), rng.below(40));
    spread(rng, n, gap, cost, slack)
}

fn underload(rng: &mut Rng) -> Vec<Job> {
    let n = rng.from_to(2, 16);
    let (gap, cost, slack) = (rng.from_to(4, 20), rng.from_to(1, 12), rng.below(60));
    spread(rng, n, gap, cost, slack)
}

fn equal_releases(rng: &mut Rng) -> Vec<Job> {
    let n = rng.from_to(2, 16);
    let (cost, slack) = (rng.from_to(1, 12), rng.below(50));
    spread(rng, n, 0, cost, slack)
}

/// Deadlines are put off to a multiple of a few ticks, so that many agree.
fn equal_deadlines(rng: &mut Rng) -> Vec<Job> {
    let every = rng.one_of(&[4, 8, 16, 32, 64]);
    let mut jobs = if rng.once_in(3) {
        overload(rng)
    } else {
        few(rng)
    };
    for job in &mut jobs {
        job.deadline = job.deadline.next_multiple_of(every);
    }
    jobs
}

fn no_slack(rng: &mut Rng) -> Vec<Job> {
    let n = rng.from_to(2, 16);
    let (gap, cost) = (rng.below(4), rng.from_to(2, 20));
    spread(rng, n, gap, cost, 0)
}

fn full(rng: &mut Rng) -> Vec<Job> {
    let n = rng.from_to(60, 64);
    let (gap, cost, slack) = (rng.below(6), rng.from_to(1, 12), rng.below(80));
    spread(rng, n, gap, cost, slack)
}

/// Each job is released in the last tick of the one before and costs about
/// twice as much, so that it takes over or just fails to.
fn chain(rng: &mut Rng, start: u32, first_cost: u32, last_end: u32) -> Vec<Job> {
    let (mut release, mut cost) = (start, first_cost);
    let mut jobs = Vec::new();
    while release + cost < last_end {
        let slack = rng.one_of(&[0, 0, 0, 1, 2]);
        jobs.push(job(release, cost, slack.min(last_end - release - cost)));
        release += cost - rng.one_of(&[1, 1, 1, 2]).min(cost);
        cost = (2 * cost + rng.one_of(&[1, 1, 1, 0, 2])).max(1);
    }
    jobs
}

fn doubling(rng: &mut Rng) -> Vec<Job> {
    let (start, cost) = (rng.below(3), rng.from_to(1, 4));
    let end = rng.one_of(&[60, 120, 250, 600]);
    let mut jobs = chain(rng, start, cost, end);
    jobs.extend(few(rng));
    jobs
}

/// Ever earlier deadlines with room enough for most: a deep delayed stack.
fn nested(rng: &mut Rng) -> Vec<Job> {
    let depth = rng.from_to(2, 12);
    let cost = rng.from_to(1, 5);
    let mut release = 0;
    let mut deadline = depth * (cost + rng.from_to(1, 5)) + 10;
    let mut jobs = Vec::new();
    while jobs.len() < depth as usize && release + cost < deadline {
        let own = rng.from_to(1, cost);
        jobs.push(job(release, own, deadline - release - own));
        release += rng.below(3);
        deadline -= rng.from_to(1, 4).min(deadline);
    }
    jobs
}

/// A nested list and jobs that cost about twice the value held at some tick.
fn intruder(rng: &mut Rng) -> Vec<Job> {
    let mut jobs = nested(rng);
    for _ in 0..rng.from_to(1, 3) {
        let inner = rng.from_to(1, jobs.len() as u32) as usize;
        let held: u32 = jobs[..inner].iter().map(|one| one.cost).sum();
        let cost = (2 * held).saturating_sub(1) + rng.below(4);
        let release = jobs[rng.place(inner)].release + rng.below(3);
        jobs.push(job(release, cost.max(1), rng.below(4)));
    }
    jobs
}

fn mixture(rng: &mut Rng) -> Vec<Job> {
    let mut jobs = intruder(rng);
    let shape = rng.one_of(&[few as Shape, underload, no_slack, nested, doubling]);
    let later = rng.below(12);
    jobs.extend(shape(rng).into_iter().map(|mut one| {
        one.release += later;
        one.deadline += later;
        one
    }));
    jobs
}

fn far_apart(rng: &mut Rng) -> Vec<Job> {
    let n = rng.one_of(&[2, 5, 20, 64]);
    let mut jobs = Vec::new();
    for _ in 0..n {
        let cost = rng.from_to(1, 600_000 / n);
        let release = rng.from_to(0, 1_000_000 - cost);
        let slack = rng.from_to(0, 1_000_000 - cost - release);
        jobs.push(job(release, cost, rng.one_of(&[slack, slack, 0])));
    }
    jobs
}

fn long_doubling(rng: &mut Rng) -> Vec<Job> {
    let cost = rng.from_to(1, 9);
    let mut jobs = chain(rng, 0, cost, 1_000_000);
    jobs.extend(far_apart(rng));
    jobs
}

/// Long jobs of which the later ones end at the very last tick.
fn long_jobs(rng: &mut Rng) -> Vec<Job> {
    let mut jobs = few(rng);
    for _ in 0..rng.from_to(2, 6) {
        let cost = rng.from_to(100_000, 400_000);
        let release = rng.from_to(0, 1_000_000 - cost);
        let slack = rng.one_of(&[0, 1_000_000 - cost - release]);
        jobs.push(job(release, cost, slack));
    }
    jobs
}

#[cfg(test)]
mod tests {
    use super::*;
    use crate::lists::rng::seed;
    use crate::oracle::run::{run, Outcome, Run, Settled};

    /// What must hold of one row in any run, whatever the rules decide.
    fn sound_row(job: &Job, row: usize, run: &Run) -> bool {
        let settled = run.settled[row];
        let (cost, deadline) = (i64::from(job.cost), i64::from(job.deadline));
        let own = run.stretches.iter().filter(|one| one.row == row);
        let given: i64 = own.clone().map(|one| one.after - one.first).sum();
        let mut in_time = own.map(|one| i64::from(job.release) <= one.first);
        let at_the_end = match settled.outcome {
            Outcome::Finished => given == cost && settled.tick <= deadline,
            Outcome::Dropped => settled.tick == deadline - (cost - given),
        };
        in_time.all(|yes| yes) && at_the_end && settled.given == given
    }

    fn sound(jobs: &[Job], run: &Run) -> bool {
        let apart = run.stretches.windows(2).all(|pair| {
            let (one, next) = (pair[0], pair[1]);
            one.after < next.first || (one.after == next.first && one.row != next.row)
        });
        let mut rows = jobs.iter().enumerate();
        let finished = jobs.iter().zip(&run.settled);
        let value: i64 = finished
            .filter(|(_, settled)| settled.outcome == Outcome::Finished)
            .map(|(job, _)| i64::from(job.cost))
            .sum();
        apart
            && rows.all(|(row, job)| sound_row(job, row, run))
            && value == run.value
            && run.stretches.iter().all(|one| one.first < one.after)
            && run.stretches.len() <= (2 * jobs.len()).saturating_sub(1)
    }

    /// Whether some row has more than three stretches, and whether some row
    /// is dropped after it was given ticks.
    fn reached(run: &Run) -> (bool, bool) {
        let stretches_of = |row| run.stretches.iter().filter(|one| one.row == row).count();
        let many = (0..run.settled.len()).any(|row| stretches_of(row) > 3);
        let lost = |one: &Settled| one.outcome == Outcome::Dropped && one.given > 0;
        (many, run.settled.iter().any(lost))
    }

    #[test]
    fn runs_of_every_shape_are_sound() {
        let shapes = SHAPES.iter().map(|shape| (shape, 2000));
        let sparse = SPARSE_SHAPES.iter().map(|shape| (shape, 2));
        let (mut many, mut lost) = (false, false);
        for ((label, shape), count) in shapes.chain(sparse) {
            for index in 0..count {
                let jobs = list_of(*shape, &mut Rng::for_input(seed(), index));
                let run = run(&jobs);
                assert!(sound(&jobs, &run), "{label} {index}: {jobs:?}");
                many |= reached(&run).0;
                lost |= reached(&run).1;
            }
        }
        assert!(many && lost, "the lists are too tame");
    }
}
