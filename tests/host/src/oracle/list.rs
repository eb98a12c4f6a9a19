// List images and raw rows: tests 1 to 11 in their order, and the bytes the
// reader and the writer make of what they accept.

use super::answer::{Answer, Made};

const HEAD: usize = 7;
pub const ROW: usize = 14;
pub const MOST_ROWS: usize = 64;
const LAST_DEADLINE: u32 = 1_000_000;

#[derive(Clone, Copy, Debug, PartialEq, Eq)]
pub struct Job {
    pub name: u16,
    pub release: u32,
    pub cost: u32,
    pub deadline: u32,
}

impl Job {
    fn from_row(row: &[u8]) -> Job {
        Job {
            name: number_at(row, 0, 2) as u16,
            release: number_at(row, 2, 4),
            cost: number_at(row, 6, 4),
            deadline: number_at(row, 10, 4),
        }
    }
}

/// The number in `count` bytes from `place` on, highest byte first.
fn number_at(bytes: &[u8], place: usize, count: usize) -> u32 {
    bytes[place..place + count]
        .iter()
        .fold(0, |number, &byte| number * 256 + u32::from(byte))
}

/// Raw rows of these jobs, good or bad.
pub fn rows_of(jobs: &[Job]) -> Vec<u8> {
    let mut rows = Vec::new();
    for job in jobs {
        rows.extend(job.name.to_be_bytes());
        rows.extend(job.release.to_be_bytes());
        rows.extend(job.cost.to_be_bytes());
        rows.extend(job.deadline.to_be_bytes());
    }
    rows
}

/// The image with these rows, good or bad.
pub fn image_of(rows: &[u8]) -> Vec<u8> {
    let mut image = Vec::new();
    image.extend((3 + rows.len() as u32).to_be_bytes());
    image.push(1);
    image.extend(((rows.len() / ROW) as u16).to_be_bytes());
    image.extend(rows);
    image
}

/// The jobs of an accepted list image, or its refusal.
pub fn jobs_of(list: &[u8]) -> Result<Vec<Job>, Answer> {
    if list.len() < HEAD {
        return Err(Answer::refused(1, 0));
    }
    let first_field = number_at(list, 0, 4) as usize;
    if first_field != list.len() - 4 {
        return Err(Answer::refused(2, 0));
    }
    if list[4] != 1 {
        return Err(Answer::refused(3, 0));
    }
    let n = number_at(list, 5, 2) as usize;
    if n > MOST_ROWS {
        return Err(Answer::refused(4, 0));
    }
    if first_field != 3 + ROW * n {
        return Err(Answer::refused(5, 0));
    }
    judged(&list[HEAD..])
}

/// Rows from first to last, tests 6 to 11 within each.
fn judged(rows: &[u8]) -> Result<Vec<Job>, Answer> {
    let mut jobs: Vec<Job> = Vec::new();
    for row in rows.chunks_exact(ROW) {
        let job = Job::from_row(row);
        if let Some(number) = fault(job, &jobs) {
            return Err(Answer::refused(number, jobs.len() + 1));
        }
        jobs.push(job);
    }
    Ok(jobs)
}

fn fault(job: Job, earlier: &[Job]) -> Option<u8> {
    if job.name == 0 {
        return Some(6);
    }
    if earlier.iter().any(|other| other.name == job.name) {
        return Some(7);
    }
    if job.cost == 0 {
        return Some(8);
    }
    if job.deadline > LAST_DEADLINE {
        return Some(9);
    }
    // A release may lie anywhere up to 2^32 - 1, so it is compared before
    // anything is taken from the deadline.
    if job.deadline < job.release || job.deadline - job.release < job.cost {
        return Some(10);
    }
    if earlier.last().is_some_and(|one| job.release < one.release) {
        return Some(11);
    }
    None
}

pub fn check(list: &[u8]) -> Answer {
    match jobs_of(list) {
        Ok(_) => Answer::accepted(0, 0),
        Err(refusal) => refusal,
    }
}

pub fn read(list: &[u8]) -> Made {
    jobs_of(list)?;
    Ok((list[HEAD..].to_vec(), 0))
}

pub fn write(rows: &[u8]) -> Made {
    let n = rows.len() / ROW;
    if n > MOST_ROWS {
        return Err(Answer::refused(4, 0));
    }
    if rows.len() != ROW * n {
        return Err(Answer::refused(5, 0));
    }
    judged(rows)?;
    Ok((image_of(rows), 0))
}

#[cfg(test)]
mod tests {
    use super::*;
    use crate::lists::edges::{list_edges, row_edges};

    #[test]
    fn edges_written_out_by_hand() {
        for (label, list, number, row) in list_edges() {
            let expected = Answer::refused(number, row);
            assert_eq!(check(&list), expected, "{label}");
        }
        for (label, rows, number, row) in row_edges() {
            let answer = write(&rows).err().unwrap_or(Answer::refused(0, 0));
            assert_eq!(answer, Answer::refused(number, row), "{label}");
        }
    }
}
