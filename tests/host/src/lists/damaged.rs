// Lists with one fault or several at once: rows that break a rule, images
// whose bytes do not fit together, and bytes that are no list at all.

use super::rng::Rng;
use super::valid::{valid, valid_rows};
use crate::oracle::list::{image_of, rows_of, Job, ROW};

/// A list image of any sort, good ones among them.
pub fn any_image(rng: &mut Rng) -> Vec<u8> {
    match rng.below(20) {
        0 => random_image(rng),
        1 => {
            let mut image = image_of(&rows_of(&overfull(rng)));
            if rng.once_in(2) {
                spoil_image(rng, &mut image);
            }
            image
        }
        2..=10 => image_of(&rows_of(&valid(rng))),
        _ => {
            let jobs = valid(rng);
            damaged_image(rng, jobs)
        }
    }
}

/// The image of these good jobs with faults in rows, in the head, or in both.
pub fn damaged_image(rng: &mut Rng, mut jobs: Vec<Job>) -> Vec<u8> {
    let place = rng.below(7);
    if place <= 3 {
        spoil_rows(rng, &mut jobs);
    }
    let mut image = image_of(&rows_of(&jobs));
    if place >= 3 {
        for _ in 0..rng.from_to(1, 2) {
            spoil_image(rng, &mut image);
        }
    }
    image
}

/// Raw rows of any sort, good ones among them.
pub fn any_rows(rng: &mut Rng) -> Vec<u8> {
    let mut rows = match rng.below(20) {
        0 => return random_bytes(rng, 80),
        1..=8 => return rows_of(&valid(rng)),
        9..=14 => {
            let mut jobs = valid(rng);
            spoil_rows(rng, &mut jobs);
            return rows_of(&jobs);
        }
        15 => rows_of(&overfull(rng)),
        _ => rows_of(&valid(rng)),
    };
    match rng.below(3) {
        0 => flip(rng, &mut rows),
        1 => rows.extend(random_bytes(rng, ROW as u32)),
        _ => cut(rng, &mut rows),
    }
    rows
}

fn overfull(rng: &mut Rng) -> Vec<Job> {
    let more = rng.from_to(66, 400);
    let n = rng.one_of(&[65, 65, 66, 128, 256, 257, 320, more]);
    valid_rows(rng, n as usize)
}

/// One to three faults, in any rows there are.
fn spoil_rows(rng: &mut Rng, jobs: &mut [Job]) {
    for _ in 0..rng.from_to(1, 3) {
        if !jobs.is_empty() {
            spoil_row(rng, jobs);
        }
    }
}

fn spoil_row(rng: &mut Rng, jobs: &mut [Job]) {
    let row = rng.place(jobs.len());
    let earlier = jobs[rng.place(row + 1)];
    let before = jobs[row.saturating_sub(1)];
    let job = &mut jobs[row];
    let huge = u32::MAX - rng.below(3);
    match rng.below(12) {
        0 => job.name = 0,
        1 => job.name = earlier.name,
        2 => job.name = before.name,
        3 => job.cost = 0,
        4 => job.deadline = rng.one_of(&[1_000_001, 1_000_002, 1 << 24, huge]),
        5 => job.deadline = job.release.wrapping_add(job.cost).saturating_sub(1),
        6 => job.deadline = rng.below(job.release.saturating_add(1)),
        7 => job.release = before.release.saturating_sub(rng.from_to(1, 2)),
        8 => job.release = rng.below(before.release.saturating_add(1)),
        9 => job.release = huge,
        10 => job.cost = rng.one_of(&[huge, (1 << 31) + job.cost % 1000]),
        _ => wrap(rng, job),
    }
}

/// A job that would seem to have time enough if a number went round 2^32.
fn wrap(rng: &mut Rng, job: &mut Job) {
    job.deadline = rng.from_to(0, 1000);
    if rng.once_in(2) {
        job.release = u32::MAX - rng.below(5);
        job.cost = rng.from_to(1, 8);
    } else {
        job.release = rng.from_to(1, 1000);
        job.cost = u32::MAX - rng.below(job.release);
    }
}

fn spoil_image(rng: &mut Rng, image: &mut Vec<u8>) {
    match rng.below(10) {
        0 => image.truncate(rng.place(7)),
        1 => spoil_first_field(rng, image),
        2 => set(image, 4, rng.one_of(&[0, 2, 3, 129, 255])),
        3 => set(image, 6, rng.below(256) as u8),
        4 => set(image, 5, rng.one_of(&[1, 2, 128, 255])),
        5 => set(image, 6, rng.one_of(&[63, 64, 65, 66])),
        6 => image.extend(random_bytes(rng, 30)),
        7 => {
            image.extend(random_bytes(rng, 30));
            mend_first_field(image);
        }
        8 => {
            cut(rng, image);
            if rng.once_in(2) {
                mend_first_field(image);
            }
        }
        _ => flip(rng, image),
    }
}

fn set(image: &mut [u8], place: usize, byte: u8) {
    if let Some(old) = image.get_mut(place) {
        *old = byte;
    }
}

fn spoil_first_field(rng: &mut Rng, image: &mut [u8]) {
    let by = rng.one_of(&[1, 4, 14, 256, 1 << 16, 1 << 24, u32::MAX, u32::MAX - 3]);
    if let Some(field) = image.first_chunk_mut::<4>() {
        *field = u32::from_be_bytes(*field).wrapping_add(by).to_be_bytes();
    }
}

/// Makes the first field fit the length, so that a later test is reached.
fn mend_first_field(image: &mut [u8]) {
    let after = image.len().saturating_sub(4) as u32;
    if let Some(field) = image.first_chunk_mut::<4>() {
        *field = after.to_be_bytes();
    }
}

fn cut(rng: &mut Rng, bytes: &mut Vec<u8>) {
    let by = rng.one_of(&[1, 2, 13, 14, 15, 28]);
    bytes.truncate(bytes.len().saturating_sub(by));
}

/// One flipped bit, or one other byte.
fn flip(rng: &mut Rng, bytes: &mut [u8]) {
    if bytes.is_empty() {
        return;
    }
    let place = rng.place(bytes.len());
    let bit = 1 << rng.below(8);
    let byte = rng.from_to(1, 255) as u8;
    bytes[place] ^= rng.one_of(&[bit, byte]);
}

fn random_bytes(rng: &mut Rng, most: u32) -> Vec<u8> {
    let mut bytes = vec![0; rng.from_to(0, most) as usize];
    rng.fill(&mut bytes);
    bytes
}

/// Random bytes, some under a head that fits them.
fn random_image(rng: &mut Rng) -> Vec<u8> {
    let bytes = random_bytes(rng, 80);
    if rng.once_in(2) {
        image_of(&bytes)
    } else {
        bytes
    }
}
