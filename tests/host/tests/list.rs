// Compares sky_check, sky_read, sky_write and sky_kind with the oracle.
// SKY_LISTS sets how many inputs are compared, SKY_SEED which ones.

use sky_host_tests::agree::{all_seen, lengths, need, shown, Function, Seen};
use sky_host_tests::ffi::{self, Lent};
use sky_host_tests::lists::damaged::{any_image, any_rows};
use sky_host_tests::lists::edges::{list_edges, row_edges};
use sky_host_tests::lists::rng::{seed, setting, Rng};
use sky_host_tests::oracle::answer::{into_buffer, kind, Answer};
use sky_host_tests::oracle::list;

const READ: Function = Function {
    name: "sky_read",
    call: ffi::read,
};
const WRITE: Function = Function {
    name: "sky_write",
    call: ffi::write,
};

fn check_agrees(image: &[u8], expected: Answer, rng: &mut Rng) {
    let lent = Lent::holding(image, rng);
    let answer = ffi::check(&lent);
    let packed = expected.packed();
    let what = || format!("sky_check on {}", shown(image));
    assert!(
        answer == packed,
        "answered {answer:016x} instead of {packed:016x}: {}",
        what()
    );
    assert!(lent.holds(image), "changed its input: {}", what());
}

/// One image to check and read; what is accepted is written back.
fn image_agrees(image: &[u8], rng: &mut Rng, checked: &mut Seen, read: &mut Seen) {
    let answer = list::check(image);
    check_agrees(image, answer, rng);
    checked[usize::from(answer.number)] += 1;
    let made = list::read(image);
    let lens = lengths(need(&made, image.len()), rng);
    READ.agrees_for(image, &made, &lens, rng, read);
    if let Ok((rows, _)) = &made {
        let (_, rows) = READ.agrees(image, &made, rows.len(), rng);
        let (_, again) = WRITE.agrees(&rows, &list::write(&rows), image.len(), rng);
        assert!(again == image, "written back: {}", shown(image));
    }
}

/// Raw rows to write; what is accepted is checked and read back.
fn rows_agree(rows: &[u8], rng: &mut Rng, written: &mut Seen) {
    let made = list::write(rows);
    let lens = lengths(need(&made, rows.len() + 7), rng);
    WRITE.agrees_for(rows, &made, &lens, rng, written);
    if let Ok((image, _)) = &made {
        let (_, image) = WRITE.agrees(rows, &made, image.len(), rng);
        check_agrees(&image, Answer::accepted(0, 0), rng);
        let (_, again) = READ.agrees(&image, &list::read(&image), rows.len(), rng);
        assert!(again == rows, "read back: {}", shown(rows));
    }
}

#[test]
fn random_images() {
    let count = setting("SKY_LISTS", 400_000) / 2;
    println!("{count} images of seed {}", seed());
    let (mut checked, mut read) = ([0; 13], [0; 13]);
    for index in 0..count {
        let mut rng = Rng::for_input(seed(), index);
        let image = any_image(&mut rng);
        image_agrees(&image, &mut rng, &mut checked, &mut read);
    }
    all_seen(
        "sky_check",
        &[0, 1, 2, 3, 4, 5, 6, 7, 8, 9, 10, 11],
        &checked,
    );
    all_seen(
        "sky_read",
        &[0, 1, 2, 3, 4, 5, 6, 7, 8, 9, 10, 11, 12],
        &read,
    );
}

#[test]
fn random_rows() {
    let count = setting("SKY_LISTS", 400_000) / 2;
    println!("{count} raw rows of seed {}", seed());
    let mut written = [0; 13];
    for index in 0..count {
        let mut rng = Rng::for_input(!seed(), index);
        let rows = any_rows(&mut rng);
        rows_agree(&rows, &mut rng, &mut written);
    }
    all_seen("sky_write", &[0, 4, 5, 6, 7, 8, 9, 10, 11, 12], &written);
}

/// The answers here come from the edges' own table, not from the oracle.
#[test]
fn edges() {
    let mut rng = Rng::for_input(seed(), 0);
    for (label, image, number, row) in list_edges() {
        println!("image {label}");
        check_agrees(&image, Answer::refused(number, row), &mut rng);
        image_agrees(&image, &mut rng, &mut [0; 13], &mut [0; 13]);
    }
    for (label, rows, number, row) in row_edges() {
        println!("rows {label}");
        let made = list::write(&rows);
        let (by_oracle, _) = into_buffer(&made, rows.len() + 7);
        assert_eq!((by_oracle.number, by_oracle.row), (number, row as u16));
        rows_agree(&rows, &mut rng, &mut [0; 13]);
    }
}

/// Lengths 0 to 6, every cut, and one more byte, of a list with 64 rows.
#[test]
fn every_length_of_a_full_list() {
    let mut rng = Rng::for_input(seed(), 1);
    let (_, mut image, _, _) = list_edges()
        .into_iter()
        .find(|(label, ..)| label == "64 rows")
        .unwrap();
    image.push(0);
    for len in 0..=image.len() {
        image_agrees(&image[..len], &mut rng, &mut [0; 13], &mut [0; 13]);
        let rows = image.get(7..len).unwrap_or(&[]);
        rows_agree(rows, &mut rng, &mut [0; 13]);
    }
}

#[test]
fn kinds() {
    for number in 0..=255 {
        assert_eq!(ffi::kind(number), kind(number), "the kind of {number}");
    }
}
