// Edges with their answers written out by hand: each gives a label, the bytes,
// and the number and row of the refusal (0 and 0 if accepted).

use super::{image_from_text, jobs_from_text};
use crate::oracle::list::{image_of, rows_of, ROW};

pub type Edge = (String, Vec<u8>, u8, usize);

/// Rows that meet the image reader and the row writer alike.
const ROWS: &[(&str, u8, usize)] = &[
    ("", 0, 0),
    ("1:0/1/1", 0, 0),
    ("65535:0/1/1", 0, 0),
    ("1:0/1/0", 10, 1),
    ("1:0/1/1000000", 0, 0),
    ("1:0/1000000/1000000", 0, 0),
    ("1:999999/1/1000000", 0, 0),
    ("1:0/1/1000001", 9, 1),
    ("1:5/1/6 2:5/1/6", 0, 0),
    ("0:0/1/1", 6, 1),
    ("1:0/1/1 0:0/1/1", 6, 2),
    ("9:0/1/1 9:0/1/1", 7, 2),
    ("9:0/1/1 8:0/1/1 9:0/1/1", 7, 3),
    ("256:0/1/1 1:0/1/1 257:0/1/1", 0, 0),
    ("1:0/0/1", 8, 1),
    ("1:3/2/4", 10, 1),
    ("1:3/1/2", 10, 1),
    ("1:3/1/3", 10, 1),
    ("1:1/1/2 2:0/1/2", 11, 2),
    ("1:0/1/9 2:7/1/9 3:6/1/9", 11, 3),
    ("1:5/1/9 2:7/1/9 3:5/1/9", 11, 3),
    // Numbers near 2^32 go round nowhere.
    ("1:4294967295/1/0", 10, 1),
    ("1:4294967295/2/1", 10, 1),
    ("1:4294967295/1/1000000", 10, 1),
    ("1:1/4294967295/0", 10, 1),
    ("1:1/4294967295/1", 10, 1),
    ("1:0/4294967295/1000000", 10, 1),
    ("1:2147483648/2147483648/0", 10, 1),
    ("1:0/1/4294967295", 9, 1),
    ("1:4294967295/4294967295/4294967295", 9, 1),
    // A row that breaks all rules from one on is refused by the lowest.
    ("5:9/1/10 0:8/0/1000001", 6, 2),
    ("5:9/1/10 5:8/0/1000001", 7, 2),
    ("5:9/1/10 6:8/0/1000001", 8, 2),
    ("5:9/1/10 6:8/2000000/1000001", 9, 2),
    ("5:9/1/10 6:8/3/10", 10, 2),
    ("5:9/1/10 6:8/2/10", 11, 2),
    // An earlier row's fault comes before a later row's lower number.
    ("1:2/1/3 2:1/1/3 0:0/1/1", 11, 2),
];

/// Images with their head in order or out of it: bytes in hexadecimal.
const HEADS: &[(&str, u8)] = &[
    ("", 1),
    ("00", 1),
    ("0000", 1),
    ("000000", 1),
    ("00000000", 1),
    ("00000001 01", 1),
    ("00000002 01 00", 1),
    ("00000003 01 0000", 0),
    ("00000002 01 0000", 2),
    ("00000004 01 0000", 2),
    ("00000007 01 0000", 2),
    ("01000003 01 0000", 2),
    ("00000004 01 0000 00", 5),
    ("00000003 01 0000 00", 2),
    ("00000004 00 0041 00", 3),
    ("00000002 00 0041", 2),
    ("00000003 02 0000", 3),
    ("00000003 01 0041", 4),
    ("00000003 01 0100", 4),
    ("00000003 01 FFFF", 4),
    ("00000003 01 0040", 5),
    ("00000003 01 0001", 5),
    ("00000010 01 0001 0000 00000000 00000000 000000", 5),
    ("00000012 01 0001 0000 00000000 00000000 00000000 00", 5),
];

/// `n` rows without a fault, then rows of zeros or a rest of `rest` bytes.
fn good_rows(n: usize, rest: usize) -> Vec<u8> {
    let text: Vec<String> = (1..=n).map(|name| format!("{name}:0/1/1")).collect();
    let mut rows = rows_of(&jobs_from_text(&text.join(" ")));
    rows.resize(n * ROW + rest, 0);
    rows
}

/// Edges of the image: for sky_check, sky_read and sky_run.
pub fn list_edges() -> Vec<Edge> {
    let mut edges: Vec<Edge> = Vec::new();
    for &(text, number, row) in ROWS {
        edges.push((text.into(), image_from_text(text), number, row));
    }
    for &(hex, number) in HEADS {
        edges.push((hex.into(), super::from_hex(hex), number, 0));
    }
    for (n, number) in [(63, 0), (64, 0), (65, 4), (66, 4), (320, 4), (5000, 4)] {
        edges.push((format!("{n} rows"), image_of(&good_rows(n, 0)), number, 0));
    }
    for (n, number) in [(64, 5), (65, 4)] {
        let image = image_of(&good_rows(n, 1));
        edges.push((format!("{n} rows and a rest"), image, number, 0));
    }
    edges
}

/// Edges of raw rows, for sky_write: n comes from the length alone.
pub fn row_edges() -> Vec<Edge> {
    let mut edges: Vec<Edge> = Vec::new();
    for &(text, number, row) in ROWS {
        edges.push((text.into(), rows_of(&jobs_from_text(text)), number, row));
    }
    for (n, rest, number) in [
        (0, 1, 5),
        (0, 13, 5),
        (1, 1, 5),
        (1, 13, 5),
        (63, 0, 0),
        (64, 0, 0),
        (64, 1, 5),
        (64, 13, 5),
        (65, 0, 4),
        (65, 1, 4),
        (65, 13, 4),
        (320, 7, 4),
        // n here is 2^16, and 2^16 + 1 with a rest.
        (0, 65_536 * ROW, 4),
        (1, 65_536 * ROW + 1, 4),
    ] {
        let label = format!("{n} rows, then {rest} bytes");
        edges.push((label, good_rows(n, rest), number, 0));
    }
    let mut rest_after_fault = rows_of(&jobs_from_text("0:0/0/0"));
    rest_after_fault.push(0);
    edges.push(("a fault and a rest".into(), rest_after_fault, 5, 0));
    edges
}
