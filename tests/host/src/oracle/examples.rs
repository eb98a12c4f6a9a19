// Runs whose result images were written out by hand: R0 to R11 from document
// 01's table, a run in which "once only" is visible, and the report's Example
// 3.1 (its jobs are named by their deadlines). Nothing here is computed.

pub struct Example {
    pub run: &'static str,
    /// name:release/cost/deadline of each row
    pub jobs: &'static str,
    pub value: u32,
    pub result: &'static str,
}

pub const EXAMPLES: &[Example] = &[
    Example {
        run: "R0",
        jobs: "",
        value: 0,
        result: "00000009 01 0000 0000 00000000",
    },
    Example {
        run: "R1",
        jobs: "1:0/4/10 2:1/2/5",
        value: 6,
        result: "0000003D 01 0002 0003 00000006 \
            0001 01 00000006 00000004 \
            0002 01 00000003 00000002 \
            0001 00000000 00000001 \
            0002 00000001 00000003 \
            0001 00000003 00000006",
    },
    Example {
        run: "R2",
        jobs: "1:0/4/10 2:1/6/9",
        value: 10,
        result: "0000003D 01 0002 0003 0000000A \
            0001 01 0000000A 00000004 \
            0002 01 00000007 00000006 \
            0001 00000000 00000001 \
            0002 00000001 00000007 \
            0001 00000007 0000000A",
    },
    Example {
        run: "R3",
        jobs: "1:0/4/10 2:1/7/9",
        value: 4,
        result: "00000029 01 0002 0001 00000004 \
            0001 01 00000004 00000004 \
            0002 02 00000002 00000000 \
            0001 00000000 00000004",
    },
    Example {
        run: "R4",
        jobs: "1:0/2/4 2:0/5/6",
        value: 5,
        result: "00000033 01 0002 0002 00000005 \
            0001 02 00000003 00000001 \
            0002 01 00000006 00000005 \
            0001 00000000 00000001 \
            0002 00000001 00000006",
    },
    Example {
        run: "R5",
        jobs: "1:0/2/4 2:0/4/5",
        value: 2,
        result: "00000029 01 0002 0001 00000002 \
            0001 01 00000002 00000002 \
            0002 02 00000001 00000000 \
            0001 00000000 00000002",
    },
    Example {
        run: "R6",
        jobs: "1:0/3/8 2:1/2/8",
        value: 5,
        result: "00000033 01 0002 0002 00000005 \
            0001 01 00000003 00000003 \
            0002 01 00000005 00000002 \
            0001 00000000 00000003 \
            0002 00000003 00000005",
    },
    Example {
        run: "R7",
        jobs: "1:0/3/3 2:0/2/5",
        value: 5,
        result: "00000033 01 0002 0002 00000005 \
            0001 01 00000003 00000003 \
            0002 01 00000005 00000002 \
            0001 00000000 00000003 \
            0002 00000003 00000005",
    },
    Example {
        run: "R8",
        jobs: "1:0/10/30 2:1/3/8 3:2/2/9",
        value: 15,
        result: "00000052 01 0003 0004 0000000F \
            0001 01 0000000F 0000000A \
            0002 01 00000004 00000003 \
            0003 01 00000006 00000002 \
            0001 00000000 00000001 \
            0002 00000001 00000004 \
            0003 00000004 00000006 \
            0001 00000006 0000000F",
    },
    Example {
        run: "R9",
        jobs: "1:0/4/20 2:1/2/10 3:1/11/13",
        value: 6,
        result: "00000048 01 0003 0003 00000006 \
            0001 01 00000006 00000004 \
            0002 01 00000003 00000002 \
            0003 02 00000002 00000000 \
            0001 00000000 00000001 \
            0002 00000001 00000003 \
            0001 00000003 00000006",
    },
    Example {
        run: "R10",
        jobs: "1:0/4/20 2:1/2/10 3:1/13/15",
        value: 17,
        result: "00000052 01 0003 0004 00000011 \
            0001 01 00000012 00000004 \
            0002 02 00000009 00000001 \
            0003 01 0000000F 0000000D \
            0001 00000000 00000001 \
            0002 00000001 00000002 \
            0003 00000002 0000000F \
            0001 0000000F 00000012",
    },
    Example {
        run: "R11",
        jobs: "1:0/2/3 2:0/5/6 3:0/11/12",
        value: 11,
        result: "0000003E 01 0003 0002 0000000B \
            0001 02 00000002 00000001 \
            0002 02 00000001 00000000 \
            0003 01 0000000C 0000000B \
            0001 00000000 00000001 \
            0003 00000001 0000000C",
    },
    Example {
        run: "once only",
        jobs: "1:0/2/4 2:0/1/1 3:0/2/3 4:0/1/3",
        value: 3,
        result: "00000049 01 0004 0002 00000003 \
            0001 01 00000003 00000002 \
            0002 01 00000001 00000001 \
            0003 02 00000001 00000000 \
            0004 02 00000002 00000000 \
            0002 00000000 00000001 \
            0001 00000001 00000003",
    },
    Example {
        run: "Example 3.1",
        jobs: "20:0/6/20 34:1/26/34 24:1/20/24 18:2/5/18 17:3/2/17 5:4/1/5",
        value: 29,
        result: "00000091 01 0006 0007 0000001D \
            0014 02 00000010 00000002 \
            0022 01 00000022 0000001A \
            0018 02 00000004 00000000 \
            0012 02 00000010 00000003 \
            0011 01 00000006 00000002 \
            0005 01 00000005 00000001 \
            0014 00000000 00000002 \
            0012 00000002 00000003 \
            0011 00000003 00000004 \
            0005 00000004 00000005 \
            0011 00000005 00000006 \
            0012 00000006 00000008 \
            0022 00000008 00000022",
    },
];

/// R10's list image and the text skyrun prints for it.
pub const R10_LIST: &str = "0000002D 01 0003 \
    0001 00000000 00000004 00000014 \
    0002 00000001 00000002 0000000A \
    0003 00000001 0000000D 0000000F";
pub const R10_LINES: &str = "\
JOBS 3 VALUE 17
DONE 1 18 4
DROP 2 9 1
DONE 3 15 13
RUN 1 0 1
RUN 2 1 2
RUN 3 2 15
RUN 1 15 18
";

#[cfg(test)]
mod tests {
    use super::*;
    use crate::lists::{from_hex, image_from_text};
    use crate::oracle::{lines::lines, result::result};

    #[test]
    fn the_oracle_gives_the_results_written_by_hand() {
        for example in EXAMPLES {
            let (image, value) = result(&image_from_text(example.jobs)).unwrap();
            assert_eq!(image, from_hex(example.result), "{}", example.run);
            assert_eq!(value, example.value, "{}", example.run);
        }
    }

    #[test]
    fn the_oracle_prints_the_lines_of_r10() {
        let list = from_hex(R10_LIST);
        assert_eq!(list, image_from_text("1:0/4/20 2:1/2/10 3:1/13/15"));
        assert_eq!(lines(&list).as_bytes(), R10_LINES.as_bytes());
    }

    #[test]
    fn the_oracle_prints_one_line_for_a_refusal() {
        assert_eq!(lines(b""), "REFUSED 1 0\n");
        assert_eq!(lines(&image_from_text("7:0/1/1 7:0/1/1")), "REFUSED 7 2\n");
        // Only the first 904 of these 917 bytes are judged.
        assert_eq!(
            lines(&image_from_text(&"1:0/1/1 ".repeat(65))),
            "REFUSED 2 0\n"
        );
        assert_eq!(lines(&image_from_text("")), "JOBS 0 VALUE 0\n");
    }
}
