// The answer of a call, its packed form, and test 12, which comes last in
// every call that writes. Also the kind the host's log gives to a number.

#[derive(Clone, Copy, Debug, PartialEq, Eq)]
pub struct Answer {
    pub number: u8,
    pub row: u16,
    pub size: u16,
    pub value: u32,
}

/// The bytes a call writes and the value it answers, or a refusal by tests 1 to 11.
pub type Made = Result<(Vec<u8>, u32), Answer>;

impl Answer {
    pub fn refused(number: u8, row: usize) -> Answer {
        Answer {
            number,
            row: u16::try_from(row).expect("a row is at most 64"),
            size: 0,
            value: 0,
        }
    }

    pub fn accepted(size: usize, value: u32) -> Answer {
        Answer {
            number: 0,
            row: 0,
            size: u16::try_from(size).expect("an image has less than 65,536 bytes"),
            value,
        }
    }

    /// number × 2^56 + row × 2^40 + size × 2^24 + value
    pub fn packed(self) -> u64 {
        assert!(self.value < 1 << 24, "a value has 24 bits");
        u64::from(self.number) * (1 << 56)
            + u64::from(self.row) * (1 << 40)
            + u64::from(self.size) * (1 << 24)
            + u64::from(self.value)
    }
}

/// The answer of a call that is lent a buffer of `len` bytes, and the bytes it
/// puts at the buffer's front. Every other byte keeps what it held.
pub fn into_buffer(made: &Made, len: usize) -> (Answer, &[u8]) {
    match made {
        Err(refusal) => (*refusal, &[]),
        Ok((bytes, _)) if len < bytes.len() => (Answer::refused(12, 0), &[]),
        Ok((bytes, value)) => (Answer::accepted(bytes.len(), *value), bytes),
    }
}

pub fn kind(number: u8) -> u8 {
    if number == 0 || number > 12 {
        0
    } else if number <= 5 {
        1
    } else if number <= 11 {
        2
    } else {
        3
    }
}

#[cfg(test)]
mod tests {
    use super::*;

    #[test]
    fn the_answer_is_packed_field_by_field() {
        assert_eq!(Answer::refused(11, 64).packed(), 0x0b00_4000_0000_0000);
        assert_eq!(Answer::accepted(903, 17).packed(), 0x0000_0003_8700_0011);
    }

    #[test]
    fn kinds_of_all_numbers() {
        let first = [0, 1, 1, 1, 1, 1, 2, 2, 2, 2, 2, 2, 3];
        for number in 0..=255 {
            let expected = first.get(usize::from(number)).copied().unwrap_or(0);
            assert_eq!(kind(number), expected, "kind of {number}");
        }
    }
}
