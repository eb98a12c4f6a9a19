// Hands one input to a library function, with buffers of several lengths, and
// compares the answer and every byte lent with what the oracle makes of it.

use crate::ffi::Lent;
use crate::lists::{rng::Rng, to_hex};
use crate::oracle::answer::{into_buffer, Made};

/// How often each number was answered, 0 to 12.
pub type Seen = [u64; 13];

pub struct Function {
    pub name: &'static str,
    pub call: fn(&Lent, &mut Lent) -> u64,
}

impl Function {
    /// Calls with one buffer; panics if anything differs. Gives back the bytes
    /// of the buffer after the call.
    pub fn agrees(&self, input: &[u8], made: &Made, len: usize, rng: &mut Rng) -> (u8, Vec<u8>) {
        let (expected, written) = into_buffer(made, len);
        let lent = Lent::holding(input, rng);
        let mut buffer = Lent::blank(len, rng);
        let answer = (self.call)(&lent, &mut buffer);
        let packed = expected.packed();
        let what = || format!("{} with a buffer of {len} on {}", self.name, shown(input));
        assert!(
            answer == packed,
            "answered {answer:016x} instead of {packed:016x}: {}",
            what()
        );
        assert!(lent.holds(input), "changed its input: {}", what());
        assert!(
            buffer.holds(written),
            "wrong bytes in the buffer: {}",
            what()
        );
        (expected.number, buffer.bytes().to_vec())
    }

    pub fn agrees_for(
        &self,
        input: &[u8],
        made: &Made,
        lens: &[usize],
        rng: &mut Rng,
        seen: &mut Seen,
    ) {
        for &len in lens {
            let (number, _) = self.agrees(input, made, len, rng);
            seen[usize::from(number)] += 1;
        }
    }
}

/// An input in hexadecimal; of a very long one the first bytes will do.
pub fn shown(input: &[u8]) -> String {
    let front = &input[..input.len().min(1000)];
    format!("{} bytes {}", input.len(), to_hex(front))
}

/// The bytes a buffer needs, or some such count for a refused input.
pub fn need(made: &Made, otherwise: usize) -> usize {
    made.as_ref().map_or(otherwise, |(bytes, _)| bytes.len())
}

/// Exact, one short, one more, zero, much larger, and any shorter one.
pub fn lengths(need: usize, rng: &mut Rng) -> [usize; 6] {
    let larger = if rng.once_in(500) { 65_536 } else { need };
    [
        need,
        need.saturating_sub(1),
        need + 1,
        0,
        larger + 20 + rng.place(1000),
        rng.place(need + 1),
    ]
}

/// Panics unless each of these numbers was answered at least once.
pub fn all_seen(name: &str, numbers: &[u8], seen: &Seen) {
    println!("{name} answered each number 0 to 12 so often: {seen:?}");
    for &number in numbers {
        let times = seen[usize::from(number)];
        assert!(times > 0, "{name} never answered {number}");
    }
}
