//! One call made on both sides: the answers, the lent memory and the inputs
//! are compared byte for byte.

use std::fmt::Debug;

use crate::command::hex;
use crate::memory::{Given, Lent};

/// A call of the proved library and its arguments.
pub struct Call<'a> {
    pub name: &'a str,
    /// The arguments that are numbers, for the report.
    pub numbers: &'a dyn Debug,
    pub inputs: &'a [(&'a str, &'a Given)],
    /// The memory lent, as both sides find it.
    pub lent: &'a Lent,
}

impl Call<'_> {
    /// Makes the call on both sides. `counted` gives the lent bytes that an
    /// answer counts as written. Gives the answer and the memory afterwards.
    pub fn compare<T: PartialEq + Debug + Copy>(
        &self,
        proved: impl FnOnce(&mut [u8]) -> T,
        second: impl FnOnce(&mut [u8]) -> T,
        counted: impl FnOnce(T) -> usize,
    ) -> Result<(T, Lent), String> {
        let (mut by_proved, mut by_second) = (self.lent.clone(), self.lent.clone());
        let proved = proved(by_proved.bytes_mut());
        let second = second(by_second.bytes_mut());
        let wrong = if proved != second {
            "answers"
        } else if by_proved != by_second {
            "memory"
        } else if !by_proved.same_after(self.lent, counted(second)) {
            "memory after what is counted"
        } else if !self.inputs.iter().all(|(_, input)| input.is_untouched()) {
            "an input written to"
        } else {
            return Ok((second, by_proved));
        };
        let what = format!("{wrong}: proved {proved:?}, second {second:?}");
        let memory =
            [("memory by proved", by_proved.bytes()), ("memory by second", by_second.bytes())];
        Err(self.report(&what, &memory))
    }

    /// The text of a report: the call, what is wrong, and all bytes.
    pub fn report(&self, what: &str, memory: &[(&str, &[u8])]) -> String {
        let mut text = format!("{} {:?}, {what}\n", self.name, self.numbers);
        let inputs = self.inputs.iter().map(|(name, input)| (*name, input.original()));
        let before = [("memory before", self.lent.bytes())];
        for (name, bytes) in inputs.chain(before).chain(memory.iter().copied()) {
            text.push_str(&format!("{name}, {} bytes\n{}", bytes.len(), hex(bytes)));
        }
        text
    }
}

#[cfg(test)]
mod tests {
    use super::*;
    use crate::random::Random;

    /// Compares two sides that write `count` bytes of 7 and answer so.
    fn outcome(proved: fn(&mut [u8]) -> u32) -> Result<u32, String> {
        let second = |lent: &mut [u8]| {
            lent[..2].fill(7);
            2
        };
        let mut random = Random::new(22);
        let (input, lent) = (Given::new(&mut random, &[1, 2]), Lent::new(&mut random, 3));
        let call =
            Call { name: "call", numbers: &(5, 6), inputs: &[("input", &input)], lent: &lent };
        call.compare(proved, second, |count| count as usize).map(|(answer, _)| answer)
    }

    #[test]
    fn agreement() {
        let agreed = outcome(|lent| {
            lent[..2].fill(7);
            2
        });
        assert_eq!(agreed, Ok(2));
    }

    #[test]
    fn differences_are_named() {
        let wrong = |proved| outcome(proved).unwrap_err().lines().next().unwrap().to_string();
        let answers = wrong(|lent| {
            lent[..2].fill(7);
            3
        });
        assert_eq!(answers, "call (5, 6), answers: proved 3, second 2");
        assert_eq!(wrong(|_| 2), "call (5, 6), memory: proved 2, second 2");
        let more = wrong(|lent| {
            lent[..2].fill(7);
            lent[2] ^= 1;
            2
        });
        assert_eq!(more, "call (5, 6), memory: proved 2, second 2");
    }

    #[test]
    fn both_writing_too_much_is_seen() {
        let lent = Lent::new(&mut Random::new(23), 3);
        let call = Call { name: "call", numbers: &(), inputs: &[], lent: &lent };
        let fill = |lent: &mut [u8]| lent.iter_mut().for_each(|byte| *byte ^= 1);
        assert!(call.compare(fill, fill, |()| 3).is_ok());
        assert!(call.compare(fill, fill, |()| 2).is_err());
    }
}
