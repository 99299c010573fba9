//! Bits of bytes, the most significant of each byte first.

use crate::refusal::MAP_END;

pub struct BitReader<'a> {
    /// What has not come into the window yet.
    rest: &'a [u8],
    /// The next bits, the first of them on top, and zeros after them.
    window: u64,
    /// How many bits of the window are there.
    held: u32,
    used: u32,
}

impl<'a> BitReader<'a> {
    pub fn new(bytes: &'a [u8]) -> BitReader<'a> {
        BitReader { rest: bytes, window: 0, held: 0, used: 0 }
    }

    /// The bits taken so far.
    pub fn used(&self) -> u32 {
        self.used
    }

    fn fill(&mut self) {
        while self.held <= 64 - 8 {
            let Some((&byte, rest)) = self.rest.split_first() else {
                return;
            };
            self.window |= u64::from(byte) << (64 - 8 - self.held);
            self.held += 8;
            self.rest = rest;
        }
    }

    /// The next bits, one at least, as a number.
    #[inline]
    pub fn take(&mut self, count: u32) -> Result<u32, u32> {
        if self.held < count {
            self.fill();
            if self.held < count {
                return Err(MAP_END);
            }
        }
        let taken = (self.window >> (64 - count)) as u32;
        self.window <<= count;
        self.held -= count;
        self.used += count;
        Ok(taken)
    }

    /// The zeros that come next, at most so many; where they are fewer, the one
    /// after them is taken as well.
    #[inline]
    pub fn zeros(&mut self, most: u32) -> Result<u32, u32> {
        if self.held < most {
            self.fill();
        }
        // Where the bits end, the zeros of the window make it ask for too many.
        let zeros = self.window.leading_zeros().min(most);
        self.take(most.min(zeros + 1))?;
        Ok(zeros)
    }
}

pub struct BitWriter {
    bytes: Vec<u8>,
    /// Fewer than 32 bits that are not among the bytes yet; the last is lowest.
    pending: u64,
    held: u32,
}

impl BitWriter {
    pub fn new(most_bytes: usize) -> BitWriter {
        BitWriter { bytes: Vec::with_capacity(most_bytes), pending: 0, held: 0 }
    }

    /// Writes a number in so many bits, at most 32.
    #[inline]
    pub fn put(&mut self, number: u32, count: u32) {
        self.pending = self.pending << count | u64::from(number);
        self.held += count;
        if self.held >= 32 {
            self.held -= 32;
            let whole = (self.pending >> self.held) as u32;
            self.bytes.extend_from_slice(&whole.to_be_bytes());
        }
    }

    /// All bytes; the bits after the last one written are zeros.
    pub fn finish(mut self) -> Vec<u8> {
        let last = (self.pending << (32 - self.held)) as u32;
        let count = self.held.div_ceil(8) as usize;
        self.bytes.extend_from_slice(&last.to_be_bytes()[..count]);
        self.bytes
    }
}
