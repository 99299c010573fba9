//! A table as an input for the library and as this program has read it.

use crate::memory::Given;
use crate::random::Random;
use crate::reader::Codec;

pub struct Opened {
    pub given: Given,
    codec: Result<Codec, u32>,
}

impl Opened {
    pub fn new(random: &mut Random, bytes: &[u8]) -> Opened {
        Opened { given: Given::new(random, bytes), codec: Codec::open(bytes) }
    }

    pub fn bytes(&self) -> &[u8] {
        self.given.bytes()
    }

    /// The table, or the number of its refusal.
    pub fn codec(&self) -> Result<&Codec, u32> {
        self.codec.as_ref().map_err(|number| *number)
    }
}
