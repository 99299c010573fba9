//! One card of a header: eighty characters, whose columns count from 1.

use super::CARD_BYTES;

const KEYWORD_BYTES: usize = 8;
/// Columns 9 and 10 of a card that has a value.
const VALUE_INDICATOR: &[u8] = b"= ";
/// In fixed format a value stands in columns 11 to 30.
const VALUE_END: usize = 30;

#[derive(Clone, Copy)]
pub struct Card<'a>(&'a [u8; CARD_BYTES]);

impl<'a> Card<'a> {
    /// The cards of which all bytes are there.
    pub fn all(bytes: &[u8]) -> impl Iterator<Item = Card<'_>> {
        bytes.as_chunks::<CARD_BYTES>().0.iter().map(Card)
    }

    /// Whether these are the first eight columns, blanks after the last letter.
    pub fn has_keyword(self, keyword: &str) -> bool {
        let rest = self.0[..KEYWORD_BYTES].strip_prefix(keyword.as_bytes());
        rest.is_some_and(|rest| rest.iter().all(|&column| column == b' '))
    }

    /// The value that this keyword has here, without the blanks before it.
    fn value(self, keyword: &str) -> Option<&'a [u8]> {
        let rest = self.0[KEYWORD_BYTES..VALUE_END].strip_prefix(VALUE_INDICATOR)?;
        let blanks = rest.iter().take_while(|&&column| column == b' ').count();
        self.has_keyword(keyword).then_some(&rest[blanks..])
    }

    /// A logical value is one letter, in column 30.
    pub fn is_true(self, keyword: &str) -> bool {
        self.value(keyword) == Some(b"T")
    }

    /// An integer ends in column 30: a sign or none, then digits. Twenty
    /// columns hold no number that 128 bits do not.
    pub fn integer(self, keyword: &str) -> Option<i128> {
        let text = std::str::from_utf8(self.value(keyword)?).ok()?;
        text.parse().ok()
    }
}
