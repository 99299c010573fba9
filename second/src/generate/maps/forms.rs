//! A map's bits, field by field, written apart from the map writer.

use crate::random::Random;

/// What a field of a map is.
#[derive(Clone, Copy, PartialEq, Eq, Debug)]
pub enum Part {
    Code,
    Position,
    TwoBits,
    FourBits,
    SixteenBits,
}

#[derive(Clone, Copy)]
pub struct Field {
    pub part: Part,
    value: u32,
    pub length: usize,
}

#[derive(Clone, Default)]
pub struct Form {
    pub fields: Vec<Field>,
    /// Where each group begins among the fields.
    starts: Vec<usize>,
}

impl Form {
    /// As a writer must have it.
    pub fn plain(group: u32, counts: &[u16]) -> Form {
        Form::of(group, counts, || false)
    }

    /// With the higher position first, in some groups or all.
    pub fn exchanged(random: &mut Random, group: u32, counts: &[u16]) -> Form {
        let share = random.pick(&[1, 2, 10]);
        Form::of(group, counts, || random.one_in(share))
    }

    fn of(group: u32, counts: &[u16], mut exchange: impl FnMut() -> bool) -> Form {
        let mut form = Form::default();
        for pixels in counts.chunks_exact(group as usize) {
            form.starts.push(form.fields.len());
            form.put_group(pixels, &mut exchange);
        }
        form
    }

    fn put(&mut self, part: Part, value: u32, length: usize) {
        self.fields.push(Field { part, value, length });
    }

    fn put_group(&mut self, pixels: &[u16], mut exchange: impl FnMut() -> bool) {
        let photons: u64 = pixels.iter().map(|&pixel| u64::from(pixel)).sum();
        let bits = if pixels.len() == 4 { 2 } else { 4 };
        let lower = pixels.iter().position(|&pixel| pixel > 0).unwrap_or(0) as u32;
        let higher = pixels.iter().rposition(|&pixel| pixel > 0).unwrap_or(0) as u32;
        match photons {
            0 => self.put(Part::Code, 0b1, 1),
            1 => {
                self.put(Part::Code, 0b01, 2);
                self.put(Part::Position, lower, bits);
            }
            2 => {
                let (first, then) = if exchange() { (higher, lower) } else { (lower, higher) };
                self.put(Part::Code, 0b001, 3);
                self.put(Part::Position, first, bits);
                self.put(Part::Position, then, bits);
            }
            _ => self.put_pixels(pixels),
        }
    }

    fn put_pixels(&mut self, pixels: &[u16]) {
        self.put(Part::Code, 0b000, 3);
        pixels.iter().for_each(|&pixel| self.put_pixel(pixel));
    }

    fn put_pixel(&mut self, pixel: u16) {
        match pixel {
            0..=2 => self.put(Part::TwoBits, pixel.into(), 2),
            3..=17 => {
                self.put(Part::TwoBits, 0b11, 2);
                self.put(Part::FourBits, u32::from(pixel) - 3, 4);
            }
            18.. => self.put_long(pixel),
        }
    }

    fn put_long(&mut self, pixel: u16) {
        self.put(Part::TwoBits, 0b11, 2);
        self.put(Part::FourBits, 0b1111, 4);
        self.put(Part::SixteenBits, pixel.into(), 16);
    }

    pub fn groups(&self) -> usize {
        self.starts.len()
    }

    pub fn bits(&self) -> usize {
        bits(&self.fields)
    }

    /// Zeros after the last bit.
    pub fn bytes(&self) -> Vec<u8> {
        let mut bytes = vec![0; self.bits().div_ceil(8)];
        let mut at = 0;
        for field in &self.fields {
            for place in (0..field.length).rev() {
                bytes[at / 8] |= (field.value >> place & 1) as u8 * (0x80 >> (at % 8));
                at += 1;
            }
        }
        bytes
    }

    /// Puts code 000 and these pixels in the place of a group, whatever their
    /// sum; gives the place of the first bit after them.
    pub fn put_many(&mut self, index: usize, pixels: &[u16]) -> usize {
        let mut other = Form::default();
        other.put_pixels(pixels);
        self.replace(index, &other) + other.bits()
    }

    /// The same with one pixel in 16 bits, whatever it is; gives the place of
    /// the first bit after that pixel.
    pub fn put_many_and_long(&mut self, index: usize, pixels: &[u16], long: usize) -> usize {
        let mut other = Form::default();
        other.put(Part::Code, 0b000, 3);
        pixels[..long].iter().for_each(|&pixel| other.put_pixel(pixel));
        other.put_long(pixels[long]);
        let bits = other.bits();
        pixels[long + 1..].iter().for_each(|&pixel| other.put_pixel(pixel));
        self.replace(index, &other) + bits
    }

    /// Gives the place of the group's first bit.
    fn replace(&mut self, index: usize, other: &Form) -> usize {
        let start = self.starts[index];
        let end = self.starts.get(index + 1).copied().unwrap_or(self.fields.len());
        self.fields.splice(start..end, other.fields.iter().copied());
        for later in &mut self.starts[index + 1..] {
            *later = *later + other.fields.len() - (end - start);
        }
        bits(&self.fields[..start])
    }

    /// For each byte's end within the map, what the bit after it belongs to,
    /// and whether that field began before it.
    pub fn ends(&self) -> Vec<(usize, Part, bool)> {
        let mut ends = Vec::with_capacity(self.bits() / 8);
        let mut start = 0;
        for field in &self.fields {
            let after = start + field.length;
            let first = start.div_ceil(8);
            let bytes = first..after.div_ceil(8);
            ends.extend(bytes.map(|byte| (byte, field.part, 8 * byte > start)));
            start = after;
        }
        ends
    }
}

fn bits(fields: &[Field]) -> usize {
    fields.iter().map(|field| field.length).sum()
}

#[cfg(test)]
mod tests {
    use super::*;

    #[test]
    fn fields_of_a_small_map() {
        let mut form = Form::plain(4, &[0, 0, 1, 0, 1, 0, 1, 0, 0, 3, 18, 1]);
        // 01 10, 001 00 10, 000 00 110000 111111 0000000000010010 01
        assert_eq!(form.bits(), 4 + 7 + 3 + 2 + 6 + 22 + 2);
        assert_eq!(
            form.bytes(),
            [0b0110_0010, 0b0100_0000, 0b1100_0011, 0b1111_0000, 1, 0b0010_0100]
        );
        assert_eq!(form.put_many(1, &[0, 1, 0, 0]), 4 + 11);
        assert_eq!(form.put_many_and_long(2, &[0, 3, 17, 1], 2), 15 + 3 + 2 + 6 + 22);
        assert_eq!(form.bytes()[..3], [0b0110_0000, 0b0010_0000, 0b0000_1100]);
        assert_eq!((form.bits(), form.groups()), (50, 3));
    }

    #[test]
    fn ends_are_in_their_fields() {
        let form = Form::plain(4, &[0, 0, 1, 0, 1, 0, 1, 0, 0, 3, 18, 1]);
        use Part::*;
        let wanted = [
            (0, Code, false),
            (1, Position, true),
            (2, TwoBits, false),
            (3, FourBits, false),
            (4, SixteenBits, true),
            (5, SixteenBits, true),
        ];
        assert_eq!(form.ends()[..6], wanted);
        let mut random = Random::new(1);
        let exchanged = (0..40).map(|_| Form::exchanged(&mut random, 4, &[0, 1, 0, 1]).bytes());
        assert!(exchanged.into_iter().any(|bytes| bytes == [0b0011_1010]));
    }
}
