//! Bits and fields of a message: "packed most significant bit first. Fields follow without gaps."
//!
//! Bit 0 is the most significant bit of the first byte.

use crate::fault::{Fault, Number};

/// The highest power a 17-bit field may hold: "A 17-bit power is 0..100,000." The 18 bits of a
/// reactive power or a flow hold as much either way.
pub const HIGHEST_POWER: i128 = 100_000;

/// A place in a message "that advances by one field", with the first contradiction met so far.
///
/// Numbers 1 to 4 end the reading at once. A contradiction (5) is only noted, because numbers 1
/// to 4 of every later field and number 6 come before it.
pub struct FieldReader<'a> {
    message: &'a [u8],
    place: usize,
    contradiction: Option<Fault>,
}

/// A field that was read: its first bit and its bits as an unsigned number.
struct Field {
    first_bit: usize,
    value: i128,
}

impl Field {
    fn within(self, low: i128, high: i128, number: Number) -> Result<i128, Fault> {
        if low <= self.value && self.value <= high {
            Ok(self.value)
        } else {
            Err(Fault::new(number, self.first_bit))
        }
    }
}

impl<'a> FieldReader<'a> {
    pub fn new(message: &'a [u8]) -> FieldReader<'a> {
        FieldReader {
            message,
            place: 0,
            contradiction: None,
        }
    }

    /// The first bit of the field that comes next.
    pub fn place(&self) -> usize {
        self.place
    }

    fn bit(&self, bit: usize) -> u8 {
        (self.message[bit / 8] >> (7 - bit % 8)) & 1
    }

    fn take(&mut self, width: usize) -> Result<Field, Fault> {
        let first_bit = self.place;
        if first_bit + width > 8 * self.message.len() {
            return Err(Fault::new(Number::Cut, first_bit));
        }
        let value = (first_bit..first_bit + width)
            .fold(0, |value, bit| 2 * value + i128::from(self.bit(bit)));
        self.place += width;
        Ok(Field { first_bit, value })
    }

    /// A kind or an edition of which one value alone is right.
    pub fn fixed(&mut self, width: usize, value: i128) -> Result<(), Fault> {
        self.one_of(width, value, value)?;
        Ok(())
    }

    /// A kind or an edition of which the values from `low` to `high` are right.
    pub fn one_of(&mut self, width: usize, low: i128, high: i128) -> Result<i128, Fault> {
        self.take(width)?.within(low, high, Number::Kind)
    }

    /// A count of devices, intervals, zones, states, windows or blocks.
    pub fn count(&mut self, width: usize, low: usize, high: usize) -> Result<usize, Fault> {
        let count = self
            .take(width)?
            .within(low as i128, high as i128, Number::Count)?;
        Ok(count as usize)
    }

    /// Any other figure that is never negative.
    pub fn figure(&mut self, width: usize, low: i128, high: i128) -> Result<i128, Fault> {
        self.take(width)?.within(low, high, Number::Range)
    }

    /// A figure in two's complement, from -`size` to `size`.
    pub fn signed(&mut self, width: usize, size: i128) -> Result<i128, Fault> {
        let mut field = self.take(width)?;
        if field.value >= 1 << (width - 1) {
            field.value -= 1 << width;
        }
        field.within(-size, size, Number::Range)
    }

    /// "A 17-bit power is 0..100,000."
    pub fn power(&mut self) -> Result<i128, Fault> {
        self.figure(17, 0, HIGHEST_POWER)
    }

    /// A reactive power, an offset or a flow: "18 bits, ±100,000".
    pub fn power_either_way(&mut self) -> Result<i128, Fault> {
        self.signed(18, HIGHEST_POWER)
    }

    /// A field of one bit, which no value puts out of range.
    pub fn flag(&mut self) -> Result<bool, Fault> {
        Ok(self.take(1)?.value == 1)
    }

    /// A field whose width alone bounds it.
    pub fn unbounded(&mut self, width: usize) -> Result<i128, Fault> {
        Ok(self.take(width)?.value)
    }

    /// Notes a contradiction at the field that starts at `bit`; the earliest one counts.
    pub fn contradiction_at(&mut self, bit: usize) {
        self.contradiction
            .get_or_insert(Fault::new(Number::Contradiction, bit));
    }

    /// What follows the last field: "then 6, then 5 in message order".
    pub fn finish(self) -> Result<(), Fault> {
        let fields_end = self.place;
        let last_byte_end = fields_end.next_multiple_of(8);
        if let Some(bit) = (fields_end..last_byte_end).find(|&bit| self.bit(bit) != 0) {
            return Err(Fault::new(Number::Fill, bit));
        }
        if 8 * self.message.len() > last_byte_end {
            return Err(Fault::new(Number::Fill, last_byte_end));
        }
        self.contradiction.map_or(Ok(()), Err)
    }
}

/// A message being written, bit by bit; "Zero bits fill the last byte."
#[derive(Default)]
pub struct BitWriter {
    bytes: Vec<u8>,
    bits: usize,
}

impl BitWriter {
    pub fn new() -> BitWriter {
        BitWriter::default()
    }

    /// How many bits were written: the next field's first bit.
    pub fn place(&self) -> usize {
        self.bits
    }

    /// Appends a field that is never negative.
    ///
    /// A value that the field cannot hold is a defect of the caller and ends the program: nothing
    /// is cut off unseen.
    pub fn put(&mut self, width: usize, value: i128) {
        assert!(
            (0..1 << width).contains(&value),
            "{value} does not fit in {width} bits"
        );
        self.put_low_bits(width, value);
    }

    /// Appends a field in two's complement, with the same care.
    pub fn put_signed(&mut self, width: usize, value: i128) {
        let half: i128 = 1 << (width - 1);
        assert!(
            (-half..half).contains(&value),
            "{value} does not fit in {width} signed bits"
        );
        self.put_low_bits(width, value);
    }

    fn put_low_bits(&mut self, width: usize, value: i128) {
        for power in (0..width).rev() {
            self.put_bit((value >> power) & 1 == 1);
        }
    }

    fn put_bit(&mut self, bit: bool) {
        if self.bits.is_multiple_of(8) {
            self.bytes.push(0);
        }
        if bit {
            self.bytes[self.bits / 8] |= 1 << (7 - self.bits % 8);
        }
        self.bits += 1;
    }

    pub fn into_bytes(self) -> Vec<u8> {
        self.bytes
    }
}

/// Overwrites the field of `width` bits at `place` in a message.
pub fn overwrite(message: &mut [u8], place: usize, width: usize, value: i128) {
    for offset in 0..width {
        let bit = place + offset;
        let mask = 1 << (7 - bit % 8);
        if (value >> (width - 1 - offset)) & 1 == 1 {
            message[bit / 8] |= mask;
        } else {
            message[bit / 8] &= !mask;
        }
    }
}
