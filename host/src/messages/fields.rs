//! Fields of a message, and who goes over them: a reader, a writer, a namer of bits, a lister and a
//! measure.

/// A field's width in bits and its range; it is in two's complement exactly where the range goes
/// below 0.
#[derive(Clone, Copy, PartialEq, Eq, Debug)]
pub struct Field {
    pub width: usize,
    pub least: i64,
    pub most: i64,
}

impl Field {
    pub const fn within(width: usize, least: i64, most: i64) -> Field {
        Field { width, least, most }
    }

    pub const fn up_to(width: usize, most: i64) -> Field {
        Field::within(width, 0, most)
    }

    /// Any figure of so many bits, fewer than 63.
    pub const fn any(width: usize) -> Field {
        Field::up_to(width, (1 << width) - 1)
    }

    /// Its range in words.
    pub fn range(self) -> String {
        format!("{}..{}", self.least, self.most)
    }

    fn is_signed(self) -> bool {
        self.least < 0
    }

    /// Whether its bits can say a figure; whether that is in range is the plan unit's to say.
    fn holds(self, value: i64) -> bool {
        let half = 1i128 << (self.width - 1);
        let sayable = if self.is_signed() {
            -half..half
        } else {
            0..2 * half
        };
        sayable.contains(&i128::from(value))
    }

    /// The figure at a bit; `None` where the message ends before or inside it.
    fn take(self, message: &[u8], at: usize) -> Option<i64> {
        let mut bits: u64 = 0;
        for bit in at..at + self.width {
            let byte = message.get(bit / 8)?;
            bits = bits << 1 | u64::from(byte >> (7 - bit % 8) & 1);
        }
        let is_negative = self.is_signed() && bits >> (self.width - 1) == 1;
        let above = if is_negative && self.width < 64 {
            u64::MAX << self.width
        } else {
            0
        };
        Some((bits | above) as i64)
    }
}

/// Going over a message ends here: it is cut, a figure does not fit, or what was looked for is found.
#[derive(Debug)]
pub struct Stop;

pub type Step = Result<(), Stop>;

/// A field's name, made where it is asked for.
pub type Name<'a> = &'a dyn Fn() -> String;

/// What is done with each field of a message in turn.
pub trait Walk {
    fn field(&mut self, name: Name, field: Field, value: &mut i64) -> Step;
}

/// Takes values from a message.
pub struct Reader<'a> {
    message: &'a [u8],
    at: usize,
}

impl<'a> Reader<'a> {
    pub fn new(message: &'a [u8]) -> Reader<'a> {
        Reader { message, at: 0 }
    }

    /// Whether the last field is in the message's last byte.
    pub fn is_at_end(&self) -> bool {
        self.at.div_ceil(8) == self.message.len()
    }

    /// Bits behind the last field.
    pub fn left(&self) -> usize {
        8 * self.message.len() - self.at
    }
}

impl Walk for Reader<'_> {
    fn field(&mut self, _: Name, field: Field, value: &mut i64) -> Step {
        *value = field.take(self.message, self.at).ok_or(Stop)?;
        self.at += field.width;
        Ok(())
    }
}

/// A figure that its field's bits cannot say.
#[derive(Clone, PartialEq, Eq, Debug)]
pub struct Misfit {
    /// The field's name.
    pub name: String,
    pub value: i64,
    pub field: Field,
}

/// Puts values into a message.
#[derive(Default)]
pub struct Writer {
    message: Vec<u8>,
    at: usize,
    misfit: Option<Misfit>,
}

impl Writer {
    /// The message, or the first figure that does not fit its bits.
    pub fn finish(self) -> Result<Vec<u8>, Misfit> {
        match self.misfit {
            Some(misfit) => Err(misfit),
            None => Ok(self.message),
        }
    }

    fn push(&mut self, bit: bool) {
        if self.at.is_multiple_of(8) {
            self.message.push(0);
        }
        if let Some(last) = self.message.last_mut() {
            *last |= u8::from(bit) << (7 - self.at % 8);
        }
        self.at += 1;
    }
}

impl Walk for Writer {
    fn field(&mut self, name: Name, field: Field, value: &mut i64) -> Step {
        if !field.holds(*value) {
            self.misfit = Some(Misfit {
                name: name(),
                value: *value,
                field,
            });
            return Err(Stop);
        }
        for below in (0..field.width).rev() {
            self.push(*value >> below & 1 == 1);
        }
        Ok(())
    }
}

/// A field of a message.
#[derive(Clone, PartialEq, Eq, Debug)]
pub struct Place {
    pub name: String,
    /// Its first bit.
    pub bit: usize,
    pub field: Field,
    /// Where the message has it.
    pub value: Option<i64>,
}

/// Finds the field that a bit is in.
pub struct Namer<'a> {
    message: &'a [u8],
    at: usize,
    bit: usize,
    pub found: Option<Place>,
}

impl<'a> Namer<'a> {
    pub fn new(message: &'a [u8], bit: usize) -> Namer<'a> {
        Namer {
            message,
            at: 0,
            bit,
            found: None,
        }
    }
}

impl Walk for Namer<'_> {
    fn field(&mut self, name: Name, field: Field, value: &mut i64) -> Step {
        let taken = field.take(self.message, self.at);
        if self.bit < self.at + field.width {
            self.found = Some(Place {
                name: name(),
                bit: self.at,
                field,
                value: taken,
            });
            return Err(Stop);
        }
        *value = taken.ok_or(Stop)?;
        self.at += field.width;
        Ok(())
    }
}

/// Lists the fields of a message as far as it goes.
pub struct Lister<'a> {
    message: &'a [u8],
    at: usize,
    pub places: Vec<Place>,
}

impl<'a> Lister<'a> {
    pub fn new(message: &'a [u8]) -> Lister<'a> {
        Lister {
            message,
            at: 0,
            places: Vec::new(),
        }
    }
}

impl Walk for Lister<'_> {
    fn field(&mut self, name: Name, field: Field, value: &mut i64) -> Step {
        *value = field.take(self.message, self.at).ok_or(Stop)?;
        self.places.push(Place {
            name: name(),
            bit: self.at,
            field,
            value: Some(*value),
        });
        self.at += field.width;
        Ok(())
    }
}

/// Counts the bits of a message; nothing stops it.
#[derive(Default)]
pub struct Measure {
    bits: usize,
}

impl Measure {
    /// The bytes that the bits take.
    pub fn bytes(&self) -> usize {
        self.bits.div_ceil(8)
    }
}

impl Walk for Measure {
    fn field(&mut self, _: Name, field: Field, _: &mut i64) -> Step {
        self.bits += field.width;
        Ok(())
    }
}
