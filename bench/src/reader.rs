//! What both plain readers are made of: bytes, numbers, names, types and counts
//! of document 01's record stream, each with its refusal.

/// A step that may end in a refusal's number; the record is the reader's.
pub type Step<T> = Result<T, u32>;

/// A refusal's number and record.
pub type Refusal = (u32, u32);

/// An identifier or a string, as a part of the stream.
pub type Name<'a> = &'a [u8];

#[derive(Clone, Copy)]
pub enum Index<'a> {
    Number(u32),
    Name(Name<'a>),
}

#[derive(Clone, Copy)]
pub struct Limits {
    pub flags: u8,
    pub minimum: u64,
    pub maximum: Option<u64>,
}

#[derive(Clone, Copy)]
pub enum Constant<'a> {
    I32(u32),
    I64(u64),
    F32(&'a [u8]),
    F64(&'a [u8]),
    GlobalGet(Index<'a>),
    RefNull(u8),
    RefFunc(Index<'a>),
}

pub const RECORDS: u32 = 4_096;
pub const ITEMS: u32 = 256;
pub const PARAMETERS: u32 = 64;
pub const RESULTS: u32 = 16;
pub const LOCALS: u32 = 64;
pub const OPEN_BLOCKS: u32 = 128;
pub const INDICES: u32 = 1_024;
pub const EXPORTS: u32 = 8;
pub const ALIGNMENT: u8 = 32;
pub const OPERANDS: u32 = 16;
/// How deep folded records nest, the outermost counting 1.
pub const NESTING: u32 = 32;
const STREAM: usize = 65_536;
const IDENTIFIER: u32 = 64;
const STRING: u32 = 255;

/// The index spaces; the first four are also the kinds of imports and exports.
pub const FUNC: usize = 0;
pub const TABLE: usize = 1;
pub const MEMORY: usize = 2;
pub const GLOBAL: usize = 3;
pub const TYPE: usize = 4;
pub const ELEM: usize = 5;
pub const DATA: usize = 6;
pub const SPACES: usize = 7;

/// What a folded record begins with.
pub const FOLDED: u8 = 0xF0;

/// The bulk memory instructions, by the byte after FC.
pub const MEMORY_INIT: u8 = 0x08;
pub const DATA_DROP: u8 = 0x09;
pub const MEMORY_COPY: u8 = 0x0A;
pub const MEMORY_FILL: u8 = 0x0B;

const IDCHAR: [bool; 256] = {
    let mut table = [false; 256];
    let mut byte = 0x21;
    while byte < 0x7F {
        table[byte] = !matches!(byte as u8, b'"' | b'(' | b')' | b',' | b';' | b'[' | b']' | b'{' | b'}');
        byte += 1;
    }
    table
};

/// What a record of a body may begin with.
const IN_BODY: [bool; 256] = {
    let mut table = [false; 256];
    let mut byte = 0;
    while byte < 0x100 {
        table[byte] = matches!(
            byte,
            0x00..=0x05 | 0x0B..=0x11 | 0x1A | 0x1B | 0x20..=0x24 | 0x28..=0xC4 | 0xD0..=0xD2 | 0xF0 | 0xFC | 0xFF
        );
        byte += 1;
    }
    table
};

pub struct Reader<'a> {
    stream: &'a [u8],
    at: usize,
    pub record: u32,
    pub open_blocks: u32,
    /// For each open block, by its depth: may an else still come?
    takes_else: u128,
    items: [u32; SPACES],
    started: bool,
}

impl<'a> Reader<'a> {
    pub fn new(stream: &'a [u8]) -> Result<Self, Refusal> {
        if stream.len() > STREAM {
            return Err((1, 0));
        }
        Ok(Reader { stream, at: 0, record: 0, open_blocks: 0, takes_else: 0, items: [0; SPACES], started: false })
    }

    pub fn bytes_read(&self) -> usize {
        self.at
    }

    pub fn at_end(&self) -> bool {
        self.at == self.stream.len()
    }

    #[inline]
    pub fn byte(&mut self) -> Step<u8> {
        let byte = *self.stream.get(self.at).ok_or(2u32)?;
        self.at += 1;
        Ok(byte)
    }

    /// One of the forms 0 to `last`.
    #[inline]
    pub fn form(&mut self, last: u8) -> Step<u8> {
        let byte = self.byte()?;
        if byte > last {
            return Err(4);
        }
        Ok(byte)
    }

    #[inline]
    pub fn u32(&mut self) -> Step<u32> {
        let mut value = 0;
        for shift in [0, 7, 14, 21] {
            let group = self.byte()?;
            value |= u32::from(group & 0x7F) << shift;
            if group < 0x80 {
                return if group == 0 && shift > 0 { Err(19) } else { Ok(value) };
            }
        }
        let group = self.byte()?;
        if group > 0x0F {
            return Err(3);
        }
        if group == 0 {
            return Err(19);
        }
        Ok(value | u32::from(group) << 28)
    }

    pub fn u64(&mut self) -> Step<u64> {
        let mut value = 0;
        for shift in (0..63).step_by(7) {
            let group = self.byte()?;
            value |= u64::from(group & 0x7F) << shift;
            if group < 0x80 {
                return if group == 0 && shift > 0 { Err(19) } else { Ok(value) };
            }
        }
        let group = self.byte()?;
        if group > 0x01 {
            return Err(3);
        }
        if group == 0 {
            return Err(19);
        }
        Ok(value | u64::from(group) << 63)
    }

    #[inline]
    pub fn up_to(&mut self, ceiling: u32, refusal: u32) -> Step<u32> {
        let value = self.u32()?;
        if value > ceiling {
            return Err(refusal);
        }
        Ok(value)
    }

    pub fn raw(&mut self, length: usize) -> Step<&'a [u8]> {
        let part = self.stream[self.at..].get(..length).ok_or(2u32)?;
        self.at += length;
        Ok(part)
    }

    /// A length and bytes of any value.
    pub fn data(&mut self) -> Step<&'a [u8]> {
        let length = self.u32()?;
        self.raw(length as usize)
    }

    /// A wrong byte comes before an early end.
    #[inline]
    fn text(&mut self, length: u32, allowed: impl Fn(u8) -> bool, refusal: u32) -> Step<Name<'a>> {
        let rest = &self.stream[self.at..];
        let length = length as usize;
        let part = &rest[..length.min(rest.len())];
        if !part.iter().all(|&byte| allowed(byte)) {
            return Err(refusal);
        }
        if part.len() < length {
            return Err(2);
        }
        self.at += length;
        Ok(part)
    }

    pub fn identifier(&mut self) -> Step<Option<Name<'a>>> {
        let length = self.up_to(IDENTIFIER, 5)?;
        let name = self.text(length, |byte| IDCHAR[byte as usize], 5)?;
        Ok((length > 0).then_some(name))
    }

    pub fn string(&mut self) -> Step<Name<'a>> {
        let length = self.up_to(STRING, 6)?;
        self.text(length, |byte| (0x20..0x7F).contains(&byte), 6)
    }

    pub fn two_strings(&mut self) -> Step<(Name<'a>, Name<'a>)> {
        Ok((self.string()?, self.string()?))
    }

    pub fn optional_index(&mut self) -> Step<Option<Index<'a>>> {
        match self.byte()? {
            0 => Ok(None),
            1 => self.u32().map(|number| Some(Index::Number(number))),
            2 => self.name().map(|name| Some(Index::Name(name))),
            _ => Err(4),
        }
    }

    pub fn index(&mut self) -> Step<Index<'a>> {
        match self.byte()? {
            1 => self.u32().map(Index::Number),
            2 => self.name().map(Index::Name),
            _ => Err(4),
        }
    }

    fn name(&mut self) -> Step<Name<'a>> {
        let length = self.up_to(IDENTIFIER, 5)?;
        if length == 0 {
            return Err(5);
        }
        self.text(length, |byte| IDCHAR[byte as usize], 5)
    }

    #[inline]
    pub fn value_type(&mut self) -> Step<u8> {
        match self.byte()? {
            byte @ (0x7C..=0x7F | 0x6F | 0x70) => Ok(byte),
            _ => Err(4),
        }
    }

    pub fn reference(&mut self) -> Step<u8> {
        match self.byte()? {
            byte @ (0x6F | 0x70) => Ok(byte),
            _ => Err(4),
        }
    }

    /// 0, or 4 for 64-bit.
    pub fn is_64_bit(&mut self) -> Step<u8> {
        match self.byte()? {
            byte @ (0 | 4) => Ok(byte),
            _ => Err(4),
        }
    }

    pub fn limits(&mut self) -> Step<Limits> {
        let flags = self.byte()?;
        let (minimum, maximum) = match flags {
            0 => (self.u32()?.into(), None),
            1 => (self.u32()?.into(), Some(self.u32()?.into())),
            4 => (self.u64()?, None),
            5 => (self.u64()?, Some(self.u64()?)),
            _ => return Err(4),
        };
        Ok(Limits { flags, minimum, maximum })
    }

    pub fn table_type(&mut self) -> Step<(u8, Limits)> {
        Ok((self.reference()?, self.limits()?))
    }

    /// The value type, and 1 for mutable.
    pub fn global_type(&mut self) -> Step<[u8; 2]> {
        Ok([self.value_type()?, self.form(1)?])
    }

    pub fn constant(&mut self) -> Step<Constant<'a>> {
        Ok(match self.byte()? {
            0 => Constant::I32(self.u32()?),
            1 => Constant::I64(self.u64()?),
            2 => Constant::F32(self.raw(4)?),
            3 => Constant::F64(self.raw(8)?),
            4 => Constant::GlobalGet(self.index()?),
            5 => Constant::RefNull(self.reference()?),
            6 => Constant::RefFunc(self.index()?),
            _ => return Err(4),
        })
    }

    /// Where an active segment goes.
    pub fn place(&mut self) -> Step<Option<(Option<Index<'a>>, Constant<'a>)>> {
        if self.form(1)? == 0 {
            return Ok(None);
        }
        Ok(Some((self.optional_index()?, self.constant()?)))
    }

    /// One more item of a space.
    pub fn item(&mut self, space: usize) -> Step<()> {
        if self.items[space] == ITEMS {
            return Err(7);
        }
        self.items[space] += 1;
        Ok(())
    }

    /// How many items a space has so far.
    pub fn items(&self, space: usize) -> u32 {
        self.items[space]
    }

    /// The start function's index; a second one is refused.
    pub fn start(&mut self) -> Step<Index<'a>> {
        if self.started {
            return Err(9);
        }
        self.started = true;
        self.index()
    }

    /// The byte after FC of a bulk memory instruction.
    pub fn bulk(&mut self) -> Step<u8> {
        match self.byte()? {
            byte @ (MEMORY_INIT | DATA_DROP | MEMORY_COPY | MEMORY_FILL) => Ok(byte),
            _ => Err(4),
        }
    }

    /// The first byte of a field record.
    pub fn field_byte(&mut self) -> Step<u8> {
        let first = self.byte()?;
        if !(0x01..=0x0A).contains(&first) {
            return Err(4);
        }
        if self.record == RECORDS {
            return Err(7);
        }
        Ok(first)
    }

    /// After F0, nested so deep: the operator's opcode.
    pub fn operator(&mut self, nesting: u32) -> Step<u8> {
        if nesting > NESTING {
            return Err(7);
        }
        let opcode = self.byte()?;
        if !IN_BODY[usize::from(opcode)] || matches!(opcode, 0x02..=0x05 | 0x0B | FOLDED | 0xFF) {
            return Err(4);
        }
        Ok(opcode)
    }

    /// The F0 of an operand.
    pub fn operand(&mut self) -> Step<()> {
        if self.byte()? != FOLDED {
            return Err(4);
        }
        if self.record == RECORDS {
            return Err(7);
        }
        Ok(())
    }

    /// The opcode of an instruction record, F0 or FF; opens and closes blocks.
    #[inline]
    pub fn opcode(&mut self) -> Step<u8> {
        let opcode = self.byte()?;
        if !IN_BODY[usize::from(opcode)] {
            return Err(4);
        }
        if self.record == RECORDS {
            return Err(7);
        }
        match opcode {
            0x02..=0x04 if self.open_blocks == OPEN_BLOCKS => return Err(7),
            0x05 | 0x0B if self.open_blocks == 0 => return Err(8),
            0xFF if self.open_blocks > 0 => return Err(8),
            0x02..=0x04 => {
                let bit = 1 << self.open_blocks;
                self.takes_else = if opcode == 0x04 { self.takes_else | bit } else { self.takes_else & !bit };
                self.open_blocks += 1;
            }
            0x05 => {
                let bit = 1 << (self.open_blocks - 1);
                if self.takes_else & bit == 0 {
                    return Err(8);
                }
                self.takes_else &= !bit;
            }
            0x0B => self.open_blocks -= 1,
            _ => {}
        }
        Ok(opcode)
    }
}
