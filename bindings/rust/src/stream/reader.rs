//! Reads a stream record by record, by the reading rules: refusals 1 to 9 and 19.
use super::types::*;
use super::{Access, Op, NESTING, OPERANDS, STREAM_BYTES};
use crate::Refusal;
use std::fmt;

// The ceilings: the ceiling itself is accepted, one more refused.
const RECORDS: u32 = 4_096;
const ITEMS: u32 = 256;
const PARAMS: u32 = 64;
const RESULTS: u32 = 16;
const LOCALS: u32 = 64;
const OPEN_BLOCKS: u32 = 128;
const INDICES: u32 = 1_024;
const EXPORTS: u32 = 8;
const NAME: u32 = 64;
const STRING: u32 = 255;
const ALIGNMENT: u8 = 32;

/// Why a stream cannot be read on: a refusal, and where it shows.
#[derive(Clone, Copy, Debug, PartialEq, Eq, Hash)]
#[non_exhaustive]
pub struct Fault {
    pub refusal: Refusal,
    /// The byte that first shows it; the stream's length where it breaks off.
    pub offset: usize,
    /// What is wrong there, in a few words.
    pub what: &'static str,
}

impl fmt::Display for Fault {
    fn fmt(&self, f: &mut fmt::Formatter<'_>) -> fmt::Result {
        let Refusal { number, record, .. } = self.refusal;
        let (offset, what) = (self.offset, self.what);
        write!(f, "refused {number} at {record}: at byte {offset} {what}")
    }
}

impl std::error::Error for Fault {}

impl From<Fault> for Refusal {
    fn from(fault: Fault) -> Self {
        fault.refusal
    }
}

/// A refusal's number, and what is wrong in a few words.
struct Wrong(u32, &'static str);

/// A step of reading; the fault stands at the byte that was read last.
type Step<T> = Result<T, &'static Wrong>;

/// Counts of items stand at these places; the first four are the kinds.
const TYPE: usize = 4;
const ELEM: usize = 5;
const DATA: usize = 6;

/// The blocks that are open. A block is known by its depth, 0 for the outermost:
/// its bit says whether it is an if, and whether it has had its else.
#[derive(Clone, Debug, Default)]
struct OpenBlocks {
    count: u32,
    ifs: u128,
    with_else: u128,
}

impl OpenBlocks {
    fn push(&mut self, opening: Opening) -> Step<()> {
        if self.count == OPEN_BLOCKS {
            return Err(&Wrong(7, "128 blocks are open already"));
        }
        let bit = 1 << self.count;
        self.ifs = self.ifs & !bit | if opening == Opening::If { bit } else { 0 };
        self.with_else &= !bit;
        self.count += 1;
        Ok(())
    }

    /// An else of the innermost block; there is one.
    fn meet_else(&mut self) -> Step<()> {
        let bit = 1 << (self.count - 1);
        if self.ifs & bit == 0 {
            return Err(&Wrong(8, "the innermost open block is no if"));
        }
        if self.with_else & bit != 0 {
            return Err(&Wrong(8, "the if has had its else"));
        }
        self.with_else |= bit;
        Ok(())
    }
}

/// The folded records whose operands are not all there, the outermost first, each
/// by how many it waits for.
#[derive(Clone, Debug, Default)]
struct Waiting {
    due: [u32; NESTING],
    depth: usize,
}

impl Waiting {
    /// Is an operand due?
    fn is_due(&self) -> bool {
        self.depth > 0
    }

    /// One more, with so many operands; with none it is complete, and so is what
    /// waited for it alone. There is room.
    fn push(&mut self, operands: u32) {
        self.due[self.depth] = operands;
        self.depth += 1;
        while self.is_due() && self.due[self.depth - 1] == 0 {
            self.depth -= 1;
            if self.is_due() {
                self.due[self.depth - 1] -= 1;
            }
        }
    }
}

/// The records of a stream, in order. After a fault it ends.
#[derive(Clone, Debug)]
pub struct Reader<'a> {
    stream: &'a [u8],
    at: usize,
    record: u32,
    in_body: bool,
    open: OpenBlocks,
    waiting: Waiting,
    items: [u32; 7],
    started: bool,
    stopped: bool,
}

/// All records of a stream, or its first fault.
pub fn read(stream: &[u8]) -> Result<Vec<Record<'_>>, Fault> {
    Reader::new(stream).collect()
}

impl<'a> Reader<'a> {
    /// At the stream's first record. Any bytes will do.
    pub fn new(stream: &'a [u8]) -> Self {
        Reader {
            stream,
            at: 0,
            record: 0,
            in_body: false,
            open: OpenBlocks::default(),
            waiting: Waiting::default(),
            items: [0; 7],
            started: false,
            stopped: false,
        }
    }

    /// Where the next record begins.
    pub fn offset(&self) -> usize {
        self.at
    }

    /// The number of the next record: how many have been read.
    pub fn record(&self) -> u32 {
        self.record
    }

    // ---- bytes and numbers ----

    #[inline]
    fn byte(&mut self) -> Step<u8> {
        match self.stream.get(self.at) {
            Some(byte) => {
                self.at += 1;
                Ok(*byte)
            }
            None => Err(&Wrong(2, "the stream ends")),
        }
    }

    /// A byte that stands for something.
    fn one_of<T>(&mut self, known: fn(u8) -> Option<T>, what: &'static Wrong) -> Step<T> {
        known(self.byte()?).ok_or(what)
    }

    /// One of the forms 0 to `last`.
    fn form(&mut self, last: u8, what: &'static Wrong) -> Step<u8> {
        let byte = self.byte()?;
        if byte > last {
            return Err(what);
        }
        Ok(byte)
    }

    /// Groups of seven bits, low first, in the shortest form.
    #[inline]
    fn number(&mut self, width: u32) -> Step<u64> {
        match self.byte()? {
            byte @ 0..=0x7F => Ok(byte.into()),
            byte => self.more_groups(byte, width),
        }
    }

    /// A number of more than one group.
    fn more_groups(&mut self, first: u8, width: u32) -> Step<u64> {
        let mut value = u64::from(first & 0x7F);
        let mut shift = 7;
        loop {
            let byte = self.byte()?;
            let group = u64::from(byte & 0x7F);
            let left = width - shift;
            if left < 7 && (byte >= 0x80 || group >> left != 0) {
                return Err(&Wrong(3, "a number does not fit its width"));
            }
            value |= group << shift;
            if byte < 0x80 {
                if byte == 0 {
                    return Err(&Wrong(19, "a number has a group more than it needs"));
                }
                return Ok(value);
            }
            shift += 7;
        }
    }

    #[inline]
    fn u32(&mut self) -> Step<u32> {
        Ok(self.number(32)? as u32)
    }

    /// A count or length up to its ceiling.
    fn up_to(&mut self, ceiling: u32, fault: &'static Wrong) -> Step<u32> {
        let count = self.u32()?;
        if count > ceiling {
            return Err(fault);
        }
        Ok(count)
    }

    /// A count up to its ceiling, and as many of something.
    fn many<T>(
        &mut self,
        ceiling: u32,
        too_many: &'static Wrong,
        mut one: impl FnMut(&mut Self) -> Step<T>,
    ) -> Step<Vec<T>> {
        let count = self.up_to(ceiling, too_many)?;
        (0..count).map(|_| one(self)).collect()
    }

    /// Bytes of any value.
    fn raw(&mut self, length: usize) -> Step<&'a [u8]> {
        match self.stream[self.at..].get(..length) {
            Some(part) => {
                self.at += length;
                Ok(part)
            }
            None => {
                self.at = self.stream.len();
                Err(&Wrong(2, "the stream ends"))
            }
        }
    }

    fn array<const N: usize>(&mut self) -> Step<[u8; N]> {
        let part = self.raw(N)?;
        Ok(part.try_into().expect("as many as asked for"))
    }

    /// A length and bytes.
    fn data(&mut self) -> Step<&'a [u8]> {
        let length = self.u32()?;
        self.raw(length as usize)
    }

    // ---- identifiers, strings, indices ----

    /// A wrong byte comes before an end of the stream behind it.
    #[inline]
    fn text(
        &mut self,
        length: u32,
        known: impl Fn(u8) -> bool,
        fault: &'static Wrong,
    ) -> Step<&'a str> {
        let rest = &self.stream[self.at..];
        let part = &rest[..rest.len().min(length as usize)];
        if let Some(wrong) = part.iter().position(|byte| !known(*byte)) {
            self.at += wrong + 1;
            return Err(fault);
        }
        self.raw(length as usize)?;
        Ok(std::str::from_utf8(part).expect("bytes below 80"))
    }

    fn name(&mut self) -> Step<Option<&'a str>> {
        let length = self.up_to(NAME, &Wrong(5, "a name has more than 64 bytes"))?;
        let text = self.text(
            length,
            is_idchar,
            &Wrong(5, "a byte stands that no name may have"),
        )?;
        Ok(Some(text).filter(|text| !text.is_empty()))
    }

    fn string(&mut self) -> Step<&'a str> {
        let length = self.up_to(STRING, &Wrong(6, "a string has more than 255 bytes"))?;
        let fault = &Wrong(6, "a byte stands that no string may have");
        self.text(length, |byte| (0x20..=0x7E).contains(&byte), fault)
    }

    fn import_name(&mut self) -> Step<ImportName<'a>> {
        Ok(ImportName {
            module: self.string()?,
            name: self.string()?,
        })
    }

    fn optional_index(&mut self) -> Step<Option<Index<'a>>> {
        match self.form(2, &Wrong(4, "no index begins with this byte"))? {
            0 => Ok(None),
            form => self.index_of(form).map(Some),
        }
    }

    fn index(&mut self) -> Step<Index<'a>> {
        match self.form(2, &Wrong(4, "no index begins with this byte"))? {
            0 => Err(&Wrong(4, "an index is absent that must be there")),
            form => self.index_of(form),
        }
    }

    /// What follows the form of a present index. Its name is not empty, which
    /// shows at its length.
    fn index_of(&mut self, form: u8) -> Step<Index<'a>> {
        if form == 1 {
            return Ok(Index::Number(self.u32()?));
        }
        let name = self.name()?;
        Ok(Index::Name(
            name.ok_or(&Wrong(5, "a name is empty in an index"))?,
        ))
    }

    fn funcs(&mut self) -> Step<Vec<Index<'a>>> {
        self.many(
            INDICES,
            &Wrong(7, "there are more than 1,024 functions"),
            Self::index,
        )
    }

    // ---- types, limits, constants ----

    fn val_type(&mut self) -> Step<ValType> {
        self.one_of(ValType::from_byte, &Wrong(4, "no value type has this byte"))
    }

    fn ref_type(&mut self) -> Step<RefType> {
        self.one_of(
            RefType::from_byte,
            &Wrong(4, "no reference type has this byte"),
        )
    }

    fn kind(&mut self) -> Step<Kind> {
        self.one_of(Kind::from_byte, &Wrong(4, "no kind has this byte"))
    }

    fn var(&mut self) -> Step<Var<'a>> {
        Ok(Var {
            name: self.name()?,
            ty: self.val_type()?,
        })
    }

    fn results(&mut self) -> Step<Vec<ValType>> {
        self.many(
            RESULTS,
            &Wrong(7, "there are more than 16 results"),
            Self::val_type,
        )
    }

    fn type_use(&mut self) -> Step<TypeUse<'a>> {
        Ok(TypeUse {
            index: self.optional_index()?,
            params: self.many(
                PARAMS,
                &Wrong(7, "there are more than 64 parameters"),
                Self::var,
            )?,
            results: self.results()?,
        })
    }

    fn limits(&mut self) -> Step<Limits> {
        Ok(match self.byte()? {
            0 => Limits::Bits32 {
                min: self.u32()?,
                max: None,
            },
            1 => Limits::Bits32 {
                min: self.u32()?,
                max: Some(self.u32()?),
            },
            4 => Limits::Bits64 {
                min: self.number(64)?,
                max: None,
            },
            5 => Limits::Bits64 {
                min: self.number(64)?,
                max: Some(self.number(64)?),
            },
            _ => return Err(&Wrong(4, "no limits begin with this byte")),
        })
    }

    fn table_type(&mut self) -> Step<TableType> {
        Ok(TableType {
            element: self.ref_type()?,
            limits: self.limits()?,
        })
    }

    fn global_type(&mut self) -> Step<GlobalType> {
        Ok(GlobalType {
            ty: self.val_type()?,
            mutable: self.form(1, &Wrong(4, "neither mutable nor not"))? == 1,
        })
    }

    /// The 64-bit byte of an inline table or memory.
    fn is64(&mut self) -> Step<bool> {
        match self.byte()? {
            0 => Ok(false),
            4 => Ok(true),
            _ => Err(&Wrong(4, "neither of 32 nor of 64 bits")),
        }
    }

    fn constant(&mut self) -> Step<Const<'a>> {
        Ok(
            match self.form(6, &Wrong(4, "no constant begins with this byte"))? {
                0 => Const::I32(self.u32()? as i32),
                1 => Const::I64(self.number(64)? as i64),
                2 => Const::F32(u32::from_le_bytes(self.array()?)),
                3 => Const::F64(u64::from_le_bytes(self.array()?)),
                4 => Const::GlobalGet(self.index()?),
                5 => Const::RefNull(self.ref_type()?),
                _ => Const::RefFunc(self.index()?),
            },
        )
    }

    fn place(&mut self) -> Step<Option<Place<'a>>> {
        if self.form(1, &Wrong(4, "neither passive nor active"))? == 0 {
            return Ok(None);
        }
        Ok(Some(Place {
            index: self.optional_index()?,
            offset: self.constant()?,
        }))
    }

    // ---- records ----

    /// One more item, shown by the byte that was just read.
    fn item(&mut self, space: usize) -> Step<()> {
        if self.items[space] == ITEMS {
            return Err(&Wrong(7, "there are 256 of these already"));
        }
        self.items[space] += 1;
        Ok(())
    }

    /// The first byte of a record: 4 where none begins with it, then 7 if it is
    /// one too many.
    fn begin(&mut self, known: fn(u8) -> bool, what: &'static Wrong) -> Step<u8> {
        let first = self.byte()?;
        if !known(first) {
            return Err(what);
        }
        if self.record == RECORDS {
            return Err(&Wrong(7, "there are 4,096 records already"));
        }
        Ok(first)
    }

    fn content(&mut self) -> Step<Content<'a>> {
        if !self.in_body {
            return Ok(Content::Field(self.field()?));
        }
        Ok(match self.body_byte()? {
            0xFF => Content::BodyEnd,
            0xF0 => {
                let (operator, operands) = self.folded()?;
                Content::Folded(operator, operands)
            }
            opcode => Content::Instruction(self.instruction(opcode)?),
        })
    }

    /// The first byte of a body's record; FF ends the body.
    #[inline]
    fn body_byte(&mut self) -> Step<u8> {
        if self.waiting.is_due() {
            return self.begin(
                |byte| byte == 0xF0,
                &Wrong(4, "an operand is due, and it begins with F0"),
            );
        }
        let known = |byte| is_opcode(byte) || matches!(byte, 0xF0 | 0xFF);
        let first = self.begin(
            known,
            &Wrong(4, "no record of a body begins with this byte"),
        )?;
        if first == 0xFF {
            if self.open.count > 0 {
                return Err(&Wrong(8, "the body ends, and a block is open"));
            }
            self.in_body = false;
        }
        Ok(first)
    }

    /// All that is left of a body, FF included, in flat order: for whoever makes a
    /// tree of the standard's instructions. A folded record means its operands from
    /// left to right, and then its operator. Each instruction has its record's
    /// number. Outside a body there is nothing.
    pub fn body(&mut self) -> Result<Vec<(u32, Instruction<'a>)>, Fault> {
        let (mut body, mut operators) = (Vec::new(), Vec::new());
        while self.in_body && !self.stopped {
            self.one_more(&mut body, &mut operators)
                .map_err(|fault| self.stop(fault))?;
            self.record += 1;
        }
        Ok(body)
    }

    /// One more record of a body. Operators wait for their operands, each with how
    /// deep it is nested.
    #[inline]
    fn one_more(
        &mut self,
        body: &mut Vec<(u32, Instruction<'a>)>,
        operators: &mut Vec<(usize, u32, Instruction<'a>)>,
    ) -> Step<()> {
        let number = self.record;
        match self.body_byte()? {
            0xFF => {}
            0xF0 => {
                let nesting = self.waiting.depth;
                let (operator, _) = self.folded()?;
                operators.push((nesting, number, operator));
                let complete =
                    |(nesting, ..): &(usize, u32, Instruction<'a>)| *nesting >= self.waiting.depth;
                while operators.last().is_some_and(complete) {
                    let (_, number, operator) = operators.pop().expect("there is a last");
                    body.push((number, operator));
                }
            }
            opcode => body.push((number, self.instruction(opcode)?)),
        }
        Ok(())
    }

    /// After F0: an operator and the count of its operands.
    fn folded(&mut self) -> Step<(Instruction<'a>, u32)> {
        if self.waiting.depth == NESTING {
            return Err(&Wrong(7, "folded records are nested 32 deep already"));
        }
        let opcode = self.byte()?;
        if !may_fold(opcode) {
            return Err(&Wrong(4, "no instruction that may be folded has this byte"));
        }
        let operator = self.instruction(opcode)?;
        let too_many = &Wrong(7, "there are more than 16 operands");
        let operands = self.up_to(OPERANDS as u32, too_many)?;
        self.waiting.push(operands);
        Ok((operator, operands))
    }

    /// The fault at the record that is being read; nothing more is read.
    fn stop(&mut self, &Wrong(number, what): &'static Wrong) -> Fault {
        self.stopped = true;
        Fault {
            refusal: Refusal::new(number, self.record),
            offset: if number == 2 { self.at } else { self.at - 1 },
            what,
        }
    }

    fn field(&mut self) -> Step<Field<'a>> {
        let known = |byte| (0x01..=0x0A).contains(&byte);
        Ok(
            match self.begin(known, &Wrong(4, "no record begins with this byte"))? {
                0x01 => {
                    self.item(TYPE)?;
                    Field::Type {
                        name: self.name()?,
                        params: self.many(
                            PARAMS,
                            &Wrong(7, "there are more than 64 parameters"),
                            Self::val_type,
                        )?,
                        results: self.results()?,
                    }
                }
                0x02 => {
                    let from = self.import_name()?;
                    let kind = self.kind()?;
                    self.item(kind as usize)?;
                    Field::Import {
                        from,
                        name: self.name()?,
                        ty: match kind {
                            Kind::Func => ItemType::Func(self.type_use()?),
                            Kind::Table => ItemType::Table(self.table_type()?),
                            Kind::Memory => ItemType::Memory(self.limits()?),
                            Kind::Global => ItemType::Global(self.global_type()?),
                        },
                    }
                }
                0x03 => self.func()?,
                0x04 => self.table()?,
                0x05 => self.memory()?,
                0x06 => {
                    let (head, form) = self.head(Kind::Global, 1)?;
                    let global = match form {
                        0 => Global::Own(self.global_type()?, self.constant()?),
                        _ => Global::Import(self.import_name()?, self.global_type()?),
                    };
                    Field::Global(head, global)
                }
                0x07 => Field::Export {
                    name: self.string()?,
                    kind: self.kind()?,
                    index: self.index()?,
                },
                0x08 => {
                    if self.started {
                        return Err(&Wrong(9, "there is a start already"));
                    }
                    self.started = true;
                    Field::Start(self.index()?)
                }
                0x09 => {
                    self.item(ELEM)?;
                    Field::Elem {
                        name: self.name()?,
                        place: self.place()?,
                        funcs: self.funcs()?,
                    }
                }
                _ => {
                    self.item(DATA)?;
                    Field::Data {
                        name: self.name()?,
                        place: self.place()?,
                        data: self.data()?,
                    }
                }
            },
        )
    }

    /// What records 03 to 06 begin with, and their form.
    fn head(&mut self, kind: Kind, last_form: u8) -> Step<(Head<'a>, u8)> {
        self.item(kind as usize)?;
        let head = Head {
            name: self.name()?,
            exports: self.many(
                EXPORTS,
                &Wrong(7, "an item has more than 8 exports"),
                Self::string,
            )?,
        };
        Ok((
            head,
            self.form(last_form, &Wrong(4, "no form has this byte"))?,
        ))
    }

    fn func(&mut self) -> Step<Field<'a>> {
        let (head, form) = self.head(Kind::Func, 1)?;
        let func = match form {
            0 => Func::Own {
                ty: self.type_use()?,
                locals: self.many(
                    LOCALS,
                    &Wrong(7, "there are more than 64 locals"),
                    Self::var,
                )?,
            },
            _ => Func::Import(self.import_name()?, self.type_use()?),
        };
        self.in_body = form == 0;
        Ok(Field::Func(head, func))
    }

    fn table(&mut self) -> Step<Field<'a>> {
        let (head, form) = self.head(Kind::Table, 2)?;
        let table = match form {
            0 => Table::Own(self.table_type()?),
            1 => Table::Import(self.import_name()?, self.table_type()?),
            _ => {
                self.item(ELEM)?;
                Table::Elements {
                    is64: self.is64()?,
                    funcs: self.funcs()?,
                }
            }
        };
        Ok(Field::Table(head, table))
    }

    fn memory(&mut self) -> Step<Field<'a>> {
        let (head, form) = self.head(Kind::Memory, 2)?;
        let memory = match form {
            0 => Memory::Own(self.limits()?),
            1 => Memory::Import(self.import_name()?, self.limits()?),
            _ => {
                self.item(DATA)?;
                Memory::Data {
                    is64: self.is64()?,
                    data: self.data()?,
                }
            }
        };
        Ok(Field::Memory(head, memory))
    }

    /// An instruction whose opcode has been read.
    fn instruction(&mut self, opcode: u8) -> Step<Instruction<'a>> {
        Ok(match opcode {
            0x02 => self.open(Opening::Block)?,
            0x03 => self.open(Opening::Loop)?,
            0x04 => self.open(Opening::If)?,
            0x05 | 0x0B if self.open.count == 0 => return Err(&Wrong(8, "no block is open")),
            0x05 => {
                self.open.meet_else()?;
                Instruction::Else(self.name()?)
            }
            0x0B => {
                self.open.count -= 1;
                Instruction::End(self.name()?)
            }
            0x0C => Instruction::Br(self.index()?),
            0x0D => Instruction::BrIf(self.index()?),
            0x0E => {
                let too_many = &Wrong(7, "there are more than 1,024 labels");
                let labels = self.many(INDICES, too_many, Self::index)?;
                Instruction::BrTable(labels, self.index()?)
            }
            0x10 => Instruction::Call(self.index()?),
            0x11 => Instruction::CallIndirect(self.optional_index()?, self.type_use()?),
            0x20 => Instruction::LocalGet(self.index()?),
            0x21 => Instruction::LocalSet(self.index()?),
            0x22 => Instruction::LocalTee(self.index()?),
            0x23 => Instruction::GlobalGet(self.index()?),
            0x24 => Instruction::GlobalSet(self.index()?),
            0x3F => Instruction::MemorySize(self.optional_index()?),
            0x40 => Instruction::MemoryGrow(self.optional_index()?),
            0x41 => Instruction::I32Const(self.u32()? as i32),
            0x42 => Instruction::I64Const(self.number(64)? as i64),
            0x43 => Instruction::F32Const(u32::from_le_bytes(self.array()?)),
            0x44 => Instruction::F64Const(u64::from_le_bytes(self.array()?)),
            0xD0 => Instruction::RefNull(self.ref_type()?),
            0xD2 => Instruction::RefFunc(self.index()?),
            0xFC => self.bulk()?,
            0x28..=0x3E => {
                let access = Access::from_opcode(opcode).expect("a load or a store");
                Instruction::Access(access, self.mem_arg()?)
            }
            _ => Instruction::Op(Op::from_opcode(opcode).expect("the opcodes that are left")),
        })
    }

    fn open(&mut self, opening: Opening) -> Step<Instruction<'a>> {
        self.open.push(opening)?;
        let label = self.name()?;
        Ok(Instruction::Open(opening, label, self.type_use()?))
    }

    /// What stands after FC: a second byte and indices.
    fn bulk(&mut self) -> Step<Instruction<'a>> {
        Ok(match self.byte()? {
            0x08 => Instruction::MemoryInit {
                data: self.index()?,
                memory: self.optional_index()?,
            },
            0x09 => Instruction::DataDrop(self.index()?),
            0x0A => Instruction::MemoryCopy {
                destination: self.optional_index()?,
                source: self.optional_index()?,
            },
            0x0B => Instruction::MemoryFill(self.optional_index()?),
            _ => return Err(&Wrong(4, "no instruction has this byte after FC")),
        })
    }

    fn mem_arg(&mut self) -> Step<MemArg<'a>> {
        let alignment = self.form(ALIGNMENT, &Wrong(4, "no alignment has this byte"))?;
        Ok(MemArg {
            align: alignment.checked_sub(1),
            offset: self.u32()?,
            memory: self.optional_index()?,
        })
    }
}

impl<'a> Iterator for Reader<'a> {
    type Item = Result<Record<'a>, Fault>;

    fn next(&mut self) -> Option<Self::Item> {
        if self.stopped {
            return None;
        }
        let (number, offset) = (self.record, self.at);
        if self.stream.len() > STREAM_BYTES {
            self.stopped = true;
            return Some(Err(Fault {
                refusal: Refusal::new(1, 0),
                offset: STREAM_BYTES,
                what: "the stream is longer than 65,536 bytes",
            }));
        }
        if offset == self.stream.len() && !self.in_body {
            self.stopped = true;
            return None;
        }
        Some(match self.content() {
            Ok(content) => {
                self.record += 1;
                Ok(Record {
                    number,
                    offset,
                    bytes: &self.stream[offset..self.at],
                    content,
                })
            }
            Err(fault) => Err(self.stop(fault)),
        })
    }
}

impl std::iter::FusedIterator for Reader<'_> {}

/// Does an instruction record begin with this byte?
fn is_opcode(byte: u8) -> bool {
    matches!(
        byte,
        0x00..=0x05
            | 0x0B..=0x11
            | 0x1A
            | 0x1B
            | 0x20..=0x24
            | 0x28..=0xC4
            | 0xD0..=0xD2
            | 0xFC
    )
}

/// May the instruction with this opcode be folded?
fn may_fold(opcode: u8) -> bool {
    is_opcode(opcode) && !matches!(opcode, 0x02..=0x05 | 0x0B)
}

/// The standard's idchar: what is printed but for the blank, the quotation mark,
/// comma, semicolon and brackets.
fn is_idchar(byte: u8) -> bool {
    const IDCHAR: [bool; 256] = {
        let mut table = [false; 256];
        let mut byte = 0x21;
        while byte < 0x7F {
            let barred = matches!(
                byte as u8,
                b'"' | b',' | b';' | b'(' | b')' | b'[' | b']' | b'{' | b'}'
            );
            table[byte] = !barred;
            byte += 1;
        }
        table
    };
    IDCHAR[usize::from(byte)]
}
