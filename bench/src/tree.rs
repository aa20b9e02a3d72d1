//! The plain assembler's tree, and the reading of a stream into it. Names and
//! data borrow from the stream; lists are vectors. Inline exports and segments
//! become fields of their own, as document 01's de-inlining has it.
use crate::reader::*;

pub struct Variable<'a> {
    pub name: Option<Name<'a>>,
    pub value_type: u8,
}

pub struct TypeUse<'a> {
    pub index: Option<Index<'a>>,
    pub parameters: Vec<Variable<'a>>,
    pub results: Vec<u8>,
}

#[derive(PartialEq, Eq, Hash, Clone)]
pub struct Signature {
    pub parameters: Vec<u8>,
    pub results: Vec<u8>,
}

pub enum Description<'a> {
    Function(TypeUse<'a>),
    Table(u8, Limits),
    Memory(Limits),
    Global([u8; 2]),
}

/// None is a passive segment.
pub type Place<'a> = Option<(Option<Index<'a>>, Constant<'a>)>;

pub struct Function<'a> {
    pub type_use: TypeUse<'a>,
    pub locals: Vec<Variable<'a>>,
    pub body: Vec<Instruction<'a>>,
}

pub enum FieldKind<'a> {
    Type(Signature),
    Import((Name<'a>, Name<'a>), Description<'a>),
    Function(Box<Function<'a>>),
    Table(u8, Limits),
    Memory(Limits),
    Global([u8; 2], Constant<'a>),
    Export(Name<'a>, u8, Index<'a>),
    Start(Index<'a>),
    Elem(Place<'a>, Vec<Index<'a>>),
    Data(Place<'a>, &'a [u8]),
}

pub struct Field<'a> {
    pub record: u32,
    pub name: Option<Name<'a>>,
    pub kind: FieldKind<'a>,
}

pub enum Operands<'a> {
    None,
    Block(Option<Name<'a>>, Box<TypeUse<'a>>),
    Label(Option<Name<'a>>),
    Index(Index<'a>),
    /// The last one is the default.
    BrTable(Vec<Index<'a>>),
    CallIndirect(Option<Index<'a>>, Box<TypeUse<'a>>),
    Access { exponent: u8, offset: u32, memory: Option<Index<'a>> },
    Memory(Option<Index<'a>>),
    I32(u32),
    I64(u64),
    Float(&'a [u8]),
    Reference(u8),
    MemoryInit(Index<'a>, Box<Option<Index<'a>>>),
    DataDrop(Index<'a>),
    /// Destination and source.
    MemoryCopy(Option<Index<'a>>, Box<Option<Index<'a>>>),
    MemoryFill(Option<Index<'a>>),
}

/// A body has them in flat order: a folded record after its operands.
pub struct Instruction<'a> {
    pub record: u32,
    pub opcode: u8,
    pub operands: Operands<'a>,
}

/// Natural exponents for 28 to 3E.
const NATURAL: [u8; 23] = [2, 3, 2, 3, 0, 0, 1, 1, 0, 0, 1, 1, 2, 2, 2, 3, 2, 3, 0, 1, 0, 1, 2];

pub struct Tree<'a> {
    pub fields: Vec<Field<'a>>,
    pub records: u32,
}

/// The tree of a stream, or the first of refusals 1 to 9 and 19.
pub fn read(stream: &[u8]) -> Result<Tree<'_>, Refusal> {
    let mut reader = Reader::new(stream)?;
    let mut fields = Vec::new();
    while !reader.at_end() {
        if let Err(number) = reader.field(&mut fields) {
            return Err((number, reader.record));
        }
        reader.record += 1;
    }
    Ok(Tree { fields, records: reader.record })
}

impl<'a> TypeUse<'a> {
    pub fn is_inline(&self) -> bool {
        !self.parameters.is_empty() || !self.results.is_empty()
    }

    /// Without index, parameter and second result: as a block's type it is
    /// written short.
    pub fn is_short(&self) -> bool {
        self.index.is_none() && self.parameters.is_empty() && self.results.len() <= 1
    }

    pub fn signature(&self) -> Signature {
        Signature {
            parameters: self.parameters.iter().map(|one| one.value_type).collect(),
            results: self.results.clone(),
        }
    }

    pub fn has(&self, signature: &Signature) -> bool {
        self.results == signature.results
            && self.parameters.iter().map(|one| one.value_type).eq(signature.parameters.iter().copied())
    }
}

impl<'a> Reader<'a> {
    fn many<T>(&mut self, count: u32, mut one: impl FnMut(&mut Self) -> Step<T>) -> Step<Vec<T>> {
        let mut list = Vec::with_capacity(count as usize);
        for _ in 0..count {
            list.push(one(self)?);
        }
        Ok(list)
    }

    fn indices(&mut self) -> Step<Vec<Index<'a>>> {
        let count = self.up_to(INDICES, 7)?;
        self.many(count, Self::index)
    }

    fn value_types(&mut self, ceiling: u32) -> Step<Vec<u8>> {
        let count = self.up_to(ceiling, 7)?;
        self.many(count, Self::value_type)
    }

    fn variables(&mut self, ceiling: u32) -> Step<Vec<Variable<'a>>> {
        let count = self.up_to(ceiling, 7)?;
        self.many(count, |reader| Ok(Variable { name: reader.identifier()?, value_type: reader.value_type()? }))
    }

    fn type_use(&mut self) -> Step<TypeUse<'a>> {
        Ok(TypeUse {
            index: self.optional_index()?,
            parameters: self.variables(PARAMETERS)?,
            results: self.value_types(RESULTS)?,
        })
    }

    fn signature(&mut self) -> Step<Signature> {
        Ok(Signature { parameters: self.value_types(PARAMETERS)?, results: self.value_types(RESULTS)? })
    }

    fn description(&mut self, kind: usize) -> Step<Description<'a>> {
        Ok(match kind {
            FUNC => Description::Function(self.type_use()?),
            TABLE => {
                let (element, limits) = self.table_type()?;
                Description::Table(element, limits)
            }
            MEMORY => Description::Memory(self.limits()?),
            _ => Description::Global(self.global_type()?),
        })
    }

    /// Leaves `record` at the field's last record.
    fn field(&mut self, fields: &mut Vec<Field<'a>>) -> Step<()> {
        let record = self.record;
        let (name, kind) = match self.field_byte()? {
            0x01 => {
                self.item(TYPE)?;
                (self.identifier()?, FieldKind::Type(self.signature()?))
            }
            0x02 => {
                let strings = self.two_strings()?;
                let kind = self.form(3)?.into();
                self.item(kind)?;
                (self.identifier()?, FieldKind::Import(strings, self.description(kind)?))
            }
            first @ 0x03..=0x06 => return self.module_item((first - 0x03).into(), fields),
            0x07 => (None, FieldKind::Export(self.string()?, self.form(3)?, self.index()?)),
            0x08 => (None, FieldKind::Start(self.start()?)),
            0x09 => {
                self.item(ELEM)?;
                (self.identifier()?, FieldKind::Elem(self.place()?, self.indices()?))
            }
            _ => {
                self.item(DATA)?;
                (self.identifier()?, FieldKind::Data(self.place()?, self.data()?))
            }
        };
        fields.push(Field { record, name, kind });
        Ok(())
    }

    /// A function, table, memory or global: its exports, its inline segment,
    /// itself.
    fn module_item(&mut self, space: usize, fields: &mut Vec<Field<'a>>) -> Step<()> {
        let record = self.record;
        let number = self.items(space);
        self.item(space)?;
        let name = self.identifier()?;
        for _ in 0..self.up_to(EXPORTS, 7)? {
            let kind = FieldKind::Export(self.string()?, space as u8, Index::Number(number));
            fields.push(Field { record, name: None, kind });
        }
        let forms = if space == TABLE || space == MEMORY { 2 } else { 1 };
        let kind = match self.form(forms)? {
            0 => self.own(space)?,
            1 => FieldKind::Import(self.two_strings()?, self.description(space)?),
            _ => {
                let (segment, item) = self.inline(space, number)?;
                fields.push(Field { record, name: None, kind: segment });
                item
            }
        };
        fields.push(Field { record, name, kind });
        Ok(())
    }

    fn own(&mut self, space: usize) -> Step<FieldKind<'a>> {
        Ok(match space {
            FUNC => {
                let (type_use, locals) = (self.type_use()?, self.variables(LOCALS)?);
                FieldKind::Function(Box::new(Function { type_use, locals, body: self.body()? }))
            }
            TABLE => {
                let (element, limits) = self.table_type()?;
                FieldKind::Table(element, limits)
            }
            MEMORY => FieldKind::Memory(self.limits()?),
            _ => FieldKind::Global(self.global_type()?, self.constant()?),
        })
    }

    /// The segment that fills a table or memory, and the item itself.
    fn inline(&mut self, space: usize, number: u32) -> Step<(FieldKind<'a>, FieldKind<'a>)> {
        self.item(if space == TABLE { ELEM } else { DATA })?;
        let is_64_bit = self.is_64_bit()?;
        let zero = if is_64_bit == 0 { Constant::I32(0) } else { Constant::I64(0) };
        let place = Some((Some(Index::Number(number)), zero));
        let limits = |size| Limits { flags: is_64_bit | 1, minimum: size, maximum: Some(size) };
        Ok(if space == TABLE {
            let functions = self.indices()?;
            let table = FieldKind::Table(0x70, limits(functions.len() as u64));
            (FieldKind::Elem(place, functions), table)
        } else {
            let data = self.data()?;
            let memory = FieldKind::Memory(limits(data.len().div_ceil(65_536) as u64));
            (FieldKind::Data(place, data), memory)
        })
    }

    /// Leaves `record` at the body's FF.
    fn body(&mut self) -> Step<Vec<Instruction<'a>>> {
        let mut body = Vec::new();
        loop {
            self.record += 1;
            match self.opcode()? {
                0xFF => return Ok(body),
                FOLDED => self.folded(1, &mut body)?,
                opcode => {
                    let (record, operands) = (self.record, self.operands(opcode)?);
                    body.push(Instruction { record, opcode, operands });
                }
            }
        }
    }

    /// After F0, nested so deep: the operands, and then the operator. Leaves `record`
    /// at the last operand.
    fn folded(&mut self, nesting: u32, body: &mut Vec<Instruction<'a>>) -> Step<()> {
        let opcode = self.operator(nesting)?;
        let operator = Instruction { record: self.record, opcode, operands: self.operands(opcode)? };
        for _ in 0..self.up_to(OPERANDS, 7)? {
            self.record += 1;
            self.operand()?;
            self.folded(nesting + 1, body)?;
        }
        body.push(operator);
        Ok(())
    }

    fn operands(&mut self, opcode: u8) -> Step<Operands<'a>> {
        Ok(match opcode {
            0x02..=0x04 => Operands::Block(self.identifier()?, Box::new(self.type_use()?)),
            0x05 | 0x0B => Operands::Label(self.identifier()?),
            0x0C | 0x0D | 0x10 | 0x20..=0x24 | 0xD2 => Operands::Index(self.index()?),
            0x0E => {
                let count = self.up_to(INDICES, 7)?;
                Operands::BrTable(self.many(count + 1, Self::index)?)
            }
            0x11 => Operands::CallIndirect(self.optional_index()?, Box::new(self.type_use()?)),
            0x28..=0x3E => {
                let exponent = match self.form(ALIGNMENT)? {
                    0 => NATURAL[usize::from(opcode - 0x28)],
                    byte => byte - 1,
                };
                Operands::Access { exponent, offset: self.u32()?, memory: self.optional_index()? }
            }
            0x3F | 0x40 => Operands::Memory(self.optional_index()?),
            0x41 => Operands::I32(self.u32()?),
            0x42 => Operands::I64(self.u64()?),
            0x43 => Operands::Float(self.raw(4)?),
            0x44 => Operands::Float(self.raw(8)?),
            0xD0 => Operands::Reference(self.reference()?),
            0xFC => match self.bulk()? {
                MEMORY_INIT => Operands::MemoryInit(self.index()?, Box::new(self.optional_index()?)),
                DATA_DROP => Operands::DataDrop(self.index()?),
                MEMORY_COPY => Operands::MemoryCopy(self.optional_index()?, Box::new(self.optional_index()?)),
                _ => Operands::MemoryFill(self.optional_index()?),
            },
            _ => Operands::None,
        })
    }
}
