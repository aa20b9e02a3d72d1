//! What records are made of, for reading and for writing alike.
use super::{Access, Op};

/// A value type.
#[derive(Clone, Copy, Debug, PartialEq, Eq, Hash)]
#[repr(u8)]
pub enum ValType {
    I32 = 0x7F,
    I64 = 0x7E,
    F32 = 0x7D,
    F64 = 0x7C,
    FuncRef = 0x70,
    ExternRef = 0x6F,
}

impl ValType {
    /// The one with this byte.
    pub fn from_byte(byte: u8) -> Option<Self> {
        Some(match byte {
            0x7F => ValType::I32,
            0x7E => ValType::I64,
            0x7D => ValType::F32,
            0x7C => ValType::F64,
            0x70 => ValType::FuncRef,
            0x6F => ValType::ExternRef,
            _ => return None,
        })
    }

    /// The standard's byte.
    pub fn byte(self) -> u8 {
        self as u8
    }

    /// The name in the standard's text format.
    pub fn text(self) -> &'static str {
        match self {
            ValType::I32 => "i32",
            ValType::I64 => "i64",
            ValType::F32 => "f32",
            ValType::F64 => "f64",
            ValType::FuncRef => "funcref",
            ValType::ExternRef => "externref",
        }
    }
}

/// A reference type: what a table may hold.
#[derive(Clone, Copy, Debug, PartialEq, Eq, Hash)]
#[repr(u8)]
pub enum RefType {
    Func = 0x70,
    Extern = 0x6F,
}

impl RefType {
    /// The one with this byte.
    pub fn from_byte(byte: u8) -> Option<Self> {
        match byte {
            0x70 => Some(RefType::Func),
            0x6F => Some(RefType::Extern),
            _ => None,
        }
    }

    /// The standard's byte.
    pub fn byte(self) -> u8 {
        self as u8
    }

    /// What it refers to, in the standard's text format.
    pub fn text(self) -> &'static str {
        match self {
            RefType::Func => "func",
            RefType::Extern => "extern",
        }
    }
}

impl From<RefType> for ValType {
    fn from(given: RefType) -> Self {
        match given {
            RefType::Func => ValType::FuncRef,
            RefType::Extern => ValType::ExternRef,
        }
    }
}

/// What is imported or exported.
#[derive(Clone, Copy, Debug, PartialEq, Eq, Hash)]
#[repr(u8)]
pub enum Kind {
    Func = 0,
    Table = 1,
    Memory = 2,
    Global = 3,
}

impl Kind {
    /// The one with this byte.
    pub fn from_byte(byte: u8) -> Option<Self> {
        Some(match byte {
            0 => Kind::Func,
            1 => Kind::Table,
            2 => Kind::Memory,
            3 => Kind::Global,
            _ => return None,
        })
    }

    /// The byte of a record.
    pub fn byte(self) -> u8 {
        self as u8
    }

    /// The name in the standard's text format.
    pub fn text(self) -> &'static str {
        match self {
            Kind::Func => "func",
            Kind::Table => "table",
            Kind::Memory => "memory",
            Kind::Global => "global",
        }
    }
}

/// Which item, local or label is meant: by its number or by its name, which is
/// not empty. Where an index may be absent it is an `Option`.
#[derive(Clone, Copy, Debug, PartialEq, Eq, Hash)]
pub enum Index<'a> {
    Number(u32),
    Name(&'a str),
}

impl From<u32> for Index<'_> {
    fn from(number: u32) -> Self {
        Index::Number(number)
    }
}

impl<'a> From<&'a str> for Index<'a> {
    fn from(name: &'a str) -> Self {
        Index::Name(name)
    }
}

impl<'a> From<&'a String> for Index<'a> {
    fn from(name: &'a String) -> Self {
        Index::Name(name)
    }
}

/// A parameter or a local.
#[derive(Clone, Copy, Debug, PartialEq, Eq, Hash)]
pub struct Var<'a> {
    pub name: Option<&'a str>,
    pub ty: ValType,
}

impl<'a> Var<'a> {
    /// One of this name.
    pub fn named(name: &'a str, ty: ValType) -> Self {
        Var {
            name: Some(name),
            ty,
        }
    }
}

impl From<ValType> for Var<'_> {
    fn from(ty: ValType) -> Self {
        Var { name: None, ty }
    }
}

impl<'a> From<(&'a str, ValType)> for Var<'a> {
    fn from((name, ty): (&'a str, ValType)) -> Self {
        Var::named(name, ty)
    }
}

/// The type of a function, a block or an indirect call: by an index, inline by
/// parameters and results, by both, or by neither, which means no parameter and
/// no result.
#[derive(Clone, Debug, Default, PartialEq, Eq, Hash)]
pub struct TypeUse<'a> {
    pub index: Option<Index<'a>>,
    pub params: Vec<Var<'a>>,
    pub results: Vec<ValType>,
}

impl<'a> TypeUse<'a> {
    /// No index, no parameter, no result.
    pub fn new() -> Self {
        TypeUse::default()
    }

    /// The type of this index, and nothing inline.
    pub fn of(index: impl Into<Index<'a>>) -> Self {
        TypeUse {
            index: Some(index.into()),
            ..TypeUse::default()
        }
    }

    /// One more parameter: `(name, type)`, or the type alone.
    pub fn param(mut self, param: impl Into<Var<'a>>) -> Self {
        self.params.push(param.into());
        self
    }

    /// One more result.
    pub fn result(mut self, ty: ValType) -> Self {
        self.results.push(ty);
        self
    }

    /// Has it any parameter or result?
    pub fn is_inline(&self) -> bool {
        !self.params.is_empty() || !self.results.is_empty()
    }
}

/// The size of a table, in elements, or of a memory, in pages.
#[derive(Clone, Copy, Debug, PartialEq, Eq, Hash)]
pub enum Limits {
    Bits32 { min: u32, max: Option<u32> },
    Bits64 { min: u64, max: Option<u64> },
}

impl Limits {
    /// At least `min`, of 32 bits.
    pub fn at_least(min: u32) -> Self {
        Limits::Bits32 { min, max: None }
    }

    /// `min` to `max`, of 32 bits.
    pub fn between(min: u32, max: u32) -> Self {
        Limits::Bits32 {
            min,
            max: Some(max),
        }
    }

    /// Is it of a 64-bit table or memory?
    pub fn is64(self) -> bool {
        matches!(self, Limits::Bits64 { .. })
    }

    /// The minimum, of either width.
    pub fn min(self) -> u64 {
        match self {
            Limits::Bits32 { min, .. } => min.into(),
            Limits::Bits64 { min, .. } => min,
        }
    }

    /// The maximum, of either width.
    pub fn max(self) -> Option<u64> {
        match self {
            Limits::Bits32 { max, .. } => max.map(u64::from),
            Limits::Bits64 { max, .. } => max,
        }
    }
}

/// The type of a table.
#[derive(Clone, Copy, Debug, PartialEq, Eq, Hash)]
pub struct TableType {
    pub element: RefType,
    pub limits: Limits,
}

/// The type of a global.
#[derive(Clone, Copy, Debug, PartialEq, Eq, Hash)]
pub struct GlobalType {
    pub ty: ValType,
    pub mutable: bool,
}

/// A constant: where a global or a segment begins. Floats are their bits, so
/// that no NaN changes.
#[derive(Clone, Copy, Debug, PartialEq, Eq, Hash)]
pub enum Const<'a> {
    I32(i32),
    I64(i64),
    F32(u32),
    F64(u64),
    GlobalGet(Index<'a>),
    RefNull(RefType),
    RefFunc(Index<'a>),
}

impl From<i32> for Const<'_> {
    fn from(value: i32) -> Self {
        Const::I32(value)
    }
}

impl From<i64> for Const<'_> {
    fn from(value: i64) -> Self {
        Const::I64(value)
    }
}

impl From<f32> for Const<'_> {
    fn from(value: f32) -> Self {
        Const::F32(value.to_bits())
    }
}

impl From<f64> for Const<'_> {
    fn from(value: f64) -> Self {
        Const::F64(value.to_bits())
    }
}

/// Where an active segment goes: into the table or memory of this index, 0 where
/// it is absent, at this offset.
#[derive(Clone, Copy, Debug, PartialEq, Eq, Hash)]
pub struct Place<'a> {
    pub index: Option<Index<'a>>,
    pub offset: Const<'a>,
}

/// What an import is called by the host.
#[derive(Clone, Copy, Debug, PartialEq, Eq, Hash)]
pub struct ImportName<'a> {
    pub module: &'a str,
    pub name: &'a str,
}

/// What is imported by record 02.
#[derive(Clone, Debug, PartialEq, Eq, Hash)]
pub enum ItemType<'a> {
    Func(TypeUse<'a>),
    Table(TableType),
    Memory(Limits),
    Global(GlobalType),
}

impl ItemType<'_> {
    /// Its kind.
    pub fn kind(&self) -> Kind {
        match self {
            ItemType::Func(_) => Kind::Func,
            ItemType::Table(_) => Kind::Table,
            ItemType::Memory(_) => Kind::Memory,
            ItemType::Global(_) => Kind::Global,
        }
    }
}

/// What functions, tables, memories and globals begin with.
#[derive(Clone, Debug, Default, PartialEq, Eq, Hash)]
pub struct Head<'a> {
    pub name: Option<&'a str>,
    pub exports: Vec<&'a str>,
}

impl<'a> Head<'a> {
    /// Neither name nor export.
    pub fn new() -> Self {
        Head::default()
    }

    /// One more export of this name.
    pub fn export(mut self, name: &'a str) -> Self {
        self.exports.push(name);
        self
    }
}

/// The name alone.
impl<'a> From<&'a str> for Head<'a> {
    fn from(name: &'a str) -> Self {
        Head {
            name: Some(name),
            exports: Vec::new(),
        }
    }
}

/// The two forms of a function; an own one is followed by its body.
#[derive(Clone, Debug, PartialEq, Eq, Hash)]
pub enum Func<'a> {
    Own {
        ty: TypeUse<'a>,
        locals: Vec<Var<'a>>,
    },
    Import(ImportName<'a>, TypeUse<'a>),
}

/// The three forms of a table.
#[derive(Clone, Debug, PartialEq, Eq, Hash)]
pub enum Table<'a> {
    Own(TableType),
    Import(ImportName<'a>, TableType),
    /// With its elements, which are functions.
    Elements {
        is64: bool,
        funcs: Vec<Index<'a>>,
    },
}

/// The three forms of a memory.
#[derive(Clone, Copy, Debug, PartialEq, Eq, Hash)]
pub enum Memory<'a> {
    Own(Limits),
    Import(ImportName<'a>, Limits),
    /// With its data.
    Data {
        is64: bool,
        data: &'a [u8],
    },
}

/// The two forms of a global.
#[derive(Clone, Copy, Debug, PartialEq, Eq, Hash)]
pub enum Global<'a> {
    Own(GlobalType, Const<'a>),
    Import(ImportName<'a>, GlobalType),
}

/// A field record; of an own function, what stands before its body.
#[derive(Clone, Debug, PartialEq, Eq, Hash)]
pub enum Field<'a> {
    Type {
        name: Option<&'a str>,
        params: Vec<ValType>,
        results: Vec<ValType>,
    },
    Import {
        from: ImportName<'a>,
        name: Option<&'a str>,
        ty: ItemType<'a>,
    },
    Func(Head<'a>, Func<'a>),
    Table(Head<'a>, Table<'a>),
    Memory(Head<'a>, Memory<'a>),
    Global(Head<'a>, Global<'a>),
    Export {
        name: &'a str,
        kind: Kind,
        index: Index<'a>,
    },
    Start(Index<'a>),
    Elem {
        name: Option<&'a str>,
        place: Option<Place<'a>>,
        funcs: Vec<Index<'a>>,
    },
    Data {
        name: Option<&'a str>,
        place: Option<Place<'a>>,
        data: &'a [u8],
    },
}

/// What opens a block.
#[derive(Clone, Copy, Debug, PartialEq, Eq, Hash)]
#[repr(u8)]
pub enum Opening {
    Block = 0x02,
    Loop = 0x03,
    If = 0x04,
}

impl Opening {
    /// The standard's opcode.
    pub fn opcode(self) -> u8 {
        self as u8
    }

    /// The name in the standard's text format.
    pub fn text(self) -> &'static str {
        match self {
            Opening::Block => "block",
            Opening::Loop => "loop",
            Opening::If => "if",
        }
    }
}

/// What a load or store has beside its opcode.
#[derive(Clone, Copy, Debug, Default, PartialEq, Eq, Hash)]
pub struct MemArg<'a> {
    /// The exponent of the alignment, 0 to 31; None is the natural one.
    pub align: Option<u8>,
    pub offset: u32,
    /// Memory 0 where it is absent.
    pub memory: Option<Index<'a>>,
}

impl<'a> MemArg<'a> {
    /// Naturally aligned, in memory 0.
    pub fn offset(offset: u32) -> Self {
        MemArg {
            offset,
            ..MemArg::default()
        }
    }
}

/// An instruction record.
#[derive(Clone, Debug, PartialEq, Eq, Hash)]
pub enum Instruction<'a> {
    /// One without operands.
    Op(Op),
    /// block, loop or if, with its label.
    Open(Opening, Option<&'a str>, TypeUse<'a>),
    Else(Option<&'a str>),
    End(Option<&'a str>),
    Br(Index<'a>),
    BrIf(Index<'a>),
    /// The labels, and the default.
    BrTable(Vec<Index<'a>>, Index<'a>),
    Call(Index<'a>),
    /// The table, 0 where it is absent, and the type.
    CallIndirect(Option<Index<'a>>, TypeUse<'a>),
    LocalGet(Index<'a>),
    LocalSet(Index<'a>),
    LocalTee(Index<'a>),
    GlobalGet(Index<'a>),
    GlobalSet(Index<'a>),
    Access(Access, MemArg<'a>),
    /// Memory 0 where it is absent.
    MemorySize(Option<Index<'a>>),
    /// Memory 0 where it is absent.
    MemoryGrow(Option<Index<'a>>),
    /// From a data segment into a memory, 0 where it is absent.
    MemoryInit {
        data: Index<'a>,
        memory: Option<Index<'a>>,
    },
    /// A data segment that is needed no more.
    DataDrop(Index<'a>),
    /// Memory 0 where one is absent.
    MemoryCopy {
        destination: Option<Index<'a>>,
        source: Option<Index<'a>>,
    },
    /// Memory 0 where it is absent.
    MemoryFill(Option<Index<'a>>),
    I32Const(i32),
    I64Const(i64),
    /// The bits.
    F32Const(u32),
    /// The bits.
    F64Const(u64),
    RefNull(RefType),
    RefFunc(Index<'a>),
}

impl Instruction<'_> {
    /// May it be the operator of a folded record? block, loop, if, else and end
    /// may not.
    pub fn may_fold(&self) -> bool {
        !matches!(
            self,
            Instruction::Open(..) | Instruction::Else(_) | Instruction::End(_)
        )
    }
}

impl From<Op> for Instruction<'_> {
    fn from(op: Op) -> Self {
        Instruction::Op(op)
    }
}

/// What a record says.
#[derive(Clone, Debug, PartialEq, Eq, Hash)]
pub enum Content<'a> {
    Field(Field<'a>),
    Instruction(Instruction<'a>),
    /// F0: an operator and how many operands it has. They are the folded records
    /// that follow, each with its own.
    Folded(Instruction<'a>, u32),
    /// FF, the end of a body.
    BodyEnd,
}

/// A record of a stream.
#[derive(Clone, Debug, PartialEq, Eq, Hash)]
pub struct Record<'a> {
    /// From 0.
    pub number: u32,
    /// Where its first byte stands in the stream.
    pub offset: usize,
    pub bytes: &'a [u8],
    pub content: Content<'a>,
}
