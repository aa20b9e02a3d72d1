//! STAND-IN for the crate's core/expr.rs, which was not published: the syntax
//! of instructions, as far as the published files name it. Variants and
//! payloads have the names and types under which resolve/names.rs,
//! resolve/types.rs and binary.rs take them apart. Document 01's instructions
//! without an operand are one variant here, `plain`, and its loads and stores
//! another, `access`; what lies outside documents 01 and 02 is there only so that
//! the published files compile.
use crate::core::binary::custom_encoders as custom;
use crate::core::*;
use crate::parser::{Parse, Parser, Result};
use crate::token::*;
use wasm_encoder::InstructionSink;

#[derive(Debug)]
pub struct Expression<'a> {
    pub instrs: Box<[Instruction<'a>]>,
    pub branch_hints: Box<[BranchHint]>,
    pub instr_spans: Option<Box<[Span]>>,
}

#[derive(Debug)]
pub struct BranchHint {
    pub instr_index: usize,
    pub value: u32,
}

impl<'a> Parse<'a> for Expression<'a> {
    fn parse(_parser: Parser<'a>) -> Result<Self> {
        unimplemented!()
    }
}

impl<'a> Parse<'a> for Instruction<'a> {
    fn parse(_parser: Parser<'a>) -> Result<Self> {
        unimplemented!()
    }
}

impl<'a> Expression<'a> {
    pub fn one(instr: Instruction<'a>) -> Expression<'a> {
        Expression {
            instrs: Box::new([instr]),
            branch_hints: Box::new([]),
            instr_spans: None,
        }
    }
    pub fn parse_folded_instruction(_parser: Parser<'a>) -> Result<Self> {
        unimplemented!()
    }
}

#[allow(non_camel_case_types)]
#[derive(Debug, Clone)]
pub enum Instruction<'a> {
    // Document 01's, and of document 02 the bulk memory instructions:
    /// Any instruction without an operand but `select`, `else` and `end`.
    plain(u8),
    /// Any load or store, 28 to 3E.
    access(u8, MemArg<'a>),
    block(Box<BlockType<'a>>),
    loop_(Box<BlockType<'a>>),
    if_(Box<BlockType<'a>>),
    else_(Option<Id<'a>>),
    end(Option<Id<'a>>),
    br(Index<'a>),
    br_if(Index<'a>),
    br_table(BrTableIndices<'a>),
    call(Index<'a>),
    call_indirect(Box<CallIndirect<'a>>),
    select(SelectTypes<'a>),
    local_get(Index<'a>),
    local_set(Index<'a>),
    local_tee(Index<'a>),
    global_get(Index<'a>),
    global_set(Index<'a>),
    memory_size(MemoryArg<'a>),
    memory_grow(MemoryArg<'a>),
    memory_init(MemoryInit<'a>),
    data_drop(Index<'a>),
    memory_copy(MemoryCopy<'a>),
    memory_fill(MemoryArg<'a>),
    i32_const(i32),
    i64_const(i64),
    f32_const(F32),
    f64_const(F64),
    ref_null(HeapType<'a>),
    ref_func(Index<'a>),

    // Outside:
    memory_discard(MemoryArg<'a>),
    table_init(TableInit<'a>),
    elem_drop(Index<'a>),
    table_copy(TableCopy<'a>),
    table_fill(TableArg<'a>),
    table_set(TableArg<'a>),
    table_get(TableArg<'a>),
    table_size(TableArg<'a>),
    table_grow(TableArg<'a>),
    table_atomic_get(Ordered<TableArg<'a>>),
    table_atomic_set(Ordered<TableArg<'a>>),
    table_atomic_rmw_xchg(Ordered<TableArg<'a>>),
    table_atomic_rmw_cmpxchg(Ordered<TableArg<'a>>),
    global_atomic_get(Ordered<Index<'a>>),
    global_atomic_set(Ordered<Index<'a>>),
    global_atomic_rmw_add(Ordered<Index<'a>>),
    global_atomic_rmw_sub(Ordered<Index<'a>>),
    global_atomic_rmw_and(Ordered<Index<'a>>),
    global_atomic_rmw_or(Ordered<Index<'a>>),
    global_atomic_rmw_xor(Ordered<Index<'a>>),
    global_atomic_rmw_xchg(Ordered<Index<'a>>),
    global_atomic_rmw_cmpxchg(Ordered<Index<'a>>),
    return_call(Index<'a>),
    return_call_indirect(Box<CallIndirect<'a>>),
    call_ref(Index<'a>),
    return_call_ref(Index<'a>),
    try_(Box<BlockType<'a>>),
    try_table(TryTable<'a>),
    br_on_null(Index<'a>),
    br_on_non_null(Index<'a>),
    throw(Index<'a>),
    catch(Index<'a>),
    rethrow(Index<'a>),
    delegate(Index<'a>),
    ref_test(RefTest<'a>),
    ref_cast(RefCast<'a>),
    br_on_cast(BrOnCast<'a>),
    br_on_cast_fail(BrOnCastFail<'a>),
    struct_new(Index<'a>),
    struct_new_default(Index<'a>),
    array_new(Index<'a>),
    array_new_default(Index<'a>),
    array_get(Index<'a>),
    array_get_s(Index<'a>),
    array_get_u(Index<'a>),
    array_set(Index<'a>),
    struct_set(StructAccess<'a>),
    struct_get(StructAccess<'a>),
    struct_get_s(StructAccess<'a>),
    struct_get_u(StructAccess<'a>),
    struct_atomic_get(Ordered<StructAccess<'a>>),
    struct_atomic_get_s(Ordered<StructAccess<'a>>),
    struct_atomic_get_u(Ordered<StructAccess<'a>>),
    struct_atomic_set(Ordered<StructAccess<'a>>),
    struct_atomic_rmw_add(Ordered<StructAccess<'a>>),
    struct_atomic_rmw_sub(Ordered<StructAccess<'a>>),
    struct_atomic_rmw_and(Ordered<StructAccess<'a>>),
    struct_atomic_rmw_or(Ordered<StructAccess<'a>>),
    struct_atomic_rmw_xor(Ordered<StructAccess<'a>>),
    struct_atomic_rmw_xchg(Ordered<StructAccess<'a>>),
    struct_atomic_rmw_cmpxchg(Ordered<StructAccess<'a>>),
    array_new_fixed(ArrayNewFixed<'a>),
    array_new_data(ArrayNewData<'a>),
    array_new_elem(ArrayNewElem<'a>),
    array_fill(ArrayFill<'a>),
    array_copy(ArrayCopy<'a>),
    array_init_data(ArrayInit<'a>),
    array_init_elem(ArrayInit<'a>),
    array_atomic_get(Ordered<Index<'a>>),
    array_atomic_get_s(Ordered<Index<'a>>),
    array_atomic_get_u(Ordered<Index<'a>>),
    array_atomic_set(Ordered<Index<'a>>),
    array_atomic_rmw_add(Ordered<Index<'a>>),
    array_atomic_rmw_sub(Ordered<Index<'a>>),
    array_atomic_rmw_and(Ordered<Index<'a>>),
    array_atomic_rmw_or(Ordered<Index<'a>>),
    array_atomic_rmw_xor(Ordered<Index<'a>>),
    array_atomic_rmw_xchg(Ordered<Index<'a>>),
    array_atomic_rmw_cmpxchg(Ordered<Index<'a>>),
    cont_new(Index<'a>),
    cont_bind(ContBind<'a>),
    suspend(Index<'a>),
    resume(Resume<'a>),
    resume_throw(ResumeThrow<'a>),
    resume_throw_ref(ResumeThrowRef<'a>),
    switch(Switch<'a>),
    struct_new_desc(Index<'a>),
    struct_new_default_desc(Index<'a>),
    ref_get_desc(Index<'a>),
    ref_cast_desc_eq(RefCastDescEq<'a>),
    br_on_cast_desc_eq(BrOnCastDescEq<'a>),
    br_on_cast_desc_eq_fail(BrOnCastDescEqFail<'a>),
}

impl<'a> Instruction<'a> {
    /// Asked by resolve/names.rs: the memory of a load or store.
    pub fn memarg_mut(&mut self) -> Option<&mut MemArg<'a>> {
        match self {
            Instruction::access(_, m) => Some(m),
            _ => None,
        }
    }

    /// Asked by binary.rs for the section that counts data segments.
    pub(crate) fn needs_data_count(&self) -> bool {
        matches!(self, Instruction::memory_init(_) | Instruction::data_drop(_))
    }

    /// Hands each operand over by the crate's own conversion, or by its custom
    /// encoder where binary.rs has one.
    pub(crate) fn encode(&self, sink: &mut InstructionSink<'_>) {
        use Instruction as I;
        match self {
            I::plain(op) => sink.plain(*op),
            I::access(op, m) => sink.access(*op, m.into()),
            I::block(b) => sink.opener(0x02, b.into()),
            I::loop_(b) => sink.opener(0x03, b.into()),
            I::if_(b) => sink.opener(0x04, b.into()),
            I::else_(l) => custom::else_(sink, l),
            I::end(l) => custom::end(sink, l),
            I::br(i) => sink.indexed(0x0c, i.into()),
            I::br_if(i) => sink.indexed(0x0d, i.into()),
            I::br_table(b) => custom::br_table(sink, b),
            I::call(i) => sink.indexed(0x10, i.into()),
            I::call_indirect(c) => custom::call_indirect(sink, c),
            I::select(s) => custom::select(sink, s),
            I::local_get(i) => sink.indexed(0x20, i.into()),
            I::local_set(i) => sink.indexed(0x21, i.into()),
            I::local_tee(i) => sink.indexed(0x22, i.into()),
            I::global_get(i) => sink.indexed(0x23, i.into()),
            I::global_set(i) => sink.indexed(0x24, i.into()),
            I::memory_size(m) => sink.indexed(0x3f, m.into()),
            I::memory_grow(m) => sink.indexed(0x40, m.into()),
            I::memory_init(i) => custom::memory_init(sink, i),
            I::data_drop(i) => _ = sink.data_drop(i.into()),
            I::memory_copy(c) => custom::memory_copy(sink, c),
            I::memory_fill(m) => _ = sink.memory_fill(m.into()),
            I::i32_const(x) => custom::i32_const(sink, x),
            I::i64_const(x) => custom::i64_const(sink, x),
            I::f32_const(x) => sink.f32_const(x.into()),
            I::f64_const(x) => sink.f64_const(x.into()),
            I::ref_null(h) => sink.ref_null(h.into()),
            I::ref_func(i) => sink.indexed(0xd2, i.into()),
            other => unreachable!("outside documents 01 and 02: {other:?}"),
        }
    }
}

macro_rules! payloads {
    ($($name:ident { $($field:ident : $ty:ty),* })*) => {$(
        #[derive(Debug, Clone)]
        pub struct $name<'a> { $(pub $field: $ty),* }
    )*};
}

payloads! {
    BlockType {
        label: Option<Id<'a>>,
        label_name: Option<NameAnnotation<'a>>,
        ty: TypeUse<'a, FunctionType<'a>>
    }
    BrTableIndices { labels: Vec<Index<'a>>, default: Index<'a> }
    CallIndirect { table: Index<'a>, ty: TypeUse<'a, FunctionType<'a>> }
    MemArg { align: u32, offset: u64, memory: Index<'a> }
    MemoryArg { mem: Index<'a> }
    SelectTypes { tys: Option<Vec<ValType<'a>>> }
    MemoryInit { data: Index<'a>, mem: Index<'a> }
    MemoryCopy { src: Index<'a>, dst: Index<'a> }

    TableArg { dst: Index<'a> }
    TableInit { table: Index<'a>, elem: Index<'a> }
    TableCopy { dst: Index<'a>, src: Index<'a> }
    ContBind { argument_index: Index<'a>, result_index: Index<'a> }
    Resume { type_index: Index<'a>, table: ResumeTable<'a> }
    ResumeThrow { type_index: Index<'a>, tag_index: Index<'a>, table: ResumeTable<'a> }
    ResumeThrowRef { type_index: Index<'a>, table: ResumeTable<'a> }
    ResumeTable { handlers: Vec<Handle<'a>> }
    Switch { type_index: Index<'a>, tag_index: Index<'a> }
    TryTable { block: Box<BlockType<'a>>, catches: Vec<TryTableCatch<'a>> }
    TryTableCatch { kind: TryTableCatchKind<'a>, label: Index<'a> }
    StructAccess { r#struct: Index<'a>, field: Index<'a> }
    ArrayFill { array: Index<'a> }
    ArrayCopy { dest_array: Index<'a>, src_array: Index<'a> }
    ArrayInit { array: Index<'a>, segment: Index<'a> }
    ArrayNewFixed { array: Index<'a>, length: u32 }
    ArrayNewData { array: Index<'a>, data_idx: Index<'a> }
    ArrayNewElem { array: Index<'a>, elem_idx: Index<'a> }
    RefCast { r#type: RefType<'a> }
    RefTest { r#type: RefType<'a> }
    RefCastDescEq { r#type: RefType<'a> }
    BrOnCast { label: Index<'a>, from_type: RefType<'a>, to_type: RefType<'a> }
    BrOnCastFail { label: Index<'a>, from_type: RefType<'a>, to_type: RefType<'a> }
    BrOnCastDescEq { label: Index<'a>, from_type: RefType<'a>, to_type: RefType<'a> }
    BrOnCastDescEqFail { label: Index<'a>, from_type: RefType<'a>, to_type: RefType<'a> }
    LoadOrStoreLane { memarg: MemArg<'a>, lane: LaneArg }
}

#[derive(Debug, Clone)]
pub enum Handle<'a> {
    OnLabel { tag: Index<'a>, label: Index<'a> },
    OnSwitch { tag: Index<'a> },
}

#[derive(Debug, Clone)]
pub enum TryTableCatchKind<'a> {
    Catch(Index<'a>),
    CatchRef(Index<'a>),
    CatchAll,
    CatchAllRef,
}

impl<'a> TryTableCatchKind<'a> {
    pub fn tag_index_mut(&mut self) -> Option<&mut Index<'a>> {
        match self {
            TryTableCatchKind::Catch(t) | TryTableCatchKind::CatchRef(t) => Some(t),
            TryTableCatchKind::CatchAll | TryTableCatchKind::CatchAllRef => None,
        }
    }
}

#[derive(Debug, Clone)]
pub struct LaneArg {
    pub lane: u8,
}

#[derive(Debug, Clone)]
pub enum Ordering {
    AcqRel,
    SeqCst,
}

#[derive(Debug, Clone)]
pub struct Ordered<T> {
    pub ordering: Ordering,
    pub inner: T,
}

#[derive(Debug, Clone)]
pub struct V128Const;

impl V128Const {
    pub fn to_le_bytes(&self) -> [u8; 16] {
        unimplemented!()
    }
}

impl<'a> Parse<'a> for V128Const {
    fn parse(_parser: Parser<'a>) -> Result<Self> {
        unimplemented!()
    }
}

#[derive(Debug, Clone)]
pub struct I8x16Shuffle {
    pub lanes: [u8; 16],
}
