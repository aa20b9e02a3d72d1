//! STAND-IN for the crate wasm-encoder, which was not published, for the calls
//! that the crate's core/binary.rs makes. Written from the WebAssembly Core
//! Specification 3.0, chapter 5 ("Binary Format"); the numbers in comments are
//! its sections. Where the specification allows more than one form, the line
//! is marked CHOICE: there, and nowhere else, the bytes rest on what the real
//! wasm-encoder does, and not on the specification. What lies outside document
//! 01 panics.
use std::borrow::Cow;

#[cold]
fn outside() -> ! {
    panic!("outside document 01")
}

// ---- numbers, strings, vectors (5.2) -------------------------------------
// CHOICE: every number in its shortest form (document 01 says so too).

fn uleb(out: &mut Vec<u8>, mut x: u64) {
    while x >= 0x80 {
        out.push(x as u8 | 0x80);
        x >>= 7;
    }
    out.push(x as u8);
}

fn sleb(out: &mut Vec<u8>, mut x: i64) {
    loop {
        let low = (x & 0x7f) as u8;
        x >>= 7;
        if (x == 0 && low & 0x40 == 0) || (x == -1 && low & 0x40 != 0) {
            out.push(low);
            return;
        }
        out.push(low | 0x80);
    }
}

fn name(out: &mut Vec<u8>, s: &str) {
    uleb(out, s.len() as u64);
    out.extend_from_slice(s.as_bytes());
}

// ---- types (5.3) ---------------------------------------------------------

#[derive(Clone, Copy, Debug, PartialEq, Eq)]
pub enum AbstractHeapType {
    Func,
    Extern,
    Exn,
    NoExn,
    Any,
    Eq,
    Struct,
    Array,
    NoFunc,
    NoExtern,
    None,
    I31,
    Cont,
    NoCont,
}

#[derive(Clone, Copy, Debug, PartialEq, Eq)]
pub enum HeapType {
    Abstract { shared: bool, ty: AbstractHeapType },
    Concrete(u32),
    Exact(u32),
}

impl HeapType {
    fn put(&self, out: &mut Vec<u8>) {
        match self {
            HeapType::Abstract { shared: false, ty: AbstractHeapType::Func } => out.push(0x70),
            HeapType::Abstract { shared: false, ty: AbstractHeapType::Extern } => out.push(0x6f),
            _ => outside(),
        }
    }
}

#[derive(Clone, Copy, Debug, PartialEq, Eq)]
pub struct RefType {
    pub nullable: bool,
    pub heap_type: HeapType,
}

impl RefType {
    fn put(&self, out: &mut Vec<u8>) {
        // CHOICE: the one-byte abbreviation of (ref null ht), not 63 ht.
        if !self.nullable {
            outside()
        }
        self.heap_type.put(out)
    }
}

#[derive(Clone, Copy, Debug, PartialEq, Eq)]
pub enum ValType {
    I32,
    I64,
    F32,
    F64,
    V128,
    Ref(RefType),
}

impl ValType {
    fn put(&self, out: &mut Vec<u8>) {
        match self {
            ValType::I32 => out.push(0x7f),
            ValType::I64 => out.push(0x7e),
            ValType::F32 => out.push(0x7d),
            ValType::F64 => out.push(0x7c),
            ValType::V128 => outside(),
            ValType::Ref(r) => r.put(out),
        }
    }
}

#[derive(Clone, Copy, Debug)]
pub enum StorageType {
    I8,
    I16,
    Val(ValType),
}

#[derive(Clone, Debug)]
pub struct FieldType {
    pub element_type: StorageType,
    pub mutable: bool,
}

#[derive(Clone, Debug)]
pub struct FuncType {
    params: Vec<ValType>,
    results: Vec<ValType>,
}

impl FuncType {
    pub fn new(
        params: impl IntoIterator<Item = ValType>,
        results: impl IntoIterator<Item = ValType>,
    ) -> Self {
        FuncType {
            params: params.into_iter().collect(),
            results: results.into_iter().collect(),
        }
    }
}

#[derive(Clone, Debug)]
pub struct StructType {
    pub fields: Box<[FieldType]>,
}

#[derive(Clone, Debug)]
pub struct ArrayType(pub FieldType);

#[derive(Clone, Debug)]
pub struct ContType(pub u32);

#[derive(Clone, Debug)]
pub enum CompositeInnerType {
    Func(FuncType),
    Array(ArrayType),
    Struct(StructType),
    Cont(ContType),
}

#[derive(Clone, Debug)]
pub struct CompositeType {
    pub inner: CompositeInnerType,
    pub shared: bool,
    pub descriptor: Option<u32>,
    pub describes: Option<u32>,
}

#[derive(Clone, Debug)]
pub struct SubType {
    pub is_final: bool,
    pub supertype_idxs: Vec<u32>,
    pub composite_type: CompositeType,
}

#[derive(Clone, Copy, Debug)]
pub struct TableType {
    pub element_type: RefType,
    pub table64: bool,
    pub minimum: u64,
    pub maximum: Option<u64>,
    pub shared: bool,
}

#[derive(Clone, Copy, Debug)]
pub struct MemoryType {
    pub minimum: u64,
    pub maximum: Option<u64>,
    pub memory64: bool,
    pub shared: bool,
    pub page_size_log2: Option<u32>,
}

#[derive(Clone, Copy, Debug)]
pub struct GlobalType {
    pub val_type: ValType,
    pub mutable: bool,
    pub shared: bool,
}

#[derive(Clone, Copy, Debug)]
pub enum TagKind {
    Exception,
}

#[derive(Clone, Copy, Debug)]
pub struct TagType {
    pub kind: TagKind,
    pub func_type_idx: u32,
}

fn limits(out: &mut Vec<u8>, is64: bool, min: u64, max: Option<u64>) {
    out.push(match (is64, max.is_some()) {
        (false, false) => 0x00,
        (false, true) => 0x01,
        (true, false) => 0x04,
        (true, true) => 0x05,
    });
    uleb(out, min);
    if let Some(max) = max {
        uleb(out, max);
    }
}

impl TableType {
    fn put(&self, out: &mut Vec<u8>) {
        if self.shared {
            outside()
        }
        self.element_type.put(out);
        limits(out, self.table64, self.minimum, self.maximum);
    }
}

impl MemoryType {
    fn put(&self, out: &mut Vec<u8>) {
        if self.shared || self.page_size_log2.is_some() {
            outside()
        }
        limits(out, self.memory64, self.minimum, self.maximum);
    }
}

impl GlobalType {
    fn put(&self, out: &mut Vec<u8>) {
        if self.shared {
            outside()
        }
        self.val_type.put(out);
        out.push(self.mutable as u8);
    }
}

// ---- sections (5.5) ------------------------------------------------------

pub trait Section {
    fn id(&self) -> u8;
    /// The section's content, without id and size.
    fn content(&self, out: &mut Vec<u8>);
}

#[derive(Clone, Debug)]
pub struct Module {
    bytes: Vec<u8>,
}

impl Module {
    pub fn new() -> Module {
        Module { bytes: b"\0asm\x01\0\0\0".to_vec() }
    }
    pub fn section(&mut self, s: &impl Section) -> &mut Self {
        let mut content = Vec::new();
        s.content(&mut content);
        self.bytes.push(s.id());
        uleb(&mut self.bytes, content.len() as u64);
        self.bytes.extend_from_slice(&content);
        self
    }
    pub fn finish(self) -> Vec<u8> {
        self.bytes
    }
}

macro_rules! counted_section {
    ($($name:ident $id:literal)*) => {$(
        #[derive(Clone, Debug, Default)]
        pub struct $name {
            count: u32,
            bytes: Vec<u8>,
        }
        impl $name {
            pub fn new() -> Self {
                Self::default()
            }
        }
        impl Section for $name {
            fn id(&self) -> u8 {
                $id
            }
            fn content(&self, out: &mut Vec<u8>) {
                uleb(out, self.count.into());
                out.extend_from_slice(&self.bytes);
            }
        }
    )*};
}

counted_section! {
    TypeSection 1
    ImportSection 2
    FunctionSection 3
    TableSection 4
    MemorySection 5
    GlobalSection 6
    ExportSection 7
    ElementSection 9
    CodeSection 10
    DataSection 11
    TagSection 13
}

pub struct TypeEncoder<'a>(&'a mut TypeSection);

impl TypeSection {
    pub fn ty(&mut self) -> TypeEncoder<'_> {
        self.count += 1;
        TypeEncoder(self)
    }
}

impl TypeEncoder<'_> {
    pub fn subtype(self, ty: &SubType) {
        // CHOICE: a final type without supertypes is written as the bare
        // composite type (60 ...), not 4F 00 60 ..., and not in a group 4E.
        let c = &ty.composite_type;
        if !ty.is_final
            || !ty.supertype_idxs.is_empty()
            || c.shared
            || c.descriptor.is_some()
            || c.describes.is_some()
        {
            outside()
        }
        let CompositeInnerType::Func(f) = &c.inner else { outside() };
        let out = &mut self.0.bytes;
        out.push(0x60);
        for list in [&f.params, &f.results] {
            uleb(out, list.len() as u64);
            for t in list {
                t.put(out);
            }
        }
    }
    pub fn rec(self, _types: impl IntoIterator<Item = SubType>) {
        outside()
    }
}

#[derive(Clone, Copy, Debug)]
pub enum EntityType {
    Function(u32),
    FunctionExact(u32),
    Table(TableType),
    Memory(MemoryType),
    Global(GlobalType),
    Tag(TagType),
}

#[derive(Clone, Debug)]
pub struct Import<'a> {
    pub module: &'a str,
    pub name: &'a str,
    pub ty: EntityType,
}

#[derive(Clone, Debug)]
pub struct ImportCompact<'a> {
    pub name: &'a str,
    pub ty: EntityType,
}

#[derive(Clone, Debug)]
pub enum Imports<'a> {
    Single(Import<'a>),
    Compact1 { module: &'a str, items: Vec<ImportCompact<'a>> },
    Compact2 { module: &'a str, ty: EntityType, names: Vec<&'a str> },
}

impl ImportSection {
    pub fn imports(&mut self, imports: Imports<'_>) -> &mut Self {
        let Imports::Single(i) = imports else { outside() };
        let out = &mut self.bytes;
        name(out, i.module);
        name(out, i.name);
        match i.ty {
            EntityType::Function(t) => {
                out.push(0x00);
                uleb(out, t.into());
            }
            EntityType::Table(t) => {
                out.push(0x01);
                t.put(out);
            }
            EntityType::Memory(t) => {
                out.push(0x02);
                t.put(out);
            }
            EntityType::Global(t) => {
                out.push(0x03);
                t.put(out);
            }
            EntityType::FunctionExact(_) | EntityType::Tag(_) => outside(),
        }
        self.count += 1;
        self
    }
}

impl FunctionSection {
    pub fn function(&mut self, ty: u32) -> &mut Self {
        uleb(&mut self.bytes, ty.into());
        self.count += 1;
        self
    }
}

impl TableSection {
    pub fn table(&mut self, ty: TableType) -> &mut Self {
        ty.put(&mut self.bytes);
        self.count += 1;
        self
    }
    pub fn table_with_init(&mut self, _ty: TableType, _init: &ConstExpr) -> &mut Self {
        outside()
    }
}

impl MemorySection {
    pub fn memory(&mut self, ty: MemoryType) -> &mut Self {
        ty.put(&mut self.bytes);
        self.count += 1;
        self
    }
}

impl TagSection {
    pub fn tag(&mut self, _ty: TagType) -> &mut Self {
        outside()
    }
}

#[derive(Clone, Debug)]
pub struct ConstExpr {
    bytes: Vec<u8>,
}

impl ConstExpr {
    /// The instructions without the closing `end`.
    pub fn raw(bytes: impl IntoIterator<Item = u8>) -> Self {
        ConstExpr { bytes: bytes.into_iter().collect() }
    }
    fn put(&self, out: &mut Vec<u8>) {
        out.extend_from_slice(&self.bytes);
        out.push(0x0b);
    }
}

impl GlobalSection {
    pub fn global(&mut self, ty: GlobalType, init: &ConstExpr) -> &mut Self {
        ty.put(&mut self.bytes);
        init.put(&mut self.bytes);
        self.count += 1;
        self
    }
}

#[derive(Clone, Copy, Debug)]
pub enum ExportKind {
    Func,
    Table,
    Memory,
    Global,
    Tag,
}

impl ExportSection {
    pub fn export(&mut self, n: &str, kind: ExportKind, index: u32) -> &mut Self {
        name(&mut self.bytes, n);
        self.bytes.push(match kind {
            ExportKind::Func => 0,
            ExportKind::Table => 1,
            ExportKind::Memory => 2,
            ExportKind::Global => 3,
            ExportKind::Tag => outside(),
        });
        uleb(&mut self.bytes, index.into());
        self.count += 1;
        self
    }
}

#[derive(Clone, Copy, Debug)]
pub struct StartSection {
    pub function_index: u32,
}

impl Section for StartSection {
    fn id(&self) -> u8 {
        8
    }
    fn content(&self, out: &mut Vec<u8>) {
        uleb(out, self.function_index.into());
    }
}

#[derive(Clone, Copy, Debug)]
pub struct DataCountSection {
    pub count: u32,
}

impl Section for DataCountSection {
    fn id(&self) -> u8 {
        12
    }
    fn content(&self, out: &mut Vec<u8>) {
        uleb(out, self.count.into());
    }
}

#[derive(Clone, Debug)]
pub enum Elements<'a> {
    Functions(Cow<'a, [u32]>),
    Expressions(RefType, Cow<'a, [ConstExpr]>),
}

impl ElementSection {
    pub fn active(
        &mut self,
        table: Option<u32>,
        offset: &ConstExpr,
        elements: Elements<'_>,
    ) -> &mut Self {
        let Elements::Functions(funcs) = elements else { outside() };
        let out = &mut self.bytes;
        match table {
            // CHOICE: form 0 exactly when binary.rs gives no table. The
            // specification also allows form 2 with table 0 here.
            None => {
                uleb(out, 0);
                offset.put(out);
            }
            // CHOICE: form 2 whenever binary.rs gives a table, 0 included.
            // The specification also allows form 0 for table 0.
            Some(t) => {
                uleb(out, 2);
                uleb(out, t.into());
                offset.put(out);
                out.push(0x00); // elemkind
            }
        }
        functions(out, &funcs);
        self.count += 1;
        self
    }
    pub fn passive(&mut self, elements: Elements<'_>) -> &mut Self {
        let Elements::Functions(funcs) = elements else { outside() };
        let out = &mut self.bytes;
        uleb(out, 1);
        out.push(0x00); // elemkind
        functions(out, &funcs);
        self.count += 1;
        self
    }
    pub fn declared(&mut self, _elements: Elements<'_>) -> &mut Self {
        outside()
    }
}

fn functions(out: &mut Vec<u8>, funcs: &[u32]) {
    uleb(out, funcs.len() as u64);
    for f in funcs {
        uleb(out, (*f).into());
    }
}

impl DataSection {
    pub fn passive(&mut self, data: Vec<u8>) -> &mut Self {
        uleb(&mut self.bytes, 1);
        self.payload(&data)
    }
    pub fn active(&mut self, memory: u32, offset: &ConstExpr, data: Vec<u8>) -> &mut Self {
        // CHOICE: form 0 for memory 0 (document 01 says so too).
        if memory == 0 {
            uleb(&mut self.bytes, 0);
        } else {
            uleb(&mut self.bytes, 2);
            uleb(&mut self.bytes, memory.into());
        }
        offset.put(&mut self.bytes);
        self.payload(&data)
    }
    fn payload(&mut self, data: &[u8]) -> &mut Self {
        uleb(&mut self.bytes, data.len() as u64);
        self.bytes.extend_from_slice(data);
        self.count += 1;
        self
    }
}

#[derive(Clone, Debug)]
pub struct Function {
    bytes: Vec<u8>,
}

impl Function {
    pub fn new_with_locals_types(locals: impl IntoIterator<Item = ValType>) -> Self {
        // CHOICE: equal neighbours in one run (document 01 says so too).
        let mut runs: Vec<(u32, ValType)> = Vec::new();
        for t in locals {
            match runs.last_mut() {
                Some((n, last)) if *last == t => *n += 1,
                _ => runs.push((1, t)),
            }
        }
        let mut bytes = Vec::new();
        uleb(&mut bytes, runs.len() as u64);
        for (n, t) in runs {
            uleb(&mut bytes, n.into());
            t.put(&mut bytes);
        }
        Function { bytes }
    }
    pub fn byte_len(&self) -> usize {
        self.bytes.len()
    }
    pub fn raw(&mut self, bytes: impl IntoIterator<Item = u8>) -> &mut Self {
        self.bytes.extend(bytes);
        self
    }
    pub fn instructions(&mut self) -> InstructionSink<'_> {
        InstructionSink::new(&mut self.bytes)
    }
}

impl CodeSection {
    pub fn function(&mut self, f: &Function) -> &mut Self {
        uleb(&mut self.bytes, f.bytes.len() as u64);
        self.bytes.extend_from_slice(&f.bytes);
        self.count += 1;
        self
    }
    pub fn byte_len(&self) -> usize {
        self.bytes.len()
    }
}

#[derive(Clone, Copy, Debug)]
pub struct BranchHint {
    pub branch_func_offset: u32,
    pub branch_hint_value: u32,
}

/// Never has a hint: document 01 has none.
#[derive(Clone, Debug)]
pub struct BranchHints;

impl BranchHints {
    pub fn new() -> Self {
        BranchHints
    }
    pub fn is_empty(&self) -> bool {
        true
    }
    pub fn function_hints(&mut self, _f: u32, _hints: impl IntoIterator<Item = BranchHint>) {
        outside()
    }
}

impl Section for BranchHints {
    fn id(&self) -> u8 {
        outside()
    }
    fn content(&self, _out: &mut Vec<u8>) {
        outside()
    }
}

// ---- custom sections -----------------------------------------------------

#[derive(Clone, Debug)]
pub struct CustomSection<'a> {
    pub name: Cow<'a, str>,
    pub data: Cow<'a, [u8]>,
}

impl Section for CustomSection<'_> {
    fn id(&self) -> u8 {
        outside()
    }
    fn content(&self, _out: &mut Vec<u8>) {
        outside()
    }
}

#[derive(Clone, Debug, Default)]
pub struct ProducersSection;
#[derive(Clone, Debug)]
pub struct ProducersField;

impl ProducersField {
    pub fn new() -> Self {
        ProducersField
    }
    pub fn value(&mut self, _name: &str, _version: &str) -> &mut Self {
        outside()
    }
}
impl ProducersSection {
    pub fn field(&mut self, _name: &str, _f: &ProducersField) -> &mut Self {
        outside()
    }
}
impl Section for ProducersSection {
    fn id(&self) -> u8 {
        outside()
    }
    fn content(&self, _out: &mut Vec<u8>) {
        outside()
    }
}

/// The name section of the standard's appendix.
#[derive(Clone, Debug, Default)]
pub struct NameMap {
    count: u32,
    bytes: Vec<u8>,
}

impl NameMap {
    pub fn append(&mut self, index: u32, n: &str) {
        uleb(&mut self.bytes, index.into());
        name(&mut self.bytes, n);
        self.count += 1;
    }
    fn put(&self, out: &mut Vec<u8>) {
        uleb(out, self.count.into());
        out.extend_from_slice(&self.bytes);
    }
}

#[derive(Clone, Debug, Default)]
pub struct IndirectNameMap {
    count: u32,
    bytes: Vec<u8>,
}

impl IndirectNameMap {
    pub fn append(&mut self, index: u32, names: &NameMap) {
        uleb(&mut self.bytes, index.into());
        names.put(&mut self.bytes);
        self.count += 1;
    }
    fn put(&self, out: &mut Vec<u8>) {
        uleb(out, self.count.into());
        out.extend_from_slice(&self.bytes);
    }
}

#[derive(Clone, Debug, Default)]
pub struct NameSection {
    bytes: Vec<u8>,
}

impl NameSection {
    fn sub(&mut self, id: u8, content: &[u8]) {
        self.bytes.push(id);
        uleb(&mut self.bytes, content.len() as u64);
        self.bytes.extend_from_slice(content);
    }
    pub fn module(&mut self, n: &str) {
        let mut c = Vec::new();
        name(&mut c, n);
        self.sub(0, &c);
    }
}

macro_rules! name_subsections {
    ($($f:ident $ty:ident $id:literal)*) => {
        impl NameSection {$(
            pub fn $f(&mut self, map: &$ty) {
                let mut c = Vec::new();
                map.put(&mut c);
                self.sub($id, &c);
            }
        )*}
    };
}

// 1 and 2 are the standard's; the other numbers are those of the
// extended name section, and the front drops them.
name_subsections! {
    functions NameMap 1
    locals IndirectNameMap 2
    labels IndirectNameMap 3
    types NameMap 4
    tables NameMap 5
    memories NameMap 6
    globals NameMap 7
    elements NameMap 8
    data NameMap 9
    fields IndirectNameMap 10
    tags NameMap 11
    parameters IndirectNameMap 12
    tag_parameters IndirectNameMap 13
}

impl Section for NameSection {
    fn id(&self) -> u8 {
        0
    }
    fn content(&self, out: &mut Vec<u8>) {
        name(out, "name");
        out.extend_from_slice(&self.bytes);
    }
}

// ---- instructions (5.4) --------------------------------------------------

#[derive(Clone, Copy, Debug)]
pub enum BlockType {
    Empty,
    Result(ValType),
    FunctionType(u32),
}

impl BlockType {
    fn put(&self, out: &mut Vec<u8>) {
        match self {
            BlockType::Empty => out.push(0x40),
            BlockType::Result(t) => t.put(out),
            BlockType::FunctionType(x) => sleb(out, i64::from(*x)), // s33
        }
    }
}

#[derive(Clone, Copy, Debug)]
pub struct MemArg {
    pub offset: u64,
    pub align: u32,
    pub memory_index: u32,
}

impl MemArg {
    fn put(&self, out: &mut Vec<u8>) {
        // CHOICE: no memory index for memory 0 (document 01 says so too).
        if self.memory_index == 0 {
            uleb(out, self.align.into());
        } else {
            uleb(out, (self.align | 0x40).into());
            uleb(out, self.memory_index.into());
        }
        uleb(out, self.offset);
    }
}

#[derive(Clone, Copy, Debug)]
pub struct Ieee32(u32);
#[derive(Clone, Copy, Debug)]
pub struct Ieee64(u64);
impl Ieee32 {
    pub fn new(bits: u32) -> Self {
        Ieee32(bits)
    }
}
impl Ieee64 {
    pub fn new(bits: u64) -> Self {
        Ieee64(bits)
    }
}

#[derive(Clone, Copy, Debug)]
pub enum Ordering {
    SeqCst,
    AcqRel,
}

#[derive(Clone, Debug)]
pub enum Catch {
    One { tag: u32, label: u32 },
    OneRef { tag: u32, label: u32 },
    All { label: u32 },
    AllRef { label: u32 },
}

#[derive(Clone, Debug)]
pub enum Handle {
    OnLabel { tag: u32, label: u32 },
    OnSwitch { tag: u32 },
}

pub struct InstructionSink<'a> {
    out: &'a mut Vec<u8>,
}

impl<'a> InstructionSink<'a> {
    pub fn new(out: &'a mut Vec<u8>) -> Self {
        InstructionSink { out }
    }

    fn op(&mut self, b: u8) -> &mut Self {
        self.out.push(b);
        self
    }
    fn num(&mut self, x: u32) -> &mut Self {
        uleb(self.out, x.into());
        self
    }

    /// An instruction without immediates.
    pub fn plain(&mut self, opcode: u8) {
        self.op(opcode);
    }
    /// block 02, loop 03, if 04.
    pub fn opener(&mut self, opcode: u8, ty: BlockType) {
        self.op(opcode);
        ty.put(self.out);
    }
    /// br 0C, br_if 0D, call 10, locals 20 to 22, globals 23 and 24,
    /// memory.size 3F, memory.grow 40, ref.func D2.
    pub fn indexed(&mut self, opcode: u8, x: u32) {
        self.op(opcode).num(x);
    }
    /// 28 to 3E.
    pub fn access(&mut self, opcode: u8, m: MemArg) {
        self.op(opcode);
        m.put(self.out);
    }
    pub fn f32_const(&mut self, x: Ieee32) {
        self.op(0x43);
        self.out.extend_from_slice(&x.0.to_le_bytes());
    }
    pub fn f64_const(&mut self, x: Ieee64) {
        self.op(0x44);
        self.out.extend_from_slice(&x.0.to_le_bytes());
    }
    pub fn ref_null(&mut self, h: HeapType) {
        self.op(0xd0);
        h.put(self.out);
    }

    // What binary.rs's custom encoders call, inside document 01.
    pub fn else_(&mut self) -> &mut Self {
        self.op(0x05)
    }
    pub fn end(&mut self) -> &mut Self {
        self.op(0x0b)
    }
    pub fn i32_const(&mut self, x: i32) -> &mut Self {
        self.op(0x41);
        sleb(self.out, x.into());
        self
    }
    pub fn i64_const(&mut self, x: i64) -> &mut Self {
        self.op(0x42);
        sleb(self.out, x);
        self
    }
    pub fn select(&mut self) -> &mut Self {
        self.op(0x1b)
    }
    pub fn br_table(
        &mut self,
        labels: impl ExactSizeIterator<Item = u32>,
        default: u32,
    ) -> &mut Self {
        self.op(0x0e).num(labels.len() as u32);
        for l in labels {
            self.num(l);
        }
        self.num(default)
    }
    pub fn call_indirect(&mut self, table: u32, ty: u32) -> &mut Self {
        self.op(0x11).num(ty).num(table)
    }

    // Bulk memory (document 02, §11): FC, a number, and indices.
    pub fn memory_init(&mut self, memory: u32, data: u32) -> &mut Self {
        self.op(0xfc).num(0x08).num(data).num(memory)
    }
    pub fn data_drop(&mut self, data: u32) -> &mut Self {
        self.op(0xfc).num(0x09).num(data)
    }
    pub fn memory_copy(&mut self, destination: u32, source: u32) -> &mut Self {
        self.op(0xfc).num(0x0a).num(destination).num(source)
    }
    pub fn memory_fill(&mut self, memory: u32) -> &mut Self {
        self.op(0xfc).num(0x0b).num(memory)
    }
}

// What binary.rs's custom encoders call outside document 01.
macro_rules! outside_domain {
    ($($f:ident($($t:ty),*))*) => {
        impl InstructionSink<'_> {$(
            pub fn $f(&mut self, $(_: $t),*) -> &mut Self { outside() }
        )*}
    };
}
outside_domain! {
    typed_select_multi(&[ValType])
    return_call_indirect(u32, u32)
    table_init(u32, u32) table_copy(u32, u32)
    struct_get(u32, u32) struct_get_s(u32, u32) struct_get_u(u32, u32) struct_set(u32, u32)
    array_new_fixed(u32, u32) array_new_data(u32, u32) array_new_elem(u32, u32)
    array_copy(u32, u32) array_init_data(u32, u32) array_init_elem(u32, u32)
    ref_test_nullable(HeapType) ref_test_non_null(HeapType)
    ref_cast_nullable(HeapType) ref_cast_non_null(HeapType)
    ref_cast_desc_eq_nullable(HeapType) ref_cast_desc_eq_non_null(HeapType)
    br_on_cast(u32, RefType, RefType) br_on_cast_fail(u32, RefType, RefType)
    br_on_cast_desc_eq(u32, RefType, RefType) br_on_cast_desc_eq_fail(u32, RefType, RefType)
    global_atomic_get(Ordering, u32) global_atomic_set(Ordering, u32)
    global_atomic_rmw_add(Ordering, u32) global_atomic_rmw_sub(Ordering, u32)
    global_atomic_rmw_and(Ordering, u32) global_atomic_rmw_or(Ordering, u32)
    global_atomic_rmw_xor(Ordering, u32) global_atomic_rmw_xchg(Ordering, u32)
    global_atomic_rmw_cmpxchg(Ordering, u32)
    table_atomic_get(Ordering, u32) table_atomic_set(Ordering, u32)
    table_atomic_rmw_xchg(Ordering, u32) table_atomic_rmw_cmpxchg(Ordering, u32)
    struct_atomic_get(Ordering, u32, u32) struct_atomic_get_s(Ordering, u32, u32)
    struct_atomic_get_u(Ordering, u32, u32) struct_atomic_set(Ordering, u32, u32)
    struct_atomic_rmw_add(Ordering, u32, u32) struct_atomic_rmw_sub(Ordering, u32, u32)
    struct_atomic_rmw_and(Ordering, u32, u32) struct_atomic_rmw_or(Ordering, u32, u32)
    struct_atomic_rmw_xor(Ordering, u32, u32) struct_atomic_rmw_xchg(Ordering, u32, u32)
    struct_atomic_rmw_cmpxchg(Ordering, u32, u32)
    array_atomic_get(Ordering, u32) array_atomic_get_s(Ordering, u32)
    array_atomic_get_u(Ordering, u32) array_atomic_set(Ordering, u32)
    array_atomic_rmw_add(Ordering, u32) array_atomic_rmw_sub(Ordering, u32)
    array_atomic_rmw_and(Ordering, u32) array_atomic_rmw_or(Ordering, u32)
    array_atomic_rmw_xor(Ordering, u32) array_atomic_rmw_xchg(Ordering, u32)
    array_atomic_rmw_cmpxchg(Ordering, u32)
    v128_load8_lane(MemArg, u8) v128_load16_lane(MemArg, u8)
    v128_load32_lane(MemArg, u8) v128_load64_lane(MemArg, u8)
    v128_store8_lane(MemArg, u8) v128_store16_lane(MemArg, u8)
    v128_store32_lane(MemArg, u8) v128_store64_lane(MemArg, u8)
    try_table(BlockType, impl IntoIterator<Item = Catch>)
    cont_bind(u32, u32)
    resume(u32, impl IntoIterator<Item = Handle>)
    resume_throw(u32, u32, impl IntoIterator<Item = Handle>)
    resume_throw_ref(u32, impl IntoIterator<Item = Handle>)
    switch(u32, u32)
}
