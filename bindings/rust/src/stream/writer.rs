//! Writes a stream, record by record.
use super::opcodes::{accesses, ops};
use super::types::*;
use super::{Access, Fault, Folded, Op, Reader};

/// Makes a stream. Its calls cannot write a number in another form than its
/// shortest, a length that is not that of what follows, a byte that means nothing,
/// or a [folded record](Folded) with a 17th operand, nested 33 deep or without all
/// its operands; what is left, such as a name of 65 bytes, a ninth export or a block
/// without its end, is told by [`finish`](Writer::finish).
///
/// An index is a number or a name, `1` or `"length"`. A name that may be absent
/// is a `&str` or `None`.
///
/// ```
/// use barrizuppa::stream::{Const, Global, GlobalType, Head, ItemType, Memory};
/// use barrizuppa::stream::{TypeUse, ValType::I32, Writer};
///
/// let mut stream = Writer::new();
/// stream.type_("letter", &[I32, I32], &[I32]);
/// let at_length = TypeUse::new().param(("at", I32)).param(("length", I32));
/// stream.import("env", "print", "print", ItemType::Func(at_length));
/// let text = Memory::Data { is64: false, data: b"Dear " };
/// stream.memory(Head::from("text").export("memory"), text);
/// let counter = GlobalType { ty: I32, mutable: true };
/// stream.global("letters", Global::Own(counter, Const::I32(0)));
/// stream.func("greet", TypeUse::of("letter"), &[("length", I32).into()], |body| {
///     body.local_get(1).local_set("length");
///     body.i32_const(0).i32_const(5).call("print");
///     body.block("empty", TypeUse::new());
///     body.local_get("length").i32_eqz().br_if("empty");
///     body.local_get(0).local_get("length").call("print");
///     body.end("empty");
///     body.local_get("length").i32_const(5).i32_add();
/// });
/// stream.export("greet", barrizuppa::stream::Kind::Func, "greet");
/// assert_eq!(stream.finish()?.len(), 218);
/// # Ok::<(), barrizuppa::stream::Fault>(())
/// ```
#[derive(Clone, Debug, Default)]
pub struct Writer {
    out: Out,
}

impl Writer {
    /// The empty stream.
    pub fn new() -> Self {
        Writer::default()
    }

    /// The stream, if the reading rules (refusals 1 to 9 and 19) allow it, else
    /// the first fault. Whether names are there and types agree, the assembler
    /// says.
    pub fn finish(self) -> Result<Vec<u8>, Fault> {
        match Reader::new(&self.out.0).find_map(Result::err) {
            Some(fault) => Err(fault),
            None => Ok(self.out.0),
        }
    }

    /// Any record as [`Reader`] gives it. What it reads and this writes are the
    /// same bytes. After an own function its instructions and
    /// [`Content::BodyEnd`] must follow, after a folded record its operands.
    pub fn record(&mut self, content: &Content<'_>) -> &mut Self {
        match content {
            Content::Field(field) => self.out.field(field),
            Content::Instruction(instruction) => self.out.instruction(instruction),
            Content::Folded(operator, operands) => {
                self.out.folded(operator, *operands as usize);
            }
            Content::BodyEnd => self.out.byte(0xFF),
        }
        self
    }

    /// Any field but an own function, which [`func`](Writer::func) writes with
    /// its body.
    pub fn field(&mut self, field: &Field<'_>) -> &mut Self {
        self.out.field(field);
        self
    }

    /// Record 01: a declared type.
    pub fn type_<'a>(
        &mut self,
        name: impl Into<Option<&'a str>>,
        params: &[ValType],
        results: &[ValType],
    ) -> &mut Self {
        self.field(&Field::Type {
            name: name.into(),
            params: params.to_vec(),
            results: results.to_vec(),
        })
    }

    /// Record 02: what `module` and `field` are to the host is `name` here.
    pub fn import<'a>(
        &mut self,
        module: &'a str,
        field: &'a str,
        name: impl Into<Option<&'a str>>,
        ty: ItemType<'a>,
    ) -> &mut Self {
        self.field(&Field::Import {
            from: ImportName {
                module,
                name: field,
            },
            name: name.into(),
            ty,
        })
    }

    /// Record 03 and its body: an own function.
    pub fn func<'a>(
        &mut self,
        head: impl Into<Head<'a>>,
        ty: TypeUse<'a>,
        locals: &[Var<'a>],
        body: impl FnOnce(&mut Body<'_>),
    ) -> &mut Self {
        let locals = locals.to_vec();
        self.out
            .field(&Field::Func(head.into(), Func::Own { ty, locals }));
        body(&mut Body { out: &mut self.out });
        self.out.byte(0xFF);
        self
    }

    /// Record 04.
    pub fn table<'a>(&mut self, head: impl Into<Head<'a>>, table: Table<'a>) -> &mut Self {
        self.field(&Field::Table(head.into(), table))
    }

    /// Record 05.
    pub fn memory<'a>(&mut self, head: impl Into<Head<'a>>, memory: Memory<'a>) -> &mut Self {
        self.field(&Field::Memory(head.into(), memory))
    }

    /// Record 06.
    pub fn global<'a>(&mut self, head: impl Into<Head<'a>>, global: Global<'a>) -> &mut Self {
        self.field(&Field::Global(head.into(), global))
    }

    /// Record 07.
    pub fn export<'a>(
        &mut self,
        name: &'a str,
        kind: Kind,
        index: impl Into<Index<'a>>,
    ) -> &mut Self {
        self.field(&Field::Export {
            name,
            kind,
            index: index.into(),
        })
    }

    /// Record 08: the function that runs when the module is loaded.
    pub fn start<'a>(&mut self, index: impl Into<Index<'a>>) -> &mut Self {
        self.field(&Field::Start(index.into()))
    }

    /// Record 09; without a place it is passive.
    pub fn elem<'a>(
        &mut self,
        name: impl Into<Option<&'a str>>,
        place: impl Into<Option<Place<'a>>>,
        funcs: &[Index<'a>],
    ) -> &mut Self {
        self.field(&Field::Elem {
            name: name.into(),
            place: place.into(),
            funcs: funcs.to_vec(),
        })
    }

    /// Record 0A; without a place it is passive.
    pub fn data<'a>(
        &mut self,
        name: impl Into<Option<&'a str>>,
        place: impl Into<Option<Place<'a>>>,
        data: &'a [u8],
    ) -> &mut Self {
        self.field(&Field::Data {
            name: name.into(),
            place: place.into(),
            data,
        })
    }
}

/// The body of an own function, instruction by instruction. A block ends with
/// [`end`](Body::end); the body's own end is written by [`Writer::func`].
#[derive(Debug)]
pub struct Body<'w> {
    out: &'w mut Out,
}

/// A method for each instruction without operands.
macro_rules! op_methods {
    ($(#[$doc:meta])* Op { $($variant:ident $method:ident $opcode:literal $text:literal,)* }) => {
        impl Body<'_> {$(
            #[doc = concat!("`", $text, "`")]
            pub fn $method(&mut self) -> &mut Self {
                self.op(Op::$variant)
            }
        )*}
    };
}

/// A method for each load and store.
macro_rules! access_methods {
    ($(#[$doc:meta])* Access { $($variant:ident $method:ident $opcode:literal $text:literal,)* }) => {
        impl Body<'_> {$(
            #[doc = concat!("`", $text, "`")]
            pub fn $method(&mut self, arg: MemArg<'_>) -> &mut Self {
                self.access(Access::$variant, arg)
            }
        )*}
    };
}

ops!(op_methods!);
accesses!(access_methods!);

/// A method for each instruction with an index alone.
macro_rules! index_methods {
    ($($method:ident $variant:ident $text:literal,)*) => {
        impl Body<'_> {$(
            #[doc = concat!("`", $text, "`")]
            pub fn $method<'a>(&mut self, index: impl Into<Index<'a>>) -> &mut Self {
                self.instruction(&Instruction::$variant(index.into()))
            }
        )*}
    };
}

index_methods! {
    br Br "br",
    br_if BrIf "br_if",
    call Call "call",
    local_get LocalGet "local.get",
    local_set LocalSet "local.set",
    local_tee LocalTee "local.tee",
    global_get GlobalGet "global.get",
    global_set GlobalSet "global.set",
    data_drop DataDrop "data.drop",
    ref_func RefFunc "ref.func",
}

impl Body<'_> {
    /// Any instruction.
    pub fn instruction(&mut self, instruction: &Instruction<'_>) -> &mut Self {
        self.out.instruction(instruction);
        self
    }

    /// A folded record and its operands.
    pub fn folded(&mut self, folded: &Folded<'_>) -> &mut Self {
        self.out.folded_tree(folded);
        self
    }

    /// An instruction without operands, by its name.
    pub fn op(&mut self, op: Op) -> &mut Self {
        self.instruction(&Instruction::Op(op))
    }

    /// A load or a store, by its name.
    pub fn access(&mut self, access: Access, arg: MemArg<'_>) -> &mut Self {
        self.instruction(&Instruction::Access(access, arg))
    }

    /// `block`
    pub fn block<'a>(&mut self, label: impl Into<Option<&'a str>>, ty: TypeUse<'a>) -> &mut Self {
        self.instruction(&Instruction::Open(Opening::Block, label.into(), ty))
    }

    /// `loop`
    pub fn loop_<'a>(&mut self, label: impl Into<Option<&'a str>>, ty: TypeUse<'a>) -> &mut Self {
        self.instruction(&Instruction::Open(Opening::Loop, label.into(), ty))
    }

    /// `if`
    pub fn if_<'a>(&mut self, label: impl Into<Option<&'a str>>, ty: TypeUse<'a>) -> &mut Self {
        self.instruction(&Instruction::Open(Opening::If, label.into(), ty))
    }

    /// `else`, with its block's label or none
    pub fn else_<'a>(&mut self, label: impl Into<Option<&'a str>>) -> &mut Self {
        self.instruction(&Instruction::Else(label.into()))
    }

    /// `end`, with its block's label or none
    pub fn end<'a>(&mut self, label: impl Into<Option<&'a str>>) -> &mut Self {
        self.instruction(&Instruction::End(label.into()))
    }

    /// `br_table`, with its labels and its default
    pub fn br_table<'a>(
        &mut self,
        labels: &[Index<'a>],
        default: impl Into<Index<'a>>,
    ) -> &mut Self {
        self.instruction(&Instruction::BrTable(labels.to_vec(), default.into()))
    }

    /// `call_indirect`, through table 0 where none is given
    pub fn call_indirect<'a>(
        &mut self,
        table: impl Into<Option<Index<'a>>>,
        ty: TypeUse<'a>,
    ) -> &mut Self {
        self.instruction(&Instruction::CallIndirect(table.into(), ty))
    }

    /// `memory.size`, of memory 0 where none is given
    pub fn memory_size<'a>(&mut self, memory: impl Into<Option<Index<'a>>>) -> &mut Self {
        self.instruction(&Instruction::MemorySize(memory.into()))
    }

    /// `memory.grow`, of memory 0 where none is given
    pub fn memory_grow<'a>(&mut self, memory: impl Into<Option<Index<'a>>>) -> &mut Self {
        self.instruction(&Instruction::MemoryGrow(memory.into()))
    }

    /// `memory.init`, from a data segment into memory 0 where none is given
    pub fn memory_init<'a>(
        &mut self,
        data: impl Into<Index<'a>>,
        memory: impl Into<Option<Index<'a>>>,
    ) -> &mut Self {
        self.instruction(&Instruction::MemoryInit {
            data: data.into(),
            memory: memory.into(),
        })
    }

    /// `memory.copy`, into one memory from another, 0 where none is given
    pub fn memory_copy<'a>(
        &mut self,
        destination: impl Into<Option<Index<'a>>>,
        source: impl Into<Option<Index<'a>>>,
    ) -> &mut Self {
        self.instruction(&Instruction::MemoryCopy {
            destination: destination.into(),
            source: source.into(),
        })
    }

    /// `memory.fill`, of memory 0 where none is given
    pub fn memory_fill<'a>(&mut self, memory: impl Into<Option<Index<'a>>>) -> &mut Self {
        self.instruction(&Instruction::MemoryFill(memory.into()))
    }

    /// `i32.const`
    pub fn i32_const(&mut self, value: i32) -> &mut Self {
        self.instruction(&Instruction::I32Const(value))
    }

    /// `i64.const`
    pub fn i64_const(&mut self, value: i64) -> &mut Self {
        self.instruction(&Instruction::I64Const(value))
    }

    /// `f32.const`
    pub fn f32_const(&mut self, value: f32) -> &mut Self {
        self.instruction(&Instruction::F32Const(value.to_bits()))
    }

    /// `f64.const`
    pub fn f64_const(&mut self, value: f64) -> &mut Self {
        self.instruction(&Instruction::F64Const(value.to_bits()))
    }

    /// `ref.null`
    pub fn ref_null(&mut self, ty: RefType) -> &mut Self {
        self.instruction(&Instruction::RefNull(ty))
    }
}

/// The bytes of records, part by part.
#[derive(Clone, Debug, Default)]
struct Out(Vec<u8>);

impl Out {
    fn byte(&mut self, byte: u8) {
        self.0.push(byte);
    }

    /// Groups of seven bits, low first; the shortest form.
    fn number(&mut self, mut value: u64) {
        while value >= 0x80 {
            self.byte(value as u8 | 0x80);
            value >>= 7;
        }
        self.byte(value as u8);
    }

    fn count(&mut self, count: usize) {
        self.number(count as u64);
    }

    fn data(&mut self, data: &[u8]) {
        self.count(data.len());
        self.0.extend_from_slice(data);
    }

    fn string(&mut self, text: &str) {
        self.data(text.as_bytes());
    }

    fn name(&mut self, name: Option<&str>) {
        self.string(name.unwrap_or_default());
    }

    fn import_name(&mut self, from: &ImportName<'_>) {
        self.string(from.module);
        self.string(from.name);
    }

    fn index(&mut self, index: &Index<'_>) {
        match index {
            Index::Number(number) => {
                self.byte(1);
                self.number((*number).into());
            }
            Index::Name(name) => {
                self.byte(2);
                self.string(name);
            }
        }
    }

    fn optional_index(&mut self, index: &Option<Index<'_>>) {
        match index {
            Some(index) => self.index(index),
            None => self.byte(0),
        }
    }

    fn indices(&mut self, indices: &[Index<'_>]) {
        self.count(indices.len());
        indices.iter().for_each(|index| self.index(index));
    }

    fn val_types(&mut self, types: &[ValType]) {
        self.count(types.len());
        self.0.extend(types.iter().map(|ty| ty.byte()));
    }

    fn vars(&mut self, vars: &[Var<'_>]) {
        self.count(vars.len());
        for var in vars {
            self.name(var.name);
            self.byte(var.ty.byte());
        }
    }

    fn type_use(&mut self, ty: &TypeUse<'_>) {
        self.optional_index(&ty.index);
        self.vars(&ty.params);
        self.val_types(&ty.results);
    }

    fn is64(&mut self, is64: bool) {
        self.byte(if is64 { 4 } else { 0 });
    }

    fn limits(&mut self, limits: Limits) {
        self.byte(u8::from(limits.is64()) << 2 | u8::from(limits.max().is_some()));
        self.number(limits.min());
        if let Some(max) = limits.max() {
            self.number(max);
        }
    }

    fn table_type(&mut self, ty: &TableType) {
        self.byte(ty.element.byte());
        self.limits(ty.limits);
    }

    fn global_type(&mut self, ty: &GlobalType) {
        self.byte(ty.ty.byte());
        self.byte(ty.mutable.into());
    }

    fn constant(&mut self, constant: &Const<'_>) {
        match constant {
            Const::I32(value) => {
                self.byte(0);
                self.number((*value as u32).into());
            }
            Const::I64(value) => {
                self.byte(1);
                self.number(*value as u64);
            }
            Const::F32(bits) => {
                self.byte(2);
                self.0.extend(bits.to_le_bytes());
            }
            Const::F64(bits) => {
                self.byte(3);
                self.0.extend(bits.to_le_bytes());
            }
            Const::GlobalGet(index) => {
                self.byte(4);
                self.index(index);
            }
            Const::RefNull(ty) => {
                self.byte(5);
                self.byte(ty.byte());
            }
            Const::RefFunc(index) => {
                self.byte(6);
                self.index(index);
            }
        }
    }

    fn place(&mut self, place: &Option<Place<'_>>) {
        match place {
            None => self.byte(0),
            Some(place) => {
                self.byte(1);
                self.optional_index(&place.index);
                self.constant(&place.offset);
            }
        }
    }

    /// What records 03 to 06 begin with.
    fn head(&mut self, first: u8, head: &Head<'_>, form: u8) {
        self.byte(first);
        self.name(head.name);
        self.count(head.exports.len());
        head.exports.iter().for_each(|name| self.string(name));
        self.byte(form);
    }

    fn field(&mut self, field: &Field<'_>) {
        match field {
            Field::Type {
                name,
                params,
                results,
            } => {
                self.byte(1);
                self.name(*name);
                self.val_types(params);
                self.val_types(results);
            }
            Field::Import { from, name, ty } => {
                self.byte(2);
                self.import_name(from);
                self.byte(ty.kind().byte());
                self.name(*name);
                match ty {
                    ItemType::Func(ty) => self.type_use(ty),
                    ItemType::Table(ty) => self.table_type(ty),
                    ItemType::Memory(limits) => self.limits(*limits),
                    ItemType::Global(ty) => self.global_type(ty),
                }
            }
            Field::Func(head, Func::Own { ty, locals }) => {
                self.head(3, head, 0);
                self.type_use(ty);
                self.vars(locals);
            }
            Field::Func(head, Func::Import(from, ty)) => {
                self.head(3, head, 1);
                self.import_name(from);
                self.type_use(ty);
            }
            Field::Table(head, Table::Own(ty)) => {
                self.head(4, head, 0);
                self.table_type(ty);
            }
            Field::Table(head, Table::Import(from, ty)) => {
                self.head(4, head, 1);
                self.import_name(from);
                self.table_type(ty);
            }
            Field::Table(head, Table::Elements { is64, funcs }) => {
                self.head(4, head, 2);
                self.is64(*is64);
                self.indices(funcs);
            }
            Field::Memory(head, Memory::Own(limits)) => {
                self.head(5, head, 0);
                self.limits(*limits);
            }
            Field::Memory(head, Memory::Import(from, limits)) => {
                self.head(5, head, 1);
                self.import_name(from);
                self.limits(*limits);
            }
            Field::Memory(head, Memory::Data { is64, data }) => {
                self.head(5, head, 2);
                self.is64(*is64);
                self.data(data);
            }
            Field::Global(head, Global::Own(ty, constant)) => {
                self.head(6, head, 0);
                self.global_type(ty);
                self.constant(constant);
            }
            Field::Global(head, Global::Import(from, ty)) => {
                self.head(6, head, 1);
                self.import_name(from);
                self.global_type(ty);
            }
            Field::Export { name, kind, index } => {
                self.byte(7);
                self.string(name);
                self.byte(kind.byte());
                self.index(index);
            }
            Field::Start(index) => {
                self.byte(8);
                self.index(index);
            }
            Field::Elem { name, place, funcs } => {
                self.byte(9);
                self.name(*name);
                self.place(place);
                self.indices(funcs);
            }
            Field::Data { name, place, data } => {
                self.byte(0x0A);
                self.name(*name);
                self.place(place);
                self.data(data);
            }
        }
    }

    /// An opcode and an index.
    fn indexed(&mut self, opcode: u8, index: &Index<'_>) {
        self.byte(opcode);
        self.index(index);
    }

    /// F0, an operator and how many operands follow.
    fn folded(&mut self, operator: &Instruction<'_>, operands: usize) {
        self.byte(0xF0);
        self.instruction(operator);
        self.count(operands);
    }

    fn folded_tree(&mut self, folded: &Folded<'_>) {
        let operands = folded.operands();
        self.folded(folded.operator(), operands.len());
        operands.iter().for_each(|one| self.folded_tree(one));
    }

    /// What bulk memory instructions begin with.
    fn bulk(&mut self, second: u8) {
        self.byte(0xFC);
        self.byte(second);
    }

    fn instruction(&mut self, instruction: &Instruction<'_>) {
        match instruction {
            Instruction::Op(op) => self.byte(op.opcode()),
            Instruction::Open(opening, label, ty) => {
                self.byte(opening.opcode());
                self.name(*label);
                self.type_use(ty);
            }
            Instruction::Else(label) => {
                self.byte(0x05);
                self.name(*label);
            }
            Instruction::End(label) => {
                self.byte(0x0B);
                self.name(*label);
            }
            Instruction::Br(index) => self.indexed(0x0C, index),
            Instruction::BrIf(index) => self.indexed(0x0D, index),
            Instruction::BrTable(labels, default) => {
                self.byte(0x0E);
                self.indices(labels);
                self.index(default);
            }
            Instruction::Call(index) => self.indexed(0x10, index),
            Instruction::CallIndirect(table, ty) => {
                self.byte(0x11);
                self.optional_index(table);
                self.type_use(ty);
            }
            Instruction::LocalGet(index) => self.indexed(0x20, index),
            Instruction::LocalSet(index) => self.indexed(0x21, index),
            Instruction::LocalTee(index) => self.indexed(0x22, index),
            Instruction::GlobalGet(index) => self.indexed(0x23, index),
            Instruction::GlobalSet(index) => self.indexed(0x24, index),
            Instruction::Access(access, arg) => {
                self.byte(access.opcode());
                self.byte(arg.align.map_or(0, |exponent| exponent.saturating_add(1)));
                self.number(arg.offset.into());
                self.optional_index(&arg.memory);
            }
            Instruction::MemorySize(memory) => {
                self.byte(0x3F);
                self.optional_index(memory);
            }
            Instruction::MemoryGrow(memory) => {
                self.byte(0x40);
                self.optional_index(memory);
            }
            Instruction::MemoryInit { data, memory } => {
                self.bulk(0x08);
                self.index(data);
                self.optional_index(memory);
            }
            Instruction::DataDrop(data) => {
                self.bulk(0x09);
                self.index(data);
            }
            Instruction::MemoryCopy {
                destination,
                source,
            } => {
                self.bulk(0x0A);
                self.optional_index(destination);
                self.optional_index(source);
            }
            Instruction::MemoryFill(memory) => {
                self.bulk(0x0B);
                self.optional_index(memory);
            }
            Instruction::I32Const(value) => {
                self.byte(0x41);
                self.number((*value as u32).into());
            }
            Instruction::I64Const(value) => {
                self.byte(0x42);
                self.number(*value as u64);
            }
            Instruction::F32Const(bits) => {
                self.byte(0x43);
                self.0.extend(bits.to_le_bytes());
            }
            Instruction::F64Const(bits) => {
                self.byte(0x44);
                self.0.extend(bits.to_le_bytes());
            }
            Instruction::RefNull(ty) => {
                self.byte(0xD0);
                self.byte(ty.byte());
            }
            Instruction::RefFunc(index) => self.indexed(0xD2, index),
        }
    }
}
