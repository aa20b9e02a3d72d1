//! FRONT (ours): records to the crate's own syntax tree. Every span is the
//! number of a record, so that an error's span gives the record. Parameter
//! identifiers of imports, blocks and call_indirect are left out, as document
//! 01 says ("are not printed for the crate").
use crate::stream::{Stream, Whole};
use barrizuppa::stream::{self as records, Const, Field, Head, ImportName, Index, ItemType, Opening, Place, Var};
use wast::core::*;
use wast::token::{F32, F64, Id, Span};

/// The span that stands for a record.
fn at(record: usize) -> Span {
    Span::from_offset(record)
}

/// An identifier as the crate has it.
fn id<'a>(record: usize, identifier: Option<&'a str>) -> Option<Id<'a>> {
    identifier.map(|name| Id::new(name, at(record)))
}

/// An index as the crate has it.
fn present<'a>(record: usize, index: Index<'a>) -> wast::token::Index<'a> {
    use wast::token::Index as I;
    match index {
        Index::Number(number) => I::Num(number, at(record)),
        Index::Name(name) => I::Id(Id::new(name, at(record))),
    }
}

/// An index that may be left out.
fn optional<'a>(record: usize, index: Option<Index<'a>>) -> Option<wast::token::Index<'a>> {
    index.map(|index| present(record, index))
}

/// An index whose absence means 0, as the crate fills it in while parsing.
fn or_zero<'a>(record: usize, index: Option<Index<'a>>) -> wast::token::Index<'a> {
    optional(record, index).unwrap_or(wast::token::Index::Num(0, at(record)))
}

/// A segment's functions, or a br_table's labels.
fn indices<'a>(record: usize, list: &[Index<'a>]) -> Vec<wast::token::Index<'a>> {
    list.iter().map(|index| present(record, *index)).collect()
}

/// funcref or externref.
fn reference_type(given: records::RefType) -> RefType<'static> {
    match given {
        records::RefType::Func => RefType::func(),
        records::RefType::Extern => RefType::r#extern(),
    }
}

/// A value type.
fn value_type(given: records::ValType) -> ValType<'static> {
    use records::ValType as V;
    match given {
        V::I32 => ValType::I32,
        V::I64 => ValType::I64,
        V::F32 => ValType::F32,
        V::F64 => ValType::F64,
        V::FuncRef => ValType::Ref(RefType::func()),
        V::ExternRef => ValType::Ref(RefType::r#extern()),
    }
}

/// Limits as the crate has them.
fn limits(given: records::Limits) -> Limits {
    Limits { is64: given.is64(), min: given.min(), max: given.max() }
}

/// Shared tables are outside document 01.
fn table_type(given: &records::TableType) -> TableType<'static> {
    TableType { limits: limits(given.limits), elem: reference_type(given.element), shared: false }
}

/// Shared memories and page sizes are outside document 01.
fn memory_type(size: records::Limits) -> MemoryType {
    MemoryType { limits: limits(size), shared: false, page_size_log2: None }
}

/// Shared globals are outside document 01.
fn global_type(given: &records::GlobalType) -> GlobalType<'static> {
    GlobalType { ty: value_type(given.ty), mutable: given.mutable, shared: false }
}

/// Only a function's own parameters bring their identifiers.
fn type_use<'a>(record: usize, given: &records::TypeUse<'a>, own: bool) -> TypeUse<'a, FunctionType<'a>> {
    let parameter = |param: &Var<'a>| {
        (if own { id(record, param.name) } else { None }, None, value_type(param.ty))
    };
    let inline = FunctionType {
        params: given.params.iter().map(parameter).collect(),
        results: given.results.iter().map(|ty| value_type(*ty)).collect(),
    };
    TypeUse { index: optional(record, given.index), inline: given.is_inline().then_some(inline) }
}

/// A constant is one instruction of an expression.
fn constant<'a>(record: usize, given: Const<'a>) -> Instruction<'a> {
    match given {
        Const::I32(value) => Instruction::i32_const(value),
        Const::I64(value) => Instruction::i64_const(value),
        Const::F32(bits) => Instruction::f32_const(F32 { bits }),
        Const::F64(bits) => Instruction::f64_const(F64 { bits }),
        Const::GlobalGet(index) => Instruction::global_get(present(record, index)),
        Const::RefNull(ty) => Instruction::ref_null(reference_type(ty).heap),
        Const::RefFunc(index) => Instruction::ref_func(present(record, index)),
    }
}

/// One instruction; its record is the span of all in it.
fn instruction<'a>(record: usize, given: &records::Instruction<'a>) -> Instruction<'a> {
    use Instruction as I;
    use records::Instruction as S;
    match given {
        S::Open(opening, label, ty) => {
            let block = Box::new(BlockType {
                label: id(record, *label),
                label_name: None,
                ty: type_use(record, ty, false),
            });
            match opening {
                Opening::Block => I::block(block),
                Opening::Loop => I::loop_(block),
                Opening::If => I::if_(block),
            }
        }
        S::Else(label) => I::else_(id(record, *label)),
        S::End(label) => I::end(id(record, *label)),
        S::Br(index) => I::br(present(record, *index)),
        S::BrIf(index) => I::br_if(present(record, *index)),
        S::BrTable(labels, default) => {
            I::br_table(BrTableIndices { labels: indices(record, labels), default: present(record, *default) })
        }
        S::Call(index) => I::call(present(record, *index)),
        S::CallIndirect(table, ty) => I::call_indirect(Box::new(CallIndirect {
            table: or_zero(record, *table),
            ty: type_use(record, ty, false),
        })),
        S::LocalGet(index) => I::local_get(present(record, *index)),
        S::LocalSet(index) => I::local_set(present(record, *index)),
        S::LocalTee(index) => I::local_tee(present(record, *index)),
        S::GlobalGet(index) => I::global_get(present(record, *index)),
        S::GlobalSet(index) => I::global_set(present(record, *index)),
        S::Access(access, arg) => {
            let exponent = arg.align.unwrap_or(access.natural());
            let memory = or_zero(record, arg.memory);
            I::access(access.opcode(), MemArg { align: 1 << exponent, offset: u64::from(arg.offset), memory })
        }
        S::MemorySize(memory) => I::memory_size(MemoryArg { mem: or_zero(record, *memory) }),
        S::MemoryGrow(memory) => I::memory_grow(MemoryArg { mem: or_zero(record, *memory) }),
        S::MemoryInit { data, memory } => {
            I::memory_init(MemoryInit { data: present(record, *data), mem: or_zero(record, *memory) })
        }
        S::DataDrop(data) => I::data_drop(present(record, *data)),
        S::MemoryCopy { destination, source } => {
            I::memory_copy(MemoryCopy { dst: or_zero(record, *destination), src: or_zero(record, *source) })
        }
        S::MemoryFill(memory) => I::memory_fill(MemoryArg { mem: or_zero(record, *memory) }),
        S::I32Const(value) => constant(record, Const::I32(*value)),
        S::I64Const(value) => constant(record, Const::I64(*value)),
        S::F32Const(bits) => constant(record, Const::F32(*bits)),
        S::F64Const(bits) => constant(record, Const::F64(*bits)),
        S::RefNull(ty) => constant(record, Const::RefNull(*ty)),
        S::RefFunc(index) => constant(record, Const::RefFunc(*index)),
        S::Op(records::Op::Select) => I::select(SelectTypes { tys: None }),
        S::Op(op) => I::plain(op.opcode()),
    }
}

/// The import form of an item.
fn inline_import<'a>(from: &ImportName<'a>) -> InlineImport<'a> {
    InlineImport { module: from.module, field: from.name }
}

/// The exports that an item brings, in their order.
fn inline_export<'a>(head: &Head<'a>) -> InlineExport<'a> {
    InlineExport { names: head.exports.clone() }
}

/// A table of any form.
fn table<'a>(record: usize, head: &Head<'a>, kind: TableKind<'a>) -> ModuleField<'a> {
    ModuleField::Table(Table {
        span: at(record),
        id: id(record, head.name),
        name: None,
        exports: inline_export(head),
        kind,
    })
}

/// A memory of any form.
fn memory<'a>(record: usize, head: &Head<'a>, kind: MemoryKind<'a>) -> ModuleField<'a> {
    ModuleField::Memory(Memory {
        span: at(record),
        id: id(record, head.name),
        name: None,
        exports: inline_export(head),
        kind,
    })
}

/// An expression of one constant.
fn offset<'a>(record: usize, given: Const<'a>) -> Expression<'a> {
    Expression::one(constant(record, given))
}

/// An absent table stays absent: the crate tells it from table 0.
fn elem_kind<'a>(record: usize, place: &Option<Place<'a>>) -> ElemKind<'a> {
    match place {
        None => ElemKind::Passive,
        Some(place) => {
            ElemKind::Active { table: optional(record, place.index), offset: offset(record, place.offset) }
        }
    }
}

/// An absent memory is memory 0, as in the crate's parser.
fn data_kind<'a>(record: usize, place: &Option<Place<'a>>) -> DataKind<'a> {
    match place {
        None => DataKind::Passive,
        Some(place) => {
            DataKind::Active { memory: or_zero(record, place.index), offset: offset(record, place.offset) }
        }
    }
}

/// A function, with its body where it is its own.
fn function<'a>(whole: &Whole<'a>, head: &Head<'a>, func: &records::Func<'a>) -> ModuleField<'a> {
    let record = whole.record;
    let (ty, kind) = match func {
        records::Func::Import(from, ty) => {
            (type_use(record, ty, false), FuncKind::Import(inline_import(from), false))
        }
        records::Func::Own { ty, locals } => {
            let local = |var: &Var<'a>| Local { id: id(record, var.name), name: None, ty: value_type(var.ty) };
            let kind = FuncKind::Inline {
                locals: locals.iter().map(local).collect(),
                expression: Expression {
                    instrs: whole.body.iter().map(|(record, given)| instruction(*record as usize, given)).collect(),
                    branch_hints: Box::new([]),
                    instr_spans: None,
                },
            };
            (type_use(record, ty, true), kind)
        }
    };
    ModuleField::Func(Func {
        span: at(record),
        id: id(record, head.name),
        name: None,
        exports: inline_export(head),
        ty,
        kind,
    })
}

/// One field.
fn field<'a>(whole: &Whole<'a>) -> ModuleField<'a> {
    let record = whole.record;
    let span = at(record);
    match &whole.field {
        Field::Type { name, params, results } => ModuleField::Type(Type {
            span,
            id: id(record, *name),
            name: None,
            def: TypeDef {
                kind: InnerTypeKind::Func(FunctionType {
                    params: params.iter().map(|ty| (None, None, value_type(*ty))).collect(),
                    results: results.iter().map(|ty| value_type(*ty)).collect(),
                }),
                shared: false,
                parents: Vec::new(),
                descriptor: None,
                describes: None,
                final_type: None,
            },
        }),
        Field::Import { from, name, ty } => {
            let kind = match ty {
                ItemType::Func(ty) => ItemKind::Func(type_use(record, ty, false)),
                ItemType::Table(ty) => ItemKind::Table(table_type(ty)),
                ItemType::Memory(size) => ItemKind::Memory(memory_type(*size)),
                ItemType::Global(ty) => ItemKind::Global(global_type(ty)),
            };
            let sig = ItemSig { span, id: id(record, *name), name: None, kind };
            ModuleField::Import(Imports::single(span, from.module, from.name, sig))
        }
        Field::Func(head, func) => function(whole, head, func),
        Field::Table(head, given) => table(record, head, match given {
            records::Table::Own(ty) => TableKind::Normal { ty: table_type(ty), init_expr: None },
            records::Table::Import(from, ty) => {
                TableKind::Import { import: inline_import(from), ty: table_type(ty) }
            }
            records::Table::Elements { is64, funcs } => TableKind::Inline {
                elem: RefType::func(),
                is64: *is64,
                shared: false,
                payload: ElemPayload::Indices(indices(record, funcs)),
            },
        }),
        Field::Memory(head, given) => memory(record, head, match given {
            records::Memory::Own(size) => MemoryKind::Normal(memory_type(*size)),
            records::Memory::Import(from, size) => {
                MemoryKind::Import { import: inline_import(from), ty: memory_type(*size) }
            }
            records::Memory::Data { is64, data } => {
                MemoryKind::Inline { is64: *is64, data: vec![DataVal::String(data)], page_size_log2: None }
            }
        }),
        Field::Global(head, given) => {
            let (ty, kind) = match given {
                records::Global::Own(ty, init) => (ty, GlobalKind::Inline(offset(record, *init))),
                records::Global::Import(from, ty) => (ty, GlobalKind::Import(inline_import(from))),
            };
            ModuleField::Global(Global {
                span,
                id: id(record, head.name),
                name: None,
                exports: inline_export(head),
                ty: global_type(ty),
                kind,
            })
        }
        Field::Export { name, kind, index } => ModuleField::Export(Export {
            span,
            name,
            kind: match kind {
                records::Kind::Func => ExportKind::Func,
                records::Kind::Table => ExportKind::Table,
                records::Kind::Memory => ExportKind::Memory,
                records::Kind::Global => ExportKind::Global,
            },
            item: present(record, *index),
        }),
        Field::Start(index) => ModuleField::Start(present(record, *index)),
        Field::Elem { name, place, funcs } => ModuleField::Elem(Elem {
            span,
            id: id(record, *name),
            name: None,
            kind: elem_kind(record, place),
            payload: ElemPayload::Indices(indices(record, funcs)),
        }),
        Field::Data { name, place, data } => ModuleField::Data(Data {
            span,
            id: id(record, *name),
            name: None,
            kind: data_kind(record, place),
            data: vec![DataVal::String(data)],
        }),
    }
}

/// The stream as the crate's syntax tree.
pub fn module<'a>(stream: &Stream<'a>) -> Module<'a> {
    Module {
        span: at(0),
        id: None,
        name: None,
        kind: ModuleKind::Text(stream.fields.iter().map(field).collect()),
    }
}
