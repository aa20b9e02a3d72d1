//! A stream as text: its records in the standard's text notation (chapter 6).
use super::types::*;
use super::{Fault, Reader};
use std::fmt::{self, Write as _};

/// Bytes on a line of an account.
const WIDTH: usize = 16;

/// Bytes that are shown after a fault.
const LEFT: usize = 4 * WIDTH;

/// A record of a stream, and what it says.
#[derive(Clone, Debug, PartialEq, Eq)]
pub struct Row<'a> {
    pub record: Record<'a>,
    /// What it says. The bracket of an own function is left open, and so is that of
    /// a folded record with operands: the last of them closes it.
    pub text: String,
    /// How deep it stands: 0 for a field and the end of a body, and one more for
    /// a body, each block in it, and each folded record of which it is an operand.
    pub depth: usize,
    /// The same of folded records alone.
    pub nesting: usize,
}

/// The records of a stream, up to its first fault if it has one. It is shown as
/// a table: number, offset, bytes, and what each record says.
#[derive(Clone, Debug, PartialEq, Eq)]
pub struct Account<'a> {
    pub rows: Vec<Row<'a>>,
    pub fault: Option<Fault>,
    /// What was not read.
    pub rest: &'a [u8],
}

/// The account of a stream. Only the bytes are read, so it says what is there
/// and not what was meant.
pub fn account(stream: &[u8]) -> Account<'_> {
    let mut rows: Vec<Row<'_>> = Vec::new();
    let mut fault = None;
    let mut end = 0;
    let mut depth: usize = 0;
    let mut due = Vec::new();
    for record in Reader::new(stream) {
        match record {
            Ok(record) => {
                end = record.offset + record.bytes.len();
                let (at, next) = depths(depth, &record.content);
                depth = next;
                let nesting = due.len();
                let closed = closes(&mut due, &record.content);
                rows.push(Row {
                    text: text(&record.content) + &")".repeat(closed),
                    depth: at + nesting,
                    nesting,
                    record,
                });
            }
            Err(found) => fault = Some(found),
        }
    }
    Account {
        rows,
        fault,
        rest: &stream[end..],
    }
}

/// How many brackets of folded records a record closes beside its own: it is an
/// operand, and the last of those that they wait for. `due` is how many operands
/// each still waits for, the outermost first.
fn closes(due: &mut Vec<u32>, content: &Content<'_>) -> usize {
    let Content::Folded(_, operands) = content else {
        return 0;
    };
    let mut closed = 0;
    due.push(*operands);
    while due.last() == Some(&0) {
        due.pop();
        if let Some(outer) = due.last_mut() {
            *outer -= 1;
            closed += usize::from(*outer == 0);
        }
    }
    closed
}

/// Where a record stands that comes at this depth, and where the next one does.
fn depths(depth: usize, content: &Content<'_>) -> (usize, usize) {
    match content {
        Content::Field(Field::Func(_, Func::Own { .. })) => (0, 1),
        Content::Field(_) | Content::BodyEnd => (0, 0),
        Content::Instruction(Instruction::Open(..)) => (depth, depth + 1),
        Content::Instruction(Instruction::Else(_)) => (depth - 1, depth),
        Content::Instruction(Instruction::End(_)) => (depth - 1, depth - 1),
        Content::Instruction(_) | Content::Folded(..) => (depth, depth),
    }
}

impl Account<'_> {
    /// How many bytes were read as records.
    pub fn read(&self) -> usize {
        let last = self.rows.last().map(|row| &row.record);
        last.map_or(0, |record| record.offset + record.bytes.len())
    }
}

impl fmt::Display for Account<'_> {
    fn fmt(&self, f: &mut fmt::Formatter<'_>) -> fmt::Result {
        let width = 3 * WIDTH - 1;
        writeln!(f, "record offset  {:width$}  what it says", "bytes")?;
        for row in &self.rows {
            let Record {
                number,
                offset,
                bytes,
                ..
            } = row.record;
            let text = "  ".repeat(row.nesting) + &row.text;
            show(f, number, offset, bytes, &text)?;
        }
        if let Some(fault) = self.fault {
            let number = self.rows.len() as u32;
            let offset = self.read();
            let left = &self.rest[..self.rest.len().min(LEFT)];
            show(f, number, offset, left, &fault.to_string())?;
        }
        Ok(())
    }
}

/// One record's lines.
fn show(
    f: &mut fmt::Formatter<'_>,
    number: u32,
    offset: usize,
    bytes: &[u8],
    text: &str,
) -> fmt::Result {
    let width = 3 * WIDTH - 1;
    let mut lines = bytes.chunks(WIDTH).map(hex);
    let first = lines.next().unwrap_or_default();
    writeln!(f, "{number:6} {offset:6}  {first:width$}  {text}")?;
    lines.try_for_each(|line| writeln!(f, "{:13}  {line}", ""))
}

/// Bytes in hex, with a blank between.
pub(crate) fn hex(bytes: &[u8]) -> String {
    let mut text = String::new();
    for (at, byte) in bytes.iter().enumerate() {
        let blank = if at > 0 { " " } else { "" };
        write!(text, "{blank}{byte:02X}").expect("a string takes all");
    }
    text
}

/// What a record says, in the standard's text notation. Of a folded record with
/// operands the bracket is left open.
pub fn text(content: &Content<'_>) -> String {
    match content {
        Content::Field(field) => field_text(field),
        Content::Instruction(instruction) => instruction_text(instruction),
        Content::Folded(operator, 0) => format!("({})", instruction_text(operator)),
        Content::Folded(operator, _) => format!("({}", instruction_text(operator)),
        Content::BodyEnd => ")".to_string(),
    }
}

/// The parts that are there, with a blank between.
fn joined<T: AsRef<str>>(parts: impl IntoIterator<Item = T>) -> String {
    let mut text = String::new();
    for part in parts {
        let part = part.as_ref();
        if !text.is_empty() && !part.is_empty() {
            text.push(' ');
        }
        text.push_str(part);
    }
    text
}

/// The same in brackets.
fn bracket<T: AsRef<str>>(parts: impl IntoIterator<Item = T>) -> String {
    format!("({})", joined(parts))
}

fn name(name: Option<&str>) -> String {
    name.map(|name| format!("${name}")).unwrap_or_default()
}

fn index(index: &Index<'_>) -> String {
    match index {
        Index::Number(number) => number.to_string(),
        Index::Name(name) => format!("${name}"),
    }
}

fn optional(given: &Option<Index<'_>>) -> String {
    given.as_ref().map(index).unwrap_or_default()
}

fn indices(given: &[Index<'_>]) -> String {
    joined(given.iter().map(index))
}

/// A string or data; bytes that no string may have are in hex.
fn quoted(bytes: &[u8]) -> String {
    let mut text = String::from("\"");
    for &byte in bytes {
        match byte {
            b'"' | b'\\' => text.extend(['\\', byte.into()]),
            0x20..=0x7E => text.push(byte.into()),
            _ => write!(text, "\\{byte:02x}").expect("a string takes all"),
        }
    }
    text.push('"');
    text
}

fn import_name(from: &ImportName<'_>) -> String {
    joined([
        "import".to_string(),
        quoted(from.module.as_bytes()),
        quoted(from.name.as_bytes()),
    ])
}

/// Parameters or locals, each in its brackets.
fn vars(what: &str, given: &[Var<'_>]) -> String {
    joined(
        given
            .iter()
            .map(|var| bracket([what, &name(var.name), var.ty.text()])),
    )
}

/// Parameters or results without names.
fn types(what: &str, given: &[ValType]) -> String {
    joined(given.iter().map(|ty| bracket([what, ty.text()])))
}

/// A signature, as declared types have it.
pub(crate) fn signature(params: &[ValType], results: &[ValType]) -> String {
    bracket(["func", &types("param", params), &types("result", results)])
}

/// A type use.
fn type_use(given: &TypeUse<'_>) -> String {
    let by_index = given
        .index
        .as_ref()
        .map(|given| bracket(["type", &index(given)]));
    joined([
        by_index.unwrap_or_default(),
        vars("param", &given.params),
        types("result", &given.results),
    ])
}

fn limits(given: Limits) -> String {
    joined([
        is64(given.is64()).to_string(),
        given.min().to_string(),
        given.max().map(|max| max.to_string()).unwrap_or_default(),
    ])
}

fn is64(is64: bool) -> &'static str {
    if is64 {
        "i64"
    } else {
        ""
    }
}

fn table_type(given: &TableType) -> String {
    joined([&limits(given.limits), ValType::from(given.element).text()])
}

fn global_type(given: &GlobalType) -> String {
    let ty = given.ty.text();
    if given.mutable {
        bracket(["mut", ty])
    } else {
        ty.to_string()
    }
}

/// A float by its bits: the sign, the exponent and fraction as a number, or
/// what the standard writes for an infinity or a NaN.
fn float(negative: bool, payload: u64, canonical: u64, is_nan: bool, value: String) -> String {
    let sign = if negative { "-" } else { "" };
    match is_nan {
        true if payload == canonical => format!("{sign}nan"),
        true => format!("{sign}nan:0x{payload:x}"),
        false => value,
    }
}

fn f32_text(bits: u32) -> String {
    let value = f32::from_bits(bits);
    let payload = u64::from(bits & 0x7F_FFFF);
    float(
        bits >> 31 == 1,
        payload,
        1 << 22,
        value.is_nan(),
        format!("{value:?}"),
    )
}

fn f64_text(bits: u64) -> String {
    let value = f64::from_bits(bits);
    let payload = bits & 0xF_FFFF_FFFF_FFFF;
    float(
        bits >> 63 == 1,
        payload,
        1 << 51,
        value.is_nan(),
        format!("{value:?}"),
    )
}

fn constant(given: &Const<'_>) -> String {
    instruction_text(&match *given {
        Const::I32(value) => Instruction::I32Const(value),
        Const::I64(value) => Instruction::I64Const(value),
        Const::F32(bits) => Instruction::F32Const(bits),
        Const::F64(bits) => Instruction::F64Const(bits),
        Const::GlobalGet(index) => Instruction::GlobalGet(index),
        Const::RefNull(ty) => Instruction::RefNull(ty),
        Const::RefFunc(index) => Instruction::RefFunc(index),
    })
}

/// Where an active segment goes; nothing for a passive one.
fn place(of: &str, given: &Option<Place<'_>>) -> String {
    let Some(place) = given else {
        return String::new();
    };
    let into = place
        .index
        .as_ref()
        .map(|given| bracket([of, &index(given)]));
    joined([into.unwrap_or_default(), bracket([constant(&place.offset)])])
}

/// What records 03 to 06 begin with.
fn head(kind: Kind, head: &Head<'_>) -> String {
    let exports = head
        .exports
        .iter()
        .map(|name| bracket(["export", &quoted(name.as_bytes())]));
    joined([kind.text().to_string(), name(head.name), joined(exports)])
}

fn field_text(field: &Field<'_>) -> String {
    match field {
        Field::Type {
            name: called,
            params,
            results,
        } => bracket(["type", &name(*called), &signature(params, results)]),
        Field::Import {
            from,
            name: called,
            ty,
        } => {
            let description = match ty {
                ItemType::Func(ty) => type_use(ty),
                ItemType::Table(ty) => table_type(ty),
                ItemType::Memory(given) => limits(*given),
                ItemType::Global(ty) => global_type(ty),
            };
            let item = bracket([ty.kind().text(), &name(*called), &description]);
            bracket([import_name(from), item])
        }
        Field::Func(given, Func::Own { ty, locals }) => format!(
            "({}",
            joined([head(Kind::Func, given), type_use(ty), vars("local", locals)])
        ),
        Field::Func(given, Func::Import(from, ty)) => {
            imported(Kind::Func, given, from, type_use(ty))
        }
        Field::Table(given, Table::Own(ty)) => bracket([head(Kind::Table, given), table_type(ty)]),
        Field::Table(given, Table::Import(from, ty)) => {
            imported(Kind::Table, given, from, table_type(ty))
        }
        Field::Table(given, Table::Elements { is64: wide, funcs }) => bracket([
            head(Kind::Table, given).as_str(),
            is64(*wide),
            "funcref",
            &bracket(["elem", &indices(funcs)]),
        ]),
        Field::Memory(given, Memory::Own(size)) => {
            bracket([head(Kind::Memory, given), limits(*size)])
        }
        Field::Memory(given, Memory::Import(from, size)) => {
            imported(Kind::Memory, given, from, limits(*size))
        }
        Field::Memory(given, Memory::Data { is64: wide, data }) => bracket([
            head(Kind::Memory, given).as_str(),
            is64(*wide),
            &bracket(["data", &quoted(data)]),
        ]),
        Field::Global(given, Global::Own(ty, init)) => bracket([
            head(Kind::Global, given),
            global_type(ty),
            bracket([constant(init)]),
        ]),
        Field::Global(given, Global::Import(from, ty)) => {
            imported(Kind::Global, given, from, global_type(ty))
        }
        Field::Export {
            name: called,
            kind,
            index: given,
        } => bracket([
            "export",
            &quoted(called.as_bytes()),
            &bracket([kind.text(), &index(given)]),
        ]),
        Field::Start(given) => bracket(["start", &index(given)]),
        Field::Elem {
            name: called,
            place: at,
            funcs,
        } => bracket([
            "elem",
            &name(*called),
            &place("table", at),
            "func",
            &indices(funcs),
        ]),
        Field::Data {
            name: called,
            place: at,
            data,
        } => bracket(["data", &name(*called), &place("memory", at), &quoted(data)]),
    }
}

/// The import form of an item.
fn imported(kind: Kind, given: &Head<'_>, from: &ImportName<'_>, ty: String) -> String {
    bracket([head(kind, given), bracket([import_name(from)]), ty])
}

fn instruction_text(instruction: &Instruction<'_>) -> String {
    let indexed = |text, given| joined([text, index(given).as_str()]);
    let labelled = |text, label: &Option<&str>| joined([text, name(*label).as_str()]);
    match instruction {
        Instruction::Op(op) => op.text().to_string(),
        Instruction::Open(opening, label, ty) => {
            joined([opening.text(), &name(*label), &type_use(ty)])
        }
        Instruction::Else(label) => labelled("else", label),
        Instruction::End(label) => labelled("end", label),
        Instruction::Br(given) => indexed("br", given),
        Instruction::BrIf(given) => indexed("br_if", given),
        Instruction::BrTable(labels, default) => {
            joined(["br_table", &indices(labels), &index(default)])
        }
        Instruction::Call(given) => indexed("call", given),
        Instruction::CallIndirect(table, ty) => {
            joined(["call_indirect", &optional(table), &type_use(ty)])
        }
        Instruction::LocalGet(given) => indexed("local.get", given),
        Instruction::LocalSet(given) => indexed("local.set", given),
        Instruction::LocalTee(given) => indexed("local.tee", given),
        Instruction::GlobalGet(given) => indexed("global.get", given),
        Instruction::GlobalSet(given) => indexed("global.set", given),
        Instruction::Access(access, arg) => {
            let offset = match arg.offset {
                0 => String::new(),
                offset => format!("offset={offset}"),
            };
            let align = match arg.align {
                Some(exponent) if exponent != access.natural() => {
                    format!("align={}", 1u64 << exponent)
                }
                _ => String::new(),
            };
            joined([access.text(), &optional(&arg.memory), &offset, &align])
        }
        Instruction::MemorySize(memory) => joined(["memory.size", &optional(memory)]),
        Instruction::MemoryGrow(memory) => joined(["memory.grow", &optional(memory)]),
        // In the text the memory comes first.
        Instruction::MemoryInit { data, memory } => {
            joined(["memory.init", &optional(memory), &index(data)])
        }
        Instruction::DataDrop(data) => indexed("data.drop", data),
        // In the text both stand there, or none.
        Instruction::MemoryCopy {
            destination: None,
            source: None,
        } => "memory.copy".to_string(),
        Instruction::MemoryCopy {
            destination,
            source,
        } => {
            let [to, from] = [destination, source].map(|given| given.unwrap_or(Index::Number(0)));
            joined(["memory.copy", &index(&to), &index(&from)])
        }
        Instruction::MemoryFill(memory) => joined(["memory.fill", &optional(memory)]),
        Instruction::I32Const(value) => format!("i32.const {value}"),
        Instruction::I64Const(value) => format!("i64.const {value}"),
        Instruction::F32Const(bits) => format!("f32.const {}", f32_text(*bits)),
        Instruction::F64Const(bits) => format!("f64.const {}", f64_text(*bits)),
        Instruction::RefNull(ty) => format!("ref.null {}", ty.text()),
        Instruction::RefFunc(given) => indexed("ref.func", given),
    }
}
