//! A plain assembler: document 01's job as one would do it in Rust without
//! proofs. The stream becomes a tree (tree.rs), hash maps hold names and
//! signatures, and each field is resolved and put into its section, a vector.
use crate::reader::*;
use crate::tree::*;
use std::collections::HashMap;

const TYPES: usize = 256;
const SECTIONS: usize = 12;
/// In which order they stand: the data count before the code.
const ORDER: [u8; SECTIONS] = [1, 2, 3, 4, 5, 6, 7, 8, 9, 12, 10, 11];

/// The module, or a refusal.
pub type Answer = Result<Vec<u8>, Refusal>;

/// The answer on a stream, with `room` bytes of output.
pub fn assemble(stream: &[u8], room: usize) -> Answer {
    let Tree { fields, records } = read(stream)?;
    check_import_order(&fields)?;
    let mut assembler = Assembler::new();
    assembler.intern(&fields)?;
    assembler.register(&fields)?;
    for field in &fields {
        assembler.put_field(field)?;
    }
    let module = assembler.module();
    if module.len() > room {
        return Err((18, records));
    }
    Ok(module)
}

fn check_import_order(fields: &[Field]) -> Result<(), Refusal> {
    let mut own = false;
    for field in fields {
        match field.kind {
            FieldKind::Import(..) if own => return Err((11, field.record)),
            FieldKind::Function(_) | FieldKind::Table(..) | FieldKind::Memory(_) | FieldKind::Global(..) => own = true,
            _ => {}
        }
    }
    Ok(())
}

fn put_u64(out: &mut Vec<u8>, mut value: u64) {
    while value >= 0x80 {
        out.push(value as u8 | 0x80);
        value >>= 7;
    }
    out.push(value as u8);
}

fn put_u32(out: &mut Vec<u8>, value: u32) {
    put_u64(out, value.into());
}

fn put_signed(out: &mut Vec<u8>, mut value: i64) {
    while !(-64..64).contains(&value) {
        out.push(value as u8 | 0x80);
        value >>= 7;
    }
    out.push(value as u8 & 0x7F);
}

/// Bytes after their length.
fn put_sized(out: &mut Vec<u8>, bytes: &[u8]) {
    put_u64(out, bytes.len() as u64);
    out.extend_from_slice(bytes);
}

fn put_limits(out: &mut Vec<u8>, limits: &Limits) {
    out.push(limits.flags);
    put_u64(out, limits.minimum);
    if let Some(maximum) = limits.maximum {
        put_u64(out, maximum);
    }
}

/// Equal neighbours in one run.
fn put_locals(out: &mut Vec<u8>, locals: &[Variable]) {
    let runs = || locals.chunk_by(|one, next| one.value_type == next.value_type);
    put_u64(out, runs().count() as u64);
    for run in runs() {
        put_u64(out, run.len() as u64);
        out.push(run[0].value_type);
    }
}

#[derive(Default)]
struct Section {
    count: u32,
    bytes: Vec<u8>,
}

struct Assembler<'a> {
    types: Vec<Signature>,
    /// Each signature's first number.
    type_numbers: HashMap<Signature, u32>,
    names: [HashMap<Name<'a>, u32>; SPACES],
    sections: [Section; SECTIONS],
    /// Does some body name a data segment?
    counts_data: bool,
}

impl<'a> Assembler<'a> {
    fn new() -> Self {
        Assembler {
            types: Vec::new(),
            type_numbers: HashMap::new(),
            names: Default::default(),
            sections: Default::default(),
            counts_data: false,
        }
    }

    // ---- types and names, over all fields ----

    /// Declared types are seen first, wherever they stand; then uses.
    fn intern(&mut self, fields: &[Field]) -> Result<(), Refusal> {
        for field in fields {
            if let FieldKind::Type(signature) = &field.kind {
                self.add_type(signature.clone());
            }
        }
        for field in fields {
            match &field.kind {
                FieldKind::Import(_, Description::Function(type_use)) => self.see(type_use, field.record)?,
                FieldKind::Function(function) => {
                    self.see(&function.type_use, field.record)?;
                    for Instruction { record, operands, .. } in &function.body {
                        let record = *record;
                        match operands {
                            Operands::Block(_, type_use) if !type_use.is_short() => self.see(type_use, record)?,
                            Operands::CallIndirect(_, type_use) => self.see(type_use, record)?,
                            _ => {}
                        }
                    }
                }
                _ => {}
            }
        }
        Ok(())
    }

    /// The first equal signature wins.
    fn add_type(&mut self, signature: Signature) {
        let number = self.types.len() as u32;
        self.type_numbers.entry(signature.clone()).or_insert(number);
        self.types.push(signature);
    }

    /// A use without index adds its type if there is none like it.
    fn see(&mut self, type_use: &TypeUse, record: u32) -> Result<(), Refusal> {
        if type_use.index.is_some() {
            return Ok(());
        }
        let signature = type_use.signature();
        if !self.type_numbers.contains_key(&signature) {
            if self.types.len() == TYPES {
                return Err((12, record));
            }
            self.add_type(signature);
        }
        Ok(())
    }

    fn register(&mut self, fields: &[Field<'a>]) -> Result<(), Refusal> {
        let mut counts = [0; SPACES];
        for field in fields {
            let space = match &field.kind {
                FieldKind::Type(_) => TYPE,
                FieldKind::Import(_, Description::Function(_)) | FieldKind::Function(_) => FUNC,
                FieldKind::Import(_, Description::Table(..)) | FieldKind::Table(..) => TABLE,
                FieldKind::Import(_, Description::Memory(_)) | FieldKind::Memory(_) => MEMORY,
                FieldKind::Import(_, Description::Global(_)) | FieldKind::Global(..) => GLOBAL,
                FieldKind::Elem(..) => ELEM,
                FieldKind::Data(..) => DATA,
                FieldKind::Export(..) | FieldKind::Start(_) => continue,
            };
            if let Some(name) = field.name {
                if self.names[space].insert(name, counts[space]).is_some() {
                    return Err((13, field.record));
                }
            }
            counts[space] += 1;
        }
        Ok(())
    }

    // ---- indices to numbers ----

    fn number(&self, space: usize, index: Index) -> Step<u32> {
        match index {
            Index::Number(number) => Ok(number),
            Index::Name(name) => self.names[space].get(name).copied().ok_or(14),
        }
    }

    /// An absent index means 0.
    fn number_or_0(&self, space: usize, index: Option<Index>) -> Step<u32> {
        index.map_or(Ok(0), |index| self.number(space, index))
    }

    fn type_number(&self, type_use: &TypeUse) -> Step<u32> {
        let Some(index) = type_use.index else {
            return Ok(self.type_numbers[&type_use.signature()]);
        };
        let number = self.number(TYPE, index)?;
        if type_use.is_inline() {
            let signature = self.types.get(number as usize).ok_or(15u32)?;
            if !type_use.has(signature) {
                return Err(16);
            }
        }
        Ok(number)
    }

    /// With an inline type the parameters bring their names; without one the
    /// named type's parameters take nameless places.
    fn locals(&self, function: &Function<'a>, number: u32) -> Step<HashMap<Name<'a>, u32>> {
        let type_use = &function.type_use;
        let mut locals = HashMap::new();
        let mut first = type_use.parameters.len() as u32;
        if !type_use.is_inline() {
            first = self.types.get(number as usize).map_or(0, |signature| signature.parameters.len() as u32);
        }
        for (number, one) in (0..).zip(&type_use.parameters).chain((first..).zip(&function.locals)) {
            if let Some(name) = one.name {
                if locals.insert(name, number).is_some() {
                    return Err(13);
                }
            }
        }
        Ok(locals)
    }

    // ---- fields to their sections ----

    /// One more entry of a section.
    fn entry(&mut self, section: usize) -> &mut Vec<u8> {
        let section = &mut self.sections[section - 1];
        section.count += 1;
        &mut section.bytes
    }

    fn put_field(&mut self, field: &Field<'a>) -> Result<(), Refusal> {
        let at_field = |number| (number, field.record);
        match &field.kind {
            FieldKind::Type(_) => Ok(()),
            FieldKind::Import(strings, description) => self.put_import(strings, description).map_err(at_field),
            FieldKind::Function(function) => self.put_function(function, field.record),
            FieldKind::Table(element, limits) => {
                let out = self.entry(4);
                out.push(*element);
                put_limits(out, limits);
                Ok(())
            }
            FieldKind::Memory(limits) => {
                put_limits(self.entry(5), limits);
                Ok(())
            }
            FieldKind::Global(global_type, constant) => self.put_global(*global_type, *constant).map_err(at_field),
            FieldKind::Export(name, kind, index) => {
                let number = self.number((*kind).into(), *index).map_err(at_field)?;
                let out = self.entry(7);
                put_sized(out, name);
                out.push(*kind);
                put_u32(out, number);
                Ok(())
            }
            FieldKind::Start(index) => {
                let number = self.number(FUNC, *index).map_err(at_field)?;
                put_u32(self.entry(8), number);
                Ok(())
            }
            FieldKind::Elem(place, functions) => self.put_elem(place, functions).map_err(at_field),
            FieldKind::Data(place, data) => self.put_data(place, data).map_err(at_field),
        }
    }

    fn put_import(&mut self, (module, name): &(Name, Name), description: &Description) -> Step<()> {
        let mut entry = Vec::new();
        put_sized(&mut entry, module);
        put_sized(&mut entry, name);
        match description {
            Description::Function(type_use) => {
                entry.push(FUNC as u8);
                put_u32(&mut entry, self.type_number(type_use)?);
            }
            Description::Table(element, limits) => {
                entry.extend_from_slice(&[TABLE as u8, *element]);
                put_limits(&mut entry, limits);
            }
            Description::Memory(limits) => {
                entry.push(MEMORY as u8);
                put_limits(&mut entry, limits);
            }
            Description::Global([value_type, mutable]) => {
                entry.extend_from_slice(&[GLOBAL as u8, *value_type, *mutable]);
            }
        }
        self.entry(2).extend_from_slice(&entry);
        Ok(())
    }

    /// A constant expression, with its end.
    fn put_constant(&self, out: &mut Vec<u8>, constant: Constant) -> Step<()> {
        match constant {
            Constant::I32(value) => {
                out.push(0x41);
                put_signed(out, (value as i32).into());
            }
            Constant::I64(value) => {
                out.push(0x42);
                put_signed(out, value as i64);
            }
            Constant::F32(bytes) => {
                out.push(0x43);
                out.extend_from_slice(bytes);
            }
            Constant::F64(bytes) => {
                out.push(0x44);
                out.extend_from_slice(bytes);
            }
            Constant::GlobalGet(index) => {
                out.push(0x23);
                put_u32(out, self.number(GLOBAL, index)?);
            }
            Constant::RefNull(heap) => out.extend_from_slice(&[0xD0, heap]),
            Constant::RefFunc(index) => {
                out.push(0xD2);
                put_u32(out, self.number(FUNC, index)?);
            }
        }
        out.push(0x0B);
        Ok(())
    }

    fn put_global(&mut self, global_type: [u8; 2], constant: Constant) -> Step<()> {
        let mut entry = global_type.to_vec();
        self.put_constant(&mut entry, constant)?;
        self.entry(6).extend_from_slice(&entry);
        Ok(())
    }

    /// Form 1 passive, 0 without a table index, 2 with one.
    fn put_elem(&mut self, place: &Place, functions: &[Index]) -> Step<()> {
        let mut entry = Vec::new();
        match place {
            None => entry.extend_from_slice(&[1, 0]),
            Some((None, constant)) => {
                entry.push(0);
                self.put_constant(&mut entry, *constant)?;
            }
            Some((Some(table), constant)) => {
                entry.push(2);
                put_u32(&mut entry, self.number(TABLE, *table)?);
                self.put_constant(&mut entry, *constant)?;
                entry.push(0);
            }
        }
        put_u64(&mut entry, functions.len() as u64);
        for function in functions {
            put_u32(&mut entry, self.number(FUNC, *function)?);
        }
        self.entry(9).extend_from_slice(&entry);
        Ok(())
    }

    /// Form 1 passive, 0 on memory 0, 2 on another.
    fn put_data(&mut self, place: &Place, data: &[u8]) -> Step<()> {
        let mut entry = Vec::new();
        match place {
            None => entry.push(1),
            Some((memory, constant)) => {
                match self.number_or_0(MEMORY, *memory)? {
                    0 => entry.push(0),
                    memory => {
                        entry.push(2);
                        put_u32(&mut entry, memory);
                    }
                }
                self.put_constant(&mut entry, *constant)?;
            }
        }
        let out = self.entry(11);
        out.extend_from_slice(&entry);
        put_sized(out, data);
        Ok(())
    }

    fn put_function(&mut self, function: &Function<'a>, record: u32) -> Result<(), Refusal> {
        let at_field = |number| (number, record);
        let number = self.type_number(&function.type_use).map_err(at_field)?;
        let locals = self.locals(function, number).map_err(at_field)?;
        let mut code = Vec::new();
        put_locals(&mut code, &function.locals);
        let mut body = Body { assembler: self, locals, labels: Vec::new(), names_data: false };
        for instruction in &function.body {
            body.put(&mut code, instruction).map_err(|number| (number, instruction.record))?;
        }
        let names_data = body.names_data;
        code.push(0x0B);
        put_u32(self.entry(3), number);
        put_sized(self.entry(10), &code);
        self.counts_data |= names_data;
        Ok(())
    }

    fn put_types(&mut self) {
        let section = &mut self.sections[0];
        section.count = self.types.len() as u32;
        for signature in &self.types {
            section.bytes.push(0x60);
            put_sized(&mut section.bytes, &signature.parameters);
            put_sized(&mut section.bytes, &signature.results);
        }
    }

    /// Sections in order, empty ones left out.
    fn module(mut self) -> Vec<u8> {
        self.put_types();
        if self.counts_data {
            let segments = self.sections[11 - 1].count;
            put_u32(self.entry(12), segments);
        }
        let mut out = b"\0asm\x01\0\0\0".to_vec();
        for number in ORDER {
            let section = &self.sections[usize::from(number) - 1];
            if section.count == 0 {
                continue;
            }
            let mut count = Vec::new();
            // The start and the data count are one number.
            if !matches!(number, 8 | 12) {
                put_u32(&mut count, section.count);
            }
            out.push(number);
            put_u64(&mut out, (count.len() + section.bytes.len()) as u64);
            out.extend_from_slice(&count);
            out.extend_from_slice(&section.bytes);
        }
        out
    }
}

/// A function's locals, and the labels of its open blocks, the outermost first.
struct Body<'s, 'a> {
    assembler: &'s Assembler<'a>,
    locals: HashMap<Name<'a>, u32>,
    labels: Vec<Option<Name<'a>>>,
    names_data: bool,
}

impl<'a> Body<'_, 'a> {
    fn local(&self, index: Index) -> Step<u32> {
        match index {
            Index::Number(number) => Ok(number),
            Index::Name(name) => self.locals.get(name).copied().ok_or(14),
        }
    }

    /// From the innermost block outward, the first that carries the name.
    fn depth(&self, index: Index) -> Step<u32> {
        match index {
            Index::Number(number) => Ok(number),
            Index::Name(name) => {
                let depth = self.labels.iter().rev().position(|label| *label == Some(name));
                depth.map(|depth| depth as u32).ok_or(14)
            }
        }
    }

    fn put(&mut self, out: &mut Vec<u8>, instruction: &Instruction<'a>) -> Step<()> {
        let Instruction { opcode, operands, .. } = instruction;
        let assembler = self.assembler;
        out.push(*opcode);
        match operands {
            Operands::None => {}
            Operands::Block(label, type_use) => {
                self.labels.push(*label);
                if type_use.is_short() {
                    out.push(type_use.results.first().copied().unwrap_or(0x40));
                } else {
                    put_signed(out, assembler.type_number(type_use)?.into());
                }
            }
            Operands::Label(label) => {
                let open = if *opcode == 0x05 { self.labels.last().copied() } else { self.labels.pop() };
                if label.is_some() && open != Some(*label) {
                    return Err(17);
                }
            }
            Operands::Index(index) => {
                let number = match opcode {
                    0x0C | 0x0D => self.depth(*index)?,
                    0x20..=0x22 => self.local(*index)?,
                    0x23 | 0x24 => assembler.number(GLOBAL, *index)?,
                    _ => assembler.number(FUNC, *index)?,
                };
                put_u32(out, number);
            }
            Operands::BrTable(labels) => {
                put_u64(out, labels.len() as u64 - 1);
                for label in labels {
                    put_u32(out, self.depth(*label)?);
                }
            }
            Operands::CallIndirect(table, type_use) => {
                let table = assembler.number_or_0(TABLE, *table)?;
                put_u32(out, assembler.type_number(type_use)?);
                put_u32(out, table);
            }
            Operands::Access { exponent, offset, memory } => {
                match assembler.number_or_0(MEMORY, *memory)? {
                    0 => out.push(*exponent),
                    memory => {
                        out.push(exponent + 64);
                        put_u32(out, memory);
                    }
                }
                put_u32(out, *offset);
            }
            Operands::Memory(memory) => put_u32(out, assembler.number_or_0(MEMORY, *memory)?),
            Operands::I32(value) => put_signed(out, (*value as i32).into()),
            Operands::I64(value) => put_signed(out, *value as i64),
            Operands::Float(bytes) => out.extend_from_slice(bytes),
            Operands::Reference(heap) => out.push(*heap),
            Operands::MemoryInit(data, memory) => {
                self.names_data = true;
                out.push(MEMORY_INIT);
                put_u32(out, assembler.number(DATA, *data)?);
                put_u32(out, assembler.number_or_0(MEMORY, **memory)?);
            }
            Operands::DataDrop(data) => {
                self.names_data = true;
                out.push(DATA_DROP);
                put_u32(out, assembler.number(DATA, *data)?);
            }
            Operands::MemoryCopy(destination, source) => {
                out.push(MEMORY_COPY);
                put_u32(out, assembler.number_or_0(MEMORY, *destination)?);
                put_u32(out, assembler.number_or_0(MEMORY, **source)?);
            }
            Operands::MemoryFill(memory) => {
                out.push(MEMORY_FILL);
                put_u32(out, assembler.number_or_0(MEMORY, *memory)?);
            }
        }
        Ok(())
    }
}
