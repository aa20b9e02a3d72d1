//! FRONT (ours): a stream's fields, with the bodies of functions beside them, as
//! the reader of bindings/rust reads them. It says of a stream outside the
//! comparison which of our refusals 1 to 9 and 19 is expected there; 12 is here.
use barrizuppa::stream::{Content, Fault, Field, Func, Instruction, ItemType, Reader, TypeUse, ValType};

/// The ceiling of types, added ones included.
const TYPES: usize = 256;

/// An instruction, and the number of its record.
pub type Located<'a> = (u32, Instruction<'a>);

/// A field, the number of its record, and the body of an own function in flat order:
/// a folded record is its operands, and then its operator.
pub struct Whole<'a> {
    pub record: usize,
    pub field: Field<'a>,
    pub body: Vec<Located<'a>>,
}

impl<'a> Whole<'a> {
    /// The place of the item's identifier, if the field is an item.
    pub fn name(&mut self) -> Option<&mut Option<&'a str>> {
        match &mut self.field {
            Field::Type { name, .. }
            | Field::Import { name, .. }
            | Field::Elem { name, .. }
            | Field::Data { name, .. } => Some(name),
            Field::Func(head, _) | Field::Table(head, _) | Field::Memory(head, _) | Field::Global(head, _) => {
                Some(&mut head.name)
            }
            Field::Export { .. } | Field::Start(_) => None,
        }
    }
}

pub struct Stream<'a> {
    pub fields: Vec<Whole<'a>>,
    pub records: usize,
}

/// The stream's records, or the first of refusals 1 to 9 and 19 and its record.
pub fn read(bytes: &[u8]) -> Result<Stream<'_>, (u32, usize)> {
    let refused = |fault: Fault| (fault.refusal.number, fault.refusal.record as usize);
    let mut reader = Reader::new(bytes);
    let mut stream = Stream { fields: Vec::new(), records: 0 };
    while let Some(record) = reader.next() {
        let record = record.map_err(refused)?;
        let Content::Field(field) = record.content else { unreachable!("bodies are read whole") };
        let body = reader.body().map_err(refused)?;
        stream.fields.push(Whole { record: record.number as usize, field, body });
    }
    stream.records = reader.record() as usize;
    Ok(stream)
}

/// Refusal 12: the record of the use that would add a 257th type, if any.
/// Declared types are seen first, wherever they stand; then uses in order.
pub fn type_too_many(stream: &Stream<'_>) -> Option<usize> {
    let mut types: Vec<(Vec<ValType>, &[ValType])> = Vec::new();
    for whole in &stream.fields {
        if let Field::Type { params, results, .. } = &whole.field {
            types.push((params.clone(), results));
        }
    }
    let mut uses: Vec<(usize, &TypeUse<'_>, bool)> = Vec::new();
    for Whole { record, field, body } in &stream.fields {
        match field {
            Field::Import { ty: ItemType::Func(ty), .. } => uses.push((*record, ty, false)),
            Field::Func(_, Func::Own { ty, .. } | Func::Import(_, ty)) => uses.push((*record, ty, false)),
            _ => {}
        }
        for (record, instruction) in body {
            match instruction {
                Instruction::Open(_, _, ty) => uses.push((*record as usize, ty, true)),
                Instruction::CallIndirect(_, ty) => uses.push((*record as usize, ty, false)),
                _ => {}
            }
        }
    }
    for (record, ty, block) in uses {
        let short = block && ty.params.is_empty() && ty.results.len() <= 1;
        if ty.index.is_some() || short {
            continue;
        }
        let signature = (ty.params.iter().map(|param| param.ty).collect(), &ty.results[..]);
        if !types.contains(&signature) {
            types.push(signature);
            if types.len() > TYPES {
                return Some(record);
            }
        }
    }
    None
}
