//! Document 02's morning run: streams with 256 declared types and 2,000 type
//! uses each, half of them of types late in the list.
//!
//! The rivals are written for these streams alone. They read type records and
//! own functions of call_indirect, with every test of document 01 on the way,
//! into flat vectors (no tree), look each use up, and write the module. One
//! keeps the types in a plain list that is searched from the front, the other
//! in a hash map beside it.
use crate::reader::*;
use crate::template::Chance;
use std::collections::HashMap;

pub const STREAMS: usize = 1_000;
const TYPES: usize = 256;
const USES: usize = 2_000;
const VALUE_TYPES: [u8; 6] = [0x7F, 0x7E, 0x7D, 0x7C, 0x70, 0x6F];

// ---- the streams ----

/// Parameters, and results.
type Lists = (Vec<u8>, Vec<u8>);

fn types_below(chance: &mut Chance, most: usize) -> Vec<u8> {
    (0..chance.below(most + 1)).map(|_| VALUE_TYPES[chance.below(VALUE_TYPES.len())]).collect()
}

/// Different signatures, of up to eight parameters and two results.
fn signatures(chance: &mut Chance) -> Vec<Lists> {
    let mut all: Vec<Lists> = Vec::new();
    while all.len() < TYPES {
        let one = (types_below(chance, 8), types_below(chance, 2));
        if !all.contains(&one) {
            all.push(one);
        }
    }
    all
}

fn put_list(stream: &mut Vec<u8>, types: &[u8]) {
    stream.push(types.len() as u8);
    stream.extend_from_slice(types);
}

/// A call_indirect; one parameter in four has a name.
fn put_use(stream: &mut Vec<u8>, chance: &mut Chance, (parameters, results): &Lists) {
    stream.extend_from_slice(&[0x11, 0, 0, parameters.len() as u8]);
    for value_type in parameters {
        match chance.below(4) {
            0 => stream.extend_from_slice(&[3, b'p', b'0' + chance.below(10) as u8, b'x']),
            _ => stream.push(0),
        }
        stream.push(*value_type);
    }
    put_list(stream, results);
}

/// Half of the uses are of the last quarter of the types, half of any.
pub fn stream(seed: u64) -> Vec<u8> {
    let mut chance = Chance::new(seed);
    let signatures = signatures(&mut chance);
    let mut stream = Vec::new();
    for (parameters, results) in &signatures {
        stream.extend_from_slice(&[0x01, 0]);
        put_list(&mut stream, parameters);
        put_list(&mut stream, results);
    }
    // One function of type 0, without locals.
    stream.extend_from_slice(&[0x03, 0, 0, 0, 1, 0, 0, 0, 0]);
    for at in 0..USES {
        let number = if at % 2 == 0 { TYPES - 1 - chance.below(TYPES / 4) } else { chance.below(TYPES) };
        put_use(&mut stream, &mut chance, &signatures[number]);
    }
    stream.push(0xFF);
    stream
}

// ---- the rivals ----

/// Where a signature stands among the bytes of all, and how many are parameters.
#[derive(Clone, Copy)]
struct Part {
    start: usize,
    middle: usize,
    end: usize,
}

pub trait Types: Default {
    /// One more, after the others.
    fn declare(&mut self, parameters: &[u8], results: &[u8]);

    /// The first equal one.
    fn find(&self, parameters: &[u8], results: &[u8]) -> Option<usize>;

    fn all(&self) -> &[Lists];
}

/// Searched from the front.
#[derive(Default)]
pub struct List {
    all: Vec<Lists>,
}

impl Types for List {
    fn declare(&mut self, parameters: &[u8], results: &[u8]) {
        self.all.push((parameters.to_vec(), results.to_vec()));
    }

    fn find(&self, parameters: &[u8], results: &[u8]) -> Option<usize> {
        self.all.iter().position(|one| one.0 == parameters && one.1 == results)
    }

    fn all(&self) -> &[Lists] {
        &self.all
    }
}

/// Each signature's first number, by its bytes with a mark between the lists.
#[derive(Default)]
pub struct Map {
    all: Vec<Lists>,
    numbers: HashMap<Vec<u8>, usize>,
}

fn key(parameters: &[u8], results: &[u8]) -> ([u8; 81], usize) {
    let mut key = [0; 81];
    let middle = parameters.len();
    key[..middle].copy_from_slice(parameters);
    let end = middle + 1 + results.len();
    key[middle + 1..end].copy_from_slice(results);
    (key, end)
}

impl Types for Map {
    fn declare(&mut self, parameters: &[u8], results: &[u8]) {
        let (bytes, length) = key(parameters, results);
        let number = self.all.len();
        self.numbers.entry(bytes[..length].to_vec()).or_insert(number);
        self.all.push((parameters.to_vec(), results.to_vec()));
    }

    fn find(&self, parameters: &[u8], results: &[u8]) -> Option<usize> {
        let (bytes, length) = key(parameters, results);
        self.numbers.get(&bytes[..length]).copied()
    }

    fn all(&self) -> &[Lists] {
        &self.all
    }
}

/// What was read: signatures one after the other.
#[derive(Default)]
struct Flat {
    bytes: Vec<u8>,
    declared: Vec<Part>,
    uses: Vec<(Part, u32)>,
    function_type: u32,
}

impl Flat {
    fn list(&mut self, reader: &mut Reader, most: u32, named: bool) -> Step<()> {
        for _ in 0..reader.up_to(most, 7)? {
            if named {
                reader.identifier()?;
            }
            self.bytes.push(reader.value_type()?);
        }
        Ok(())
    }

    fn signature(&mut self, reader: &mut Reader, named: bool) -> Step<Part> {
        let start = self.bytes.len();
        self.list(reader, PARAMETERS, named)?;
        let middle = self.bytes.len();
        self.list(reader, RESULTS, false)?;
        Ok(Part { start, middle, end: self.bytes.len() })
    }

    fn record(&mut self, reader: &mut Reader, in_body: &mut bool) -> Step<()> {
        if *in_body {
            match reader.opcode()? {
                0x11 => {
                    assert!(reader.optional_index()?.is_none() && reader.optional_index()?.is_none());
                    let part = self.signature(reader, true)?;
                    self.uses.push((part, reader.record));
                }
                0xFF => *in_body = false,
                _ => unreachable!("no stream of the morning has it"),
            }
            return Ok(());
        }
        match reader.field_byte()? {
            0x01 => {
                reader.item(TYPE)?;
                reader.identifier()?;
                let part = self.signature(reader, false)?;
                self.declared.push(part);
            }
            0x03 => {
                reader.item(FUNC)?;
                reader.identifier()?;
                assert!(reader.up_to(EXPORTS, 7)? == 0 && reader.form(2)? == 0);
                let Some(Index::Number(number)) = reader.optional_index()? else { unreachable!() };
                self.function_type = number;
                let part = self.signature(reader, true)?;
                assert!(part.start == part.end && reader.up_to(LOCALS, 7)? == 0);
                *in_body = true;
            }
            _ => unreachable!("no stream of the morning has it"),
        }
        Ok(())
    }
}

fn read(stream: &[u8]) -> Result<Flat, Refusal> {
    let mut reader = Reader::new(stream)?;
    let mut flat = Flat::default();
    let mut in_body = false;
    while !reader.at_end() {
        flat.record(&mut reader, &mut in_body).map_err(|number| (number, reader.record))?;
        reader.record += 1;
    }
    Ok(flat)
}

fn put_number(out: &mut Vec<u8>, mut value: usize) {
    while value >= 0x80 {
        out.push(value as u8 | 0x80);
        value >>= 7;
    }
    out.push(value as u8);
}

fn put_section(module: &mut Vec<u8>, number: u8, content: &[u8]) {
    module.push(number);
    put_number(module, content.len());
    module.extend_from_slice(content);
}

fn put_types(types: &[Lists]) -> Vec<u8> {
    let mut content = Vec::new();
    put_number(&mut content, types.len());
    for (parameters, results) in types {
        content.push(0x60);
        put_list(&mut content, parameters);
        put_list(&mut content, results);
    }
    content
}

pub fn assemble<T: Types>(stream: &[u8]) -> Result<Vec<u8>, Refusal> {
    let flat = read(stream)?;
    let mut types = T::default();
    for part in &flat.declared {
        types.declare(&flat.bytes[part.start..part.middle], &flat.bytes[part.middle..part.end]);
    }
    // No locals.
    let mut body = vec![0];
    for (part, record) in &flat.uses {
        let (parameters, results) = (&flat.bytes[part.start..part.middle], &flat.bytes[part.middle..part.end]);
        let number = match types.find(parameters, results) {
            Some(number) => number,
            None if types.all().len() == TYPES => return Err((12, *record)),
            None => {
                types.declare(parameters, results);
                types.all().len() - 1
            }
        };
        body.push(0x11);
        put_number(&mut body, number);
        body.push(0);
    }
    body.push(0x0B);
    let mut module = b"\0asm\x01\0\0\0".to_vec();
    put_section(&mut module, 1, &put_types(types.all()));
    let mut functions = vec![1];
    put_number(&mut functions, flat.function_type as usize);
    put_section(&mut module, 3, &functions);
    let mut code = vec![1];
    put_number(&mut code, body.len());
    code.extend_from_slice(&body);
    put_section(&mut module, 10, &code);
    Ok(module)
}
