//! FRONT (ours): what the crate says of a stream, in document 01's words.
use crate::stream::{self, Stream};
use crate::tree;
use std::fmt;

pub enum Answer {
    Module(Vec<u8>),
    /// The crate's refusal: number, record, on 13 the first holder's record, which
    /// is else the record, and the crate's own message.
    Refused(u32, usize, usize, String),
    /// One of our own refusals, by the front's reading of document 01: the
    /// stream is outside the comparison with the crate.
    Ours(u32, usize),
}

impl fmt::Display for Answer {
    fn fmt(&self, to: &mut fmt::Formatter<'_>) -> fmt::Result {
        match self {
            Answer::Module(bytes) => {
                to.write_str("ok ")?;
                bytes.iter().try_for_each(|byte| write!(to, "{byte:02X}"))
            }
            Answer::Refused(TAKEN, record, first, _) => {
                write!(to, "refused {TAKEN} at {record}, first at {first}")
            }
            Answer::Refused(number, record, ..) => write!(to, "refused {number} at {record}"),
            Answer::Ours(number, record) => write!(to, "ours {number} at {record}"),
        }
    }
}

/// The answer on a stream, with `room` bytes of output. With `names` the module
/// keeps subsections 1 and 2 of the crate's name section.
pub fn answer(bytes: &[u8], room: usize, names: bool) -> Answer {
    let mut stream = match stream::read(bytes) {
        Ok(stream) => stream,
        Err((number, record)) => return Answer::Ours(number, record),
    };
    let said = crate_says(&stream);
    // 12 comes after 11 and before all else.
    if !matches!(said, Err((11, ..))) {
        if let Some(record) = stream::type_too_many(&stream) {
            return Answer::Ours(12, record);
        }
    }
    let module = match said {
        Ok(module) => module,
        Err((TAKEN, record, message)) if message != TAKEN_LOCAL => {
            let first = first_holder(&mut stream, record);
            return Answer::Refused(TAKEN, record, first, message);
        }
        Err((number, record, message)) => return Answer::Refused(number, record, record, message),
    };
    let module = if names { with_names(&module) } else { without_custom(&module) };
    if module.len() > room { Answer::Ours(18, stream.records) } else { Answer::Module(module) }
}

/// The crate's own bytes, custom sections and all, or its refusal.
fn crate_says(stream: &Stream<'_>) -> Result<Vec<u8>, (u32, usize, String)> {
    tree::module(stream).encode().map_err(|error| {
        let message = error.message();
        (number(&message), error.span().offset(), message)
    })
}

/// The refusal of a name that is taken, and the crate's words for it among locals.
const TAKEN: u32 = 13;
const TAKEN_LOCAL: &str = "duplicate local identifier";

/// The record of the item that has the name of the one at `record` first. The
/// crate's error tells the later of the two alone, so the crate is asked again:
/// without the first holder's identifier it does not refuse the later one.
fn first_holder(stream: &mut Stream<'_>, record: usize) -> usize {
    let later = stream.fields.iter().position(|whole| whole.record == record).expect("a field is refused");
    let name = stream.fields[later].name().copied();
    for at in 0..later {
        if stream.fields[at].name().copied() != name {
            continue;
        }
        *stream.fields[at].name().expect("it has that name") = None;
        let said = crate_says(stream);
        *stream.fields[at].name().expect("it had that name") = name.flatten();
        if !matches!(said, Err((TAKEN, again, message)) if again == record && message != TAKEN_LOCAL) {
            return stream.fields[at].record;
        }
    }
    panic!("no field before record {record} has its name first");
}

/// Document 01's number for a message of the crate.
fn number(message: &str) -> u32 {
    if message.starts_with("import after ") {
        11
    } else if message.starts_with("duplicate ") && message.ends_with(" identifier") {
        13
    } else if message.contains(": failed to find name ") {
        14
    } else if message == "unknown type: type index out of bounds" {
        15
    } else if message == "inline function type doesn't match type reference" {
        16
    } else if message == "mismatching labels between end and block" {
        17
    } else {
        panic!("document 01 has no number for the crate's message: {message}")
    }
}

/// A number in groups at `at`, and the place behind it.
fn groups(bytes: &[u8], mut at: usize) -> (usize, usize) {
    let (mut value, mut shift) = (0, 0);
    loop {
        value |= usize::from(bytes[at] & 0x7F) << shift;
        shift += 7;
        at += 1;
        if bytes[at - 1] < 0x80 {
            return (value, at);
        }
    }
}

/// The parts (number, size, content) that follow one another from `at` on,
/// each with its number: a module's sections, or a name section's subsections.
fn parts(bytes: &[u8], mut at: usize) -> Vec<(u8, &[u8])> {
    let mut list = Vec::new();
    while at < bytes.len() {
        let (size, content) = groups(bytes, at + 1);
        list.push((bytes[at], &bytes[at..content + size]));
        at = content + size;
    }
    list
}

/// Document 01's bytes: the custom sections removed.
fn without_custom(module: &[u8]) -> Vec<u8> {
    let mut kept = module[..8].to_vec();
    for (number, section) in parts(module, 8) {
        if number != 0 {
            kept.extend_from_slice(section);
        }
    }
    kept
}

/// The same, then the name section with its subsections 1 and 2, if it has any
/// of them. The crate writes no other custom section here.
fn with_names(module: &[u8]) -> Vec<u8> {
    const NAME: &[u8] = b"\x04name";
    let mut kept = without_custom(module);
    let mut content = NAME.to_vec();
    for (number, section) in parts(module, 8) {
        if number != 0 {
            continue;
        }
        let (_, start) = groups(section, 1);
        assert!(section[start..].starts_with(NAME));
        for (number, part) in parts(section, start + NAME.len()) {
            if number == 1 || number == 2 {
                content.extend_from_slice(part);
            }
        }
    }
    if content.len() > NAME.len() {
        kept.push(0);
        let mut size = content.len();
        while size >= 0x80 {
            kept.push(size as u8 | 0x80);
            size >>= 7;
        }
        kept.push(size as u8);
        kept.extend_from_slice(&content);
    }
    kept
}
