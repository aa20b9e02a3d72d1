//! What several tests read from the documents.
#![allow(dead_code)] // no test uses all of it
use barrizuppa::Refusal;

const DESCRIPTION: &str = include_str!("../../../../docs/STREAM.md");
const REFUSALS: &str = include_str!("../../../../docs/REFUSALS.md");

/// The bytes in hex at the head of a text.
pub fn bytes_at_head(text: &str) -> Vec<u8> {
    let is_hex = |word: &&str| word.len() == 2 && word.bytes().all(|byte| byte.is_ascii_hexdigit());
    text.split(' ')
        .take_while(is_hex)
        .map(|word| u8::from_str_radix(word, 16).unwrap())
        .collect()
}

/// The streams of docs/REFUSALS.md for which nothing special is lent, and whether
/// the strict call is meant.
pub fn refused() -> Vec<(Vec<u8>, Refusal, bool)> {
    let mut streams = Vec::new();
    for line in REFUSALS
        .lines()
        .filter_map(|line| line.strip_prefix("    "))
    {
        let Some((stream, rest)) = line
            .split_once("  refused ")
            .or(line.split_once(" refused "))
        else {
            continue;
        };
        if stream.starts_with("lent") {
            continue;
        }
        // `N at R` or `13 at R, first at F`, and what it is.
        let told = rest.split("  ").next().unwrap();
        let mut numbers = told
            .split([' ', ','])
            .filter_map(|word| word.parse::<u32>().ok());
        let mut next = || numbers.next().unwrap();
        let refusal = match (next(), next()) {
            (Refusal::TAKEN, record) => Refusal::taken(record, next()),
            (number, record) => Refusal::new(number, record),
        };
        let strictly = stream.strip_prefix("strict: ");
        let stream = bytes(strictly.unwrap_or(stream).trim());
        streams.push((stream, refusal, strictly.is_some()));
    }
    streams
}

/// `2 × (01 02) 03` as bytes.
fn bytes(text: &str) -> Vec<u8> {
    let mut bytes = Vec::new();
    let mut rest = text;
    while !rest.is_empty() {
        rest = rest.trim_start();
        let times = rest
            .split_once(" × (")
            .filter(|(count, _)| !count.contains(' '));
        if let Some((count, after)) = times {
            let (copied, after) = after.split_once(')').unwrap();
            let count = count.replace(',', "").parse().unwrap();
            bytes.extend(bytes_at_head(copied).repeat(count));
            rest = after;
        } else {
            let (byte, after) = rest.split_once(' ').unwrap_or((rest, ""));
            bytes.extend(bytes_at_head(byte));
            rest = after;
        }
    }
    bytes
}

/// The example of docs/STREAM.md: its stream and its module.
pub fn described() -> (Vec<u8>, Vec<u8>) {
    let example = DESCRIPTION
        .split("\n## ")
        .find(|section| section.starts_with("An example, record by record\n"))
        .unwrap();
    let fences = example.split("```").skip(3).step_by(2);
    let stream = fences.flat_map(str::lines).flat_map(bytes_at_head);
    let indented = example.lines().filter_map(|line| line.strip_prefix("    "));
    (stream.collect(), indented.flat_map(bytes_at_head).collect())
}
