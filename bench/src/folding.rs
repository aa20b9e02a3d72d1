//! A stream with its bodies folded: what stands between two that open or close a
//! block becomes trees, each instruction on some of those before it. Flat order,
//! and so the module, stays.
use crate::reader::*;
use crate::template::Chance;

/// How many operands an instruction takes at most; the ceiling is 16.
const WIDEST: usize = 4;

/// How the trees are made.
#[derive(Clone, Copy)]
pub enum Trees {
    /// Each instruction on up to `WIDEST` of the last trees, by chance.
    Small,
    /// Two in five on none, the others on two, as deep as nesting goes.
    Large,
    /// One in sixteen on sixteen, the others on none.
    Wide,
    /// One in three on three, the first of which goes as deep as nesting does, the
    /// others on none.
    Deep,
}

/// A folded record with its operands, and how deep it goes.
struct Tree {
    bytes: Vec<u8>,
    nesting: u32,
}

/// The stream must have no reading fault.
pub fn folded(stream: &[u8], seed: u64, trees: Trees) -> Vec<u8> {
    let mut reader = Reader::new(stream).expect("it is not too long");
    let mut chance = Chance::new(seed);
    let mut out = Vec::new();
    while !reader.at_end() {
        let start = reader.bytes_read();
        let has_body = reader.check_record().expect("it is fine");
        out.extend_from_slice(&stream[start..reader.bytes_read()]);
        if has_body {
            fold_body(stream, &mut reader, &mut chance, trees, &mut out).expect("it is fine");
        }
    }
    out
}

fn fold_body(
    stream: &[u8], reader: &mut Reader, chance: &mut Chance, sort: Trees, out: &mut Vec<u8>,
) -> Step<()> {
    let mut trees: Vec<Tree> = Vec::new();
    loop {
        let start = reader.bytes_read();
        let opcode = reader.opcode()?;
        if opcode != 0xFF {
            reader.check_instruction(opcode)?;
        }
        reader.record += 1;
        let record = &stream[start..reader.bytes_read()];
        if matches!(opcode, 0x02..=0x05 | 0x0B | 0xFF) {
            trees.drain(..).for_each(|tree| out.extend(tree.bytes));
            out.extend_from_slice(record);
            if opcode == 0xFF {
                return Ok(());
            }
        } else {
            let operands = match sort {
                Trees::Small => chance.below(trees.len().min(WIDEST) + 1),
                Trees::Large if chance.below(5) < 2 => 0,
                Trees::Large => trees.iter().rev().take(2).take_while(|tree| tree.nesting < NESTING - 1).count(),
                Trees::Wide if chance.below(16) > 0 => 0,
                Trees::Wide => trees.iter().rev().take(16).take_while(|tree| tree.nesting < NESTING).count(),
                Trees::Deep => match trees[..] {
                    [.., ref first, ref second, ref third]
                        if first.nesting < NESTING && second.nesting == 1 && third.nesting == 1 => 3,
                    _ => 0,
                },
            };
            let tree = fold(record, &mut trees, operands);
            trees.push(tree);
        }
    }
}

/// An operator on so many of the last trees.
fn fold(operator: &[u8], trees: &mut Vec<Tree>, operands: usize) -> Tree {
    let operands = trees.drain(trees.len() - operands..);
    let mut bytes = vec![FOLDED];
    bytes.extend_from_slice(operator);
    bytes.push(operands.len() as u8);
    let mut nesting = 1;
    for operand in operands {
        nesting = nesting.max(operand.nesting + 1);
        bytes.extend(operand.bytes);
    }
    assert!(nesting <= NESTING, "a body of the bench is short");
    Tree { bytes, nesting }
}
