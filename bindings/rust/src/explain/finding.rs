//! What a refusal means of this stream: the part of the record that is at fault,
//! and the other records that matter. The assembler decides; here its answer is
//! only illustrated.
use crate::stream::*;
use crate::Refusal;

/// What was found.
#[derive(Clone, Debug, Default)]
pub(super) struct Finding {
    /// What is wrong with the marked part.
    pub note: String,
    /// The part of the record's text at fault; the whole of it if none.
    pub marked: Option<String>,
    /// Is its last place meant, where it has several?
    pub last: bool,
    /// Other rows that matter, and why.
    pub beside: Vec<(usize, String)>,
}

/// The index spaces, and what is found by its place in a function.
#[derive(Clone, Copy, Debug, PartialEq, Eq)]
enum Space {
    Type,
    Func,
    Table,
    Memory,
    Global,
    Elem,
    Data,
    Local,
    Label,
}

impl Space {
    /// One of it, in words.
    fn one(self) -> &'static str {
        match self {
            Space::Type => "type",
            Space::Func => "function",
            Space::Table => "table",
            Space::Memory => "memory",
            Space::Global => "global",
            Space::Elem => "element segment",
            Space::Data => "data segment",
            Space::Local => "parameter or local of this function",
            Space::Label => "open block",
        }
    }

    /// The same with its article.
    fn some(self) -> String {
        let one = self.one();
        let article = if one.starts_with(['e', 'o']) {
            "an"
        } else {
            "a"
        };
        format!("{article} {one}")
    }

    fn of(kind: Kind) -> Space {
        match kind {
            Kind::Func => Space::Func,
            Kind::Table => Space::Table,
            Kind::Memory => Space::Memory,
            Kind::Global => Space::Global,
        }
    }
}

/// What an else begins with.
const ELSE: u8 = 0x05;

const ITEM_SPACES: [Space; 7] = [
    Space::Type,
    Space::Func,
    Space::Table,
    Space::Memory,
    Space::Global,
    Space::Elem,
    Space::Data,
];

/// What can be said of this refusal of this stream.
pub(super) fn find(account: &Account<'_>, refusal: Refusal) -> Finding {
    let rows = &account.rows;
    let at = refusal.record as usize;
    if let Some(fault) = account.fault {
        // Another refusal than the reader's was not given of these bytes by these rules.
        return match fault.refusal == refusal {
            true => reading(account, fault),
            false => Finding::default(),
        };
    }
    let Some(row) = rows.get(at) else {
        return Finding::default();
    };
    let content = &row.record.content;
    match refusal.number {
        11 => late_import(rows, at),
        12 => Finding {
            note: "this would be type 256".to_string(),
            ..Finding::default()
        },
        13 => taken(rows, refusal, content),
        14 => missing(rows, at, content),
        15 | 16 => differing(rows, content, refusal.number),
        17 => other_label(rows, at, content),
        20 => nowhere(rows, at, content),
        _ => Finding::default(),
    }
}

/// 2 to 9 and 19: the reader says what is wrong.
fn reading(account: &Account<'_>, fault: Fault) -> Finding {
    let rows = &account.rows;
    let beside = match fault.refusal.number {
        2 | 4 | 7 if fault.offset == account.read() => awaited(rows).into_iter().collect(),
        8 if account.rest.first() == Some(&ELSE) => forbidden_else(rows),
        8 => unclosed(rows),
        9 => rows
            .iter()
            .position(|row| matches!(row.record.content, Content::Field(Field::Start(_))))
            .map(|row| (row, "the first start".to_string()))
            .into_iter()
            .collect(),
        _ => Vec::new(),
    };
    Finding {
        note: format!("at byte {}: {}", fault.offset, fault.what),
        beside,
        ..Finding::default()
    }
}

/// The folded record that waits for an operand after these rows, if one does.
fn awaited(rows: &[Row<'_>]) -> Option<(usize, String)> {
    let mut waiting: Vec<(usize, u32, u32)> = Vec::new();
    for (at, row) in rows.iter().enumerate() {
        let Content::Folded(_, operands) = row.record.content else {
            continue;
        };
        waiting.push((at, 0, operands));
        while waiting.last().is_some_and(|(_, there, all)| there == all) {
            waiting.pop();
            if let Some((_, there, _)) = waiting.last_mut() {
                *there += 1;
            }
        }
    }
    let (at, there, all) = waiting.pop()?;
    Some((at, format!("waits for operand {} of {all}", there + 1)))
}

/// The blocks that are open before a row, the outermost first.
fn open_blocks(rows: &[Row<'_>], before: usize) -> Vec<usize> {
    let mut open = Vec::new();
    for (at, row) in rows[..before].iter().enumerate() {
        match row.record.content {
            Content::Instruction(Instruction::Open(..)) => open.push(at),
            Content::Instruction(Instruction::End(_)) => {
                open.pop();
            }
            _ => {}
        }
    }
    open
}

/// 8 at an else: the innermost open block, and the else that it has had.
fn forbidden_else(rows: &[Row<'_>]) -> Vec<(usize, String)> {
    let open = open_blocks(rows, rows.len());
    let Some(&block) = open.last() else {
        return Vec::new();
    };
    let had = (block..rows.len()).rev().find(|at| {
        let is_else = matches!(
            rows[*at].record.content,
            Content::Instruction(Instruction::Else(_))
        );
        is_else && open_blocks(rows, *at) == open
    });
    let mut beside = vec![(block, "the innermost open block".to_string())];
    beside.extend(had.map(|row| (row, "its else".to_string())));
    beside
}

/// 8: the blocks that are open, and the first end in this body whose label is
/// not that of the block that it ends.
fn unclosed(rows: &[Row<'_>]) -> Vec<(usize, String)> {
    let body = rows.iter().rposition(|row| row.depth == 0).unwrap_or(0);
    let mut beside: Vec<(usize, String)> = open_blocks(rows, rows.len())
        .into_iter()
        .map(|row| (row, "is open".to_string()))
        .collect();
    for (at, row) in rows.iter().enumerate().skip(body) {
        let Content::Instruction(Instruction::End(Some(label))) = row.record.content else {
            continue;
        };
        let Some(block) = open_blocks(rows, at).pop() else {
            continue;
        };
        if !opens(&rows[block], label) {
            beside.push((at, format!("ends the block of record {block}")));
            break;
        }
    }
    beside
}

/// Does this row open a block of this label?
fn opens(row: &Row<'_>, label: &str) -> bool {
    matches!(row.record.content, Content::Instruction(Instruction::Open(_, Some(own), _)) if own == label)
}

/// What a field adds to the index spaces by its own name, and whether it is
/// imported.
fn item<'a>(field: &Field<'a>) -> Option<(Space, Option<&'a str>, bool)> {
    Some(match field {
        Field::Type { name, .. } => (Space::Type, *name, false),
        Field::Import { name, ty, .. } => (Space::of(ty.kind()), *name, true),
        Field::Func(head, func) => (Space::Func, head.name, matches!(func, Func::Import(..))),
        Field::Table(head, table) => (Space::Table, head.name, matches!(table, Table::Import(..))),
        Field::Memory(head, memory) => {
            let imported = matches!(memory, Memory::Import(..));
            (Space::Memory, head.name, imported)
        }
        Field::Global(head, global) => {
            let imported = matches!(global, Global::Import(..));
            (Space::Global, head.name, imported)
        }
        Field::Elem { name, .. } => (Space::Elem, *name, false),
        Field::Data { name, .. } => (Space::Data, *name, false),
        Field::Export { .. } | Field::Start(_) => return None,
    })
}

/// The names of a space, each with its row.
fn names<'a>(rows: &[Row<'a>], space: Space) -> Vec<(&'a str, usize)> {
    let mut names = Vec::new();
    for (at, row) in rows.iter().enumerate() {
        if let Content::Field(field) = &row.record.content {
            match item(field) {
                Some((of, Some(name), _)) if of == space => names.push((name, at)),
                _ => {}
            }
        }
    }
    names
}

/// The function that a row belongs to: its own row and its parameters and locals.
fn function<'a>(rows: &[Row<'a>], at: usize) -> Option<(usize, Vec<Var<'a>>)> {
    let own = |row: &Row<'a>| match &row.record.content {
        Content::Field(Field::Func(_, Func::Own { ty, locals })) => {
            Some([&ty.params[..], locals].concat())
        }
        _ => None,
    };
    rows[..=at]
        .iter()
        .enumerate()
        .rev()
        .find_map(|(at, row)| Some((at, own(row)?)))
}

/// 11: the first own item before it.
fn late_import(rows: &[Row<'_>], at: usize) -> Finding {
    let own = rows[..at].iter().position(|row| match &row.record.content {
        Content::Field(field) => match item(field) {
            Some((Space::Func | Space::Table | Space::Memory | Space::Global, _, imported)) => {
                !imported
            }
            _ => false,
        },
        _ => false,
    });
    Finding {
        note: "an import".to_string(),
        beside: own
            .map(|row| (row, "the first item of its own".to_string()))
            .into_iter()
            .collect(),
        ..Finding::default()
    }
}

/// 13: items are registered before locals, so a name that is taken among the
/// items is what was meant. Who has it first the refusal tells; one that was made
/// of a number and a record does not, and then it is looked for.
fn taken(rows: &[Row<'_>], refusal: Refusal, content: &Content<'_>) -> Finding {
    let Content::Field(field) = content else {
        return Finding::default();
    };
    let at = refusal.record as usize;
    if let Some((space, Some(name), _)) = item(field) {
        let told = Some(refusal.first as usize).filter(|first| *first < at);
        let looked_for = || {
            names(&rows[..at], space)
                .into_iter()
                .find(|(other, _)| *other == name)
                .map(|(_, row)| row)
        };
        if let Some(first) = told.or_else(looked_for) {
            return Finding {
                note: format!("there is {} of this name", space.some()),
                marked: Some(format!("${name}")),
                last: false,
                beside: vec![(first, format!("has the name {name} first"))],
            };
        }
    }
    let variables = function(rows, at).map(|(_, variables)| variables);
    let mut seen: Vec<&str> = Vec::new();
    for name in variables
        .unwrap_or_default()
        .iter()
        .filter_map(|var| var.name)
    {
        if seen.contains(&name) {
            return Finding {
                note: format!("two of its parameters and locals are named {name}"),
                marked: Some(format!("${name}")),
                last: true,
                beside: Vec::new(),
            };
        }
        seen.push(name);
    }
    Finding::default()
}

/// A use of an item, a variable or a label; one without an index means number 0.
type Use<'a> = (Space, Option<Index<'a>>);

/// What a record refers to, in the order in which it is resolved.
fn uses<'a>(content: &Content<'a>) -> Vec<Use<'a>> {
    match content {
        Content::Field(field) => field_uses(field),
        Content::Instruction(instruction) | Content::Folded(instruction, _) => {
            instruction_uses(instruction)
        }
        Content::BodyEnd => Vec::new(),
    }
}

fn field_uses<'a>(field: &Field<'a>) -> Vec<Use<'a>> {
    let func = |index: &Index<'a>| (Space::Func, Some(*index));
    match field {
        Field::Type { .. } => Vec::new(),
        Field::Import { ty, .. } => match ty {
            ItemType::Func(ty) => type_of(ty),
            _ => Vec::new(),
        },
        Field::Func(_, Func::Own { ty, .. } | Func::Import(_, ty)) => type_of(ty),
        Field::Table(_, Table::Elements { funcs, .. }) => funcs.iter().map(func).collect(),
        Field::Table(..) | Field::Memory(..) => Vec::new(),
        Field::Global(_, Global::Own(_, init)) => constant_uses(init),
        Field::Global(..) => Vec::new(),
        Field::Export { kind, index, .. } => vec![(Space::of(*kind), Some(*index))],
        Field::Start(index) => vec![func(index)],
        Field::Elem { place, funcs, .. } => {
            let mut uses = place_uses(Space::Table, place);
            uses.extend(funcs.iter().map(func));
            uses
        }
        Field::Data { place, .. } => place_uses(Space::Memory, place),
    }
}

/// Without an index the type is found or added.
fn type_of<'a>(ty: &TypeUse<'a>) -> Vec<Use<'a>> {
    ty.index
        .map(|index| (Space::Type, Some(index)))
        .into_iter()
        .collect()
}

fn constant_uses<'a>(constant: &Const<'a>) -> Vec<Use<'a>> {
    match constant {
        Const::GlobalGet(index) => vec![(Space::Global, Some(*index))],
        Const::RefFunc(index) => vec![(Space::Func, Some(*index))],
        _ => Vec::new(),
    }
}

fn place_uses<'a>(space: Space, place: &Option<Place<'a>>) -> Vec<Use<'a>> {
    let Some(place) = place else {
        return Vec::new();
    };
    let mut uses = vec![(space, place.index)];
    uses.extend(constant_uses(&place.offset));
    uses
}

fn instruction_uses<'a>(instruction: &Instruction<'a>) -> Vec<Use<'a>> {
    match instruction {
        Instruction::Open(_, _, ty) => type_of(ty),
        Instruction::Br(index) | Instruction::BrIf(index) => vec![(Space::Label, Some(*index))],
        Instruction::BrTable(labels, default) => labels
            .iter()
            .chain([default])
            .map(|index| (Space::Label, Some(*index)))
            .collect(),
        Instruction::Call(index) | Instruction::RefFunc(index) => vec![(Space::Func, Some(*index))],
        Instruction::CallIndirect(table, ty) => {
            let mut uses = vec![(Space::Table, *table)];
            uses.extend(type_of(ty));
            uses
        }
        Instruction::LocalGet(index)
        | Instruction::LocalSet(index)
        | Instruction::LocalTee(index) => vec![(Space::Local, Some(*index))],
        Instruction::GlobalGet(index) | Instruction::GlobalSet(index) => {
            vec![(Space::Global, Some(*index))]
        }
        Instruction::Access(_, arg) => vec![(Space::Memory, arg.memory)],
        Instruction::MemorySize(memory)
        | Instruction::MemoryGrow(memory)
        | Instruction::MemoryFill(memory) => vec![(Space::Memory, *memory)],
        Instruction::MemoryInit { data, memory } => {
            vec![(Space::Data, Some(*data)), (Space::Memory, *memory)]
        }
        Instruction::DataDrop(data) => vec![(Space::Data, Some(*data))],
        Instruction::MemoryCopy {
            destination,
            source,
        } => vec![(Space::Memory, *destination), (Space::Memory, *source)],
        Instruction::Op(_)
        | Instruction::Else(_)
        | Instruction::End(_)
        | Instruction::I32Const(_)
        | Instruction::I64Const(_)
        | Instruction::F32Const(_)
        | Instruction::F64Const(_)
        | Instruction::RefNull(_) => Vec::new(),
    }
}

/// The names that an index of a space may have at a row.
fn known<'a>(rows: &[Row<'a>], at: usize, space: Space) -> Vec<(&'a str, usize)> {
    match space {
        Space::Local => function(rows, at)
            .map(|(row, variables)| {
                let named = variables.iter().filter_map(|var| var.name);
                named.map(|name| (name, row)).collect()
            })
            .unwrap_or_default(),
        Space::Label => open_blocks(rows, at)
            .into_iter()
            .filter_map(|row| match rows[row].record.content {
                Content::Instruction(Instruction::Open(_, label, _)) => Some((label?, row)),
                _ => None,
            })
            .collect(),
        _ => names(rows, space),
    }
}

/// 14: the first name that nothing has, and one that may be meant.
fn missing(rows: &[Row<'_>], at: usize, content: &Content<'_>) -> Finding {
    for (space, index) in uses(content) {
        let Some(Index::Name(name)) = index else {
            continue;
        };
        let known = known(rows, at, space);
        if known.iter().any(|(other, _)| *other == name) {
            continue;
        }
        let mut note = format!("no {} is named {name}", space.one());
        let near = known
            .iter()
            .map(|(other, row)| (distance(name, other), *other, *row))
            .filter(|(far, other, _)| *far <= 1 + name.len().min(other.len()) / 4)
            .min();
        let elsewhere = ITEM_SPACES
            .into_iter()
            .chain([Space::Local, Space::Label])
            .filter(|other| *other != space)
            .find(|other| {
                self::known(rows, at, *other)
                    .iter()
                    .any(|(other, _)| *other == name)
            });
        let mut beside = Vec::new();
        if let Some(other) = elsewhere {
            note += &format!("; {} is", other.some());
        } else if let Some((_, other, row)) = near {
            note += &format!("; is {other} meant?");
            if space != Space::Local {
                beside.push((row, format!("is named {other}")));
            }
        }
        return Finding {
            note,
            marked: Some(format!("${name}")),
            last: stands_last(space),
            beside,
        };
    }
    Finding::default()
}

/// Does an index of this space stand after the others in a record's text? That of
/// memory.init's data does, though it is resolved before its memory.
fn stands_last(space: Space) -> bool {
    space == Space::Data
}

/// How many letters have to be changed, added, struck, or swapped with the next.
fn distance(one: &str, other: &str) -> usize {
    let (one, other) = (one.as_bytes(), other.as_bytes());
    let mut rows = vec![(0..=other.len()).collect::<Vec<usize>>()];
    for i in 1..=one.len() {
        let mut row = vec![i];
        for j in 1..=other.len() {
            let changed = rows[i - 1][j - 1] + usize::from(one[i - 1] != other[j - 1]);
            let mut least = changed.min(rows[i - 1][j] + 1).min(row[j - 1] + 1);
            if i > 1 && j > 1 && one[i - 1] == other[j - 2] && one[i - 2] == other[j - 1] {
                least = least.min(rows[i - 2][j - 2] + 1);
            }
            row.push(least);
        }
        rows.push(row);
    }
    rows[one.len()][other.len()]
}

/// A type by its parameters and results, the row that brings it, and its name.
struct Type<'a> {
    params: Vec<ValType>,
    results: Vec<ValType>,
    row: usize,
    name: Option<&'a str>,
}

/// The rows in flat order: a folded record comes after its operands.
fn flat_order(rows: &[Row<'_>]) -> Vec<usize> {
    let (mut order, mut waiting) = (Vec::new(), Vec::<usize>::new());
    for (at, row) in rows.iter().enumerate() {
        let complete = |last: &usize| rows[*last].nesting >= row.nesting;
        while waiting.last().is_some_and(complete) {
            order.extend(waiting.pop());
        }
        match row.record.content {
            Content::Folded(..) => waiting.push(at),
            _ => order.push(at),
        }
    }
    order.extend(waiting.into_iter().rev());
    order
}

/// All types by their numbers: declared ones, then those that uses add.
fn types<'a>(rows: &[Row<'a>]) -> Vec<Type<'a>> {
    let mut types = Vec::new();
    for (row, one) in rows.iter().enumerate() {
        if let Content::Field(Field::Type {
            name,
            params,
            results,
        }) = &one.record.content
        {
            types.push(Type {
                params: params.clone(),
                results: results.clone(),
                row,
                name: *name,
            });
        }
    }
    for row in flat_order(rows) {
        let Some((ty, is_block)) = type_use(&rows[row].record.content) else {
            continue;
        };
        let short = is_block && ty.params.is_empty() && ty.results.len() <= 1;
        let params: Vec<ValType> = ty.params.iter().map(|var| var.ty).collect();
        let same = |one: &Type<'_>| one.params == params && one.results == ty.results;
        if ty.index.is_none() && !short && !types.iter().any(same) {
            types.push(Type {
                params,
                results: ty.results.clone(),
                row,
                name: None,
            });
        }
    }
    types
}

/// A record's type use, and whether it is a block's.
fn type_use<'r, 'a>(content: &'r Content<'a>) -> Option<(&'r TypeUse<'a>, bool)> {
    match content {
        Content::Field(Field::Import {
            ty: ItemType::Func(ty),
            ..
        }) => Some((ty, false)),
        Content::Field(Field::Func(_, Func::Own { ty, .. } | Func::Import(_, ty))) => {
            Some((ty, false))
        }
        Content::Instruction(Instruction::Open(_, _, ty)) => Some((ty, true)),
        Content::Instruction(Instruction::CallIndirect(_, ty))
        | Content::Folded(Instruction::CallIndirect(_, ty), _) => Some((ty, false)),
        _ => None,
    }
}

/// 15 and 16: the type that the index names, and what it is.
fn differing(rows: &[Row<'_>], content: &Content<'_>, number: u32) -> Finding {
    let types = types(rows);
    let Some((
        TypeUse {
            index: Some(index), ..
        },
        _,
    )) = type_use(content)
    else {
        return Finding::default();
    };
    let (found, marked) = match index {
        Index::Number(at) => (types.get(*at as usize), format!("{at}")),
        Index::Name(name) => (
            types.iter().find(|one| one.name == Some(name)),
            format!("${name}"),
        ),
    };
    match found {
        None if number == 15 => Finding {
            note: how_many(types.len(), "type", "types"),
            marked: Some(marked),
            ..Finding::default()
        },
        Some(found) if number == 16 => Finding {
            note: format!("it is {}", signature(&found.params, &found.results)),
            marked: Some(marked),
            last: false,
            beside: vec![(found.row, "brings this type".to_string())],
        },
        _ => Finding::default(),
    }
}

/// Which numbers there are.
fn how_many(count: usize, one: &str, several: &str) -> String {
    match count {
        0 => format!("there is no {one}"),
        1 => format!("there is one {one}, 0"),
        _ => format!("there are {count} {several}, 0 to {}", count - 1),
    }
}

/// How many parameters and locals the function of a row has. Where its type use
/// has an index only, the parameters are that type's.
fn variables(rows: &[Row<'_>], at: usize) -> usize {
    let Some((row, variables)) = function(rows, at) else {
        return 0;
    };
    let Some((ty, _)) = type_use(&rows[row].record.content) else {
        return 0;
    };
    let types = types(rows);
    let named = match ty.index {
        _ if ty.is_inline() => None,
        Some(Index::Number(number)) => types.get(number as usize),
        Some(Index::Name(name)) => types.iter().find(|one| one.name == Some(name)),
        None => None,
    };
    variables.len() + named.map_or(0, |one| one.params.len())
}

/// How many numbers an index of a space has at a row to choose from.
fn count(rows: &[Row<'_>], at: usize, space: Space) -> usize {
    let fields = rows.iter().filter_map(|row| match &row.record.content {
        Content::Field(field) => Some(field),
        _ => None,
    });
    match space {
        Space::Type => types(rows).len(),
        Space::Local => variables(rows, at),
        Space::Label => open_blocks(rows, at).len() + 1,
        _ => fields
            .filter(|field| item(field).is_some_and(|(of, ..)| of == space))
            .count(),
    }
}

/// 20: the first number that points to nothing, and which there are.
fn nowhere(rows: &[Row<'_>], at: usize, content: &Content<'_>) -> Finding {
    for (space, index) in uses(content) {
        let number = match index {
            Some(Index::Number(number)) => number as usize,
            Some(Index::Name(_)) => continue,
            None => 0,
        };
        let count = count(rows, at, space);
        if number < count {
            continue;
        }
        let one = space.one();
        let there = match space {
            Space::Local => how_many(count, one, "parameters and locals of this function"),
            Space::Label => match count - 1 {
                0 => "no block is open, and 0 is the function itself".to_string(),
                1 => "one block is open, 0, and 1 is the function itself".to_string(),
                open => format!(
                    "{open} blocks are open, 0 to {}, and {open} is the function itself",
                    open - 1
                ),
            },
            Space::Memory => how_many(count, one, "memories"),
            _ => how_many(count, one, &format!("{one}s")),
        };
        return Finding {
            note: match index {
                Some(_) => there,
                None => format!("it means {one} 0, and {there}"),
            },
            marked: index.map(|_| number.to_string()),
            last: stands_last(space),
            beside: Vec::new(),
        };
    }
    Finding::default()
}

/// 17: the block that is meant by its place.
fn other_label(rows: &[Row<'_>], at: usize, content: &Content<'_>) -> Finding {
    let Content::Instruction(Instruction::Else(Some(label)) | Instruction::End(Some(label))) =
        content
    else {
        return Finding::default();
    };
    let Some(row) = open_blocks(rows, at).pop() else {
        return Finding::default();
    };
    let named = match rows[row].record.content {
        Content::Instruction(Instruction::Open(_, Some(label), _)) => format!("is named {label}"),
        _ => "has no name".to_string(),
    };
    Finding {
        note: format!("its block {named}"),
        marked: Some(format!("${label}")),
        last: false,
        beside: vec![(row, "its block".to_string())],
    }
}

#[cfg(test)]
mod tests {
    use super::distance;

    #[test]
    fn letters_apart() {
        for (one, other, far) in [
            ("", "", 0),
            ("length", "length", 0),
            ("lenght", "length", 1),
            ("lengt", "length", 1),
            ("lemgth", "length", 1),
            ("abc", "", 3),
            ("say", "days", 2),
        ] {
            assert_eq!((one, other, distance(one, other)), (one, other, far));
            assert_eq!(distance(other, one), far);
        }
    }
}
