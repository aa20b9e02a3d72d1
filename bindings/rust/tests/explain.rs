//! Refusals in words.
mod common;

use barrizuppa::explain::explain;
use barrizuppa::stream::ValType::*;
use barrizuppa::stream::*;
use barrizuppa::Refusal;

const NOTICE: &[u8] = include_bytes!("../../../examples/notice.stream");

/// The notice with one part in place of another.
fn with(part: &[u8], other: &[u8]) -> Vec<u8> {
    let at = NOTICE
        .windows(part.len())
        .position(|window| window == part)
        .unwrap();
    [&NOTICE[..at], other, &NOTICE[at + part.len()..]].concat()
}

/// The lines that explain a refusal, up to the words for its number.
fn lines(stream: &[u8], number: u32, record: u32) -> Vec<String> {
    let text = explain(stream, Refusal::new(number, record)).to_string();
    let lines = text.lines().skip(2).take_while(|line| !line.is_empty());
    lines.map(|line| line.trim_end().to_string()).collect()
}

#[track_caller]
fn assert_has(lines: &[String], expected: &[&str]) {
    for line in expected {
        assert!(
            lines.iter().any(|one| one == line),
            "{line:?} in {lines:#?}"
        );
    }
}

#[test]
fn a_name_that_nothing_has() {
    let stream = with(
        b"\x20\x02\x06length\x10\x02\x03say",
        b"\x20\x02\x06lenght\x10\x02\x03say",
    );
    let explained = explain(&stream, Refusal::new(14, 64)).to_string();
    assert_eq!(
        explained,
        "\
refused 14 at 64: nothing has that name

    .. |
    54 | (func $notice (type $letter) (local $length i32)
    .. |
    61 |   i32.const 5
    62 |   call $say
    63 |   local.get 0
    64 |   local.get $lenght
       |             ^^^^^^^ no parameter or local of this function is named lenght; is length meant?
    65 |   call $say
    66 |   i32.const 5
    67 |   i32.const 24

The record names an item, a variable or a label that does not exist, or not
there: a variable belongs to its function, and a label is gone when its block
has ended.

What to do: Look for a slip of the pen, capital letters included. If the name is
right, what it names is missing, or is of another sort.
"
    );
}

#[test]
fn a_name_of_another_sort() {
    let stream = with(b"\x23\x02\x07printed\x20", b"\x23\x02\x05print\x20");
    let lines = lines(&stream, 14, 9);
    assert_has(
        &lines,
        &["       |              ^^^^^^ no global is named print; a function is"],
    );
}

#[test]
fn a_refusal_by_other_rules() {
    // Cut short, and yet refused otherwise: nothing is said of what was not meant.
    let text = explain(&NOTICE[..400], Refusal::new(14, 40)).to_string();
    assert!(
        text.contains("    40 |   call $say\n       |   ^^^^^^^^^\n"),
        "{text}"
    );
    assert!(!text.contains("at byte"), "{text}");
}

#[test]
fn numbers_that_point_nowhere() {
    let mut stream = Writer::new();
    stream.type_("unary", &[I32], &[]);
    stream.memory(
        Head::new(),
        Memory::Data {
            is64: false,
            data: b"Delft",
        },
    );
    stream.func(
        Head::new(),
        TypeUse::of("unary"),
        &[("l", I64).into()],
        |body| {
            body.local_get(1).local_get(2);
            body.block(None, TypeUse::new()).br(1).br(2).end(None);
            body.memory_size(None).memory_grow(Index::Number(0));
            body.call_indirect(None, TypeUse::of(0));
            body.call(7);
        },
    );
    stream.data(
        None,
        Some(Place {
            index: Some(1.into()),
            offset: Const::I32(0),
        }),
        b"",
    );
    let stream = stream.finish().unwrap();
    for (record, expected) in [
        (
            4,
            "^ there are 2 parameters and locals of this function, 0 to 1",
        ),
        (7, "^ one block is open, 0, and 1 is the function itself"),
        (11, "^ it means table 0, and there is no table"),
        (12, "^ there is one function, 0"),
        (14, "^ there is one memory, 0"),
    ] {
        let lines = lines(&stream, 20, record);
        assert!(
            lines.iter().any(|line| line.ends_with(expected)),
            "{expected}: {lines:#?}"
        );
    }
    // Of a record whose numbers all point somewhere nothing is said.
    for record in [3, 6, 9, 10] {
        let lines = lines(&stream, 20, record);
        assert!(!lines.iter().any(|line| line.contains("^ ")), "{lines:#?}");
    }
}

#[test]
fn data_and_memories_of_bulk_memory() {
    let mut stream = Writer::new();
    stream.memory("d", Memory::Own(Limits::at_least(1)));
    stream.data("text", None, b"Delft");
    stream.func(Head::new(), TypeUse::new(), &[], |body| {
        body.memory_init("d", Index::Name("d"));
        body.memory_init(1, Index::Number(1)).data_drop("tezt");
        body.memory_copy(Index::Name("d"), Index::Number(2));
        body.memory_fill(Index::Number(1));
    });
    let stream = stream.finish().unwrap();
    // In the text the data stand last, and are asked for first.
    for (number, record, line, mark) in [
        (
            14,
            3,
            "memory.init $d $d",
            "               ^^ no data segment is named d; a memory is",
        ),
        (
            14,
            5,
            "data.drop $tezt",
            "          ^^^^^ no data segment is named tezt; is text meant?",
        ),
        (
            20,
            4,
            "memory.init 1 1",
            "              ^ there is one data segment, 0",
        ),
        (
            20,
            6,
            "memory.copy $d 2",
            "               ^ there is one memory, 0",
        ),
        (
            20,
            7,
            "memory.fill 1",
            "            ^ there is one memory, 0",
        ),
    ] {
        assert_has(
            &lines(&stream, number, record),
            &[
                &format!("     {record} |   {line}"),
                &format!("       |   {mark}"),
            ],
        );
    }
}

#[test]
fn folded_records() {
    let get = |name| Folded::leaf(Instruction::LocalGet(Index::Name(name))).unwrap();
    let call = |ty| Folded::leaf(Instruction::CallIndirect(None, ty)).unwrap();
    let inner = TypeUse::new().param(F64);
    let outer = Instruction::CallIndirect(None, TypeUse::new().param(F32));
    let mut stream = Writer::new();
    let local = [Var::named("length", I32)];
    stream.func("f", TypeUse::new(), &local, |body| {
        body.folded(&Folded::new(Op::I32Add, [get("length"), get("lenght")]).unwrap());
        body.folded(&Folded::new(outer, [call(inner)]).unwrap());
        body.folded(&call(TypeUse::of(1).param(F32)));
    });
    let stream = stream.finish().unwrap();
    assert_has(
        &lines(&stream, 14, 3),
        &[
            "     1 |   (i32.add",
            "     2 |     (local.get $length)",
            "     3 |     (local.get $lenght))",
            "       |                ^^^^^^^ no parameter or local of this function is named lenght; is length meant?",
        ],
    );
    // The operand's type comes before its operator's.
    assert_has(
        &lines(&stream, 16, 6),
        &[
            "     5 |     (call_indirect (param f64)))",
            "       |     - brings this type",
            "     6 |   (call_indirect (type 1) (param f32))",
            "       |                        ^ it is (func (param f64))",
        ],
    );
}

#[test]
fn an_operand_that_is_due() {
    // An addition, a drop of a folded nop, and a nop that is not folded.
    let body = b"\x03\0\0\0\0\0\0\0\xF0\x6A\x02\xF0\x1A\x01\xF0\x01\0";
    assert_has(
        &lines(&[&body[..], b"\x01\xFF"].concat(), 4, 4),
        &[
            "     1 |   (i32.add",
            "       |   - waits for operand 2 of 2",
            "     2 |     (drop",
            "     3 |       (nop))",
            "     4 | 01 FF",
            "       | ^^ at byte 17: an operand is due, and it begins with F0",
        ],
    );
    assert_has(
        &lines(&body[..14], 2, 3),
        &[
            "     2 |     (drop",
            "       |     - waits for operand 1 of 1",
            "       | ^^ at byte 14: the stream ends",
        ],
    );
}

#[test]
fn a_label_of_a_block_that_has_ended() {
    let mut stream = Writer::new();
    stream.func(Head::new(), TypeUse::new(), &[], |body| {
        body.block("a", TypeUse::new()).end(None).br("a");
    });
    let lines = lines(&stream.finish().unwrap(), 14, 3);
    assert_has(
        &lines,
        &[
            "     3 |   br $a",
            "       |      ^^ no open block is named a",
        ],
    );
}

#[test]
fn the_first_of_several_names() {
    let mut stream = Writer::new();
    stream.func("f", TypeUse::new(), &[], |_| {});
    let place = Place {
        index: Some("t".into()),
        offset: Const::GlobalGet("g".into()),
    };
    stream.table(
        "t",
        Table::Elements {
            is64: false,
            funcs: vec![],
        },
    );
    stream.elem(None, place, &["f".into(), "x".into()]);
    let lines = lines(&stream.finish().unwrap(), 14, 3);
    assert_has(
        &lines,
        &[
            "     3 | (elem (table $t) (global.get $g) func $f $x)",
            "       |                              ^^ no global is named g",
        ],
    );
}

#[test]
fn a_name_that_is_taken() {
    let stream = with(b"\x03\x07measure\0", b"\x03\x03say\0");
    let expected = [
        "     5 | (func $say (param $at i32) (param $length i32)",
        "       | - has the name say first",
        "    14 | (func $say (param $at i32) (result i32) (local $count i32)",
        "       |       ^^^^ there is a function of this name",
    ];
    let text = explain(&stream, Refusal::taken(14, 5)).to_string();
    assert!(
        text.starts_with("refused 13 at 14, first at 5: a name is taken\n"),
        "{text}"
    );
    let told: Vec<String> = text.lines().map(str::to_string).collect();
    assert_has(&told, &expected);
    // The refusal's first holder is believed, whoever it is.
    let other = explain(&stream, Refusal::taken(14, 1)).to_string();
    assert!(other.contains("\n     1 | "), "{other}");
    assert!(!other.contains("\n     5 | "), "{other}");
    // Of a number and a record alone it is looked for.
    assert_has(&lines(&stream, 13, 14), &expected);
}

#[test]
fn a_local_that_is_taken() {
    let stream = with(b"\x01\x05count", b"\x01\x02at");
    let lines = lines(&stream, 13, 14);
    assert_has(
        &lines,
        &[
            "    14 | (func $measure (param $at i32) (result i32) (local $at i32)",
            "       |                                                    ^^^ two of its parameters and locals are named at",
        ],
    );
}

#[test]
fn types_that_differ_or_are_not_there() {
    let mut stream = Writer::new();
    stream.type_("t", &[I32], &[]);
    stream.func(Head::new(), TypeUse::of("t").result(I64), &[], |_| {});
    let first = lines(&stream.clone().finish().unwrap(), 16, 1);
    assert_has(
        &first,
        &[
            "     0 | (type $t (func (param i32)))",
            "       | - brings this type",
            "       |             ^^ it is (func (param i32))",
        ],
    );
    stream.func(Head::new(), TypeUse::of(7).result(I64), &[], |body| {
        body.block(None, TypeUse::new().result(F32)).end(None);
        body.block(None, TypeUse::new().param(F32)).end(None);
    });
    let second = lines(&stream.finish().unwrap(), 15, 3);
    assert_has(
        &second,
        &["       |             ^ there are 2 types, 0 to 1"],
    );
}

#[test]
fn labels_and_blocks() {
    let stream = with(b"\x0B\x04next", b"\x0B\x04mext");
    assert_has(
        &lines(&stream, 17, 28),
        &[
            "    16 |     loop $next",
            "       |     - its block",
            "       |         ^^^^^ its block is named next",
        ],
    );
    let stream = with(b"\x0B\x04next", b"");
    assert_has(
        &lines(&stream, 8, 30),
        &[
            "    15 |   block $done",
            "       |   - is open",
            "    28 |     end $done",
            "       |     - ends the block of record 16",
            "       | ^^ at byte 343: the body ends, and a block is open",
        ],
    );
}

#[test]
fn an_else_where_none_may_be() {
    // An else in a block that stands in an if.
    let body = b"\x03\0\0\0\0\0\0\0\x04\0\0\0\0\x02\x01a\0\0\0\x05\0";
    assert_has(
        &lines(body, 8, 3),
        &[
            "     2 |     block $a",
            "       |     - the innermost open block",
            "     3 | 05 00",
            "       | ^^ at byte 19: the innermost open block is no if",
        ],
    );
    // A second else; between them an if with its own.
    let body = b"\x03\0\0\0\0\0\0\0\x04\0\0\0\0\x05\0\x04\0\0\0\0\x05\0\x0B\0\x05\0\x0B\0\xFF";
    assert_has(
        &lines(body, 8, 6),
        &[
            "     1 |   if",
            "       |   - the innermost open block",
            "     2 |   else",
            "       |   - its else",
            "     6 | 05 00 0B 00 FF",
            "       | ^^ at byte 24: the if has had its else",
        ],
    );
}

#[test]
fn a_late_import_and_a_second_start() {
    let mut stream = Writer::new();
    stream.start(0);
    stream.memory("own", Memory::Own(Limits::at_least(1)));
    stream.import("m", "n", None, ItemType::Memory(Limits::at_least(1)));
    assert_has(
        &lines(&stream.clone().finish().unwrap(), 11, 2),
        &[
            "     1 | (memory $own 1)",
            "       | - the first item of its own",
        ],
    );
    stream.start(1);
    let fault = stream.finish().unwrap_err();
    assert_eq!(fault.refusal, Refusal::new(9, 3));
    let stream = b"\x08\x01\0\x08\x01\x01";
    assert_has(
        &lines(stream, 9, 1),
        &[
            "     0 | (start 0)",
            "       | - the first start",
            "     1 | 08 01 01",
            "       | ^^ at byte 3: there is a start already",
        ],
    );
}

#[test]
fn where_nothing_was_read_or_nothing_is_wrong() {
    for (stream, number) in [
        (&[0; STREAM_BYTES + 1][..], 1),
        (b"", 10),
        (NOTICE, 18),
        (b"", 18),
    ] {
        let text = explain(stream, Refusal::new(number, 0)).to_string();
        assert!(
            text.starts_with(&format!("refused {number} at 0: ")),
            "{text}"
        );
        assert!(text.contains("\n\nWhat to do: "), "{text}");
        assert!(!text.contains(" | "), "{text}");
    }
}

#[test]
fn a_long_line_is_cut() {
    let mut stream = Writer::new();
    let long: Vec<Index<'_>> = [Index::Name("f"); 100].into();
    stream.func("f", TypeUse::new(), &[], |_| {});
    let funcs = [&long[..], &["missing".into()], &long].concat();
    stream.elem(None, None, &funcs).start("missing");
    let stream = stream.finish().unwrap();
    for line in lines(&stream, 14, 2) {
        assert!(line.chars().count() < 160, "{line}");
    }
    let marked = lines(&stream, 14, 2);
    let at = marked.iter().position(|line| line.contains('^')).unwrap();
    let mark = marked[at].find("^^^^^^^^").unwrap();
    assert_eq!(&marked[at - 1][mark..mark + 8], "$missing");
}

/// Whatever bytes and whatever refusal, there is an explanation.
#[test]
fn any_bytes_and_any_refusal() {
    let mut seed = 1u32;
    let mut chance = || {
        seed = seed.wrapping_mul(1_664_525).wrapping_add(1_013_904_223);
        seed >> 16
    };
    for _ in 0..2_000 {
        let mut stream = NOTICE.to_vec();
        for _ in 0..chance() % 4 {
            let at = chance() as usize % stream.len();
            stream[at] = chance() as u8;
        }
        stream.truncate(chance() as usize % 800);
        let refusal = Refusal::new(chance() % 21, chance() % 80);
        let explained = explain(&stream, refusal);
        assert!(explained.to_string().starts_with("refused "));
        assert!(explained.html("x").ends_with("</html>\n"));
    }
}

#[test]
fn a_page() {
    let stream = with(b"\x01\x05count\x7F", b"\x01\x05<&>at\x7F");
    let page = explain(&stream, Refusal::new(14, 18)).html("<b>.stream");
    assert!(page.starts_with("<!DOCTYPE html>\n"));
    assert!(page.contains("<h1>Refused 14 at 18: nothing has that name</h1>"));
    assert!(page.contains("&lt;b&gt;.stream") && !page.contains("<b>"));
    assert!(page.contains("$&lt;&amp;&gt;at") && !page.contains("<&>at"));
    assert_eq!(page.matches("<tr class=\"bad\"").count(), 2);
    assert!(page.contains("<mark>$count</mark>"));
    for outside in ["http:", "https:", "src=", "url(", "<script", "@import"] {
        assert!(!page.contains(outside), "{outside}");
    }
    // Every mark that is pointed at is there, once.
    for link in page.split("href=\"#").skip(1) {
        let to = link.split('"').next().unwrap();
        assert_eq!(page.matches(&format!("id=\"{to}\"")).count(), 1, "{to}");
    }
}

/// Every stream of docs/REFUSALS.md is refused as it says, and something in the
/// explanation is marked, but for those whose fault is in no record.
#[cfg(feature = "library")]
#[test]
fn the_streams_that_are_refused() {
    for (stream, refusal, strict) in common::refused() {
        let mut work = vec![0; barrizuppa::WORK_WORDS];
        let mut out = vec![0; STREAM_BYTES];
        let assemble = match strict {
            true => barrizuppa::assemble_strict_into,
            false => barrizuppa::assemble_into,
        };
        assert_eq!(assemble(&stream, &mut work, &mut out), Err(refusal));
        let text = explain(&stream, refusal).to_string();
        let marked = text.contains("^ ");
        assert_eq!(marked, !matches!(refusal.number, 1 | 18), "{text}");
    }
}
