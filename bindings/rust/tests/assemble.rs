//! Document 01's samples, refusals, and what a call leaves of what it is lent.
mod common;

use barrizuppa::stream::{Folded, Head, Instruction, Op, TypeUse, Writer};
use barrizuppa::{
    assemble, assemble_into, assemble_names, assemble_names_into, assemble_strict,
    assemble_strict_into, assemble_strict_names, assemble_strict_names_into, Refusal, STREAM_BYTES,
    WORK_WORDS,
};

/// S1: the empty module.
const S1: &[u8] = b"\0asm\x01\0\0\0";

/// S7: a function, exported as f, that returns its parameter x.
const S7: &[u8] = b"\x03\0\x01\x01f\0\0\x01\x01x\x7F\x01\x7F\0\x20\x02\x01x\xFF";
const S7_MODULE: &[u8] =
    b"\0asm\x01\0\0\0\x01\x06\x01\x60\x01\x7F\x01\x7F\x03\x02\x01\0\x07\x05\x01\x01f\0\0\x0A\x06\x01\x04\0\x20\0\x0B";
const S7_RECORDS: u32 = 3;

/// Its name section: in function 0, local 0 is x.
const S7_NAMES: &[u8] = b"\0\x0D\x04name\x02\x06\x01\0\x01\0\x01x";

/// S7 with y for the second x.
const S7_WITH_Y: &[u8] = b"\x03\0\x01\x01f\0\0\x01\x01x\x7F\x01\x7F\0\x20\x02\x01y\xFF";

fn refused(number: u32, record: u32) -> Result<Vec<u8>, Refusal> {
    Err(Refusal::new(number, record))
}

/// S1's bytes and these sections.
fn module(sections: &[&[u8]]) -> Vec<u8> {
    [S1, &sections.concat()].concat()
}

/// A type use without index, of some parameters and results.
fn signature(params: usize, results: usize) -> Vec<u8> {
    [
        vec![0, params as u8],
        b"\0\x7F".repeat(params),
        vec![results as u8],
        vec![0x7F; results],
    ]
    .concat()
}

/// A function of this type use and body, without locals.
fn function(type_use: &[u8], body: &[u8]) -> Vec<u8> {
    [b"\x03\0\0\0", type_use, b"\0", body, b"\xFF"].concat()
}

/// A function of `depth` nested blocks.
fn nested(depth: usize) -> Vec<u8> {
    function(
        &signature(0, 0),
        &[b"\x02\0\0\0\0".repeat(depth), b"\x0B\0".repeat(depth)].concat(),
    )
}

#[test]
fn s1_the_empty_stream() {
    assert_eq!(assemble(b""), Ok(S1.to_vec()));
}

#[test]
fn s7_a_function_and_its_parameter() {
    assert_eq!(S7_MODULE.len(), 35);
    assert_eq!(assemble(S7), Ok(S7_MODULE.to_vec()));
    assert_eq!(assemble(S7_WITH_Y), refused(14, 1));
}

#[test]
fn s8_a_local_after_the_parameters_of_a_declared_type() {
    // Type 0 is [i32 i64] -> []; a function of type 0 with a local l: local.get l, drop.
    let stream = b"\x01\0\x02\x7F\x7E\0\x03\0\0\0\x01\0\0\0\x01\x01l\x7F\x20\x02\x01l\x1A\xFF";
    let code = b"\x0A\x09\x01\x07\x01\x01\x7F\x20\x02\x1A\x0B";
    assert_eq!(
        assemble(stream),
        Ok(module(&[
            b"\x01\x06\x01\x60\x02\x7F\x7E\0",
            b"\x03\x02\x01\0",
            code
        ]))
    );
}

#[test]
fn s9_a_memory_with_data() {
    let stream = b"\x05\0\0\x02\0\x03abc";
    assert_eq!(
        assemble(stream),
        Ok(module(&[
            b"\x05\x04\x01\x01\x01\x01",
            b"\x0B\x09\x01\0\x41\0\x0B\x03abc"
        ]))
    );
}

#[test]
fn s11_128_nested_blocks_and_no_more() {
    let body = [vec![0], b"\x02\x40".repeat(128), vec![0x0B; 129]].concat();
    let code = [&b"\x0A\x85\x03\x01\x82\x03"[..], &body].concat();
    assert_eq!(
        assemble(&nested(128)),
        Ok(module(&[b"\x01\x04\x01\x60\0\0", b"\x03\x02\x01\0", &code]))
    );
    assert_eq!(assemble(&nested(129)), refused(7, 129));
}

#[test]
fn bulk_memory_and_the_data_count() {
    // data d, memory.init d, data.drop 0, memory.copy, memory.fill: section 12 says one segment
    let data = b"\x0A\x01d\0\x01a";
    let code = b"\xFC\x08\x02\x01d\0\xFC\x09\x01\0\xFC\x0A\0\0\xFC\x0B\0";
    let head: [&[u8]; 2] = [b"\x01\x04\x01\x60\0\0", b"\x03\x02\x01\0"];
    assert_eq!(
        assemble(&[&data[..], &function(&signature(0, 0), code)].concat()),
        Ok(module(&[
            head[0],
            head[1],
            b"\x0C\x01\x01",
            b"\x0A\x12\x01\x10\0\xFC\x08\0\0\xFC\x09\0\xFC\x0A\0\0\xFC\x0B\0\x0B",
            b"\x0B\x04\x01\x01\x01a",
        ]))
    );
    // memory.fill alone needs no section 12
    assert_eq!(
        assemble(&function(&signature(0, 0), b"\xFC\x0B\0")),
        Ok(module(&[
            head[0],
            head[1],
            b"\x0A\x07\x01\x05\0\xFC\x0B\0\x0B"
        ]))
    );
    let drop = function(&signature(0, 0), b"\xFC\x09\x02\x01d");
    assert_eq!(assemble(&drop), refused(14, 1));
}

#[test]
fn folded_and_flat_streams_give_the_same_module() {
    let leaf = |value| Folded::leaf(Instruction::I32Const(value)).unwrap();
    let sum = Folded::new(Op::I32Add, [leaf(1), leaf(2)]).unwrap();
    let store = Instruction::Access(barrizuppa::stream::Access::I32Store, Default::default());
    let store = Folded::new(store, [sum, leaf(3)]).unwrap();
    let (mut folded, mut flat) = (Writer::new(), Writer::new());
    folded.func(Head::new(), TypeUse::new(), &[], |body| {
        body.folded(&store);
    });
    flat.func(Head::new(), TypeUse::new(), &[], |body| {
        body.i32_const(1).i32_const(2).i32_add().i32_const(3);
        body.i32_store(Default::default());
    });
    let (folded, flat) = (folded.finish().unwrap(), flat.finish().unwrap());
    assert_ne!(folded, flat);
    let module = assemble(&folded).unwrap();
    assert!(module.ends_with(b"\0\x41\x01\x41\x02\x6A\x41\x03\x36\x02\0\x0B"));
    assert_eq!(assemble(&flat), Ok(module));
    // The operand's fault comes first, at its own record.
    let calls = function(
        &signature(0, 0),
        b"\xF0\x10\x02\x01a\x01\xF0\x10\x02\x01b\0",
    );
    assert_eq!(assemble(&calls), refused(14, 2));
}

#[test]
fn the_longest_stream_gives_a_longer_module_and_one_byte_more_is_refused() {
    let data = [b'z'; STREAM_BYTES - 6];
    let mut stream = [b"\x0A\0\0\xFA\xFF\x03", &data[..]].concat();
    assert_eq!(stream.len(), STREAM_BYTES);
    let section = [b"\x0B\xFF\xFF\x03\x01\x01\xFA\xFF\x03", &data[..]].concat();
    assert_eq!(assemble(&stream), Ok(module(&[&section])));
    stream.push(0);
    assert_eq!(assemble(&stream), refused(1, 0));
}

#[test]
fn a_fault_of_each_number_but_1_10_12_and_18() {
    let bare = &signature(0, 0);
    let import = b"\x02\x01m\x01n\x02\0\0\x01";
    let memory = b"\x05\0\0\0\0\x01";
    let cases = [
        (b"\x03\0".to_vec(), 2, 0),
        (b"\x08\x01\xFF\xFF\xFF\xFF\x10".to_vec(), 3, 0),
        (b"\0".to_vec(), 4, 0),
        (b"\x01\x01,\0\0".to_vec(), 5, 0),
        (b"\x07\x01\x1F\0\x01\0".to_vec(), 6, 0),
        ([&memory[..], b"\x01\0\x41"].concat(), 7, 1),
        (function(bare, b"\x0B\0"), 8, 1),
        (b"\x08\x01\0\x08\x01\0".to_vec(), 9, 1),
        ([&memory[..], import].concat(), 11, 1),
        (b"\x08\x02\x01f".to_vec(), 14, 0),
        (function(b"\x01\x07\x01\0\x7F\0", b""), 15, 0),
        (
            [b"\x01\0\0\0", &function(b"\x01\0\x01\0\x7F\0", b"")[..]].concat(),
            16,
            1,
        ),
        (function(bare, b"\x02\x01a\0\0\0\x0B\x01b"), 17, 2),
    ];
    for (stream, number, record) in cases {
        assert_eq!(assemble(&stream), refused(number, record), "{stream:02X?}");
    }
}

#[test]
fn where_a_name_was_first_used() {
    let two_types = b"\x01\x01t\0\0\x08\x01\0\x01\x01t\0\0\x01\x01t\0\0";
    assert_eq!(assemble(two_types), Err(Refusal::taken(2, 0)));
    // A table, a memory of the same name, and a second table.
    let tables = b"\x05\x01t\0\0\0\0\x04\x01t\0\0\x70\0\0\x04\x01t\0\0\x70\0\0";
    assert_eq!(assemble_names(tables), Err(Refusal::taken(2, 1)));
    // Two locals: both are the function's record.
    let locals = b"\x08\x01\0\x03\0\0\0\0\0\0\x02\x01a\x7F\x01a\x7F\xFF";
    assert_eq!(assemble(locals), Err(Refusal::taken(1, 1)));
}

#[test]
fn a_257th_type() {
    // A function of one type, with a block of each of so many others.
    let blocks = |count| {
        let block =
            |at: usize| [b"\x02\0", &signature(1 + at % 64, at / 64)[..], b"\x0B\0"].concat();
        function(
            &signature(0, 0),
            &(0..count).flat_map(block).collect::<Vec<u8>>(),
        )
    };
    assert!(assemble(&blocks(255)).is_ok());
    assert_eq!(assemble(&blocks(256)), refused(12, 1 + 2 * 255));
}

#[test]
fn just_enough_room_and_a_byte_less() {
    let mut work = vec![0; WORK_WORDS];
    let mut out = [0xAA; 35];
    assert_eq!(assemble_into(S7, &mut work, &mut out), Ok(35));
    assert_eq!(out, S7_MODULE);

    let mut out = [0xAA; 34];
    assert_eq!(
        assemble_into(S7, &mut work, &mut out),
        Err(Refusal::new(18, S7_RECORDS))
    );
    assert_eq!(out, [0xAA; 34]);
}

#[test]
fn old_bytes_beyond_the_module_and_after_a_refusal() {
    let mut work = vec![0; WORK_WORDS];
    let mut out: Vec<u8> = (0..200).collect();
    let old = out.clone();
    assert_eq!(
        assemble_into(S7_WITH_Y, &mut work, &mut out),
        Err(Refusal::new(14, 1))
    );
    assert_eq!(out, old);
    assert_eq!(assemble_into(S7, &mut work, &mut out), Ok(35));
    assert_eq!(out[..35], *S7_MODULE);
    assert_eq!(out[35..], old[35..]);
}

#[test]
fn the_work_area_is_zeros_after_every_call() {
    let mut out = [0; 64];
    for words in [WORK_WORDS, WORK_WORDS + 1, 2 * WORK_WORDS] {
        for (stream, answer) in [
            (S7, Ok(35)),
            (S7_WITH_Y, Err(Refusal::new(14, 1))),
            (&[0; STREAM_BYTES + 1], Err(Refusal::new(1, 0))),
        ] {
            let mut work: Vec<u32> = (1..).take(words).collect();
            assert_eq!(assemble_into(stream, &mut work, &mut out), answer);
            assert!(work.iter().all(|word| *word == 0));
        }
    }
}

#[test]
fn a_work_area_that_is_too_short() {
    let mut out = [0xAA; 64];
    for words in [0, 1, WORK_WORDS - 1] {
        let mut work = vec![u32::MAX; words];
        assert_eq!(
            assemble_into(S7, &mut work, &mut out),
            Err(Refusal::new(10, 0))
        );
        assert!(work.iter().all(|word| *word == 0));
        assert_eq!(out, [0xAA; 64]);
        // A stream that is too long comes first.
        assert_eq!(
            assemble_into(&[0; STREAM_BYTES + 1], &mut work, &mut out),
            Err(Refusal::new(1, 0))
        );
    }
}

#[test]
fn the_example_of_the_description() {
    let (stream, module) = common::described();
    assert_eq!(module.len(), 117);
    assert_eq!(assemble(&stream), Ok(module));
}

#[test]
fn one_assembler_for_many_streams() {
    let mut assembler = barrizuppa::Assembler::new();
    let long = [&b"\x0A\0\0\xFA\xFF\x03"[..], &[b'z'; STREAM_BYTES - 6]].concat();
    for stream in [S7, S7_WITH_Y, &long, b"", S7] {
        let module = assembler.assemble(stream).map(<[u8]>::to_vec);
        assert_eq!(module, assemble(stream));
        let module = assembler.assemble_names(stream).map(<[u8]>::to_vec);
        assert_eq!(module, assemble_names(stream));
        let module = assembler.assemble_strict(stream).map(<[u8]>::to_vec);
        assert_eq!(module, assemble_strict(stream));
        let module = assembler.assemble_strict_names(stream).map(<[u8]>::to_vec);
        assert_eq!(module, assemble_strict_names(stream));
    }
}

#[test]
fn a_refusal_in_words() {
    let refusal = assemble(S7_WITH_Y).unwrap_err();
    assert_eq!(refusal.to_string(), "refused 14 at 1: no such identifier");
    let error: Box<dyn std::error::Error> = refusal.into();
    assert_eq!(error.downcast_ref(), Some(&Refusal::new(14, 1)));
    let two_types = b"\x08\x01\0\x01\x01t\0\0\x01\x01t\0\0";
    let refusal = assemble(two_types).unwrap_err();
    assert_eq!(refusal, Refusal::taken(2, 1));
    assert!(refusal
        .to_string()
        .starts_with("refused 13 at 2, first at 1: "));
    // Every number has words of its own.
    let meanings: std::collections::HashSet<_> = (0..=20)
        .map(|number| Refusal::new(number, 0).meaning())
        .collect();
    assert_eq!(meanings.len(), 21);
}

#[test]
fn numbers_that_point_nowhere() {
    let bare = &signature(0, 0);
    let unary = &signature(1, 0);
    let memory = &b"\x05\0\0\0\0\x01"[..];
    let with_memory = |body: &[u8]| [memory, &function(bare, body)].concat();
    for (stream, strictly) in [
        // A start, a local, a label, each one too far and not.
        (b"\x08\x01\0".to_vec(), Some(0)),
        (function(unary, b"\x20\x01\x01"), Some(1)),
        (function(unary, b"\x20\x01\0"), None),
        (function(bare, b"\x0C\x01\x01"), Some(1)),
        (function(bare, b"\x0C\x01\0"), None),
        // The size of memory 0, told or not.
        (function(bare, b"\x3F\0"), Some(1)),
        (with_memory(b"\x3F\0"), None),
        (with_memory(b"\x3F\x01\x01"), Some(2)),
        // The type that the function itself adds.
        (function(bare, b"\x02\0\x01\0\0\0\x0B\0"), None),
        (function(bare, b"\x02\0\x01\x01\0\0\x0B\0"), Some(1)),
    ] {
        let plain = assemble(&stream);
        assert!(plain.is_ok(), "{stream:02X?}");
        let expected = strictly.map_or(plain, |record| refused(20, record));
        assert_eq!(assemble_strict(&stream), expected, "{stream:02X?}");
        let named = strictly.map_or(assemble_names(&stream), |record| refused(20, record));
        assert_eq!(assemble_strict_names(&stream), named, "{stream:02X?}");
    }
    // Where it is a name the plain call's refusal stands, and 15 is never given.
    assert_eq!(assemble_strict(S7_WITH_Y), refused(14, 1));
    let inline = b"\x02\0\0\0\0\x01\0\0\x01\x7F";
    assert_eq!(assemble(inline), refused(15, 0));
    assert_eq!(assemble_strict(inline), refused(20, 0));
}

#[test]
fn a_strict_call_leaves_zeros_and_the_output() {
    let mut out = [0xAA; 64];
    for assemble in [assemble_strict_into, assemble_strict_names_into] {
        let mut work = vec![u32::MAX; WORK_WORDS];
        let answer = assemble(b"\x08\x01\0", &mut work, &mut out);
        assert_eq!(answer, Err(Refusal::new(20, 0)));
        assert!(work.iter().all(|word| *word == 0));
        assert_eq!(out, [0xAA; 64]);
        // It is not strict for the next call.
        assert_eq!(
            assemble_into(b"\x08\x01\0", &mut work, &mut [0; 64]),
            Ok(11)
        );
    }
}

#[test]
fn names_of_functions_parameters_and_locals() {
    assert_eq!(assemble_names(b""), Ok(S1.to_vec()));
    assert_eq!(assemble_names(S7), Ok([S7_MODULE, S7_NAMES].concat()));
    assert_eq!(assemble_names(S7_WITH_Y), refused(14, 1));

    // An imported function g, whose parameter has no effect; a function f with a parameter x and a local l.
    let stream =
        b"\x02\x01m\x01n\0\x01g\0\x01\x01y\x7F\0\x03\x01f\0\0\0\x01\x01x\x7F\0\x01\x01l\x7E\xFF";
    let names = b"\0\x19\x04name\x01\x07\x02\0\x01g\x01\x01f\x02\x09\x01\x01\x02\0\x01x\x01\x01l";
    let module = assemble(stream).unwrap();
    assert_eq!(assemble_names(stream), Ok([&module, &names[..]].concat()));
}

#[test]
fn names_need_room_too() {
    let all = [S7_MODULE, S7_NAMES].concat();
    let mut work = vec![7; WORK_WORDS];
    let mut out = vec![0xA5; all.len()];
    let room = out.len() - 1;
    assert_eq!(
        assemble_names_into(S7, &mut work, &mut out[..room]),
        Err(Refusal::new(Refusal::NO_ROOM, S7_RECORDS))
    );
    assert!(out.iter().all(|byte| *byte == 0xA5));
    assert_eq!(
        assemble_into(S7, &mut work, &mut out[..room]),
        Ok(S7_MODULE.len())
    );
    assert_eq!(assemble_names_into(S7, &mut work, &mut out), Ok(all.len()));
    assert_eq!(out, all);
    assert!(work.iter().all(|word| *word == 0));
}
