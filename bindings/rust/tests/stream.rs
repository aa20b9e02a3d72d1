//! Streams written, read and told; none of it needs the library.
mod common;

use barrizuppa::stream::ValType::*;
use barrizuppa::stream::*;
use barrizuppa::Refusal;
use common::{described, refused};

const NOTICE: &[u8] = include_bytes!("../../../examples/notice.stream");
const NOTICE_RECORDS: &str = include_str!("../../../examples/notice.md");

/// S7: a function, exported as f, that returns its parameter x.
const S7: &[u8] = b"\x03\0\x01\x01f\0\0\x01\x01x\x7F\x01\x7F\0\x20\x02\x01x\xFF";

/// All records written again.
fn again(stream: &[u8]) -> Vec<u8> {
    let mut writer = Writer::new();
    for record in read(stream).unwrap() {
        writer.record(&record.content);
    }
    writer.finish().unwrap()
}

#[test]
fn a_number_has_its_shortest_form() {
    for (number, bytes) in [
        (0, &b"\0"[..]),
        (127, b"\x7F"),
        (128, b"\x80\x01"),
        (16_383, b"\xFF\x7F"),
        (16_384, b"\x80\x80\x01"),
        (u32::MAX, b"\xFF\xFF\xFF\xFF\x0F"),
    ] {
        let mut writer = Writer::new();
        writer.start(number);
        assert_eq!(writer.finish().unwrap(), [b"\x08\x01", bytes].concat());
    }
}

#[test]
fn the_example_of_the_description() {
    let mut stream = Writer::new();
    stream.type_("letter", &[I32, I32], &[I32]);
    let at_length = TypeUse::new().param(("at", I32)).param(("length", I32));
    stream.import("env", "print", "print", ItemType::Func(at_length));
    let text = Memory::Data {
        is64: false,
        data: b"Dear ",
    };
    stream.memory(Head::from("text").export("memory"), text);
    let length = [Var::named("length", I32)];
    stream.func("greet", TypeUse::of("letter"), &length, |body| {
        body.local_get(1).local_set("length");
        body.i32_const(0).i32_const(5).call("print");
        body.block("empty", TypeUse::new());
        body.local_get("length").i32_eqz().br_if("empty");
        body.local_get(0).local_get("length").call("print");
        body.end("empty");
        body.local_get("length").i32_const(5).i32_add();
    });
    stream.export("greet", Kind::Func, "greet");
    let stream = stream.finish().unwrap();
    assert_eq!(stream, described().0);
    assert_eq!((stream.len(), read(&stream).unwrap().len()), (203, 22));
}

#[test]
fn what_is_read_is_written_as_the_same_bytes() {
    for stream in [NOTICE, S7, b"", &described().0] {
        assert_eq!(again(stream), stream);
    }
}

#[test]
fn every_field_and_instruction() {
    let index = |name| Index::Name(name);
    let host = ImportName {
        module: "m",
        name: "n",
    };
    let limits = Limits::between(1, 2);
    let wide = Limits::Bits64 {
        min: u64::MAX,
        max: Some(u64::MAX),
    };
    let table = TableType {
        element: RefType::Extern,
        limits: wide,
    };
    let global = GlobalType {
        ty: F64,
        mutable: true,
    };
    let mut stream = Writer::new();
    stream.type_(None, &[I32, I64, F32, F64, FuncRef, ExternRef], &[]);
    stream.import("m", "n", None, ItemType::Func(TypeUse::of(0)));
    stream.import("m", "n", "t", ItemType::Table(table));
    stream.import("m", "n", "m", ItemType::Memory(limits));
    stream.import("m", "n", None, ItemType::Global(global));
    let import = Func::Import(host, TypeUse::new().param(I32));
    stream.field(&Field::Func(Head::from("f"), import));
    stream.table(Head::new(), Table::Import(host, table));
    stream.memory(Head::new(), Memory::Import(host, Limits::at_least(0)));
    stream.global(Head::new(), Global::Import(host, global));
    stream.table(Head::new().export("").export("\"\\"), Table::Own(table));
    let funcs = vec![index("f"), Index::Number(u32::MAX)];
    let elements = Table::Elements { is64: true, funcs };
    stream.table("u", elements);
    stream.memory(Head::new(), Memory::Own(wide));
    let data = Memory::Data {
        is64: true,
        data: b"\0\xFF",
    };
    stream.memory(Head::new(), data);
    for constant in [
        Const::from(-1),
        Const::from(i64::MIN),
        Const::from(0.1f32),
        Const::from(-0.0f64),
        Const::GlobalGet(index("g")),
        Const::RefNull(RefType::Func),
        Const::RefFunc(Index::Number(1)),
    ] {
        stream.global(Head::new(), Global::Own(global, constant));
        let place = Place {
            index: Some(index("t")),
            offset: constant,
        };
        stream.elem("e", place, &[index("f")]);
        stream.data(
            None,
            Place {
                index: None,
                ..place
            },
            b"abc",
        );
    }
    stream.elem(None, None, &[]).data("d", None, b"");
    stream.start("f").export("e", Kind::Memory, 0);
    stream.func(Head::new(), TypeUse::new(), &[I32.into()], |body| {
        for op in Op::ALL {
            body.op(*op);
        }
        for (exponent, access) in Access::ALL.iter().enumerate() {
            let align = Some(exponent as u8);
            let memory = Some(index("m"));
            let offset = u32::MAX;
            body.access(*access, MemArg::default()).access(
                *access,
                MemArg {
                    align,
                    offset,
                    memory,
                },
            );
        }
        body.block(None, TypeUse::new()).loop_("a", TypeUse::of(0));
        body.if_("b", TypeUse::new().result(I32))
            .else_("b")
            .end("b");
        body.br(0).br_table(&[index("a"), Index::Number(1)], 0);
        body.end(None).end(None).br_table(&[], 0);
        body.call_indirect(None, TypeUse::new());
        body.call_indirect(index("t"), TypeUse::of("t").param(("x", I32)).result(I64));
        body.local_tee(0)
            .global_get("g")
            .global_set("g")
            .ref_func("f");
        body.memory_size(None).memory_grow(index("m"));
        body.memory_init("d", None).memory_init(0, index("m"));
        body.data_drop("d").memory_copy(None, None);
        body.memory_copy(index("m"), None)
            .memory_copy(None, index("m"));
        body.memory_fill(None).memory_fill(index("m"));
        let get = || Folded::leaf(Instruction::LocalGet(0.into())).unwrap();
        let call = Instruction::CallIndirect(None, TypeUse::of(0));
        let call = Folded::new(call, [get()]).unwrap();
        body.folded(&get())
            .folded(&Folded::new(Op::I32Add, [call, get()]).unwrap());
        body.i32_const(i32::MIN).i64_const(-1).f32_const(1.5);
        body.f64_const(f64::INFINITY).ref_null(RefType::Extern);
    });
    let stream = stream.finish().unwrap();
    assert_eq!(again(&stream), stream);
    let told = account(&stream).to_string();
    for line in [
        "(type (func (param i32) (param i64) (param f32) (param f64) (param funcref) (param externref)))",
        "(table $t i64 18446744073709551615 18446744073709551615 externref)",
        "(table (export \"\") (export \"\\\"\\\\\") i64",
        "(table $u i64 funcref (elem $f 4294967295))",
        "(memory i64 (data \"\\00\\ff\"))",
        "(global (mut f64) (f32.const 0.1))",
        "(global (mut f64) (f64.const -0.0))",
        "(elem $e (table $t) (i32.const -1) func $f)",
        "(data (i64.const -9223372036854775808) \"abc\")",
        "i64.store32 $m offset=4294967295 align=4194304",
        "br_table $a 1 0",
        "call_indirect $t (type $t) (param $x i32) (result i64)",
        "memory.init $d\n",
        "memory.init $m 0\n",
        "data.drop $d\n",
        "memory.copy\n",
        "memory.copy $m 0\n",
        "memory.copy 0 $m\n",
        "memory.fill $m\n",
        "  (local.get 0)\n",
        "  (i32.add\n",
        "    (call_indirect (type 0)\n",
        "      (local.get 0))\n",
        "    (local.get 0))\n",
        "f64.const inf",
    ] {
        assert!(told.contains(line), "{line}\n{told}");
    }
}

#[test]
fn natural_alignment_is_told_once() {
    let (mut natural, mut given) = (Writer::new(), Writer::new());
    for (writer, align) in [(&mut natural, None), (&mut given, Some(2))] {
        writer.func(Head::new(), TypeUse::new(), &[], |body| {
            body.i32_load(MemArg {
                align,
                ..MemArg::default()
            });
        });
    }
    let (natural, given) = (natural.finish().unwrap(), given.finish().unwrap());
    assert_ne!(natural, given);
    for stream in [natural, given] {
        assert_eq!(account(&stream).rows[1].text, "i32.load");
    }
}

#[test]
fn nan_is_told_with_its_bits() {
    let texts =
        |bits: [u32; 4]| bits.map(|bits| text(&Content::Instruction(Instruction::F32Const(bits))));
    assert_eq!(
        texts([0x7FC0_0000, 0xFFC0_0000, 0x7F80_0001, 0xFF80_0000]),
        [
            "f32.const nan",
            "f32.const -nan",
            "f32.const nan:0x1",
            "f32.const -inf"
        ]
    );
}

#[test]
fn what_a_writer_cannot_write() {
    /// What is written, and the refusal and the byte that `finish` tells.
    type Case = (fn(&mut Writer), u32, usize);
    let name = "x".repeat(65);
    let string = "y".repeat(256);
    let mut writer = Writer::new();
    writer.type_(&*name, &[], &[]);
    assert_eq!(writer.finish().unwrap_err().refusal, Refusal::new(5, 0));
    let mut writer = Writer::new();
    writer.export(&string, Kind::Func, 0);
    assert_eq!(writer.finish().unwrap_err().refusal, Refusal::new(6, 0));
    let cases: [Case; 8] = [
        (|writer| _ = writer.type_("no 1", &[], &[]), 5, 4),
        (|writer| _ = writer.start(""), 5, 2),
        (|writer| _ = writer.export("\u{e9}", Kind::Func, 0), 6, 2),
        (|writer| _ = writer.type_(None, &[I32; 65], &[]), 7, 2),
        (|writer| _ = writer.type_(None, &[], &[I32; 17]), 7, 3),
        (
            |writer| {
                let body = |body: &mut Body<'_>| _ = body.block(None, TypeUse::new());
                writer.func(Head::new(), TypeUse::new(), &[], body);
            },
            8,
            13,
        ),
        (|writer| _ = writer.start(0).start(0), 9, 3),
        (
            |writer| {
                let far = MemArg {
                    align: Some(32),
                    ..MemArg::default()
                };
                writer.func(Head::new(), TypeUse::new(), &[], |body| {
                    body.i32_load(far);
                });
            },
            4,
            9,
        ),
    ];
    for (write, number, offset) in cases {
        let mut writer = Writer::new();
        write(&mut writer);
        let fault = writer.finish().unwrap_err();
        assert_eq!((fault.refusal.number, fault.offset), (number, offset));
    }
}

#[test]
fn an_own_function_needs_its_body() {
    let own = Func::Own {
        ty: TypeUse::new(),
        locals: vec![],
    };
    let mut writer = Writer::new();
    writer.field(&Field::Func(Head::new(), own));
    assert_eq!(writer.finish().unwrap_err().refusal, Refusal::new(2, 1));
}

#[test]
fn the_streams_that_are_refused() {
    let streams = refused();
    assert!(streams.len() >= 34, "{}", streams.len());
    for (stream, refusal, _) in streams {
        let read = read(&stream).map_err(Refusal::from);
        match refusal.number {
            // Found when all has been read.
            11..=18 | 20 => assert!(read.is_ok(), "{refusal}: {read:?}"),
            _ => assert_eq!(read.unwrap_err(), refusal),
        }
    }
}

#[test]
fn a_number_with_a_group_too_many() {
    let start = |number: &[u8]| {
        read(&[b"\x08\x01", number].concat())
            .map_err(|fault| (fault.refusal.number, fault.offset))
            .map(|records| records.len())
    };
    assert_eq!(start(b"\x00"), Ok(1));
    assert_eq!(start(b"\x80\x00"), Err((19, 3)));
    assert_eq!(start(b"\xFF\xFF\xFF\xFF\x00"), Err((19, 6)));
    assert_eq!(start(b"\xFF\xFF\xFF\xFF\x0F"), Ok(1));
    assert_eq!(start(b"\xFF\xFF\xFF\xFF\x10"), Err((3, 6)));
    assert_eq!(start(b"\x80\x80\x80\x80\x80"), Err((3, 6)));
    assert_eq!(start(b"\x80"), Err((2, 3)));
    // Before the ceiling that the value passes.
    let name = |length: &[u8]| {
        read(&[b"\x01", length].concat())
            .unwrap_err()
            .refusal
            .number
    };
    assert_eq!([name(b"\xC1\x00"), name(b"\x41")], [19, 5]);
    // A u64.
    let body = |number: &[u8]| {
        let stream = [b"\x03\0\0\0\0\0\0\0\x42", number, b"\xFF"].concat();
        read(&stream)
            .map_err(|fault| fault.refusal.number)
            .map(|records| records.len())
    };
    assert_eq!(body(b"\xFF\xFF\xFF\xFF\xFF\xFF\xFF\xFF\xFF\x01"), Ok(3));
    assert_eq!(body(b"\xFF\xFF\xFF\xFF\xFF\xFF\xFF\xFF\xFF\x00"), Err(19));
    assert_eq!(body(b"\xFF\xFF\xFF\xFF\xFF\xFF\xFF\xFF\xFF\x02"), Err(3));
}

#[test]
fn an_else_belongs_to_an_if() {
    const BLOCK: &[u8] = b"\x02\0\0\0\0";
    const LOOP: &[u8] = b"\x03\0\0\0\0";
    const IF: &[u8] = b"\x04\0\0\0\0";
    const ELSE: &[u8] = b"\x05\0";
    const END: &[u8] = b"\x0B\0";
    let body = |parts: &[&[u8]]| {
        read(&[b"\x03\0\0\0\0\0\0\0", &parts.concat()[..], b"\xFF"].concat())
            .map_err(|fault| (fault.refusal.number, fault.refusal.record))
            .map(|records| records.len())
    };
    assert_eq!(body(&[IF, ELSE, END]), Ok(5));
    assert_eq!(body(&[BLOCK, ELSE, END]), Err((8, 2)));
    assert_eq!(body(&[LOOP, ELSE, END]), Err((8, 2)));
    assert_eq!(body(&[IF, ELSE, ELSE, END]), Err((8, 3)));
    assert_eq!(body(&[IF, BLOCK, ELSE, END, END]), Err((8, 3)));
    assert_eq!(body(&[IF, BLOCK, END, ELSE, END]), Ok(7));
    assert_eq!(body(&[IF, ELSE, IF, ELSE, END, ELSE, END]), Err((8, 6)));
    // A block where there was an if, and an if where there was one with its else.
    assert_eq!(body(&[IF, END, BLOCK, ELSE, END]), Err((8, 4)));
    assert_eq!(body(&[IF, ELSE, END, IF, ELSE, END]), Ok(8));
    // As deep as blocks may be.
    let outer = LOOP.repeat(127);
    let ends = END.repeat(128);
    assert_eq!(body(&[&outer, IF, ELSE, &ends]), Ok(259));
    assert_eq!(body(&[&outer, IF, ELSE, ELSE, &ends]), Err((8, 130)));
    assert_eq!(body(&[&outer, BLOCK, ELSE, &ends]), Err((8, 129)));
}

#[test]
fn bulk_memory() {
    let body = |record: &[u8]| {
        read(&[b"\x03\0\0\0\0\0\0\0\xFC", record, b"\xFF"].concat())
            .map_err(|fault| (fault.refusal.number, fault.offset))
            .map(|records| records.len())
    };
    // Data must be named, a memory need not.
    assert_eq!(body(b"\x08\x01\0\0"), Ok(3));
    assert_eq!(body(b"\x08\0\0"), Err((4, 10)));
    assert_eq!(body(b"\x09\x02\x01d"), Ok(3));
    assert_eq!(body(b"\x09\0"), Err((4, 10)));
    assert_eq!(body(b"\x0A\0\x01\x01"), Ok(3));
    assert_eq!(body(b"\x0A\x01\x01\0"), Ok(3));
    assert_eq!(body(b"\x0B\0"), Ok(3));
    // The second byte is a byte, and no number.
    for second in [0x00, 0x07, 0x0C, 0x88, 0xFF] {
        assert_eq!(body(&[second, 0, 0, 0]), Err((4, 9)));
    }
    assert_eq!(read(b"\x03\0\0\0\0\0\0\0\xFC").unwrap_err().offset, 9);
}

/// Folded nops, so many, one in the other.
fn nested(count: usize) -> Result<Folded<'static>, CannotFold> {
    (1..count).try_fold(Folded::leaf(Op::Nop)?, |tree, _| {
        Folded::new(Op::Nop, [tree])
    })
}

#[test]
fn folded_records_that_can_be_made() {
    let nops = |count| vec![nested(1).unwrap(); count];
    assert_eq!(
        Folded::new(Op::Nop, nops(16)).map(|tree| tree.operands().len()),
        Ok(16)
    );
    assert_eq!(Folded::new(Op::Nop, nops(17)), Err(CannotFold::Operands));
    assert_eq!(
        Folded::new(Op::Nop, std::iter::repeat(nested(1).unwrap())),
        Err(CannotFold::Operands)
    );
    assert_eq!(nested(32).map(|tree| tree.nesting()), Ok(32));
    assert_eq!(nested(33), Err(CannotFold::Nesting));
    // By its deepest operand.
    let beside = Folded::new(Op::Nop, [nested(1).unwrap(), nested(32).unwrap()]);
    assert_eq!(beside, Err(CannotFold::Nesting));
    for barred in [
        Instruction::Open(Opening::Block, None, TypeUse::new()),
        Instruction::Else(None),
        Instruction::End(None),
    ] {
        assert_eq!(Folded::leaf(barred), Err(CannotFold::Operator));
    }
    // What can be made can be written and read.
    let wide = Folded::new(Op::Nop, nops(16)).unwrap();
    let mut writer = Writer::new();
    writer.func(Head::new(), TypeUse::new(), &[], |body| {
        body.folded(&wide).folded(&nested(32).unwrap());
    });
    let stream = writer.finish().unwrap();
    assert_eq!(read(&stream).unwrap().len(), 1 + 17 + 32 + 1);
    assert_eq!(again(&stream), stream);
}

#[test]
fn folded_records_that_cannot_be_read() {
    let body = |record: &[u8]| {
        read(&[b"\x03\0\0\0\0\0\0\0", record].concat())
            .map_err(|fault| (fault.refusal.number, fault.refusal.record, fault.offset - 8))
            .map(|records| records.len())
    };
    assert_eq!(body(b"\xF0\x1A\x01\xF0\x01\0\x01\xFF"), Ok(5));
    // What may not be folded: block, loop, if, else, end, F0, FF, and no opcode.
    for barred in [0x02, 0x03, 0x04, 0x05, 0x0B, 0xF0, 0xFF, 0x06] {
        assert_eq!(body(&[0xF0, barred, 0]), Err((4, 1, 1)));
    }
    // An operand begins with F0, at the next record.
    for other in [0x01, 0x02, 0x0B, 0xFF] {
        assert_eq!(body(&[0xF0, 0x1A, 1, other]), Err((4, 2, 3)));
        assert_eq!(body(&[0xF0, 0x6A, 2, 0xF0, 0x01, 0, other]), Err((4, 3, 6)));
    }
    assert_eq!(body(b"\xF0\x1A\x01"), Err((2, 2, 3)));
    assert_eq!(body(b"\xF0\x1A"), Err((2, 1, 2)));
    assert_eq!(body(b"\xF0\x1A\x11"), Err((7, 1, 2)));
    assert_eq!(body(b"\xF0\x1A\x91\0"), Err((19, 1, 3)));
    let deep = b"\xF0\x01\x01".repeat(32);
    assert_eq!(body(&[&deep[..], b"\xF0"].concat()), Err((7, 33, 96)));
    assert_eq!(body(&[&deep[..], b"\x01"].concat()), Err((4, 33, 96)));
    assert_eq!(body(&[&deep[3..], b"\xF0\x01\0\xFF"].concat()), Ok(34));
    assert_eq!(read(b"\xF0\x01\0").unwrap_err().refusal.number, 4);
}

#[test]
fn a_folded_body_in_flat_order() {
    // (i32.store (i32.add (i32.const 1) (i32.const 2)) (i32.const 3)) nop
    let stream = b"\x03\0\0\0\0\0\0\0\xF0\x36\0\0\0\x02\xF0\x6A\x02\
        \xF0\x41\x01\0\xF0\x41\x02\0\xF0\x41\x03\0\x01\xFF";
    let mut reader = Reader::new(stream);
    assert!(reader.next().unwrap().is_ok());
    let numbers = |body: Vec<(u32, Instruction<'_>)>| -> Vec<u32> {
        body.iter().map(|(number, _)| *number).collect()
    };
    assert_eq!(numbers(reader.body().unwrap()), [3, 4, 2, 5, 1, 6]);
    assert_eq!((reader.record(), reader.next()), (8, None));
    // What one by one has already given is not given again.
    let mut reader = Reader::new(stream);
    for _ in 0..4 {
        reader.next().unwrap().unwrap();
    }
    assert_eq!(numbers(reader.body().unwrap()), [4, 5, 6]);
    let told = account(stream);
    let nestings: Vec<usize> = told.rows.iter().map(|row| row.nesting).collect();
    assert_eq!(nestings, [0, 0, 1, 2, 2, 1, 0, 0]);
    let depths: Vec<usize> = told.rows.iter().map(|row| row.depth).collect();
    assert_eq!(depths, [0, 1, 2, 3, 3, 2, 1, 0]);
    let texts: Vec<&str> = told.rows.iter().map(|row| &row.text[..]).collect();
    assert_eq!(
        texts[1..6],
        [
            "(i32.store",
            "(i32.add",
            "(i32.const 1)",
            "(i32.const 2))",
            "(i32.const 3))"
        ]
    );
}

#[test]
fn the_reader_ends_with_its_fault() {
    let mut reader = Reader::new(b"\x08\x01\0\0");
    assert!(reader.next().unwrap().is_ok());
    assert_eq!(reader.offset(), 3);
    let fault = reader.next().unwrap().unwrap_err();
    assert_eq!(
        fault.to_string(),
        "refused 4 at 1: at byte 3 no record begins with this byte"
    );
    assert!(reader.next().is_none());
    assert!(Reader::new(b"").next().is_none());
    assert_eq!(
        Reader::new(&[0; STREAM_BYTES + 1])
            .next()
            .unwrap()
            .unwrap_err()
            .refusal,
        Refusal::new(1, 0)
    );
}

#[test]
fn a_body_at_once() {
    let mut reader = Reader::new(NOTICE);
    assert_eq!(reader.body(), Ok(vec![]));
    let (mut fields, mut instructions) = (0, 0);
    while let Some(record) = reader.next() {
        let record = record.unwrap();
        assert!(matches!(record.content, Content::Field(_)), "{record:?}");
        let body = reader.body().unwrap();
        assert!(body
            .iter()
            .map(|(number, _)| *number)
            .eq((record.number + 1..).take(body.len())));
        fields += 1;
        instructions += body.len();
    }
    // Four bodies, each with its FF.
    assert_eq!((fields, instructions, reader.record()), (10, 63, 77));

    // The same faults as one by one, and the same end.
    for cut in 0..NOTICE.len() {
        let mut reader = Reader::new(&NOTICE[..cut]);
        let mut fault = None;
        while let Some(record) = reader.next() {
            fault = record.err().or_else(|| reader.body().err());
            if fault.is_some() {
                assert_eq!((reader.body(), reader.next()), (Ok(vec![]), None));
            }
        }
        assert_eq!(fault, read(&NOTICE[..cut]).err());
    }
}

#[test]
fn the_account_of_the_example() {
    let told = account(NOTICE);
    assert!(
        NOTICE_RECORDS.contains(&format!("```\n{told}```\n")),
        "{told}"
    );
    assert_eq!(
        (told.rows.len(), told.fault, told.rest),
        (77, None, &b""[..])
    );
    let depths: Vec<usize> = told.rows[14..20].iter().map(|row| row.depth).collect();
    assert_eq!(depths, [0, 1, 2, 3, 3, 3]);
}

#[test]
fn the_account_up_to_a_fault() {
    let told = account(b"\x08\x01\0\x0B\x01\x02");
    assert_eq!(told.rows.len(), 1);
    assert_eq!(told.rest, b"\x0B\x01\x02");
    let lines: Vec<String> = told.to_string().lines().map(str::to_string).collect();
    assert_eq!(lines.len(), 3);
    assert!(
        lines[2].starts_with("     1      3  0B 01 02  "),
        "{}",
        lines[2]
    );
    assert!(lines[2].ends_with("  refused 4 at 1: at byte 3 no record begins with this byte"));
}
