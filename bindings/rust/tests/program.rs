//! The program: files, standard input and output, statuses.
use std::io::Write;
use std::path::{Path, PathBuf};
use std::process::{Command, Output, Stdio};
use std::{env, fs};

const NOTICE: &[u8] = include_bytes!("../../../examples/notice.stream");

/// Runs the program with this on its standard input.
fn run(arguments: &[&str], input: &[u8]) -> Output {
    let mut child = Command::new(env!("CARGO_BIN_EXE_barrizuppa"))
        .args(arguments)
        .stdin(Stdio::piped())
        .stdout(Stdio::piped())
        .stderr(Stdio::piped())
        .spawn()
        .unwrap();
    // One that does not read it may have ended.
    let _ = child.stdin.take().unwrap().write_all(input);
    child.wait_with_output().unwrap()
}

/// Status, standard output and standard error.
fn told(arguments: &[&str], input: &[u8]) -> (i32, Vec<u8>, String) {
    let output = run(arguments, input);
    let error = String::from_utf8(output.stderr).unwrap();
    (output.status.code().unwrap(), output.stdout, error)
}

/// An empty folder for a test.
fn folder(name: &str) -> PathBuf {
    let folder = Path::new(env!("CARGO_TARGET_TMPDIR")).join(name);
    let _ = fs::remove_dir_all(&folder);
    fs::create_dir_all(&folder).unwrap();
    folder
}

#[test]
fn help_and_version() {
    let version = format!("barrizuppa {}\n", env!("CARGO_PKG_VERSION"));
    for flag in ["-V", "--version"] {
        assert_eq!(
            told(&[flag], b""),
            (0, version.clone().into(), String::new())
        );
    }
    for (arguments, part) in [
        (&["--help"][..], "Usage: barrizuppa COMMAND"),
        (&["-h"], "Usage: barrizuppa COMMAND"),
        (&["help"], "Usage: barrizuppa COMMAND"),
        (&["help", "assemble"], "Usage: barrizuppa assemble"),
        (&["assemble", "--help"], "Usage: barrizuppa assemble"),
        (&["assemble", "--names", "-h"], "Usage: barrizuppa assemble"),
        (&["account", "-h"], "Usage: barrizuppa account"),
        (&["explain", "--help"], "Usage: barrizuppa explain"),
    ] {
        let (status, out, error) = told(arguments, b"");
        assert_eq!((status, error), (0, String::new()), "{arguments:?}");
        let out = String::from_utf8(out).unwrap();
        assert!(out.contains(part), "{out}");
        assert!(out.lines().all(|line| line.len() <= 100), "{out}");
    }
}

#[test]
fn wrong_use() {
    for (arguments, part) in [
        (&[][..], "no command"),
        (&["disassemble"], "no such command: disassemble"),
        (&["help", "me"], "no such command: me"),
        (&["account", "--html"], "no such option: --html"),
        (&["assemble", "a", "b"], "one file at a time"),
        (&["assemble", "-o"], "-o needs a value"),
        (&["assemble", "--names=yes"], "--names takes no value"),
        (&["assemble", "--strict=yes"], "--strict takes no value"),
        (&["account", "--strict"], "no such option: --strict"),
        (&["assemble", "--all", "in"], "--all needs two folders"),
        (&["assemble", "-j", "2"], "--jobs goes with --all"),
        (&["assemble", "-j0", "--all"], "-j needs a number from 1 on"),
        (&["explain", "--number", "x"], "--number needs a number"),
        (&["explain", "--number=0"], "there is no refusal 0"),
        (&["account", "no/such/file"], "no/such/file: "),
        (&["account", "-o", "no/such/file"], "no/such/file: "),
    ] {
        let (status, out, error) = told(arguments, b"");
        assert_eq!((status, out), (2, Vec::new()), "{arguments:?}");
        assert!(
            error.starts_with("barrizuppa: ") && error.contains(part),
            "{error}"
        );
    }
}

#[test]
fn the_account() {
    let (status, out, error) = told(&["account"], NOTICE);
    assert_eq!((status, error), (0, String::new()));
    let expected = barrizuppa::stream::account(NOTICE).to_string();
    assert_eq!(String::from_utf8(out).unwrap(), expected);

    let folder = folder("account");
    let (stream, text) = (folder.join("a.stream"), folder.join("a.txt"));
    fs::write(&stream, NOTICE).unwrap();
    let arguments = [
        "account",
        stream.to_str().unwrap(),
        "-o",
        text.to_str().unwrap(),
    ];
    assert_eq!(told(&arguments, b""), (0, Vec::new(), String::new()));
    assert_eq!(fs::read_to_string(text).unwrap(), expected);

    let (status, out, error) = told(&["account", "-"], b"\x08\x01\0\0");
    assert_eq!((status, out.is_empty()), (1, false));
    let line =
        "barrizuppa: standard input: refused 4 at 1: at byte 3 no record begins with this byte\n";
    assert_eq!(error, line);
}

#[test]
fn a_number_in_words() {
    let (status, out, error) = told(&["explain", "--number", "14"], b"");
    assert_eq!((status, error), (0, String::new()));
    let out = String::from_utf8(out).unwrap();
    assert!(
        out.starts_with("refused 14: nothing has that name\n\n"),
        "{out}"
    );
    assert!(out.contains("\n\nWhat to do: "), "{out}");
}

#[test]
fn a_reader_that_has_seen_enough() {
    let mut child = Command::new(env!("CARGO_BIN_EXE_barrizuppa"))
        .args(["account", "-"])
        .stdin(Stdio::piped())
        .stdout(Stdio::piped())
        .stderr(Stdio::piped())
        .spawn()
        .unwrap();
    drop(child.stdout.take());
    // More than a pipe holds.
    let stream = b"\x08\x01\0"
        .iter()
        .chain([0x0A, 0, 0, 0].repeat(250).iter())
        .copied()
        .collect::<Vec<u8>>();
    child.stdin.take().unwrap().write_all(&stream).unwrap();
    let output = child.wait_with_output().unwrap();
    assert_eq!((output.status.code(), output.stderr), (Some(0), Vec::new()));
}

#[cfg(not(feature = "library"))]
#[test]
fn without_the_library() {
    for command in ["assemble", "explain"] {
        let (status, out, error) = told(&[command], NOTICE);
        assert_eq!((status, out), (2, Vec::new()));
        assert!(error.contains("the feature `library`"), "{error}");
    }
}

#[cfg(feature = "library")]
mod with_library {
    use super::*;

    const MODULE: &[u8] = include_bytes!("../../../examples/notice.wasm");

    /// S7 with y for its x: a name that nothing has.
    const REFUSED: &[u8] = b"\x03\0\x01\x01f\0\0\x01\x01x\x7F\x01\x7F\0\x20\x02\x01y\xFF";

    #[test]
    fn assembles() {
        assert_eq!(
            told(&["assemble"], NOTICE),
            (0, MODULE.to_vec(), String::new())
        );
        let (status, out, error) = told(&["assemble", "--names", "-"], NOTICE);
        assert_eq!((status, error), (0, String::new()));
        assert_eq!(out, barrizuppa::assemble_names(NOTICE).unwrap());
        assert!(out.len() > MODULE.len());

        let folder = folder("assembles");
        let (stream, module) = (folder.join("a.stream"), folder.join("a.wasm"));
        fs::write(&stream, NOTICE).unwrap();
        let (stream, module) = (stream.to_str().unwrap(), module.to_str().unwrap());
        for arguments in [
            &["assemble", stream, "-o", module][..],
            &["assemble", "-o", module, "--", stream],
            &["assemble", &format!("--output={module}"), stream],
            &["assemble", &format!("-o{module}"), stream],
        ] {
            assert_eq!(told(arguments, b""), (0, Vec::new(), String::new()));
            assert_eq!(fs::read(module).unwrap(), MODULE);
            fs::remove_file(module).unwrap();
        }
    }

    #[test]
    fn strictly() {
        for arguments in [
            &["assemble", "--strict"][..],
            &["assemble", "--strict", "--names"],
            &["assemble", "--names", "--strict"],
        ] {
            let (status, out, error) = told(arguments, NOTICE);
            assert_eq!((status, error), (0, String::new()));
            assert_eq!(out == MODULE, arguments.len() == 2);
            assert!(out.starts_with(MODULE));
            // A start of function 0, and there is none.
            let (status, out, error) = told(arguments, b"\x08\x01\0");
            assert_eq!((status, out), (1, Vec::new()));
            assert!(
                error.contains("refused 20 at 0: in a strict call"),
                "{error}"
            );
        }
        assert_eq!(told(&["assemble"], b"\x08\x01\0").0, 0);
        assert_eq!(told(&["explain"], b"\x08\x01\0").0, 0);
        let (status, out, _) = told(&["explain", "--strict"], b"\x08\x01\0");
        let out = String::from_utf8(out).unwrap();
        assert_eq!(status, 1);
        assert!(out.contains("^ there is no function"), "{out}");
    }

    #[test]
    fn writes_nothing_on_a_refusal() {
        let line = "barrizuppa: standard input: refused 14 at 1: no such identifier\n";
        assert_eq!(
            told(&["assemble"], REFUSED),
            (1, Vec::new(), line.to_string())
        );
        let two_types = b"\x01\x01t\0\0\x01\x01t\0\0";
        let (_, _, error) = told(&["assemble"], two_types);
        let line = "barrizuppa: standard input: refused 13 at 1, first at 0: ";
        assert!(error.starts_with(line), "{error}");

        let folder = folder("refused");
        let (stream, module) = (folder.join("a.stream"), folder.join("a.wasm"));
        fs::write(&stream, REFUSED).unwrap();
        let arguments = [
            "assemble",
            stream.to_str().unwrap(),
            "-o",
            module.to_str().unwrap(),
        ];
        let (status, out, error) = told(&arguments, b"");
        assert_eq!((status, out, module.exists()), (1, Vec::new(), false));
        assert!(
            error.contains("a.stream: refused 14 at 1: no such identifier\n"),
            "{error}"
        );
        assert!(error.contains("`barrizuppa explain "), "{error}");
        fs::write(&module, "as it was").unwrap();
        assert_eq!(told(&arguments, b"").0, 1);
        assert_eq!(fs::read(&module).unwrap(), b"as it was");
    }

    #[test]
    fn a_stream_that_is_too_long() {
        let stream = vec![0; 10 * barrizuppa::STREAM_BYTES];
        for command in ["assemble", "explain", "account"] {
            assert_eq!(told(&[command], &stream).0, 1);
        }
    }

    #[test]
    fn explains() {
        let (status, out, error) = told(&["explain"], REFUSED);
        assert_eq!((status, error), (1, String::new()));
        let out = String::from_utf8(out).unwrap();
        let title = "standard input: refused 14 at 1: nothing has that name\n";
        assert!(out.starts_with(title), "{out}");
        assert!(out.contains("     1 |   local.get $y\n"), "{out}");

        let (status, out, _) = told(&["explain", "--html"], REFUSED);
        let out = String::from_utf8(out).unwrap();
        assert_eq!((status, out.starts_with("<!DOCTYPE html>")), (1, true));

        let (status, out, error) = told(&["explain"], NOTICE);
        assert_eq!((status, out), (0, Vec::new()));
        assert!(
            error.contains("not refused: 77 records, a module of 307 bytes"),
            "{error}"
        );
    }

    #[test]
    fn all_of_a_folder() {
        let (from, to) = (folder("all"), folder("modules"));
        for number in 0..40 {
            let stream = if number % 10 == 3 { REFUSED } else { NOTICE };
            fs::write(from.join(format!("{number:02}.stream")), stream).unwrap();
        }
        fs::write(from.join("98.stream"), b"\0").unwrap();
        fs::write(from.join("README"), b"no stream").unwrap();
        fs::create_dir(from.join("folder.stream")).unwrap();
        let (from, to) = (from.to_str().unwrap(), to.join("new"));
        let to_name = to.to_str().unwrap();
        for jobs in ["-j1", "-j8"] {
            let (status, out, error) = told(&["assemble", "--all", jobs, from, "-o", to_name], b"");
            assert_eq!((status, out), (1, Vec::new()));
            let lines: Vec<&str> = error.lines().collect();
            let first = "41 streams: 36 assembled, 11052 bytes; 5 refused; ";
            assert!(lines[0].starts_with(first), "{error}");
            assert_eq!(
                lines[1..],
                [
                    "      1 refused 4, a byte that means nothing here: 98.stream at 0",
                    "      4 refused 14, nothing has that name: 03.stream at 1, 13.stream at 1, 23.stream at 1 and 1 more",
                ]
            );
            let mut names: Vec<_> = fs::read_dir(&to)
                .unwrap()
                .map(|one| one.unwrap().file_name())
                .collect();
            names.sort();
            assert_eq!((names.len(), names[3].to_str()), (36, Some("04.wasm")));
            assert_eq!(fs::read(to.join("39.wasm")).unwrap(), MODULE);
            fs::remove_dir_all(&to).unwrap();
        }
        let (status, _, error) = told(&["assemble", "--all", to_name, "-o", to_name], b"");
        assert_eq!(status, 2, "{error}");
    }

    #[test]
    fn a_folder_without_streams() {
        let empty = folder("empty");
        let empty = empty.to_str().unwrap();
        let (status, _, error) = told(&["assemble", "--all", empty, "-o", empty], b"");
        assert_eq!(status, 2);
        assert!(error.ends_with("no file *.stream in it\n"), "{error}");
    }
}
