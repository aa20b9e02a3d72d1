//! What the program is asked to do.
use crate::Trouble;
use std::ffi::OsString;
use std::path::PathBuf;

const HELP: &str = "\
A proved WebAssembly assembler: record streams to binary modules.

Usage: barrizuppa COMMAND [OPTION].. [FILE]

Commands:
  assemble   a stream to its module, or a folder of streams to their modules
  account    the records of a stream, one by one
  explain    why a stream is refused, and what to do
  help       this, or with the name of a command, its options

FILE is a stream; without one, or with -, it comes from standard input.

Options:
  -h, --help      this, or after a command, its options
  -V, --version   the version

Status: 0; 1 where a stream is refused; 2 for wrong use, or a file that cannot be read or written.
Messages go to standard error. The stream is described in docs/STREAM.md.
";

const ASSEMBLE: &str = "\
A stream to its module.

Usage: barrizuppa assemble [--strict] [--names] [-o MODULE] [FILE]
       barrizuppa assemble --all [--strict] [--names] [-j THREADS] -o FOLDER FOLDER

Options:
      --strict        also refuse numbers that point to nothing (refusal 20)
      --names         also write the names of functions, parameters and locals, for a debugger
  -o, --output PATH   where the module goes; without it, standard output
      --all           every file *.stream of the one folder, to *.wasm in the other
  -j, --jobs THREADS  with --all: how many at a time; without it, as many as there are cores
  -h, --help          this

Of a refused stream nothing is written, and the status is 1. What was in the output file before
stays there. `barrizuppa explain FILE` says more of a refusal than its line does.
";

const ACCOUNT: &str = "\
The records of a stream, one by one: number, offset, bytes, and what each says.

Usage: barrizuppa account [-o TEXT] [FILE]

Options:
  -o, --output PATH   where it goes; without it, standard output
  -h, --help          this

A stream that cannot be read is shown up to its fault, and the status is 1. It may still be
refused where it can be read: `barrizuppa assemble` tells.
";

const EXPLAIN: &str = "\
Why a stream is refused: the record as a line of the template with the lines around it, what the
refusal means, and what to do.

Usage: barrizuppa explain [--strict] [--html] [-o PATH] [FILE]
       barrizuppa explain --number N

Options:
      --strict        as `barrizuppa assemble --strict` refuses it
      --html          a page for a browser, the whole template with the record at fault marked
      --number N      what a refusal's number means, without a stream
  -o, --output PATH   where it goes; without it, standard output
  -h, --help          this

Of a stream that is assembled it says so, and the status is 0; else it is 1.
";

/// What a command works on.
#[derive(Clone, Debug, Default, PartialEq, Eq)]
pub struct Arguments {
    /// Standard input if there is none.
    pub input: Option<PathBuf>,
    /// Standard output if there is none.
    pub output: Option<PathBuf>,
    /// The strict call.
    pub strict: bool,
    pub names: bool,
    pub all: bool,
    /// As many as there are cores if nothing is said.
    pub jobs: Option<usize>,
    pub html: bool,
}

#[derive(Clone, Debug, PartialEq, Eq)]
pub enum Command {
    /// Help or version.
    Say(String),
    Assemble(Arguments),
    Account(Arguments),
    Explain(Arguments),
    Number(u32),
}

/// The command, or what is wrong with it.
pub fn parse(given: Vec<OsString>) -> Result<Command, Trouble> {
    let mut given = given.into_iter();
    let Some(first) = given.next() else {
        return Err(Trouble(format!("no command\n\n{HELP}")));
    };
    match first.to_str() {
        Some("assemble") => options(
            given,
            ASSEMBLE,
            &["--strict", "--names", "--all", "-o", "-j"],
        )
        .map(|asked| asked.command(Command::Assemble)),
        Some("account") => {
            options(given, ACCOUNT, &["-o"]).map(|asked| asked.command(Command::Account))
        }
        Some("explain") => options(given, EXPLAIN, &["--strict", "--html", "--number", "-o"])
            .map(|asked| asked.command(Command::Explain)),
        Some("help") => help(given.next()),
        Some("-h" | "--help") => Ok(Command::Say(HELP.to_string())),
        Some("-V" | "--version") => Ok(Command::Say(version())),
        _ => Err(Trouble(format!(
            "no such command: {}\nbarrizuppa help lists them",
            first.to_string_lossy()
        ))),
    }
}

fn version() -> String {
    format!("barrizuppa {}\n", env!("CARGO_PKG_VERSION"))
}

fn help(of: Option<OsString>) -> Result<Command, Trouble> {
    let text = match of.as_ref().map(|name| name.to_string_lossy()).as_deref() {
        None | Some("help") => HELP,
        Some("assemble") => ASSEMBLE,
        Some("account") => ACCOUNT,
        Some("explain") => EXPLAIN,
        Some(other) => return Err(Trouble(format!("no such command: {other}"))),
    };
    Ok(Command::Say(text.to_string()))
}

/// What stands after a command's name.
enum Asked {
    Help(String),
    Number(u32),
    Work(Arguments),
}

impl Asked {
    fn command(self, work: fn(Arguments) -> Command) -> Command {
        match self {
            Asked::Help(text) => Command::Say(text),
            Asked::Number(number) => Command::Number(number),
            Asked::Work(arguments) => work(arguments),
        }
    }
}

/// Reads the options that a command knows.
fn options(
    mut given: impl Iterator<Item = OsString>,
    help: &str,
    known: &[&str],
) -> Result<Asked, Trouble> {
    let usage = |what: String| {
        let usage = help.split("\n\n").nth(1).unwrap_or_default();
        Trouble(format!("{what}\n{usage}"))
    };
    let mut arguments = Arguments::default();
    let mut number = None;
    let mut only_files = false;
    while let Some(one) = given.next() {
        let text = one.to_string_lossy().into_owned();
        if only_files || text == "-" || !text.starts_with('-') {
            if arguments.input.is_some() {
                return Err(usage(format!("one file at a time, and not also {text}")));
            }
            arguments.input = Some(one.into());
            continue;
        }
        if text == "--" {
            only_files = true;
            continue;
        }
        let (option, attached) = split(&text);
        let short = match option {
            "--output" => "-o",
            "--jobs" => "-j",
            other => other,
        };
        if matches!(short, "-h" | "--help") {
            return Ok(Asked::Help(help.to_string()));
        }
        if !known.contains(&short) {
            return Err(usage(format!("no such option: {option}")));
        }
        let takes_value = matches!(short, "-o" | "-j" | "--number");
        if attached.is_some() && !takes_value {
            return Err(usage(format!("{option} takes no value")));
        }
        let mut value = || {
            attached
                .map(OsString::from)
                .or_else(|| given.next())
                .ok_or_else(|| usage(format!("{option} needs a value")))
        };
        match short {
            "--strict" => arguments.strict = true,
            "--names" => arguments.names = true,
            "--all" => arguments.all = true,
            "--html" => arguments.html = true,
            "-o" => arguments.output = Some(value()?.into()),
            "-j" => {
                let jobs = value()?.to_str().and_then(|text| text.parse().ok());
                let jobs = jobs.filter(|jobs| *jobs > 0);
                arguments.jobs =
                    Some(jobs.ok_or_else(|| usage(format!("{option} needs a number from 1 on")))?);
            }
            _ => {
                let found = value()?.to_str().and_then(|text| text.parse().ok());
                number = Some(found.ok_or_else(|| usage(format!("{option} needs a number")))?);
            }
        }
    }
    if let Some(number) = number {
        return Ok(Asked::Number(number));
    }
    if arguments.all && (arguments.input.is_none() || arguments.output.is_none()) {
        return Err(usage("--all needs two folders".to_string()));
    }
    if arguments.jobs.is_some() && !arguments.all {
        return Err(usage("--jobs goes with --all".to_string()));
    }
    arguments.input = arguments.input.filter(|path| path.as_os_str() != "-");
    arguments.output = arguments.output.filter(|path| path.as_os_str() != "-");
    Ok(Asked::Work(arguments))
}

/// `--option=value` and `-ovalue` as option and value.
fn split(text: &str) -> (&str, Option<&str>) {
    if text.starts_with("--") {
        return match text.split_once('=') {
            Some((option, value)) => (option, Some(value)),
            None => (text, None),
        };
    }
    match text.char_indices().nth(2) {
        Some((at, _)) => (&text[..at], Some(text[at..].trim_start_matches('='))),
        None => (text, None),
    }
}
