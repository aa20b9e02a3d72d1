//! Asks the assembler of many streams, for tools/compare/compare.py.
//!
//!   driver [--strict] [--names] [--bare] [--work WORDS] [--room BYTES] < STREAMS
//!
//! The streams come in the batch form (batch.rs). One line for each: `ok HEX`,
//! `refused N at R` or `refused 13 at R, first at F`, and behind it ` but ...`
//! whatever is wrong with what the call left: the output beyond the module or after
//! a refusal, the work area, the answer's four words. A strict call is also held to
//! the plain one: where it is not refused 20 both say the same. 16,384 words and
//! 65,536 bytes are lent if nothing else is said. With --bare they are lent as they
//! come from the heap, for a run under a memory checker. With --names the call that
//! also writes the name section is asked, and with --strict the strict one; with
//! both, in either order, the one that is both.
#[path = "../../models/batch.rs"]
mod batch;
mod lent;

use lent::{examine, examine_bare, Assemble, Said, TAKEN};
use std::fmt::Write as _;
use std::io::{Read, Write};

mod library {
    macro_rules! calls {
        ($($name:ident)*) => {
            extern "C" {$(
                pub fn $name(
                    stream: *const u8,
                    stream_len: usize,
                    work: *mut u32,
                    work_len: usize,
                    out: *mut u8,
                    out_len: usize,
                    answer: *mut [u32; 4],
                ) -> u32;
            )*}
        };
    }

    calls! {
        barrizuppa_assemble
        barrizuppa_assemble_names
        barrizuppa_assemble_strict
        barrizuppa_assemble_strict_names
    }
}

/// The refusal by which a number points nowhere, in a strict call.
const NOWHERE: u32 = 20;

/// What is asked, and the words and bytes it is lent.
struct Options {
    strict: bool,
    names: bool,
    bare: bool,
    work: usize,
    room: usize,
}

impl Options {
    /// The call that is asked, or the plain one in its place.
    fn call(&self, strict: bool) -> Assemble {
        match (strict, self.names) {
            (false, false) => library::barrizuppa_assemble,
            (false, true) => library::barrizuppa_assemble_names,
            (true, false) => library::barrizuppa_assemble_strict,
            (true, true) => library::barrizuppa_assemble_strict_names,
        }
    }
}

/// A stream's line.
fn line(stream: &[u8], options: &Options) -> String {
    let examine = if options.bare { examine_bare } else { examine };
    let (said, mut wrong) = examine(options.call(options.strict), stream, options.work, options.room);
    if options.strict && !matches!(said, Said::Refused { number: NOWHERE, .. }) {
        let (plain, _) = examine(options.call(false), stream, options.work, options.room);
        if plain != said {
            wrong.push("the plain call says something else");
        }
    }
    let mut line = match said {
        Said::Module { bytes, .. } => bytes.iter().fold("ok ".to_string(), |mut line, byte| {
            write!(line, "{byte:02X}").unwrap();
            line
        }),
        Said::Refused { number: TAKEN, record, first } => format!("refused {TAKEN} at {record}, first at {first}"),
        Said::Refused { number, record, .. } => format!("refused {number} at {record}"),
    };
    for what in wrong {
        write!(line, " but {what}").unwrap();
    }
    line
}

/// None where the arguments make no sense.
fn options() -> Option<Options> {
    let mut options = Options { strict: false, names: false, bare: false, work: 16_384, room: 65_536 };
    let mut arguments = std::env::args().skip(1);
    while let Some(argument) = arguments.next() {
        match argument.as_str() {
            "--strict" => options.strict = true,
            "--names" => options.names = true,
            "--bare" => options.bare = true,
            "--work" => options.work = arguments.next()?.parse().ok()?,
            "--room" => options.room = arguments.next()?.parse().ok()?,
            _ => return None,
        }
    }
    Some(options)
}

fn main() -> std::io::Result<()> {
    let Some(options) = options() else {
        eprintln!("usage: driver [--strict] [--names] [--bare] [--work WORDS] [--room BYTES]");
        std::process::exit(2);
    };
    let mut set = Vec::new();
    std::io::stdin().read_to_end(&mut set)?;
    let mut out = std::io::BufWriter::new(std::io::stdout());
    let Some(streams) = batch::unpack(&set) else {
        eprintln!("driver: the batch is broken");
        std::process::exit(2);
    };
    for stream in streams {
        writeln!(out, "{}", line(stream, &options))?;
    }
    Ok(())
}
