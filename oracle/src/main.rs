//! What wast 262.0.0's own code makes of a record stream (document 01).
//!
//!   oracle [--names] [--room N] [--why] < STREAM
//!   oracle --batch [...] < STREAMS      in the batch form (tools/models/batch.rs)
//!
//! One line for each stream:
//!   ok HEX             the module without custom sections; with --names it
//!                      keeps subsections 1 and 2 of the name section
//!   refused N at R     the crate's refusal (11, 13 to 17), by document 01's
//!                      number; 13 with `, first at F`, the record of the first
//!                      holder; with --why the crate's message follows
//!   ours N at R        one of our own refusals (1 to 9, 12, 18, 19) by the front's
//!                      reading of document 01: no question for the crate
//!   panicked           the crate's code, or a stand-in, panicked
//! --room is the length of the output, 65,536 if not given.
//!
//!   oracle --time ROUNDS < STREAMS      how long the crate takes (time.rs)
mod answer;
#[path = "../../tools/models/batch.rs"]
mod batch;
mod stream;
mod time;
mod tree;

use answer::{Answer, answer};
use std::io::{Read, Write};
use std::panic::catch_unwind;

struct Options {
    batch: bool,
    names: bool,
    why: bool,
    room: usize,
    time: Option<usize>,
}

/// None where the arguments make no sense.
fn options() -> Option<Options> {
    let mut options = Options { batch: false, names: false, why: false, room: 65_536, time: None };
    let mut arguments = std::env::args().skip(1);
    while let Some(argument) = arguments.next() {
        match argument.as_str() {
            "--batch" => options.batch = true,
            "--names" => options.names = true,
            "--why" => options.why = true,
            "--room" => options.room = arguments.next()?.parse().ok()?,
            "--time" => options.time = Some(arguments.next()?.parse().ok()?),
            _ => return None,
        }
    }
    Some(options)
}

/// A stream's line; a panic must not end the batch.
fn line(bytes: &[u8], options: &Options) -> String {
    match catch_unwind(|| answer(bytes, options.room, options.names)) {
        Ok(answer) => match &answer {
            Answer::Refused(.., message) if options.why => format!("{answer}: {message}"),
            _ => answer.to_string(),
        },
        Err(_) => "panicked".to_string(),
    }
}

fn main() -> std::io::Result<()> {
    let Some(options) = options() else {
        eprintln!("usage: oracle [--batch] [--names] [--room N] [--why] [--time ROUNDS]");
        std::process::exit(2);
    };
    let mut set = Vec::new();
    std::io::stdin().read_to_end(&mut set)?;
    let mut out = std::io::BufWriter::new(std::io::stdout());
    if !options.batch && options.time.is_none() {
        return writeln!(out, "{}", line(&set, &options));
    }
    let Some(streams) = batch::unpack(&set) else {
        eprintln!("oracle: the batch is broken");
        std::process::exit(2);
    };
    if let Some(rounds) = options.time {
        time::time(&streams, rounds);
        return Ok(());
    }
    for stream in streams {
        writeln!(out, "{}", line(stream, &options))?;
    }
    Ok(())
}
