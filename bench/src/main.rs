//! Measures the proved code beside plain Rust that does the same job.
//!
//!   bench JOB [ROUNDS]              all rivals agree on all inputs; ns per byte of each
//!   bench JOB --batch plain|proved  reads streams in the batch form (tools/models/batch.rs),
//!                                   and prints a line for each
//!   bench folding [ROUNDS]          the call on streams, and on the same ones with bodies folded
//!   bench morning [ROUNDS]          document 02's morning run: microseconds for a stream of each
//!   bench --streams SIZE            the streams of a size in that form, for oracle --time
//!
//! JOB is `reading` (the reading pass alone) or `assembling` (the whole call).
//! In a round each rival goes over ALL bytes of different streams of a size, more
//! than a branch predictor learns by heart, in turn, in one process. Of each
//! stream the best round counts. What is lent is made once and not cleared
//! between calls.
#[path = "../../tools/models/batch.rs"]
mod batch;
mod folding;
mod morning;
mod plain;
#[cfg(feature = "proved")]
mod proved;
mod reader;
mod reading;
mod rivals;
mod template;
mod tree;

use folding::Trees;
use rivals::{rivals, Rival};
use std::hint::black_box;
use std::io::{Read, Write};
use std::time::{Duration, Instant};
use template::Bodies;

const SIZES: [usize; 4] = [1_024, 5 * 1_024, 20 * 1_024, 40 * 1_024];
/// Bytes of different streams of one size.
const ALL: usize = 320 * 1_024;
/// Damaged streams of one size, beside the whole ones.
const DAMAGED: usize = 4_000;
const ROUNDS: usize = 200;
/// Rounds of the morning run, whose streams are many.
const MORNINGS: usize = 20;

type Rivals = Vec<(&'static str, Box<dyn Rival>)>;

/// The streams of a size, always the same.
fn streams(size: usize) -> Vec<Vec<u8>> {
    streams_with(size, Bodies::Blocks)
}

fn streams_with(size: usize, bodies: Bodies) -> Vec<Vec<u8>> {
    (1..=ALL / size).map(|seed| template::stream(size, seed as u64, bodies)).collect()
}

fn line(rival: &mut dyn Rival, stream: &[u8]) -> String {
    match rival.call(stream) {
        Err((number, record)) => format!("refused {number} at {record}"),
        // A module is never empty; the reading pass writes nothing.
        Ok(records) if rival.output().is_empty() => format!("records {records}"),
        Ok(_) => {
            let hex: String = rival.output().iter().map(|byte| format!("{byte:02X}")).collect();
            format!("ok {hex}")
        }
    }
}

/// A line for each stream of a batch.
fn answer(rival: &mut dyn Rival) -> std::io::Result<()> {
    let mut set = Vec::new();
    std::io::stdin().read_to_end(&mut set)?;
    let mut out = std::io::BufWriter::new(std::io::stdout());
    let streams = batch::unpack(&set).ok_or_else(|| std::io::Error::other("the batch is broken"))?;
    for stream in streams {
        writeln!(out, "{}", line(rival, stream))?;
    }
    Ok(())
}

/// The streams of a size as a batch.
fn print_streams(size: usize) -> std::io::Result<()> {
    let mut out = std::io::stdout().lock();
    for stream in streams(size) {
        out.write_all(&batch::pack(&stream))?;
    }
    Ok(())
}

/// What the bench times, whole, cut and with a byte changed: the first rival
/// accepts the whole ones, and all agree.
fn agree(rivals: &mut Rivals, streams: &[Vec<u8>]) -> usize {
    let mut count = 0;
    let mut chance = template::Chance::new(99);
    for stream in streams {
        assert!(rivals[0].1.call(stream).is_ok(), "a stream of the bench is refused");
        let mut inputs = vec![stream.clone()];
        for _ in 0..DAMAGED / 2 / streams.len() {
            let at = chance.below(stream.len());
            inputs.push(stream[..at].to_vec());
            let mut changed = stream.clone();
            changed[at] = chance.below(256) as u8;
            inputs.push(changed);
        }
        for input in inputs {
            let lines: Vec<String> = rivals.iter_mut().map(|(_, rival)| line(&mut **rival, &input)).collect();
            assert!(lines.iter().all(|line| *line == lines[0]), "the rivals differ: {lines:?}");
            count += 1;
        }
    }
    count
}

/// One round: each stream's time, where it is better than before.
fn round(rival: &mut dyn Rival, streams: &[Vec<u8>], best: &mut [Duration]) {
    for (stream, best) in streams.iter().zip(best) {
        let start = Instant::now();
        let said = rival.call(black_box(stream));
        black_box((said.is_ok(), rival.output()));
        *best = start.elapsed().min(*best);
    }
}

fn measure(rivals: &mut Rivals, rounds: usize) {
    for size in SIZES {
        let streams = streams(size);
        let inputs = agree(rivals, &streams);
        let records: u32 = streams.iter().map(|stream| reading::read(stream).unwrap()).sum();
        let mut best = vec![vec![Duration::MAX; streams.len()]; rivals.len()];
        for _ in 0..rounds {
            for ((_, rival), best) in rivals.iter_mut().zip(&mut best) {
                round(&mut **rival, &streams, best);
            }
        }
        print!("{size:6} bytes, {:4} records", records as usize / streams.len());
        if rivals.len() > 1 {
            print!(", {inputs} inputs agree");
        }
        let bytes = size * streams.len();
        let times: Vec<f64> =
            best.iter().map(|best| best.iter().sum::<Duration>().as_nanos() as f64 / bytes as f64).collect();
        for ((name, _), time) in rivals.iter().zip(&times) {
            print!(", {name} {time:.2} ns/byte");
        }
        match times[..] {
            [plain, proved] => println!(", ratio {:.2}", proved / plain),
            _ => println!(),
        }
    }
}

/// Flat streams beside the same ones folded, in turn. Both give the same modules.
fn measure_folding(rivals: &mut Rivals, rounds: usize) {
    let small = SIZES.map(|size| (size, Bodies::Blocks, Trees::Small, "folded"));
    let large = [(Trees::Large, "in large trees"), (Trees::Wide, "in wide trees"), (Trees::Deep, "in deep trees")]
        .map(|(trees, sort)| (20 * 1_024, Bodies::Long, trees, sort));
    for (size, bodies, trees, sort) in small.into_iter().chain(large) {
        let flat = streams_with(size, bodies);
        let folded: Vec<Vec<u8>> =
            (1..).zip(&flat).map(|(seed, stream)| folding::folded(stream, seed, trees)).collect();
        for (_, rival) in rivals.iter_mut() {
            for (flat, folded) in flat.iter().zip(&folded) {
                assert!(line(&mut **rival, flat) == line(&mut **rival, folded), "a folded stream differs");
            }
        }
        let mut best = vec![[vec![Duration::MAX; flat.len()], vec![Duration::MAX; flat.len()]]; rivals.len()];
        for _ in 0..rounds {
            for ((_, rival), [of_flat, of_folded]) in rivals.iter_mut().zip(&mut best) {
                round(&mut **rival, &flat, of_flat);
                round(&mut **rival, &folded, of_folded);
            }
        }
        let bytes = |streams: &[Vec<u8>]| streams.iter().map(Vec::len).sum::<usize>();
        print!("{size:6} bytes, {sort} {:6}", bytes(&folded) / folded.len());
        for ((name, _), [of_flat, of_folded]) in rivals.iter().zip(&best) {
            let time = |best: &[Duration], streams: &[Vec<u8>]| {
                best.iter().sum::<Duration>().as_nanos() as f64 / bytes(streams) as f64
            };
            let (flat, folded) = (time(of_flat, &flat), time(of_folded, &folded));
            print!(", {name} {flat:.2} and {folded:.2} ns/byte, folded over flat {:.2}", folded / flat);
        }
        println!();
    }
}

/// The morning run: all rivals give the same modules; of each stream the best
/// round counts.
fn measure_morning(rivals: &mut Rivals, rounds: usize) {
    let streams: Vec<Vec<u8>> = (1..=morning::STREAMS as u64).map(morning::stream).collect();
    for stream in &streams {
        let lines: Vec<String> = rivals.iter_mut().map(|(_, rival)| line(&mut **rival, stream)).collect();
        assert!(lines[0].starts_with("ok") && lines.iter().all(|line| *line == lines[0]), "the rivals differ");
    }
    let mut best = vec![vec![Duration::MAX; streams.len()]; rivals.len()];
    for _ in 0..rounds {
        for ((_, rival), best) in rivals.iter_mut().zip(&mut best) {
            round(&mut **rival, &streams, best);
        }
    }
    let bytes: usize = streams.iter().map(Vec::len).sum();
    print!("{} streams of {} bytes", streams.len(), bytes / streams.len());
    let times: Vec<f64> =
        best.iter().map(|best| best.iter().sum::<Duration>().as_nanos() as f64 / streams.len() as f64).collect();
    for ((name, _), time) in rivals.iter().zip(&times) {
        print!(", {name} {:.1} us", time / 1e3);
    }
    match times[..] {
        [list, map, plain, proved] => println!(
            ", ratio to list {:.2}, to map {:.2}, to plain {:.2}", proved / list, proved / map, proved / plain
        ),
        _ => println!(),
    }
}

fn usage() -> ! {
    eprintln!("usage: bench reading|assembling [ROUNDS | --batch plain|proved], bench folding|morning [ROUNDS],");
    eprintln!("    or bench --streams SIZE");
    eprintln!("`proved` needs the feature of that name");
    std::process::exit(2);
}

fn main() -> std::io::Result<()> {
    let arguments: Vec<String> = std::env::args().skip(1).collect();
    let words: Vec<&str> = arguments.iter().map(String::as_str).collect();
    let (job, options) = words.split_first().unwrap_or_else(|| usage());
    if let ("--streams", [size]) = (*job, options) {
        return print_streams(size.parse().unwrap_or_else(|_| usage()));
    }
    let mut rivals = rivals(job);
    match options {
        _ if rivals.is_empty() => usage(),
        ["--batch", wanted] => match rivals.iter_mut().find(|(name, _)| name == wanted) {
            Some((_, rival)) => return answer(&mut **rival),
            None => usage(),
        },
        [] if *job == "folding" => measure_folding(&mut rivals, ROUNDS),
        [rounds] if *job == "folding" => measure_folding(&mut rivals, rounds.parse().unwrap_or_else(|_| usage())),
        [] if *job == "morning" => measure_morning(&mut rivals, MORNINGS),
        [rounds] if *job == "morning" => measure_morning(&mut rivals, rounds.parse().unwrap_or_else(|_| usage())),
        [] => measure(&mut rivals, ROUNDS),
        [rounds] => measure(&mut rivals, rounds.parse().unwrap_or_else(|_| usage())),
        _ => usage(),
    }
    Ok(())
}
