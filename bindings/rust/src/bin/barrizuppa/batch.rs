//! A folder of streams to a folder of modules, on all cores.
use crate::arguments::Arguments;
use crate::{assemble, End, Run, Trouble};
use barrizuppa::explain::words;
use barrizuppa::{Assembler, Refusal};
use std::collections::BTreeMap;
use std::fs;
use std::io::{self, IsTerminal, Write};
use std::path::{Path, PathBuf};
use std::sync::atomic::{AtomicUsize, Ordering};
use std::sync::Mutex;
use std::time::{Duration, Instant};

const STREAM: &str = "stream";
const MODULE: &str = "wasm";

/// Streams of one refusal that the summary names.
const NAMED: usize = 3;

/// How often the progress line is written.
const PROGRESS: Duration = Duration::from_millis(100);

/// What became of a stream.
enum Outcome {
    /// The module's length.
    Assembled(usize),
    Refused(Refusal),
    Trouble(String),
}

pub fn run(arguments: &Arguments) -> Run {
    let (Some(from), Some(to)) = (&arguments.input, &arguments.output) else {
        return Err(Trouble("--all needs two folders".to_string()));
    };
    let streams = streams(from)?;
    fs::create_dir_all(to).map_err(|error| Trouble(format!("{}: {error}", to.display())))?;
    let start = Instant::now();
    let outcomes = all(&streams, to, arguments);
    let summary = summary(&streams, &outcomes, start.elapsed());
    eprint!("{summary}");
    let troubles = outcomes
        .iter()
        .filter(|one| matches!(one, Outcome::Trouble(_)))
        .count();
    if troubles > 0 {
        return Err(Trouble(format!(
            "{troubles} files could not be read or written"
        )));
    }
    let refused = outcomes
        .iter()
        .any(|one| matches!(one, Outcome::Refused(_)));
    Ok(if refused { End::Refused } else { End::Fine })
}

/// The streams of a folder, in the order of their names.
fn streams(folder: &Path) -> Result<Vec<PathBuf>, Trouble> {
    let trouble = |error: io::Error| Trouble(format!("{}: {error}", folder.display()));
    let mut streams = Vec::new();
    for entry in fs::read_dir(folder).map_err(trouble)? {
        let path = entry.map_err(trouble)?.path();
        if path.extension().is_some_and(|end| end == STREAM) && path.is_file() {
            streams.push(path);
        }
    }
    if streams.is_empty() {
        let folder = folder.display();
        return Err(Trouble(format!("{folder}: no file *.{STREAM} in it")));
    }
    streams.sort();
    Ok(streams)
}

/// Every stream, each by the thread that is free next; the calls share nothing.
fn all(streams: &[PathBuf], to: &Path, arguments: &Arguments) -> Vec<Outcome> {
    let cores = || std::thread::available_parallelism().map_or(1, |cores| cores.get());
    let threads = arguments.jobs.unwrap_or_else(cores).min(streams.len());
    let next = AtomicUsize::new(0);
    let outcomes: Mutex<BTreeMap<usize, Outcome>> = Mutex::new(BTreeMap::new());
    let progress = Progress::new(streams.len());
    std::thread::scope(|scope| {
        for _ in 0..threads {
            scope.spawn(|| {
                let mut assembler = Assembler::new();
                loop {
                    let at = next.fetch_add(1, Ordering::Relaxed);
                    let Some(stream) = streams.get(at) else {
                        return;
                    };
                    let outcome = one(stream, to, &mut assembler, arguments);
                    let mut outcomes = outcomes.lock().expect("no thread panics");
                    outcomes.insert(at, outcome);
                    progress.show(&outcomes);
                }
            });
        }
    });
    progress.clear();
    outcomes
        .into_inner()
        .expect("no thread panics")
        .into_values()
        .collect()
}

/// One stream to its module.
fn one(stream: &Path, to: &Path, assembler: &mut Assembler, arguments: &Arguments) -> Outcome {
    let trouble = |path: &Path, error| Outcome::Trouble(format!("{}: {error}", path.display()));
    let bytes = match fs::read(stream) {
        Ok(bytes) => bytes,
        Err(error) => return trouble(stream, error),
    };
    match assemble::module(assembler, arguments, &bytes) {
        Ok(module) => {
            let name = Path::new(stream.file_name().expect("it has a name"));
            let path = to.join(name.with_extension(MODULE));
            match fs::write(&path, module) {
                Ok(()) => Outcome::Assembled(module.len()),
                Err(error) => trouble(&path, error),
            }
        }
        Err(refusal) => Outcome::Refused(refusal),
    }
}

/// A line on standard error, where that is a terminal.
struct Progress {
    all: usize,
    shown: Option<Mutex<Instant>>,
}

impl Progress {
    fn new(all: usize) -> Self {
        let shown = io::stderr().is_terminal();
        Progress {
            all,
            shown: shown.then(|| Mutex::new(Instant::now())),
        }
    }

    fn show(&self, outcomes: &BTreeMap<usize, Outcome>) {
        let Some(shown) = &self.shown else {
            return;
        };
        let mut last = shown.lock().expect("no thread panics");
        if last.elapsed() < PROGRESS {
            return;
        }
        *last = Instant::now();
        let refused = outcomes
            .values()
            .filter(|one| matches!(one, Outcome::Refused(_)))
            .count();
        eprint!("\r{} of {}, {refused} refused ", outcomes.len(), self.all);
        // Where the line cannot be written the summary says it.
        let _ = io::stderr().flush();
    }

    /// Nothing is left of the line.
    fn clear(&self) {
        if self.shown.is_some() {
            eprint!("\r{:60}\r", "");
        }
    }
}

/// What became of all, each refusal with the first streams that have it.
fn summary(streams: &[PathBuf], outcomes: &[Outcome], time: Duration) -> String {
    let mut refused: BTreeMap<u32, Vec<String>> = BTreeMap::new();
    let (mut modules, mut bytes) = (0, 0);
    let mut lines = String::new();
    for (stream, outcome) in streams.iter().zip(outcomes) {
        match outcome {
            Outcome::Assembled(length) => {
                modules += 1;
                bytes += length;
            }
            Outcome::Refused(refusal) => {
                let name = stream.file_name().expect("it has a name").to_string_lossy();
                let mut place = format!("{name} at {}", refusal.record);
                if refusal.number == Refusal::TAKEN {
                    place += &format!(" (first at {})", refusal.first);
                }
                refused.entry(refusal.number).or_default().push(place);
            }
            Outcome::Trouble(what) => lines += &format!("barrizuppa: {what}\n"),
        }
    }
    let count: usize = refused.values().map(Vec::len).sum();
    lines += &format!(
        "{} streams: {modules} assembled, {bytes} bytes; {count} refused; {:.2} s\n",
        streams.len(),
        time.as_secs_f64()
    );
    for (number, places) in refused {
        let title = words(number).map_or_else(
            || Refusal::new(number, 0).meaning().to_string(),
            |words| words.title,
        );
        let more = match places.len().saturating_sub(NAMED) {
            0 => String::new(),
            more => format!(" and {more} more"),
        };
        let named = places[..places.len().min(NAMED)].join(", ");
        lines += &format!(
            "  {:5} refused {number}, {title}: {named}{more}\n",
            places.len()
        );
    }
    lines
}
