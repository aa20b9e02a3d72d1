//! How long the crate takes, in one process with the assembler's call where
//! the feature `library` links it. Only accepted streams are timed.
use crate::answer::{Answer, answer};
use crate::{stream, tree};
use std::hint::black_box;
use std::time::{Duration, Instant};

/// A part of the work, and for each stream the best of all rounds.
struct Part {
    what: &'static str,
    best: Vec<Duration>,
}

impl Part {
    fn new(what: &'static str, streams: usize) -> Self {
        Part { what, best: vec![Duration::MAX; streams] }
    }

    /// One round: the work on each of the streams, or of what was made of them.
    fn round<T>(&mut self, over: impl IntoIterator<Item = T>, mut work: impl FnMut(T)) {
        for (best, one) in self.best.iter_mut().zip(over) {
            let start = Instant::now();
            work(one);
            *best = start.elapsed().min(*best);
        }
    }

    /// Nanoseconds per byte of so many bytes.
    fn per(&self, size: usize) -> f64 {
        self.best.iter().sum::<Duration>().as_nanos() as f64 / size as f64
    }
}

/// Times each part over all accepted streams, in turn.
pub fn time(streams: &[&[u8]], rounds: usize) {
    let accepted = |bytes: &&&[u8]| matches!(answer(bytes, 65_536, false), Answer::Module(_));
    let streams: Vec<&[u8]> = streams.iter().filter(accepted).copied().collect();
    let size: usize = streams.iter().map(|bytes| bytes.len()).sum();
    println!("{} accepted streams, {size} bytes, best of {rounds} rounds for each", streams.len());
    let part = |what| Part::new(what, streams.len());
    let mut reading = part("reading the records (front)");
    let mut building = part("building the crate's tree (front)");
    let mut passes = part("the crate's passes and writer");
    let mut with_tree = part("tree, passes and writer");
    let mut whole = part("reading, tree, passes and writer");
    #[cfg(feature = "library")]
    let mut call = part("the assembler's call");
    #[cfg(feature = "library")]
    let (mut work, mut out) = (vec![0; barrizuppa::WORK_WORDS], vec![0; 65_536]);
    let records: Vec<_> = streams.iter().map(|bytes| stream::read(bytes).unwrap()).collect();
    for _ in 0..rounds {
        reading.round(&streams, |bytes| drop(black_box(stream::read(bytes))));
        let mut trees = Vec::with_capacity(records.len());
        building.round(&records, |records| trees.push(tree::module(records)));
        passes.round(&mut trees, |tree| drop(black_box(tree.encode())));
        with_tree.round(&records, |records| drop(black_box(tree::module(records).encode())));
        whole.round(&streams, |bytes| drop(black_box(tree::module(&stream::read(bytes).unwrap()).encode())));
        #[cfg(feature = "library")]
        call.round(&streams, |bytes| {
            barrizuppa::assemble_into(bytes, &mut work, &mut out).expect("what the crate accepts");
        });
    }
    for part in [&reading, &building] {
        println!("{}: {:.2} ns/byte", part.what, part.per(size));
    }
    for part in [&passes, &with_tree, &whole] {
        print!("{}: {:.2} ns/byte", part.what, part.per(size));
        #[cfg(feature = "library")]
        print!(", to which the assembler's call is {:.2}", call.per(size) / part.per(size));
        println!();
    }
    #[cfg(feature = "library")]
    println!("{}: {:.2} ns/byte", call.what, call.per(size));
}
