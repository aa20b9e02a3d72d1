//! Who is measured: each of the two jobs done by plain Rust, and by the proved
//! libraries where the feature `proved` links them.
#[cfg(feature = "proved")]
use crate::proved;
use crate::reader::Refusal;
use crate::{morning, plain, reading};
use std::marker::PhantomData;

/// Bytes of output that an assembler is lent.
const ROOM: usize = 65_536;

/// Words of work area that the proved code is lent: the least.
#[cfg(feature = "proved")]
const WORK: usize = barrizuppa::WORK_WORDS;

pub trait Rival {
    /// The count of records read, or the length of the module; or a refusal.
    fn call(&mut self, stream: &[u8]) -> Result<u32, Refusal>;

    /// What the last call wrote, if it was not refused.
    fn output(&self) -> &[u8];
}

struct PlainReading;

impl Rival for PlainReading {
    fn call(&mut self, stream: &[u8]) -> Result<u32, Refusal> {
        reading::read(stream)
    }

    fn output(&self) -> &[u8] {
        &[]
    }
}

#[derive(Default)]
struct PlainAssembler {
    module: Vec<u8>,
}

impl Rival for PlainAssembler {
    fn call(&mut self, stream: &[u8]) -> Result<u32, Refusal> {
        self.module = plain::assemble(stream, ROOM)?;
        Ok(self.module.len() as u32)
    }

    fn output(&self) -> &[u8] {
        &self.module
    }
}

/// One of the two that are written for the morning run.
struct Morning<T> {
    module: Vec<u8>,
    types: PhantomData<T>,
}

impl<T: morning::Types> Morning<T> {
    fn new() -> Box<Self> {
        Box::new(Morning { module: Vec::new(), types: PhantomData })
    }
}

impl<T: morning::Types> Rival for Morning<T> {
    fn call(&mut self, stream: &[u8]) -> Result<u32, Refusal> {
        self.module = morning::assemble::<T>(stream)?;
        Ok(self.module.len() as u32)
    }

    fn output(&self) -> &[u8] {
        &self.module
    }
}

#[cfg(feature = "proved")]
struct ProvedReading {
    work: Vec<u32>,
}

#[cfg(feature = "proved")]
impl Rival for ProvedReading {
    fn call(&mut self, stream: &[u8]) -> Result<u32, Refusal> {
        proved::read(stream, &mut self.work)
    }

    fn output(&self) -> &[u8] {
        &[]
    }
}

#[cfg(feature = "proved")]
struct ProvedAssembler {
    work: Vec<u32>,
    out: Vec<u8>,
    written: usize,
}

#[cfg(feature = "proved")]
impl Rival for ProvedAssembler {
    fn call(&mut self, stream: &[u8]) -> Result<u32, Refusal> {
        let said = barrizuppa::assemble_into(stream, &mut self.work, &mut self.out);
        self.written = said.map_err(|refusal| (refusal.number, refusal.record))?;
        Ok(self.written as u32)
    }

    fn output(&self) -> &[u8] {
        &self.out[..self.written]
    }
}

/// The rivals at a job, by name, the plain one first; none at an unknown job.
pub fn rivals(job: &str) -> Vec<(&'static str, Box<dyn Rival>)> {
    let mut list: Vec<(&'static str, Box<dyn Rival>)> = Vec::new();
    match job {
        "reading" => {
            list.push(("plain", Box::new(PlainReading)));
            #[cfg(feature = "proved")]
            list.push(("proved", Box::new(ProvedReading { work: vec![0; WORK] })));
        }
        "assembling" | "folding" => {
            list.push(("plain", Box::new(PlainAssembler::default())));
            #[cfg(feature = "proved")]
            list.push((
                "proved",
                Box::new(ProvedAssembler { work: vec![0; WORK], out: vec![0; ROOM], written: 0 }),
            ));
        }
        "morning" => {
            list.push(("list", Morning::<morning::List>::new() as Box<dyn Rival>));
            list.push(("map", Morning::<morning::Map>::new()));
            list.push(("plain", Box::new(PlainAssembler::default())));
            #[cfg(feature = "proved")]
            list.push((
                "proved",
                Box::new(ProvedAssembler { work: vec![0; WORK], out: vec![0; ROOM], written: 0 }),
            ));
        }
        _ => {}
    }
    list
}
