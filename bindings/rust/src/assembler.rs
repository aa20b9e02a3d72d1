//! The proved assembler: its calls, and what they are lent.
use crate::stream::STREAM_BYTES;
use crate::Refusal;

/// The least work area, in words.
pub const WORK_WORDS: usize = 16_384;

/// The output that an [`Assembler`] begins with, in bytes.
const FIRST_ROOM: usize = STREAM_BYTES;

mod library {
    /// All calls have this shape. include/barrizuppa.h says what they promise;
    /// nothing checks these declarations against the proved source.
    pub type Call = unsafe extern "C" fn(
        stream: *const u8,
        stream_len: usize,
        work: *mut u32,
        work_len: usize,
        out: *mut u8,
        out_len: usize,
        answer: *mut [u32; 4],
    ) -> u32;

    macro_rules! calls {
        ($($name:ident)*) => {
            extern "C" {$(
                pub fn $name(
                    stream: *const u8,
                    stream_len: usize,
                    work: *mut u32,
                    work_len: usize,
                    out: *mut u8,
                    out_len: usize,
                    answer: *mut [u32; 4],
                ) -> u32;
            )*}
        };
    }

    calls! {
        barrizuppa_assemble
        barrizuppa_assemble_names
        barrizuppa_assemble_strict
        barrizuppa_assemble_strict_names
    }
}

/// The module of a stream.
pub fn assemble(stream: &[u8]) -> Result<Vec<u8>, Refusal> {
    let mut assembler = Assembler::new();
    let len = assembler.with_room(stream, assemble_into)?;
    Ok(assembler.into_module(len))
}

/// The module of a stream, and after it the name section, for a debugger: the
/// stream's identifiers of functions, parameters and locals.
pub fn assemble_names(stream: &[u8]) -> Result<Vec<u8>, Refusal> {
    let mut assembler = Assembler::new();
    let len = assembler.with_room(stream, assemble_names_into)?;
    Ok(assembler.into_module(len))
}

/// The same as [`assemble`], and every number must point to something that is
/// there, else the stream is refused 20: below the count of its index space, added
/// types included; a local below its function's parameters and locals; a label at
/// most the number of open blocks. An absent index that means 0 is checked as 0.
///
/// What is not refused 20 has the answer of [`assemble`].
pub fn assemble_strict(stream: &[u8]) -> Result<Vec<u8>, Refusal> {
    let mut assembler = Assembler::new();
    let len = assembler.with_room(stream, assemble_strict_into)?;
    Ok(assembler.into_module(len))
}

/// The same as [`assemble_strict`], with the name section of [`assemble_names`].
pub fn assemble_strict_names(stream: &[u8]) -> Result<Vec<u8>, Refusal> {
    let mut assembler = Assembler::new();
    let len = assembler.with_room(stream, assemble_strict_names_into)?;
    Ok(assembler.into_module(len))
}

/// What a call is lent, kept for the next one: for whoever assembles many
/// streams. Each thread has its own.
#[derive(Clone, Debug)]
pub struct Assembler {
    work: Vec<u32>,
    out: Vec<u8>,
}

impl Assembler {
    /// With room for most modules; it grows where one needs more.
    pub fn new() -> Self {
        Assembler {
            work: vec![0; WORK_WORDS],
            out: vec![0; FIRST_ROOM],
        }
    }

    /// The same as [`assemble`].
    pub fn assemble(&mut self, stream: &[u8]) -> Result<&[u8], Refusal> {
        let len = self.with_room(stream, assemble_into)?;
        Ok(&self.out[..len])
    }

    /// The same as [`assemble_names`].
    pub fn assemble_names(&mut self, stream: &[u8]) -> Result<&[u8], Refusal> {
        let len = self.with_room(stream, assemble_names_into)?;
        Ok(&self.out[..len])
    }

    /// The same as [`assemble_strict`].
    pub fn assemble_strict(&mut self, stream: &[u8]) -> Result<&[u8], Refusal> {
        let len = self.with_room(stream, assemble_strict_into)?;
        Ok(&self.out[..len])
    }

    /// The same as [`assemble_strict_names`].
    pub fn assemble_strict_names(&mut self, stream: &[u8]) -> Result<&[u8], Refusal> {
        let len = self.with_room(stream, assemble_strict_names_into)?;
        Ok(&self.out[..len])
    }

    /// Grows the output until the module has room; gives its length.
    fn with_room(&mut self, stream: &[u8], assemble: AssembleInto) -> Result<usize, Refusal> {
        loop {
            match assemble(stream, &mut self.work, &mut self.out) {
                // A module may be longer than its stream, by a few bytes for each record.
                Err(Refusal {
                    number: Refusal::NO_ROOM,
                    ..
                }) => self.out.resize(self.out.len() * 2, 0),
                answer => return answer,
            }
        }
    }

    fn into_module(mut self, len: usize) -> Vec<u8> {
        self.out.truncate(len);
        self.out
    }
}

impl Default for Assembler {
    fn default() -> Self {
        Assembler::new()
    }
}

/// Assembles a stream into `out` and gives the length of the module; allocates
/// nothing.
///
/// The bytes of `out` beyond the module, or all of them on a refusal, are as
/// they were. `work` may hold anything; afterwards it is all zeros. It must
/// have at least [`WORK_WORDS`] words, else the stream is refused 10.
pub fn assemble_into(stream: &[u8], work: &mut [u32], out: &mut [u8]) -> Result<usize, Refusal> {
    result(call(library::barrizuppa_assemble, stream, work, out))
}

/// The same with the name section after the module; the length is of both.
pub fn assemble_names_into(
    stream: &[u8],
    work: &mut [u32],
    out: &mut [u8],
) -> Result<usize, Refusal> {
    result(call(library::barrizuppa_assemble_names, stream, work, out))
}

/// [`assemble_into`], with every number checked as in [`assemble_strict`].
pub fn assemble_strict_into(
    stream: &[u8],
    work: &mut [u32],
    out: &mut [u8],
) -> Result<usize, Refusal> {
    result(call(library::barrizuppa_assemble_strict, stream, work, out))
}

/// [`assemble_names_into`], with every number checked as in [`assemble_strict`].
pub fn assemble_strict_names_into(
    stream: &[u8],
    work: &mut [u32],
    out: &mut [u8],
) -> Result<usize, Refusal> {
    result(call(
        library::barrizuppa_assemble_strict_names,
        stream,
        work,
        out,
    ))
}

/// [`assemble_into`] or one of those beside it.
type AssembleInto = fn(&[u8], &mut [u32], &mut [u8]) -> Result<usize, Refusal>;

/// A call's answer as a length, or as a refusal.
fn result((number, [_, record, len, first]): (u32, [u32; 4])) -> Result<usize, Refusal> {
    match number {
        0 => Ok(len as usize),
        Refusal::TAKEN => Err(Refusal::taken(record, first)),
        _ => Err(Refusal::new(number, record)),
    }
}

/// One of the library's calls: the number that it returns, and the answer's words.
fn call(
    assemble: library::Call,
    stream: &[u8],
    work: &mut [u32],
    out: &mut [u8],
) -> (u32, [u32; 4]) {
    // Neither 0 nor a record number, so that an unwritten word is noticed.
    let mut answer = [u32::MAX; 4];
    // SAFETY: each pointer comes with the length of a slice that outlives the
    // call, the answer has four words, and since three of the four are borrowed
    // mutably no two overlap.
    let number = unsafe {
        assemble(
            stream.as_ptr(),
            stream.len(),
            work.as_mut_ptr(),
            work.len(),
            out.as_mut_ptr(),
            out.len(),
            &mut answer,
        )
    };
    (number, answer)
}

#[cfg(test)]
mod tests {
    use super::{call, library::*, WORK_WORDS};
    use std::ptr::{null, null_mut};

    #[test]
    fn all_four_words_are_written() {
        let mut work = vec![0; WORK_WORDS];
        let mut out = [0; 64];
        let start_and_memory = b"\x08\x01\0\x05\0\0\0\0\x01";
        let memory = b"\x05\0\0\0\0\x01";
        let no_such_record = b"\x08\x01\0\x0B";
        let two_types = b"\x08\x01\0\x01\x01a\0\0\x01\x01a\0\0";
        let started = (0, [0, 2, 16, 2]);
        let nowhere = (20, [20, 0, 0, 0]);
        for (assemble, of_a_start) in [
            (barrizuppa_assemble as Call, started),
            (barrizuppa_assemble_names, started),
            (barrizuppa_assemble_strict, nowhere),
            (barrizuppa_assemble_strict_names, nowhere),
        ] {
            let mut answer =
                |stream: &[u8], room| call(assemble, stream, &mut work, &mut out[..room]);
            assert_eq!(answer(start_and_memory, 64), of_a_start);
            assert_eq!(answer(memory, 64), (0, [0, 1, 13, 1]));
            assert_eq!(answer(no_such_record, 64), (4, [4, 1, 0, 1]));
            assert_eq!(answer(two_types, 64), (13, [13, 2, 0, 1]));
            assert_eq!(answer(memory, 12), (18, [18, 1, 0, 1]));
        }
    }

    #[test]
    fn a_null_pointer_with_length_0_is_not_followed() {
        let mut work = vec![7; WORK_WORDS];
        for (words, len, number) in [(null_mut(), 0, 10), (work.as_mut_ptr(), work.len(), 18)] {
            let mut answer = [u32::MAX; 4];
            // SAFETY: the answer and the work area have their lengths; the other
            // pointers come with the length 0.
            let returned =
                unsafe { barrizuppa_assemble(null(), 0, words, len, null_mut(), 0, &mut answer) };
            assert_eq!((returned, answer), (number, [number, 0, 0, 0]));
        }
        assert!(work.iter().all(|word| *word == 0));
    }
}
