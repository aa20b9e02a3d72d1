//! What a call is lent, and what it leaves of it.

/// The assembler's C boundary. Nothing checks this declaration against the
/// Rattle source. The answer is number, record, written length, and the record
/// of the first holder of a name that is taken, which is else the record again.
pub type Assemble = unsafe extern "C" fn(
    stream: *const u8,
    stream_len: usize,
    work: *mut u32,
    work_len: usize,
    out: *mut u8,
    out_len: usize,
    answer: *mut [u32; 4],
) -> u32;

/// Words or bytes before and after a lent part, to see writes outside it.
const GUARD: usize = 64;

#[derive(Debug, PartialEq)]
pub enum Said {
    Module { records: u32, bytes: Vec<u8> },
    Refused { number: u32, record: u32, first: u32 },
}

/// The refusal by which a name is taken.
pub const TAKEN: u32 = 13;

/// The pattern of the lent words; never 0, so that an unwritten word is noticed.
fn word(at: usize, salt: u32) -> u32 {
    (at as u32).wrapping_mul(0x9E37_79B9) ^ salt | 1
}

/// The pattern of the lent bytes.
fn byte(at: usize, salt: u32) -> u8 {
    (word(at, salt) >> 16) as u8
}

/// One call with `work` words and `room` bytes of output, all filled with a
/// pattern of this salt. Gives what it says and what is wrong with it.
pub fn call(assemble: Assemble, stream: &[u8], work: usize, room: usize, salt: u32) -> (Said, Vec<&'static str>) {
    let mut words: Vec<u32> = (0..work + 2 * GUARD).map(|at| word(at, salt)).collect();
    let mut bytes: Vec<u8> = (0..room + 2 * GUARD).map(|at| byte(at, salt)).collect();
    // Neither 0 nor a record number, so that an unwritten answer is noticed.
    let mut answer = [u32::MAX; 4];
    // SAFETY: each pointer comes with the length of a part that outlives the
    // call, and the parts do not overlap.
    let returned = unsafe {
        assemble(
            stream.as_ptr(),
            stream.len(),
            words[GUARD..].as_mut_ptr(),
            work,
            bytes[GUARD..].as_mut_ptr(),
            room,
            &mut answer,
        )
    };
    let [number, record, length, first] = answer;
    let written = length as usize;
    let mut wrong = Vec::new();
    if returned != number {
        wrong.push("it returns another number than its answer has");
    }
    if number != TAKEN && first != record {
        wrong.push("it tells a first holder where no name is taken");
    }
    if number == TAKEN && first > record {
        wrong.push("the first holder comes after the second");
    }
    if number == 0 && written > room {
        wrong.push("it says it wrote more than it was lent");
        return (Said::Module { records: record, bytes: Vec::new() }, wrong);
    }
    if number != 0 && written != 0 {
        wrong.push("a refusal has a length");
    }
    let kept = if number == 0 { written } else { 0 };
    let module = GUARD..GUARD + kept;
    if bytes.iter().enumerate().any(|(at, now)| !module.contains(&at) && *now != byte(at, salt)) {
        wrong.push(if number == 0 { "bytes beyond the module changed" } else { "a refusal changed the output" });
    }
    let lent = GUARD..GUARD + work;
    if words[lent.clone()].iter().any(|now| *now != 0) {
        wrong.push("the work area is not all zeros");
    }
    if words.iter().enumerate().any(|(at, now)| !lent.contains(&at) && *now != word(at, salt)) {
        wrong.push("words beyond the work area changed");
    }
    let said = match number {
        0 => Said::Module { records: record, bytes: bytes[module].to_vec() },
        _ => Said::Refused { number, record, first },
    };
    (said, wrong)
}

/// One call in which nothing that is lent was ever written, and each part ends
/// where its own piece of the heap does: for a memory checker, which then sees
/// a step that hangs on what was lent, or a byte read or written outside it.
fn bare_call(assemble: Assemble, stream: &[u8], work: usize, room: usize) -> (Said, Vec<&'static str>) {
    let stream: Box<[u8]> = stream.into();
    let mut words = Box::<[u32]>::new_uninit_slice(work);
    let mut bytes = Box::<[u8]>::new_uninit_slice(room);
    let mut answer = Box::<[u32; 4]>::new_uninit();
    // SAFETY: as in `call`. The contract says that the call writes the whole work
    // area, all of the answer, and as many bytes as it answers.
    let ([number, record, length, first], words, module) = unsafe {
        assemble(
            stream.as_ptr(),
            stream.len(),
            words.as_mut_ptr().cast(),
            work,
            bytes.as_mut_ptr().cast(),
            room,
            answer.as_mut_ptr(),
        );
        let answer = *answer.assume_init();
        let written = if answer[2] as usize <= room { answer[2] as usize } else { 0 };
        let module = std::slice::from_raw_parts(bytes.as_ptr().cast::<u8>(), written);
        (answer, words.assume_init(), module.to_vec())
    };
    let wrong = if words.iter().all(|word| *word == 0) { vec![] } else { vec!["the work area is not all zeros"] };
    match number {
        0 if length as usize == module.len() => (Said::Module { records: record, bytes: module }, wrong),
        0 => (Said::Module { records: record, bytes: module }, vec!["it says it wrote more than it was lent"]),
        _ => (Said::Refused { number, record, first }, wrong),
    }
}

/// A bare call, and for a module one more, with just enough room.
pub fn examine_bare(assemble: Assemble, stream: &[u8], work: usize, room: usize) -> (Said, Vec<&'static str>) {
    let (said, mut wrong) = bare_call(assemble, stream, work, room);
    if let Said::Module { bytes, .. } = &said {
        let (same, more) = bare_call(assemble, stream, work, bytes.len());
        wrong.extend(more);
        if same != said {
            wrong.push("with just enough room it says something else");
        }
    }
    (said, wrong)
}

/// The call, and for a module two more: with just enough room, and with one
/// byte less, which must be refused 18 at the count of records.
pub fn examine(assemble: Assemble, stream: &[u8], work: usize, room: usize) -> (Said, Vec<&'static str>) {
    let (said, mut wrong) = call(assemble, stream, work, room, 0x5EED);
    if let Said::Module { records, bytes } = &said {
        let (same, more) = call(assemble, stream, work, bytes.len(), 0);
        wrong.extend(more);
        if same != said {
            wrong.push("with just enough room it says something else");
        }
        if let Some(short) = bytes.len().checked_sub(1) {
            let (less, more) = call(assemble, stream, work, short, u32::MAX);
            wrong.extend(more);
            if less != (Said::Refused { number: 18, record: *records, first: *records }) {
                wrong.push("with a byte less it is not refused 18 at the count of records");
            }
        }
    }
    (said, wrong)
}

#[cfg(test)]
mod tests {
    use super::*;

    const MODULE: [u8; 8] = *b"\0asm\x01\0\0\0";

    /// A small assembler: three records whatever the stream, with one slip.
    unsafe fn assemble(slip: &str, work: *mut u32, work_len: usize, out: *mut u8, out_len: usize, answer: *mut [u32; 4]) -> u32 {
        for at in 0..work_len {
            *work.add(at) = if slip == "work" && at + 1 == work_len { 7 } else { 0 };
        }
        if slip == "beyond work" {
            *work.add(work_len) = 0;
        }
        let fits = MODULE.len() <= out_len;
        if fits && !slip.starts_with("taken") {
            out.copy_from(MODULE.as_ptr(), MODULE.len());
        }
        if slip == "beyond" {
            *out.add(out_len.min(MODULE.len())) ^= 1;
        }
        *answer = match (fits, slip) {
            (true, "long") => [0, 3, out_len as u32 + 1, 3],
            (true, "first") => [0, 3, 8, 4],
            (_, "taken") => [TAKEN, 3, 0, 1],
            (_, "taken late") => [TAKEN, 3, 0, 4],
            (true, _) => [0, 3, 8, 3],
            (false, "room") => [18, 2, 0, 2],
            (false, "length") => [18, 3, 8, 3],
            (false, _) => [18, 3, 0, 3],
        };
        if slip == "number" { 5 } else { (*answer)[0] }
    }

    macro_rules! slips {
        ($($name:ident $examine:ident $slip:literal $room:literal $seen:expr;)*) => {$(
            #[test]
            fn $name() {
                unsafe extern "C" fn with_slip(
                    _: *const u8, _: usize, work: *mut u32, work_len: usize, out: *mut u8, out_len: usize, answer: *mut [u32; 4],
                ) -> u32 {
                    assemble($slip, work, work_len, out, out_len, answer)
                }
                let seen: Option<&str> = $seen;
                let (_, wrong) = $examine(with_slip, b"", 100, $room);
                assert_eq!(wrong.first().copied(), seen);
            }
        )*};
    }

    slips! {
        no_slip examine "" 20 None;
        no_slip_no_room examine "" 5 None;
        work_left examine "work" 20 Some("the work area is not all zeros");
        work_outside examine "beyond work" 20 Some("words beyond the work area changed");
        output_beyond examine "beyond" 20 Some("bytes beyond the module changed");
        output_of_a_refusal examine "beyond" 5 Some("a refusal changed the output");
        too_long examine "long" 20 Some("it says it wrote more than it was lent");
        first_of_a_module examine "first" 20 Some("it tells a first holder where no name is taken");
        first_before examine "taken" 20 None;
        first_after examine "taken late" 20 Some("the first holder comes after the second");
        two_numbers examine "number" 20 Some("it returns another number than its answer has");
        length_of_a_refusal examine "length" 5 Some("a refusal has a length");
        record_of_18 examine "room" 20 Some("with a byte less it is not refused 18 at the count of records");
        bare_no_slip examine_bare "" 20 None;
        bare_no_room examine_bare "" 5 None;
        bare_work_left examine_bare "work" 20 Some("the work area is not all zeros");
        bare_too_long examine_bare "long" 20 Some("it says it wrote more than it was lent");
    }
}
