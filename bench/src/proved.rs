//! The proved reading pass alone, through its C boundary. Nothing checks this
//! declaration against the Rattle source.
use crate::reader::Refusal;

extern "C" {
    fn barrizuppa_read(
        stream: *const u8, stream_len: usize,
        work: *mut u32, work_len: usize,
        answer: *mut u32, answer_len: usize,
    ) -> u32;
}

/// The count of records.
pub fn read(stream: &[u8], work: &mut [u32]) -> Result<u32, Refusal> {
    // Neither 0 nor a record number, so that an unwritten answer is noticed.
    let mut answer = [u32::MAX; 2];
    // SAFETY: each pointer comes with the length of a slice that outlives the
    // call, and the three do not overlap.
    unsafe {
        barrizuppa_read(
            stream.as_ptr(), stream.len(),
            work.as_mut_ptr(), work.len(),
            answer.as_mut_ptr(), answer.len(),
        );
    }
    match answer {
        [0, records] => Ok(records),
        [number, record] => Err((number, record)),
    }
}
