//! The batch form, in which programs read many streams: batch.py in Rust. The
//! programs that read or write it have this file as a module.
#![allow(dead_code)]

/// Bytes of a stream, so that a broken batch is noticed.
const LONGEST: usize = 1 << 24;

/// The streams of a batch; None where it is broken.
pub fn unpack(mut batch: &[u8]) -> Option<Vec<&[u8]>> {
    let mut streams = Vec::new();
    while !batch.is_empty() {
        let more = batch.iter().take(4).take_while(|&&byte| byte >= 0x80);
        let groups = more.count() + 1;
        let (last, others) = batch.get(..groups)?.split_last()?;
        let others = others.iter().rev();
        let length = others.fold(usize::from(*last), |length, byte| {
            length << 7 | usize::from(byte & 0x7F)
        });
        if length > LONGEST || groups > 1 && *last == 0 {
            return None;
        }
        streams.push(batch.get(groups..groups + length)?);
        batch = &batch[groups + length..];
    }
    Some(streams)
}

/// A stream as part of a batch.
pub fn pack(stream: &[u8]) -> Vec<u8> {
    let mut packed = Vec::new();
    let mut length = stream.len();
    while length >= 0x80 {
        packed.push(length as u8 | 0x80);
        length >>= 7;
    }
    packed.push(length as u8);
    packed.extend(stream);
    packed
}
