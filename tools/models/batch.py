"""The batch form, in which programs read many streams: each stream after its
length in seven-bit groups, low first and no longer than needed, at most LONGEST.
batch.rs is the same in Rust; the proved programs `reading` and `assemble_list`
read it, too.
"""
from reading_model import groups

LONGEST = 16777216      # bytes, so that a broken batch is noticed


class Broken(SystemExit):
    """A batch that does not follow the form; where nobody catches it, the run ends with its message."""


def pack(streams):
    """Streams as a batch."""
    return b''.join(groups(len(stream)) + stream for stream in streams)


def unpack(data):
    """The streams of a batch, one at a time."""
    at = 0
    while at < len(data):
        length, shift, start = 0, 0, at
        while True:
            if at == len(data):
                raise Broken('the batch ends inside the length at byte %d' % start)
            length += (data[at] & 0x7F) << shift
            shift += 7
            at += 1
            if length > LONGEST or shift > 35:
                raise Broken('the length at byte %d is too large' % start)
            if data[at - 1] == 0 and at > start + 1:
                raise Broken('the length at byte %d is longer than needed' % start)
            if data[at - 1] < 0x80:
                break
        if length > len(data) - at:
            raise Broken('the batch ends inside the stream at byte %d' % at)
        yield data[at:at + length]
        at += length
