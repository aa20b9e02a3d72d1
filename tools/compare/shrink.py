"""Makes a stream smaller as long as something is still wrong with it."""
import time

from reading_model import record_starts

PIECE = 1 << 16         # bytes of candidates for one question
PATIENCE = 30           # seconds for one stream


def without_records(stream, count):
    """Copies that lack `count` neighbouring records."""
    starts = record_starts(stream)
    for first in range(len(starts) - count):
        yield stream[:starts[first]] + stream[starts[first + count]:]


def without_bytes(stream, size):
    """Copies that lack `size` bytes; a 0 may stay in their place, so that a
    name goes with its length."""
    for at in range(0, len(stream), 1 if size <= 16 else size):
        yield stream[:at] + stream[at + size:]
        if size > 1:
            yield stream[:at] + b'\0' + stream[at + size:]


def simpler_bytes(stream, _size):
    """Copies with one byte made 0 or 1."""
    for at, byte in enumerate(stream):
        for value in range(min(byte, 2)):
            yield stream[:at] + bytes([value]) + stream[at + 1:]


def in_pieces(streams):
    """Sets of about PIECE bytes."""
    piece, size = [], 0
    for stream in streams:
        piece.append(stream)
        size += len(stream) + 4
        if size >= PIECE:
            yield piece
            piece, size = [], 0
    if piece:
        yield piece


def smaller(stream, wrong):
    """`wrong(streams)` gives those of the streams that are still wrong."""
    end = time.monotonic() + PATIENCE
    sizes = [1 << power for power in range(16, 4, -1)] + list(range(16, 0, -1))
    steps = [(without_records, size) for size in (1024, 256, 64, 16, 4, 2, 1)]
    steps += [(without_bytes, size) for size in sizes] + [(simpler_bytes, 1)]
    again = True
    while again:
        again = False
        for ways, size in steps:
            found = True
            while found and time.monotonic() < end:
                found = None
                for piece in in_pieces(ways(stream, size)):
                    found = min(wrong(piece), key=lambda one: (len(one), one), default=None)
                    if found is not None:
                        stream, again = found, True
                        break
                    if time.monotonic() > end:
                        return stream
    return stream
