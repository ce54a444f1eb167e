#!/usr/bin/env python3
"""Reads a stream of 16 MB, and one of twice as many bytes, in pieces of 1, 1,460 and 65,536 bytes, and shows the speeds and the ratios.

Usage: bench/frames.py [PROGRAM]; PROGRAM is the built one, crates/timings/out/timings by default (`rt run` in its folder builds
it). The frames hold 255 records of Codec 8 with 112 elements of one byte, so that nearly each byte is a field of its
own. Wanted: the slowest cutting takes little more time than the fastest, and twice the stream takes about twice the time.
"""
from measure import best, program, times

PROGRAM = program("timings")
FRAMES = 259
PIECES = (1, 1460, 65536)


def spent(frames, piece):
    """User seconds for the stream, and the stream's bytes."""
    took = best([PROGRAM, "frames", str(frames), str(piece)])
    size, read = map(int, took.said.split())
    assert read == frames, took
    return took.user, size


once = []
for piece in PIECES:
    (seconds, size), (twice, double) = spent(FRAMES, piece), spent(2 * FRAMES, piece)
    once.append(seconds)
    print(f"{size} bytes in pieces of {piece}: {seconds:.2f} s, {size / seconds / 1e6:.0f} MB/s; "
          f"{times(double, size)} the bytes take {times(twice, seconds)} the time")
print(f"the slowest cutting takes {times(max(once), min(once))} the time of the fastest")
