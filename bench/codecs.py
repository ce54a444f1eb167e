#!/usr/bin/env python3
"""Judges data bodies of about 32,600 and 64,800 bytes over and over, and shows the speed and the ratio of the times.

Usage: bench/codecs.py [PROGRAM]; PROGRAM is the built one, crates/timings/out/timings by default (`rt run` in its folder builds
it). The records have as many elements of one byte as fit. A whole body is gone over part by part, all elements of a
group at once, so that its time is that of its records. Wanted: 20 MB/s or more on one core, and at most twice the time for twice the
bytes. Then the larger body is judged field by field, as one that isn't whole is: 20 MB/s or more too.
"""
from measure import best, program, times

PROGRAM = program("timings")
ROUNDS = 2000


def spent(elements, what="codecs"):
    """User seconds for the rounds, and the body's bytes."""
    took = best([PROGRAM, what, str(elements), str(ROUNDS)])
    size, whole = map(int, took.said.split())
    assert whole == ROUNDS, took
    print(f"{size} bytes, {what}: {size * ROUNDS / took.user / 1e6:.0f} MB/s")
    return took.user, size


(small, small_size), (large, large_size) = spent(49), spent(112)
print(f"{times(large_size, small_size)} the bytes take {times(large, small)} the time")
spent(112, "fields")
