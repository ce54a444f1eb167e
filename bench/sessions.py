#!/usr/bin/env python3
"""Serves sessions over a link in memory, with an archive over a medium in memory: 250,000 and 500,000 new records, and then as
many records of which the archive has all but the first 40; shows the speeds and the ratios.

Usage: bench/sessions.py [PROGRAM]; PROGRAM is the built one, crates/timings/out/timings by default (`rt run` in its folder builds
it). Wanted: at least 200,000 records a second, and about twice the time for twice the bytes and records.
"""
from measure import best, program, times

PROGRAM = program("timings")
RECORDS, PACKET, PIECE = 250_000, 40, 1460


def spent(records, new):
    """Seconds for this number of records, and the stream's bytes."""
    took = best([PROGRAM, "sessions", str(records // PACKET), str(PIECE), str(new)])
    size, counted = map(int, took.said.split())
    assert counted == records, took
    return took.busy, size, took.memory


for what, new in (("new", 1), ("known", 0)):
    (seconds, size, memory), (twice, double, _) = spent(RECORDS, new), spent(2 * RECORDS, new)
    print(f"{RECORDS} {what} records, {size} bytes: {seconds:.2f} s, {RECORDS / seconds / 1e3:.0f} thousand records/s, {memory:.0f} MB; "
          f"{times(double, size)} the bytes take {times(twice, seconds)} the time")
