#!/usr/bin/env python3
"""Keeps 2,048 and 4,096 records in a flash of 4,096 slots in memory, and sends them over links in memory in rounds of one batch each,
over and over; shows the time of the rounds alone, by record, and the ratio.

Usage: bench/rounds.py [PROGRAM]; PROGRAM is the built one, crates/timings/out/timings by default (`rt run` in its folder builds it).
Each round has the login, one frame of up to 42 records, its count, and their release. Wanted: twice the time for twice the records.
"""
from measure import best, program, times

PROGRAM = program("timings")
TIMES = 100


def spent(records, sends):
    """Seconds for this number of records, kept and sent, or kept alone."""
    took = best([PROGRAM, "talks", str(records), str(TIMES), str(sends)])
    assert took.said == f"{records} {-(-records // 42) * sends}\n", took
    return took.busy


def rounds(records):
    """Seconds for the rounds that send this number of records."""
    return spent(records, 1) - spent(records, 0)


once, twice = rounds(2048), rounds(4096)
print(f"the rounds of 2,048 records: {once / TIMES * 1000:.2f} ms; of 4,096: {twice / TIMES * 1000:.2f} ms, {twice / 4096 / TIMES * 1e6:.2f} us a record")
print(f"twice the records take {times(twice, once)} the time")
