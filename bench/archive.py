#!/usr/bin/env python3
"""Admits 1,000,000 and 2,000,000 records of 1,000 devices in packets of 40, over a medium in memory, and opens the first archive
again; then the same over a file in the current folder, whose bytes aren't in memory. Shows times, memory and the ratio: the least of
some runs, in which all take turns.

Usage: bench/archive.py [PROGRAM]; PROGRAM is the built one, crates/timings/out/timings by default (`rt run` in its folder
builds it). Wanted for a million records: under 10 s and 1 GB, opening under 5 s, and at most 2.3 times the time for
twice the records; over a file at most 110 bytes of memory a record over its own 30, and opening takes at most a tenth more than that.
"""
from measure import in_turn, program, times

PROGRAM = program("timings")
DEVICES, PACKET, RUNS = 1000, 40, 7


def command(records, opens, where="archive"):
    """A run for this number of records and openings."""
    return [PROGRAM, where, str(records // PACKET), str(DEVICES), str(opens)], None


def spent(*commands, runs=RUNS):
    """What such runs take."""
    took = in_turn(commands, runs=runs)
    for one, (words, _) in zip(took, commands):
        assert one.said == f"{words[2]} {int(words[2]) * PACKET}\n", one
    return took


small, large, opened = spent(command(1_000_000, 0), command(2_000_000, 0), command(1_000_000, 1))
print(f"1,000,000 records: {small.busy:.1f} s, {small.memory:.0f} MB")
print(f"opening them: {opened.busy - small.busy:.1f} s, {opened.memory:.0f} MB")
print(f"twice the records take {times(large.busy, small.busy)} the time")
kept, again = spent(command(1_000_000, 0, "filed"), command(1_000_000, 1, "filed"), runs=1)
print(f"over a file: {kept.elapsed:.1f} s, {kept.memory:.0f} MB, {kept.memory * 1024 * 1024 / 1_000_000 - 30:.0f} bytes a record over its own; "
      f"opening them: {again.memory:.0f} MB, {times(again.memory, kept.memory)}")
