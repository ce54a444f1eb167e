#!/usr/bin/env python3
"""Writes the lines of a packet of 200 records over and over, and shows the time and the ratio of the times.

Usage: bench/lines.py [PROGRAM]; PROGRAM is the built one, crates/timings/out/timings by default (`rt run` in its folder builds
it). 1,390 packets of 200 records without elements are the bytes of a capture of 2^24 bytes, nearly.
Wanted: less than half a second for these, and about twice the time for twice the packets.
"""
from measure import best, program, times

PROGRAM = program("timings")


def spent(elements, rounds):
    """User seconds for the rounds, and the bytes of one packet's body and lines."""
    took = best([PROGRAM, "lines", str(elements), str(rounds)])
    body, lines = map(int, took.said.split())
    return took.user, body, lines


for elements in (0, 7, 60):
    seconds, body, lines = spent(elements, 1390)
    print(f"{elements} elements a record: {body * 1390 / 1e6:.1f} MB of bodies, {lines * 1390 / 1e6:.1f} MB of lines, {seconds:.2f} s")
once, _, _ = spent(7, 1390)
twice, _, _ = spent(7, 2780)
print(f"twice the packets take {times(twice, once)} the time")
