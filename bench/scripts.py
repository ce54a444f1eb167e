#!/usr/bin/env python3
"""Reads scripts of 2^24 bytes and makes one of a seed, and shows the time and the memory, and the ratio of the times for twice as much.

Usage: bench/scripts.py [PROGRAM]; PROGRAM is the built one, crates/timings/out/timings by default (`rt run` in its folder builds
it). Wanted: less than half a second and 200 MB for each kind, and about twice the time for twice the text.
"""
from measure import best, program

PROGRAM = program("timings")
MOST = 1 << 24
KINDS = ("fixes with 32 values", "fixes without a value", "late lines to 64 connections", "close lines")


def spent(kind, size, rounds):
    """What the rounds took over a script of this size in bytes, and its lines."""
    took = best([PROGRAM, "scripts", str(kind), str(size), str(rounds)])
    return took, int(took.said.split()[0])


def reading(kind, size):
    """User seconds for one reading: nine of them less one, since the script is made in both runs."""
    return (spent(kind, size, 9)[0].user - spent(kind, size, 1)[0].user) / 8


for kind, name in enumerate(KINDS):
    took, lines = spent(kind, MOST, 1)
    once, twice = reading(kind, MOST // 2), reading(kind, MOST)
    print(f"{name}: {lines} lines, {twice:.2f} s, {took.memory:.0f} MB, {twice / once:.2f} times the time of half the text")

# A made script of 64 devices, and its text.
once, twice = (best([PROGRAM, "made", "7", "64", str(fixes)]) for fixes in (50000, 100000))
print(f"made: {twice.said.split()[0]} lines, {twice.user:.2f} s, {twice.memory:.0f} MB, {twice.user / once.user:.2f} times the time of half the turns")
