#!/usr/bin/env python3
"""Plays scripts of N and 2N lines of a kind, and shows time, memory and their ratios; a whole made trial; and power losses of a server.

Usage: bench/trials.py [PROGRAM]; PROGRAM is the built fmb, crates/fmb_program/out/fmb_program by default.
Wanted: twice the lines at most 2.2 times the time; `made 7 64 10000` in under 3 s and 700 MB; 2^24 bytes of fixes in under 3 s.
"""
import os, tempfile
from measure import best, in_turn, program, times

PROGRAM = program("fmb_program")
DEVICE = 356307042441013
START = 1560161086000
HEAD = f"device {DEVICE} 8 4096 oldest 1 0 0 0 known\n"


def fix(i):
    return f"fix {DEVICE} {START + 1000 * i} 0 0 0 0 0 0 0\n"


def fixes(n):
    return HEAD + "".join(fix(i) for i in range(n))


def rounds(n):
    return HEAD + "".join(fix(i) + f"round {DEVICE} 512 - -\n" for i in range(n))


def late(n):
    """Rounds of which the login alone is given at once; each line gives one more byte of the packet that is on its way."""
    each = 1000
    cycles = (f"round {DEVICE} 65536 17 -\n" + f"late {c} 1\n" * each + f"close {c}\n" for c in range(1, n // each + 1))
    return HEAD + "".join(fix(i) for i in range(42)) + "".join(cycles)


def power(n):
    """Each power loss reads the flash again, so that a line costs what the flash holds: here the same for all, a full ring of 64 slots."""
    return HEAD.replace(" 4096 ", " 64 ") + "".join(fix(i) + f"power {DEVICE}\n" for i in range(n))


with tempfile.TemporaryDirectory() as folder:
    def command(name, text):
        path = os.path.join(folder, name)
        with open(path, "w") as file:
            file.write(text)
        return [PROGRAM, "trial", path, "--brief"]

    for name, script, n in (("fix", fixes, 100_000), ("round", rounds, 40_000), ("late", late, 400_000), ("power", power, 20_000)):
        once, twice = in_turn([(command("once", script(n)), os.devnull), (command("twice", script(2 * n)), os.devnull)])
        print(f"{name}: {2 * n:,} lines in {twice.elapsed:.2f} s and {twice.memory:.0f} MB, {times(twice.elapsed, once.elapsed)} the time of half")

    full = HEAD + "".join(fix(i) for i in range((2 ** 24 - len(HEAD)) // len(fix(0))))
    took = best([*command("full", full)], out=os.devnull)
    print(f"2^24 bytes of fixes: {took.elapsed:.2f} s, {took.memory:.0f} MB")

    archive = rounds(20_000)
    plain, losses = in_turn([(command("plain", archive), os.devnull), (command("losses", archive + "power server\n" * 100), os.devnull)])
    print(f"100 power losses of a server with 20,000 records: {losses.elapsed - plain.elapsed:.2f} s more")

took = best([PROGRAM, "made", "7", "64", "10000"], out=os.devnull)
print(f"made 7 64 10000: {took.elapsed:.2f} s, {took.memory:.0f} MB")
