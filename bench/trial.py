#!/usr/bin/env python3
"""Judges and plays scripts of 2^23 and 2^24 bytes (comments and 42 fixes), and shows time, memory and their ratios.

Usage: bench/trial.py [PROGRAM]; PROGRAM is the built fmb, crates/fmb_program/out/fmb_program by default.
Wanted: under 2 seconds and 400 MB for 2^24 bytes, and at most twice of both for twice the text.
"""
import os, tempfile
from measure import best, program, run, times

PROGRAM = program("fmb_program")
IMEI = "356307042441013"


def script(size):
    lines = [f"device {IMEI} 8 64 oldest 1000 0 0 0 known"]
    lines += [f"fix {IMEI} {1560161086000 + 1000 * i} 0 0 0 0 0 0 0" for i in range(42)]
    last = f"round {IMEI} 512 - -\n"
    text = "\n".join(lines) + "\n"
    comment = "# " + "a comment that fills the script " * 3 + "\n"
    room = size - len(text) - len(last)
    text += comment * (room // len(comment))
    room = size - len(text) - len(last)
    if room > 0:
        text += "#" * (room - 1) + "\n"
    return text + last


with tempfile.TemporaryDirectory() as folder:
    def written(name, text):
        path = os.path.join(folder, name)
        with open(path, "w") as file:
            file.write(text)
        return path

    def spent(power):
        path = written(f"{power}.fmb", script(2 ** power))
        took = best([PROGRAM, "trial", path], out=os.devnull)
        print(f"2^{power} bytes: {took.elapsed:.2f} s, {took.memory:.0f} MB")
        return took

    once, twice = spent(23), spent(24)
    print(f"twice the text: {times(twice.elapsed, once.elapsed)} the time, {times(twice.memory, once.memory)} the memory")
    took = run([PROGRAM, "trial", written("line.fmb", "x" * 2 ** 24)], out=os.devnull)
    print(f"one line of 2^24 bytes: {took.elapsed:.2f} s, {took.memory:.0f} MB, status {took.status}")
