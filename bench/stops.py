#!/usr/bin/env python3
"""Loses the power at each call of a medium in turn, for each of the five tears, and asserts after how many calls a script's line is done.

Usage: bench/stops.py [PROGRAM]; PROGRAM is the built fmb, crates/fmb_program/out/fmb_program by default. It takes seconds.

Before one line of a script stands `fuse WHO K TEAR`, with K from 0 up, until the report shows neither a record that was cut nor an end
`medium`. The first such K is the number of the medium's calls that the line takes.
"""
import os, re, subprocess, tempfile
from measure import program

PROGRAM = program("fmb_program")
TEARS = ("keep", "new", "zero", "open", "half")
DEVICE = "356307042441013"
FIXES = [f"fix {DEVICE} {1560161086000 + 1000 * second} 0 0 0 0 0 0 0" for second in range(3)]
ROUND = f"round {DEVICE} 7 - -"
UNCOUNTED = f"round {DEVICE} 7 - 1"  # the frame is archived, and its count is lost


def device(slots):
    return f"device {DEVICE} 8 {slots} oldest 1000 0 0 0 known"


# What is stopped, whose power is lost, the lines before, the line that is stopped, and the number of its calls.
STOPS = (
    ("a fix into a ring with room", DEVICE, [device(16)], FIXES[0], 4),
    ("a fix into a full ring", DEVICE, [device(1), FIXES[0]], FIXES[1], 6),
    ("a round that releases three records", DEVICE, [device(16), *FIXES], ROUND, 4),
    ("a round with a frame of new records", "server", [device(16), *FIXES], ROUND, 4),
    ("a round with a frame of archived records", "server", [device(16), *FIXES, UNCOUNTED], ROUND, 0),
)


def is_stopped(folder, lines):
    """Whether the report of a script shows a record that was cut, or an end `medium`."""
    script = os.path.join(folder, "stops.fmb")
    with open(script, "w") as file:
        file.write("".join(line + "\n" for line in lines))
    ran = subprocess.run([PROGRAM, "trial", script], stdout=subprocess.PIPE, text=True)
    assert ran.returncode == 0, (lines, ran)
    assert ran.stdout.startswith(f"device {DEVICE} acquired "), (lines, ran)
    ends = [line for line in ran.stdout.splitlines() if line.startswith("connection ")]
    return not re.match(r"device \d+ acquired \d+ cut 0 ", ran.stdout) or any(" medium" in line for line in ends)


with tempfile.TemporaryDirectory() as folder:
    for name, who, before, line, calls in STOPS:
        for tear in TEARS:
            stopped = [is_stopped(folder, [*before, f"fuse {who} {calls_left} {tear}", line]) for calls_left in range(calls + 3)]
            assert stopped == [True] * calls + [False] * 3, (name, tear, stopped)
        print(f"{name}: {calls} calls")
