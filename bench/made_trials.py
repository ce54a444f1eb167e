#!/usr/bin/env python3
"""Plays made scripts, by default 200 of 1 to 64 devices, and holds each report against what can be counted of what every trial keeps: each
list has a record once; what is archived was acquired; each acquired record is on flash, archived, overwritten or cut; the flash has no more
records than slots; and the brief report says the same numbers.

Usage: bench/made_trials.py [PROGRAM [COUNT]]; PROGRAM is the built fmb, crates/fmb_program/out/fmb_program by default.
"""
import collections, os, subprocess, sys, tempfile
from made_script import made
from measure import program

PROGRAM = program("fmb_program")
COUNT = int(sys.argv[2]) if len(sys.argv) > 2 else 200
FIXES = 60
SLOTS = 64
LISTS = ("acquired", "cut", "overwritten", "flash", "archived")


def said(*words):
    """What a run of the program prints, which ends with status 0."""
    done = subprocess.run([PROGRAM, *words], capture_output=True, text=True)
    assert done.returncode == 0, (words, done)
    return done.stdout


def check(seed, report, brief):
    heads, lists = {}, collections.defaultdict(list)
    for line in report.splitlines():
        words = line.split()
        if words[0] == "device":
            heads[words[1]] = dict(zip(words[2::2], map(int, words[3::2])))
        elif words[0] in LISTS:
            lists[words[1], words[0]].append(tuple(words[2:]))
    for imei, head in heads.items():
        have = {name: lists[imei, name] for name in LISTS}
        for name, records in have.items():
            assert len(records) == len(set(records)) == head[name], (seed, imei, name)
        acquired = set(have["acquired"])
        assert set(have["archived"]) <= acquired, (seed, imei)
        assert acquired <= set().union(*(have[name] for name in LISTS[1:])), (seed, imei)
        assert len(have["flash"]) <= SLOTS, (seed, imei)
    devices = [line for line in report.splitlines() if line.startswith("device ")]
    connections = sum(line.startswith("connection ") for line in report.splitlines())
    assert brief.splitlines() == [*devices, f"connections {connections}"], seed


with tempfile.TemporaryDirectory() as folder:
    path = os.path.join(folder, "made.fmb")
    for seed in range(1, COUNT + 1):
        devices = seed % 64 + 1
        with open(path, "w") as file:
            file.writelines(f"{line}\n" for line in made(seed, devices, FIXES))
        check(seed, said("trial", path), said("made", str(seed), str(devices), str(FIXES)))
print(f"{COUNT} made scripts: each kept what can be counted")
