#!/usr/bin/env python3
"""Shows captures of 2^23 and 2^24 bytes, lines `frames` of one Codec 8 frame of 200 records each, and prints times and memory beside
those of a plain Rust program that prints the same lines (bench/show_peer/main.rs, built by rustc where there is one).

Usage: bench/show.py [PROGRAM]; PROGRAM is the built fmb_program, crates/fmb_program/out/fmb_program by default (`rt run` in its folder
builds it). All run in turn, so that a slow spell meets all of them. Wanted: at most twice the plain program's time, under 100 MB, and about twice the time for twice the bytes.
"""
import os, shutil, subprocess, tempfile
from measure import TOP, in_turn, program, times

PROGRAM = program("fmb_program")
RUNS = 9
RECORDS = 200
MOST = 2 ** 24


def crc16(data):
    table = []
    for n in range(256):
        for _ in range(8):
            n = (n >> 1) ^ (0xA001 if n & 1 else 0)
        table.append(n)
    crc = 0
    for byte in data:
        crc = (crc >> 8) ^ table[(crc ^ byte) & 0xFF]
    return crc


def frame(first):
    """A frame of Codec 8 records without elements, one second apart."""
    body = bytes([8, RECORDS])
    for i in range(RECORDS):
        body += (1560161086000 + (first + i) * 1000).to_bytes(8, "big") + bytes([1])
        body += (250000000 + i).to_bytes(4, "big") + (546000000 + i).to_bytes(4, "big") + bytes([0, 100, 0, 90, 9, 0, 50])
        body += bytes(6)
    body += bytes([RECORDS])
    return bytes(4) + len(body).to_bytes(4, "big") + body + crc16(body).to_bytes(4, "big")


def capture(size):
    """As many lines as fit into this number of bytes."""
    lines, length = [], 0
    while True:
        line = "frames " + frame(len(lines) * RECORDS).hex() + "\n"
        if length + len(line) > size:
            return "".join(lines), len(lines)
        lines.append(line)
        length += len(line)


with tempfile.TemporaryDirectory() as folder:
    def path(name):
        return os.path.join(folder, name)

    def write(name, size):
        text, lines = capture(size)
        with open(path(name), "w") as f:
            f.write(text)
        return len(text), lines

    captures = [write("half.fmb", MOST // 2), write("whole.fmb", MOST)]
    commands = [([PROGRAM, "show", path(name + ".fmb")], path(name + "_shown")) for name in ("half", "whole")]
    if shutil.which("rustc"):
        subprocess.run(["rustc", "-O", "-o", path("peer"), os.path.join(TOP, "bench/show_peer/main.rs")], check=True)
        commands.append(([path("peer"), path("whole.fmb")], path("peer_shown")))
    half, whole, *peers = in_turn(commands, runs=RUNS)
    for (size, lines), name, took in zip(captures, ("half", "whole"), (half, whole)):
        print(f"{size} bytes, {lines} lines: {took.busy:.2f} s, {took.memory:.0f} MB, {os.path.getsize(path(name + '_shown'))} bytes printed")
    print(f"twice the bytes take {times(whole.busy, half.busy)} the time")
    for peer in peers:
        with open(path("whole_shown"), "rb") as ours, open(path("peer_shown"), "rb") as theirs:
            same = ours.read() == theirs.read()
        print(f"the plain program: {peer.busy:.2f} s, {'the same bytes' if same else 'OTHER BYTES'}; ours takes {times(whole.busy, peer.busy)} as long")
