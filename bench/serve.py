#!/usr/bin/env python3
"""Serves packets of 40 new records over loopback, with the archive in a file and two syncs a packet: by one connection, eight and 64, beside
a plain Rust server of the same format (bench/serve_peer/plain.rs, built by rustc) and beside the two syncs alone, which this script
makes. All run in turn, and what is shown are medians of the speeds and of each turn's ratios, so that a slow spell of the machine meets
all of them. Then the memory of a session and of an archived record.

Usage: bench/serve.py [PROGRAM [MICROSECONDS]]; PROGRAM is the built fmb_program, crates/fmb_program/out/fmb_program by default (`rt run` in
its folder builds it). With MICROSECONDS each sync takes at least as long, of all three alike (bench/slow_sync.c, which cc builds): where a
disk syncs in no time, what is seen is the processor's work alone. It needs rustc, which builds the clients too
(bench/serve_peer/client.rs: a thread a connection), so that they take little of the processors that both servers use. Wanted, on a disk
that syncs 3,600 times a second (278): at least 0.95 of the plain server's packets a second, and with 64 connections 0.9 of the pairs of
syncs; at most 300 KB a session and 110 bytes a record over its own.
"""
import os, statistics, subprocess, sys, tempfile, time
sys.path.insert(0, os.path.join(os.path.dirname(os.path.dirname(os.path.abspath(__file__))), "deploy"))
from tracker import Server, TOP, archived, frame, free_port, logged_in, whole, words

PROGRAM = os.path.abspath(sys.argv[1] if len(sys.argv) > 1 else os.path.join(TOP, "crates/fmb_program/out/fmb_program"))
IMEI, RECORDS, PACKETS, TURNS = 350000000000000, 40, 1_920, 11
NAMES = ["plain", "fmb", "syncs"]


def build(folder, name):
    """Builds a program of bench/serve_peer, and returns its path."""
    program = os.path.join(folder, name)
    source = os.path.join(TOP, "bench/serve_peer", name + ".rs")
    subprocess.run(["rustc", "--edition=2021", "-O", "-o", program, source], check=True)
    return program


def speed(command, port, path, connections):
    """Packets a second."""
    server = Server(command, path, port)
    each = PACKETS // connections
    said = subprocess.run([CLIENT, str(port), str(connections), str(each), str(RECORDS)], check=True, capture_output=True, text=True).stdout
    assert server.status(60) == 0, server.lines()
    assert len(archived(path)) == PACKETS * RECORDS, "all is archived"
    return float(said)


def pairs(path):
    """Pairs of syncs a second, for entries of as many bytes."""
    data, end = bytes(15 + 30 * RECORDS), 9
    file = os.open(path, os.O_RDWR | os.O_CREAT | os.O_TRUNC)
    os.pwrite(file, b"FMBARCH1\0", 0)
    os.fdatasync(file)
    begun = time.monotonic()
    for _ in range(PACKETS):
        os.pwrite(file, data, end)
        os.fdatasync(file)
        os.pwrite(file, b"\xa5", end - 1)
        os.fdatasync(file)
        end += len(data)
    seconds = time.monotonic() - begun
    os.close(file)
    return PACKETS / seconds


def memory(server):
    """KB that a process has in memory."""
    with open(f"/proc/{server.process.pid}/status") as status:
        return next(int(line.split()[1]) for line in status if line.startswith("VmRSS:"))


def started(path, workers, sessions):
    port = free_port()
    return Server(words(PROGRAM, f"127.0.0.1:{port}", path, workers, sessions), path, port)


def sizes(folder):
    """Bytes a session, and bytes a record over its own 30."""
    path, many = os.path.join(folder, "many.archive"), 1_000_000
    server = started(path, 64, 1)
    empty = memory(server)
    links = [logged_in(server.port, IMEI + n) for n in range(64)]
    for n, link in enumerate(links):
        link.sendall(frame([n]))
        assert whole(link, 4) == (1).to_bytes(4, "big")
    session = (memory(server) - empty) / 64
    for link in links:
        link.close()
    assert server.status(60) == 0
    with open(path, "wb") as file:
        file.write(b"FMBARCH1")
        for first in range(0, many, 200):
            body = b"".join(frame([time])[10:40] for time in range(first, first + 200))
            file.write(b"\xa5" + (10 + len(body)).to_bytes(4, "big") + (IMEI + first % 1_000).to_bytes(8, "big") + bytes([8, 200]) + body)
        file.write(b"\0")
    server = started(path, 1, 1)
    record = (memory(server) - empty) * 1024 / many - 30
    logged_in(server.port, IMEI).close()
    assert server.status(60) == 0 and server.lines()[-1].startswith(f"archive records {many} "), server.lines()
    return session, record


if len(sys.argv) > 2 and "SYNC" not in os.environ:
    with tempfile.TemporaryDirectory() as folder:
        slow = os.path.join(folder, "slow_sync.so")
        subprocess.run(["cc", "-O2", "-shared", "-fPIC", "-o", slow, os.path.join(TOP, "bench/slow_sync.c")], check=True)
        sys.exit(subprocess.run([sys.executable, *sys.argv], env={**os.environ, "LD_PRELOAD": slow, "SYNC": sys.argv[2]}).returncode)

with tempfile.TemporaryDirectory(dir=os.path.dirname(PROGRAM)) as folder:
    PLAIN, CLIENT = build(folder, "plain"), build(folder, "client")
    for connections in (1, 8, 64):
        turns = []
        for turn in range(TURNS):
            turns.append({})
            for name in NAMES if turn % 2 else NAMES[::-1]:
                path, port = os.path.join(folder, f"{name}{turn}"), free_port()
                address = f"127.0.0.1:{port}"
                command = words(PROGRAM, address, path, connections, 1) if name == "fmb" else [PLAIN, address, path, str(connections), "1"]
                turns[-1][name] = pairs(path) if name == "syncs" else speed(command, port, path, connections)
                os.remove(path)
        speeds = ", ".join(f"{name} {statistics.median(t[name] for t in turns):.0f}" for name in NAMES)
        ratios = ", ".join(f"{statistics.median(t['fmb'] / t[name] for t in turns):.2f} of {name}" for name in NAMES if name != "fmb")
        print(f"{connections} connections: {speeds} a second; fmb has {ratios}", flush=True)
    session, record = sizes(folder)
    print(f"{session:.0f} KB a session; {record:.0f} bytes a record over its own 30")
