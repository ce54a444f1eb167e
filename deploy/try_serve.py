#!/usr/bin/env python3
"""Tries what an operator and a fleet may do wrong. Starts of a server that have to be refused, each with its status and line, and nothing
written of the file. Then one server with connections that send junk, half a login, nothing or a fault, one whose peer never reads, and
1,000 that break in the middle of a frame: each ends its own session and no other, and each record that was counted is archived once.

Usage: deploy/try_serve.py [FMB]; FMB is the built program, crates/fmb_program/out/fmb_program by default. Takes about 70 seconds, since a
silent connection is given up after 60.
"""
import collections, os, random, socket, subprocess, sys, tempfile, threading, time
from tracker import TOP, archived, frame, free_port, logged_in, login, reset, serve, whole, words

FMB = os.path.abspath(sys.argv[1] if len(sys.argv) > 1 else os.path.join(TOP, "crates/fmb_program/out/fmb_program"))
WORKERS, SESSIONS, BROKEN = 8, 160, 1_000
KNOWN = 350000000000000


def refused(what, command, status, said, path=None):
    """A start that is refused, and changes nothing of the file."""
    before = open(path, "rb").read() if path else b""
    run = subprocess.run(command, stdin=subprocess.DEVNULL, stdout=subprocess.PIPE, stderr=subprocess.PIPE, timeout=60)
    assert (run.returncode, run.stdout.decode()) == (status, said), (what, run)
    assert not path or open(path, "rb").read() == before, what
    print(f"{what}: status {status}, {said.strip()}")


def starts(folder):
    archive, other = os.path.join(folder, "one.archive"), os.path.join(folder, "notes.txt")
    with open(other, "w") as file:
        file.write("these are no records\n")
    here = f"127.0.0.1:{free_port()}"
    with socket.socket() as taken:
        taken.bind(("127.0.0.1", 0))
        taken.listen()
        refused("a port that is taken", words(FMB, "127.0.0.1:%d" % taken.getsockname()[1], archive, 1, 1), 7, "host fault\n")
    for address in ("nonsense", "127.0.0.1", "127.0.0.1:99999", "256.0.0.1:5027", "203.0.113.1:5027"):
        refused(f"the address {address}", words(FMB, address, archive, 1, 1), 7, "host fault\n", archive)
    refused("a folder as archive", words(FMB, here, folder, 1, 1), 7, "host fault\n")
    refused("an archive in no folder", words(FMB, here, os.path.join(folder, "none/archive"), 1, 1), 7, "host fault\n")
    refused("a file of another program", words(FMB, here, other, 1, 1), 8, "refused archive\n", other)
    for given in (("0", "1"), ("65", "1"), ("1", "0"), ("1", "100001"), ("01", "1"), ("-1", "1"), ("one", "1")):
        refused(f"{given[0]} workers, {given[1]} sessions", words(FMB, here, archive, *given), 2, "refused words\n", archive)
    refused("an IMEI of 14 digits", words(FMB, here, archive, 1, 1, "35000000000000"), 2, "refused words\n", archive)
    server = serve(FMB, archive, 1, 1)
    refused("an archive that is served", words(FMB, here, archive, 1, 1), 7, "host fault\n", archive)
    logged_in(server.port, KNOWN).close()
    assert server.status(30) == 0
    server = serve(FMB, os.path.join(folder, "known.archive"), 1, 2, str(KNOWN))
    for imei in (KNOWN + 1, KNOWN):
        with socket.create_connection(("127.0.0.1", server.port)) as link:
            link.sendall(login(imei))
            print(f"a device that is {'known' if imei == KNOWN else 'unknown'}: answer {whole(link, 1).hex()}")
    assert server.status(30) == 0 and server.lines() == [f"session 1 1 {KNOWN + 1} unknown", f"session 1 2 {KNOWN} ended", "archive records 0 devices 0"]


class Fleet:
    """What the connections of one server did."""

    def __init__(self, port):
        self.port, self.lock = port, threading.Lock()
        self.made, self.counted, self.draw = 0, set(), random.Random(2)

    def open(self):
        with self.lock:
            self.made += 1
        return socket.create_connection(("127.0.0.1", self.port), 150)

    def log_in(self, imei):
        link = self.open()
        link.sendall(login(imei))
        assert whole(link, 1) == b"\x01"
        return link

    def send(self, link, imei, times):
        """Sends a frame, and hears its count."""
        link.sendall(frame(times))
        assert whole(link, 4) == len(times).to_bytes(4, "big")
        with self.lock:
            self.counted.update((imei, time) for time in times)

    def plain(self, data, hears):
        """Sends these bytes, and hears that before the server ends; a reset ends it, too, where bytes were left unread."""
        heard = b""
        with self.open() as link:
            try:
                link.sendall(data)
                link.shutdown(socket.SHUT_WR)
                heard = whole(link, 100)
            except OSError:
                pass
        assert heard == hears, (data, heard)

    def broken(self, n):
        """A frame that is counted, and one that breaks in its middle, by an end or a reset."""
        imei = KNOWN + n % 50
        link = self.log_in(imei)
        self.send(link, imei, range(10 * n, 10 * n + 3))
        next = frame(range(10 * n + 3, 10 * n + 6))
        link.sendall(next[:self.draw.randrange(1, len(next))])
        reset(link) if n % 2 else link.close()

    def deaf(self, done):
        """Sends one frame again and again, and never reads a count."""
        imei = KNOWN + 60
        link = self.open()
        link.setsockopt(socket.SOL_SOCKET, socket.SO_RCVBUF, 4096)
        link.sendall(login(imei) + frame([1, 2, 3]))
        with self.lock:
            self.counted.update((imei, time) for time in (1, 2, 3))
        many = frame([1, 2, 3]) * 500
        sent = 0
        try:
            while True:
                link.sendall(many)
                sent += 500
        except OSError:
            pass
        done.append(f"a peer that never reads was given up after {sent} frames")
        link.close()

    def silent(self, done):
        begun = time.monotonic()
        with self.open() as link:
            assert whole(link, 1) == b""
        done.append(f"a peer that sends nothing was given up after {time.monotonic() - begun:.0f} seconds")


def peers(folder):
    path = os.path.join(folder, "fleet.archive")
    server = serve(FMB, path, WORKERS, SESSIONS)
    fleet, done = Fleet(server.port), []
    slow = [threading.Thread(target=work, args=(done,)) for work in (fleet.deaf, fleet.silent)]
    for thread in slow:
        thread.start()
    for _ in range(5):
        fleet.plain(b"", b"")
        fleet.plain(b"GET / HTTP/1.1\r\n\r\n", b"")
        fleet.plain(random.Random(3).randbytes(2_000), b"")
        fleet.plain(login(KNOWN)[:9], b"")
        fleet.plain(b"\x00\x0f35000000000000x", b"")
        fleet.plain(login(KNOWN) + b"\xff", b"\x01")
        bad = bytearray(frame([7]))
        bad[-1] ^= 1
        fleet.plain(login(KNOWN) + bad, b"\x01")
    good = fleet.log_in(KNOWN + 70)
    threads = [threading.Thread(target=lambda part: [fleet.broken(n) for n in range(part, BROKEN, 4)], args=(part,)) for part in range(4)]
    for thread in threads:
        thread.start()
    for n in range(200):
        fleet.send(good, KNOWN + 70, [n])
        time.sleep(0.005)
    for thread in threads:
        thread.join()
    good.close()
    for thread in slow:
        thread.join()
    print("\n".join(done))
    while fleet.made < WORKERS * SESSIONS:
        fleet.open().close()
    status, lines = server.status(120), server.lines()
    ends = collections.Counter(line.split()[4] for line in lines[:-1])
    print(f"{fleet.made} connections: {dict(ends)}")
    assert status == 0 and len(lines) == WORKERS * SESSIONS + 1 and set(ends) <= {"ended", "inside", "link", "fault"}, (status, ends)
    found = archived(path)
    assert len(found) == len(set(found)) and set(found) == fleet.counted, "each record that was counted is archived once, and no other"
    assert lines[-1] == f"archive records {len(found)} devices {len({imei for imei, _ in found})}", lines[-1]
    print(f"{lines[-1]}: each record that was counted once, and no other")


with tempfile.TemporaryDirectory() as folder:
    starts(folder)
    peers(folder)
