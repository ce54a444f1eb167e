#!/usr/bin/env python3
"""Kills a server (`kill -9`) 20 times over one archive while eight devices send frames in pieces, and starts it again each time. Then each
record that was ever counted has to be in the archive, none twice, and none that wasn't sent; and a server that opens the archive says so.

Usage: deploy/try_kill.py [FMB]; FMB is the built program, crates/fmb_program/out/fmb_program by default. Takes about 20 seconds.
"""
import os, random, sys, tempfile, threading, time
from tracker import TOP, archived, frame, logged_in, serve, whole

FMB = os.path.abspath(sys.argv[1] if len(sys.argv) > 1 else os.path.join(TOP, "crates/fmb_program/out/fmb_program"))
KILLS, DEVICES, WORKERS = 20, 8, 8
draw = random.Random(1)


class Device(threading.Thread):
    """A device that sends its records in order. A frame whose count it didn't hear it sends again, as a tracker does."""

    def __init__(self, imei):
        super().__init__(daemon=True)
        self.imei, self.next, self.pending = imei, 0, []
        self.counted, self.sent = set(), set()
        self.cut = 0
        self.draw = random.Random(imei)

    def run(self):
        while not ended.is_set():
            try:
                self.talk()
            except OSError:
                time.sleep(0.01)

    def talk(self):
        with logged_in(port[0], self.imei, 5) as link:
            for _ in range(self.draw.randrange(1, 200)):
                if ended.is_set():
                    return
                if not self.pending:
                    self.pending = list(range(self.next, self.next + self.draw.randrange(1, 41)))
                    self.next = self.pending[-1] + 1
                self.sent.update(self.pending)
                try:
                    self.send(link, frame(self.pending))
                except OSError:
                    self.cut += 1
                    raise
                self.counted.update(self.pending)
                self.pending = []

    def send(self, link, rest):
        while rest:
            size = self.draw.randrange(1, len(rest) + 1)
            link.sendall(rest[:size])
            rest = rest[size:]
            if rest and self.draw.random() < 0.3:
                time.sleep(0.001)
        count = whole(link, 4)
        if len(count) < 4:
            raise ConnectionError("no count")
        assert int.from_bytes(count, "big") == len(self.pending), count


with tempfile.TemporaryDirectory() as folder:
    path = os.path.join(folder, "fleet.archive")
    ended, port = threading.Event(), [0]
    devices = [Device(350000000000001 + n) for n in range(DEVICES)]
    for kill in range(KILLS):
        server = serve(FMB, path, WORKERS, 100_000)
        port[0] = server.port
        if kill == 0:
            for device in devices:
                device.start()
        time.sleep(draw.uniform(0.2, 0.8))
        server.kill()
    ended.set()
    for device in devices:
        device.join(10)
    found = archived(path)
    counted = {(d.imei, n) for d in devices for n in d.counted}
    sent = {(d.imei, n) for d in devices for n in d.sent}
    assert counted, "something was counted"
    assert len(found) == len(set(found)), "no record twice"
    assert counted <= set(found), f"lost: {sorted(counted - set(found))[:5]}"
    assert set(found) <= sent, "only what was sent"
    server = serve(FMB, path, 1, 1)
    logged_in(server.port, devices[0].imei).close()
    status = server.status(60)
    last = server.lines()[-1]
    assert status == 0 and last == f"archive records {len(found)} devices {len({i for i, _ in found})}", (status, last)
    print(f"{KILLS} kills, {sum(d.cut for d in devices)} frames cut: {len(counted)} records counted, all of them archived once; "
          f"{len(found) - len(counted)} more archived whose count wasn't heard")
