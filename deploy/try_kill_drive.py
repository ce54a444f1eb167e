#!/usr/bin/env python3
"""Kills a device (`kill -9` of `fmb drive`) 20 times over one flash and one archive, while a server runs, and starts it again each time
with a script of later fixes. A last drive only drains.

Owed at each kill, as the files show it:

- The records that the killed drive made and that are on the flash, in the archive or printed as lost are its first ones, without a gap,
  and at least all that it made before the last connection that it printed.
- A record that was on the flash before is there still, or it is in the archive, or this drive printed it as lost.
- The archive has no record twice, none that no fix made, and at least as many as the drives printed as counted.

Owed at the end: the last drive has status 0 and leaves an empty flash, all those records are in the archive but those that were printed as
lost, and a server that opens the archive counts them.

Not owed: the fixes that a killed drive didn't come to, since a record that isn't stored yet is nowhere; a drive prints nothing when it
stores one, so the files alone tell how far it came. Nor a flash whose formatting was killed, which has another size and is refused: the
flash is formatted first. A kill loses nothing that was written, so this is no power loss.

Usage: deploy/try_kill_drive.py [FMB]; FMB is the built program, crates/fmb_program/out/fmb_program by default. Takes up to three minutes,
by how fast the disk syncs.
"""
import atexit, os, random, signal, struct, subprocess, sys, tempfile, time
from tracker import TOP, archived, logged_in, record, serve

FMB = os.path.abspath(sys.argv[1] if len(sys.argv) > 1 else os.path.join(TOP, "crates/fmb_program/out/fmb_program"))
KILLS, TURNS, SLOTS, SLOT_BYTES = 20, 1_000, 64, 272
IMEI = 356307042441013
DEVICE = f"device {IMEI} 8 {SLOTS} oldest 1000 0 0 0 known"
CONNECTIONS = (f"round {IMEI} 64 - -", f"drain {IMEI} 64")
draw = random.Random(1)


def time_of(data):
    """The time of a record that a fix of these scripts makes."""
    (time,) = struct.unpack_from(">Q", data)
    assert data == record(time), data.hex()
    return time


def held(path):
    """The times of the records on a flash, in the order of their sequences."""
    data = open(path, "rb").read()
    assert len(data) == SLOTS * SLOT_BYTES, len(data)
    found = []
    for at in range(0, len(data), SLOT_BYTES):
        gate, codec, length, sequence = struct.unpack_from(">BBBQ", data, at)
        if gate == 0xA5:
            assert (codec, length) == (8, 30), (at, codec, length)
            found.append((sequence, time_of(data[at + 11:at + 41])))
    assert len({sequence for sequence, _ in found}) == len(found), found
    return [time for _, time in sorted(found)]


class Script:
    """Turns of a few fixes, now and then of more than the flash has room for, and a connection after each, sometimes a loss of power."""

    def __init__(self, folder, number):
        self.path = os.path.join(folder, f"{number}.fmb")
        self.times, self.made_before = [], {}
        lines, time = [DEVICE], 1_600_000_000_000 + 1_000_000_000 * number
        for _ in range(TURNS):
            for _ in range(80 if draw.random() < 0.1 else draw.randrange(1, 5)):
                self.times.append(time)
                lines.append(f"fix {IMEI} {time} 0 0 0 0 0 0 0")
                time += 1000
            if draw.random() < 0.2:
                lines.append(f"power {IMEI}")
            lines.append(draw.choice(CONNECTIONS))
            self.made_before[len(lines)] = len(self.times)
        with open(self.path, "w") as text:
            text.write("\n".join(lines) + "\n")


class Drive:
    """A drive that runs, and what it has printed so far."""

    def __init__(self, port, flash, script):
        self.said = script + ".said"
        with open(self.said, "wb") as said:
            self.process = subprocess.Popen([FMB, "drive", f"127.0.0.1:{port}", flash, script], stdin=subprocess.DEVNULL, stdout=said)
        atexit.register(self.process.kill)

    def lines(self):
        """The lines that were written to their ends."""
        return open(self.said).read().split("\n")[:-1]

    def kill_at_work(self, archive):
        """Kills it after its first few connections: at any moment, or with an archive's path as soon as that grows, and so before the count
        is heard. Then the server has time to end the session."""
        limit, wanted = time.monotonic() + 60, draw.randrange(1, 20)
        while len(self.connections()) < wanted:
            assert self.process.poll() is None and time.monotonic() < limit, (self.process.poll(), self.lines()[-1:])
            time.sleep(0.002)
        time.sleep(draw.uniform(0, 0.05))
        size = archive and os.path.getsize(archive)
        while archive and os.path.getsize(archive) == size and self.process.poll() is None:
            pass
        assert self.process.poll() is None, f"it ended before it was killed: {self.process.poll()} {self.lines()[-1:]}"
        self.process.send_signal(signal.SIGKILL)
        self.process.wait()
        time.sleep(0.2)

    def lost(self):
        return {time_of(bytes.fromhex(line.split()[3])) for line in self.lines() if line.startswith(f"lost {IMEI} 8 ")}

    def connections(self):
        """The line of each connection in the script, and how many of its records were counted."""
        words = [line.split() for line in self.lines() if line.startswith("round ")]
        assert all(end[2:3] == ["done"] or end[2:] == ["empty"] for end in words), words
        return [(int(end[1]), int(end[3]) if end[2] == "done" else 0) for end in words]


def archive(path):
    found = archived(path)
    assert all(imei == IMEI for imei, _ in found), "this device alone"
    times = [time for _, time in found]
    assert len(times) == len(set(times)), "no record twice"
    return set(times)


def whole(drive):
    status = drive.process.wait(60)
    assert status == 0 and drive.lines()[-1] == "flash 0", (status, drive.lines())


def text_of(folder, name, *lines):
    path = os.path.join(folder, name)
    with open(path, "w") as text:
        text.write("\n".join(lines) + "\n")
    return path


with tempfile.TemporaryDirectory() as folder:
    flash, path = os.path.join(folder, "device.flash"), os.path.join(folder, "fleet.archive")
    server = serve(FMB, path, 4, 100_000)
    atexit.register(server.process.kill)
    whole(Drive(server.port, flash, text_of(folder, "format.fmb", DEVICE)))
    stored, lost, counted, again, before = set(), set(), 0, 0, []
    for number in range(KILLS):
        script = Script(folder, number)
        drive = Drive(server.port, flash, script.path)
        drive.kill_at_work(path if number % 2 else None)
        on_flash, found, gave_up, ends = held(flash), archive(path), drive.lost(), drive.connections()
        seen = found | set(on_flash) | gave_up
        assert on_flash == sorted(on_flash), "in the order in which they were stored"
        assert set(before) <= seen, f"gone from the flash: {sorted(set(before) - seen)[:5]}"
        made = [time for time in script.times if time in seen]
        assert made == script.times[:len(made)], "the first ones, without a gap"
        assert len(made) >= max([script.made_before[line] for line, _ in ends], default=0), "all before the last connection"
        stored.update(made)
        lost |= gave_up
        assert found | set(on_flash) | lost <= stored, "only what was made"
        counted += sum(count for _, count in ends)
        assert counted <= len(found), (counted, len(found))
        again += len(found & set(on_flash))
        before = on_flash
    last = Drive(server.port, flash, text_of(folder, "drain.fmb", DEVICE, CONNECTIONS[1]))
    whole(last)
    assert [count for _, count in last.connections()] == [len(before)], (last.lines(), len(before))
    assert held(flash) == [] and not last.lost(), "an empty flash"
    found = archive(path)
    assert stored - lost <= found, f"lost: {sorted(stored - lost - found)[:5]}"
    assert found <= stored, "only what was made"
    server.kill()
    server = serve(FMB, path, 1, 1)
    logged_in(server.port, IMEI).close()
    status, line = server.status(60), server.lines()[-1]
    assert status == 0 and line == f"archive records {len(found)} devices 1", (status, line)
    print(f"{KILLS} kills: {len(stored)} records stored, {len(found)} of them archived once, {again} of these sent again after a kill, and "
          f"{len(stored - found)} printed as lost")
