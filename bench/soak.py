#!/usr/bin/env python3
"""Plays scripts that are made by seed, for some seconds, and holds each report against what every trial keeps, as far as a report tells it;
and feeds changed captures and scripts.

Usage: bench/soak.py [SECONDS [PROGRAM [SEED]]]; 60 seconds by default; PROGRAM is the built fmb, crates/fmb_program/out/fmb_program by
default; SEED is the first seed, 1 by default. It stops at the first report that doesn't hold, keeps its script, and says where.

A script has 1 to 6 devices, known or not, with any settings that may be; fixes, some of them equal; rounds that are cut both ways, and sent
again; late bytes, closes, drains, power losses, and fuses on both ends. Of its report it is judged, by docs/FORMATS.md and docs/PROMISES.md
alone: which records were acquired, to the byte; each list has acquired records, each once; each acquired record is on flash, archived,
overwritten or cut; a record is cut wherever its store's last medium call can't be made, and only where one can't; overwritten records were
evicted in order by a full ring; the flash has no more than its load; the delivered bytes are those that the lines allow; a round that is
delivered whole, with no fuse, empties its batch; each end on both sides fits bytes, lines and fuses; and lists and numbers agree.

A changed capture ends with status 0 or 3 and whole lines of JSON, a fault last or none; a changed script with a report, or its first fault.
"""
import collections, itertools, json, os, random, re, subprocess, sys, tempfile, time
if __name__ == "__main__":
    SECONDS = float(sys.argv.pop(1)) if len(sys.argv) > 1 else 60
    FIRST = int(sys.argv.pop(2)) if len(sys.argv) > 2 else 1
from measure import TOP, program

CODECS = {"8": (1, 1, 0), "8E": (2, 2, 0), "16": (1, 2, 1)}  # bytes of a count, of an id, and of the generation type
SHORTEST = {"8": 30, "8E": 38, "16": 32}
OPERANDS = {"exit": 0, "entrance": 1, "both": 2, "hysteresis": 4, "change": 5, "monitoring": 7}
TEARS = ("keep", "new", "zero", "open", "half")
LISTS = ("acquired", "cut", "overwritten", "flash", "archived")
SCRIPT_FAULTS = ("TextTooLong", "UnknownWord", "FieldCount", "BadImei", "BadChoice", "BadNumber", "TwiceDevice", "TooManyDevices", "NoDevice",
                 "SettingsClosed", "BadSetting", "ValueCount", "ValueTooWide", "NoConnection", "TooManyOpen")
CAPTURE_FAULTS = ("TextTooLong", "UnknownWord", "BadHex")
LOGIN = 17
AROUND = 15  # a frame's bytes but those of its records
MOST_RECORDS, MOST_BYTES = 255, 1265  # of a frame that a device sends


# ---- scripts

class Maker:
    """Makes a script's lines, each of which may stand where it stands."""

    def __init__(self, seed):
        self.rng = random.Random(seed)
        self.lines, self.devices, self.rounds, self.half_open, self.armed = [], {}, 0, [], False
        self.time = 1560000000000

    def chance(self, percent):
        return self.rng.randrange(100) < percent

    def device(self):
        imei = "%015d" % self.rng.choice((self.rng.randrange(10 ** 15), 350000000000000 + self.rng.randrange(1000)))
        if imei in self.devices:
            return
        rng, codec = self.rng, self.rng.choice(list(CODECS))
        slots = rng.choice((1, 2, 3, 4, 8, 16, 16, 64, 64, 300, 4096))
        least = [rng.choice((0, 1, high)) for high in (5000, 100, 20, 10)]
        flag = "stranger" if self.chance(8) else "known"
        self.lines.append(f"device {imei} {codec} {slots} {rng.choice(('oldest', 'newest'))} {' '.join(map(str, least))} {flag}")
        widths, size = [], SHORTEST[codec]
        for _ in range(rng.choice((0, 0, 1, 2, 5, 32))):
            width = rng.choice((1, 1, 2, 4, 8))
            size += CODECS[codec][1] + width
            if size > 255:
                break
            widths.append(width)
            low, high = sorted(rng.choice((rng.randrange(8), rng.randrange(1 << 8 * width))) for _ in range(2))
            self.lines.append(f"io {imei} {rng.randrange(256 if codec == '8' else 65536)} {width} {rng.choice(list(OPERANDS))}"
                              f" {low} {high} {rng.randrange(256)}")
        self.devices[imei] = widths

    def value(self, width):
        return self.rng.choice((self.rng.randrange(4), self.rng.randrange(4), self.rng.randrange(1 << 8 * width), (1 << 8 * width) - 1))

    def fix(self, imei):
        rng = self.rng
        self.time += rng.choice((0, 0, 1, 999, 1000, 1000, 5000))
        when = self.time if self.chance(95) else rng.randrange(1 << 64)
        signed = lambda bits: rng.choice((0, 0, rng.randrange(-(1 << bits - 1), 1 << bits - 1)))
        unsigned = lambda bits: rng.choice((0, rng.randrange(100), rng.randrange(1 << bits)))
        fields = [when, signed(32), signed(32), signed(16), rng.choice((rng.randrange(360), unsigned(16))), unsigned(8),
                  rng.choice((0, 4, 5, 50, unsigned(16))), rng.choice((self.time // 500, unsigned(64)))]
        self.lines.append(" ".join(map(str, ["fix", imei, *fields, *map(self.value, self.devices[imei])])))

    def uses_server_fuse(self):
        if self.armed:
            self.half_open = []
        self.armed = False

    def round(self, imei):
        limits = ["-", "-"]
        if self.chance(45) and (self.armed or len(self.half_open) < 64):
            for way in range(2):
                if self.chance(60):
                    limits[way] = str(self.rng.choice((0, 1, 5, 16, 17, 18, 29, 46, 62, self.rng.randrange(1300), 1 << 31)))
        self.lines.append(f"round {imei} {self.rng.choice((1, 7, 64, 1280, 65536))} {' '.join(limits)}")
        self.rounds += 1
        if limits != ["-", "-"]:
            self.half_open.append(self.rounds)
        self.uses_server_fuse()

    def turn(self):
        rng, imei = self.rng, self.rng.choice(list(self.devices))
        kind = rng.choices(("fix", "fixes", "round", "drain", "late", "close", "power", "server", "fuse", "server fuse"),
                           (30, 12, 22, 4, 8, 4, 4, 2, 8, 6))[0]
        if kind == "fix":
            self.fix(imei)
        elif kind == "fixes":
            for _ in range(rng.choice((2, 5, 50))):
                self.fix(imei)
        elif kind == "round":
            self.round(imei)
        elif kind == "drain":
            self.lines.append(f"drain {imei} {rng.choice((1, 512, 65536))}")
            self.rounds += 1
            self.uses_server_fuse()
        elif kind == "late" and self.rounds:
            self.lines.append(f"late {self.some_round()} {rng.choice(('-', 0, 1, 13, 45, rng.randrange(1300)))}")
            self.uses_server_fuse()
        elif kind == "close" and self.rounds:
            number = self.some_round()
            self.lines.append(f"close {number}")
            self.half_open = [n for n in self.half_open if n != number]
        elif kind == "power":
            self.lines.append(f"power {imei}")
        elif kind == "server":
            self.lines.append("power server")
            self.half_open, self.armed = [], False
        elif kind == "fuse":
            self.lines.append(f"fuse {imei} {rng.choice((0, 1, 2, 3, 4, 5, 6, 7, rng.randrange(60)))} {rng.choice(TEARS)}")
        elif kind == "server fuse":
            self.lines.append(f"fuse server {rng.choice((0, 1, 2, 3, 4, 5, 8))} {rng.choice(TEARS)}")
            self.armed = True

    def some_round(self):
        return self.rng.choice(self.half_open) if self.half_open and self.chance(80) else self.rng.randint(1, self.rounds)

    def script(self):
        for _ in range(self.rng.randint(1, 6)):
            self.device()
        for _ in range(self.rng.choice((5, 20, 60, 150))):
            if self.chance(2):
                self.device()
            if self.chance(3):
                self.lines.append(self.rng.choice(("", "# a comment")))
            self.turn()
        if self.chance(50):
            self.lines += [f"drain {imei} 512" for imei in self.devices for _ in range(2)]
        return "\n".join(self.lines) + self.rng.choice(("", "\n"))


# ---- what a script decides

Setting = collections.namedtuple("Setting", "id width operand low high priority")
Decision = collections.namedtuple("Decision", "record number load cover cost")


def fires(setting, before, now):
    within = lambda value: setting.low <= value <= setting.high
    return {"exit": within(before) and not within(now), "entrance": not within(before) and within(now), "both": within(before) != within(now),
            "hysteresis": before <= setting.high < now or before >= setting.low > now, "change": before != now,
            "monitoring": False}[setting.operand]


class Device:
    """What the lines so far say of a device."""

    def __init__(self, fields):
        self.imei, self.codec, self.slots = fields[0], fields[1], int(fields[2])
        self.period, self.distance, self.angle, self.speed = map(int, fields[4:8])
        self.known = fields[8] == "known"
        self.settings, self.decisions, self.fuse, self.load = [], [], None, 0
        self.power_up()

    def power_up(self):
        self.last, self.values = None, []

    def length(self):
        """The bytes of each of its records, which all have one element for each setting."""
        return SHORTEST[self.codec] + sum(CODECS[self.codec][1] + setting.width for setting in self.settings)

    def record(self, fix, event, priority, generation):
        count, wide, generated = CODECS[self.codec]
        when, longitude, latitude, altitude, angle, satellites, speed = fix[:7]
        made = when.to_bytes(8, "big") + bytes([priority]) + b"".join(n.to_bytes(4, "big", signed=True) for n in (longitude, latitude))
        made += altitude.to_bytes(2, "big", signed=True) + angle.to_bytes(2, "big") + bytes([satellites]) + speed.to_bytes(2, "big")
        made += event.to_bytes(wide, "big") + bytes([generation]) * generated
        made += len(self.settings).to_bytes(count, "big")
        for width in (1, 2, 4, 8):
            group = [(s, v) for s, v in zip(self.settings, fix[8:]) if s.width == width]
            made += len(group).to_bytes(count, "big")
            made += b"".join(s.id.to_bytes(wide, "big") + v.to_bytes(width, "big") for s, v in group)
        return self.codec, (made + (bytes(2) if self.codec == "8E" else b"")).hex()

    def is_due(self, fix):
        if self.last is None:
            return True
        when, angle, speed, odometer = fix[0], fix[4], fix[6], fix[7]
        turned = abs(angle - self.last[1]) % 360
        reaches = lambda least, difference: least != 0 and difference >= least
        return (reaches(self.period, abs(when - self.last[0])) or reaches(self.distance, abs(odometer - self.last[3]))
                or speed >= 5 and reaches(self.angle, min(turned, 360 - turned)) or reaches(self.speed, abs(speed - self.last[2])))

    def fix(self, fix):
        values = fix[8:]
        fired = [s for s, before, now in zip(self.settings, self.values, values) if fires(s, before, now)]
        records = [self.record(fix, s.id, s.priority, OPERANDS[s.operand]) for s in fired]
        if not fired and self.is_due(fix):
            records = [self.record(fix, 0, 0, 7)]
        if records:
            self.last = fix[0], fix[4], fix[6], fix[7]
        self.values, cost = values, 0
        for number, record in enumerate(records):
            cost += 6 if self.load == self.slots else 4
            self.decisions.append(Decision(record, number, self.load, self.fuse, cost))
            self.load = min(self.load + 1, self.slots)
        self.use_fuse()

    def use_fuse(self):
        """A line that a fuse covers ends with a power loss."""
        if self.fuse is not None:
            self.power_up()
        self.fuse = None

    def connected(self, drains, end):
        if end[0] == "done":
            self.load = 0 if drains else max(self.load - end[1], 0)
        elif end[0] == "empty":
            self.load = 0
        self.use_fuse()


# ---- reports

Connection = collections.namedtuple("Connection", "imei device server sent given down_sent down_given")
END = (r"connection (\d+) (\d{15}) device (done \d+|empty|refused|broken|medium|wrong|commands)"
       r" server (ended|inside \d+|fault \w+ \d+|unknown|medium|down|long|link|memory|restart) up (\d+) (\d+) down (\d+) (\d+)")


def words_of(end):
    return tuple(int(word) if word.isdigit() else word for word in end.split())


def read_report(report):
    """The lists of each device, and the connections, where the report has just its form."""
    assert report == "" or report.endswith("\n"), "whole lines"
    lines = report.split("\n")[:-1]
    devices, connections, at = {}, [], 0
    while at < len(lines) and lines[at].startswith("device "):
        head = re.fullmatch(r"device (\d{15}) " + " ".join(rf"{name} (\d+)" for name in LISTS), lines[at])
        assert head and head[1] not in devices, lines[at]
        lists = devices[head[1]] = {}
        at += 1
        for name, count in zip(LISTS, map(int, head.groups()[1:])):
            found = [re.fullmatch(rf"{name} {head[1]} (8|8E|16) ([0-9a-f]+)", line) for line in lines[at:at + count]]
            assert len(found) == count and all(found), f"{count} lines of {name}"
            lists[name] = [(f[1], f[2]) for f in found]
            at += count
    for number, line in enumerate(lines[at:], 1):
        found = re.fullmatch(END, line)
        assert found and int(found[1]) == number, line
        connections.append(Connection(found[2], words_of(found[3]), words_of(found[4]), *map(int, found.groups()[4:])))
    return devices, connections


def up_to(limit, sent):
    return sent if limit is None else min(limit, sent)


class Played:
    """A connection of the script: what its lines allow, and by which lines bytes came."""

    def __init__(self, number, log, drains, limits, device):
        self.number, self.log, self.drains, self.known = number, log, drains, device.known
        self.up, self.down = limits
        self.whole = limits == (None, None)
        self.allowed, self.half_open, self.restarted = self.up, not self.whole, False
        self.cover = device.fuse  # of the device, on its own line
        self.length = device.length()
        self.heard = max(log.down_given - 1, 0) // 4  # the frames whose counts were heard
        self.gifts = []  # (bytes before, bytes after, the server's fuse, whether a frame of this device may have come before)

    def gives(self, before, fuse, earlier):
        if up_to(self.allowed, self.log.sent) > before:
            self.gifts.append((before, up_to(self.allowed, self.log.sent), fuse, earlier))

    def restart(self):
        if self.half_open:
            self.half_open, self.restarted = False, True

    def may_have_given(self):
        """Whether a frame may have been delivered on it so far."""
        return up_to(self.allowed, self.log.sent) >= (LOGIN + 1 if self.drains else max(self.log.sent, LOGIN + 1))

    def frames(self):
        """The frames sent, the least and the most: of a round none or one, of a drain those that were heard and maybe one more."""
        some = int(self.log.sent > LOGIN)
        return (some, some) if not self.drains else (max(some, self.heard), some and self.heard + 1)

    def records(self, frames):
        """How many records so many frames have, by the bytes sent; None where they can't be so many frames."""
        records, rest = divmod(self.log.sent - LOGIN - AROUND * frames, self.length)
        most = min(MOST_RECORDS, MOST_BYTES // self.length)
        return records if rest == 0 and frames <= records <= most * frames else None


class Judge:
    """Holds a report against its script, line by line."""

    def __init__(self, script, report):
        self.lists, self.logs = read_report(report)
        self.devices, self.connections, self.waiting = {}, [], None  # the calls of the server's fuse that waits
        for line in script.split("\n"):
            line = line.removesuffix("\r")
            if line and not line.startswith("#"):
                word, *fields = line.split(" ")
                getattr(self, word)(*fields)
        assert list(self.lists) == list(self.devices), "the devices of the script, in order"
        assert len(self.logs) == len(self.connections), "a connection for each round and drain"
        for device in self.devices.values():
            self.judge_records(device, self.lists[device.imei])
        for connection in self.connections:
            self.judge_log(connection, connection.log)

    # -- lines

    def device(self, *fields):
        self.devices[fields[0]] = Device(fields)

    def io(self, imei, number, width, operand, low, high, priority):
        self.devices[imei].settings.append(Setting(int(number), int(width), operand, int(low), int(high), int(priority)))

    def fix(self, imei, *fields):
        self.devices[imei].fix(list(map(int, fields)))

    def connect(self, imei, drains, limits):
        number = len(self.connections)
        assert number < len(self.logs), "a connection for each round and drain"
        log, device = self.logs[number], self.devices[imei]
        assert log.imei == imei, f"connection {number + 1} is of {imei}"
        played = Played(number + 1, log, drains, limits, device)
        played.gives(0, self.waiting, self.has_given(imei))
        self.connections.append(played)
        device.connected(drains, log.device)
        self.use_fuse()

    def round(self, imei, piece, up, down):
        self.connect(imei, False, tuple(None if limit == "-" else int(limit) for limit in (up, down)))

    def drain(self, imei, piece):
        self.connect(imei, True, (None, None))

    def late(self, number, more):
        played = self.connections[int(number) - 1]
        if played.half_open:
            before = up_to(played.allowed, played.log.sent)
            earlier = self.has_given(played.log.imei)
            played.allowed = None if more == "-" or played.allowed is None else played.allowed + int(more)
            played.gives(before, self.waiting, earlier)
        self.use_fuse()

    def close(self, number):
        self.connections[int(number) - 1].half_open = False

    def power(self, who):
        if who == "server":
            self.waiting = None
            self.restart()
        else:
            self.devices[who].fuse = None
            self.devices[who].power_up()

    def fuse(self, who, calls, tear):
        if who == "server":
            self.waiting = int(calls)
        else:
            self.devices[who].fuse = int(calls)

    def use_fuse(self):
        if self.waiting is not None:
            self.restart()
        self.waiting = None

    def restart(self):
        for played in self.connections:
            played.restart()

    def has_given(self, imei):
        return any(p.log.imei == imei and p.may_have_given() for p in self.connections)

    # -- what is kept

    def judge_records(self, device, have):
        decided = list(dict.fromkeys(d.record for d in device.decisions))
        assert have["acquired"] == decided, "acquired: exactly what the script decides, each once"
        acquired = set(decided)
        for name in LISTS:
            assert len(set(have[name])) == len(have[name]) and set(have[name]) <= acquired, f"only_once: {name}"
        assert acquired <= set().union(*(have[name] for name in LISTS[1:])), "nothing_lost"
        cut = set(have["cut"])
        below = lambda cover, calls: cover is not None and cover < calls
        for d in device.decisions:
            assert d.record in cut or not below(d.cover, 4 * (d.number + 1)), f"cut: {d}"
        assert cut <= {d.record for d in device.decisions if below(d.cover, d.cost)}, "cut, where no call of its store can fail"
        self.judge_overwritten(device, have["overwritten"])
        assert len(have["flash"]) <= device.load <= device.slots, "the flash has no more than its load"
        if have["archived"]:
            assert self.has_given(device.imei) and device.known, "archived, and no frame was delivered"

    def judge_overwritten(self, device, overwritten):
        """Each was evicted by a later decision than the one before it, which found the ring full, at least a ring after its own."""
        first = {}
        for place, d in enumerate(device.decisions):
            first.setdefault(d.record, place)
        evicting = -1
        for record in overwritten:
            least = max(evicting + 1, first[record] + device.slots)
            evicting = next((e for e in range(least, len(device.decisions)) if device.decisions[e].load == device.slots), None)
            assert evicting is not None, f"overwritten: {record}"

    def judge_log(self, played, log):
        at = f"connection {played.number}"
        least, most = played.frames()
        assert log.sent in (0, LOGIN) or any(played.records(f) for f in range(max(least, 1), most + 1)), f"{at}: a login, and whole frames"
        # logs: what was delivered
        assert log.given == up_to(played.allowed, log.sent), f"{at}: bytes up"
        heard_by = up_to(played.up, log.sent)
        if played.drains:
            assert log.down_given == log.down_sent, f"{at}: bytes down of a drain"
        else:
            answers = min(log.down_sent, 1 + 4 * (least and heard_by == log.sent)) if heard_by >= LOGIN else 0
            assert log.down_given == up_to(played.down, answers), f"{at}: bytes down"
        assert played.heard <= most, f"{at}: a count for each frame that is heard"
        assert not least or log.down_given >= 1 and played.known, f"{at}: a frame before the answer 01"
        assert least or not played.known or log.down_given == 0, f"{at}: no frame after the answer 01"
        # answers: what the server wrote
        failed = log.server == ("medium",)
        if log.given < LOGIN:
            assert log.down_sent == 0, f"{at}: an answer without a login"
        elif not played.known:
            assert log.down_sent == 1, f"{at}: more than 00 to a stranger"
        else:
            assert log.down_sent % 4 == 1, f"{at}: 01 and counts"
            if not played.drains:
                whole = least and log.given == log.sent
                assert log.down_sent == 1 + 4 * (whole - failed), f"{at}: a count for each frame"
        self.judge_server(at, played, log, least, most)
        self.judge_device(at, played, log, least, played.heard)
        # whole_rounds
        if played.known and played.whole:
            assert log.device[0] in ("done", "empty", "medium") or failed, f"{at}: whole, and its batch isn't emptied"

    def judge_server(self, at, played, log, least, most):
        end = log.server
        assert end[0] in ("ended", "inside", "unknown", "medium", "restart"), f"{at}: server {end}"
        assert (end[0] == "unknown") == (not played.known and log.given >= LOGIN), f"{at}: unknown"
        if end[0] in ("ended", "inside"):
            assert not played.restarted, f"{at}: no restart"
            inside = end[1] if end[0] == "inside" else 0
            assert end[0] == "ended" or inside > 0, f"{at}: inside nothing"
            if not played.drains:
                read = log.sent if least and log.given == log.sent else LOGIN if log.given >= LOGIN else 0
                assert inside == log.given - read, f"{at}: inside"
            else:
                assert inside == 0, f"{at}: a drain is delivered whole"
        if end[0] == "restart":
            assert played.restarted, f"{at}: restart"
        # the medium fails only, and must, by a fuse on a line that gave a frame
        frames = lambda before, after: (most if played.drains else before < log.sent <= after and least)
        may = any(fuse is not None and fuse < 4 * frames(before, after) for before, after, fuse, _ in played.gifts)
        must = any(fuse is not None and fuse < 4 * (least if played.drains else frames(before, after)) and not earlier
                   for before, after, fuse, earlier in played.gifts)
        if end[0] == "medium":
            assert may and played.known, f"{at}: the server's medium can't have failed"
        assert end[0] == "medium" or not must or not played.known, f"{at}: the server's medium has to fail"

    def judge_device(self, at, played, log, least, heard):
        end = log.device
        assert end[0] in ("done", "empty", "refused", "broken", "medium"), f"{at}: device {end}"
        assert (end[0] == "empty") == (log.sent == 0), f"{at}: empty"
        assert (end[0] == "refused") == (not played.known and log.down_given >= 1), f"{at}: refused"
        if end[0] in ("done", "medium"):
            # all frames were heard; a release takes a call for each of their records, and one for each frame
            records = played.records(heard) if heard else None
            assert records and log.down_given % 4 == 1, f"{at}: {end[0]}, and not all was heard"
            below = played.cover is not None and played.cover < heard + records
            assert (end[0] == "medium") == below, f"{at}: {end[0]}, with {heard + records} calls and the fuse {played.cover}"
            assert end[0] == "medium" or end[1] == records, f"{at}: done {end[1]} of {records} records"
        if end[0] == "broken":
            sent = least if not played.drains or not least else heard + 1
            assert log.down_given == 0 or played.known and heard < sent and played.records(sent), f"{at}: broken, and nothing is due"
            # each frame that was heard has a record at least, and its release passed
            assert played.cover is None or played.cover >= 2 * heard, f"{at}: broken, past its fuse"


# ---- changed captures and scripts

def changed(rng, text):
    """Some bytes of a text are others, are gone, or stand twice."""
    text = bytearray(text)
    for _ in range(rng.choice((1, 1, 2, 5, 20))):
        at = rng.randrange(len(text))
        kind = rng.randrange(6)
        if kind == 0:
            text[at] = rng.randrange(256)
        elif kind == 1:
            text[at] ^= 1 << rng.randrange(8)
        elif kind == 2:
            del text[at:at + rng.choice((1, 2, 30))]
        elif kind == 3:
            text[at:at] = text[at:at + rng.choice((1, 2, 30))]
        else:
            text[at:at + 1] = rng.choice(b"0123456789abcdefABCDEF").to_bytes(1, "big")
        if not text:
            text = bytearray(b"\n")
    return bytes(text)


def drawn_capture(rng):
    """Words and hexadecimal digits."""
    line = lambda: rng.choice(("up", "frames", "down", "answers", "udp", "reply")) + " " + rng.randbytes(rng.choice((0, 1, 4, 17, 80))).hex()
    return "".join(line() + "\n" for _ in range(rng.randrange(1, 5))).encode()


def judge_shown(text, status, said):
    assert status in (0, 3), f"status {status}"
    assert said == b"" or said.endswith(b"\n"), "whole lines"
    refused = re.fullmatch(rb"refused line (\d+) (\w+)\n", said)
    if refused:
        assert status == 3 and refused[2].decode() in CAPTURE_FAULTS and int(refused[1]) <= text.count(b"\n") + 1, "the refused line"
        return
    last = 0
    lines = said.decode("ascii").split("\n")[:-1]
    for i, line in enumerate(lines):
        item = json.loads(line)
        assert json.dumps(item, sort_keys=True, separators=(",", ":")) == line, "compact, with sorted keys"
        assert last <= item["line"] <= text.count(b"\n") + 1, "the number of the line"
        last = item["line"]
        assert (item["item"] == "fault") == (status == 3 and i == len(lines) - 1), "a fault comes last, with status 3"
    assert status == 0 or lines, "a fault's line"


def judge_played(text, status, said):
    assert status in (0, 3), f"status {status}"
    if status == 3:
        refused = re.fullmatch(rb"refused line (\d+) (\w+)\n", said)
        assert refused and refused[2].decode() in SCRIPT_FAULTS and int(refused[1]) <= text.count(b"\n") + 1, "the refused line"
    else:
        Judge(text.decode("ascii", errors="replace"), said.decode("ascii"))


# ---- the soak

class Soak:
    def __init__(self, binary, folder):
        self.binary, self.folder = binary, folder
        self.scripts = self.lines = self.records = self.connections = self.captures = self.texts = 0

    def run(self, words, text):
        path = os.path.join(self.folder, "text")
        with open(path, "wb") as file:
            file.write(text)
        done = subprocess.run([self.binary, words[0], path, *words[1:]], stdin=subprocess.DEVNULL, stdout=subprocess.PIPE,
                              stderr=subprocess.PIPE, timeout=120)
        return done.returncode, done.stdout

    def holds(self, what, text, judge):
        """Judges one text, and keeps it where that fails."""
        try:
            judge()
        except Exception as fault:
            kept = os.path.join(tempfile.mkdtemp(prefix="soak"), "text")
            with open(kept, "wb") as file:
                file.write(text)
            sys.exit(f"{what}: {type(fault).__name__}: {fault}\nthe text is {kept}")

    def play(self, seed):
        script = Maker(seed).script()
        text = script.encode()

        def judge():
            status, said = self.run(["trial"], text)
            assert status == 0, f"status {status}: {said[-200:]!r}"
            judged = Judge(script, said.decode("ascii"))
            self.records += sum(len(lists["acquired"]) for lists in judged.lists.values())
            self.connections += len(judged.logs)
            if seed % 4 == 0:
                heads = [line for line in said.decode().split("\n") if line.startswith("device ")]
                brief = self.run(["trial", "--brief"], text)
                assert brief == (0, "".join(f"{line}\n" for line in [*heads, f"connections {len(judged.logs)}"]).encode()), "the brief report"
                assert self.run(["trial"], text) == (0, said), "the same once more"
        self.holds(f"the script of seed {seed}", text, judge)
        self.scripts += 1
        self.lines += script.count("\n") + 1

    def change(self, seed, captures, scripts):
        rng = random.Random(-seed)
        for text in [changed(rng, rng.choice(captures)) for _ in range(3)] + [drawn_capture(rng)]:
            self.holds(f"a capture of seed {seed}", text, lambda: judge_shown(text, *self.run(["show"], text)))
            self.captures += 1
        text = changed(rng, rng.choice(scripts))
        self.holds(f"a changed script of seed {seed}", text, lambda: judge_played(text, *self.run(["trial"], text)))
        self.texts += 1


def examples(ending):
    folder = os.path.join(TOP, "examples")
    return [open(os.path.join(folder, name), "rb").read() for name in sorted(os.listdir(folder)) if name.endswith(ending)]


def main():
    limit = time.monotonic() + SECONDS
    captures, scripts = examples(".capture"), examples(".fmb")
    with tempfile.TemporaryDirectory() as folder:
        soak = Soak(program("fmb_program"), folder)
        for seed in itertools.count(FIRST):
            if time.monotonic() >= limit:
                break
            soak.play(seed)
            soak.change(seed, captures, scripts)
    print(f"{soak.scripts} scripts of {soak.lines} lines with {soak.records} records and {soak.connections} connections, {soak.captures} captures"
          f" and {soak.texts} changed scripts in {SECONDS:.0f} s: each held")


if __name__ == "__main__":
    main()
