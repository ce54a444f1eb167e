#!/usr/bin/env python3
"""Refuses each single allocation of the program in turn, fails each single read, write and sync, and cuts each single read and write to one
byte; and holds status and output against those of a run where nothing is refused.

Usage: bench/refused_memory.py [PROGRAM]
       bench/refused_memory.py --try [FIRST LAST]

The first refuses calls of PROGRAM, the built fmb, crates/fmb_program/out/fmb_program by default, by bench/refuse.c, which cc builds; it
takes milliseconds a run. The second takes the sources by `rt try`. Without numbers it asks for all calls at once (`1..`), which looks for
crashes, hangs and other output alone, and which older kits don't know. With numbers it refuses these allocations one by one, and builds the
program anew for each: a minute or more.

Rows: the first round by `trial`, a broken answer and a power loss by `trial`, a frame and each word of a capture by `show`, and a made script.
Of the built program also a server with one session, and a device that is driven, each by a peer of this script's own; of these two only
allocations are refused. A session over a link (`serve_link`) is below the program: session_rows has it, and each trial runs one.

Wanted: status 9, with `no memory` alone, of `show` after whole lines of what it shows, and of `drive` after those of what happened; or the
right result, with status 0. Of reads and writes status 4 with its line, or 5 with a front of the right output, or the right result. Where
one byte was moved, the right result. Nothing else, no crash, and no run above 60 seconds.
"""
import collections, itertools, os, re, socket, subprocess, sys, tempfile, threading, time
sys.path.insert(0, os.path.join(os.path.dirname(os.path.dirname(os.path.abspath(__file__))), "deploy"))
from tracker import TOP, archived, frame, free_port, listens, login, whole, words

EXAMPLES = os.path.join(TOP, "examples")
IMEI = 356307042441013
TIMES = [1560161086000, 1560161087000, 1560161088000]
FRAME = ("frames 000000000000003608010000016B40D8EA30010000000000000000000000000000000105021503010101425E0F01F10000601A014E0000000000000000"
         "010000C7CF\n")
SECONDS = 60
LEAST = {"alloc": 10, "io": 1, "short": 1}  # fewer calls that were refused say that nothing was tried

Row = collections.namedtuple("Row", "name words file by_line")
Ended = collections.namedtuple("Ended", "status said")


def rows(folder):
    """What is run: words, of which {} is the file, and whether lines may stand before `no memory`."""
    one = os.path.join(folder, "one.capture")
    with open(one, "w") as file:
        file.write(FRAME)
    example = lambda name: os.path.join(EXAMPLES, name)
    return [
        Row("first round", ["trial", "{}"], example("first_round.fmb"), False),
        Row("broken answer", ["trial", "{}"], example("broken_answer.fmb"), False),
        Row("server dies", ["trial", "{}", "--brief"], example("server_dies.fmb"), False),
        Row("power loss in store", ["trial", "{}"], example("power_loss_in_store.fmb"), False),
        Row("one frame", ["show", "{}"], one, True),
        Row("every word", ["show", "{}"], example("every_word.capture"), True),
        Row("made", ["made", "1", "2", "100"], None, False),
    ]


def is_front(said, want):
    """Whether these are the first lines of what is wanted, each whole."""
    return want.startswith(said) and (not said or said.endswith(b"\n"))


def is_out(said, want, by_line):
    """Whether memory ran out as it may: its line, after whole lines of what is wanted or alone."""
    front = said[:-len(b"no memory\n")]
    return said.endswith(b"no memory\n") and (is_front(front, want) if by_line else not front)


def wrong(kind, by_line, want, got):
    """Why a run ended as it may not, or None."""
    if got.status == 0:
        return None if got.said == want else "status 0 with other output"
    if kind == "alloc" and got.status == 9:
        return None if is_out(got.said, want, by_line) else "status 9 with half of something"
    if kind == "io" and got.status == 4:
        return None if got.said == b"source fault\n" else "status 4 without its line"
    if kind == "io" and got.status == 5:
        return None if want.startswith(got.said) else "status 5 with no front"
    return f"a signal, {-got.status}" if got.status < 0 else f"status {got.status}"


class Tally:
    """How runs of a row ended, and those that ended as they may not."""

    def __init__(self, what):
        self.what, self.runs, self.statuses, self.faults = what, 0, collections.Counter(), []

    def note(self, number, got, fault):
        self.runs += 1
        self.statuses[got.status] += 1
        if fault:
            self.faults.append(f"call {number}: {fault}: {got.said[-200:]!r}")

    def tell(self):
        ends = ", ".join(f"{count} with status {status}" for status, count in sorted(self.statuses.items()))
        print(f"{self.what}: {self.runs} calls refused in turn: {ends}", flush=True)
        for fault in self.faults[:10]:
            print(f"  WRONG {fault}")
        return len(self.faults)


# ---- the built program

class Built:
    """Runs of the built program, of which one call is refused."""

    def __init__(self, program, folder):
        self.program, self.folder = os.path.abspath(program), folder
        self.mark, self.shim = os.path.join(folder, "mark"), os.path.join(folder, "refuse.so")
        subprocess.run(["cc", "-O2", "-shared", "-fPIC", "-o", self.shim, os.path.join(TOP, "bench/refuse.c")], check=True)

    def environment(self, kind, number):
        if os.path.exists(self.mark):
            os.remove(self.mark)
        return {"LD_PRELOAD": self.shim, "REFUSE": kind, "CALL": str(number), "MARK": self.mark} if kind else {}

    def run(self, arguments, kind=None, number=0):
        done = subprocess.run([self.program, *arguments], stdin=subprocess.DEVNULL, stdout=subprocess.PIPE, stderr=subprocess.DEVNULL,
                              env=self.environment(kind, number), timeout=SECONDS)
        return Ended(done.returncode, done.stdout)

    def was_refused(self):
        return os.path.exists(self.mark)

    def each(self, what, kind, run, judge):
        """Runs with call 1 refused, then 2, and so on, up to the first number that no call has."""
        tally = Tally(f"{what}, {kind}")
        for number in itertools.count(1):
            try:
                got = run(kind, number)
                fault = judge(got)
            except subprocess.TimeoutExpired:
                got, fault = Ended(-1, b""), "it hangs"
            if not self.was_refused():
                break
            tally.note(number, got, fault)
        if tally.runs < LEAST[kind]:
            tally.faults.append("too few calls were refused: is the program linked with the C library?")
        return tally.tell()

    def row(self, row):
        arguments = [row.file if word == "{}" else word for word in row.words]
        want = self.run(arguments)
        assert want.status == 0, (row.name, want)
        return sum(self.each(row.name, kind, lambda k, n: self.run(arguments, k, n), lambda got: wrong(kind, row.by_line, want.said, got))
                   for kind in LEAST)

    # ---- a server, and a device that is driven: an address that can't be had ends with 7

    def served(self, kind=None, number=0):
        """One session of a server, whose device brings three records, and what this heard down."""
        path = os.path.join(self.folder, "served.archive")
        if os.path.exists(path):
            os.remove(path)
        port = free_port()
        command = words(self.program, f"127.0.0.1:{port}", path, 1, 1)
        heard = b""
        process = subprocess.Popen(command, stdin=subprocess.DEVNULL, stdout=subprocess.PIPE, stderr=subprocess.DEVNULL,
                                   env=self.environment(kind, number))
        try:
            while process.poll() is None and not listens(port):
                time.sleep(0.002)
            if process.poll() is None:
                with socket.create_connection(("127.0.0.1", port), SECONDS) as link:
                    link.sendall(login(IMEI) + frame(TIMES))
                    link.shutdown(socket.SHUT_WR)
                    heard = whole(link, 5)
        except OSError:
            pass
        try:
            said = process.communicate(timeout=SECONDS)[0]
        except subprocess.TimeoutExpired:
            process.kill()
            process.communicate()
            raise
        self.counted, self.kept = heard == b"\1\0\0\0\3", archived(path) if os.path.exists(path) and os.path.getsize(path) > 8 else []
        return Ended(process.returncode, said)

    def is_served_wrong(self, got, want):
        if self.counted and self.kept != [(IMEI, moment) for moment in TIMES]:
            return "counted, and not archived"
        lines = rb"session 1 1 (-|%d) \w+( \w+)*\narchive records [03] devices [01]\n" % IMEI
        if got.status == 9 and re.fullmatch(rb"no memory\n|" + lines, got.said):
            return None
        if got.status == 7 and got.said == b"host fault\n":
            return None
        return wrong("alloc", False, want.said, got)

    def driven(self, kind=None, number=0):
        """A device with three records, and one connection to a peer that counts them."""
        flash, script = os.path.join(self.folder, "driven.flash"), os.path.join(EXAMPLES, "first_round.fmb")
        if os.path.exists(flash):
            os.remove(flash)
        with socket.create_server(("127.0.0.1", 0)) as door:
            def peer():
                try:
                    link = door.accept()[0]
                    with link:
                        link.settimeout(SECONDS)
                        if len(whole(link, 17)) == 17:
                            link.sendall(b"\1")
                            if len(whole(link, len(frame(TIMES)))) == len(frame(TIMES)):
                                link.sendall(b"\0\0\0\3")
                except OSError:
                    pass
            thread = threading.Thread(target=peer, daemon=True)
            thread.start()
            try:
                return self.run(["drive", "127.0.0.1:%d" % door.getsockname()[1], flash, script], kind, number)
            finally:
                if thread.is_alive():
                    # It never connected.
                    try:
                        socket.create_connection(door.getsockname(), 1).close()
                    except OSError:
                        pass
                thread.join(SECONDS)

    def is_driven_wrong(self, got, want):
        if got.status == 7 and got.said.endswith(b"host fault\n") and is_front(got.said[:-len(b"host fault\n")], want.said):
            return None
        return wrong("alloc", True, want.said, got)

    def ends(self):
        """The same of a server and of a device."""
        served = self.served()
        assert served == Ended(0, b"session 1 1 %d ended\narchive records 3 devices 1\n" % IMEI), served
        driven = self.driven()
        assert driven == Ended(0, b"round 5 done 3\nflash 0\n"), driven
        return (self.each("served", "alloc", self.served, lambda got: self.is_served_wrong(got, served))
                + self.each("driven", "alloc", self.driven, lambda got: self.is_driven_wrong(got, driven)))


# ---- the sources, by `rt try`

def tried(arguments):
    return subprocess.run(["rt", "try", *arguments], cwd=os.path.join(TOP, "crates/fmb_program"), stdin=subprocess.DEVNULL,
                          stdout=subprocess.PIPE, stderr=subprocess.STDOUT)


def all_at_once(rows):
    """Each row with each of its calls refused, by one command."""
    faults = 0
    for row in rows:
        given = ["--data", f"text={row.file}"] if row.file else []
        arguments = [*given, "--", *("text" if word == "{}" else word for word in row.words)]
        for flag in ("--fail-alloc", "--fail-io", "--short-io"):
            done = tried([flag, "1..", *arguments])
            said = done.stdout.decode(errors="replace")
            if "takes a number" in said or "older than" in said:
                sys.exit(f"this kit's `rt try` takes no `1..`: give numbers, or the built program\n{said}")
            bad = done.returncode in (1, 2, 3, 4, 5, 6)
            faults += bad
            print(f"{row.name}, {flag}: status {done.returncode}{', WRONG' if bad else ''}\n{said}", flush=True)
    return faults


SECTION = re.compile(rb"^== (\w+)\n(.*?)^allocations: .*?\ncase=\1 run=(\w+)(?: status=(\d+))?", re.M | re.S)


def sections(said):
    """What `rt try --cases` tells of each case: its output and its status, -1 where it didn't end."""
    return {name.decode(): Ended(int(status) if run == b"ended" and status else -1, text) for name, text, run, status in SECTION.findall(said)}


def one_by_one(rows, first, last, folder):
    """All rows with one allocation refused, for each number, by a build for each."""
    cases = os.path.join(folder, "cases")
    os.mkdir(cases)
    for i, row in enumerate(rows):
        with open(os.path.join(cases, f"row{i}"), "wb") as case:
            case.write(open(row.file, "rb").read() if row.file else b"")
        with open(os.path.join(cases, f"row{i}.args"), "w") as args:
            args.write("".join(f"{word}\n" for word in row.words))
    run = lambda number: sections(tried(["--fail-alloc", str(number), "--cases", cases]).stdout)
    want = run(10 ** 9)
    assert all(want.get(f"row{i}", Ended(-1, b"")).status == 0 for i in range(len(rows))), want
    tallies = [Tally(f"{row.name}, --fail-alloc") for row in rows]
    for number in range(first, last + 1):
        got = run(number)
        for i, row in enumerate(rows):
            end = got.get(f"row{i}", Ended(-1, b""))
            tallies[i].note(number, end, wrong("alloc", row.by_line, want[f"row{i}"].said, end))
    return sum(tally.tell() for tally in tallies)


def main():
    with tempfile.TemporaryDirectory() as folder:
        if sys.argv[1:2] == ["--try"]:
            numbers = [int(word) for word in sys.argv[2:]]
            faults = one_by_one(rows(folder), *numbers, folder) if numbers else all_at_once(rows(folder))
        else:
            built = Built(sys.argv[1] if len(sys.argv) > 1 else os.path.join(TOP, "crates/fmb_program/out/fmb_program"), folder)
            faults = sum(built.row(row) for row in rows(folder)) + built.ends()
    print(f"{faults} runs ended as they may not" if faults else "each run ended as it may")
    sys.exit(1 if faults else 0)


if __name__ == "__main__":
    main()
