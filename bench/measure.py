"""Runs a built program and measures it, for the scripts beside this file."""
import ctypes, os, subprocess, sys, time
from typing import NamedTuple

TOP = os.path.dirname(os.path.dirname(os.path.abspath(__file__)))


class Spent(NamedTuple):
    """What a run took, in seconds and MB, and how it ended."""
    elapsed: float
    user: float
    busy: float  # user and system
    memory: float  # the most at once
    status: int
    said: str


def program(crate):
    """The program to measure: the script's argument, or what `rt run` builds of the crate."""
    return sys.argv[1] if len(sys.argv) > 1 else os.path.join(TOP, "crates", crate, "out", crate)


# The most memory of a program counts what the process that starts it had. So a shell starts it, which has less than this one, and ends;
# then the program is a child of this process, as a subreaper of Linux.
PR_SET_CHILD_SUBREAPER = 36
ctypes.CDLL(None).prctl(PR_SET_CHILD_SUBREAPER, 1)
START = ["/bin/sh", "-c", 'exec 3<&0; "$@" <&3 3<&- &', "sh"]


def run(command, given="", out=None):
    """One run, with this text as its input. What it prints goes to the file `out`, or is what it said."""
    with open(out or os.devnull, "wb") as file:
        begun = time.monotonic()
        shell = subprocess.Popen(START + command, stdin=subprocess.PIPE, stdout=file if out else subprocess.PIPE)
        shell.stdin.write(given.encode())
        shell.stdin.close()
        said = "" if out else shell.stdout.read().decode()
        shell.wait()
        _, status, usage = os.wait4(-1, 0)
        elapsed = time.monotonic() - begun
    return Spent(elapsed, usage.ru_utime, usage.ru_utime + usage.ru_stime, usage.ru_maxrss / 1024, os.waitstatus_to_exitcode(status), said)


def in_turn(commands, given="", runs=3):
    """The least of each measure, for each command and the file that it prints to, over some rounds in which all run in turn, so that a
    slow spell of the machine meets all of them. All runs end with status 0, and those of one command say the same."""
    rounds = [[run(command, given, out) for command, out in commands] for _ in range(runs)]
    for done in zip(*rounds):
        assert {(r.status, r.said) for r in done} == {(0, done[0].said)}, done
    return [Spent(*(min(measures) for measures in zip(*done))) for done in zip(*rounds)]


def best(command, given="", out=None, runs=3):
    """The same of one command."""
    return in_turn([(command, out)], given, runs)[0]


def times(more, less):
    """The ratio of two measures, as it is printed."""
    return f"{more / less:.2f} times"
