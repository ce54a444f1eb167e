#!/usr/bin/env python3
"""Works a flash ring of 4,096 slots and a medium, both in memory, and shows the time, the memory and their ratios.

Usage: bench/ring.py [PROGRAM]; PROGRAM is the built one, crates/timings/out/timings by default (`rt run` in its folder builds it).
Wanted: under 5 seconds for 100,000 `put` and `release` one by one, for as many `put` with a `select` and a `release` after
each 40 of them, and for as many into a full ring with `make_room` before each; twice the calls in twice the time; under
0.2 ms for a `select` over 4,096 full slots; under 500 MB for a medium of 64 MB. Each KiB written to that medium is synced:
that twice the size takes twice the time shows that a sync costs what was written since the last one, and not the content.
"""
from measure import best, program, times

PROGRAM = program("timings")


def spent(mode, calls):
    took = best([PROGRAM, mode, str(calls)])
    assert took.said.split()[0] == str(calls), took
    return took.elapsed, took.memory


for mode, calls in (("release", 100_000), ("rounds", 100_000), ("overwrite", 100_000), ("medium", 32 * 1024)):
    begin, _ = spent(mode, 0)
    (seconds, megabytes), (twice, more) = spent(mode, calls), spent(mode, 2 * calls)
    print(f"{mode} {calls}: {seconds:.2f} s, {megabytes:.1f} MB; {2 * calls}: {twice:.2f} s, {more:.1f} MB, "
          f"{times(twice - begin, seconds - begin)} the time less that of the beginning")
begin, _ = spent("select", 0)
seconds, _ = spent("select", 4000)
print(f"select over 4,096 full slots: {(seconds - begin) / 4000 * 1000:.3f} ms")
