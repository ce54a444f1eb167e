#!/usr/bin/env python3
"""Acquires over 1,000,000 and 2,000,000 fixes with eight I/O settings, and shows the time, the memory and their ratios.

Usage: bench/acquisition.py [PROGRAM]; PROGRAM is the built one, crates/timings/out/timings by default (`rt run` in its folder builds it).
Wanted: under 2 seconds for 1,000,000 fixes on one core, twice the time for twice the fixes, and the same memory.
"""
from measure import best, program, times

PROGRAM = program("timings")


def spent(fixes):
    took = best([PROGRAM, "acquisition", str(fixes)])
    assert took.said == f"{fixes} {fixes // 10}\n", took
    print(f"{fixes} fixes: {took.elapsed:.2f} s, {took.memory:.1f} MB")
    return took


once, twice = spent(1_000_000), spent(2_000_000)
print(f"twice the fixes: {times(twice.elapsed, once.elapsed)} the time, {times(twice.memory, once.memory)} the memory")
