#!/usr/bin/env python3
"""Admits 20,000 packets of 40 records over a medium in memory by 1, 2, 4 and 64 seats of one desk, each in a thread of its own, and
shows the calls a second.

Usage: bench/desk.py [PROGRAM]; PROGRAM is the built one, crates/timings/out/timings by default (`rt run` in its folder builds it).
Wanted: with more seats at most twice the time a call of one seat.
"""
from measure import in_turn, program, times

PROGRAM = program("timings")
CALLS = 20_000
SEATS = 1, 2, 4, 64

all_took = in_turn([([PROGRAM, "desk", str(CALLS), str(seats)], None) for seats in SEATS])
for seats, took in zip(SEATS, all_took):
    calls = CALLS // seats * seats
    assert took.said == f"{calls} {seats}\n", took
    longer = times(took.elapsed, all_took[0].elapsed)
    print(f"{seats} seats: {calls / took.elapsed:,.0f} calls a second, {longer} the time of one seat")
