#!/usr/bin/env python3
"""A made script, by the rules alone: PCG32 as M. O'Neill describes it (XSH RR 64/32), and seeded from a number as Rust's `rand_core` does.

Usage: made.py SEED DEVICES FIXES > FILE
"""
import sys

M64 = (1 << 64) - 1
M32 = (1 << 32) - 1
MULTIPLIER = 6364136223846793005
SEED_INCREMENT = 11634580027462260723  # of rand_core's `seed_from_u64`
TEARS = ("keep", "new", "zero", "open", "half")


def xsh_rr(state):
    """The word of a state: xorshift high, then a rotation to the right by the five highest bits."""
    word = (((state >> 18) ^ state) >> 27) & M32
    turn = state >> 59
    return ((word >> turn) | (word << (32 - turn))) & M32


class Pcg32:
    def __init__(self, seed):
        words = []
        for _ in range(4):
            seed = (seed * MULTIPLIER + SEED_INCREMENT) & M64
            words.append(xsh_rr(seed))
        self.increment = (words[2] | words[3] << 32) | 1
        self.state = ((words[0] | words[1] << 32) + self.increment) & M64
        self.step()

    def step(self):
        self.state = (self.state * MULTIPLIER + self.increment) & M64

    def draw(self, n):
        word = xsh_rr(self.state)
        self.step()
        return word % n


def made(seed, devices, fixes):
    rng = Pcg32(seed)
    imei = lambda d: 350000000000000 + d
    for d in range(1, devices + 1):
        codec = {1: "8", 2: "8E", 0: "16"}[d % 3]
        yield f"device {imei(d)} {codec} 64 oldest 10000 100 15 10 known"
        yield f"io {imei(d)} 239 1 change 0 0 1"
        yield f"io {imei(d)} 66 2 hysteresis 11000 15000 2"
    time = 1560000000000
    odometer = dict.fromkeys(range(1, devices + 1), 0)
    angle = dict.fromkeys(range(1, devices + 1), 0)
    rounds = 0
    for _ in range(fixes):
        d = 1 + rng.draw(devices)
        time += 1000
        speed = rng.draw(120)
        odometer[d] += speed // 3
        angle[d] = (angle[d] + rng.draw(31)) % 360
        longitude = 250000000 + rng.draw(1000000)
        latitude = 546000000 + rng.draw(1000000)
        ignition = 0 if rng.draw(8) == 0 else 1
        voltage = 10000 + rng.draw(6000)
        yield f"fix {imei(d)} {time} {longitude} {latitude} 100 {angle[d]} 9 {speed} {odometer[d]} {ignition} {voltage}"
        r = rng.draw(16)
        if r <= 3:
            piece = 1 + rng.draw(64)
            rounds += 1
            yield f"round {imei(d)} {piece} - -"
        elif r == 4:
            piece = 1 + rng.draw(64)
            up = rng.draw(200)
            rounds += 1
            yield f"round {imei(d)} {piece} {up} -"
            yield f"late {rounds} -"
            yield f"close {rounds}"
        elif r == 5:
            yield f"power {imei(d)}"
        elif r == 6:
            calls = rng.draw(8)
            yield f"fuse {imei(d)} {calls} {TEARS[rng.draw(5)]}"
        elif r == 7:
            calls = rng.draw(4)
            yield f"fuse server {calls} {TEARS[rng.draw(5)]}"
    for d in range(1, devices + 1):
        yield f"drain {imei(d)} 512"
        yield f"drain {imei(d)} 512"


if __name__ == "__main__":
    sys.stdout.write("\n".join(made(*map(int, sys.argv[1:]))))
