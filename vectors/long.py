#!/usr/bin/env python3
"""Prints a script of N lines behind the profile: sends, receives, arrivals, takes, openings and
closings over seven channels, mixed by a fixed seed. With "answers" behind N it prints what the
script must be answered with instead.

    python3 long.py 200000 > script
    python3 long.py 200000 answers > answers
"""

import sys

import oracle
from generate import PROFILE_7, Rng, arr, close, hx, open_, recv, send, status, take


def line(rng):
    channel = rng.between(1, 7)
    what = rng.below(16)
    if what < 4:
        return send(channel, rng.bytes(rng.between(0, 200)), q=rng.below(2))
    if what < 8:
        return recv(channel, rng.below(256))
    if what < 11:
        return arr(channel, rng.bytes(rng.between(0, 300)))
    if what < 14:
        return take(channel, rng.between(0, 600))
    if what == 14:
        return open_(rng.between(1, 1500), q=rng.below(4) != 0 and 1 or 0)
    return close(channel) if rng.below(3) else status()


def main():
    count = int(sys.argv[1])
    rng = Rng(7)
    session, _ = oracle.start(PROFILE_7.encode("ascii"))
    answers = sys.argv[2:] == ["answers"]
    if not answers:
        print(PROFILE_7)
    for _ in range(count):
        text = hx(line(rng))
        print(oracle.run_line(session, text.encode("ascii")) if answers else text)


if __name__ == "__main__":
    main()
