#!/usr/bin/env python3
"""Holds a mending tool to vectors/mend.py: gives it the lines of the gate and seeded random ones, and compares each answer.
The words are the tool's command: mend.c compiled, or the program.

    python3 compare/mend.py target/compare/mend
    python3 compare/mend.py ./pomerassol mend
"""

import os
import subprocess
import sys

ROOT = os.path.join(os.path.dirname(os.path.abspath(__file__)), "..")
sys.dont_write_bytecode = True
sys.path.insert(0, os.path.join(ROOT, "vectors"))

import mend

SEEDS = (1, 2, 3)
LINES = 20000       # of a seed


def main():
    if not sys.argv[1:]:
        sys.exit("usage: python3 compare/mend.py TOOL")
    lines = list(mend.lines()) + [line for seed in SEEDS for line in mend.random_lines(seed, LINES)]
    done = subprocess.run(sys.argv[1:], input=b"".join(line + b"\n" for line in lines), stdout=subprocess.PIPE)
    if done.returncode != 0:
        sys.exit("the tool ended with status %d" % done.returncode)
    answers = done.stdout.decode().splitlines()
    wanted = [mend.answer(line) for line in lines]
    for line, want, got in zip(lines, wanted, answers + ["none"] * len(lines)):
        if want != got:
            print("DIFFERENCE: an answer of the tool is not that of vectors/mend.py")
            print("line:   %s" % line[:200].decode())
            print("vector: %s" % want[:200])
            print("tool:   %s" % got[:200])
            sys.exit(1)
    print("%d lines, %d of them mended: the answers are alike" % (len(lines), sum(want[0] != "R" for want in wanted)))


if __name__ == "__main__":
    main()
