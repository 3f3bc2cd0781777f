#!/usr/bin/env python3
"""Holds reference.c to vectors/oracle.py: plays every script of the gate, those of the tool calls too,
and thirty seeded histories through both, and compares each line of the answers. The words are the
command of the player, which is play.c compiled with reference.c.

    python3 compare/play.py target/compare/play
"""

import os
import subprocess
import sys

ROOT = os.path.join(os.path.dirname(os.path.abspath(__file__)), "..")
PROGRAM = os.path.join(ROOT, "crates", "pomerassol")
sys.dont_write_bytecode = True
sys.path.insert(0, os.path.join(ROOT, "vectors"))

import calls
import generate
import oracle

LINES = 5000        # of a history
BYTES = 400000      # that go in and out of a history of streams, about


# The tools that are played, with what a line of each prints by the oracle.
LINE_OF = {"lines": oracle.run_line, "calls": oracle.calls_line}


def scripts():
    """Each script that the gate plays by one of the tools: the tool, the script's file and its bytes."""
    with open(os.path.join(PROGRAM, "args")) as f:
        words = f.read().split()
    for tool, name in zip(words[::2], words[1::2]):
        if tool in LINE_OF:
            with open(os.path.join(PROGRAM, "data", name), "rb") as f:
                yield tool, name, f.read()


def histories():
    """Seeded histories of streams, of both kinds and of timers, of four channels and of seven in turn: the tool, the name
    and the bytes of each."""
    for seed in range(1, 11):
        profile = generate.TIMED_7 if seed % 2 else generate.TIMED
        for script in (generate.history("seed %d of streams" % seed, profile, seed, LINES, BYTES),
                       generate.both_kinds("seed %d of both kinds" % seed, profile, seed, LINES),
                       calls.history("seed %d of timers" % seed, profile, seed, LINES)):
            yield script.tool, script.name, b"\n".join(script.lines) + b"\n"


def shown(lines, at):
    """A line to be read, of a long one its beginning; "none" where there is none."""
    line = lines[at] if at < len(lines) else b""
    return line[:200].decode("ascii", "backslashreplace") or "none"


def differ(name, text, asked, got):
    """Reports the first difference and ends."""
    lines, *answers = [oracle.split_lines(raw) for raw in (text, asked, got)]
    number = next((i for i, pair in enumerate(zip(*answers)) if pair[0] != pair[1]), min(map(len, answers)))
    silent = lines and oracle.start(lines[0])[1] is None    # a profile that is read prints nothing
    at = number + 1 if silent else number
    print("DIFFERENCE: an answer of the reference is not the oracle's")
    print("%s, line %d" % (name, at + 1))
    print("line:      %s" % shown(lines, at))
    print("oracle:    %s" % shown(answers[0], number))
    print("reference: %s" % shown(answers[1], number))
    sys.exit(1)


def hold(player, tool, name, text):
    """Plays one script on both sides; the count of its answers."""
    done = subprocess.run([*player, tool], input=text, stdout=subprocess.PIPE)
    if done.returncode != 0:
        sys.exit("%s: the player ended with status %d" % (name, done.returncode))
    asked = oracle.run(text, LINE_OF[tool])
    if done.stdout != asked:
        differ(name, text, asked, done.stdout)
    return asked.count(b"\n")


def main():
    if not sys.argv[1:]:
        sys.exit("usage: python3 compare/play.py PLAYER")
    played = [hold(sys.argv[1:], *script) for script in scripts()]
    made = [hold(sys.argv[1:], *history) for history in histories()]
    print("%d scripts with %d answers and %d histories with %d: the reference answers as the oracle does"
          % (len(played), sum(played), len(made), sum(made)))


if __name__ == "__main__":
    main()
