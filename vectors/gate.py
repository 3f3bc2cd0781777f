#!/usr/bin/env python3
"""Writes what the gate plays, into crates/pomerassol: data/NAME.in and, of the lessons, NAME.out; the scripts of the
line program and of the tool calls, data/scripts/NAME.in; data/fetch.in, the lines of the tool of that name, and so on;
its args, which are pairs of a tool and a file; its stdout, which is for each pair a line "== TOOL FILE" and the answers;
and for readers notes/NAME.txt (one note for each line of a script that has one). With a folder behind it everything is
written below that folder instead.

    python3 gate.py [FOLDER]
"""

import itertools
import os
import shutil
import sys

import alpha
import bench
import calls
import csim
import details
import fetch
import generate
import mend

PROGRAM = os.path.join("crates", "pomerassol")      # both below the root of the tree
NOTES = os.path.join("vectors", "notes")
TOOLS = {"bench": bench, "details": details, "fetch": fetch}


def write_file(root, name, content):
    with open(os.path.join(root, PROGRAM, name), "wb") as f:
        f.write(content)


def scripts():
    """The lessons and then the other scripts, each with the name of its file."""
    generate.make_all()
    calls.make_all()
    names = [s.name for s in generate.ALL]
    assert len(names) == len(set(names)), "a name twice"
    for s in generate.ALL:
        if s.lesson:
            yield s, s.name
    for s in generate.ALL:
        if not s.lesson:
            yield s, "scripts/" + s.name


def main(root):
    for folder in (NOTES, os.path.join(PROGRAM, "data")):
        shutil.rmtree(os.path.join(root, folder), ignore_errors=True)
    os.makedirs(os.path.join(root, NOTES))
    os.makedirs(os.path.join(root, PROGRAM, "data", "scripts"))
    words, answers = [], []

    def play(tool, file, text, out):
        """Puts a file where the gate plays it, behind those before it."""
        write_file(root, os.path.join("data", file + ".in"), text)
        words.append("%s\n%s.in\n" % (tool, file))
        answers.append(("== %s %s.in\n" % (tool, file)).encode("ascii") + out)

    for s, file in scripts():
        text, out = s.whole()
        play(s.tool, file, text, out)
        s.write_notes(os.path.join(root, NOTES))
        if s.lesson:
            write_file(root, os.path.join("data", file + ".out"), out)
    for tool, maker in TOOLS.items():
        play(tool, tool, *maker.played())
    for tool, file, lines, told in itertools.chain(mend.cases(), csim.cases(), alpha.cases()):
        play(tool, file, b"".join(line + b"\n" for line in lines), "".join(line + "\n" for line in told).encode("ascii"))
    write_file(root, "args", "".join(words).encode("ascii"))
    write_file(root, "stdout", b"".join(answers))


if __name__ == "__main__":
    main(sys.argv[1] if sys.argv[1:] else os.path.join(os.path.dirname(os.path.abspath(__file__)), ".."))
