#!/usr/bin/env python3
"""steps.py NAME FILE FILE: how often each instruction ran, by two files of callgrind, one against the other.

Prints the name and the count of each file; where an instruction ran more often in one than in the other, its function and
its address, and the exit status is 1. The files come from --dump-instr=yes --compress-pos=no --compress-strings=no.
"""
import re
import sys


def read(path):
    """The runs of each instruction, by its address, and the function that it stands in."""
    runs, names, name, callee = {}, {}, None, False
    for line in open(path, encoding='utf-8'):
        if line.startswith('fn='):
            name = line[3:].strip()
        elif line.startswith('calls='):
            callee = True
        elif re.match(r'0x[0-9a-f]+ ', line):
            if not callee:
                address, _, count = line.split()[:3]
                runs[address] = runs.get(address, 0) + int(count)
                names[address] = name
            callee = False
    return runs, names


(one, names), (two, more) = read(sys.argv[2]), read(sys.argv[3])
names.update(more)
print(f'{sys.argv[1]}: {sum(one.values())} and {sum(two.values())} instructions inside the library, at {len(one.keys() | two.keys())} addresses')
other = sorted(a for a in one.keys() | two.keys() if one.get(a, 0) != two.get(a, 0))
if not other:
    sys.exit(0)
print('DIFFERENCE')
for name in sorted({names[a] for a in other}):
    at = [a for a in other if names[a] == name]
    print(f'in {name}, at ' + ', '.join(f'{a} ({one.get(a, 0)} and {two.get(a, 0)} times)' for a in at[:4]))
sys.exit(1)
