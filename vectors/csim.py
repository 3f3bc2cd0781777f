#!/usr/bin/env python3
"""Makes what the gate plays for M-113, exchange with +CSIM logs: csim_import.in, lines of a log, and csim_export.in, lines
of ours, with the answers of the tools csim-import and csim-export.

    python3 csim.py TOOL < LINES        # the answers of a tool to other lines

The answers come from the two functions here, a second implementation that shares nothing with the definitions or the
code; those of BY_HAND are worked out by hand from the request, and csim.py stops where the functions say otherwise.
"""

import re
import sys

LINE_CAP = 3200                                 # the most characters of a line
KINDS = {"profile": "80100000", "response": "80140000", "envelope": "80C20000"}

IMPORT_BY_HAND = [
    # The three kinds; letters of either case, blanks anywhere.
    ('AT+CSIM=14,"8010000002FFA5"', "profile FFA5"),
    ('at+csim=14,"8010000002ffa5"', "profile FFA5"),
    ('At+CsIm=14,"8010000002fFa5"', "profile FFA5"),
    ('  AT + CSIM = 1 4 , " 80 10 00 00 02 FF A 5 "  ', "profile FFA5"),
    ('AT+CSIM=36,"80C200000DD60B19010A8202828138020105"', "envelope D60B19010A8202828138020105"),
    ('AT+CSIM=34,"801400000C810301020082028281830100"', "response 810301020082028281830100"),
    ('AT+CSIM=12,"801000000100"', "profile 00"),
    ('AT+CSIM=520,"80140000FF' + "00" * 255 + '"', "response " + "00" * 255),
    # Other shapes.
    ("", "R17"), (" ", "R17"), ("AT+CSIM=", "R17"), ("AT", "R17"), ("AT+CSIM", "R17"), ("profile FFA5", "R17"),
    ('AT+CSIM=14,"', "R17"), ('AT+CSIM=14,""', "R17"), ('AT+CSIM=0,""', "R17"), ('AT+CSIM=14', "R17"),
    ('AT+CSIM=14,8010000002FFA5', "R17"), ('AT+CSIM=14,"8010000002FFA5', "R17"), ('AT+CSIM=14"8010000002FFA5"', "R17"),
    ('AT+CSIM=,"8010000002FFA5"', "R17"), ('AT+CSIM=+14,"8010000002FFA5"', "R17"), ('AT+CSIM=E,"8010000002FFA5"', "R17"),
    ('AT+CSIM=1A,"8010000002FFA5"', "R17"), ('AT+CSIM=14,"8010000002FFA5",', "R17"), ('AT+CSIM=14,"8010000002FFA5""', "R17"),
    ('AT+CSIM=14,""8010000002FFA5"', "R17"), ('AT+CSIM=14,"8010000002FFA5"\r', "R17"), ('\tAT+CSIM=14,"8010000002FFA5"', "R17"),
    ('AT+CSIM=14,"8010000002FFA5\t"', "R17"), ('AT+CSIM=14,"8010000002FFG5"', "R17"), ('AT+CRSM=14,"8010000002FFA5"', "R17"),
    ("AT+CSIM=14,'8010000002FFA5'", "R17"), ('xAT+CSIM=14,"8010000002FFA5"', "R17"), ('AT+CSIM=14;"8010000002FFA5"', "R17"),
    # A zero in front, odd digits, another header, no data: R17 before the counts.
    ('AT+CSIM=014,"8010000002FFA5"', "R17"), ('AT+CSIM=00,"8010000002FFA5"', "R17"), ('AT+CSIM=0 14,"8010000002FFA5"', "R17"),
    ('AT+CSIM=013,"8010000002FFA"', "R17"), ('AT+CSIM=13,"8010000002FFA"', "R17"), ('AT+CSIM=14,"8010000002FFA"', "R17"),
    ('AT+CSIM=14,"8012000002FFA5"', "R17"), ('AT+CSIM=14,"A010000002FFA5"', "R17"), ('AT+CSIM=14,"8010010002FFA5"', "R17"),
    ('AT+CSIM=14,"8010000102FFA5"', "R17"), ('AT+CSIM=99,"8012000002FFA5"', "R17"), ('AT+CSIM=10,"8010000002"', "R17"),
    ('AT+CSIM=10,"8010000000"', "R17"), ('AT+CSIM=99,"8010000002"', "R17"), ('AT+CSIM=8,"80100000"', "R17"), ('AT+CSIM=2,"80"', "R17"),
    # The count.
    ('AT+CSIM=0,"8010000002FFA5"', "R18"), ('AT+CSIM=7,"8010000002FFA5"', "R18"), ('AT+CSIM=13,"8010000002FFA5"', "R18"),
    ('AT+CSIM=15,"8010000002FFA5"', "R18"), ('AT+CSIM=140,"8010000002FFA5"', "R18"), ('AT+CSIM=4,"8010000002FFA5"', "R18"),
    ('AT+CSIM=20,"80 10 00 00 02 FF A5"', "R18"), ('AT+CSIM=256000000000000000014,"8010000002FFA5"', "R18"),
    ('AT+CSIM=18446744073709551630,"8010000002FFA5"', "R18"), ('AT+CSIM=4294967310,"8010000002FFA5"', "R18"),
    ('AT+CSIM=' + "9" * 3000 + ',"8010000002FFA5"', "R18"),
    # P3; a trailing Le is data.
    ('AT+CSIM=14,"8010000003FFA5"', "R18"), ('AT+CSIM=14,"8010000001FFA5"', "R18"), ('AT+CSIM=14,"8010000000FFA5"', "R18"),
    ('AT+CSIM=16,"80C2000002FFA500"', "R18"), ('AT+CSIM=522,"8014000000' + "00" * 256 + '"', "R18"),
    ('AT+CSIM=522,"80140000FF' + "00" * 256 + '"', "R18"),
    # The limit of the tool: 3200 characters, blanks among them.
    (" " * 3173 + 'AT+CSIM=14,"8010000002FFA5"', "profile FFA5"), (" " * 3174 + 'AT+CSIM=14,"8010000002FFA5"', "R17"),
    ('AT+CSIM=' + "9" * 3177 + ',"8010000002FF"', "R18"), ('AT+CSIM=' + "9" * 3178 + ',"8010000002FF"', "R17"),
    ("A" * 8001, "R17"),
]

EXPORT_BY_HAND = [
    ("profile FFA5", 'AT+CSIM=14,"8010000002FFA5"'), ("response FFA5", 'AT+CSIM=14,"8014000002FFA5"'),
    ("envelope FFA5", 'AT+CSIM=14,"80C2000002FFA5"'), ("profile ffA5", 'AT+CSIM=14,"8010000002FFA5"'),
    ("envelope D60B19010A8202828138020105", 'AT+CSIM=36,"80C200000DD60B19010A8202828138020105"'),
    ("profile 00", 'AT+CSIM=12,"801000000100"'), ("profile " + "00" * 44, 'AT+CSIM=98,"801000002C' + "00" * 44 + '"'),
    ("profile " + "00" * 45, 'AT+CSIM=100,"801000002D' + "00" * 45 + '"'),
    ("response " + "7f" * 255, 'AT+CSIM=520,"80140000FF' + "7F" * 255 + '"'), ("response " + "7F" * 256, "R17"),
    ("", "R17"), ("profile", "R17"), ("profile ", "R17"), ("profile  FFA5", "R17"), (" profile FFA5", "R17"),
    ("profile FFA5 ", "R17"), ("profile FF A5", "R17"), ("profile FFA", "R17"), ("profile FG", "R17"), ("profileFFA5", "R17"),
    ("profile\tFFA5", "R17"), ("Profile FFA5", "R17"), ("PROFILE FFA5", "R17"), ("profil FFA5", "R17"), ("profiles FFA5", "R17"),
    ("command FFA5", "R17"), ("FFA5", "R17"), ("profile FFA5\r", "R17"), ("response envelope FFA5", "R17"),
    ('AT+CSIM=14,"8010000002FFA5"', "R17"), ("profile " + "0" * 3192, "R17"), ("profile " + "0" * 3193, "R17"),
]


def import_line(line):
    """Our line for one of a log."""
    if len(line) > LINE_CAP:
        return "R17"
    found = re.fullmatch(rb'AT\+CSIM=(0|[1-9][0-9]*),"((?:[0-9A-F]{2})*)"', line.replace(b" ", b"").upper())
    if not found:
        return "R17"
    count, digits = (part.decode("ascii") for part in found.groups())
    kind = next((name for name, header in KINDS.items() if digits.startswith(header)), None)
    p3, data = digits[8:10], digits[10:]
    if kind is None or not data:
        return "R17"
    if count != str(len(digits)) or int(p3, 16) * 2 != len(data):
        return "R18"
    return kind + " " + data


def export_line(line):
    """The line of a log for one of ours."""
    found = re.fullmatch(rb"([a-z]+) ((?:[0-9A-Fa-f]{2}){1,255})", line)
    if len(line) > LINE_CAP or not found or found[1].decode("ascii") not in KINDS:
        return "R17"
    data = found[2].decode("ascii").upper()
    digits = "%s%02X%s" % (KINDS[found[1].decode("ascii")], len(data) // 2, data)
    return 'AT+CSIM=%d,"%s"' % (len(digits), digits)


def changed(line):
    """A line cut at each character, with each left out, and with others in its place and before it."""
    for k in range(len(line) + 1):
        yield line[:k]
        yield line[:k] + line[k + 1:]
        for c in b' \t\r",=+0189AFGafgz\0\x80\xff':
            yield line[:k] + bytes([c]) + line[k:]
            yield line[:k] + bytes([c]) + line[k + 1:]


def import_lines():
    yield from (line.encode("latin-1") for line, _ in IMPORT_BY_HAND)
    for kind in KINDS:
        for size in (1, 2, 9, 39, 40, 44, 45, 127, 128, 254, 255):
            line = export_line(("%s %s" % (kind, "5A" * size)).encode("ascii")).encode("ascii")
            yield line
            yield line.lower()
            yield b" ".join(bytes([c]) for c in line)
    for count in range(30):
        for p3 in range(5):
            yield b'AT+CSIM=%d,"80C20000%02XFFA5"' % (count, p3)
    yield from changed(b'AT+CSIM=14,"8014000002FFA5"')
    yield from changed(b'at+csim=12,"80c2000001 5a"')


def export_lines():
    yield from (line.encode("latin-1") for line, _ in EXPORT_BY_HAND)
    for size in range(258):
        kind = list(KINDS)[size % 3]
        yield b"%s %s" % (kind.encode("ascii"), b"c3" * size)
    yield from changed(b"profile FFA5")
    yield from changed(b"envelope 5a")


TOOLS = {"csim-import": import_line, "csim-export": export_line}


def check():
    """Stops where a line worked out by hand has another answer."""
    for tool, wants in (("csim-import", IMPORT_BY_HAND), ("csim-export", EXPORT_BY_HAND)):
        for line, want in wants:
            got = TOOLS[tool](line.encode("latin-1"))
            if got != want:
                raise SystemExit("%s %r\n got  %s\n want %s" % (tool, line[:80], got[:80], want[:80]))


def cases():
    """Each tool with the name of its file, its lines, and their answers."""
    check()
    for tool, name, lines in (("csim-import", "csim_import", import_lines()), ("csim-export", "csim_export", export_lines())):
        seen = [line for line in dict.fromkeys(lines) if b"\n" not in line]
        yield tool, name, seen, [TOOLS[tool](line) for line in seen]


if __name__ == "__main__":
    for one in sys.stdin.buffer.read().split(b"\n")[:-1]:
        print(TOOLS[sys.argv[1]](one))
