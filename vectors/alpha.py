#!/usr/bin/env python3
"""Makes what the gate plays for M-106, alpha identifiers: alpha_read.in, values of object 05, and alpha_write.in, lines of
16-bit units, with the answers of the tools alpha-read and alpha-write.

    python3 alpha.py TOOL < LINES       # the answers of a tool to other lines
    python3 alpha.py table              # the two tables held to those of Perl's Encode, where the machine has it

The answers come from the functions here, a second implementation that shares nothing with the definitions or the code;
those of BY_HAND are worked out by hand from the request, and alpha.py stops where the functions say otherwise.
"""

import re
import subprocess
import sys

# The base table of TS 23.038, a row for each sixteen codes; at 1B stands the escape itself.
BASE = ("@£$¥èéùìòÇ\nØø\rÅå" "Δ_ΦΓΛΩΠΨΣΘΞ\x1bÆæßÉ" " !\"#¤%&'()*+,-./" "0123456789:;<=>?"
        "¡ABCDEFGHIJKLMNO" "PQRSTUVWXYZÄÖÑÜ§" "¿abcdefghijklmno" "pqrstuvwxyzäöñüà")
EXTENSION = {0x0A: "\f", 0x14: "^", 0x28: "{", 0x29: "}", 0x2F: "\\", 0x3C: "[", 0x3D: "~", 0x3E: "]", 0x40: "|", 0x65: "€"}
CODE = {ord(c): bytes([k]) for k, c in enumerate(BASE) if k != 0x1B}
LONG_CODE = {ord(c): bytes([0x1B, k]) for k, c in EXTENSION.items()}
LINE_CAP = 1600                                 # the most bytes to read, and the most units to write

READ_BY_HAND = [
    # No bytes, and blanks that are none.
    ("", "--"), (" ", "R9"), ("--", "R9"),
    # 80: pairs, high byte first; an odd byte over must be FF; surrogates and FFFF are units.
    ("80", "--"), ("800041", "0041"), ("804100", "4100"), ("800041FF", "0041"), ("80004100", "R13"), ("800041FE", "R13"),
    ("80FF", "--"), ("8000", "R13"), ("80D83D", "D83D"), ("80FFFF", "FFFF"), ("800041FFFF", "0041 FFFF"),
    ("800041FFFFFF", "0041 FFFF"), ("80FFFE0000", "FFFE 0000"), ("8000411B00", "0041 1B00"),
    # 81: count, base, bytes; the byte of the base is bits 15 to 8 of a pointer whose top bit is 0.
    ("8105135395A680FF", "0053 0995 09A6 0980 09FF"), ("8105135395A680FFFF", "0053 0995 09A6 0980 09FF"),
    ("8105135395A680FFFFFF", "0053 0995 09A6 0980 09FF"), ("8105135395A680FF00", "R13"), ("8105135395A680FFFF00", "R13"),
    ("8102084190", "0041 0410"), ("81010880", "0400"), ("810108FF", "047F"), ("81010080", "0000"),
    ("8101FFFF", "7FFF"), ("8101FF80", "7F80"), ("8101009B", "001B"), ("81010000", "0040"), ("8101007F", "00E0"),
    # Fewer bytes than the count says, and a byte behind them that is not FF.
    ("8103004141", "R13"), ("810100", "R13"), ("8101004141", "R13"), ("81010041FF", "0041"), ("8101", "R13"), ("81", "R13"),
    ("8100", "R13"), ("810000", "--"), ("810000FF", "--"), ("81000041", "R13"), ("81FF00" + "41" * 255, " ".join(["0041"] * 255)),
    ("81FF00" + "41" * 254, "R13"),
    # In 81 and 82 the escape is malformed, wherever it stands.
    ("8101001B", "R13"), ("8102001B65", "R13"), ("810200801B", "R13"), ("820200001B65", "R13"), ("8201FFFF1B", "R13"),
    # Behind the bytes of the count it is no padding.
    ("810100411B", "R13"),
    # 82: a base of two bytes; a sum over FFFF.
    ("8202FF8041FF", "0041 FFFF"), ("8201FF81FF", "R13"), ("8201FF81FE", "FFFF"), ("8201FFFF80", "FFFF"), ("8201FFFF81", "R13"),
    ("8201FFFF41", "0041"), ("8201041090", "0420"), ("8201000080", "0000"), ("8200", "R13"), ("820000", "R13"), ("82000000", "--"),
    ("82", "R13"), ("8201", "R13"), ("820104", "R13"), ("82010410", "R13"), ("8202041090", "R13"), ("820104109000", "R13"),
    ("8201041090FF", "0420"),
    # The default alphabet; 09 is the capital; FF ends it, and what is behind is not looked at.
    ("4869", "0048 0069"), ("00", "0040"), ("09", "00C7"), ("10", "0394"), ("7F", "00E0"), ("24", "00A4"), ("40", "00A1"),
    ("41FF42", "0041"), ("41FF1B", "0041"), ("41FF80", "0041"), ("FF", "--"), ("FF41", "--"), ("FFFF", "--"), ("41FFFF", "0041"),
    # The extension table; any other code is unassigned, 0D and 1B too.
    ("1B651B3C", "20AC 005B"), ("1B0A", "000C"), ("1B14", "005E"), ("1B28", "007B"), ("1B29", "007D"), ("1B2F", "005C"),
    ("1B3D", "007E"), ("1B3E", "005D"), ("1B40", "007C"), ("1B0D", "R13"), ("1B1B", "R13"), ("1B1B65", "R13"), ("1B41", "R13"),
    ("1B00", "R13"), ("1B80", "R13"), ("411B65FF", "0041 20AC"),
    # A dangling escape, at the end and before the padding.
    ("1B", "R13"), ("411B", "R13"), ("1BFF", "R13"), ("411BFF", "R13"), ("1BFF65", "R13"),
    # Bytes 80 to FE inside a default text; as the first byte 83 to FE are no marks either.
    ("4180", "R13"), ("4181", "R13"), ("41FE", "R13"), ("83", "R13"), ("FE", "R13"), ("83FF", "R13"), ("A041", "R13"),
    # Digits of either case; lines of another form; the most bytes.
    ("1b651B3c", "20AC 005B"), ("4", "R9"), ("486", "R9"), ("4X", "R9"), ("48 69", "R9"), ("48\r", "R9"),
    ("41" * 1600, " ".join(["0041"] * 1600)), ("41" * 1601, "R9"), ("1B65" * 800, " ".join(["20AC"] * 800)),
    ("1B" + "41" * 1599, "R13"), ("1B" * 1601, "R9"), ("80" + "0041" * 799 + "FF", " ".join(["0041"] * 799)),
]

WRITE_BY_HAND = [
    # None, and both forms of none.
    ("", "--"), ("--", "--"), ("---", "R9"), ("-", "R9"), ("-- ", "R9"), (" --", "R9"),
    # Default where every unit has a code; extension characters are two bytes.
    ("0041 20AC", "411B65"), ("0040", "00"), ("00C7", "09"), ("000A", "0A"), ("000C", "1B0A"), ("00A4", "24"), ("0394", "10"),
    ("20AC 20AC 20AC", "1B651B651B65"),
    # Four extension characters are one byte longer than 81 where one block has them: three on a tie stay default.
    ("005B 005B 005B", "1B3C1B3C1B3C"), ("005B 005B 005B 005B", "810400DBDBDBDB"),
    ("20AC 20AC 20AC 20AC", "810441ACACACAC"), ("0041 005B 005B 005B", "411B3C1B3C1B3C"),
    # Four of two blocks have a default of 8 and an 82 of 8 at best, but no base reaches both: default.
    ("005B 005B 005B 20AC", "1B3C1B3C1B3C1B65"), ("005B 005B 005B 005B 20AC", "1B3C1B3C1B3C1B3C1B65"),
    # 80: three bytes and more for each; a unit without a code.
    ("00E7", "8000E7"), ("00C8", "8000C8"), ("0000", "800000"), ("FFFF", "80FFFF"), ("D83D DE00", "80D83DDE00"), ("001B", "80001B"),
    ("0041 00E7", "80004100E7"),
    # 81 from three units on: 3 + 3 are fewer than 1 + 6.
    ("0410 0042 0411", "810308904291"), ("00E7 00E7 00E7", "810301E7E7E7"), ("0410 0410", "8004100410"),
    ("0042 0410 005B", "8000420410005B"), ("7F80 7F80 7FFF", "8103FF8080FF"), ("0001 0001 007F", "8103008181FF"),
    # A unit with a code is written as that code, and a block begins at a multiple of 80 below 8000.
    ("8000 8000 8000", "80800080008000"), ("8000 8000 8000 8000", "82047F81FFFFFFFF"),
    # 82: on a tie with 80 it is 80; from four units on it is shorter.
    ("03F0 0410 0042", "8003F004100042"), ("03F0 0410 0042 0043", "82040391DFFF4243"),
    ("0041 FFFF FFFE FFFD", "8204FF8041FFFEFD"), ("FFFF FFFF FFFF FFFF", "8204FF80FFFFFFFF"),
    # The lowest base that serves, 0 at least; the most that a base reaches.
    ("0001 0080 0001 0001", "8204000180FF8080"),
    ("0000 0080 0001 0001", "800000008000010001"),
    # More than 255 units.
    (" ".join(["0410"] * 255), "81FF08" + "90" * 255), (" ".join(["0410"] * 256), "80" + "0410" * 256),
    (" ".join(["8000"] * 255), "82FF7F81" + "FF" * 255), (" ".join(["8000"] * 256), "80" + "8000" * 256),
    (" ".join(["0041"] * 256), "41" * 256), (" ".join(["20AC"] * 256), "1B65" * 256), (" ".join(["20AC"] * 255), "81FF41" + "AC" * 255),
    # Digits of either case; lines of another form.
    ("0041 20ac", "411B65"), ("00e7", "8000E7"), ("R13", "R9"), ("R9", "R9"), ("0041 ", "R9"), (" 0041", "R9"), ("0041  0042", "R9"),
    ("004", "R9"), ("00410042", "R9"), ("0041,0042", "R9"), ("00G1", "R9"), ("0041 004", "R9"), ("0041\r", "R9"), (" ", "R9"), ("0041 --", "R9"),
    # The most units: 7999 characters.
    (" ".join(["0041"] * 1600), "41" * 1600), (" ".join(["00E7"] * 1600), "80" + "00E7" * 1600), (" ".join(["0041"] * 1601), "R9"),
    ("0" * 7999, "R9"), ("0" * 8001, "R9"),
]


def based(body, count, pointer):
    """The units behind the head of 81 or 82, or None."""
    if len(body) < count or body[count:].strip(b"\xff"):
        return None
    out = []
    for b in body[:count]:
        if b == 0x1B or b >= 0x80 and pointer + b - 0x80 > 0xFFFF:
            return None
        out.append(pointer + b - 0x80 if b >= 0x80 else ord(BASE[b]))
    return out


def read(value):
    """The units of a value, or None."""
    if value[:1] == b"\x80":
        if len(value) % 2 == 0 and value[-1] != 0xFF:
            return None
        return [value[k] << 8 | value[k + 1] for k in range(1, len(value) - 1, 2)]
    if value[:1] == b"\x81":
        return based(value[3:], value[1], value[2] << 7) if len(value) >= 3 else None
    if value[:1] == b"\x82":
        return based(value[4:], value[1], value[2] << 8 | value[3]) if len(value) >= 4 else None
    out, left = [], list(value)
    while left:
        b = left.pop(0)
        if b == 0xFF:
            break
        if b == 0x1B:
            if not left or left[0] not in EXTENSION:
                return None
            out.append(ord(EXTENSION[left.pop(0)]))
        elif b < 0x80:
            out.append(ord(BASE[b]))
        else:
            return None
    return out


def codings(units):
    """Each coding of units that there is, in the order of a tie."""
    if all(u in CODE or u in LONG_CODE for u in units):
        yield b"".join(CODE.get(u) or LONG_CODE[u] for u in units)
    yield b"\x80" + b"".join(bytes([u >> 8, u & 255]) for u in units)
    if len(units) > 255:
        return
    needing = [u for u in units if u not in CODE]
    blocks = {u >> 7 for u in needing} or {0}
    bases = [max(0, max(needing, default=0) - 0x7F)]
    for mark, base, pointer in [(b"\x81", bytes([k]), k << 7) for k in blocks if len(blocks) == 1 and k < 256] + [
            (b"\x82", bytes([p >> 8, p & 255]), p) for p in bases if min(needing, default=p) >= p]:
        yield mark + bytes([len(units)]) + base + b"".join(CODE.get(u) or bytes([0x80 + u - pointer]) for u in units)


def read_line(line):
    """What alpha-read prints."""
    if not re.fullmatch(rb"(?:[0-9A-Fa-f]{2}){0,1600}", line):
        return "R9"
    units = read(bytes.fromhex(line.decode("ascii")))
    return "R13" if units is None else " ".join("%04X" % u for u in units) or "--"


def write_line(line):
    """What alpha-write prints."""
    if line == b"--":
        line = b""
    if line and not re.fullmatch(rb"[0-9A-Fa-f]{4}(?: [0-9A-Fa-f]{4}){0,1599}", line):
        return "R9"
    units = [int(word, 16) for word in line.split()]
    return min(codings(units), key=len).hex().upper() or "--"


def random_units(state):
    """Units from a plain generator, so that the file is the same on every machine."""
    pools = [sorted(CODE), sorted(LONG_CODE), list(range(0x400, 0x480)), list(range(0x3F0, 0x470)), [0, 0x1B, 0x7F, 0x80, 0xFF, 0x100],
             [0x7FFF, 0x8000, 0xFF80, 0xFFFE, 0xFFFF]]
    def number(n):
        state[0] = (state[0] * 6364136223846793005 + 1442695040888963407) % 2 ** 64
        return (state[0] >> 33) % n
    chosen = [pools[number(len(pools))] for _ in range(1 + number(3))]
    return [pool[number(len(pool))] for pool in (chosen[number(len(chosen))] for _ in range(number(12)))]


def unit_lines():
    yield from (line.encode("latin-1") for line, _ in WRITE_BY_HAND)
    for u in list(range(0x100)) + list(range(0x390, 0x3B0)) + [0x20AC]:
        for n in (1, 3, 4, 5):
            yield b" ".join([b"%04X" % u] * n)
        yield b"0041 %04X 0042 %04X 0410" % (u, u)
    state = [106]
    for _ in range(800):
        yield b" ".join(b"%04x" % u for u in random_units(state))


def value_lines():
    yield from (line.encode("latin-1") for line, _ in READ_BY_HAND)
    for b in range(256):
        for form in ("%02X", "41%02X", "1B%02X", "411B%02X42", "80%02X", "8000%02X", "8101%02X90", "810108%02X", "8201FF81%02X", "81%02X0041414141", "810100%02X41", "81010041%02X"):
            yield (form % b).encode("ascii")
    state = [613]
    for _ in range(200):
        units = random_units(state)
        for coding in codings(units):
            yield coding.hex().encode("ascii")
            for tail in (b"\xff", b"\xff\xff", b"\x00"):
                yield (coding + tail).hex().encode("ascii")
            if coding:
                yield coding[:-1].hex().encode("ascii")


TOOLS = {"alpha-read": read_line, "alpha-write": write_line}


def check():
    """Stops where a line worked out by hand has another answer, or where what is written is not read back."""
    for tool, wants in (("alpha-read", READ_BY_HAND), ("alpha-write", WRITE_BY_HAND)):
        for line, want in wants:
            got = TOOLS[tool](line.encode("latin-1"))
            if got != want:
                raise SystemExit("%s %r\n got  %s\n want %s" % (tool, line[:80], got[:80], want[:80]))
    for line in unit_lines():
        coded = write_line(line)
        back = coded if coded == "R9" else read_line(coded.replace("--", "").encode("ascii"))
        if back not in ("R9", line.decode("latin-1").upper() or "--"):
            raise SystemExit("%r is read back as %s" % (line[:80], back[:80]))


def cases():
    """Each tool with the name of its file, its lines, and their answers."""
    check()
    for tool, name, lines in (("alpha-read", "alpha_read", value_lines()), ("alpha-write", "alpha_write", unit_lines())):
        seen = [line for line in dict.fromkeys(lines) if b"\n" not in line]
        yield tool, name, seen, [TOOLS[tool](line) for line in seen]


PERL = r"""
use Encode;
for my $code (0 .. 127) {
    my $one = eval { Encode::decode("gsm0338", pack("C", $code), Encode::FB_QUIET) };
    printf "%02X %s\n", $code, defined $one && length $one ? sprintf("%04X", ord $one) : "-" if $code != 27;
    my $two = eval { Encode::decode("gsm0338", pack("CC", 27, $code), Encode::FB_QUIET) };
    printf "1B%02X %s\n", $code, defined $two && length $two == 1 ? sprintf("%04X", ord $two) : "-";
}
"""


def table():
    """Holds the two tables to Perl's gsm0338; says when that is not there."""
    try:
        told = subprocess.run(["perl", "-MEncode", "-MEncode::GSM0338", "-e", PERL], capture_output=True, text=True)
    except FileNotFoundError:
        told = None
    if told is None or told.returncode:
        print("the table is not held to Perl's Encode: this machine has no perl with Encode::GSM0338")
        return
    theirs = dict(row.split() for row in told.stdout.split("\n") if row)
    ours = {"%02X" % k: "%04X" % ord(c) for k, c in enumerate(BASE) if k != 0x1B}
    ours.update({"1B%02X" % k: "%04X" % ord(c) for k, c in EXTENSION.items()})
    differ = [k for k in sorted(theirs) if theirs[k] != ours.get(k, "-")]
    for k in differ:
        print("DIFFERENCE at %s: here %s, Perl's Encode %s" % (k, ours.get(k, "-"), theirs[k]))
    if differ:
        raise SystemExit(1)
    print("%d codes held to Perl's Encode, no difference" % len(theirs))


if __name__ == "__main__":
    if sys.argv[1] == "table":
        table()
        sys.exit()
    for one in sys.stdin.buffer.read().split(b"\n")[:-1]:
        print(TOOLS[sys.argv[1]](one))
