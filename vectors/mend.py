#!/usr/bin/env python3
"""Lines for M-112, the mending of applet commands, with their answers: a mended frame and its changes, R9 or R16.

The answers are those of `answer`, which reads tags as the oracle does and shares nothing else with it. What it gives
must pass the oracle's walk, and come out unchanged when it is mended again.
"""

import random

import oracle

# Line by line with the answer, worked out by hand from the request.
BY_HAND = [
    (b"D00C810301020082028182050141", "D00C810301020082028182050141"),
    (b"d00c810301020082028182050141", "D00C810301020082028182050141"),
    (b"D00A810301020082028182050141", "D00C810301020082028182050141 L1"),
    (b"D07F810301020082028182050141", "D00C810301020082028182050141 L1"),
    (b"D0810C810301020082028182050141", "D00C810301020082028182050141 L1"),
    (b"D081FF810301020082028182050141", "D00C810301020082028182050141 L1"),
    (b"D00E818103010200828102818205810141", "D00C810301020082028182050141 L1 S3 S9 S14"),
    (b"D0810F818103010200828102818205810141", "D00C810301020082028182050141 L1 S4 S10 S15"),
    (b"D006010141058105AA", "D003010141 L1 T5"),
    (b"D003010141058105AA", "D003010141 T5"),
    (b"D0030101410581", "D003010141 T5"),
    (b"D00301014105", "D003010141 T5"),
    (b"D0030101410582010041", "D003010141 T5"),
    (b"D003010141050241", "D003010141 T5"),
    (b"D0030101410502410501", "D00701014105024105 L1 T9"),
    (b"D0087F00010141FF0100", "D0057F00010141 L1 T7"),
    (b"D0077F8001810141", "D0057F80010141 L1 S5"),
    (b"D00301007F", "D0020100 L1 T4"),
    (b"D00301007F80", "D0020100 L1 T4"),
    (b"D00301007F800000", "D0020100 L1 T4"),
    (b"D00301007F0000" b"00", "D0020100 L1 T4"),
    (b"D00301007F800100", "D00601007F800100 L1"),
    (b"D00301007F80018100", "D00601007F800100 L1 S7"),
    (b"D002010000", "D0020100 T4"),
    (b"D002010080", "D0020100 T4"),
    (b"D002010081", "D0020100 T4"),
    (b"D0020100FF", "D0020100 T4"),
    (b"D0020100", "D0020100"),
    (b"D0020100" b"05", "D0020100 T4"),
    (b"D0810201" b"00", "D0020100 L1"),
    (b"D002018100", "D0020100 S3"),
    (b"D003018100", "D0020100 L1 S3"),
    (b"D00201810005817F41", "D0020100 S3 T5"),
    (b"D0020100058103", "D0020100 T4"),
    (b"D003018105AA", "R16"),
    (b"D0", "R16"),
    (b"D081", "R16"),
    (b"D08100", "R16"),
    (b"D000", "R16"),
    (b"D00000", "R16"),
    (b"D0028200", "D0028200"),
    (b"D0820100", "R16"),
    (b"D0800100", "R16"),
    (b"D0FF0100", "R16"),
    (b"D1020100", "R16"),
    (b"D6020100", "R16"),
    (b"00", "R16"),
    (b"0100", "R16"),
    (b"D0003681FA" + b"00" * 250, "D081FD3681FA" + "00" * 250 + " L1"),
    (b"D081FD3681FA" + b"00" * 250, "D081FD3681FA" + "00" * 250),
    (b"D0003681FB" + b"00" * 251, "R16"),
    (b"D081FD0100" + b"3681F8" + b"00" * 248 + b"00", "D081FD0100" + "3681F8" + "00" * 248 + " T256"),
    (b"D081FD018100" + b"3681F8" + b"00" * 248, "D081FD0100" + "3681F8" + "00" * 248 + " S4"),
    (b"D07E367C" + b"41" * 124, "D07E367C" + "41" * 124),
    (b"D07F367D" + b"41" * 125, "D07F367D" + "41" * 125),
    (b"D080367E" + b"41" * 126, "R16"),
    (b"D000367E" + b"41" * 126, "D08180367E" + "41" * 126 + " L1"),
    (b"D0817F367D" + b"41" * 125, "D07F367D" + "41" * 125 + " L1"),
    (b"D08180367E" + b"41" * 126, "D08180367E" + "41" * 126),
    (b"D000367F" + b"41" * 127, "D08181367F" + "41" * 127 + " L1"),
    (b"D00036817F" + b"41" * 127, "D08181367F" + "41" * 127 + " L1 S3"),
    (b"D000368180" + b"41" * 128, "D08183368180" + "41" * 128 + " L1"),
    (b"D000" + b"0100" * 126, "D081FC" + "0100" * 126 + " L1"),
    (b"D000" + b"0100" * 127, "R16"),
    (b"D000" + b"018100" * 126, "D081FC" + "0100" * 126 + " L1" + "".join(" S%d" % (3 + 3 * k) for k in range(126))),
    (b"D000" + b"018100" * 126 + b"7F", "D081FC" + "0100" * 126 + " L1" + "".join(" S%d" % (3 + 3 * k) for k in range(126)) + " T380"),
    (b"D000" + b"018100" * 127, "R16"),
    (b"D0020100" + b"00" * 1596, "D0020100 T4"),
    (b"D0020100" + b"00" * 1597, "R9"),
    (b"D000" + b"0100" * 700, "R16"),
    (b"", "R9"),
    (b"D", "R9"),
    (b"D00", "R9"),
    (b"D0 20100", "R9"),
    (b"D0020100 ", "R9"),
    (b"D0020100\r", "R9"),
    (b"D002010G", "R9"),
    (b"0" * 3199, "R9"),
    (b"0" * 3200, "R16"),
    (b"0" * 3201, "R9"),
    (b"0" * 3202, "R9"),
]


def length_at(data, at):
    """What a length at a place says in either form, and the place behind it; None where there is none."""
    if data[at:at + 1] == b"\x81":
        return (data[at + 1], at + 2) if at + 1 < len(data) else None
    return (data[at], at + 1) if at < len(data) and data[at] < 0x80 else None


def object_at(data, at):
    """The object at a place, its length shortened: the place of its length, its bytes, the place behind it; None for a fault."""
    tag = oracle.read_tag(data, at)
    length = tag and length_at(data, tag[2])
    if not length or length[1] + length[0] > len(data):
        return None
    size, start = length
    return tag[2], data[at:tag[2]] + oracle.write_length(size) + data[start:start + size], start + size


def mended(data):
    """The mended frame and its changes; None for what cannot be mended."""
    outer = length_at(data, 1)
    if data[0] != 0xD0 or outer is None:
        return None
    at, body, changes = outer[1], b"", []
    while at < len(data):
        found = object_at(data, at)
        if found is None:
            changes.append("T%d" % at)
            break
        sized, whole, behind = found
        if len(whole) < behind - at:
            changes.append("S%d" % sized)
        body, at = body + whole, behind
    if not body or len(body) > 253:
        return None
    frame = b"\xD0" + oracle.write_length(len(body)) + body
    return frame, (["L1"] if frame[1:-len(body)] != data[1:outer[1]] else []) + changes


def answer(line):
    """What a line prints."""
    data = oracle.read_hex(line)
    if not data:
        return "R9"
    made = mended(data)
    if made is None:
        return "R16"
    frame, changes = made
    objects, faulty = oracle.walk(frame[oracle.read_length(frame, 1)[1]:])
    assert objects and not faulty and len(frame) <= 256 and mended(frame) == (frame, []), line
    return " ".join([frame.hex().upper()] + changes)


# ---------------------------------------------------------------- lines

FRAMES = [bytes.fromhex(f) for f in (
    "D00C810301020082028182050141", "D00E818103010200828102818205810141", "D0107F800103010200820281827F00050141",
    "D0117F80018103010200828102818205810141")]


def damaged():
    """Frames cut at each byte, and with each byte of theirs at every value that a form turns on."""
    for frame in FRAMES:
        for k in range(1, len(frame) + 1):
            yield frame[:k]
        for k in range(len(frame)):
            for byte in (0x00, 0x01, 0x05, 0x7E, 0x7F, 0x80, 0x81, 0x82, 0xD0, 0xFE, 0xFF):
                yield frame[:k] + bytes([byte]) + frame[k + 1:]


def sizes():
    """One object of each size about the forms and the bounds, in either form, with and without one more behind it."""
    for size in (0, 1, 2, 0x7C, 0x7D, 0x7E, 0x7F, 0x80, 0x81, 247, 248, 249, 250, 251, 252, 253, 254, 255):
        for length in (bytes([size % 256]), bytes([0x81, size])):
            for behind in (b"", b"\x01\x00", b"\x01\x81\x00", b"\xFF"):
                for outer in (b"\x00", b"\x81\xFD", bytes([(size + 2) % 0x80])):
                    yield b"\xD0" + outer + b"\x36" + length + b"\x41" * size + behind


def random_object(rng):
    """An object, now and then with a length in the longer form, a wrong length or a wrong tag."""
    size = rng.choice((0, 1, 2, 3, rng.randrange(8), rng.randrange(140)))
    tag = rng.choice(([rng.randrange(256)], [rng.randrange(1, 127)], [0x7F, rng.randrange(256), rng.randrange(4)]))
    length = rng.choice(([size], [size], [0x81, size]) if size < 0x80 else ([0x81, size],))
    if rng.random() < 0.06:
        length = rng.choice(([0x82, 0, size], [0x80], [0x81], [size + rng.randrange(1, 4)]))
    return bytes([*tag, *(b % 256 for b in length)]) + rng.randbytes(size)


def random_frame(rng):
    """A frame of some objects, of which the length is right as often as not, cut or grown now and then."""
    body = b"".join(random_object(rng) for _ in range(rng.choice((1, 2, 3, 5, 8, 40))))[:rng.choice((300, 1596))]
    if rng.random() < 0.2:
        body = body[:rng.randrange(len(body) + 1)]
    right = len(body) % 256
    outer = rng.choice(([right] if right < 0x80 else [0x81, right], [0x81, right], [rng.randrange(0x80)], [0x81, rng.randrange(256)]))
    if rng.random() < 0.03:
        outer = [rng.randrange(256)]
    return bytes([0xD0 if rng.random() < 0.98 else rng.randrange(256), *outer]) + body


def random_lines(seed, count):
    rng = random.Random(seed)
    return [random_frame(rng).hex().upper().encode() for _ in range(count)]


def lines():
    yield from (line for line, _ in BY_HAND)
    yield from (frame.hex().upper().encode() for maker in (damaged, sizes) for frame in maker())
    yield from random_lines(112, 1000)


def cases():
    """The tool, the file's name, the lines and their answers."""
    for line, want in BY_HAND:
        if answer(line) != want:
            raise SystemExit("%r\n got  %s\n want %s" % (line[:80], answer(line), want))
    asked = list(dict.fromkeys(lines()))
    yield "mend", "mend", asked, [answer(line) for line in asked]
