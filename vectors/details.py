#!/usr/bin/env python3
"""Makes the lines of the tool details, M-101, which gate.py writes: commands in hexadecimal, one a line, with the details
of each.

The details are those that oracle.py puts into its full response to the same bytes, whatever its other steps find; so
the two must not differ where a later object is damaged. A line is each line of the scripts, and those made here.
"""

import generate
import oracle

LINE_CAP = 4000                                 # longer lines of the scripts are left out

# Line by line with the answer, worked out by hand from the request.
BY_HAND = [
    (b"", "R2"),
    (b"D009810301020082028182", "010200"),
    (b"d009810301020082028182", "010200"),
    (b"D0098103FE43FF82028121", "FE43FF"),
    (b"D00C8103012701820281822401FF", "012701"),
    (b"D000", "000000"),
    (b"D0", "000000"),
    (b"00", "000000"),
    (b"D109810301020082028182", "000000"),
    (b"D00A810301020082028182", "000000"),
    (b"D008810301020082028182", "000000"),
    (b"D00581030102FF", "0102FF"),
    (b"D0050103019900", "019900"),
    (b"D0058103000000", "000000"),
    (b"D00481030102", "000000"),
    (b"D00481020102", "000000"),
    (b"D0068104010203FF", "000000"),
    (b"D00982028182" b"8103010200", "000000"),
    (b"D0068103010200FF", "010200"),
    (b"D0068103010200" b"82", "010200"),
    (b"D00A8103010200" b"8103FFFFFF", "010200"),
    (b"D0077F8001" b"03014205", "014205"),
    (b"D0077F0001" b"03014205", "014205"),
    (b"D0077F8101" b"03014205", "000000"),
    (b"D0027F80", "000000"),
    (b"D", "R9"),
    (b"D00", "R9"),
    (b"D0 00", "R9"),
    (b"D00G", "R9"),
    (b"D0" + b"00" * 255, "000000"),
    (b"D0" + b"00" * 256, "R2"),
    (b"D081FD" + b"8103011234" + b"05" + b"81F5" + b"41" * 245, "011234"),
    (b"D0" + b"00" * 1599, "R2"),
    (b"D0" + b"00" * 1600, "R9"),
    (b"D0" + b"0" * 3199, "R9"),
]


def at_hand(line):
    """What a line prints."""
    data = oracle.read_hex(line)
    if data is None:
        return "R9"
    try:
        return oracle.Session(bytes(13)).command(data)[2:5].hex().upper()
    except oracle.Refusal as r:
        return "R%d" % r.number


def cut_and_changed(frame):
    """A command cut at each byte, its outer length put right or not, and with each byte of its front changed."""
    for k in range(len(frame)):
        yield frame[:k]
        if k >= 2:
            yield frame[:1] + bytes([k - 2]) + frame[2:k]
    for k in range(min(len(frame), 12)):
        for by in (1, 0x80, 255):
            yield frame[:k] + bytes([(frame[k] + by) % 256]) + frame[k + 1:]


def lines():
    yield from (line for line, _ in BY_HAND)
    for name in sorted(s.name for s in generate.ALL):
        script = next(s for s in generate.ALL if s.name == name)
        text = script.whole()[0]
        yield from (line for line in text.split(b"\n") if len(line) <= LINE_CAP)
    for frame in (generate.more_time(), generate.send(3, b"ABC", q=0x7F), generate.open_(1500, generate.UDP),
                  generate.start_timer(8, "329595", q=0x80),
                  generate.tagged(generate.basic(0x42, "21") + [(0x37, True, "09")], {0, 2})):
        yield from (data.hex().upper().encode() for data in cut_and_changed(frame))


def played():
    """The lines and their answers, once those worked out by hand have stood."""
    for line, want in BY_HAND:
        if at_hand(line) != want:
            raise SystemExit("%r\n got  %s\n want %s" % (line[:80], at_hand(line), want))
    seen = list(dict.fromkeys(lines()))
    return b"\n".join(seen) + b"\n", "".join(at_hand(line) + "\n" for line in seen).encode("ascii")
