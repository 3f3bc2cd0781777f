#!/usr/bin/env python3
"""Makes the lines of the tool fetch, M-109, which gate.py writes: a profile and bursts in hexadecimal, one a line, with
the answer to each and the count of its bytes left.

The answers are what oracle.py prints. A want is the answer that the request gives, in the short forms of generate.py,
and behind a blank the count left; fetch.py stops where the oracle says otherwise. It stops also where all the bytes
taken do not get the same answers in bursts of one byte each.
"""

import copy
import itertools

import oracle
from generate import (BEARER2, BEARER3, OTHER, PROFILE_7, TCP, TIMED_7, UDP, H, Rng, ask_timer, close, damage, data, det,
                      dev, events, hx, meets, more_time, open_, padded_more_time, ramp, recv, send, start_timer, status,
                      stop_timer, swapped)

MORE_TIME = "D009" "8103010200" "82028182"
DONE = "=8103010200" "82028281" "830100"
STEP_2 = "=8103000000" "82028281" "830132"      # what a wrong outer frame gets
BEHIND = H("AABBCC")                            # bytes behind a frame; none of them begins one

# Line by line with the answer, worked out by hand from the request.
BY_HAND = [
    # One piece, hexadecimal in either case.
    (MORE_TIME, DONE + " 0"),
    (MORE_TIME.lower(), DONE + " 0"),
    ("d0098103010200" "82028182", DONE + " 0"),
    # Bursts of no bytes: nothing gathered, within a frame, behind an answer.
    ("", "-- 0"), ("", "-- 0"),
    ("D0098103", "-- 0"), ("", "-- 0"), ("01020082", "-- 0"), ("", "-- 0"), ("", "-- 0"), ("028182", DONE + " 0"),
    ("", "-- 0"),
    ("D0", "-- 0"), ("", "-- 0"), ("81", "-- 0"), ("", "-- 0"), ("00", STEP_2 + " 0"), ("", "-- 0"),
    # The outer length is met: by no objects, at the last byte, not before.
    ("D000", "=8103000000" "82028281" "830136 0"),
    ("D0", "-- 0"), ("00", "z36 0"),
    ("D001", "-- 0"), ("00", "z32 0"),
    ("D00981030102008202", "-- 0"), ("81", "-- 0"), ("82", DONE + " 0"),
    ("D005" "81030102", "-- 0"), ("FF", "=81030102FF" "82028281" "830136 0"),
    # The length in its long form.
    ("D0", "-- 0"), ("81", "-- 0"), ("80", "-- 0"), ("8103010200" "82028182", "-- 0"), ("0575" + "41" * 116, "-- 0"),
    ("41", "=8103010200" "82028281" "830101 0"),
    ("D08180" "8103010200" "82028182" "0575" + "41" * 117, "=8103010200" "82028281" "830101 0"),
    ("D07F" "8103010200" "82028182" "0574" + "41" * 115, "-- 0"), ("41", "01 0"),
    # Bytes behind the end are left and not kept; the next byte begins a new frame.
    (MORE_TIME + "AA", DONE + " 1"), (MORE_TIME, DONE + " 0"),
    (MORE_TIME + "D0", DONE + " 1"), ("09", STEP_2 + " 0"),
    (MORE_TIME + "D009", DONE + " 2"), ("8103010200" "82028182", STEP_2 + " 8"), (MORE_TIME, DONE + " 0"),
    ("D000" "D000", "z36 2"), ("D000" "00", "z36 1"),
    # Several frames in one burst: the first is answered, the rest comes again.
    (MORE_TIME * 3, DONE + " 22"), (MORE_TIME * 2, DONE + " 11"), (MORE_TIME, DONE + " 0"),
    (MORE_TIME + "D0098103", DONE + " 4"), ("D0098103", "-- 0"), ("01020082028182" + MORE_TIME, DONE + " 11"),
    ("D0", "-- 0"), (MORE_TIME[2:] + MORE_TIME, DONE + " 11"),
    # A first byte other than D0.
    ("00", STEP_2 + " 0"), ("D1", STEP_2 + " 0"), ("FF", STEP_2 + " 0"), ("81", STEP_2 + " 0"), ("CF", STEP_2 + " 0"),
    ("09" + MORE_TIME, STEP_2 + " 11"), (MORE_TIME, DONE + " 0"),
    ("A0014142", STEP_2 + " 3"), ("A1010000", STEP_2 + " 3"), ("A201", STEP_2 + " 1"),
    # A second byte of 80, or of 82 to FF.
    ("D080", STEP_2 + " 0"), ("D082", STEP_2 + " 0"), ("D0FF", STEP_2 + " 0"), ("D0D0", STEP_2 + " 0"),
    ("D08400000009" "8103010200" "82028182", STEP_2 + " 13"),
    ("D0", "-- 0"), ("82" "0009", STEP_2 + " 2"), ("D0", "-- 0"), ("80", STEP_2 + " 0"), (MORE_TIME, DONE + " 0"),
    # After 81 a third byte under 80.
    ("D08100", STEP_2 + " 0"), ("D0817F", STEP_2 + " 0"), ("D08109" "8103010200" "82028182", STEP_2 + " 9"),
    ("D081", "-- 0"), ("7FAA", STEP_2 + " 1"), ("D0", "-- 0"), ("81", "-- 0"), ("00", STEP_2 + " 0"),
    ("D0", "-- 0"), ("8101" + MORE_TIME, STEP_2 + " 11"), (MORE_TIME, DONE + " 0"),
    # 257 and 258 bytes: R2 at the third byte, the gathered bytes gone.
    ("D081FE", "R2 0"), ("D081FF", "R2 0"), ("D081FE" "0000000000", "R2 5"), ("D081FF" + MORE_TIME, "R2 11"),
    ("D0", "-- 0"), ("81", "-- 0"), ("FE", "R2 0"), ("", "-- 0"), (MORE_TIME, DONE + " 0"),
    ("D081", "-- 0"), ("FFD0", "R2 1"), ("D0", "-- 0"), (MORE_TIME[2:], DONE + " 0"),
    ("D0", "-- 0"), ("81FED081FE", "R2 3"), ("D081FE", "R2 0"),
    # 256 bytes are whole.
    ("D081FD", "-- 0"), ("8103010200" "82028182" "0581F1" + "41" * 240, "-- 0"), ("4141", "01 1"),
    # Unreadable: R9 alone, the gathered bytes stay.
    ("D0098103", "-- 0"), ("0", "R9"), ("01020", "R9"), ("01 0", "R9"), ("010G", "R9"), ("0102\r", "R9"),
    (" 01020082028182", "R9"), ("01020082028182 ", "R9"), ("01" * 1601, "R9"), ("01020082028182", DONE + " 0"),
    ("D0", "-- 0"), ("0x81", "R9"), ("--", "R9"), ("81", "-- 0"), (" ", "R9"), ("\t\t", "R9"), ("FE", "R2 0"),
    ("R9", "R9"), (MORE_TIME + "0", "R9"), (MORE_TIME + "\r", "R9"), (MORE_TIME, DONE + " 0"),
    # The session moves once, where the frame is whole; a wrong head, R2 and R9 leave it.
    ("D0", "-- 0"), ("15810301", "-- 0"), ("4001820281", "-- 0"), ("8235010339", "-- 0"),
    ("0200643C03021F90", "=8103014001" "82028281" "830100" "38028100" "350103" "39020064 0"),
    ("D0098103014400", "-- 0"), ("82028182AA", "=8103014400" "82028281" "830100" "38028100 1"),
    ("D00E8103014300" "82028121" "360341", "-- 0"), ("4243", "=8103014300" "82028281" "830100" "370161 0"),
    ("D00B81030143", "-- 0"), ("0", "R9"), ("00820281213600", "=8103014300" "82028281" "830100" "370161 0"),
    ("D00C8103014200" "820281", "-- 0"), ("21370105", "=8103014200" "82028281" "830102" "3600" "370100 0"),
    ("D00D" "8103010500" "82028182" "19", "-- 0"), ("02090A", "=8103010500" "82028281" "830100 0"),
    ("AA", "z32 0"), ("D081FE", "R2 0"), ("0", "R9"),
    ("D009" "8103014400" "82028182", "..38028100 0"),
    ("D009" "8103014100" "82028121" "D009" "8103014400" "82028182", "=8103014100" "82028281" "830100 11"),
    ("D009" "8103014400" "82028182", "..38020000 0"),
    # A timer, started by pieces, asked and stopped out of one burst.
    ("D011" "8103012700" "82028182" "A40108" "A503", "-- 0"), ("3295", "-- 0"),
    ("95AA", "=8103012700" "82028281" "830100" "240108 1"),
    ("D00C" "8103012702" "82028182" "240108" "D00C" "8103012701" "82028182" "240108",
     "=8103012702" "82028281" "830100" "240108" "2503329595 14"),
    ("D00C" "8103012701" "82028182" "2401", "-- 0"), ("08", "=8103012701" "82028281" "830100" "240108" "2503329595 0"),
    ("D00C" "8103012702" "82028182" "240108", "=8103012702" "82028281" "830124 0"),
]

# Lines that are unreadable, as they stand there, and longer ones.
UNREADABLE = ["0", "D00", " ", "  ", "D0 0", "0G", "\r", "00\r", "\t0", "\0\0", "\x80\x81", "\xff\xfe", "0x", "+1",
              "--", MORE_TIME[:-1], MORE_TIME + " ", " " + MORE_TIME]
LONGER = ["0" * 3199, "0" * 3201, "00" * 1601, "00" * 2000]

# Short frames and heads with the answer, for every division.
SHORT = [
    (more_time(), "00"),
    (H("AA"), "z32"),
    (H("D000"), "z36"), (H("D00100"), "z32"), (H("D0020100"), "z36"),
    (H("D0058103010200"), "36"), (H("D0058103017F00"), "31"),
    (H("D080"), "z32"), (H("D082"), "z32"), (H("D0FF"), "z32"),
    (H("D08100"), "z32"), (H("D0817F"), "z32"),
    (H("D081FE"), "R2"), (H("D081FF"), "R2"),
]

# Bursts with a buffer of so many bytes, which no line of the program makes: R1 takes nothing and leaves what was
# gathered, before a wrong head and R2 too.
TOO_SHORT = (0, 1, 254)
BUFFERS = [
    (MORE_TIME, 256, DONE + " 0"), (MORE_TIME, TOO_SHORT, "R1 11"), ("", TOO_SHORT, "R1 0"), ("D0", TOO_SHORT, "R1 1"),
    ("AA", TOO_SHORT, "R1 1"), ("D081FE", TOO_SHORT, "R1 3"), ("00" * 300, TOO_SHORT, "R1 300"), ("", 255, "-- 0"),
    (MORE_TIME[:8], 255, "-- 0"), (MORE_TIME[8:], TOO_SHORT, "R1 7"), ("", TOO_SHORT, "R1 0"),
    (MORE_TIME[8:12], TOO_SHORT, "R1 2"), (MORE_TIME[8:12], 255, "-- 0"), (MORE_TIME[12:] + "AA", TOO_SHORT, "R1 6"),
    (MORE_TIME[12:], 1500, DONE + " 0"),
    ("D0", 255, "-- 0"), ("80", TOO_SHORT, "R1 1"), ("81", 255, "-- 0"), ("00AA", TOO_SHORT, "R1 2"),
    ("FE", TOO_SHORT, "R1 1"), ("FEAA", 255, "R2 1"),
    (hx(open_(100)), TOO_SHORT, "R1 18"), (hx(status()), 255, "..38020000 0"), (hx(open_(100)), 255, "..39020064 0"),
    (hx(close(1)), TOO_SHORT, "R1 11"), (hx(status()), 255, "..38028100 0"),
]

# Whole inputs of the program, with all that it prints.
FORBIDDEN = "8103010200" "82028281" "830130 0\n"
INPUTS = [
    ("", ""), (PROFILE_7 + "\n", ""), ("\n" + MORE_TIME, FORBIDDEN), ("0\n" + MORE_TIME + "\n", "R9\n" + FORBIDDEN),
    (PROFILE_7 + "00" * 1587 + "\n" + MORE_TIME, DONE[1:] + " 0\n"),
    (PROFILE_7 + "00" * 1588 + "\n" + MORE_TIME, "R9\n" + FORBIDDEN),
    (PROFILE_7.lower() + "\nd081fE\nD0", "R2 0\n-- 0\n"), (PROFILE_7 + "\nD0\n\n", "-- 0\n-- 0\n"),
]


def as_wanted(got, want):
    """The answer as its short form says, the count behind it as it stands."""
    (answer, *left), (wanted, *count) = got.split(" "), want.split(" ")
    return meets(answer, wanted) and left == count


def cut(whole, places):
    """Bytes cut at the places; no bytes between two that are the same."""
    return [whole[a:b] for a, b in zip([0, *places], [*places, len(whole)])]


class Delivery:
    """The lines for the program behind its profile, what they print, and the bytes that they hand over."""
    def __init__(self):
        self.lines = [TIMED_7.encode("ascii")]
        self.session, _ = oracle.start(self.lines[0])
        self.gathered = oracle.Gathered()
        self.printed = []
        self.taken = b""

    def line(self, text, want=None):
        """A line as it stands."""
        line = text.encode("latin-1")
        got = oracle.fetch_line(self.gathered, self.session, line)
        self.lines.append(line)
        self.printed.append(got)
        if want is not None and not as_wanted(got, want):
            raise SystemExit("line %d: %s\n got  %s\n want %s"
                             % (len(self.lines), line[:80], got[:200], want[:200]))
        if got != "R9":
            burst = oracle.read_hex(line)
            self.taken += burst[:len(burst) - self.left()]

    def left(self):
        """The count of bytes left that the last line prints."""
        return int(self.printed[-1].split(" ")[1])

    def burst(self, burst, want=None):
        """A burst; gives what is left of it."""
        self.line(hx(burst), want)
        return burst[len(burst) - self.left():]

    def bursts(self, pieces, want):
        """Bursts that call for more, and one that is answered."""
        *before, last = pieces
        for piece in before:
            self.burst(piece, "-- 0")
        self.burst(last, want)

    def again(self, burst, *wants):
        """A burst, and what is left of it handed in again until nothing is."""
        for want in wants:
            burst = self.burst(burst, want)
        assert burst == b""

    def frame(self, whole, *places):
        """A whole frame cut at the places: the answer is what the command call gives for one piece."""
        answer = copy.deepcopy(self.session).command(whole)
        self.bursts(cut(whole, places), "=%s 0" % hx(answer))


# ---------------------------------------------------------------- divisions and heads

def every_division(s, whole, want, front):
    """Every division of the front: some with bursts of no bytes before each piece, some with bytes behind the last."""
    for number in range(2 ** (front - 1)):
        places = [k for k in range(1, front) if number >> (k - 1) & 1]
        if number % 5 == 0:
            places = sorted([0] + 2 * places)
        behind = BEHIND[:number % 4]
        s.bursts(cut(whole + behind, places), "%s %d" % (want, len(behind)))


def objects(n):
    """So many bytes of MORE TIME's objects and unknown ones of no bytes, the last one cut where they do not fit."""
    return (det(0x02) + dev() + H("5E00") * 124)[:n]


def result(n):
    """The result of a MORE TIME with so many bytes of objects."""
    if n < 5:
        return "z32" if n else "z36"
    if n <= 9:
        return {5: "36", 9: "00"}.get(n, "32")
    return "01" if n % 2 else "32"


def heads():
    """Each byte value at the first place, at the second and after D0 81 at the third, but those that call for the
    next place; what makes the frame whole; the answer."""
    for value in range(256):
        last = bytes([value])
        right = objects(value), result(value)
        wrong = b"", "z32"
        if value != 0xD0:
            yield last, *wrong
        if value != 0x81:
            yield H("D0") + last, *(right if value < 0x80 else wrong)
        yield H("D081") + last, *(wrong if value < 0x80 else right if value < 0xFE else (b"", "R2"))


def every_head(s):
    """Each head in one burst with bytes behind it, and byte by byte."""
    for head, rest, want in heads():
        s.burst(head + rest + BEHIND, want + " 3")
        s.bursts(cut(head, range(1, len(head))) + ([rest] if rest else []), want + " 0")


# ---------------------------------------------------------------- sizes

def about_256(s):
    """255 and 256 bytes in one piece and cut at the edges, with and without bytes behind; 256 byte by byte."""
    for n in (255, 256):
        whole = padded_more_time(n)
        for places in ([], [1], [2], [3], [254], [n - 1], [1, 2, 3], [3, 254], [1, n - 1], [128, 128]):
            s.bursts(cut(whole, places), "01 0")
            s.bursts(cut(whole + BEHIND, places), "01 3")
    s.bursts(cut(padded_more_time(256), range(1, 256)), "01 0")


def over_256(s):
    """257 and 258 bytes: R2 at the third byte, whatever is behind it; the bytes after begin a new frame."""
    for last in (0xFE, 0xFF):
        whole = H("D081") + bytes([last]) + objects(last)
        for places in ([], [1], [2], [1, 2], [1, 1, 2, 2]):
            s.bursts(cut(whole, places), "R2 %d" % last)
        for place in (3, 4, 254, 255, 256):
            burst, after = cut(whole, [place])
            s.burst(burst, "R2 %d" % (place - 3))
            s.burst(after, "z32 %d" % (len(after) - 1))
            s.burst(more_time(), "00 0")
        s.burst(whole[:3], "R2 0")
        for byte in whole[3:12]:
            s.burst(bytes([byte]), "z32 0")


def long_bursts(s):
    """Bursts of 1600 bytes, nearly all of them left, and of 1601, which are unreadable."""
    whole = padded_more_time(256)
    s.burst(bytes(1600), "z32 1599")
    s.burst(more_time() + bytes(1589), "00 1589")
    s.burst(whole + bytes(1344), "01 1344")
    s.burst(H("D081FE") + bytes(1597), "R2 1597")
    s.burst(H("D000") * 800, "z36 1598")
    for gathered, rest, want in ((more_time()[:10], more_time()[10:], "00"), (whole[:255], whole[255:], "01"),
                                 (H("D081"), H("FF"), "R2"), (H("D081"), H("7F"), "z32"), (H("D0"), H("80"), "z32")):
        s.burst(gathered, "-- 0")
        s.line(hx(rest.ljust(1601, b"\0")), "R9")
        s.line(hx(rest.ljust(1600, b"\0")).lower(), want + " 1599")
    s.burst(b"", "-- 0")


# ---------------------------------------------------------------- several frames, and the session

def several(s):
    """Frames, heads and a cut frame in one burst; what is left comes again."""
    one, whole = more_time(), padded_more_time(256)
    s.again(one * 3, "00 22", "00 11", "00 0")
    s.again(one + H("AA") + one, "00 12", "z32 11", "00 0")
    s.again(H("D081FE") + one + H("D081FF") + one, "R2 25", "00 14", "R2 11", "00 0")
    s.again(H("D080") + H("D08100") + H("D000") + one, "z32 16", "z32 13", "z36 11", "00 0")
    s.again(H("D000") * 6, "z36 10", "z36 8", "z36 6", "z36 4", "z36 2", "z36 0")
    s.again(BEHIND + H("D0D0D0D0") + H("D000"), "z32 8", "z32 7", "z32 6", "z32 4", "z32 2", "z36 0")
    s.again(whole * 6 + one[:5], "01 1285", "01 1029", "01 773", "01 517", "01 261", "01 5", "-- 0")
    s.again(one[5:] + one + H("D0"), "00 12", "00 1", "-- 0")
    s.again(one[1:], "00 0")
    s.again(open_(64) + send(1, H("414243"), q=0) + status() + close(1) + status(),
            "=8103014001" "82028281" "830100" "38028100" "350103" "39020040 49",
            "=8103014300" "82028281" "830100" "37013D 33",
            "=8103014400" "82028281" "830100" "38028100 22",
            "=8103014100" "82028281" "830100 11",
            "=8103014400" "82028281" "830100" "38020000 0")


def channel_life(num):
    """Commands that open channel 1, use it and close it, with bytes that their answers show."""
    yield open_(40 + num, TCP, bearer=BEARER2, num=num)
    yield events(["", "09", "0A", "090A"][num % 4])
    yield send(1, ramp(num % 16, num), q=0)
    yield send(1, ramp(num % 16, 40), q=1)
    yield send(1, H("41"), q=0)
    yield recv(1, num)
    yield status()
    yield close(1)
    yield status()


def timer_life(num):
    """Commands that start a timer, ask and stop it, with a time that their answers show."""
    yield start_timer(1 + num % 8, swapped(num % 24) + swapped(num) + swapped(59 - num))
    yield ask_timer(1 + num % 8)
    yield stop_timer(1 + num % 8)
    yield stop_timer(1 + num % 8)


def session_moves(s):
    """Commands that change the session, divided at many places: a byte lost or there twice would show."""
    for num in range(1, 40):
        for whole in itertools.chain(channel_life(num), timer_life(num)):
            s.frame(whole, *sorted(1 + num * k % (len(whole) - 1) for k in (1, 5)))
    opening = open_(0x0155, bearer=BEARER2, num=0x77)
    for places in itertools.combinations(range(1, len(opening)), 2):
        s.frame(opening, *places)
        s.frame(close(1))
    sending = send(1, data(109, 130), q=0)
    for place in range(1, len(sending)):
        s.frame(open_(200))
        s.frame(sending, place)
        s.frame(close(1), 1 + place % 10)


def seven_channels(s):
    """All seven opened out of one burst, an eighth, their statuses, and all closed, a byte at a time."""
    s.again(b"".join(open_(100 * n) for n in range(1, 9)),
            *["..3802%02X00" "350103" "3902%04X %d" % (0x80 + n, 100 * n, 18 * (8 - n)) for n in range(1, 8)], "3A01 0")
    s.frame(status(), *range(1, 11))
    for n in range(1, 9):
        s.frame(close(n), *range(1, 11))
    s.frame(status())


def unreadable_between(s):
    """An unreadable line at each place of a frame, and where nothing is gathered."""
    for number, text in enumerate(UNREADABLE + LONGER):
        before, after = cut(more_time(), [1 + number % 10])
        s.line(text, "R9")
        s.burst(before, "-- 0")
        s.line(text, "R9")
        s.burst(b"", "-- 0")
        s.burst(after, "00 0")


# ---------------------------------------------------------------- random divisions

def some_frame(rng):
    """A command, for a channel that may be open or not."""
    ch, num, q = rng.between(1, 7), rng.below(256), rng.below(2)
    few, many = rng.bytes(rng.below(12)), rng.bytes(rng.below(160))
    bearer, transport = rng.pick([BEARER2, BEARER3]), rng.pick([TCP, TCP, UDP, UDP, OTHER])
    opening = open_(rng.between(1, 600), transport, q=q, bearer=bearer, num=num)
    return rng.pick([opening, opening, send(ch, few, q=q), send(ch, few, q=q), send(ch, many, q=q), recv(ch, num),
                     close(ch), status(), more_time(num=num, q=q), events(rng.pick(["", "09", "090A", "0B"])),
                     start_timer(ch, swapped(rng.below(24)) + swapped(rng.below(60)) + swapped(rng.below(60))),
                     ask_timer(ch), stop_timer(ch)])


def some_bytes(rng):
    """A command: one in eight damaged, one in eight with another head in front of it."""
    whole = some_frame(rng)
    what = rng.below(8)
    if what == 0:
        return damage(rng, whole)
    if what == 1:
        return rng.pick([H("D081FE"), H("D081") + rng.bytes(1), H("D0") + rng.bytes(1), rng.bytes(2)]) + whole
    return whole


def random_divisions(s, seed, count):
    """Commands one after the other in bursts of any size; what is left comes again, alone or with what comes next,
    as it is or from its next D0 on. The last burst ends whatever is gathered."""
    rng = Rng(seed)
    coming = left = b""
    for _ in range(count):
        while len(coming) < 300:
            coming += some_bytes(rng)
        size = rng.pick([0, 1, 2, rng.below(8), rng.below(30), rng.below(60), rng.below(300)])
        if left:
            size = rng.pick([0, 0, 0, size])
        left = s.burst(left + coming[:size])
        coming = coming[size:]
        if rng.below(30) == 0:
            s.line(rng.pick(UNREADABLE), "R9")
        if rng.below(4):
            left = left[left.find(0xD0):] if 0xD0 in left else b""
    s.burst(bytes(255))


def unfinished(s):
    """A whole frame and the front of another one, at which the input ends without a line feed."""
    s.again(more_time() + more_time()[:10], "00 10", "-- 0")


# ---------------------------------------------------------------- all of it

def everything():
    """All lines, group by group; each group leaves nothing gathered but the last."""
    s = Delivery()
    for line, want in BY_HAND:
        s.line(line, want)
    for whole, want in SHORT:
        every_division(s, whole, want, len(whole))
    every_division(s, padded_more_time(131), "01", 7)
    every_head(s)
    about_256(s)
    over_256(s)
    long_bursts(s)
    several(s)
    session_moves(s)
    seven_channels(s)
    unreadable_between(s)
    random_divisions(s, 109, 4500)
    unfinished(s)
    return s


def other_buffers():
    """Holds bursts with other buffers to what is wanted."""
    session, gathered = oracle.Session(H(PROFILE_7)), oracle.Gathered()
    for burst, sizes, want in BUFFERS:
        for size in sizes if sizes == TOO_SHORT else (sizes,):
            answer, left = gathered.fetch(session, H(burst), size)
            if not as_wanted("%s %d" % (oracle.printed(answer), left), want):
                raise SystemExit("with a buffer of %d: %s\n got  %s %d\n want %s"
                                 % (size, burst[:80], oracle.printed(answer), left, want))


def whole_inputs():
    """Holds whole inputs to what is wanted."""
    for text, want in INPUTS:
        got = oracle.run_fetch(text.encode("ascii")).decode("ascii")
        if got != want:
            raise SystemExit("input %r\n got  %r\n want %r" % (text[:80], got, want))


def byte_by_byte(taken):
    """The answers that bytes get in bursts of one byte each, by a session of its own."""
    session, gathered = oracle.Session(H(TIMED_7)), oracle.Gathered()
    each = (gathered.fetch(session, bytes([byte]), oracle.RESPONSE_MAX) for byte in taken)
    return [oracle.printed(answer) for answer, _ in each if answer != b""]


def played():
    """The lines and their answers, once these have stood their checks."""
    other_buffers()
    whole_inputs()
    s = everything()
    text = b"\n".join(s.lines)
    out = oracle.run_fetch(text)
    assert out.decode("ascii").splitlines() == s.printed
    answers = [got.split(" ")[0] for got in s.printed if got not in ("R9", "-- 0")]
    if byte_by_byte(s.taken) != answers:
        raise SystemExit("another division of the bytes taken gets other answers")
    return text, out
