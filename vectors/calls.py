#!/usr/bin/env python3
"""Makes the scripts of the tool calls, M-102, which gate.py writes: lines of the line program, and beside them seconds
and envelopes. The answers are what oracle.py prints; a want is the answer that the request gives, in the short forms of
generate.py.
"""

import oracle
from generate import (FIVE_MINUTES, TIMED, TIMED_7, UDP, H, Rng, Script, arr, ask_timer, close, cmd, damage, drop,
                      events, more_time, obj, open_, recv, send, start_timer, status, stop_timer, swapped, take, timer,
                      told)

TIMERS_ALONE = "0000000000000003"


class Calls(Script):
    tool = "calls"
    line_of = staticmethod(oracle.calls_line)


def second(count=None):
    """A line for a second, or for so many."""
    return H("A3") if count is None else H("A3%04X" % count)


def envelope(size=None):
    """A line for an envelope, or for one into a buffer of so many bytes."""
    return H("A4") if size is None else H("A4%02X" % size)


def began(n):
    """The answer to a start."""
    return "=810301270082028281830100" "2401%02X" % n


def enveloped(n, time):
    """The envelope of a timer that was started with a time."""
    return "=D70C" "82028281" "2401%02X" "2503%s" % (n, time)


# ---------------------------------------------------------------- the request's examples, and the lines

def make_examples():
    s = Calls("calls_examples", TIMERS_ALONE)
    s.add("D0118103012700820281822401012503005000", "=810301270082028281830100240101")
    s.add("D00C810301270282028182240101", "=8103012702820282818301002401012503005000")
    s.add("A3", "--")
    s.add("D00C810301270282028182240101", "=8103012702820282818301002401012503004095")
    s.add("D00C810301270182028182A40101", "=8103012701820282818301002401012503004095")
    s.add("D00C810301270182028182A40101", "=810301270182028281830124", "once more")
    s.add("D0118103012700820281822401082503000010", "=810301270082028281830100240108")
    s.add("D0118103012700820281822401022503000010", "=810301270082028281830100240102")
    s.add("A3", "--")
    s.add("A40D", "R1")
    s.add("A40E", "=D70C820282812401022503000010")
    s.add("A4", "=D70C820282812401082503000010")
    s.add("A4", "R10")
    s.add("D0118103012700820281822401032503323595", "=810301270082028281830100240103")
    s.add("D0118103012702820281822401032503FFFFFF", "=8103012702820282818301012401032503323595")
    s.add("D011810301270282028182240103A503FFFFFF", "=810301270282028281830132", "the 25 flagged")
    s.add("D00C810301270082028182240103", "=810301270082028281830136", "a start without 25")
    s.add("D009810301270382028182", "=810301270382028281830136", "value 3 without 24")
    s.add("D00C810301270382028182240103", "=810301270382028281830132", "and with it")


def make_lines():
    s = Calls("calls_lines", TIMED)
    # seconds: one, or two bytes of count, high byte first
    s.add(start_timer(1, "010000"), began(1), "ten hours: 36000 seconds")
    s.add("A3", "--")
    s.add(ask_timer(1), told(1, "909595"), "09:59:59")
    s.add("a3", "--", "in small letters")
    s.add(ask_timer(1), told(1, "909585"))
    s.add("A30000", "--", "none passes")
    s.add(ask_timer(1), told(1, "909585"))
    s.add("A30001", "--")
    s.add(ask_timer(1), told(1, "909575"), "09:59:57")
    s.add("A300FF", "--", "255: 4 minutes and 15 seconds")
    s.add(ask_timer(1), told(1, "905524"), "09:55:42")
    s.add("A30100", "--", "256")
    s.add(ask_timer(1), told(1, "901562"), "09:51:26")
    s.add("A30101", "--", "257")
    s.add(ask_timer(1), told(1, "907490"), "09:47:09")
    s.add("A37FFF", "--", "32767: 9 hours, 6 minutes and 7 seconds")
    s.add(ask_timer(1), told(1, "001420"), "00:41:02")
    for line in ("A300", "A301", "A30000" "00", "A3000000" "00", "A3" + "00" * 1599, "A3" + "00" * 1600, "A3 ", "A3\r", "A",
                 "A30", "A3000", "A3000G"):
        s.add(line, "R9", "not so many bytes behind A3")
    s.add(ask_timer(1), told(1, "001420"), "no second passed")
    # envelopes: a buffer of 14, or one byte of size
    s.add("A4", "R10", "none waits")
    s.add("A400", "R1", "R1 before R10")
    s.add("A40D", "R1")
    s.add("A40E", "R10")
    s.add("A4FF", "R10")
    for line in ("A40000", "A40E0E", "A4000E", "A4000000", "A4" + "0E" * 1599, "A4" + "0E" * 1600, "A4 ", "A4\r", "A40",
                 "A400E"):
        s.add(line, "R9", "not so many bytes behind A4")
    s.add(start_timer(2, "000010"), began(2))
    s.add(second(), "--")
    for size in range(14):
        s.add(envelope(size), "R1", "a buffer of %d" % size)
    for line in ("A40E0E", "A4000E", "A40"):
        s.add(line, "R9", "the mark stays")
    s.add("a40e", enveloped(2, "000010"), "in small letters")
    for size in (14, 15, 16, 127, 128, 254, 255):
        s.add(start_timer(2, "000010"), began(2))
        s.add(second(), "--")
        s.add(envelope(size), enveloped(2, "000010"), "a buffer of %d" % size)
        s.add(envelope(size), "R10")
    # the line program's lines are as they were
    s.add("", "R9")
    s.add("D", "R9")
    s.add("GG", "R9")
    for first in ("00", "9F", "A5", "A6", "CF", "D1", "D7", "FF"):
        s.add(first, "R9", "first byte " + first)
        s.add(first + "0001", "R9")
    s.add("A001", "R4")
    s.add("A101", "R9")
    s.add("A10105DD", "R9")
    s.add("A10105DC", "R4")
    s.add("A2", "R9")
    s.add("A208", "R3")
    s.add("D0", "z32")
    s.add("D0" + "00" * 256, "R2")
    s.add("D0" * 1601, "R9")
    s.add(more_time(), "00")
    s.add(open_(32), "..38028100" "350103" "39020020")
    s.add(arr(1, H("41")), "--")
    s.add(recv(1, 1), "..360141" "370100")
    s.add(send(1, H("51")), "..37011F")
    s.add(take(1, 9), "=51")
    s.add(drop(1), "--")
    s.add(status(), "..38020105")
    s.add(ask_timer(1), told(1, "000445"), "eight seconds passed since it was asked: 00:40:54")


# ---------------------------------------------------------------- seconds

# A time and the one a second before it: digits, minutes and hours that are borrowed from.
BORROWED = [
    ("000020", "000010"), ("000001", "000090"), ("000011", "000001"), ("000095", "000085"), ("000005", "000094"),
    ("001000", "000095"), ("001010", "001000"), ("000100", "009095"), ("002000", "001095"), ("000200", "009195"),
    ("009500", "008595"), ("000500", "009495"), ("100000", "009595"), ("100010", "100000"), ("101000", "100095"),
    ("200000", "109595"), ("010000", "909595"), ("020000", "919595"), ("320000", "229595"), ("329595", "329585"),
    ("329500", "328595"), ("320010", "320000"), ("110000", "019595"),
]


def make_seconds():
    s = Calls("calls_seconds", TIMED)
    for time, before in BORROWED:
        s.add(start_timer(6, time), began(6))
        s.add(ask_timer(6), told(6, time), "%s%s:%s%s:%s%s" % (time[1], time[0], time[3], time[2], time[5], time[4]))
        s.add(second(), "--")
        s.add(ask_timer(6), told(6, before), "less a second")
        s.add(stop_timer(6), told(6, before, 1))
    # one to zero
    s.add(start_timer(1, "000030"), began(1))
    for left in ("000020", "000010"):
        s.add(second(), "--")
        s.add(ask_timer(1), told(1, left))
        s.add(envelope(), "R10", "it runs and does not wait")
    s.add(second(), "--")
    s.add(ask_timer(1), "24", "at zero it runs no more")
    s.add(stop_timer(1), "24")
    s.add(envelope(), enveloped(1, "000030"), "the time that it was started with")
    s.add(envelope(), "R10")
    s.add(ask_timer(1), "24")
    # more seconds than it has
    s.add(start_timer(1, "000030"), began(1))
    s.add(second(1000), "--")
    s.add(ask_timer(1), "24")
    s.add(envelope(), enveloped(1, "000030"))
    s.add(second(1000), "--")
    s.add(envelope(), "R10", "it came to zero once")
    # no timer runs
    s.add(second(65535), "--")
    s.add(envelope(), "R10")
    for n in range(1, 9):
        s.add(ask_timer(n), "24")
    # the longest time
    s.add(start_timer(8, "329595"), began(8), "23:59:59 is 86399 seconds")
    s.add(second(65535), "--")
    s.add(ask_timer(8), told(8, "507444"), "20864 are left: 05:47:44")
    s.add(envelope(), "R10")
    s.add(second(20863), "--")
    s.add(ask_timer(8), told(8, "000010"))
    s.add(envelope(), "R10")
    s.add(second(), "--")
    s.add(ask_timer(8), "24")
    s.add(envelope(), enveloped(8, "329595"))
    # each second of a minute and some more
    s.add(start_timer(4, "001150"), began(4), "00:11:05")
    for left in range(664, 664 - 70, -1):
        s.add(second(), "--")
        s.add(ask_timer(4), told(4, "00" + swapped(left // 60) + swapped(left % 60)))
    s.add(stop_timer(4), told(4, "009055", 1), "00:09:55")


# ---------------------------------------------------------------- waiting, starting again, several

def make_waiting():
    s = Calls("calls_waiting", TIMED)
    s.add(start_timer(1, "000020"), began(1))
    s.add(second(2), "--")
    # nothing but the envelope and a start clears the mark
    s.add(stop_timer(1), "=810301270182028281830124", "a timer that waits does not run")
    s.add(ask_timer(1), "=810301270282028281830124")
    s.add(stop_timer(1), "24", "stopped again")
    s.add(second(), "--")
    s.add(second(500), "--")
    s.add(timer(3, 1), "32", "value 3")
    s.add(start_timer(1, "000000"), "32", "a start of zero time")
    s.add(start_timer(1, "429595"), "32")
    s.add(timer(0, 1), "36", "a start without 25")
    s.add(start_timer(1, FIVE_MINUTES, obj(0xDE)), "32")
    s.add(cmd(0x27, obj(0xA4, "01"), obj(0xA5, FIVE_MINUTES), dst=0x21), "32")
    s.add(start_timer(2, FIVE_MINUTES), began(2), "another one starts")
    s.add(stop_timer(2), told(2, FIVE_MINUTES, 1), "and stops")
    s.add(more_time(), "00")
    s.add(events("090A"), "00")
    s.add(open_(32), "..38028100" "350103" "39020020")
    s.add(arr(1, H("41")), "=D60E1901098202828138028100370101")
    s.add(close(1), "00")
    s.add(envelope(13), "R1", "refused")
    s.add("A40000", "R9")
    s.add(envelope(), enveloped(1, "000020"), "the mark was there all the time")
    s.add(envelope(), "R10", "and is cleared")
    s.add(second(500), "--")
    s.add(envelope(), "R10")
    s.add(ask_timer(1), "24", "behind its envelope it runs no more than before")
    # a start clears it
    s.add(start_timer(1, "000010"), began(1))
    s.add(second(), "--")
    s.add(start_timer(1, "000030"), began(1), "started while it waits")
    s.add(envelope(), "R10", "it waits no longer")
    s.add(ask_timer(1), told(1, "000030"), "it runs")
    s.add(second(2), "--")
    s.add(envelope(), "R10")
    s.add(second(), "--")
    s.add(envelope(), enveloped(1, "000030"), "with the time of the latest start")
    s.add(envelope(), "R10", "once, though it came to zero twice")
    # with an object ignored it is a start as well
    s.add(start_timer(1, "000010"), began(1))
    s.add(second(), "--")
    s.add(start_timer(1, "000040", obj(0x5E)), "=810301270082028281830101" "240101")
    s.add(envelope(), "R10")
    s.add(stop_timer(1), told(1, "000040", 1))
    # a stop leaves no mark
    s.add(start_timer(1, "000020"), began(1))
    s.add(second(), "--")
    s.add(stop_timer(1), told(1, "000010", 1), "a second before zero")
    s.add(second(5), "--")
    s.add(envelope(), "R10")
    s.add(ask_timer(1), "24")
    # asking changes nothing, at the last second too
    s.add(start_timer(1, "000020"), began(1))
    s.add(second(), "--")
    s.add(ask_timer(1), told(1, "000010"))
    s.add(ask_timer(1), told(1, "000010"))
    s.add(second(), "--")
    s.add(envelope(), enveloped(1, "000020"))


def make_restarts():
    s = Calls("calls_restarts", TIMED)
    s.add(start_timer(5, "000001"), began(5), "ten seconds")
    s.add(second(9), "--")
    s.add(start_timer(5, "000001"), began(5), "started again with one second left")
    s.add(ask_timer(5), told(5, "000001"))
    s.add(second(9), "--")
    s.add(ask_timer(5), told(5, "000010"))
    s.add(envelope(), "R10")
    s.add(start_timer(5, "000020"), began(5), "with a shorter time")
    s.add(second(), "--")
    s.add(envelope(), "R10")
    s.add(second(), "--")
    s.add(envelope(), enveloped(5, "000020"), "the time of the latest start")
    s.add(start_timer(5, "000010"), began(5))
    s.add(start_timer(5, "101010"), began(5), "with a longer one")
    s.add(second(), "--")
    s.add(envelope(), "R10")
    s.add(ask_timer(5), told(5, "101000"))
    s.add(start_timer(5, "000000"), "32")
    s.add(second(), "--")
    s.add(ask_timer(5), told(5, "100095"), "a refused start changed nothing")
    s.add(stop_timer(5), told(5, "100095", 1))
    s.add(start_timer(5, "000030"), began(5), "started after a stop")
    s.add(second(3), "--")
    s.add(envelope(), enveloped(5, "000030"))
    s.add(start_timer(5, "000030"), began(5), "started after its envelope")
    s.add(ask_timer(5), told(5, "000030"))
    s.add(second(2), "--")
    s.add(ask_timer(5), told(5, "000010"))
    s.add(stop_timer(5), told(5, "000010", 1))
    s.add(second(), "--")
    s.add(envelope(), "R10")
    # one is started again, the others go on
    for n in (1, 2, 3):
        s.add(start_timer(n, "000040"), began(n))
    s.add(second(2), "--")
    s.add(start_timer(2, "000040"), began(2))
    s.add(second(2), "--")
    s.add(ask_timer(1), "24")
    s.add(ask_timer(2), told(2, "000020"))
    s.add(ask_timer(3), "24")
    s.add(envelope(), enveloped(1, "000040"))
    s.add(envelope(), enveloped(3, "000040"))
    s.add(envelope(), "R10")
    s.add(second(2), "--")
    s.add(envelope(), enveloped(2, "000040"))


def make_several():
    s = Calls("calls_several", TIMED)
    # two that come to zero in one second, whichever was started first
    for first, then in ((8, 2), (2, 8), (1, 7), (7, 6)):
        s.add(start_timer(first, "000010"), began(first))
        s.add(start_timer(then, "000010"), began(then))
        s.add(second(), "--")
        s.add(envelope(), enveloped(min(first, then), "000010"), "the lowest first")
        s.add(envelope(), enveloped(max(first, then), "000010"))
        s.add(envelope(), "R10")
    # started one after the other, to zero in one second
    s.add(start_timer(4, "000050"), began(4))
    s.add(second(2), "--")
    s.add(start_timer(3, "000030"), began(3))
    s.add(second(2), "--")
    s.add(envelope(), "R10")
    s.add(second(), "--")
    s.add(envelope(), enveloped(3, "000030"))
    s.add(envelope(), enveloped(4, "000050"), "each with its own time")
    # the lowest, not the one that waits longest
    for n, time in ((8, "000010"), (5, "000020"), (3, "000030")):
        s.add(start_timer(n, time), began(n))
    s.add(second(3), "--")
    s.add(envelope(), enveloped(3, "000030"))
    s.add(start_timer(1, "000010"), began(1))
    s.add(envelope(), enveloped(5, "000020"), "timer 1 runs and does not wait")
    s.add(second(), "--")
    s.add(envelope(), enveloped(1, "000010"), "now it waits, and is the lowest")
    s.add(envelope(), enveloped(8, "000010"))
    s.add(envelope(), "R10")
    # one that waits is stopped and one is started again between two envelopes
    for n in (2, 4, 6):
        s.add(start_timer(n, "000010"), began(n))
    s.add(second(), "--")
    s.add(stop_timer(2), "24")
    s.add(start_timer(4, "000010"), began(4))
    s.add(envelope(), enveloped(2, "000010"))
    s.add(envelope(), enveloped(6, "000010"))
    s.add(envelope(), "R10")
    s.add(second(), "--")
    s.add(envelope(), enveloped(4, "000010"))
    # all eight, each with its own time: a second is lost by every one
    for n in range(1, 9):
        s.add(start_timer(n, "0010" + swapped(n)), began(n))
    for passed in (1, 2, 3):
        s.add(second(), "--")
        for n in range(1, 9):
            left = 60 + n - passed
            s.add(ask_timer(n), told(n, "00" + swapped(left // 60) + swapped(left % 60)))
    s.add(second(57), "--", "sixty in all")
    for n in range(1, 9):
        s.add(ask_timer(n), told(n, "0000" + swapped(n)))
    for n in range(1, 9):
        s.add(second(), "--")
        s.add(ask_timer(n), "24")
        s.add(envelope(), enveloped(n, "0010" + swapped(n)))
        s.add(envelope(), "R10")
    # all eight at once
    for n in range(8, 0, -1):
        s.add(start_timer(n, "000020"), began(n))
    s.add(second(2), "--")
    for n in range(1, 9):
        s.add(ask_timer(n), "24")
    for n in range(1, 9):
        s.add(envelope(13), "R1")
        s.add(envelope(14), enveloped(n, "000020"))
    s.add(envelope(13), "R1")
    s.add(envelope(14), "R10")


# ---------------------------------------------------------------- beside channels, and profiles

def make_beside():
    s = Calls("calls_beside_channels", TIMED_7)
    s.add(events("090A"), "00")
    s.add(open_(64), "..38028100" "350103" "39020040")
    s.add(open_(64, UDP), "..38028200" "350103" "39020040")
    s.add(arr(1, H("4142")), "=D60E1901098202828138028100370102")
    s.add(arr(2, H("51")), "=D60E1901098202828138028200370101")
    s.add(arr(2, H("52")), "--")
    s.add(send(1, H("6162")), "..37013E")
    s.add(send(2, H("71"), q=0), "..37013F")
    for n in range(1, 9):
        s.add(start_timer(n, "0000" + swapped(n)), began(n))
    s.add(second(4), "--")
    s.add(envelope(), enveloped(1, "000010"))
    s.add(envelope(), enveloped(2, "000020"))
    s.add(stop_timer(5), told(5, "000010", 1))
    s.add(status(), "..38028100" "38028200", "no channel was touched")
    s.add(recv(1, 1), "..360141" "370101")
    s.add(recv(2, 9), "..360151" "370101")
    s.add(take(1, 9), "=6162")
    s.add(take(2, 9), "--")
    s.add(send(2, H("72")), "..37013E")
    s.add(take(2, 9), "=7172")
    s.add(drop(1), "=D60B19010A8202828138020105")
    s.add(recv(1, 1), "..360142" "370100")
    s.add(close(1), "00")
    s.add(open_(64), "..38028100" "350103" "39020040")
    s.add(events(""), "00")
    s.add(more_time(), "00")
    s.add(arr(9, H("41")), "R3")
    s.add(take(7, 9), "R4")
    s.add(ask_timer(6), told(6, "000020"), "nor did a channel's call touch a timer")
    s.add(ask_timer(5), "24")
    s.add(second(), "--")
    s.add(envelope(), enveloped(3, "000030"))
    s.add(arr(1, H("43")), "--")
    s.add(envelope(), enveloped(4, "000040"))
    s.add(close(1), "00")
    s.add(close(2), "00")
    s.add(envelope(), "R10")
    s.add(second(3), "--")
    for n in (6, 7, 8):
        s.add(envelope(), enveloped(n, "0000" + swapped(n)))
    s.add(envelope(), "R10")
    s.add(status(), "..38020000")


def make_profiles():
    # Seconds and envelopes are the host's calls: no profile forbids them.
    for name, profile in (("forbidden", "FFFFFFFFFFFFFFFCFF"), ("blank_profile", ""), ("bad_profile", "0")):
        s = Calls("calls_" + name, profile)
        s.add(second(), "--")
        s.add(second(300), "--")
        s.add(envelope(), "R10")
        s.add(envelope(13), "R1")
        s.add(start_timer(1, "000010"), "30")
        s.add(second(), "--")
        s.add(envelope(), "R10")
        s.add(stop_timer(1), "30")
        s.add(ask_timer(1), "30")
    # Started and never to be asked.
    s = Calls("calls_start_alone", "0000000000000001")
    s.add(start_timer(1, "000020"), began(1))
    s.add(second(), "--")
    s.add(ask_timer(1), "30")
    s.add(second(), "--")
    s.add(ask_timer(1), "30", "the profile before whether it runs")
    s.add(stop_timer(1), "24")
    s.add(envelope(), enveloped(1, "000020"))


# ---------------------------------------------------------------- a history

def some_time(rng):
    """A time: mostly of few seconds, or at the bounds, or any; seldom one that is none."""
    few = "0000" + swapped(rng.between(1, 12))
    return rng.pick([few, few, few, few, "001000", "001010", "000100", "100000", "329595", "000000", "000600", "420000",
                     swapped(rng.below(24)) + swapped(rng.below(60)) + swapped(rng.between(1, 59)), rng.bytes(3).hex()])


def timer_line(rng):
    """A timer command for one of the numbers 0 to 9, mostly of 1 to 8."""
    n, q = rng.pick([rng.between(1, 8)] * 9 + [rng.below(10)]), 4 * rng.pick([0, 0, 0, rng.below(64)])
    other = obj(rng.pick([0x25, 0x25, 0xA5, 0x5E, 0xDE, 0x24]), rng.bytes(rng.pick([3, 3, 0, 1])))
    extra = [other] if rng.below(8) == 0 else []
    return rng.pick([start_timer(n, some_time(rng), *extra, q=q)] * 4 + [stop_timer(n, *extra, q=q + 1)]
                    + [ask_timer(n, *extra, q=q + 2)] * 3 + [timer(q + rng.below(4), n, *extra)])


def channel_line(rng):
    """A call for one of three channels."""
    ch, few = rng.between(1, 3), rng.bytes(rng.between(1, 5))
    return rng.pick([open_(rng.between(1, 90), *rng.pick([[], [UDP]])), close(ch), send(ch, few, q=rng.below(2)),
                     recv(ch, rng.below(12)), arr(ch, few), take(ch, rng.below(12)), drop(ch), status(), more_time(),
                     events(rng.pick(["09", "0A", "090A", ""]))])


def history(name, profile, seed, count):
    """Timer commands, seconds and envelopes among the calls of channels, some of them damaged."""
    s = Calls(name, profile)
    rng = Rng(seed)
    for _ in range(count - 1):
        what = rng.below(100)
        if what < 40:
            s.add(timer_line(rng))
        elif what < 62:
            s.add(rng.pick([second(), second(), second(), second(rng.below(12)), second(rng.below(300))]))
        elif what < 78:
            s.add(rng.pick([envelope(), envelope(), envelope(), envelope(rng.below(256)), envelope(rng.between(12, 15))]))
        elif what < 94:
            s.add(channel_line(rng))
        else:
            s.add(damage(rng, timer_line(rng)))
    return s


def make_mixed():
    history("calls_mixed", TIMED_7, 102, 700)


# ---------------------------------------------------------------- the lesson

def make_lesson():
    s = Calls("timers", TIMERS_ALONE, lesson=True)
    # the waiting mark
    s.add(start_timer(1, "000020"), began(1))
    s.add(second(), "--")
    s.add(ask_timer(1), told(1, "000010"))
    s.add(envelope(), "R10")
    s.add(second(), "--")
    s.add(ask_timer(1), "24")
    s.add(stop_timer(1), "24")
    s.add(second(60), "--")
    s.add(envelope(13), "R1")
    s.add(envelope(), enveloped(1, "000020"))
    s.add(envelope(), "R10")
    # the restart
    s.add(start_timer(1, "000030"), began(1))
    s.add(second(2), "--")
    s.add(start_timer(1, "001000"), began(1))
    s.add(second(), "--")
    s.add(ask_timer(1), told(1, "000095"))
    s.add(envelope(), "R10")
    s.add(second(59), "--")
    s.add(start_timer(1, "000040"), began(1))
    s.add(envelope(), "R10")
    s.add(second(4), "--")
    s.add(envelope(), enveloped(1, "000040"))
    # two that come to zero in one second, the lowest first
    s.add(start_timer(8, "000050"), began(8))
    s.add(second(2), "--")
    s.add(start_timer(2, "000030"), began(2))
    s.add(second(2), "--")
    s.add(envelope(), "R10")
    s.add(second(), "--")
    s.add(envelope(), enveloped(2, "000030"))
    s.add(start_timer(3, "000010"), began(3))
    s.add(second(), "--")
    s.add(envelope(), enveloped(3, "000010"))
    s.add(envelope(), enveloped(8, "000050"))
    s.add(envelope(), "R10")


def make_all():
    make_examples()
    make_lines()
    make_seconds()
    make_waiting()
    make_restarts()
    make_several()
    make_beside()
    make_profiles()
    make_mixed()
    make_lesson()
