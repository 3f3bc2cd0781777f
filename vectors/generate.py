#!/usr/bin/env python3
"""Makes the lessons and the scripts of the line program, which gate.py writes.

The answers are what oracle.py prints. Nearly every hand-made line also carries the
answer that was expected when the line was written ("want", worked out by hand from the
paper); generate.py stops if the oracle says otherwise.

Short forms of a want:   "00", "32", "3A04", ...  the result (details echoed, not zero)
                         "z32", "z36"             the result with details 00 00 00
                         "R6", "--"               printed just so
                         "=HEX"                   the whole line
                         "..HEX"                  the end of the line
"""

import os

import oracle

PROFILE = "00000800010C00000000001F82"          # the listing's: N = 4
PROFILE_7 = "00000800010C00000000001FE2"        # N = 7
TIMED = "00000800010C00030000001F82"            # the listing's with timers, which may be asked too
TIMED_7 = "00000800010C00030000001FE2"          # N = 7


# ---------------------------------------------------------------- building frames

def H(text):
    return bytes.fromhex(text)


def length(n):
    return bytes([n]) if n < 0x80 else bytes([0x81, n])


def obj(tag, value=b""):
    value = H(value) if isinstance(value, str) else value
    return bytes([tag]) + length(len(value)) + value


def frame(body):
    assert len(body) <= 0xFF
    return b"\xD0" + length(len(body)) + body


def det(kind, q=0, num=1, tag=0x81):
    return obj(tag, bytes([num, kind, q]))


def dev(dst=0x82, src=0x81, tag=0x82):
    return obj(tag, bytes([src, dst]))


def cmd(kind, *objs, q=0, dst=0x82, src=0x81, num=1):
    return frame(det(kind, q, num) + dev(dst, src) + b"".join(objs))


def raw(kind, *objs, q=0, num=1):
    """A command whose objects after 01 are all given."""
    return frame(det(kind, q, num) + b"".join(objs))


def size39(n, tag=0xB9):
    return obj(tag, bytes([n >> 8, n & 255]))


BEARER3 = obj(0xB5, "03")
BEARER2 = obj(0xB5, "02030405061F02")
TCP = obj(0x3C, "021F90")
UDP = obj(0x3C, "011F90")                       # a datagram channel
OTHER = obj(0x3C, "031F90")                     # a transport that no channel has


def open_(size, *extra, q=1, bearer=BEARER3, num=1):
    return cmd(0x40, bearer, size39(size), *extra, q=q, num=num)


def close(ch, *extra):
    return cmd(0x41, *extra, dst=0x20 + ch)


def recv(ch, n, *extra):
    return cmd(0x42, obj(0xB7, bytes([n])), *extra, dst=0x20 + ch)


def send(ch, data, *extra, q=1):
    return cmd(0x43, obj(0xB6, data), *extra, q=q, dst=0x20 + ch)


def status(*extra):
    return cmd(0x44, *extra)


def more_time(*extra, q=0, num=1):
    return cmd(0x02, *extra, q=q, num=num)


def events(values, *extra):
    return cmd(0x05, obj(0x99, values), *extra)


def timer(q, n, *extra):
    return cmd(0x27, obj(0xA4, bytes([n])), *extra, q=q)


def start_timer(n, time, *extra, q=0):
    return timer(q, n, obj(0xA5, time), *extra)


def stop_timer(n, *extra, q=1):
    return timer(q, n, *extra)


def ask_timer(n, *extra, q=2):
    return timer(q, n, *extra)


def arr(ch, data=b""):
    return bytes([0xA0, ch]) + data


def take(ch, n):
    return bytes([0xA1, ch, n >> 8, n & 255])


def drop(ch):
    return bytes([0xA2, ch])


class Rng:
    """A small generator of our own, the same everywhere and always."""
    def __init__(self, seed):
        self.state = (seed * 2654435761 + 12345) & 0xFFFFFFFF or 1

    def next(self):
        x = self.state
        x ^= (x << 13) & 0xFFFFFFFF
        x ^= x >> 17
        x ^= (x << 5) & 0xFFFFFFFF
        self.state = x
        return x

    def below(self, n):
        return (self.next() >> 3) % n

    def between(self, low, high):
        return low + self.below(high - low + 1)

    def pick(self, items):
        return items[self.below(len(items))]

    def bytes(self, n):
        return bytes(self.below(256) for _ in range(n))


def data(seed, n):
    return Rng(seed).bytes(n)


def hx(b):
    return b.hex().upper()


# ---------------------------------------------------------------- scripts

def short(out):
    if out.startswith("8103") and len(out) >= 24 and out[10:18] == "82028281":
        zero = "z" if out[4:10] == "000000" else ""
        if out[18:22] == "8301":
            return zero + out[22:24]
        if out[18:22] == "8302":
            return zero + out[22:26]
    return out


def meets(got, want):
    """Whether an answer is what the short form of a want says."""
    if want.startswith("="):
        return got == want[1:]
    if want.startswith(".."):
        return got.endswith(want[2:])
    return short(got) == want


ALL = []


class Script:
    tool = "lines"
    line_of = staticmethod(oracle.run_line)

    def __init__(self, name, profile=PROFILE, final_line_feed=True, lesson=False):
        self.name = name
        self.lines = [profile.encode("latin-1")]
        self.notes = []
        self.final = final_line_feed
        self.lesson = lesson
        self.session, first = oracle.start(self.lines[0])
        self.printed = [] if first is None else [first]
        ALL.append(self)

    def add(self, line, want=None, note=""):
        if isinstance(line, str):
            line_bytes = line.encode("latin-1")
        else:
            line_bytes = hx(line).encode("ascii")
        assert b"\n" not in line_bytes
        self.lines.append(line_bytes)
        got = self.line_of(self.session, line_bytes)
        self.printed.append(got)
        if want is not None and not meets(got, want):
            raise SystemExit("%s line %d (%s): %s\n got  %s\n want %s"
                             % (self.name, len(self.lines), note,
                                line_bytes[:80], got[:200], want[:200]))
        if note:
            self.notes.append((len(self.lines), note))
        return got

    def whole(self):
        text = b"\n".join(self.lines) + (b"\n" if self.final else b"")
        out = oracle.run(text, self.line_of)
        assert out.decode("ascii").splitlines() == self.printed, self.name
        return text, out

    def write_notes(self, folder):
        if self.notes:
            with open(os.path.join(folder, self.name + ".txt"), "w") as f:
                for number, note in self.notes:
                    f.write("line %d: %s\n" % (number, note))


# ---------------------------------------------------------------- listing and numbers

def make_listing():
    s = Script("listing", lesson=True)
    s.add("D015810301400182028182350103390205DC3C03021F90",
          "=81030140018202828183010038028100350103390205DC")
    s.add("D00C810301050082028182190109", "=810301050082028281830100")
    s.add("A001414243", "=D60E1901098202828138028100370103")
    s.add("D00C810301420082028121370105", "=8103014200820282818301023603414243370100")
    s.add("A00200", "=R4")


OPEN_1500 = "D015810301400182028182350103390205DC3C03021F90"


def make_numbers():
    s = Script("numbers6")
    s.add(OPEN_1500, "00")
    s.add(OPEN_1500, "00")
    s.add(OPEN_1500, "=810301400182028281830107380283003501033902" "0440", "number 6: 07, 1088")
    s.add(OPEN_1500, "=81030140018202828183023A04", "number 7: 3A 04")
    s.add(status(), "=810301440082028281830100" "38028100" "38028200" "38028300")

    d = data(8, 300)
    s = Script("numbers8")
    s.add(OPEN_1500, "00")
    s.add(arr(1, d), "--")
    got = s.add(recv(1, 255), "=8103014200820282818301023681ED" + hx(d[:237]) + "37013F",
                "number 8: 237 out, 02, 3F left, 255 bytes in all")
    assert len(got) == 510
    s.add(recv(1, 63), "=810301420082028281830100363F" + hx(d[237:]) + "370100", "the other 63")
    s.add(recv(1, 1), "=810301420082028281830102" "3600" "370100", "none left")

    for name, held in (("numbers9", 492), ("numbers10", 493)):
        d = data(held, held)
        s = Script(name)
        s.add(OPEN_1500, "00")
        s.add(arr(1, d), "--")
        s.add(recv(1, 237), "=8103014200820282818301003681ED" + hx(d[:237]) + "3701FF",
              "held %d, request 237: FF left" % held)
        s.add(recv(1, 0), "=8103014200820282818301003600" "3701FF")
        s.add(recv(1, 1), "..36" "01" + hx(d[237:238]) + ("3701FE" if held == 492 else "3701FF"))

    s = Script("numbers11")
    s.add("D00C810301020082028182050141", "=810301020082028281830101", "number 11")
    s.add("D00C810301020082028182850141", "=810301020082028281830132", "number 12")


def make_run_only():
    s = Script("run_only")
    d = data(1, 130)
    s.add(OPEN_1500, "00")
    s.add(events("09"), "00")
    s.add(arr(1, d), "=D60E1901098202828138028100370182")
    s.add(recv(1, 127), "=810301420082028281830100" "367F" + hx(d[:127]) + "370103", "data of 127")
    s.add(arr(1, d), "--", "onto three held: no event")
    s.add(recv(1, 128), "=810301420082028281830100" "368180" + hx((d[127:] + d)[:128]) + "370105",
          "data of 128")
    s.add(recv(1, 0), "=810301420082028281830100" "3600" "370105", "request 0")
    s.add(recv(1, 5), "=810301420082028281830100" "3605" + hx(d[125:]) + "370100")
    s.add(recv(1, 0), "=810301420082028281830100" "3600" "370100", "request 0, none held")
    s.add(arr(1, data(2, 1500)), "=D60E19010982028281380281003701FF", "arrival fills the grant")
    s.add(arr(1, b"\x55"), "R6", "one byte more")
    s.add(arr(1), "--", "none more: accepted, no event")
    s.add(recv(1, 1), "..3701FF")
    s.add(arr(1, b"\x56\x57"), "R6", "two bytes, room for one")
    s.add(arr(1, b"\x58"), "--", "one byte, room for one")
    s.add("D0817F" "8103010200" "82028182" "0574" + "11" * 116, "z32", "outer length 81 7F")
    s.add("D07F" "8103010200" "82028182" "0574" + "11" * 116, "01", "the same with 7F")
    s.add("D0818B" "8103010200" "82028182" "05817F" + "11" * 127, "32", "object length 81 7F")
    s.add("D0818A" "8103010200" "82028182" "057F" + "11" * 127, "01", "the same with 7F")
    s.add("D0818C" "8103010200" "82028182" "058180" + "11" * 128, "01", "object length 81 80")


# ---------------------------------------------------------------- radio

def make_radio():
    s = Script("radio")
    s.add(arr(1, b"\x01"), "R4", "nothing is open yet")
    s.add(take(1, 10), "R4")
    s.add(drop(1), "R4")
    s.add(events("090A"), "00")
    d = data(11, 100)
    s.add(open_(100), "..38028100" "350103" "39020064")
    s.add(arr(1, d[:99]), "..370163", "one byte short of the grant")
    s.add(arr(1, d[:2]), "R6", "two bytes into room for one")
    s.add(arr(1, d[99:]), "--", "fills the grant exactly")
    s.add(arr(1, b"\xEE"), "R6", "one byte more")
    s.add(arr(1), "--", "none more")
    s.add(recv(1, 100), "..3664" + hx(d) + "370100", "the refused bytes are not there")
    s.add(arr(1, data(12, 101)), "R6", "the grant and one, into an empty channel")
    s.add(arr(1), "--", "none, into an empty channel: no event")
    # takes
    s.add(take(1, 10), "--", "nothing is ready")
    s.add(take(1, 0), "--")
    t = data(13, 60)
    s.add(send(1, t[:20], q=0), "=810301430082028281830100370150", "stored only: room 80")
    s.add(take(1, 100), "--", "held but not ready")
    s.add(send(1, t[20:30], q=1), "=810301430182028281830100370146", "now 30 are ready: room 70")
    s.add(send(1, t[30:40], q=0), "=81030143008202828183010037013C", "10 behind them not ready")
    s.add(take(1, 0), "--", "a take of none")
    s.add(take(1, 7), "=" + hx(t[:7]), "fewer than ready")
    s.add(take(1, 100), "=" + hx(t[7:30]), "more than ready: the ready ones only")
    s.add(take(1, 100), "--", "10 held, none ready")
    s.add(send(1, b"", q=0), "=81030143008202828183010037015A", "no bytes, bit 1 clear: room 90")
    s.add(take(1, 1), "--")
    s.add(send(1, b"", q=1), "=81030143018202828183010037015A", "no bytes, bit 1 set: ready now")
    s.add(take(1, 10), "=" + hx(t[30:40]), "exactly as many as ready")
    s.add(take(1, 1500), "--")
    s.add(send(1, b"", q=1), "=810301430182028281830100370164", "all room again")
    s.add(send(1, data(14, 100), q=1), "=810301430182028281830100370100", "fills the send way exactly")
    s.add(send(1, b"\x01", q=1), "3A04", "one byte more")
    s.add(send(1, b"", q=1), "=810301430182028281830100370100", "none more")
    s.add(take(1, 1500), "=" + hx(data(14, 100)))
    s.add(send(1, data(15, 101), q=1), "3A04", "grant and one: nothing stored")
    s.add(take(1, 1500), "--")
    # a channel opened without bit 1
    s.add(open_(64, q=0), "=8103014000" "82028281" "830100" "38020200" "350103" "39020040",
          "channel 2, not yet established")
    s.add(arr(2, b"\x01"), "R5", "not yet established")
    s.add(arr(2), "R5", "no bytes, refused all the same")
    s.add(arr(2, data(16, 65)), "R5", "R5 comes before R6")
    s.add(take(2, 1), "R5")
    s.add(take(2, 0), "R5")
    s.add(drop(2), "R5")
    s.add(send(2, b"\x21\x22", q=0), "=81030143008202828183010037013E", "stored on an unestablished link")
    s.add(take(2, 5), "R5", "still not established")
    s.add(status(), "..38028100" "38020200")
    s.add(recv(2, 1), "..830102" "3600" "370100", "RECEIVE DATA needs no link")
    s.add(send(2, b"\x23", q=1), "=81030143018202828183010037013D", "bit 1: establishes")
    s.add(status(), "..38028100" "38028200")
    s.add(take(2, 5), "=212223", "all that was held is ready")
    s.add(arr(2, b"\x77"), "=D60E1901098202828138028200370101")
    # established by no bytes
    s.add(open_(32, q=0xFE), "=81030140FE" "82028281" "830100" "38020300" "350103" "39020020",
          "qualifier FE: bit 1 clear")
    s.add(send(3, b"", q=0xFE), "=81030143FE820282818301003701" "20")
    s.add(arr(3, b"\x78"), "R5")
    s.add(send(3, b"", q=0xFF), "=81030143FF820282818301003701" "20", "establishes with no bytes")
    s.add(arr(3, b"\x78"), "=D60E1901098202828138028300370101")
    # drop
    s.add(send(2, b"\x31\x32", q=1), "00")
    s.add(send(2, b"\x33", q=0), "00")
    s.add(arr(2, b"\x79\x7A"), "--")
    s.add(drop(2), "=D60B19010A8202828138020205", "drop: event 0A")
    s.add(arr(2, b"\x01"), "R5")
    s.add(arr(2), "R5")
    s.add(take(2, 5), "R5")
    s.add(drop(2), "R5", "a second drop")
    s.add(send(2, b"\x01", q=1), "3A02")
    s.add(send(2, b"\x01", q=0), "3A02")
    s.add(send(2, b"", q=0), "3A02", "no bytes on a dropped link")
    s.add(send(2, b"", q=1), "3A02", "bit 1 does not bring it back")
    s.add(status(), "..38028100" "38020205" "38028300")
    s.add(recv(2, 2), "..830100" "3602" "7779" "370101", "RECEIVE DATA after a drop")
    s.add(recv(2, 2), "..830102" "3601" "7A" "370100")
    s.add(recv(2, 1), "..830102" "3600" "370100")
    s.add(close(2), "00", "CLOSE after a drop")
    s.add(close(2), "3A03")
    s.add(arr(2, b"\x01"), "R4")
    s.add(take(2, 1), "R4")
    s.add(drop(2), "R4")
    s.add(open_(64), "..38028200" "350103" "39020040", "channel 2 again, fresh")
    s.add(take(2, 64), "--", "nothing of the old bytes is ready")
    s.add(recv(2, 64), "..3600" "370100", "nor held")
    s.add(send(2, b"", q=1), "..370140")
    # drop without event 0A, arrival without event 09
    s.add(events("09"), "00")
    s.add(drop(3), "--", "drop, 0A not listed")
    s.add(events("0A"), "00")
    s.add(arr(2, b"\x44"), "--", "arrival, 09 not listed")
    s.add(events(""), "00")
    s.add(arr(2, b"\x45"), "--")
    s.add(recv(2, 9), "..3602" "4445" "370100")
    s.add(drop(2), "--")
    s.add(status(), "..38028100" "38020205" "38020305")
    # channels that are none, and unopened
    for ch in (0, 8, 9, 0x21, 0x7F, 0x80, 0x81, 0xFF):
        s.add(arr(ch, b"\x01"), "R3")
        s.add(arr(ch), "R3")
        s.add(take(ch, 1), "R3")
        s.add(take(ch, 0), "R3")
        s.add(drop(ch), "R3")
    for ch in (4, 5, 6, 7):
        s.add(arr(ch, b"\x01"), "R4")
        s.add(take(ch, 1), "R4")
        s.add(drop(ch), "R4")
    # close discards
    s.add(arr(1, b"\x61\x62"), "--")
    s.add(send(1, b"\x63\x64", q=1), "00")
    s.add(close(1), "00")
    s.add(open_(100), "..38028100" "350103" "39020064")
    s.add(recv(1, 5), "..3600" "370100", "CLOSE discarded the received bytes")
    s.add(take(1, 5), "--", "and the sent ones")
    s.add(drop(1), "--")
    s.add(close(1), "00")
    s.add(open_(100), "..38028100" "350103" "39020064", "opened anew after a drop: established")


def sends(s, ch, d, first_room):
    """Send d in pieces of 200, each ready."""
    room = first_room
    for at in range(0, len(d), 200):
        piece = d[at:at + 200]
        room -= len(piece)
        s.add(send(ch, piece), "..3701%02X" % min(room, 255))


def receives(s, ch, d):
    """Receive all of d in pieces of 237."""
    for at in range(0, len(d), 237):
        piece = d[at:at + 237]
        left = len(d) - at - len(piece)
        s.add(recv(ch, len(piece)),
              "..830100" + hx(obj(0x36, piece)) + "3701%02X" % min(left, 255))


def make_radio_three():
    # 1500 (94 cells), 640 (40), 1500 (94): 28 unpromised. The middle one closed: 68.
    # The larger one of 1088 needs all 68: the 40 old ones and the 28 behind channel 3.
    s = Script("radio_three")
    r1, r2, r3 = data(21, 1500), data(22, 640), data(23, 1500)
    t1, t2, t3 = data(24, 1500), data(25, 640), data(26, 1500)
    n2, m2 = data(27, 1088), data(28, 1088)
    s.add(open_(1500), "..38028100" "350103" "390205DC")
    s.add(open_(640), "..38028200" "350103" "39020280")
    s.add(open_(1500), "..38028300" "350103" "390205DC")
    s.add(arr(1, r1), "--")
    s.add(arr(2, r2), "--")
    s.add(arr(3, r3), "--")
    sends(s, 1, t1, 1500)
    sends(s, 2, t2, 640)
    sends(s, 3, t3, 1500)
    s.add(close(2), "00", "the middle one closed")
    s.add(open_(1088), "..830100" "38028200" "350103" "39020440", "the larger one: all cells promised")
    s.add(open_(1), "3A04", "no cell is left")
    s.add(take(2, 1500), "--", "nothing of the old channel 2")
    s.add(recv(2, 255), "..830102" "3600" "370100")
    s.add(arr(2, n2), "--", "fills it whole")
    sends(s, 2, m2, 1088)
    s.add(arr(1, b"\x01"), "R6")
    s.add(arr(2, b"\x01"), "R6")
    s.add(arr(3, b"\x01"), "R6")
    s.add(send(1, b"\x01"), "3A04")
    s.add(send(2, b"\x01"), "3A04")
    s.add(send(3, b"\x01"), "3A04")
    receives(s, 3, r3)
    s.add(take(3, 1500), "=" + hx(t3), "channel 3's sent bytes stayed")
    receives(s, 1, r1)
    s.add(take(1, 1500), "=" + hx(t1), "channel 1's too")
    receives(s, 2, n2)
    s.add(take(2, 700), "=" + hx(m2[:700]))
    s.add(take(2, 700), "=" + hx(m2[700:]))
    s.add(status(), "..38028100" "38028200" "38028300")


def make_radio_forced():
    # Channel 1 (94 cells) and 2 (94); 1 closed and opened anew with 32 (2 cells);
    # 3 with 1500 (94) must go into cells of the old channel 1; 4 takes the other 66.
    # Then 2 closed: the only unpromised cells are the old channel 2's 94.
    s = Script("radio_forced")
    a, b, c, e = data(31, 32), data(32, 1500), data(33, 1500), data(34, 1056)
    s.add(open_(1500), "..38028100" "350103" "390205DC")
    s.add(open_(1500), "..38028200" "350103" "390205DC")
    s.add(arr(1, data(35, 200)), "--")
    s.add(close(1), "00")
    s.add(open_(32), "..38028100" "350103" "39020020")
    s.add(open_(1500), "..38028300" "350103" "390205DC")
    s.add(open_(2000), "=810301400182028281830107" "38028400" "350103" "39020420", "the last 66 cells: 1056")
    s.add(arr(1, a), "--")
    s.add(arr(3, c), "--")
    s.add(arr(4, e), "--")
    s.add(close(2), "00")
    s.add(open_(1500), "..830100" "38028200" "350103" "390205DC", "94 cells, no more and no fewer")
    s.add(arr(2, b), "--")
    receives(s, 3, c)
    receives(s, 4, e)
    receives(s, 1, a)
    receives(s, 2, b)


def make_wrap():
    # Small grants, so that the places wrap around often.
    for name, grant, seed in (("wrap45", 45, 41), ("wrap1", 1, 42), ("wrap64", 64, 43)):
        s = Script(name)
        rng = Rng(seed)
        s.add(open_(grant), "..3902%04X" % grant)
        s.add(events("09"), "00")
        for _ in range(12 if grant == 1 else 40):
            ch = s.session.channels[1]
            room = grant - len(ch.received)
            n = min(rng.between(1, 30), room + (1 if rng.below(6) == 0 else 0))
            s.add(arr(1, rng.bytes(n)))
            s.add(recv(1, rng.between(0, min(30, len(ch.received) + 1))))
            room = grant - len(ch.sent)
            n = min(rng.between(1, 30), room + (1 if rng.below(6) == 0 else 0))
            s.add(send(1, rng.bytes(n), q=rng.below(2)))
            s.add(take(1, rng.between(0, 30)))


# ---------------------------------------------------------------- results

def make_results():
    s = Script("results")
    unk, unk_flagged = obj(0x5E, "AA"), obj(0xDE, "AA")

    # ---- zero details
    s.add("D000", "z36", "no objects")
    s.add(frame(dev()), "z36", "the first object is not 01")
    s.add(frame(dev() + det(0x02)), "z36", "01 comes second")
    s.add(frame(obj(0x81, "0102")), "z36", "01 of length 2")
    s.add(frame(obj(0x81, "01020000") + dev()), "z36", "01 of length 4")
    s.add(frame(obj(0x81) + dev()), "z36", "01 of length 0")
    s.add("D003810301", "z32", "01 cut")
    s.add("D0028103", "z32", "01 without its value")
    s.add("D00181", "z32", "01 without its length")
    s.add("D00A" "00" "8103010200" "82028182", "z32", "first tag 00")
    s.add("D00A" "7F" "8103010200" "82028182", "z36", "first tag 7F 81 03, which is 259, of length 1")
    s.add("D00A" "FF" "8103010200" "82028182", "z32", "first tag FF")
    s.add("D00A" "80" "8103010200" "82028182", "z32", "first tag 80")
    s.add("D00A" "81810301020082028182", "z32", "first length 81 03")
    s.add("D005" "8202818200", "z36", "first well formed and not 01, a fault later")
    s.add("D00A" "81020102" "0000" "82028182", "z36", "01 of length 2, a fault later")

    # ---- 02 MORE TIME
    s.add(more_time(), "=810301020082028281830100")
    s.add(more_time(q=0xFF, num=0x7F), "=81037F02FF82028281830100", "number and qualifier are echoed")
    s.add(more_time(num=0), "=810300020082028281830100")
    s.add(frame(det(0x02, tag=0x01) + dev(tag=0x02)), "00", "flags clear on 01 and 02")
    s.add(more_time(obj(0x05, "41")), "01", "unexpected, unflagged")
    s.add(more_time(obj(0x85, "41")), "32", "unexpected, flagged")
    s.add(more_time(obj(0x1E, "41")), "01", "1E of length 1: unexpected here, no length rule")
    s.add(more_time(obj(0x37, "0102")), "01")
    s.add(more_time(unk, unk), "01", "two")
    s.add(more_time(unk, unk_flagged), "32", "the second is flagged")
    s.add(more_time(obj(0x01, "010200")), "01", "surplus second 01")
    s.add(more_time(obj(0x01, "024400")), "=810301020082028281830101", "surplus 01 of another type: the first counts")
    s.add(more_time(obj(0x01)), "01", "surplus 01 has no length rule")
    s.add(more_time(obj(0x81, "010200")), "32", "surplus 01, flagged")
    s.add(more_time(obj(0x02, "8182")), "01", "surplus second 02")
    s.add(more_time(obj(0x02, "8321")), "01", "surplus 02 with other values: the first counts")
    s.add(more_time(obj(0x02, "81")), "01", "surplus 02 has no length rule")
    s.add(more_time(obj(0x82, "8182")), "32", "surplus 02, flagged")
    s.add(raw(0x02, unk, dev()), "01", "unexpected before 02")
    s.add(raw(0x02), "36", "02 absent")
    s.add(raw(0x02, unk), "36")
    s.add(raw(0x02, obj(0x82)), "32", "02 of length 0")
    s.add(raw(0x02, obj(0x82, "81")), "32", "02 of length 1")
    s.add(raw(0x02, obj(0x82, "818200")), "32", "02 of length 3")
    s.add(raw(0x02, obj(0x82, "818200"), obj(0x02, "8182")), "32", "the first 02 counts")
    for src in (0x80, 0x82, 0x83, 0x01, 0x21, 0x00, 0xFF):
        s.add(cmd(0x02, src=src), "32", "source %02X" % src)
    for dst in (0x81, 0x83, 0x21, 0x27, 0x02, 0x00, 0xFF):
        s.add(cmd(0x02, dst=dst), "32", "destination %02X" % dst)
    s.add(cmd(0x02, src=0x82, dst=0x81), "32", "the other way round")
    s.add(more_time(b"\x05"), "32", "a tag alone at the end")
    s.add(more_time(b"\x05\x02\x00"), "32", "a cut value at the end")
    s.add(more_time(b"\x05\x81\x01\x00"), "32", "object length 81 01")
    s.add(more_time(b"\x00"), "32", "tag 00 at the end")

    # ---- 31
    s.add(cmd(0x00), "31")
    s.add(cmd(0x01), "31")
    s.add(cmd(0x45), "31")
    s.add(cmd(0xFF), "31")
    s.add(raw(0x45), "31", "unknown type, no 02")
    s.add(cmd(0x45, unk_flagged), "31", "unknown type, flagged unknown object")
    s.add(frame(obj(0x81, "000000")), "z31", "details happen to be zero")

    # ---- 05 SET UP EVENT LIST
    s.add(events("09"), "=810301050082028281830100")
    s.add(events("0A"), "00")
    s.add(events("090A"), "00")
    s.add(events("0A090A0909"), "00", "more than once each")
    s.add(events(""), "00", "empty list")
    s.add(cmd(0x05, obj(0x19, "09")), "00", "19 unflagged")
    s.add(raw(0x05, obj(0x99, "09"), dev()), "00", "19 before 02")
    s.add(events(b"\x09\x0A" * 65), "00", "130 values")
    s.add(events("00"), "30")
    s.add(events("08"), "30")
    s.add(events("0B"), "30")
    s.add(events("89"), "30")
    s.add(events("09FF"), "30")
    s.add(events("0B09"), "30")
    s.add(events(b"\x09" * 129 + b"\x0B"), "30")
    s.add(events("09", obj(0x05, "41")), "01")
    s.add(events("09", obj(0x1E, "0000")), "01")
    s.add(events("09", obj(0x85, "41")), "32")
    s.add(events("09", obj(0x19, "FF")), "01", "surplus 19: the first counts")
    s.add(events("FF", obj(0x19, "09")), "30", "surplus 19: the first counts")
    s.add(events("09", obj(0x99, "09")), "32", "surplus 19, flagged")
    s.add(events("09", obj(0x01, "010500")), "01")
    s.add(events("09", obj(0x02, "8182")), "01")
    s.add(events("09", obj(0x81, "010500")), "32")
    s.add(events("09", obj(0x82, "8182")), "32")
    s.add(cmd(0x05), "36", "19 absent")
    s.add(raw(0x05, obj(0x99, "09")), "36", "02 absent")
    s.add(raw(0x05), "36")
    s.add(raw(0x05, obj(0x82, "81"), obj(0x99, "09")), "32", "02 of length 1")
    s.add(cmd(0x05, obj(0x99, "09"), src=0x82), "32")
    s.add(cmd(0x05, obj(0x99, "09"), dst=0x21), "32")
    s.add(cmd(0x05, obj(0x99, "09"), dst=0x81), "32")
    # what a refused list leaves, seen by events
    s.add(open_(100), "00")
    s.add(events("09"), "00")
    s.add(arr(1, b"\x01"), "..370101", "09 is listed")
    s.add(events("0A0B"), "30")
    s.add(recv(1, 1), "00")
    s.add(arr(1, b"\x02"), "..370101", "the list stayed")
    s.add(events("FF"), "30")
    s.add(recv(1, 1), "00")
    s.add(arr(1, b"\x03"), "..370101")
    s.add(events("", obj(0x85, "41")), "32")
    s.add(recv(1, 1), "00")
    s.add(arr(1, b"\x04"), "..370101")
    s.add(events("0A", obj(0x05, "41")), "01")
    s.add(recv(1, 1), "00")
    s.add(arr(1, b"\x05"), "--", "replaced: 09 is no longer listed")
    s.add(events(""), "00")
    s.add(drop(1), "--", "cleared")
    s.add(close(1), "00")

    # ---- 40 OPEN CHANNEL: each answered with success is closed again
    def opening(line, want, note=""):
        s.add(line, want, note)
        if want in ("00", "01", "07") or want.startswith("="):
            s.add(close(1), "00")

    opening(open_(1500, TCP), "=8103014001" "82028281" "830100" "38028100" "350103" "390205DC")
    opening(open_(1501), "=8103014001" "82028281" "830107" "38028100" "350103" "390205DC", "only the cap cuts: 07")
    opening(open_(65535), "=8103014001" "82028281" "830107" "38028100" "350103" "390205DC")
    opening(open_(1), "=8103014001" "82028281" "830100" "38028100" "350103" "39020001")
    opening(open_(255), "..390200FF")
    s.add(close(1), "00")
    opening(open_(256), "..39020100")
    s.add(close(1), "00")
    opening(open_(100, q=0), "=8103014000" "82028281" "830100" "38020100" "350103" "39020064", "not yet established")
    opening(open_(100, q=2), "=8103014002" "82028281" "830100" "38020100" "350103" "39020064", "bit 2 is not looked at")
    opening(open_(100, q=0xFF), "=81030140FF" "82028281" "830100" "38028100" "350103" "39020064")
    opening(open_(100, bearer=BEARER2), "=8103014001" "82028281" "830100" "38028100" "350702030405061F02" "39020064",
            "bearer 02 with 7 bytes, as received")
    opening(open_(100, bearer=obj(0x35, "02FFEEDDCCBBAA")),
            "=8103014001" "82028281" "830100" "38028100" "350702FFEEDDCCBBAA" "39020064", "35 unflagged")
    opening(open_(100, bearer=obj(0x35, "03")), "=8103014001" "82028281" "830100" "38028100" "350103" "39020064")
    opening(cmd(0x40, size39(100), BEARER3, q=1), "00", "39 before 35")
    opening(raw(0x40, size39(100), BEARER3, dev(), q=1), "00", "02 last")
    opening(cmd(0x40, TCP, BEARER3, size39(100, tag=0x39), q=1), "00", "39 unflagged, 3C first")
    every = [obj(0x05, "41"), obj(0x1E, "0001"), TCP, obj(0x47, "0378797A"), obj(0x04, "0102"),
             obj(0x04, "0304"), obj(0x0D, "F45573"), obj(0x0D, "F4"), obj(0x3E, "2101020304"), obj(0x3E, "21")]
    opening(open_(100, *every), "00", "all that may stand")
    flagged = [bytes([o[0] | 0x80]) + o[1:] for o in every]
    opening(open_(100, *flagged), "00", "the same, all flagged")
    opening(cmd(0x40, *reversed(every), BEARER3, size39(100), q=1), "00", "in another order")
    opening(open_(100, obj(0x05), obj(0x47), obj(0x0D), obj(0x0D), obj(0x3E), obj(0x3E)), "00", "values of no bytes")
    opening(open_(100, obj(0x05, data(51, 130))), "00", "05 of 130 bytes")
    opening(open_(100, obj(0x47, data(52, 200))), "00")
    opening(open_(100, obj(0x0D, data(53, 90)), obj(0x0D, data(54, 100))), "00")
    opening(open_(100, obj(0x3E, data(55, 128))), "00")
    # one too many
    for one in every:
        number = one[0]
        most = 2 if number in (0x04, 0x0D, 0x3E) else 1
        opening(open_(100, *([one] * most)), "00", "%02X, %d of them" % (number, most))
        opening(open_(100, *([one] * (most + 1))), "01", "%02X, one too many" % number)
        opening(open_(100, *([one] * most), bytes([number | 0x80]) + one[1:]), "32",
                "%02X, one too many, flagged" % number)
        if most == 2:
            opening(open_(100, bytes([number | 0x80]) + one[1:], bytes([number | 0x80]) + one[1:], one), "01",
                    "%02X, two flagged and a third one not" % number)
    opening(open_(100, obj(0x04, "0102"), obj(0x04, "0102"), obj(0x04, "01")), "01", "the third 04 has no length rule")
    opening(open_(100, obj(0x04, "0102"), obj(0x04, "0102"), obj(0x04), obj(0x04, "010203")), "01", "nor the fourth")
    opening(open_(100, TCP, OTHER), "01", "second 3C not TCP: the first counts")
    opening(open_(100, TCP, obj(0x3C)), "01", "second 3C has no length rule")
    opening(open_(100, OTHER, TCP), "3A06", "the first 3C counts")
    opening(open_(100, size39(200, tag=0x39)), "=8103014001" "82028281" "830101" "38028100" "350103" "39020064",
            "second 39: the first counts")
    opening(open_(100, size39(0, tag=0x39)), "01")
    opening(open_(0, size39(100, tag=0x39)), "3A04")
    opening(open_(100, size39(200)), "32", "second 39, flagged")
    opening(open_(100, obj(0x35, "02030405061F02")), "=8103014001" "82028281" "830101" "38028100" "350103" "39020064",
            "second 35: the first counts")
    opening(open_(100, obj(0x35)), "01", "second 35 has no length rule")
    opening(open_(100, BEARER3), "32", "second 35, flagged")
    opening(open_(100, obj(0x36, "41")), "01", "36 is unexpected here")
    opening(open_(100, obj(0x37, "41")), "01")
    opening(open_(100, obj(0x38, "0000")), "01")
    opening(open_(100, obj(0xB8, "0000")), "32")
    opening(open_(100, obj(0x01, "014001")), "01")
    opening(open_(100, obj(0x81, "014001")), "32")
    opening(open_(100, obj(0x02, "8182")), "01")
    opening(open_(100, obj(0x82, "8182")), "32")
    opening(open_(1501, unk), "07", "07 hides 01")
    # absent
    opening(cmd(0x40, size39(100), q=1), "36", "35 absent")
    opening(cmd(0x40, BEARER3, q=1), "36", "39 absent")
    opening(raw(0x40, BEARER3, size39(100), q=1), "36", "02 absent")
    opening(raw(0x40, q=1), "36")
    opening(cmd(0x40, BEARER3, unk, q=1), "36", "39 absent, one ignored")
    # lengths
    opening(raw(0x40, obj(0x82, "81"), BEARER3, size39(100), q=1), "32", "02 of length 1")
    opening(raw(0x40, obj(0x82, "818200"), BEARER3, size39(100), q=1), "32", "02 of length 3")
    for value in ("", "64", "000064"):
        opening(cmd(0x40, BEARER3, obj(0xB9, value), q=1), "32", "39 of length %d" % (len(value) // 2))
    for value in ("", "02", "021F", "021F9000"):
        opening(open_(100, obj(0x3C, value)), "32", "3C of length %d" % (len(value) // 2))
        opening(open_(100, obj(0xBC, value)), "32", "the same, flagged")
    opening(open_(100, obj(0x3C, "01")), "32", "3C wrong in length and not TCP")
    for value in ("", "00", "000000"):
        opening(open_(100, obj(0x1E, value)), "32", "1E of length %d" % (len(value) // 2))
        opening(open_(100, obj(0x9E, value)), "32", "the same, flagged")
        opening(open_(100, obj(0x04, value)), "32", "04 of length %d" % (len(value) // 2))
        opening(open_(100, obj(0x84, value)), "32", "the same, flagged")
        opening(open_(100, obj(0x04, value), obj(0x04, "0102")), "32", "the first 04 wrong")
        opening(open_(100, obj(0x04, "0102"), obj(0x04, value)), "32", "the second 04 wrong")
    for value in ("", "02", "0203", "02030405061F", "02030405061F0203", "0300", "03030405061F02"):
        opening(open_(100, bearer=obj(0xB5, value)), "32", "35 with %s" % (value or "nothing"))
    for value in ("00", "01", "04", "0102", "01030405061F02", "04030405061F02", "05" * 100, "82030405061F02", "83", "FF"):
        opening(open_(100, bearer=obj(0xB5, value)), "30", "bearer type %s" % value[:2])
    # devices
    for src in (0x80, 0x82, 0x21):
        opening(cmd(0x40, BEARER3, size39(100), q=1, src=src), "32", "source %02X" % src)
    for dst in (0x81, 0x83, 0x21, 0x00):
        opening(cmd(0x40, BEARER3, size39(100), q=1, dst=dst), "32", "destination %02X" % dst)
    # own checks
    for first in ("00", "03", "04", "82", "FF"):
        opening(open_(100, obj(0x3C, first + "1F90")), "3A06", "3C first byte %s" % first)
    opening(open_(100, obj(0xBC, "031F90")), "3A06", "flagged")
    opening(open_(100, obj(0x3C, "020000")), "00", "the port is not looked at")
    opening(open_(100, obj(0x3C, "02FFFF")), "00")
    opening(open_(0), "3A04", "size 0")
    s.add(status(), "..38020000", "nothing is open")
    for ch in (1, 2, 3, 4):
        s.add(open_(32), "..3802%02X00" "350103" "39020020" % (0x80 + ch))
    s.add(open_(32), "3A01", "no number left")
    s.add(close(2), "00")
    s.add(close(4), "00")
    s.add(open_(32), "..38028200" "350103" "39020020", "the lowest unused number")
    s.add(open_(32), "..38028400" "350103" "39020020")
    for ch in (1, 2, 3, 4):
        s.add(close(ch), "00")
    s.add(open_(1500), "00")
    s.add(open_(1500), "00")
    s.add(open_(1089), "=8103014001" "82028281" "830107" "38028300" "350103" "39020440", "68 cells unpromised: 1088")
    s.add(open_(1), "3A04", "want of cells")
    s.add(close(3), "00")
    s.add(open_(1088), "=8103014001" "82028281" "830100" "38028300" "350103" "39020440")
    s.add(open_(1), "3A04")
    s.add(close(3), "00")
    s.add(open_(1057), "..830100" "38028300" "350103" "39020421", "1057 needs 34 cells a way: all")
    s.add(open_(1), "3A04")
    s.add(close(3), "00")
    s.add(open_(1056), "..830100" "38028300" "350103" "39020420", "1056 needs 33: two cells stay")
    s.add(open_(33), "=8103014001" "82028281" "830107" "38028400" "350103" "39020020", "two cells: 32")
    s.add(close(4), "00")
    s.add(open_(32), "=8103014001" "82028281" "830100" "38028400" "350103" "39020020")
    for ch in (1, 2, 3, 4):
        s.add(close(ch), "00")

    # ---- 41 CLOSE CHANNEL
    s.add(close(1), "=81030141008202828183023A03", "unopened")
    s.add(close(7), "3A03")

    def closing(line, want, note=""):
        s.add(open_(10), "..38028100" "350103" "3902000A")
        s.add(line, want, note)
        s.add(status(), "..38020000" if want in ("00", "01") else "..38028100")
        if want not in ("00", "01"):
            s.add(close(1), "00")

    closing(close(1), "00")
    closing(cmd(0x41, q=0xFF, dst=0x21), "00", "the qualifier is not looked at")
    closing(close(1, obj(0x05, "41"), obj(0x1E, "0001")), "00", "05 and 1E may stand")
    closing(close(1, obj(0x85), obj(0x9E, "0001")), "00", "flagged too")
    closing(close(1, unk), "01")
    closing(close(1, unk_flagged), "32")
    closing(close(1, obj(0x37, "01")), "01")
    closing(close(1, obj(0xB7, "01")), "32")
    closing(close(1, obj(0x05, "41"), obj(0x05, "42")), "01")
    closing(close(1, obj(0x05, "41"), obj(0x85, "42")), "32")
    closing(close(1, obj(0x1E, "0001"), obj(0x1E)), "01")
    closing(close(1, obj(0x1E)), "32")
    closing(close(1, obj(0x1E, "000102")), "32")
    closing(close(1, obj(0x01, "014100")), "01")
    closing(close(1, obj(0x81, "014100")), "32")
    closing(close(1, obj(0x02, "8122")), "01")
    closing(close(1, obj(0x82, "8121")), "32")
    closing(raw(0x41), "36", "02 absent")
    closing(raw(0x41, obj(0x82, "21")), "32")
    closing(raw(0x41, obj(0x82, "812121")), "32")
    closing(cmd(0x41, dst=0x21, src=0x82), "32")
    closing(cmd(0x41, dst=0x82), "32")
    closing(cmd(0x41, dst=0x01), "32", "a channel number is no identity")
    closing(cmd(0x41, dst=0x22), "3A03")

    # ---- 42 RECEIVE DATA
    s.add(recv(1, 0), "=81030142008202828183023A03", "unopened")
    s.add(open_(10), "00")
    s.add(arr(1, b"\x41\x42\x43\x44\x45\x46"), "--")
    s.add(recv(1, 1), "=810301420082028281830100" "3601" "41" "370105")
    s.add(recv(1, 1, obj(0x05, "41"), obj(0x1E, "0001")), "..830100" "3601" "42" "370104")
    s.add(recv(1, 1, obj(0x85, "41"), obj(0x9E, "0001")), "..830100" "3601" "43" "370103")
    s.add(recv(1, 1, unk), "..830101" "3601" "44" "370102", "01")
    s.add(recv(1, 1, unk_flagged), "32", "nothing handed out")
    s.add(recv(1, 1, obj(0x37, "09")), "..830101" "3601" "45" "370101", "second 37: the first counts")
    s.add(recv(1, 1, obj(0xB7, "01")), "32")
    s.add(cmd(0x42, dst=0x21), "36", "37 absent")
    s.add(raw(0x42, obj(0xB7, "01")), "36", "02 absent")
    s.add(raw(0x42), "36")
    s.add(cmd(0x42, obj(0xB7), dst=0x21), "32", "37 of length 0")
    s.add(cmd(0x42, obj(0xB7, "0001"), dst=0x21), "32", "37 of length 2")
    s.add(cmd(0x42, obj(0x37, "0001"), dst=0x21), "32")
    s.add(raw(0x42, obj(0x82, "81"), obj(0xB7, "01")), "32")
    s.add(raw(0x42, obj(0x82, "812121"), obj(0xB7, "01")), "32")
    s.add(recv(1, 1, obj(0x1E, "00")), "32")
    s.add(recv(1, 1, obj(0x1E, "000000")), "32")
    s.add(recv(1, 1, obj(0x1E, "0000"), obj(0x1E, "00")), "..830101" "3601" "46" "370100")
    s.add(recv(1, 0), "..830100" "3600" "370100")
    s.add(recv(1, 0, unk), "..830101" "3600" "370100")
    s.add(recv(1, 1), "..830102" "3600" "370100")
    s.add(recv(1, 1, unk), "..830102" "3600" "370100", "02 hides 01")
    s.add(recv(1, 0, obj(0x36, "41")), "01")
    s.add(recv(1, 0, obj(0xB6, "41")), "32")
    s.add(recv(1, 0, obj(0x01, "014200")), "01")
    s.add(recv(1, 0, obj(0x81, "014200")), "32")
    s.add(recv(1, 0, obj(0x02, "8121")), "01")
    s.add(recv(1, 0, obj(0x82, "8121")), "32")
    s.add(raw(0x42, obj(0x37, "00"), dev(0x21)), "00", "37 before 02, unflagged")
    s.add(cmd(0x42, obj(0xB7, "00"), dst=0x21, src=0x83), "32")
    s.add(cmd(0x42, obj(0xB7, "00"), dst=0x82), "32")
    s.add(cmd(0x42, obj(0xB7, "00"), dst=0x01), "32")
    s.add(cmd(0x42, obj(0xB7, "00"), dst=0x21, q=0xFF), "00")
    s.add(recv(2, 0), "3A03")

    # ---- 43 SEND DATA (channel 1 has grant 10)
    s.add(send(2, b"\x41"), "=81030143018202828183023A03", "unopened")
    s.add(send(1, b"\x41"), "=810301430182028281830100370109")
    s.add(send(1, b"\x42", obj(0x05, "41"), obj(0x1E, "0001")), "..830100370108")
    s.add(send(1, b"\x43", obj(0x85, "41"), obj(0x9E, "0001")), "..830100370107")
    s.add(send(1, b"\x44", unk), "..830101370106")
    s.add(send(1, b"\x45", unk_flagged), "32", "nothing stored")
    s.add(send(1, b"\x46", obj(0x36, "4747")), "..830101370105", "second 36: the first counts")
    s.add(send(1, b"\x48", obj(0xB6, "48")), "32")
    s.add(cmd(0x43, dst=0x21), "36", "36 absent")
    s.add(raw(0x43, obj(0xB6, "49")), "36", "02 absent")
    s.add(raw(0x43), "36")
    s.add(raw(0x43, obj(0x82, "81"), obj(0xB6, "49")), "32")
    s.add(raw(0x43, obj(0x82, "812121"), obj(0xB6, "49")), "32")
    s.add(send(1, b"\x49", obj(0x1E, "00")), "32")
    s.add(send(1, b"\x49", obj(0x9E, "000000")), "32")
    s.add(send(1, b"\x4A", obj(0x1E, "0000"), obj(0x1E, "00")), "..830101370104")
    s.add(send(1, b"\x4B", obj(0x37, "01")), "..830101370103")
    s.add(send(1, b"\x4C", obj(0xB7, "01")), "32")
    s.add(send(1, b"\x4C", obj(0x01, "014301")), "..830101370102")
    s.add(send(1, b"\x4D", obj(0x81, "014301")), "32")
    s.add(send(1, b"\x4D", obj(0x02, "8122")), "..830101370101", "the second 02 does not send to channel 2")
    s.add(send(1, b"\x4E", obj(0x82, "8121")), "32")
    s.add(cmd(0x43, obj(0xB6, "4E"), dst=0x21, src=0x82), "32")
    s.add(cmd(0x43, obj(0xB6, "4E"), dst=0x82), "32")
    s.add(cmd(0x43, obj(0xB6, "4E"), dst=0x01), "32")
    s.add(send(1, b"\x4E\x4F"), "3A04", "two bytes, room for one")
    s.add(send(1, b"\x4E\x4F", unk), "3A04")
    s.add(raw(0x43, obj(0x36, "50"), dev(0x21), q=1), "..830100370100", "36 before 02, unflagged")
    s.add(send(1, b"\x51"), "3A04")
    s.add(send(1, b""), "..830100370100")
    s.add(take(1, 20), "=4142434446" "4A4B4C4D50", "just what was accepted")
    s.add(drop(1), "--")
    s.add(send(1, b"\x41"), "=81030143018202828183023A02", "dropped")
    s.add(send(1, b"\x41", unk), "3A02")
    s.add(send(1, b"\x41", unk_flagged), "32")

    # ---- 44 GET CHANNEL STATUS
    s.add(status(), "=810301440082028281830100" "38020105")
    s.add(close(1), "00")
    s.add(status(), "=810301440082028281830100" "38020000")
    s.add(status(unk), "=810301440082028281830101" "38020000")
    s.add(status(unk_flagged), "=810301440082028281830132")
    s.add(status(obj(0x05, "41")), "01")
    s.add(status(obj(0x85, "41")), "32")
    s.add(status(obj(0x1E, "0001")), "01")
    s.add(status(obj(0x9E, "0001")), "32")
    s.add(status(obj(0x38, "0000")), "01")
    s.add(status(obj(0x01, "014400")), "01")
    s.add(status(obj(0x81, "014400")), "32")
    s.add(status(obj(0x02, "8182")), "01")
    s.add(status(obj(0x82, "8182")), "32")
    s.add(raw(0x44), "36")
    s.add(raw(0x44, unk), "36")
    s.add(raw(0x44, obj(0x82, "81")), "32")
    s.add(raw(0x44, obj(0x82, "818282")), "32")
    s.add(cmd(0x44, src=0x82), "32")
    s.add(cmd(0x44, dst=0x21), "32")
    s.add(cmd(0x44, dst=0x81), "32")
    s.add(cmd(0x44, q=0xFF), "00")


ONE_OF_EACH = [
    (0x02, lambda: more_time()),
    (0x05, lambda: events("09")),
    (0x27, lambda: start_timer(1, "000010")),
    (0x40, lambda: open_(32)),
    (0x44, lambda: status()),
    (0x43, lambda: send(1, b"\x41")),
    (0x42, lambda: recv(1, 0)),
    (0x41, lambda: close(1)),
]


def make_results_profiles():
    # All but one type.
    for without in (0x02, 0x05, 0x27, 0x40, 0x41, 0x42, 0x43, 0x44):
        p = bytearray(H(TIMED))
        byte, bit = {0x02: (3, 4), 0x05: (5, 1), 0x27: (8, 1), 0x40: (12, 1), 0x41: (12, 2), 0x42: (12, 3),
                     0x43: (12, 4), 0x44: (12, 5)}[without]
        p[byte - 1] &= ~(1 << (bit - 1)) & 0xFF
        s = Script("results_without_%02X" % without, hx(bytes(p)))
        for kind, make in ONE_OF_EACH:
            if kind == without:
                want = "30"
            elif without == 0x40 and kind in (0x41, 0x42, 0x43):
                want = "3A03"
            else:
                want = "00"
            s.add(make(), want)
        s.add(cmd(without, obj(0xDE, "AA")), "30", "forbidden comes before the flagged unknown")
        s.add(raw(without), "30", "and before the absent 02")
        s.add(raw(without, b"\x05"), "32", "but after a fault of the walk")

    # Nothing allowed: a profile that has all the other bits set.
    s = Script("results_nothing_allowed", "FFFFF7FFFEF3FFFCFFFFFFE01D")
    for kind, make in ONE_OF_EACH:
        s.add(make(), "30")
    s.add(ask_timer(1), "30")
    s.add(cmd(0x45), "31")

    # Only the types, no event, no bearer 02, no channel.
    s = Script("results_types_only", "0000080001" "00" "0000000000" "1F" "1D")
    s.add(events("09"), "30")
    s.add(events("0A"), "30")
    s.add(events(""), "00")
    s.add(open_(32, bearer=BEARER2), "30", "bearer 02 forbidden")
    s.add(open_(32), "3A01", "N = 0")

    # Each event alone.
    for name, byte6, good, bad in (("results_only_09", "04", "09", "0A"), ("results_only_0A", "08", "0A", "09")):
        s = Script(name, "0000080001" + byte6 + "0000000000" "1F82")
        s.add(open_(32), "00")
        s.add(events(bad), "30")
        s.add(events(good), "00")
        s.add(events(good + bad), "30")
        s.add(events(bad + good), "30")
        s.add(arr(1, b"\x41"), "=D60E1901098202828138028100370101" if good == "09" else "--")
        s.add(drop(1), "=D60B19010A8202828138020105" if good == "0A" else "--")
        s.add(events(""), "00")

    # Bearer 02 forbidden.
    s = Script("results_no_bearer02", "00000800010C00000000001FFD")
    s.add(open_(32, bearer=BEARER2), "30", "bearer 02 forbidden")
    s.add(open_(32, bearer=obj(0xB5, "0203")), "32", "its length comes first")
    s.add(open_(0, OTHER, bearer=BEARER2), "30")
    s.add(open_(32), "00")
    s.add(status(), "..38028100")

    # Numbers of channels.
    for n in range(8):
        s = Script("results_n%d" % n, "00000800010C00000000001F%02X" % (n << 5 | 0x02))
        for i in range(1, n + 1):
            s.add(open_(i), "..3802%02X00" "350103" "39020%03X" % (0x80 + i, i))
        s.add(open_(32), "3A01")
        s.add(status(), "..38020000" if n == 0 else
              "".join(["..810301440082028281830100"] + ["3802%02X00" % (0x80 + i) for i in range(1, n + 1)]))
        for i in (1, 7):
            s.add(send(i, b"\x41"), "..3701%02X" % (i - 1) if i <= n else "3A03")
            s.add(arr(i, b"\x42"), "--" if i <= n else "R4")
        s.add(open_(0), "3A04", "size 0 comes before the numbers")
        if n == 7:
            s.add(drop(4), "--")
            s.add(status(), "=810301440082028281830100" "38028100" "38028200" "38028300" "38020405"
                  "38028500" "38028600" "38028700")
            s.add(close(6), "00")
            s.add(close(2), "00")
            s.add(status(), "..38028100" "38028300" "38020405" "38028500" "38028700")
            s.add(open_(2000, q=0), "=810301400082028281830107" "38020200" "350103" "390205DC")
            s.add(open_(2000, q=0), "=810301400082028281830107" "38020600" "350103" "390205DC")
            s.add(open_(2000, q=0), "3A01")

    # Short and long profiles.
    s = Script("profile_short", "000008")
    s.add(more_time(), "00")
    s.add(events(""), "30")
    s.add(open_(32), "30")
    s = Script("profile_twelve", "00000800010C00000000001F")
    s.add(events("090A"), "00")
    s.add(open_(32, bearer=BEARER2), "30")
    s.add(open_(32), "3A01")
    s.add(status(), "..38020000")
    s = Script("profile_lower", PROFILE.lower())
    s.add(hx(open_(32)).lower(), "00")
    s.add("a001fe", "--")
    s.add(recv(1, 1), "..3601FE370100", "printed in capitals")
    s = Script("profile_1600", PROFILE + "00" * (1600 - 13))
    s.add(more_time(), "00")
    s.add(open_(32), "00")
    s = Script("profile_1601", PROFILE + "00" * (1601 - 13))
    s.add(more_time(), "30", "counts as blank")
    s.add(open_(32), "30")


def make_order():
    s = Script("order")
    flagged, plain = obj(0xDE, "AA"), obj(0x5E, "AA")
    s.add("D081FF" + "00" * 254, "R2", "257 bytes and no good frame: R2")
    s.add("D0007F", "z32", "outer frame wrong before the first object")
    s.add(frame(dev() + b"\x00"), "z36", "first not 01, fault later")
    s.add(raw(0x45, b"\x00"), "32", "fault later before unknown type")
    s.add(raw(0x45, flagged), "31", "unknown type before flagged unexpected")
    s.add(raw(0x02, flagged), "32", "flagged unexpected before absent")
    s.add(raw(0x02, plain), "36", "unflagged unexpected, absent")
    s.add(raw(0x05, obj(0x82, "81"), flagged), "32")
    s.add(raw(0x05, obj(0x82, "81")), "36", "absent before wrong length")
    s.add(raw(0x05, obj(0x82, "818200"), plain), "36")
    s.add(cmd(0x05, src=0x82), "36", "absent before wrong source")
    s.add(cmd(0x42, dst=0x82), "36", "absent before wrong destination")
    s.add(cmd(0x05, obj(0x99, "FF"), src=0x82), "32", "wrong source before own check 30")
    s.add(cmd(0x40, obj(0xB5, "01"), size39(10), dst=0x21), "32", "wrong destination before bearer")
    s.add(cmd(0x41, dst=0x21, src=0x82), "32", "wrong source before unopened")
    s.add(recv(1, 1, obj(0x1E, "00")), "32", "wrong length before unopened")
    s.add(open_(0, OTHER, bearer=obj(0xB5, "01")), "30", "bearer before 3C")
    s.add(open_(10, obj(0x3C, "01"), bearer=obj(0xB5, "01")), "32", "length of 3C before bearer")
    s.add(cmd(0x40, obj(0xB5, "01"), obj(0xB9, "00"), q=1), "32", "length of 39 before bearer")
    s.add(open_(0, OTHER), "3A06", "3C before size 0")
    s.add(open_(1500), "00")
    s.add(open_(1500), "00")
    s.add(open_(544), "00")
    s.add(open_(544), "00", "four channels, 256 cells")
    s.add(open_(0), "3A04", "size 0 before numbers")
    s.add(open_(10), "3A01", "numbers before cells")
    s.add(open_(10, OTHER), "3A06", "3C before numbers")
    s.add(close(4), "00")
    s.add(close(3), "00")
    s.add(open_(1088), "00")
    s.add(open_(0), "3A04")
    s.add(open_(10), "3A04", "a number, but no cells")
    s.add(open_(10, OTHER), "3A06")
    s.add(drop(1), "--")
    s.add(send(1, data(61, 200)), "3A02")
    s.add(close(2), "00")
    s.add(open_(20), "00")
    s.add(drop(2), "--")
    s.add(send(2, data(61, 200)), "3A02", "dropped before too many")
    s.add(send(4, data(61, 200)), "3A03")
    s.add(cmd(0x43, obj(0xB6, "41"), dst=0x28), "32")
    s.add(arr(8, data(62, 30)), "R3")
    s.add(arr(4, data(62, 30)), "R4")
    s.add(arr(2, data(62, 30)), "R5", "R5 before R6")
    s.add("A10805DD", "R9", "count 1501 before the channel")
    s.add("A10805DC", "R3")
    s.add("A10405DC", "R4")
    s.add("A10205DC", "R5")


# Single commands that open nothing, each with its result.
WORKED = [
    # the order of checks
    ("D0820009", "z32"), ("D0050003010200", "z32"), ("D005FF03010200", "z32"),
    ("D006818103010200", "z32"), ("D0048103010200", "z32"), ("D00582028182FF", "z36"), ("D006820281828103", "z36"),
    ("D006810301990082", "32"), ("D00781030199008000", "32"), ("D009810301990082038182", "32"),
    ("D005010301990F", "31"), ("D0050103019900", "31"), ("D0050103000000", "z31"), ("D0078103010200E700", "32"),
    ("D005810301020F", "36"), ("D009810301020082028381", "32"), ("D00C810301420082028127370105", "3A03"),
    ("D00B8103014300820281273600", "3A03"),
    # what may stand, how often, and which lengths count
    ("D00E8103010200820281820203818201", "01"), ("D00D8103010200820281820202FFFF", "01"),
    ("D00D8103010200820281828202FFFF", "32"), ("D00D81030102000202838302028182", "32"),
    ("D00B8103014100820281210500", "3A03"), ("D00C8103014100820281211E0100", "32"),
    ("D00C8103010200820281821E0100", "01"), ("D00C810301400082028182350103", "36"),
    ("D00D81030140008202818235010300", "32"), ("D00D810301400082028182390205DC", "36"),
    ("D00F810301400082028182350039020001", "32"), ("D01081030140008202818235010239020001", "32"),
    ("D0118103014000820281823502030039020001", "32"), ("D01081030140008202818235010939020001", "30"),
    ("D012810301400082028182350309000039020001", "30"), ("D00F810301400082028182350103390101", "32"),
    ("D015810301400082028182350103390200013C03031F90", "3A06"),
    ("D014810301400082028182350103390200013C020100", "32"), ("D01081030140008202818235010339020000", "3A04"),
    ("D018810301400082028182350103390200000402010104020102", "3A04"),
    ("D0178103014000820281823501033902000004020101040102", "32"),
    ("D01B810301400082028182350103390200010402010104020102840102", "32"),
    # tags of three bytes
    ("D00F81030102007F000202818202028182", "01"), ("D00D8103010200820281827F007F00", "01"),
    ("D00D8103010200820281827F008000", "01"), ("D00D8103010200820281827F7FFF00", "01"),
    ("D00D8103010200820281827FFFFF00", "32"), ("D00D8103010200820281827F800000", "32"),
    ("D01D81030140018202818235010339020020040201017F0004020202040203", "32"),
]


def make_worked():
    s = Script("worked")
    for line, want in WORKED:
        s.add(line, want)
    s.add(status(), "..38020000", "nothing was opened")


# ---------------------------------------------------------------- sizes

def padded_more_time(total):
    """A MORE TIME of so many bytes in all, with one unflagged unknown object at the end."""
    body = total - (2 if total <= 2 + 0x7F else 3)
    rest = body - 9
    value = rest - 2 if rest - 2 <= 0x7F else rest - 3
    out = frame(det(0x02) + dev() + obj(0x5E, data(70, value)))
    assert len(out) == total, (len(out), total)
    return out


def make_sizes():
    s = Script("sizes")
    s.add("D0", "z32", "1 byte")
    s.add("D000", "z36", "2 bytes")
    s.add("D001", "z32", "2 bytes, length too large by one")
    s.add("D07F", "z32", "2 bytes, too large by many")
    s.add("D080", "z32")
    s.add("D081", "z32", "81 alone")
    s.add("D082", "z32")
    s.add("D0FF", "z32")
    for third in ("00", "01", "02", "7F", "80", "81", "FF"):
        s.add("D001" + third, "z32", "3 bytes: a tag alone")
        s.add("D081" + third, "z32", "3 bytes: 81 and one byte")
        s.add("D000" + third, "z32", "3 bytes: too small by one")
        s.add("D002" + third, "z32", "3 bytes: too large by one")
    s.add("D0020100", "z36", "4 bytes: 01 of length 0")
    s.add("D0020200", "z36", "4 bytes: 02 of length 0")
    s.add("D0028000", "z32", "4 bytes: tag 80")
    s.add("D0058103010200", "36", "only 01")
    s.add(more_time(), "00", "11 bytes")
    s.add("D008" "8103010200" "82028182", "z32", "too small by one")
    s.add("D00A" "8103010200" "82028182", "z32", "too large by one")
    s.add("D000" "8103010200" "82028182", "z32", "too small by many")
    s.add("D07F" "8103010200" "82028182", "z32", "too large by many")
    s.add("D0" "8103010200" "82028182", "z32", "no length")
    s.add("D080" "8103010200" "82028182", "z32", "80")
    s.add("D08100" "8103010200" "82028182", "z32", "81 00")
    s.add("D08109" "8103010200" "82028182", "z32", "81 09")
    s.add("D0820009" "8103010200" "82028182", "z32", "82 00 09")
    s.add("D083000009" "8103010200" "82028182", "z32", "83 00 00 09")
    s.add("D08400000009" "8103010200" "82028182", "z32", "84 00 00 00 09")
    s.add("D089" "8103010200" "82028182", "z32", "89")
    s.add("D0FF" "8103010200" "82028182", "z32", "FF")
    s.add("D08180" "8103010200" "82028182", "z32", "81 80, far too few bytes")
    # about 127 and 128 bytes of objects
    for total in (128, 129):
        s.add(padded_more_time(total), "01", "%d bytes in all, short length" % total)
    for total in (131, 132, 133):
        s.add(padded_more_time(total), "01", "%d bytes in all, long length" % total)
    body127 = hx(padded_more_time(129))[4:]
    body128 = hx(padded_more_time(131))[6:]
    s.add("D07F" + body127, "01")
    s.add("D0817F" + body127, "z32", "81 7F")
    s.add("D08180" + body127, "z32", "81 80 with 127 bytes")
    s.add("D080" + body128, "z32", "80 with 128 bytes")
    s.add("D08180" + body128, "01")
    s.add("D0820080" + body128, "z32", "82 00 80")
    s.add("D07F" + body128, "z32", "7F with 128 bytes")
    s.add("D08181" + body128, "z32", "81 81 with 128 bytes")
    # 255, 256, 257
    for total in (254, 255, 256):
        s.add(padded_more_time(total), "01", "%d bytes" % total)
    s.add("D081FE" "8103010200" "82028182" "5E81F2" + "00" * 242, "R2", "257 bytes")
    s.add("D081FF" "8103010200" "82028182" "5E81F3" + "00" * 243, "R2", "258 bytes")
    s.add(open_(1500), "00")
    d = data(71, 242)
    s.add(send(1, d[:240]), "..3701FF", "SEND DATA of 255 bytes: data of 240")
    s.add(send(1, d[:241]), "..3701FF", "SEND DATA of 256 bytes: data of 241")
    s.add(send(1, d[:242]), "R2", "SEND DATA of 257 bytes: nothing stored")
    assert len(send(1, d[:240])) == 255 and len(send(1, d[:241])) == 256 and len(send(1, d)) == 257
    s.add(take(1, 1500), "=" + hx(d[:240] + d[:241]))
    s.add("D081FD" + "00" * 253, "z32", "256 bytes of no good")
    s.add("D081FD" + "00" * 252, "z32", "255 bytes, too large by one")
    s.add("D081FC" + "00" * 253, "z32", "256 bytes, too small by one")
    s.add("D081FF" + "00" * 253, "z32", "256 bytes, too large by two")
    s.add("D0" + "00" * 255, "z32")
    s.add("D0" + "00" * 256, "R2")
    s.add("D0" + "00" * 1599, "R2", "1600 bytes")
    s.add("D0" + "00" * 1600, "R9", "1601 bytes")
    s.add(more_time(), "00", "and goes on")
    # the same forms for objects
    for where, head in (("02", "8103010200"), ("optional", "8103010200" "82028182")):
        for form in ("", "80", "81", "8100", "8101", "8102", "817F", "82", "820002", "83000002", "FF", "03", "7F", "8180"):
            tag = "82" if where == "02" else "05"
            body = H(head + tag + form + ("8182" if where == "02" else "4142"))
            # No length at all: 82 81 82 has length 81 82, 05 41 42 has length 41; both cut.
            s.add(frame(body), "32", "object %s, length %s" % (where, form or "none"))
    for form in ("", "80", "81", "8100", "8103", "817F", "820003", "83000003", "FF", "06", "7F", "8180"):
        s.add(frame(H("81" + form + "010200" "8202")), "z32" if form else "z36", "first object, length %s" % (form or "none"))
    s.add(frame(H("018180") + data(72, 128)), "z36", "first object 01 of length 128, well formed")
    s.add(frame(H("018183") + data(72, 128)), "z32", "first object 01 of length 131, cut")


# ---------------------------------------------------------------- cuts

def make_cuts():
    s = Script("cuts", TIMED)
    good = [
        (0x02, more_time()),
        (0x05, events("090A")),
        (0x27, start_timer(1, "100000")),
        (0x40, open_(1500, TCP)),
        (0x41, close(1, obj(0x05, "4142"))),
        (0x42, recv(1, 5, obj(0x1E, "0001"))),
        (0x43, send(1, b"\x41\x42\x43")),
        (0x44, status()),
    ]
    def tidy():
        for ch in sorted(s.session.channels):
            s.add(close(ch), "00")
        s.add(events(""), "00")
        s.add(open_(40), "..38028100" "350103" "39020028")
        s.add(arr(1, b"\x61\x62\x63"), "--")
    # Put right: nothing left z36, within 01 z32, elsewhere 32, but at the ends of objects:
    ends = {
        0x02: {7: "36"},
        0x05: {7: "36", 11: "36"},
        0x27: {7: "36", 11: "36", 14: "36"},
        0x40: {7: "36", 11: "36", 14: "36", 18: "00"},      # 18: without 3C, a good OPEN
        0x41: {7: "36", 11: "00"},                          # 11: without 05, a good CLOSE
        0x42: {7: "36", 11: "36", 14: "02"},                # 14: without 1E, a good RECEIVE
        0x43: {7: "36", 11: "36"},
        0x44: {7: "36"},
    }

    def put_right(k, head, at_ends):
        return "z36" if k == head else "z32" if k < head + 5 else at_ends.get(k, "32")

    for kind, whole in good:
        tidy()
        for k in range(1, len(whole)):
            s.add(whole[:k], "z32", "%02X, cut after %d, length left" % (kind, k))
        for k in range(2, len(whole)):
            s.add(frame(whole[2:k]), put_right(k, 2, ends[kind]), "%02X, cut after %d, length put right" % (kind, k))
        s.add(status(), "..38020000" if kind == 0x41 else "..38028200" if kind == 0x40 else "..38028100")
        tidy()
        s.add(whole, "02" if kind == 0x42 else "00", "%02X, whole" % kind)
        s.add(status(), "..38020000" if kind == 0x41 else "..38028200" if kind == 0x40 else "..38028100")
    # One with a length of two bytes.
    tidy()
    whole = send(1, b"\x5A" * 5, obj(0x05, data(81, 125)), q=0)
    assert whole[1] == 0x81
    for k in list(range(1, 24)) + [len(whole) - 2, len(whole) - 1]:
        s.add(whole[:k], "z32", "long SEND, cut after %d, length left" % k)
    for k in list(range(3, 24)) + [len(whole) - 2, len(whole) - 1]:
        s.add(frame(whole[3:k]), put_right(k, 3, {8: "36", 12: "36", 19: "..370123"}),
              "long SEND, cut after %d, length put right" % k)
    s.add(whole, "..37011E", "whole")
    s.add(send(1, b""), "..37011E")
    s.add(take(1, 100), "=" + "5A" * 10, "those of the cut that was a good SEND, and the whole one's")


# ---------------------------------------------------------------- types, identities, tags

def make_types():
    s = Script("types", TIMED)
    absent = {kind: "36" for kind in (0x05, 0x27, 0x40, 0x42, 0x43)}
    for kind in range(256):
        want = {0x02: "00", 0x44: "00", 0x41: "32", **absent}.get(kind, "31")
        s.add(cmd(kind), want)
    s.add(open_(32), "00")
    for kind in range(256):
        want = {0x02: "32", 0x44: "32", 0x41: "00", **absent}.get(kind, "31")
        s.add(cmd(kind, dst=0x21), want)
    s.add(status(), "..38020000")


def make_identities():
    s = Script("identities")
    s.add(open_(32), "00")
    s.add(open_(64), "00")
    s.add(arr(1, b"\x11"), "--")
    s.add(arr(2, b"\x22\x23"), "--")

    def want(dst, good):
        if not 0x21 <= dst <= 0x27:
            return "32"
        return good[dst] if dst in good else "3A03"

    others = [0x00, 0x01, 0x02, 0x07, 0x12, 0x31, 0x81, 0x82, 0x83, 0xA1, 0xA2, 0xFF]
    for dst in list(range(0x20, 0x29)) + others:
        s.add(cmd(0x42, obj(0xB7, "01"), dst=dst),
              want(dst, {0x21: "..830100360111370100", 0x22: "..830100360122370101"}), "RECEIVE %02X" % dst)
    for dst in list(range(0x20, 0x29)) + others:
        s.add(cmd(0x43, obj(0xB6, "4142"), q=1, dst=dst),
              want(dst, {0x21: "..83010037011E", 0x22: "..83010037013E"}), "SEND %02X" % dst)
    s.add(take(1, 9), "=4142")
    s.add(take(2, 9), "=4142")
    for dst in others + list(range(0x28, 0x1F, -1)):
        s.add(cmd(0x41, dst=dst), want(dst, {0x21: "00", 0x22: "00"}), "CLOSE %02X" % dst)
        if dst in (0x82, 0x28, 0x23, 0x22, 0x21, 0x20):
            s.add(status(), "..38020000" if dst in (0x21, 0x20) else
                  "..83010038028100" if dst == 0x22 else "..3802810038028200")


def make_tags():
    s = Script("tags")
    for tag in range(256):
        want = "32" if tag & 0x7F in (0, 0x7F) or tag >= 0x80 else "01"
        s.add(more_time(bytes([tag, 1, 0x41])), want)
    for tag in (0x00, 0x01, 0x02, 0x03, 0x04, 0x05, 0x19, 0x1E, 0x35, 0x36, 0x37, 0x38, 0x39, 0x3C, 0x7E, 0x7F,
                0x80, 0x81, 0x82, 0x83, 0x85, 0x99, 0xB6, 0xB9, 0xFE, 0xFF):
        number = tag & 0x7F
        if number in (0, 0x7F) or number == 2:
            want = "32"                     # 02 of length 1 counts, as the first one
        else:
            want = "32" if tag >= 0x80 else "01"
        s.add(raw(0x02, bytes([tag, 1, 0x41]), dev()), want, "tag %02X before the 02 object" % tag)
    s.add(raw(0x02, obj(0x02, "8182"), dev(tag=0x02)), "01", "a good 02 before the 02 object")
    s.add(raw(0x02, obj(0x02, "8182"), dev()), "32", "the second one is flagged")
    for tag in (0x00, 0x01, 0x02, 0x05, 0x7E, 0x7F, 0x80, 0x81, 0x82, 0xFE, 0xFF):
        want = "z32" if tag & 0x7F in (0, 0x7F) else "z36"
        s.add(frame(bytes([tag, 1, 0x41]) + det(0x02) + dev()), want, "tag %02X before the 01 object" % tag)
    for tag in (0x00, 0x05, 0x7F, 0x80, 0x85, 0xFF):
        s.add(more_time(bytes([tag, 0])), "32" if tag != 0x05 else "01", "tag %02X, no value" % tag)
        s.add(more_time(bytes([tag])), "32", "tag %02X, no length" % tag)


# ---------------------------------------------------------------- tags of three bytes

def long_tag(number, flag=False):
    return bytes([0x7F, (0x80 if flag else 0) | number >> 8, number & 255])


def long_obj(number, value=b"", flag=False):
    value = H(value) if isinstance(value, str) else value
    return long_tag(number, flag) + length(len(value)) + value


def tagged(objects, longs):
    """A command of objects (number, flag, value); those at the places of longs have three-byte tags."""
    return frame(b"".join(long_obj(n, v, f) if i in longs else obj(n | (0x80 if f else 0), v)
                          for i, (n, f, v) in enumerate(objects)))


def in_all_forms(s, objects, want, after=None):
    """Every single tag long, all, none, and some mixtures; what is opened is closed again."""
    count = len(objects)
    rng = Rng(count)
    choices = [set()] + [{i} for i in range(count)] + [set(range(count))]
    choices += [{i for i in range(count) if rng.below(2)} for _ in range(2 * count)]
    for longs in choices:
        s.add(tagged(objects, longs), want, "long: " + (" ".join(str(i) for i in sorted(longs)) or "none"))
        if after is not None:
            s.add(*after)


def basic(kind, dst="82", q="00"):
    return [(0x01, True, "01%02X%s" % (kind, q)), (0x02, True, "81" + dst)]


NAMED = [(0x05, False, "41"), (0x1E, False, "0001")]


def make_long_tags():
    s = Script("long_tags_each")
    in_all_forms(s, basic(0x02), "=810301020082028281830100")
    in_all_forms(s, basic(0x05) + [(0x19, True, "09")], "=810301050082028281830100")
    in_all_forms(s, basic(0x40, q="01") + [(0x35, True, "03"), (0x39, True, "0020")] + NAMED
                 + [(0x3C, False, "021F90"), (0x47, False, "41"), (0x04, False, "0102"), (0x04, False, "0304"),
                    (0x0D, False, "04"), (0x0D, False, "05"), (0x3E, False, "21"), (0x3E, False, "22")],
                 "=810301400182028281830100" "38028100" "350103" "39020020", (close(1), "00"))
    s.add(open_(1500), "00")
    in_all_forms(s, basic(0x42, "21") + [(0x37, True, "01")] + NAMED, "=810301420082028281830102" "3600" "370100")
    in_all_forms(s, basic(0x43, "21", "01") + [(0x36, True, "41")] + NAMED, "=810301430182028281830100" "3701FF",
                 (take(1, 9), "=41"))
    in_all_forms(s, basic(0x44), "=810301440082028281830100" "38028100")
    in_all_forms(s, basic(0x41, "21") + NAMED, "=810301410082028281830100", (open_(32), "00"))

    s = Script("long_tags_timers", TIMED)
    start = basic(0x27) + [(0x24, True, "01"), (0x25, True, "005000")]
    in_all_forms(s, start, "=810301270082028281830100" "240101")
    in_all_forms(s, basic(0x27, q="02") + [(0x24, True, "01")], "=810301270282028281830100" "240101" "2503005000")
    in_all_forms(s, basic(0x27, q="01") + [(0x24, True, "01")], "=810301270182028281830100" "240101" "2503005000",
                 (tagged(start, {3}), "00"))
    in_all_forms(s, basic(0x27, q="02") + [(0x24, True, "01"), (0x25, False, "FF")],
                 "=810301270282028281830101" "240101" "2503005000")
    in_all_forms(s, basic(0x27, q="02") + [(0x24, True, "01"), (0x25, True, "005000")], "32")
    s.add(ask_timer(1, long_obj(0x125, "005000")), "01", "293 is not 25, and unexpected as well")
    s.add(timer(0, 1, long_obj(0x125, "005000")), "36", "nor does it stand for it")
    s.add(cmd(0x27, long_obj(0x124, "01"), q=2), "36", "292 is not 24")

    s = Script("long_tags_values")
    s.add(tagged(basic(0x40, q="01") + [(0x35, True, "02030405061F02"), (0x39, True, "0100"), (0x3C, False, "011F90")],
                 {2, 3, 4}), "=810301400182028281830100" "38028100" "350702030405061F02" "39020100",
          "the values of three long objects: bearer 02, 256 bytes, datagrams")
    s.add(arr(1, H("414243")), "--")
    s.add(arr(1, H("44")), "--")
    s.add(tagged(basic(0x42, "21") + [(0x37, True, "09")], {2}), "..830102" "3603414243" "370101", "nine asked for")
    s.add(tagged(basic(0x43, "21", "01") + [(0x36, True, "5152")], {2}), "..3701FE")
    s.add(take(1, 9), "=5152")
    s.add(tagged(basic(0x05) + [(0x19, True, "090A")], {2}), "00")
    s.add(recv(1, 9), "..360144" "370100")
    s.add(arr(1, H("45")), "..370101", "09 is listed")
    s.add(drop(1), "=D60B19010A8202828138020105", "and 0A")
    s.add(tagged(basic(0x41, "21"), {0, 1}), "00")
    s.add(open_(1500), "00")
    d = data(235, 235)
    s.add(tagged(basic(0x43, "21", "01") + [(0x36, True, d)], {0, 1, 2}), "..3701FF", "256 bytes in all")
    s.add(take(1, 1500), "=" + hx(d))
    s.add(tagged(basic(0x43, "21", "01") + [(0x36, True, d + b"\x41")], {0, 1, 2}), "R2", "257 bytes")
    s.add(tagged(basic(0x43, "21", "01") + [(0x36, True, d + b"\x41")], {0, 1}), "..3701FF", "36 short: 255")
    # wrong lengths, wrong devices
    s.add(tagged([(0x01, True, "010200"), (0x02, True, "81")], {1}), "32", "02 of length 1")
    s.add(tagged([(0x01, True, "010200"), (0x02, True, "818282")], {1}), "32", "02 of length 3")
    s.add(tagged([(0x01, True, "010200"), (0x02, True, "8282")], {1}), "32", "source 82")
    s.add(tagged(basic(0x42, "21") + [(0x37, True, "0102")], {2}), "32", "37 of length 2")
    s.add(tagged(basic(0x40, q="01") + [(0x35, True, "0300"), (0x39, True, "0020")], {2}), "32", "35 of length 2")
    s.add(tagged(basic(0x40, q="01") + [(0x35, True, "03"), (0x39, True, "20")], {3}), "32", "39 of length 1")
    s.add(tagged(basic(0x40, q="01") + [(0x35, True, "03"), (0x39, True, "0020"), (0x3C, False, "02")], {4}), "32",
          "3C of length 1")
    s.add(tagged(basic(0x41, "21") + [(0x1E, False, "00")], {2}), "32", "1E of length 1")

    s = Script("long_tags_numbers")
    for number in (127, 128, 255, 256, 257, 258, 261, 300, 383, 32512, 32640, 32766, 32767):
        s.add(more_time(long_obj(number, "41")), "01", "number %d" % number)
        s.add(more_time(long_obj(number, "41", True)), "32", "number %d with the flag" % number)
    s.add(more_time(long_obj(5, "41")), "01", "05 has no place here")
    s.add(more_time(long_obj(5, "41", True)), "32")
    s.add(more_time(long_obj(126)), "01")
    s.add(more_time(long_obj(126, flag=True)), "32")
    for flag in (False, True):
        s.add(more_time(long_obj(0, "41", flag)), "32", "number 0")
        s.add(more_time(long_tag(0, flag)), "32", "number 0, and no length")
    for first in ("00", "80", "FF"):
        s.add(more_time(H(first + "0005" "0141")), "32", "%s begins no tag" % first)
    s.add(more_time(H("FF8005" "0141")), "32")
    s.add(more_time(H("7F7F05" "0141")), "01", "7F 7F 05 is number 32517")
    s.add(more_time(H("7FFF05" "0141")), "32", "with the flag")
    # the low byte alone is another number
    s.add(raw(0x02, long_obj(0x102, "8182")), "36", "258 is not 02")
    s.add(raw(0x02, long_obj(0x102, "8182", True)), "32", "and with the flag it is unexpected first")
    s.add(raw(0x02, long_obj(0x102, "8282"), dev()), "01", "nor does it count before the 02 object")
    s.add(raw(0x05, dev(), long_obj(0x119, "09")), "36", "281 is not 19")
    s.add(open_(32), "00")
    s.add(cmd(0x43, long_obj(0x136, "4141"), obj(0xB6, "42"), dst=0x21), "..830101" "37011F", "310 is not 36")
    s.add(cmd(0x41, long_obj(0x105, "41"), dst=0x21), "01")
    # one too many goes across forms
    s.add(more_time(long_obj(2, "8182")), "01", "a second 02, long")
    s.add(more_time(long_obj(2, "8182", True)), "32")
    s.add(raw(0x02, long_obj(2, "8182", True), dev(tag=0x02)), "01", "a long one, then a short one")
    s.add(raw(0x02, long_obj(2, "8182", True), dev()), "32")
    s.add(raw(0x02, long_obj(2, "8182"), long_obj(2, "8182")), "01", "both long")
    s.add(more_time(long_obj(1, "010200")), "01", "a second 01")
    s.add(more_time(long_obj(1, "010200", True)), "32")
    s.add(cmd(0x40, BEARER3, size39(32), obj(0x04, "0102"), long_obj(4, "0304"), q=1), "00", "two 04")
    s.add(close(1), "00")
    s.add(cmd(0x40, BEARER3, size39(32), obj(0x04, "0102"), long_obj(4, "0304"), obj(0x04, "0506"), q=1), "01", "three")
    s.add(close(1), "00")
    s.add(cmd(0x40, BEARER3, size39(32), obj(0x04, "0102"), obj(0x04, "0304"), long_obj(4, "0506", True), q=1), "32",
          "the third long and flagged")
    s.add(cmd(0x40, BEARER3, long_obj(0x35, "02030405061F02", True), size39(32), q=1), "32", "a second 35")
    s.add(cmd(0x40, BEARER3, long_obj(0x35, "02030405061F02"), size39(32), q=1),
          "..830101" "38028100" "350103" "39020020", "the first one counts")
    s.add(cmd(0x43, long_obj(0x36, "41", True), obj(0x36, "4243"), q=1, dst=0x21), "..830101" "37011F", "the long one is the first")
    s.add(take(1, 9), "=41")
    s.add(cmd(0x43, obj(0x36, "4243"), long_obj(0x36, "41"), q=1, dst=0x21), "..830101" "37011E", "the short one is")
    s.add(take(1, 9), "=4243")

    s = Script("long_tags_cut")
    # the first object: 7F 80 01 03, then number, type, qualifier; the second 7F 80 02 02, then the devices
    body = H("7F800103" "010200" "7F800202" "8182")
    for k in range(len(body) + 1):
        want = "z36" if k == 0 else "z32" if k < 7 else "36" if k == 7 else "32" if k < 13 else "00"
        s.add(frame(body[:k]), want, "MORE TIME in long tags, %d bytes of its objects" % k)
    for first, want in (("7F000103" "010200", "00"), ("7F800103" "010200", "00"), ("7F010103" "010200", "z36"),
                        ("7F810103" "010200", "z36"), ("7F800203" "010200", "z36"), ("7F000003" "010200", "z32"),
                        ("7F800003" "010200", "z32"), ("7F800102" "0102", "z36"), ("7F800104" "01020000", "z36"),
                        ("7F80018103" "010200", "z32"), ("FF800103" "010200", "z32")):
        s.add(frame(H(first) + dev()), want, "first object %s" % first)
    for end in ("7F", "7F00", "7F80", "7F05", "7FFF", "7F0005", "7F8005", "7F000501", "7F800502FF", "7F0000", "7F000000"):
        s.add(more_time(H(end)), "32", "ends with %s" % end)
        s.add(cmd(0x99, H(end)), "32", "before the unknown type")
    s.add(more_time(H("7F000500")), "01", "05 of no bytes")
    s.add(more_time(H("7F0005" "817F" + "41" * 127)), "32", "length 81 7F")
    s.add(more_time(H("7F0005" "8180" + "41" * 128)), "01", "length 81 80")
    s.add(more_time(H("0500" "7F")), "32", "a cut tag behind an object that is ignored")
    s.add(more_time(H("0500" "7F80")), "32")
    s.add(more_time(H("0500" "7F8005")), "32")
    s.add(more_time(H("0500" "7F800500")), "32", "flagged and not expected")
    s.add(more_time(H("0500" "7F000500")), "01")


# ---------------------------------------------------------------- timers, where no second passes

FIVE_MINUTES = "005000"
START_1 = (start_timer(1, FIVE_MINUTES), "=810301270082028281830100" "240101")
ASKED_1 = "=810301270282028281830100" "240101" "2503005000"     # what is told of timer 1 then
STOPPED_1 = "=810301270182028281830100" "240101" "2503005000"


def told(n, time, q=2, result=0):
    """The answer to a stop or an ask of a timer that runs."""
    return "=81030127%02X" "82028281" "8301%02X" "2401%02X" "2503%s" % (q, result, n, time)


def swapped(number):
    """A number's two decimal digits, the last one first."""
    return ("%02d" % number)[::-1]


def make_timers_actions():
    s = Script("timers_actions", TIMED)
    s.add(ask_timer(1), "=810301270282028281830124", "none runs")
    s.add(stop_timer(1), "=810301270182028281830124")
    s.add(*START_1, "start")
    s.add(ask_timer(1), ASKED_1, "ask")
    s.add(ask_timer(1), ASKED_1, "asking changed nothing")
    s.add(stop_timer(1), STOPPED_1, "stop")
    s.add(stop_timer(1), "=810301270182028281830124", "it runs no more")
    s.add(ask_timer(1), "=810301270282028281830124")
    for q in range(0, 256, 4):
        s.add(start_timer(1, FIVE_MINUTES, q=q), "=81030127%02X82028281830100" "240101" % q, "qualifier %02X" % q)
        s.add(ask_timer(1, q=q + 2), told(1, FIVE_MINUTES, q + 2))
        s.add(timer(q + 3, 1), "=81030127%02X82028281830132" % (q + 3), "value 3")
        s.add(stop_timer(1, q=q + 1), told(1, FIVE_MINUTES, q + 1))
        s.add(stop_timer(1, q=q + 1), "=81030127%02X82028281830124" % (q + 1))
        s.add(ask_timer(1, q=q + 2), "=81030127%02X82028281830124" % (q + 2))
    s.add(cmd(0x27, obj(0xA4, "01"), obj(0xA5, "005000"), num=0xFE), "=8103FE270082028281830100" "240101",
          "the number is echoed")
    s.add(cmd(0x27, obj(0xA4, "01"), q=2, num=0), "=810300270282028281830100" "240101" "2503005000")


def make_timers_objects():
    s = Script("timers_objects", TIMED)
    unk, unk_flagged = obj(0x5E, "AA"), obj(0xDE, "AA")
    t24, t25, f25 = obj(0xA4, "01"), obj(0x25, FIVE_MINUTES), obj(0xA5, FIVE_MINUTES)
    # the start's row
    s.add(cmd(0x27, obj(0x24, "01"), t25), START_1[1], "24 and 25 unflagged")
    s.add(raw(0x27, f25, t24, dev()), START_1[1], "in another order")
    s.add(cmd(0x27, f25, t24), START_1[1])
    s.add(raw(0x27), "36", "all absent")
    s.add(raw(0x27, dev()), "36", "24 and 25 absent")
    s.add(raw(0x27, t24, f25), "36", "02 absent")
    s.add(cmd(0x27, f25), "36", "24 absent")
    s.add(cmd(0x27, t24), "=810301270082028281830136", "25 absent at a start")
    s.add(cmd(0x27, t24, unk), "36")
    s.add(start_timer(1, FIVE_MINUTES, unk), "=810301270082028281830101" "240101", "an object ignored")
    s.add(start_timer(1, FIVE_MINUTES, unk_flagged), "=810301270082028281830132")
    for number in (0x04, 0x05, 0x19, 0x1E, 0x26, 0x35, 0x36, 0x37, 0x38, 0x39, 0x3C, 0x3E, 0x47):
        s.add(start_timer(1, FIVE_MINUTES, obj(number, "41")), "01", "%02X has no place here" % number)
        s.add(start_timer(1, FIVE_MINUTES, obj(number | 0x80, "41")), "32")
    s.add(start_timer(2, FIVE_MINUTES, obj(0x24, "03")), "=810301270082028281830101" "240102",
          "a second 24: the first counts")
    s.add(ask_timer(3), "24", "the second one started nothing")
    s.add(start_timer(2, FIVE_MINUTES, obj(0x24)), "01", "a second 24 has no length rule")
    s.add(start_timer(2, FIVE_MINUTES, obj(0xA4, "02")), "32", "a second 24, flagged")
    s.add(start_timer(2, "100000", obj(0x25, "200000")), "=810301270082028281830101" "240102",
          "a second 25: the first counts")
    s.add(ask_timer(2), told(2, "100000"))
    s.add(start_timer(2, FIVE_MINUTES, obj(0x25, "FF")), "01", "a second 25 has neither length nor digits")
    s.add(ask_timer(2), told(2, FIVE_MINUTES))
    s.add(start_timer(2, "100000", obj(0xA5, FIVE_MINUTES)), "32", "a second 25, flagged")
    s.add(ask_timer(2), told(2, FIVE_MINUTES), "32 started nothing")
    s.add(start_timer(2, "FFFFFF", obj(0x25, FIVE_MINUTES)), "32", "the first 25 counts, and is none")
    for number, value in ((0x01, "012700"), (0x02, "8182")):
        s.add(start_timer(1, FIVE_MINUTES, obj(number, value)), "01", "a second %02X" % number)
        s.add(start_timer(1, FIVE_MINUTES, obj(number | 0x80, value)), "32")
    # lengths
    for value in ("", "0101", "010101"):
        for tag in (0x24, 0xA4):
            s.add(cmd(0x27, obj(tag, value), f25), "32", "24 of length %d" % (len(value) // 2))
            s.add(cmd(0x27, obj(tag, value), q=1), "32", "the same at a stop")
            s.add(cmd(0x27, obj(tag, value), q=2), "32", "at an ask")
            s.add(cmd(0x27, obj(tag, value), q=3), "32", "and with value 3")
    for value in ("", "10", "1000", "00500000", "000000005000"):
        s.add(cmd(0x27, t24, obj(0x25, value)), "32", "25 of length %d at a start" % (len(value) // 2))
        s.add(cmd(0x27, t24, obj(0xA5, value)), "32")
    # 25 where it is unexpected: neither its length nor its digits are looked at
    for value in ("", "10", "FFFF", FIVE_MINUTES, "000000", "FFFFFF", "420000", "00500000", "FF" * 130):
        s.add(ask_timer(1, obj(0x25, value)), told(1, FIVE_MINUTES, 2, 1), "an unflagged 25 at an ask: ignored")
        s.add(ask_timer(1, obj(0xA5, value)), "=810301270282028281830132", "flagged")
        s.add(stop_timer(1, obj(0xA5, value)), "=810301270182028281830132", "flagged at a stop: the timer runs on")
        s.add(stop_timer(1, obj(0x25, value)), told(1, FIVE_MINUTES, 1, 1), "unflagged: ignored, and stopped")
        s.add(stop_timer(1, obj(0x25, value)), "=810301270182028281830124", "24 hides 01")
        s.add(timer(3, 1, obj(0x25, value)), "=810301270382028281830132", "value 3")
        s.add(timer(3, 1, obj(0xA5, value)), "=810301270382028281830132")
        s.add(*START_1)
    s.add(ask_timer(1, t25, t25), told(1, FIVE_MINUTES, 2, 1), "two of them")
    s.add(ask_timer(1, t25, f25), "32", "the second is flagged")
    s.add(raw(0x27, t25, t24, dev(), q=2), told(1, FIVE_MINUTES, 2, 1), "before 24 and 02")
    # the rows of stop, ask and value 3
    for q in (1, 2, 3):
        s.add(cmd(0x27, q=q), "=81030127%02X82028281830136" % q, "24 absent")
        s.add(cmd(0x27, t25, q=q), "36", "a 25 does not stand for it")
        s.add(cmd(0x27, f25, q=q), "32", "flagged: unexpected before absent")
        s.add(raw(0x27, t24, q=q), "36", "02 absent")
        s.add(cmd(0x27, t24, unk_flagged, q=q), "32")
    s.add(ask_timer(1, unk), told(1, FIVE_MINUTES, 2, 1))
    s.add(ask_timer(1, obj(0x24, "02")), told(1, FIVE_MINUTES, 2, 1), "a second 24: the first counts")
    s.add(cmd(0x27, obj(0x24, "01"), q=2), ASKED_1, "24 unflagged")
    # devices
    for src in (0x80, 0x82, 0x21, 0x00):
        s.add(cmd(0x27, t24, f25, src=src), "32", "source %02X" % src)
        s.add(cmd(0x27, t24, q=2, src=src), "32")
    for dst in (0x81, 0x83, 0x21, 0x27, 0x00):
        s.add(cmd(0x27, t24, f25, dst=dst), "32", "destination %02X" % dst)
        s.add(cmd(0x27, t24, q=1, dst=dst), "32")
        s.add(cmd(0x27, t24, q=2, dst=dst), "32")
    for value in ("", "81", "818282"):
        s.add(raw(0x27, obj(0x82, value), t24, f25), "32", "02 of length %d" % (len(value) // 2))
    s.add(stop_timer(1), STOPPED_1, "it ran all the time")
    # 24 and 25 with the other types
    for number in (0x24, 0x25):
        s.add(more_time(obj(number)), "01", "%02X has no place with another type, and no length" % number)
        s.add(more_time(obj(number | 0x80, "01")), "32")
        s.add(status(obj(number, "01")), "01")
        s.add(events("09", obj(number, "01")), "01")


def make_timers_values():
    s = Script("timers_values", TIMED)
    for n in range(256):
        good = 1 <= n <= 8
        s.add(start_timer(n, "000010"), "=810301270082028281830100" "2401%02X" % n if good else "32", "timer %02X" % n)
        s.add(stop_timer(n), told(n, "000010", 1) if good else "32")
    for n in list(range(11)) + [0x10, 0x18, 0x80, 0x81, 0x88, 0xFF]:
        good = 1 <= n <= 8
        s.add(ask_timer(n), "24" if good else "32", "timer %02X: outside 1 to 8 it is 32, not 24" % n)
        s.add(stop_timer(n), "24" if good else "32")
        s.add(timer(3, n), "32", "value 3")
    # each byte at each place; zero time is none
    below_24, below_60 = [[swapped(number) for number in range(limit)] for limit in (24, 60)]
    for byte in range(256):
        two = "%02X" % byte
        for time, good in ((two + "0000", below_24), ("00" + two + "00", below_60), ("0000" + two, below_60)):
            runs = two in good and two != "00"
            s.add(start_timer(4, time), "=810301270082028281830100" "240104" if runs else "32", "time %s" % time)
            s.add(stop_timer(4), told(4, time, 1) if runs else "24")
    for time, want in (("329595", "00"), ("323595", "00"), ("429595", "32"), ("320695", "32"), ("329506", "32"),
                       ("000000", "32"), ("000010", "00"), ("001000", "00"), ("100000", "00"), ("A00010", "32"),
                       ("0A0010", "32"), ("00A010", "32"), ("000A10", "32"), ("0000A0", "32"), ("00000A", "32"),
                       ("995999", "32"), ("235959", "32"), ("900000", "00"), ("090000", "32"), ("FFFFFF", "32")):
        s.add(start_timer(5, time), want, "time %s" % time)
        s.add(stop_timer(5), told(5, time, 1) if want == "00" else "24")


def make_timers_profile():
    # bit 1 alone, bit 2 alone, both, neither; the other bits of byte 8 and the same bits elsewhere
    for name, profile, others, asking in (("bit_1", "0000000000000001", True, False),
                                          ("bit_2", "0000000000000002", False, True),
                                          ("both", "0000000000000003", True, True),
                                          ("neither", "FFFFFFFFFFFFFFFCFFFFFFFFFF", False, False),
                                          ("seven_bytes", "FFFFFFFFFFFFFF", False, False),
                                          ("blank", "", False, False)):
        s = Script("timers_profile_" + name, profile)
        s.add(start_timer(1, FIVE_MINUTES), START_1[1] if others else "=810301270082028281830130")
        s.add(ask_timer(1), ("24" if not others else ASKED_1) if asking else "=810301270282028281830130")
        s.add(timer(3, 1), "32" if others else "=810301270382028281830130")
        s.add(timer(3, 9), "32" if others else "30")
        s.add(cmd(0x27, q=3), "36" if others else "30", "value 3 without 24")
        s.add(stop_timer(1), STOPPED_1 if others else "30")
        s.add(stop_timer(1), "24" if others else "30")
        for q in (4, 5, 7, 0xFC, 0xFD, 0xFF):
            s.add(raw(0x27, q=q), "36" if others else "30", "qualifier %02X" % q)
        for q in (6, 0xFE):
            s.add(raw(0x27, q=q), "36" if asking else "30", "qualifier %02X" % q)


def make_timers_order():
    flagged, f25 = obj(0xDE, "AA"), obj(0xA5, FIVE_MINUTES)
    s = Script("timers_order_forbidden", PROFILE)
    for q in range(4):
        s.add(raw(0x27, b"\x05", q=q), "32", "a fault of the walk before the profile")
        s.add(timer(q, 9, flagged), "30", "the profile before the flagged one")
        s.add(raw(0x27, q=q), "30", "and before what is absent")
    s = Script("timers_order", TIMED)
    s.add(raw(0x27, flagged), "32", "flagged before absent")
    s.add(cmd(0x27, obj(0xA4, "0101")), "36", "absent 25 before the length of 24")
    s.add(cmd(0x27, f25, src=0x82), "36", "absent before the source")
    s.add(cmd(0x27, obj(0xA4, "01"), q=3, dst=0x21), "32", "the destination")
    s.add(cmd(0x27, q=3), "36", "absent before value 3")
    s.add(timer(3, 1), "32", "value 3")
    s.add(timer(3, 9), "32")
    s.add(stop_timer(9), "32", "the timer before whether it runs")
    s.add(ask_timer(0), "32")
    s.add(start_timer(9, "FFFFFF"), "32")
    s.add(stop_timer(8), "24", "the last that may be")
    s.add(start_timer(1, "FFFFFF", obj(0x5E)), "32", "32 hides 01")
    s.add(stop_timer(1, obj(0x5E)), "24", "24 hides 01")
    s.add(ask_timer(1, obj(0x5E)), "24")
    s.add(cmd(0x27, obj(0xA4, "01"), q=1, dst=0x21), "32", "the destination before 24")


def make_timers_kept():
    s = Script("timers_kept", TIMED)
    times = [swapped(n) + swapped(10 + n) + swapped(50 + n) for n in range(1, 9)]
    assert times[0] == "101115" and times[7] == "808185"
    for n in range(8, 0, -1):
        s.add(start_timer(n, times[n - 1]), "=810301270082028281830100" "2401%02X" % n)
    for n in range(1, 9):
        s.add(ask_timer(n), told(n, times[n - 1]), "each has its own time")
    s.add(start_timer(3, "329595"), "00", "started again while it runs")
    s.add(ask_timer(3), told(3, "329595"), "the new time")
    s.add(ask_timer(2), told(2, times[1]))
    s.add(ask_timer(4), told(4, times[3]))
    s.add(start_timer(3, "000000"), "32", "a start that is refused")
    s.add(start_timer(3, "000006"), "32")
    s.add(ask_timer(3), told(3, "329595"), "leaves it running")
    s.add(stop_timer(4), told(4, times[3], 1))
    s.add(ask_timer(4), "24")
    s.add(ask_timer(5), told(5, times[4]), "the others run on")
    # beside channels and events
    s.add(open_(32), "..38028100" "350103" "39020020")
    s.add(events("090A"), "00")
    s.add(arr(1, H("4142")), "=D60E1901098202828138028100370102")
    s.add(send(1, H("51")), "..37011F")
    s.add(start_timer(4, "000010"), "00")
    s.add(stop_timer(5), told(5, times[4], 1))
    s.add(recv(1, 9), "..3602" "4142" "370100", "no channel was touched")
    s.add(take(1, 9), "=51")
    s.add(drop(1), "=D60B19010A8202828138020105")
    s.add(status(), "..38020105")
    s.add(close(1), "00")
    s.add(status(), "..38020000")
    s.add(events(""), "00")
    s.add(more_time(), "00")
    for n, time in ((1, times[0]), (2, times[1]), (3, "329595"), (4, "000010"), (6, times[5]), (7, times[6]), (8, times[7])):
        s.add(ask_timer(n), told(n, time), "nor did a channel's call touch a timer")
    s.add(ask_timer(5), "24")
    s.add("A3", "R9", "the line program has no line for a second")
    s.add("A30001", "R9")
    s.add("A4", "R9", "nor for an envelope")
    s.add("A40E", "R9")
    s.add(ask_timer(4), told(4, "000010"), "none passed")


# ---------------------------------------------------------------- unreadable

def make_unreadable():
    s = Script("unreadable")
    good = hx(more_time())
    s.add("", "R9", "blank")
    s.add("D", "R9", "one digit")
    s.add("D00", "R9", "odd digits")
    s.add(good[:-1], "R9", "odd digits")
    s.add(good + "0", "R9", "odd digits")
    s.add(good, "00")
    s.add(good.lower(), "00", "lower case")
    s.add(good.replace("D", "d"), "00")
    for note, ch in (("space", " "), ("tab", "\t"), ("carriage return", "\r"), ("NUL", "\0"), ("g", "g"),
                     ("byte 80", "\x80"), ("byte FF", "\xff"), ("byte B0", "\xb0"), ("vertical tab", "\v"),
                     ("form feed", "\f"), ("comma", ",")):
        s.add(good + ch, "R9", note + " at the end")
        s.add(good + ch + ch, "R9", "two at the end, an even count")
        s.add(ch + good, "R9", note + " at the start")
        s.add(ch + ch + good, "R9", "two at the start")
        s.add(good[:8] + ch + good[9:], "R9", note + " for a digit")
        s.add(good[:8] + ch + good[8:], "R9", note + " between")
        s.add(ch, "R9", note + " alone")
        s.add(ch * 2, "R9", "two of them alone")
    s.add("0x" + good, "R9")
    s.add("D0 09 81 03 01 02 00 82 02 81 82", "R9")
    s.add("\xef\xbb\xbf" + good, "R9", "a byte order mark")
    s.add("\u00b2\u00b3", "R9")
    s.add("--", "R9")
    s.add("+1", "R9")
    s.add("-0", "R9")
    # first bytes
    for first in ("00", "01", "0D", "81", "9F", "A3", "CF", "D1", "D6", "FF"):
        s.add(first + good[2:], "R9", "first byte " + first)
        s.add(first, "R9")
    # wrong counts
    s.add(open_(1500), "00")
    s.add("A0", "R9", "arrival without channel")
    s.add("A001", "--", "arrival without bytes")
    s.add("A1", "R9")
    s.add("A101", "R9")
    s.add("A10100", "R9")
    s.add("A1010000", "--", "a take of none")
    s.add("A101000000", "R9")
    s.add("A100", "R9", "the count of bytes before the channel")
    s.add("A10000", "R9")
    s.add("A10005DC00", "R9")
    s.add("A2", "R9")
    s.add("A20100", "R9")
    s.add("A2010000", "R9")
    s.add("A20000", "R9", "the count of bytes before the channel")
    s.add("A200", "R3")
    s.add("A204", "R4")
    # take counts
    s.add("A10105DC", "--", "1500")
    s.add("A10105DD", "R9", "1501")
    s.add("A10105FF", "R9")
    s.add("A1010600", "R9")
    s.add("A101DC05", "R9")
    s.add("A101FFFF", "R9")
    s.add("A10005DD", "R9", "before any look at the channel")
    s.add("A10405DD", "R9")
    s.add("A1FFFFFF", "R9")
    s.add("A10005DC", "R3")
    s.add("A10405DC", "R4")
    # long lines
    s.add("A001" + "5A" * 1598, "R6", "1600 bytes, R6")
    s.add("A001" + "5A" * 1599, "R9", "1601 bytes")
    s.add("A001" + "5A" * 1598 + "5", "R9", "3201 digits")
    s.add("A001" + "5A" * 1598 + "\r", "R9", "3200 digits and a carriage return")
    s.add("D0" * 1600, "R2")
    s.add("D0" * 1601, "R9")
    s.add("5" * 6602, "R9", "a long line: one R9")
    s.add(good, "00", "and the next line is read")
    s.add("A001" + "A5" * 1500, "--", "1502 bytes")
    s.add(recv(1, 1), "..3601A5" "3701FF")
    s.add("", "R9", "blank")
    s.add("", "R9", "blank")
    s.add(status(), "..38028100", "still as before")
    s.add("A2 01", "R9")
    s.add(status(), "..38028100")
    s.add("A201\r", "R9", "carriage return: not dropped")
    s.add(status(), "..38028100")

    s = Script("unreadable_characters")
    s.add("A201", "R4")
    for b in range(256):
        if b != 0x0A:
            ch = chr(b)
            if ch in "1234567":
                want = "R4"
            elif ch in "0123456789abcdefABCDEF":
                want = "R3"
            else:
                want = "R9"
            s.add("A20" + ch, want, "character %02X" % b)
    s = Script("unreadable_first_bytes")
    for b in range(256):
        s.add(bytes([b, 1]), {0xA0: "R4", 0xA2: "R4", 0xD0: "z32"}.get(b, "R9"))
    for b in range(256):
        s.add(bytes([b, 1, 0, 0]), {0xA0: "R4", 0xA1: "R4", 0xD0: "z32"}.get(b, "R9"))


class Bare:
    """A file that need not begin with a good profile."""
    tool = "lines"

    def __init__(self, name, text, want):
        self.name, self.text, self.want, self.lesson = name, text, want, False
        ALL.append(self)

    def whole(self):
        out = oracle.run(self.text)
        assert out == self.want.encode("ascii"), (self.name, out, self.want)
        return self.text, out

    def write_notes(self, folder):
        pass


def make_bare():
    mt = hx(more_time()).encode()
    op = hx(open_(32)).encode()
    st = hx(status()).encode()
    p = PROFILE.encode()
    r = "810301%02X%02X82028281830130\n"
    nothing = r % (0x02, 0) + r % (0x40, 1) + r % (0x44, 0)
    three = b"\n" + mt + b"\n" + op + b"\n" + st + b"\n"
    Bare("empty_input", b"", "")
    Bare("blank_profile", three, nothing)
    Bare("blank_profile_alone", b"\n", "")
    Bare("bad_profile", b"xyz" + three, "R9\n" + nothing)
    Bare("bad_profile_odd", p + b"0" + three, "R9\n" + nothing)
    Bare("bad_profile_return", p + b"\r" + three, "R9\n" + nothing)
    Bare("bad_profile_space", b" " + p + three, "R9\n" + nothing)
    Bare("bad_profile_nul", b"\0\0" + three, "R9\n" + nothing)
    Bare("bad_profile_high", b"\xC3\xA4" + three, "R9\n" + nothing)
    Bare("bad_profile_alone", b"0", "R9\n")
    Bare("bad_profile_return_alone", b"\r\n", "R9\n")
    Bare("profile_alone", p, "")
    Bare("profile_alone_line_feed", p + b"\n", "")
    Bare("two_line_feeds", b"\n\n", "R9\n")
    Bare("blank_last_line", p + b"\n" + mt + b"\n\n", "810301020082028281830100\nR9\n")
    Bare("no_line_feed", p + b"\n" + op + b"\n" + mt,
         "8103014001820282818301003802810035010339020020\n810301020082028281830100\n")
    Bare("no_line_feed_bad", p + b"\n" + mt + b"\n" + mt[:-1], "810301020082028281830100\nR9\n")
    Bare("no_line_feed_return", p + b"\n" + mt + b"\r", "R9\n")
    Bare("megabyte", p + b"\n" + b"D0" * 524288 + b"\n" + mt + b"\n", "R9\n810301020082028281830100\n")
    Bare("megabyte_profile", b"0" * 1048577 + b"\n" + mt + b"\n", "R9\n810301020082028281830130\n")
    Bare("profile_like_command", mt + b"\n" + mt + b"\n", "810301020082028281830130\n")


# ---------------------------------------------------------------- random histories

def damage(rng, f):
    f = bytearray(f)
    how = rng.below(5)
    if how == 0:
        f[rng.between(1, len(f) - 1)] ^= 1 << rng.below(8)
    elif how == 1:
        f = f[:rng.between(1, len(f) - 1)]
    elif how == 2:
        f.append(rng.below(256))
    elif how == 3:
        at = rng.between(1, len(f) - 1)
        del f[at]
        f[1] = (f[1] - 1) & 0x7F            # the length put right, where it is short
    else:
        f[rng.between(2, len(f) - 1)] = rng.below(256)
    return bytes(f)


def history(name, profile, seed, count, budget):
    s = Script(name, profile)
    rng = Rng(seed)
    used = 0
    n = s.session.number_of_channels()
    s.add(events("090A"), "00")
    for i in range(count - 2):
        filling = (i // 45) % 2 == 0
        allowance = budget * (i + 60) // count      # spread the bytes over the whole history
        chans = s.session.channels
        live = [c for c in sorted(chans) if chans[c].link_is_up()]
        some = sorted(chans)
        def any_channel(prefer):
            if prefer and rng.below(20) != 0:
                return rng.pick(prefer)
            return rng.between(1, 7)
        if len(some) == n or s.session.unpromised() < 2:
            want_open = 3
        else:
            want_open = 24 if filling else 6
        if not some:
            want_open = 70
        limits, at = {}, 0
        for what, weight in (("open", want_open), ("arrive", 22 if filling else 12), ("send", 22 if filling else 12),
                             ("receive", 12 if filling else 26), ("take", 10 if filling else 18),
                             ("drop", 2), ("close", 2 if filling else 9), ("status", 4), ("events", 2),
                             ("damage", 6)):
            at += weight
            limits[what] = at
        r = rng.below(at)
        what = next(w for w in limits if r < limits[w])
        ready_ones = [c for c in live if chans[c].ready]
        held_ones = [c for c in some if chans[c].received]
        if live and what == "take" and not ready_ones and rng.below(4):
            what = "send"                   # mostly, take and receive only where there is something
        if live and what == "receive" and not held_ones and rng.below(4):
            what = "arrive"
        if what == "open":
            size = rng.pick([rng.between(1, 200), rng.between(1, 2000), rng.between(800, 1500), 1500, 2000])
            q = 0 if rng.below(5) == 0 else 1
            extra = []
            if rng.below(3) == 0:
                extra.append(TCP)
            if rng.below(8) == 0:
                extra.append(obj(rng.pick([0x05, 0x1E, 0x5E, 0xDE, 0x04]), rng.bytes(rng.pick([2, 2, 2, 1]))))
            s.add(open_(size, *extra, q=q, bearer=BEARER2 if rng.below(4) == 0 else BEARER3, num=rng.between(0, 255)))
        elif what == "arrive":
            ch = any_channel(live)
            room = chans[ch].grant - len(chans[ch].received) if ch in chans else 50
            k = rng.pick([rng.between(0, 60), rng.between(1, 200), rng.between(1, 200), rng.between(1, 200), room,
                          room + 1 if room < 200 else room // 2, rng.between(0, 1500)])
            if k > room + 1 and rng.below(4):
                k = room
            if used + k > allowance:
                k = rng.between(0, 60)
            used += k
            s.add(arr(ch, rng.bytes(k)))
        elif what == "send":
            ch = any_channel(live if rng.below(5) else some)
            room = chans[ch].grant - len(chans[ch].sent) if ch in chans else 50
            k = rng.pick([rng.between(1, 200), rng.between(1, 200), rng.between(1, 40), min(room, 200), min(room + 1, 200), 0])
            if used + k > allowance:
                k = rng.between(0, 40)
            used += k
            extra = [obj(rng.pick([0x05, 0x5E]), rng.bytes(2))] if rng.below(12) == 0 else []
            s.add(send(ch, rng.bytes(k), *extra, q=rng.pick([0, 1, 1, 0xFE, 0xFF])))
        elif what == "receive":
            ch = any_channel(held_ones if held_ones and rng.below(5) else some)
            held = len(chans[ch].received) if ch in chans else 5
            k = rng.pick([rng.between(0, 255), rng.between(1, 60), min(held, 255), min(held + 1, 255), 237, 255])
            extra = [obj(rng.pick([0x05, 0x5E]), rng.bytes(2))] if rng.below(12) == 0 else []
            s.add(recv(ch, k, *extra))
        elif what == "take":
            ch = any_channel(ready_ones if ready_ones and rng.below(5) else live)
            ready = chans[ch].ready if ch in chans else 5
            k = rng.pick([rng.between(0, 300), ready, ready + 1, 1500, rng.between(1, 40)])
            s.add(take(ch, min(k, 1500)))
        elif what == "drop":
            s.add(drop(any_channel(live)))
        elif what == "close":
            dropped = [c for c in some if chans[c].dropped]
            s.add(close(any_channel(dropped if dropped and rng.below(2) else some)))
        elif what == "status":
            s.add(status())
        elif what == "events":
            s.add(events(rng.pick(["09", "0A", "090A", "090A", "", "090B", "0A09"])))
        else:
            ch = any_channel(some)
            f = rng.pick([more_time(), events("09"), open_(rng.between(1, 900)), close(ch), recv(ch, rng.between(0, 20)),
                          send(ch, rng.bytes(rng.between(1, 20))), status(), take(ch, 20), arr(ch, rng.bytes(5))])
            s.add(damage(rng, f))
    s.add(status())
    return s


MIXED_SEED, MIXED7_SEED = 13, 33


def make_mixed():
    s = history("mixed", PROFILE, MIXED_SEED, 600, 16000)
    history("mixed7", PROFILE_7, MIXED7_SEED, 300, 3600)
    return s


def make_churn():
    s = Script("churn", PROFILE_7)
    rng = Rng(9)
    while len(s.lines) < 298:
        chans = s.session.channels
        some = sorted(chans)
        phase = (len(s.lines) // 50) % 2
        if not some or (len(some) < 7 and rng.below(10) < (7 if phase == 0 else 4)) or rng.below(15) == 0:
            size = rng.pick([rng.between(1, 2000), rng.between(1, 2000), rng.between(1, 100), 32 * rng.between(1, 46),
                             32 * rng.between(1, 46) + 1])
            s.add(open_(size))
            ch = max(s.session.channels, key=lambda c: c not in some)
        else:
            ch = rng.pick(some)
            if chans[ch].received or chans[ch].sent:
                if rng.below(2) == 0:
                    s.add(recv(ch, rng.between(1, 40)))
            s.add(close(ch))
        s.add(status())
        live = sorted(s.session.channels)
        if live:
            k = rng.pick(live)
            channel = s.session.channels[k]
            if rng.below(3):
                s.add(arr(k, rng.bytes(rng.between(1, 45))))
            else:
                s.add(send(k, rng.bytes(rng.between(1, 45))))
            held = [c for c in live if s.session.channels[c].received]
            ready = [c for c in live if s.session.channels[c].ready]
            if held and rng.below(2) == 0:
                s.add(recv(rng.pick(held), rng.between(1, 60)))
            elif ready and rng.below(2) == 0:
                s.add(take(rng.pick(ready), rng.between(1, 60)))
    # At the end every channel is emptied, so that each byte is seen.
    for ch in sorted(s.session.channels):
        while s.session.channels[ch].received:
            s.add(recv(ch, 237))
        s.add(take(ch, 1500))


# ---------------------------------------------------------------- datagram channels

def udp(size, *extra, **how):
    """An OPEN CHANNEL for datagrams."""
    return open_(size, UDP, *extra, **how)


def many(s, lines):
    """Lines with their wants, one behind the other."""
    for line, want in lines:
        s.add(line, want)


def tell_kind(s, stream):
    """Two datagrams each way on channel 1, of grant 64: a stream runs them together."""
    s.add(arr(1, H("4142")), "--")
    s.add(arr(1, H("43")), "--")
    if stream:
        s.add(recv(1, 9), "..830102" "3603" "414243" "370100", "a stream")
    else:
        s.add(recv(1, 9), "..830102" "3602" "4142" "370101", "datagrams")
        s.add(recv(1, 9), "..830102" "3601" "43" "370100")
    s.add(send(1, H("51")), "..37013F")
    s.add(send(1, H("5253")), "..37013D")
    if stream:
        s.add(take(1, 9), "=515253")
    else:
        s.add(take(1, 9), "=51")
        s.add(take(1, 9), "=5253")
    s.add(take(1, 9), "--")
    s.add(close(1), "00")


def make_datagrams_kinds():
    s = Script("datagrams_kinds")
    opened = "=8103014001" "82028281" "830100" "38028100" "350103" "39020040"
    s.add(open_(64), opened, "3C absent")
    tell_kind(s, stream=True)
    for first, stream in (("01", False), ("02", True)):
        for rest in ("1F90", "0000", "FFFF", "0102", "0201"):
            s.add(open_(64, obj(0x3C, first + rest)), opened, "3C %s, the rest is not looked at" % first)
            tell_kind(s, stream)
        s.add(open_(64, obj(0xBC, first + "1F90")), opened, "3C %s, flagged" % first)
        tell_kind(s, stream)
    for first in ("00", "03", "04", "11", "7F", "80", "81", "82", "FE", "FF"):
        s.add(open_(64, obj(0x3C, first + "0102")), "=8103014001" "82028281" "83023A06", "3C %s" % first)
    # two of them: the first counts
    s.add(open_(64, UDP, TCP), "01", "01, then 02")
    tell_kind(s, stream=False)
    s.add(open_(64, TCP, UDP), "01", "02, then 01")
    tell_kind(s, stream=True)
    s.add(open_(64, UDP, OTHER), "01", "01, then 03")
    tell_kind(s, stream=False)
    s.add(open_(64, OTHER, UDP), "3A06", "03, then 01")
    s.add(open_(64, UDP, obj(0xBC, "011F90")), "32", "the second one is flagged")
    for value in ("01", "011F", "011F9000"):
        s.add(open_(64, obj(0x3C, value)), "32", "3C of length %d" % (len(value) // 2))
    # the order of the own checks
    s.add(udp(0, bearer=obj(0xB5, "01")), "30", "the bearer before the size")
    s.add(open_(0, obj(0x3C, "031F90"), bearer=obj(0xB5, "01")), "30", "the bearer before 3C")
    s.add(open_(0, obj(0x3C, "FF1F90")), "3A06", "3C before the size")
    s.add(udp(0), "3A04", "size 0")
    s.add(status(), "..38020000", "nothing is open")
    # responses, status, grants and cells are those of a stream
    s.add(udp(64, q=0), "=8103014000" "82028281" "830100" "38020100" "350103" "39020040", "not yet established")
    s.add(arr(1, H("41")), "R5")
    s.add(arr(1), "R5", "no bytes, refused all the same")
    s.add(take(1, 0), "R5")
    s.add(close(1), "00")
    s.add(udp(64, bearer=BEARER2), "=8103014001" "82028281" "830100" "38028100" "350702030405061F02" "39020040",
          "bearer 02")
    s.add(close(1), "00")
    s.add(udp(64, obj(0x5E, "AA")), "=8103014001" "82028281" "830101" "38028100" "350103" "39020040", "an object ignored")
    s.add(close(1), "00")
    s.add(udp(1501), "=8103014001" "82028281" "830107" "38028100" "350103" "390205DC", "the cap cuts")
    s.add(open_(1500), "=8103014001" "82028281" "830100" "38028200" "350103" "390205DC", "a stream beside it")
    s.add(udp(1500), "=8103014001" "82028281" "830107" "38028300" "350103" "39020440", "68 cells unpromised: 1088")
    s.add(udp(1), "3A04", "no cells")
    s.add(open_(1), "3A04")
    s.add(close(3), "00")
    s.add(udp(1056), "..830100" "38028300" "350103" "39020420", "two cells stay")
    s.add(udp(33, q=0), "=8103014000" "82028281" "830107" "38020400" "350103" "39020020", "two cells: 32")
    s.add(udp(1), "3A01", "no number")
    s.add(open_(1, obj(0x3C, "001F90")), "3A06", "3C before the numbers")
    s.add(drop(3), "--")
    s.add(status(), "=810301440082028281830100" "38028100" "38028200" "38020305" "38020400")


def make_datagrams_arrivals():
    s = Script("datagrams_arrivals")
    told = "=D60E19010982028281380281003701%02X"
    s.add(events("09"), "00")
    s.add(udp(40), "..38028100" "350103" "39020028")
    s.add(arr(1), "--", "none, into an empty channel: no event")
    s.add(recv(1, 1), "..830102" "3600" "370100", "and nothing is left of it")
    for i in range(16):
        s.add(arr(1, bytes([0x40 + i])), told % 1 if i == 0 else "--", "datagram %d" % (i + 1))
    s.add(arr(1, H("77")), "R11", "a seventeenth")
    s.add(arr(1, H("77")), "R11", "and again")
    s.add(arr(1), "--", "none, with 16 held: accepted, no event")
    s.add(arr(1, data(101, 24)), "R11", "24 bytes fit the grant, not the places")
    s.add(arr(1, data(101, 25)), "R6", "25 do not: R6 before R11")
    s.add(arr(1, data(101, 1500)), "R6")
    s.add(arr(8, H("77")), "R3")
    s.add(arr(2, H("77")), "R4")
    s.add(recv(1, 1), "..830100" "3601" "40" "37010F", "a place is free")
    s.add(arr(1, data(102, 26)), "R6", "26 into room for 25")
    s.add(arr(1, data(102, 25)), "--", "25 fill the grant and the places")
    s.add(arr(1, H("77")), "R6", "both would apply: R6")
    s.add(arr(1), "--", "none, with 16 held and a full grant")
    s.add(arr(1), "--")
    for i in range(1, 16):
        s.add(recv(1, 1), "..830100" "3601%02X" "3701%02X" % (0x40 + i, 40 - i))
    s.add(recv(1, 25), "..830100" "3619" + hx(data(102, 25)) + "370100", "nothing of what was refused")
    s.add(recv(1, 1), "..830102" "3600" "370100")

    # a full grant with places free
    s.add(udp(10), "..38028200" "350103" "3902000A")
    s.add(arr(2, data(103, 11)), "R6", "the grant and one")
    s.add(arr(2, data(103, 10)), "=D60E190109820282813802820037010A", "the grant")
    s.add(arr(2, H("77")), "R6")
    s.add(arr(2), "--", "none, with a full grant")
    s.add(recv(2, 3), "..830100" "3603" + hx(data(103, 3)) + "370107")
    s.add(arr(2, H("77787980")), "R6", "four into room for three")
    s.add(arr(2, H("777879")), "--", "what was read in part and these fill it")
    s.add(recv(2, 10), "..830102" "3607" + hx(data(103, 10)[3:]) + "370103")
    s.add(recv(2, 10), "..830102" "3603" "777879" "370100")

    # the one that was read in part is one of the 16
    s.add(arr(1, H("616263")), told % 3)
    for i in range(15):
        s.add(arr(1, bytes([0x50 + i])), "--")
    s.add(recv(1, 1), "..830100" "3601" "61" "370111", "one of its three bytes")
    s.add(arr(1, H("77")), "R11", "it is still one of the 16")
    s.add(arr(1), "--")
    s.add(recv(1, 0), "..830100" "3600" "370111")
    s.add(arr(1, H("77")), "R11", "a request of 0 frees no place")
    s.add(recv(1, 1), "..830100" "3601" "62" "370110", "two of its three")
    s.add(arr(1, H("77")), "R11")
    s.add(recv(1, 1), "..830100" "3601" "63" "37010F", "its end")
    s.add(arr(1, H("78")), "--", "the sixteenth again")
    s.add(arr(1, H("79")), "R11")

    # the link before all of it
    s.add(events("0A"), "00")
    s.add(drop(1), "=D60B19010A8202828138020105")
    s.add(arr(1, H("77")), "R5", "R5 before R11")
    s.add(arr(1, data(101, 100)), "R5", "R5 before R6")
    s.add(arr(1), "R5")
    s.add(recv(1, 9), "..830102" "3601" "50" "37010F")
    s.add(arr(2, H("41")), "--", "09 is not listed: stored all the same")
    s.add(arr(2, H("4243")), "--")
    s.add(events("09"), "00")
    s.add(arr(2, H("44")), "--", "listed now, but bytes were held")
    s.add(recv(2, 9), "..830102" "3601" "41" "370103")
    s.add(arr(2, H("45")), "--", "the first datagram is gone, the others are held")

    # the count of the event is capped
    s.add(udp(600), "..38028300" "350103" "39020258")
    for n, count in ((254, "FE"), (255, "FF"), (256, "FF")):
        s.add(arr(3, data(104, n)), "=D60E19010982028281380283003701" + count, "%d bytes" % n)
        receives(s, 3, data(104, n))
    s.add(arr(3, data(105, 600)), "=D60E19010982028281380283003701FF", "600: the grant is full")
    s.add(arr(3, H("63")), "R6")
    s.add(arr(3), "--")


def make_available(name, opens, each):
    """Event 09 on an empty receive way alone; each: how many bytes a RECEIVE DATA of 9 hands out at most."""
    told = "=D60E19010982028281380281003701%02X"
    s = Script(name)
    s.add(events("090A"), "00")
    s.add(opens(64), "..38028100" "350103" "39020040")
    s.add(arr(1), "--", "a first arrival without bytes")
    s.add(arr(1, H("40")), told % 1, "and then one with")
    for i in range(1, 16):
        s.add(arr(1, bytes([0x40 + i])), "--", "arrival %d onto held bytes" % (i + 1))
    s.add(recv(1, 9), "..3701%02X" % (16 - each))
    s.add(arr(1), "--")
    left = 16 - each
    while left > 0:
        left -= min(each, left)
        s.add(recv(1, 9), "..3701%02X" % left)
    s.add(arr(1, H("414243")), told % 3, "emptied by RECEIVE DATA: the bytes that came")
    s.add(recv(1, 2), "..36024142" "370101", "one byte is left")
    s.add(arr(1, H("44")), "--", "one byte was held")
    s.add(recv(1, 0), "..3600" "370102")
    s.add(recv(1, 1), "..360143" "370101")
    s.add(recv(1, 1), "..360144" "370100")
    s.add(arr(1), "--", "empty, and nothing came")
    s.add(arr(1, H("4546")), told % 2)
    s.add(close(1), "00", "closed with bytes held")
    s.add(opens(64), "..38028100" "350103" "39020040")
    s.add(arr(1, H("47")), told % 1, "opened again, it speaks")
    # the send way, and another channel
    s.add(recv(1, 9), "..360147" "370100")
    s.add(send(1, H("5152"), q=0), "..37013E")
    s.add(arr(1, H("48")), told % 1, "bytes held to send do not matter")
    s.add(take(1, 9), "--")
    s.add(send(1, b"", q=1), "..37013E")
    s.add(take(1, 9), "=5152")
    s.add(arr(1, H("49")), "--", "nor that none are: one was held to be received")
    s.add(opens(64), "..38028200" "350103" "39020040", "channel 2")
    s.add(arr(2, H("61")), "=D60E1901098202828138028200370101", "channel 1 holds bytes, channel 2 none")
    s.add(recv(1, 1), "..360148" "370101")
    s.add(recv(1, 1), "..360149" "370100")
    s.add(arr(1, H("4A4B4C4D")), told % 4, "channel 2 holds bytes, channel 1 none")
    s.add(arr(2, H("62")), "--")
    # refused bytes were not held
    s.add(opens(2), "..38028300" "350103" "39020002", "channel 3, of two bytes")
    s.add(arr(3, H("717273")), "R6")
    s.add(arr(3, H("7172")), "=D60E1901098202828138028300370102", "R6 left it empty")
    s.add(arr(3, H("73")), "R6")
    # when 09 was listed does not matter
    s.add(events("0A"), "00")
    s.add(recv(2, 1), "..360161" "370101")
    s.add(recv(2, 1), "..360162" "370100")
    s.add(arr(2, H("63")), "--", "09 is not listed")
    s.add(events("09"), "00")
    s.add(arr(2, H("64")), "--", "listed now, but a byte was held")
    s.add(recv(2, 1), "..360163" "370101")
    s.add(recv(2, 1), "..360164" "370100")
    s.add(arr(2, H("65")), "=D60E1901098202828138028200370101")
    s.add(events(""), "00")
    s.add(events("090A"), "00")
    s.add(arr(2, H("66")), "--", "listed anew, and a byte was held")
    # a drop keeps what is held
    s.add(drop(1), "=D60B19010A8202828138020105")
    s.add(arr(1, H("4E")), "R5")
    s.add(recv(1, 4), "..36044A4B4C4D" "370100")
    s.add(arr(1, H("4E")), "R5", "empty, and dropped")
    s.add(close(1), "00")
    s.add(opens(32), "..38028100" "350103" "39020020")
    s.add(arr(1, H("4E")), told % 1)
    s.add(status(), "..38028100" "38028200" "38028300")


def make_datagrams_received():
    s = Script("datagrams_received")
    unk, unk_flagged = obj(0x5E, "AA"), obj(0xDE, "AA")
    s.add(udp(1500), "..38028100" "350103" "390205DC")
    s.add(recv(1, 0), "=810301420082028281830100" "3600" "370100", "none held, request 0")
    s.add(recv(1, 1), "=810301420082028281830102" "3600" "370100", "none held, request 1")
    many(s, [(arr(1, H("414243")), "--"), (arr(1, H("51")), "--"), (arr(1, H("6162")), "--")])
    s.add(recv(1, 0), "=810301420082028281830100" "3600" "370106", "request 0 removes nothing")
    s.add(recv(1, 0, unk), "=810301420082028281830101" "3600" "370106", "an object ignored: 01")
    s.add(recv(1, 2), "=810301420082028281830100" "3602" "4142" "370104", "2 of 3: within, 00")
    s.add(recv(1, 0), "=810301420082028281830100" "3600" "370104", "request 0 in the midst of one")
    s.add(recv(1, 2), "=810301420082028281830102" "3601" "43" "370103", "2 of the 1 left: short, 02")
    s.add(recv(1, 1), "=810301420082028281830100" "3601" "51" "370102", "exactly one: 00")
    s.add(recv(1, 9), "=810301420082028281830102" "3602" "6162" "370100", "9 of 2")
    s.add(recv(1, 9), "=810301420082028281830102" "3600" "370100")
    many(s, [(arr(1, H("414243")), "--"), (arr(1, H("5152")), "--"), (arr(1, H("61")), "--")])
    s.add(recv(1, 9), "=810301420082028281830102" "3603" "414243" "370103", "9 of 3 though 6 are held: 02")
    s.add(recv(1, 1, unk), "=810301420082028281830101" "3601" "51" "370102", "within, an object ignored: 01")
    s.add(recv(1, 1, unk_flagged), "32", "nothing handed out")
    s.add(recv(1, 2, unk), "=810301420082028281830102" "3601" "52" "370101", "02 hides 01")
    s.add(recv(1, 1, unk), "=810301420082028281830101" "3601" "61" "370100", "to the end, an object ignored: 01")

    # about 237
    a, b, c = data(111, 237), data(112, 238), data(113, 500)
    s.add(arr(1, a), "--")
    s.add(arr(1, b), "--")
    s.add(arr(1, c), "--")
    s.add(recv(1, 237), "=8103014200820282818301003681ED" + hx(a) + "3701FF", "237 of 237: 00")
    s.add(recv(1, 238), "=8103014200820282818301023681ED" + hx(b[:237]) + "3701FF", "238 of 238: 237 and 02")
    s.add(recv(1, 238), "=8103014200820282818301023601" + hx(b[237:]) + "3701FF", "the last byte of it, and no more")
    s.add(recv(1, 255), "=8103014200820282818301023681ED" + hx(c[:237]) + "3701FF", "255 of 500: 237, 263 left")
    s.add(recv(1, 7), "=8103014200820282818301003607" + hx(c[237:244]) + "3701FF", "256 left")
    s.add(recv(1, 1), "=8103014200820282818301003601" + hx(c[244:245]) + "3701FF", "255 left")
    s.add(recv(1, 1), "=8103014200820282818301003601" + hx(c[245:246]) + "3701FE", "254 left")
    s.add(recv(1, 255), "=8103014200820282818301023681ED" + hx(c[246:483]) + "370111", "17 left")
    s.add(recv(1, 237), "=8103014200820282818301023611" + hx(c[483:]) + "370100")
    many(s, [(arr(1, a), "--"), (arr(1, H("41")), "--"), (arr(1, b[:127]), "--"), (arr(1, c[:128]), "--")])
    s.add(recv(1, 255), "=8103014200820282818301023681ED" + hx(a) + "3701FF", "255 of 237: 02")
    s.add(recv(1, 255), "=8103014200820282818301023601" "41" "3701FF", "1 of 256 held: 255 left")
    s.add(recv(1, 128), "=810301420082028281830102" "367F" + hx(b[:127]) + "370180", "data of 127")
    s.add(recv(1, 128), "=810301420082028281830100" "368180" + hx(c[:128]) + "370100", "data of 128")

    # the count is of all bytes held, over datagrams
    for i in range(16):
        s.add(arr(1, bytes([0x40 + i]) * 17), "--")
    s.add(recv(1, 15), "..830100" "360F" + "40" * 15 + "3701FF", "257 left")
    s.add(recv(1, 1), "..830100" "3601" "40" "3701FF", "256 left")
    s.add(recv(1, 1), "..830100" "3601" "40" "3701FF", "255 left")
    s.add(recv(1, 1), "..830100" "3601" "41" "3701FE", "254 left")
    s.add(recv(1, 17), "..830102" "3610" + "41" * 16 + "3701EE", "17 of the 16 left")
    for i in range(2, 15):
        s.add(recv(1, 255), "..830102" "3611" + "%02X" % (0x40 + i) * 17 + "3701%02X" % (17 * (15 - i)))
    s.add(drop(1), "--")
    s.add(recv(1, 16), "..830100" "3610" + "4F" * 16 + "370101", "after a drop")
    s.add(recv(1, 2), "..830102" "3601" "4F" "370100")
    s.add(recv(1, 1), "..830102" "3600" "370100")
    s.add(recv(2, 0), "3A03")

    # one byte after the other, over many
    s.add(udp(32), "..38028200" "350103" "39020020")
    for i in range(8):
        s.add(arr(2, bytes([0x80 + i, 0x90 + i])), "--")
        s.add(recv(2, 1), "..830100" "3601%02X" "370101" % (0x80 + i))
        s.add(arr(2, bytes([0xA0 + i] * 3)), "--")
        s.add(recv(2, 2), "..830102" "3601%02X" "370103" % (0x90 + i))
        s.add(recv(2, 3), "..830100" "3603" + "%02X" % (0xA0 + i) * 3 + "370100")


def make_datagrams_sent():
    s = Script("datagrams_sent")
    unk, unk_flagged = obj(0x5E, "AA"), obj(0xDE, "AA")
    s.add(udp(40), "..38028100" "350103" "39020028")
    s.add(send(1, b"", q=0), "=810301430082028281830100" "370128", "no bytes: begins none")
    s.add(send(1, b"", q=1), "=810301430182028281830100" "370128", "an end, with nothing built: makes none")
    s.add(take(1, 0), "--", "none is finished, of no bytes neither")
    s.add(take(1, 40), "--")
    # over several pieces
    s.add(send(1, H("41"), q=0), "=810301430082028281830100" "370127", "begins one")
    s.add(send(1, H("4243"), q=0), "=810301430082028281830100" "370125", "joins it")
    s.add(send(1, b"", q=0), "=810301430082028281830100" "370125", "a piece without bytes does not end it")
    s.add(take(1, 40), "--", "it is not finished")
    s.add(send(1, H("4445"), q=1), "=810301430182028281830100" "370123", "joins and ends it")
    s.add(send(1, H("51"), q=0), "=810301430082028281830100" "370122", "begins the next")
    s.add(take(1, 40), "=4142434445", "all pieces, and no byte of the next")
    s.add(take(1, 40), "--")
    s.add(send(1, b"", q=1), "=810301430182028281830100" "370127", "an end without bytes")
    s.add(send(1, b"", q=1), "=810301430182028281830100" "370127", "a second end makes none")
    s.add(take(1, 40), "=51")
    s.add(take(1, 0), "--", "there was one only")
    s.add(send(1, H("61"), q=0xFE), "=81030143FE82028281830100" "370127", "qualifier FE: bit 1 is clear")
    s.add(take(1, 40), "--")
    s.add(send(1, H("62"), q=0xFF), "=81030143FF82028281830100" "370126", "qualifier FF: bit 1 is set")
    s.add(take(1, 40), "=6162")
    s.add(send(1, H("63"), unk, q=0), "=810301430082028281830101" "370127", "an object ignored")
    s.add(send(1, H("64"), unk_flagged, q=1), "32", "nothing stored, nothing ended")
    s.add(take(1, 40), "--")
    s.add(send(1, b"", unk, q=1), "=810301430182028281830101" "370127")
    s.add(take(1, 40), "=63")

    # room is bytes alone
    s.add(send(1, data(121, 39), q=0), "..370101")
    s.add(send(1, H("7172"), q=0), "3A04", "two bytes into room for one")
    s.add(send(1, H("7172"), q=1), "3A04", "nothing ended")
    s.add(take(1, 40), "--")
    s.add(send(1, H("73"), q=0), "..370100", "fills the grant")
    s.add(send(1, H("74"), q=0), "3A04")
    s.add(send(1, H("74"), q=1), "3A04")
    s.add(send(1, b"", q=0), "..370100", "no bytes need no room")
    s.add(take(1, 40), "--")
    s.add(send(1, b"", q=1), "..370100", "nor does an end")
    s.add(take(1, 40), "=" + hx(data(121, 39)) + "73", "of the whole grant")
    s.add(send(1, data(122, 41), q=1), "3A04", "the grant and one")
    s.add(send(1, data(122, 40), q=1), "..370100", "the grant at once")
    s.add(send(1, H("75"), q=0), "3A04", "a place, but no room")
    s.add(take(1, 40), "=" + hx(data(122, 40)))

    # sixteen, the unfinished one included
    for i in range(15):
        s.add(send(1, bytes([0x40 + i]), q=1), "..3701%02X" % (39 - i), "datagram %d" % (i + 1))
    s.add(send(1, H("81"), q=0), "..370118", "the sixteenth, not finished")
    s.add(send(1, H("82"), q=0), "..370117", "joining needs no place")
    s.add(send(1, b"", q=0), "..370117", "nor does a piece without bytes")
    s.add(send(1, H("83"), q=1), "..370116", "joined and ended: 16 finished")
    s.add(send(1, H("91"), q=0), "=81030143008202828183023A04", "would begin a seventeenth")
    s.add(send(1, H("91"), q=1), "=81030143018202828183023A04", "the same at once")
    s.add(send(1, H("91"), unk, q=1), "=81030143018202828183023A04")
    s.add(send(1, data(123, 22), q=0), "3A04", "all the room, no place")
    s.add(send(1, data(123, 23), q=0), "3A04", "neither room nor place")
    s.add(send(1, b"", q=0), "..370116", "without bytes, with 16 held")
    s.add(send(1, b"", q=1), "..370116", "an end, with 16 held")
    s.add(take(1, 1), "=40", "a place is free")
    s.add(send(1, H("92"), q=0), "..370116", "begins the sixteenth")
    s.add(take(1, 1), "=41")
    s.add(send(1, H("93"), q=0), "..370116", "joins it")
    s.add(send(1, b"", q=1), "..370116", "ends it: 15 finished")
    s.add(send(1, H("94"), q=1), "..370115", "16 finished")
    s.add(send(1, H("95"), q=0), "3A04")
    for i in range(2, 15):
        s.add(take(1, 40), "=%02X" % (0x40 + i))
    s.add(take(1, 40), "=818283", "in order")
    s.add(take(1, 40), "=9293")
    s.add(take(1, 40), "=94")
    s.add(take(1, 40), "--")
    s.add(send(1, b"", q=0), "..370128", "all room again")

    # sixteen by ends without bytes, the grant full as well
    s.add(udp(16), "..38028200" "350103" "39020010")
    for i in range(16):
        s.add(send(2, bytes([0xA0 + i]), q=0), "..3701%02X" % (15 - i))
        s.add(send(2, b"", q=1), "..3701%02X" % (15 - i))
    s.add(send(2, H("B0"), q=0), "3A04", "neither room nor place")
    s.add(send(2, b"", q=1), "..370100")
    for i in range(16):
        s.add(take(2, 1), "=%02X" % (0xA0 + i))
    s.add(take(2, 0), "--")

    # a link not yet established
    s.add(udp(32, q=0), "..38020300" "350103" "39020020")
    s.add(send(3, H("C1"), q=0), "..37011F", "builds on it")
    s.add(take(3, 32), "R5")
    s.add(status(), "..38028100" "38028200" "38020300")
    s.add(send(3, H("C2"), q=1), "..37011E", "ends and establishes")
    s.add(status(), "..38028100" "38028200" "38028300")
    s.add(take(3, 32), "=C1C2")
    s.add(udp(32, q=0), "..38020400" "350103" "39020020")
    s.add(send(4, b"", q=0), "..370120")
    s.add(take(4, 0), "R5")
    s.add(send(4, data(124, 33), q=1), "3A04", "no room: nothing is established")
    s.add(take(4, 0), "R5")
    s.add(send(4, b"", q=1), "..370120", "an end with nothing built establishes all the same")
    s.add(status(), "..38028100" "38028200" "38028300" "38028400")
    s.add(take(4, 0), "--", "and makes none")
    s.add(arr(4, H("D1")), "--")
    s.add(close(4), "00")
    s.add(open_(32, q=0), "..38020400" "350103" "39020020", "a stream")
    s.add(send(4, data(124, 33), q=1), "3A04", "no room: nothing is established there either")
    s.add(take(4, 0), "R5")

    # a datagram longer than one command can bring, and the cap of the room
    s.add(close(1), "00")
    s.add(udp(1500), "..38028100" "350103" "390205DC")
    for i in range(6):
        s.add(send(1, data(130 + i, 200), q=0), "..3701FF")
    s.add(send(1, data(136, 44), q=0), "..3701FF", "256 left")
    s.add(send(1, H("E1"), q=0), "..3701FF", "255 left")
    s.add(send(1, H("E2"), q=0), "..3701FE", "254 left")
    s.add(send(1, data(137, 241), q=0), "..37010D")
    s.add(send(1, data(138, 13), q=1), "..370100", "1500 in all")
    s.add(take(1, 1499), "R12")
    s.add(take(1, 1500), "=" + "".join(hx(data(130 + i, 200)) for i in range(6)) + hx(data(136, 44)) + "E1E2"
          + hx(data(137, 241)) + hx(data(138, 13)), "as one")


def make_datagrams_taken():
    s = Script("datagrams_taken")
    s.add(udp(100), "..38028100" "350103" "39020064")
    s.add(take(1, 0), "--", "none is finished")
    s.add(take(1, 1), "--")
    s.add(take(1, 1500), "--")
    s.add(send(1, H("41424344"), q=0), "..370160")
    s.add(take(1, 0), "--", "one is built, none is finished")
    s.add(take(1, 3), "--", "and it does not fit: no refusal")
    s.add(take(1, 1500), "--")
    s.add(send(1, H("45"), q=1), "..37015F")
    s.add(take(1, 4), "R12", "a byte short")
    s.add(take(1, 4), "R12", "and again: nothing was removed")
    s.add(take(1, 0), "R12", "no buffer at all")
    s.add(send(1, b"", q=0), "..37015F", "the room as it was")
    s.add(take(1, 5), "=4142434445", "exactly")
    s.add(send(1, b"", q=0), "..370164")
    s.add(take(1, 5), "--", "it was handed over once")
    s.add(take(1, 0), "--")
    # several: one a take, in order, however large the buffer
    for value in ("51", "525354", "5556", "57"):
        s.add(send(1, H(value), q=1), "00")
    s.add(send(1, H("58"), q=0), "..37015C")
    s.add(take(1, 1500), "=51", "one, though all would fit")
    s.add(take(1, 2), "R12", "the next has three")
    s.add(take(1, 1500), "=525354")
    s.add(take(1, 2), "=5556")
    s.add(take(1, 2), "=57", "one byte larger")
    s.add(take(1, 1500), "--", "the last is not finished")
    s.add(send(1, H("59"), q=0), "..370162")
    s.add(take(1, 0), "--")
    s.add(send(1, b"", q=1), "..370162")
    s.add(take(1, 1), "R12")
    s.add(take(1, 1500), "=5859")
    # a short one behind a long one waits for it
    s.add(send(1, data(141, 90), q=1), "..37010A")
    s.add(send(1, H("61"), q=1), "..370109")
    s.add(take(1, 1), "R12", "the first does not fit; the second is not handed over instead")
    s.add(take(1, 89), "R12")
    s.add(take(1, 90), "=" + hx(data(141, 90)))
    s.add(take(1, 1), "=61")
    # R3, R4 and R5 before R12
    s.add(send(1, H("7172"), q=1), "..370162")
    s.add(take(1, 1), "R12")
    s.add(take(8, 1), "R3")
    s.add(take(0, 1), "R3")
    s.add(take(2, 1), "R4")
    s.add("A10105DD", "R9", "a count over 1500 is unreadable")
    s.add(udp(100, q=0), "..38020200" "350103" "39020064")
    s.add(send(2, H("81"), q=0), "..370163")
    s.add(take(2, 0), "R5", "not yet established")
    s.add(drop(1), "--")
    s.add(take(1, 1), "R5", "dropped: R5 before R12")
    s.add(take(1, 2), "R5")
    # a stream beside it still gives what fits
    s.add(open_(100), "..38028300" "350103" "39020064")
    s.add(send(3, H("919293"), q=1), "..370161")
    s.add(take(3, 2), "=9192")
    s.add(take(3, 0), "--")
    s.add(take(3, 2), "=93")


def make_datagrams_kept():
    s = Script("datagrams_kept")
    s.add(events("090A"), "00")
    s.add(udp(64), "..38028100" "350103" "39020040")
    s.add(arr(1, H("414243")), "..370103")
    s.add(arr(1, H("51")), "--")
    s.add(send(1, H("61"), q=1), "..37013F")
    s.add(send(1, H("62"), q=0), "..37013E")
    s.add(recv(1, 1), "..830100" "3601" "41" "370103")
    s.add(drop(1), "=D60B19010A8202828138020105")
    s.add(send(1, H("63"), q=0), "3A02", "dropped: nothing joins")
    s.add(send(1, b"", q=1), "3A02", "nothing ends")
    s.add(send(1, data(151, 100), q=1), "3A02", "before the want of room")
    s.add(recv(1, 9), "..830102" "3602" "4243" "370101", "the drop kept all, and its ends")
    s.add(recv(1, 9), "..830102" "3601" "51" "370100")
    s.add(recv(1, 0), "..830100" "3600" "370100")
    s.add(status(), "..38020105")
    s.add(close(1), "00", "CLOSE after a drop")
    s.add(arr(1), "R4")
    s.add(take(1, 0), "R4")
    s.add(recv(1, 0), "3A03")
    # opened anew as a stream: nothing of it is there
    s.add(open_(64), "..38028100" "350103" "39020040", "the same number, a stream")
    s.add(recv(1, 9), "..830102" "3600" "370100")
    s.add(take(1, 9), "--")
    s.add(send(1, b"", q=1), "..370140", "all room, and no unfinished datagram to end")
    s.add(take(1, 9), "--")
    for i in range(20):
        s.add(arr(1, bytes([0x40 + i])), "..370101" if i == 0 else "--")
    s.add(recv(1, 20), "..830100" "3614" + hx(bytes(range(0x40, 0x54))) + "370100", "20 arrivals, run together")
    for i in range(20):
        s.add(send(1, bytes([0x60 + i]), q=i % 2), "..3701%02X" % (63 - i))
    s.add(take(1, 64), "=" + hx(bytes(range(0x60, 0x74))), "20 pieces, run together")
    s.add(arr(1, H("7172")), "..370102")
    s.add(arr(1, H("73")), "--")
    s.add(send(1, H("7475"), q=1), "..37013E")
    s.add(send(1, H("76"), q=0), "..37013D")
    s.add(close(1), "00")
    # and as datagrams again
    s.add(udp(64), "..38028100" "350103" "39020040", "datagrams again")
    s.add(take(1, 0), "--", "nothing of the stream is ready")
    s.add(recv(1, 9), "..830102" "3600" "370100")
    s.add(send(1, H("81"), q=1), "..37013F", "begins a new one")
    s.add(take(1, 1), "=81")
    # 16 each way, closed and opened: all places are free
    for i in range(16):
        s.add(arr(1, H("91")), "..370101" if i == 0 else "--")
        s.add(send(1, H("92"), q=1 if i < 15 else 0), "..3701%02X" % (63 - i))
    s.add(arr(1, H("93")), "R11")
    s.add(close(1), "00")
    s.add(udp(64), "..38028100" "350103" "39020040")
    for i in range(16):
        s.add(arr(1, bytes([0xA0 + i])), "..370101" if i == 0 else "--")
        s.add(send(1, bytes([0xB0 + i]), q=1), "..3701%02X" % (63 - i))
    s.add(arr(1, H("93")), "R11")
    s.add(send(1, H("93"), q=0), "3A04")
    # the places of a channel are its own
    s.add(udp(64), "..38028200" "350103" "39020040", "another datagram channel")
    s.add(open_(64), "..38028300" "350103" "39020040", "a stream")
    for i in range(16):
        s.add(arr(2, bytes([0xC0 + i])), "=D60E1901098202828138028200370101" if i == 0 else "--")
        s.add(arr(3, bytes([0xD0 + i])), "=D60E1901098202828138028300370101" if i == 0 else "--")
    s.add(arr(2, H("94")), "R11")
    s.add(arr(3, H("95")), "--", "a stream has no places")
    s.add(send(2, H("96"), q=1), "..37013F", "each way has its own")
    s.add(close(2), "00")
    s.add(arr(1, H("93")), "R11", "those of channel 1 are still taken")
    s.add(udp(1500), "..38028200" "350103" "390205DC", "channel 2 larger, over the cells of the old one")
    s.add(take(2, 0), "--")
    s.add(arr(2, data(152, 1500)), "..3701FF")
    sends(s, 2, data(153, 1500), 1500)
    for i in range(16):
        s.add(recv(1, 2), "..830102" "3601%02X" "3701%02X" % (0xA0 + i, 15 - i))
        s.add(take(1, 64), "=%02X" % (0xB0 + i))
    s.add(recv(3, 17), "..830100" "3611" + hx(bytes(range(0xD0, 0xE0))) + "95" "370100")
    receives(s, 2, data(152, 1500))
    for at in range(0, 1500, 200):
        s.add(take(2, 1500), "=" + hx(data(153, 1500)[at:at + 200]))
    s.add(take(2, 1500), "--")
    # what stands at the end, for the new start behind it
    for i in range(16):
        s.add(arr(1, H("F1F2")), "..370102" if i == 0 else "--")
        s.add(send(1, H("F3"), q=1 if i < 15 else 0), "..3701%02X" % (63 - i))
    s.add(recv(1, 1), "..830100" "3601" "F1" "37011F", "16 held each way, one of them in part")

    s = Script("datagrams_new_start")
    s.add(arr(1, H("41")), "R4", "a new start: no channel is open")
    s.add(take(1, 0), "R4")
    s.add(udp(64), "..38028100" "350103" "39020040")
    s.add(recv(1, 9), "..830102" "3600" "370100", "nothing is held")
    s.add(take(1, 0), "--", "nothing is finished")
    s.add(send(1, b"", q=1), "..370140", "nothing is built")
    s.add(take(1, 0), "--")
    for i in range(16):
        s.add(arr(1, bytes([0x40 + i])), "--")
        s.add(send(1, bytes([0x60 + i]), q=1), "..3701%02X" % (63 - i))
    s.add(arr(1, H("77")), "R11", "16 places each way")
    s.add(send(1, H("77"), q=1), "3A04")
    s.add(take(1, 64), "=60")
    s.add(recv(1, 64), "..830102" "3601" "40" "37010F")


def about(rng, middle):
    """One under, the middle itself, or one over."""
    return max(0, middle + rng.between(-1, 1))


# How often each call comes, where a channel is filled and where it is emptied.
FILLING = ["arrive"] * 20 + ["send"] * 20 + ["receive"] * 2 + ["take"] * 2 + ["drop", "close", "open", "other"]
EMPTYING = ["arrive"] * 6 + ["send"] * 6 + ["receive"] * 15 + ["take"] * 15 + ["drop", "close", "open", "other"]


def both_kinds(name, profile, seed, count):
    """A history over streams and datagram channels, steered to the ends and places of datagrams."""
    s = Script(name, profile)
    rng = Rng(seed)
    s.add(events("090A"), "00")
    while len(s.lines) < count:
        chans = s.session.channels
        some = sorted(chans)
        phase = len(s.lines) // 80
        what = rng.pick(EMPTYING if phase % 2 else FILLING) if some else "open"
        named = some or [1]
        ch = rng.pick(named) if rng.below(4) == 0 else named[phase // 2 % len(named)]
        c = chans.get(ch)
        datagrams = isinstance(c, oracle.Datagrams)
        few = rng.pick([1, 1, 2, rng.between(0, 6)])
        if what == "open":
            size = rng.pick([rng.between(1, 40), rng.between(30, 120), rng.between(100, 1500)])
            s.add(open_(size, *rng.pick([[UDP], [UDP], [TCP], [], [UDP, TCP], [OTHER]]), q=rng.pick([1, 1, 1, 0])))
        elif what == "arrive":
            room = c.grant - c.held()
            s.add(arr(ch, rng.bytes(few if rng.below(8) else min(about(rng, room), 300))))
        elif what == "send":
            s.add(send(ch, rng.bytes(few if rng.below(8) else min(about(rng, c.room()), 200)), q=rng.pick([0, 1, 1])))
        elif what == "receive":
            first = len(c.received[0]) if datagrams and c.received else c.held()
            extra = [obj(0x5E, "AA")] if rng.below(10) == 0 else []
            s.add(recv(ch, min(rng.pick([about(rng, first), about(rng, first), 1, 255, rng.below(256)]), 255), *extra))
        elif what == "take":
            first = sum(map(len, c.finished[:1])) if datagrams else c.ready
            s.add(take(ch, rng.pick([about(rng, first), about(rng, first), 0, 1500, rng.below(100)])))
        elif what == "drop":
            s.add(drop(ch))
        elif what == "close":
            s.add(close(rng.pick([n for n in some if chans[n].dropped] or [ch])))
        else:
            s.add(rng.pick([status(), events("09"), events("090A"), arr(rng.below(9), b"\x01"), send(ch, b"", q=1)]))
    s.add(status())
    return s


def make_datagrams_mixed():
    both_kinds("datagrams_mixed", PROFILE_7, 83, 480)


# ---------------------------------------------------------------- lessons

def ramp(high, n):
    """high0, high1, ... highF and again: easy to tell apart by eye."""
    return bytes((high << 4) | (i % 16) for i in range(n))


def make_lessons():
    s = Script("two_applications", lesson=True)
    r3, t3, r2, t2 = ramp(0xC, 160), ramp(3, 160), ramp(0xB, 160), ramp(2, 160)
    s.add(open_(1500), "..38028100" "350103" "390205DC")
    s.add(open_(1500), "..38028200" "350103" "390205DC")
    s.add(arr(1, ramp(0xA, 160)), "--")
    s.add(close(1), "00")
    s.add(open_(32), "..38028100" "350103" "39020020")
    s.add(open_(1500), "..830100" "38028300" "350103" "390205DC")
    s.add(arr(3, r3), "--")
    s.add(send(3, t3), "..3701FF")
    s.add(close(2), "00")
    s.add(open_(1500), "..830100" "38028200" "350103" "390205DC")
    s.add(arr(2, r2), "--")
    s.add(send(2, t2), "..3701FF")
    s.add(recv(3, 160), "..830100" "3681A0" + hx(r3) + "370100")
    s.add(take(3, 160), "=" + hx(t3))
    s.add(recv(2, 160), "..830100" "3681A0" + hx(r2) + "370100")

    s = Script("count_left", lesson=True)
    d = ramp(5, 257)
    s.add(open_(1500), "00")
    s.add(events("09"), "00")
    s.add(arr(1, d[:256]), "=D60E19010982028281380281003701FF")
    s.add(arr(1, d[256:]), "--")
    s.add(recv(1, 1), "..830100" "360150" "3701FF")
    s.add(recv(1, 1), "..830100" "360151" "3701FF")
    s.add(recv(1, 1), "..830100" "360152" "3701FE")
    s.add(recv(1, 237), "..830100" "3681ED" + hx(d[3:240]) + "370111")
    s.add(recv(1, 17), "..830100" "3611" + hx(d[240:]) + "370100")
    s.add(open_(257), "..38028200" "350103" "39020101")
    s.add(send(2, b"\x61"), "..3701FF")
    s.add(send(2, b"\x62"), "..3701FF")
    s.add(send(2, b"\x63"), "..3701FE")

    unk, unk_flagged = obj(0x5E, "AA"), obj(0xDE, "AA")
    s = Script("flag_is_no_decoration", lesson=True)
    s.add(more_time(), "00")
    s.add(more_time(obj(0x05, "41")), "01")
    s.add(more_time(obj(0x85, "41")), "32")
    s.add(more_time(unk), "01")
    s.add(more_time(unk_flagged), "32")
    s.add(open_(10, unk_flagged), "32")
    s.add(status(), "..38020000")
    s.add(open_(10, unk), "=810301400182028281830101" "38028100" "350103" "3902000A")
    s.add(send(1, b"\x41\x42\x43", unk_flagged), "32")
    s.add(send(1, b"\x41\x42\x43", unk), "..830101370107")
    s.add(close(1, unk_flagged), "32")
    s.add(status(), "..38028100")
    s.add(more_time(obj(0x02, "8182")), "01")
    s.add(more_time(obj(0x82, "8182")), "32")

    s = Script("arrival_is_whole", lesson=True)
    s.add(open_(10), "00")
    s.add(events("09"), "00")
    s.add(arr(1, b"\x41\x42\x43\x44\x45\x46"), "=D60E1901098202828138028100370106")
    s.add(arr(1, b"\x51\x52\x53\x54\x55"), "R6")
    s.add(arr(1), "--")
    s.add(recv(1, 10), "..830102" "3606" "414243444546" "370100")
    s.add(arr(1, ramp(6, 10)), "=D60E190109820282813802810037010A")
    s.add(arr(1, b"\x57"), "R6")
    s.add(arr(1), "--")
    s.add(recv(1, 4), "..830100" "3604" "60616263" "370106")
    s.add(arr(1, b"\x58\x59\x5A\x5B\x5C"), "R6")
    s.add(arr(1, b"\x70\x71\x72\x73"), "--")
    s.add(recv(1, 10), "..830100" "360A" "646566676869" "70717273" "370100")

    s = Script("room_after_storing", lesson=True)
    a, b, c = ramp(4, 30), ramp(5, 70), ramp(6, 39)
    s.add(open_(100), "..39020064")
    s.add(send(1, a, q=0), "=810301430082028281830100370146")
    s.add(send(1, b, q=1), "=810301430182028281830100370100")
    s.add(send(1, b"\x77"), "3A04")
    s.add(send(1, b""), "..370100")
    s.add(take(1, 40), "=" + hx((a + b)[:40]))
    s.add(send(1, b""), "..370128")
    s.add(send(1, c, q=0), "..370101")
    s.add(send(1, b"\x78\x79", q=0), "3A04")
    s.add(send(1, b"\x7A", q=0), "..370100")
    s.add(take(1, 100), "=" + hx((a + b)[40:]))
    s.add(send(1, b"", q=0), "..37013C")

    s = Script("one_event", lesson=True)
    s.add(open_(100), "..39020064")
    s.add(events("09"), "00")
    s.add(arr(1, H("414243")), "=D60E1901098202828138028100370103")
    s.add(arr(1, H("5152")), "--")
    s.add(recv(1, 4), "..830100" "3604" "41424351" "370101")
    s.add(arr(1, H("61")), "--")
    s.add(recv(1, 2), "..830100" "3602" "5261" "370100")
    s.add(arr(1, H("7172")), "=D60E1901098202828138028100370102")
    s.add(send(1, H("31"), q=0), "..370163")
    s.add(recv(1, 2), "..830100" "3602" "7172" "370100")
    s.add(arr(1, H("73")), "=D60E1901098202828138028100370101")
    s.add(close(1), "00")
    s.add(open_(100), "..39020064")
    s.add(arr(1), "--")
    s.add(arr(1, H("7475")), "=D60E1901098202828138028100370102")

    s = Script("datagrams_whole", lesson=True)
    s.add(udp(40), "=810301400182028281830100" "38028100" "350103" "39020028")
    s.add(events("09"), "00")
    s.add(arr(1, H("A1A2A3")), "=D60E1901098202828138028100370103")
    s.add(arr(1, H("B1B2")), "--")
    s.add(recv(1, 9), "..830102" "3603" "A1A2A3" "370102")
    s.add(recv(1, 1), "..830100" "3601" "B1" "370101")
    s.add(recv(1, 9), "..830102" "3601" "B2" "370100")
    s.add(send(1, H("C1"), q=0), "..370127")
    s.add(send(1, H("C2C3"), q=1), "..370125")
    s.add(send(1, H("D1"), q=1), "..370124")
    s.add(take(1, 2), "R12")
    s.add(take(1, 40), "=C1C2C3")
    s.add(take(1, 40), "=D1")
    s.add(take(1, 40), "--")
    for i in range(16):
        s.add(arr(1, bytes([0xE0 + i])), "=D60E1901098202828138028100370101" if i == 0 else "--")
    s.add(arr(1, H("F1")), "R11")
    s.add(arr(1), "--")
    s.add(recv(1, 1), "..830100" "3601" "E0" "37010F")
    s.add(arr(1, H("F2")), "--")
    for i in range(15):
        s.add(send(1, bytes([0x30 + i]), q=1), "..3701%02X" % (39 - i))
    s.add(send(1, H("51"), q=0), "..370118")
    s.add(send(1, H("52"), q=1), "..370117")
    s.add(send(1, H("61"), q=0), "3A04")
    s.add(take(1, 40), "=30")
    s.add(send(1, H("61"), q=0), "..370117")


# ---------------------------------------------------------------- all of it

def make_all():
    make_listing()
    make_numbers()
    make_run_only()
    make_radio()
    make_radio_three()
    make_radio_forced()
    make_wrap()
    make_results()
    make_results_profiles()
    make_order()
    make_worked()
    make_sizes()
    make_cuts()
    make_types()
    make_identities()
    make_tags()
    make_long_tags()
    make_timers_actions()
    make_timers_objects()
    make_timers_values()
    make_timers_profile()
    make_timers_order()
    make_timers_kept()
    make_unreadable()
    make_bare()
    make_mixed()
    make_churn()
    make_datagrams_kinds()
    make_available("available_stream", open_, 9)
    make_available("available_datagrams", udp, 1)
    make_datagrams_arrivals()
    make_datagrams_received()
    make_datagrams_sent()
    make_datagrams_taken()
    make_datagrams_kept()
    make_datagrams_mixed()
    make_lessons()
