#!/usr/bin/env python3
"""An independent oracle for the line program of document 01 ("Data channels: the rules").

Written from the paper, from the requests M-102 ("Timers"), M-104 ("Datagram channels") and M-109
("Fetch bytes as they come off the line") and from the settled readings alone. It keeps plain Python
bytes for each stream and way, and lists of them for datagrams; of the pool it keeps only the counts
of cells, and of a timer seconds alone.

    python3 oracle.py < script.in > script.out
"""

import functools
import sys

# ---------------------------------------------------------------- the paper's numbers

CELLS = 256            # "256 cells of 32 bytes"
CELL_SIZE = 32
GRANT_CAP = 1500       # "the lesser of s and 1500"
DATA_CAP = 237         # RECEIVE DATA hands out at most this many
PLACES = 16            # datagrams held each way at most
COMMAND_MAX = 256      # R2 above
RESPONSE_MAX = 255     # bytes of a buffer for a response, R1 under
LINE_MAX = 1600        # bytes of a line, R9 above
TAKE_MAX = 1500        # R9 above
ENVELOPE_SIZE = 14     # bytes of a timer's envelope, R1 under

MORE_TIME, SET_UP_EVENT_LIST, TIMER = 0x02, 0x05, 0x27
OPEN, CLOSE, RECEIVE, SEND, STATUS = 0x40, 0x41, 0x42, 0x43, 0x44

# What the two low bits of a timer command's qualifier ask for; value 3 asks for nothing.
START, STOP, ASK = 0, 1, 2

# Type -> (required tag numbers, {tag number that may also stand: how often})
TABLE = {
    MORE_TIME:         ([0x01, 0x02], {}),
    SET_UP_EVENT_LIST: ([0x01, 0x02, 0x19], {}),
    TIMER:             ([0x01, 0x02, 0x24], {}),       # 25 too for a start
    OPEN:              ([0x01, 0x02, 0x35, 0x39],
                        {0x05: 1, 0x1E: 1, 0x3C: 1, 0x47: 1, 0x04: 2, 0x0D: 2, 0x3E: 2}),
    CLOSE:             ([0x01, 0x02], {0x05: 1, 0x1E: 1}),
    RECEIVE:           ([0x01, 0x02, 0x37], {0x05: 1, 0x1E: 1}),
    SEND:              ([0x01, 0x02, 0x36], {0x05: 1, 0x1E: 1}),
    STATUS:            ([0x01, 0x02], {}),
}

# Type -> (profile byte, bit), both numbered from 1.
PROFILE_PLACE = {
    MORE_TIME: (3, 4),
    SET_UP_EVENT_LIST: (5, 1),
    TIMER: (8, 1),                                     # bit 2 for asking
    OPEN: (12, 1), CLOSE: (12, 2), RECEIVE: (12, 3), SEND: (12, 4), STATUS: (12, 5),
}
EVENT_PLACE = {0x09: (6, 3), 0x0A: (6, 4)}
BEARER_02_PLACE = (13, 2)

FIXED_LENGTH = {0x01: 3, 0x02: 2, 0x04: 2, 0x1E: 2, 0x24: 1, 0x25: 3, 0x37: 1, 0x39: 2, 0x3C: 3}


def row_of(kind, qualifier):
    """The objects of a type; those of a timer command go by its qualifier."""
    required, optional = TABLE[kind]
    return (required + [0x25] if kind == TIMER and qualifier & 3 == START else required), optional


def place_of(kind, qualifier):
    """The profile place of a type; that of a timer command goes by its qualifier."""
    return (8, 2) if kind == TIMER and qualifier & 3 == ASK else PROFILE_PLACE[kind]


class Refusal(Exception):
    def __init__(self, number):
        self.number = number


class Answer(Exception):
    """An unsuccessful response: result, and a cause where the result is 3A."""
    def __init__(self, result, cause=None):
        self.result = result
        self.cause = cause


# ---------------------------------------------------------------- frames and objects

def read_length(data, at):
    """The length at data[at]: (length, place after it), or None if of no read form."""
    if at >= len(data):
        return None
    first = data[at]
    if first <= 0x7F:
        return first, at + 1
    if first == 0x81 and at + 1 < len(data) and data[at + 1] >= 0x80:
        return data[at + 1], at + 2
    return None


def write_length(n):
    return bytes([n]) if n <= 0x7F else bytes([0x81, n])


def write_object(tag, value):
    return bytes([tag]) + write_length(len(value)) + value


def read_tag(data, at):
    """The tag at data[at]: (number, flag, place after it), or None if it is none."""
    first = data[at]
    if first != 0x7F:
        return None if first in (0x00, 0x80, 0xFF) else (first & 0x7F, first >= 0x80, at + 1)
    if at + 2 >= len(data):
        return None
    both = data[at + 1] << 8 | data[at + 2]
    return None if both & 0x7FFF == 0 else (both & 0x7FFF, both >= 0x8000, at + 3)


def walk(body):
    """All objects up to the first fault: (list of (number, flag, value), faulty?)."""
    objects = []
    at = 0
    while at < len(body):
        tag = read_tag(body, at)
        if tag is None:
            return objects, True
        number, flag, behind = tag
        length = read_length(body, behind)
        if length is None:
            return objects, True
        size, start = length
        if start + size > len(body):
            return objects, True
        objects.append((number, flag, body[start:start + size]))
        at = start + size
    return objects, False


def length_is_right(number, value):
    if number in FIXED_LENGTH:
        return len(value) == FIXED_LENGTH[number]
    if number == 0x35:
        if len(value) == 0:
            return False
        if value[0] == 0x02:
            return len(value) == 7
        if value[0] == 0x03:
            return len(value) == 1
        return True
    return True


# ---------------------------------------------------------------- times

def read_time(value):
    """The seconds of three bytes of swapped digits, hours first, or None where they are no time of day."""
    if any(byte & 15 > 9 or byte >> 4 > 9 for byte in value):
        return None
    hours, minutes, seconds = (10 * (byte & 15) + (byte >> 4) for byte in value)
    if hours > 23 or minutes > 59 or seconds > 59:
        return None
    return 3600 * hours + 60 * minutes + seconds


def write_time(seconds):
    parts = seconds // 3600, seconds // 60 % 60, seconds % 60
    return bytes(part // 10 | part % 10 << 4 for part in parts)


# ---------------------------------------------------------------- the session

def cells_of(size):
    """Cells for one way."""
    return (size + CELL_SIZE - 1) // CELL_SIZE


class Channel:
    """What a stream and a datagram channel have in common."""
    def __init__(self, number, grant, established):
        self.number = number
        self.grant = grant
        self.established = established
        self.dropped = False

    def status(self):
        first = self.number + (0x80 if self.established and not self.dropped else 0)
        return bytes([first, 0x05 if self.dropped else 0x00])

    def link_is_up(self):
        return self.established and not self.dropped


class Stream(Channel):
    def __init__(self, *opened):
        super().__init__(*opened)
        self.received = b""     # bytes held for RECEIVE DATA
        self.sent = b""         # bytes held for the radio's takes
        self.ready = 0          # how many of self.sent, from the front, are ready

    def held(self):
        return len(self.received)

    def room(self):
        return self.grant - len(self.sent)

    def arrive(self, data):
        self.received += data

    def hand_out(self, request):
        n = min(request, len(self.received), DATA_CAP)
        data, self.received = self.received[:n], self.received[n:]
        return data

    def store(self, data, immediate):
        self.sent += data
        if immediate:
            self.ready = len(self.sent)

    def take(self, size):
        n = min(self.ready, size)
        data, self.sent = self.sent[:n], self.sent[n:]
        self.ready -= n
        return data


class Datagrams(Channel):
    def __init__(self, *opened):
        super().__init__(*opened)
        self.received = []      # datagrams held for RECEIVE DATA, of the first one what is left
        self.finished = []      # datagrams held for the radio's takes
        self.unfinished = b""   # the one that SEND DATA builds; no bytes where none is begun

    def held(self):
        return sum(map(len, self.received))

    def room(self):
        return self.grant - sum(map(len, self.finished)) - len(self.unfinished)

    def arrive(self, data):
        if data == b"":
            return
        if len(self.received) == PLACES:
            raise Refusal(11)
        self.received.append(data)

    def hand_out(self, request):
        if not self.received:
            return b""
        n = min(request, len(self.received[0]), DATA_CAP)
        data, self.received[0] = self.received[0][:n], self.received[0][n:]
        if self.received[0] == b"":
            del self.received[0]
        return data

    def store(self, data, immediate):
        begins = data != b"" and self.unfinished == b""
        if begins and len(self.finished) == PLACES:
            raise Answer(0x3A, 0x04)
        self.unfinished += data
        if immediate and self.unfinished != b"":
            self.finished.append(self.unfinished)
            self.unfinished = b""

    def take(self, size):
        if not self.finished:
            return b""
        if size < len(self.finished[0]):
            raise Refusal(12)
        return self.finished.pop(0)


# The first byte of 3C -> the kind of channel that it opens.
KINDS = {0x01: Datagrams, 0x02: Stream}


class Session:
    def __init__(self, profile):
        self.profile = profile
        self.channels = {}      # number -> Channel
        self.events = b""       # the event list
        self.timers = {}        # number -> [seconds left, seconds it was started with]; it waits where none are left

    # -- profile

    def allows(self, place):
        byte, bit = place
        if byte > len(self.profile):
            return False
        return (self.profile[byte - 1] >> (bit - 1)) & 1 == 1

    def number_of_channels(self):
        return self.profile[12] >> 5 if len(self.profile) >= 13 else 0

    # -- pool

    def unpromised(self):
        promised = sum(2 * cells_of(c.grant) for c in self.channels.values())
        return CELLS - promised

    def grant_for(self, size):
        want = min(size, GRANT_CAP)
        free = self.unpromised()
        if 2 * cells_of(want) <= free:
            return want
        return CELL_SIZE * (free // 2)

    # -- commands

    def command(self, frame):
        """The response to a command, or Refusal."""
        # Step 1. (R1 never occurs here: the program's buffers are large enough.)
        if len(frame) == 0 or len(frame) > COMMAND_MAX:
            raise Refusal(2)
        details = bytes(3)
        try:
            # Step 2: the outer frame.
            if frame[0] != 0xD0:
                raise Answer(0x32)
            outer = read_length(frame, 1)
            if outer is None:
                raise Answer(0x32)
            size, start = outer
            if start + size != len(frame):
                raise Answer(0x32)
            body = frame[start:]
            # Step 3: the first object.
            objects, faulty = walk(body)
            if len(body) == 0:
                raise Answer(0x36)
            if len(objects) == 0:
                raise Answer(0x32)          # the first one is the faulty one
            number, _, value = objects[0]
            if number != 0x01 or len(value) != 3:
                raise Answer(0x36)
            details = value
            # Step 4: a fault later on.
            if faulty:
                raise Answer(0x32)
            return self.with_details(details, objects)
        except Answer as a:
            return self.response(details, a.result, a.cause)

    def with_details(self, details, objects):
        kind, qualifier = details[1], details[2]
        # Step 5.
        if kind not in TABLE:
            raise Answer(0x31)
        if not self.allows(place_of(kind, qualifier)):
            raise Answer(0x30)
        # Step 6.
        required, optional = row_of(kind, qualifier)
        counting = {}                       # tag number -> list of values that count
        ignored = False
        for number, flag, value in objects:
            limit = 1 if number in required else optional.get(number, 0)
            already = counting.setdefault(number, [])
            if len(already) < limit:
                already.append(value)
            elif flag:
                raise Answer(0x32)
            else:
                ignored = True
        # Step 7.
        for number in required:
            if not counting.get(number):
                raise Answer(0x36)
        for number, values in counting.items():
            for value in values:
                if not length_is_right(number, value):
                    raise Answer(0x32)
        # Step 8.
        source, destination = counting[0x02][0]
        if source != 0x81:
            raise Answer(0x32)
        if kind in (CLOSE, RECEIVE, SEND):
            if not 0x21 <= destination <= 0x27:
                raise Answer(0x32)
        elif destination != 0x82:
            raise Answer(0x32)
        # Step 9.
        plain = 0x01 if ignored else 0x00
        if kind == MORE_TIME:
            return self.response(details, plain)
        if kind == SET_UP_EVENT_LIST:
            return self.set_up_event_list(details, plain, counting[0x19][0])
        if kind == OPEN:
            return self.open(details, plain, qualifier, counting)
        if kind == STATUS:
            return self.response(details, plain, after=self.statuses())
        if kind == TIMER:
            return self.timer(details, plain, qualifier & 3, counting)
        channel = self.channels.get(destination - 0x20)
        if channel is None:
            raise Answer(0x3A, 0x03)
        if kind == CLOSE:
            del self.channels[channel.number]
            return self.response(details, plain)
        if kind == RECEIVE:
            return self.receive(details, plain, channel, counting[0x37][0][0])
        return self.send(details, plain, qualifier, channel, counting[0x36][0])

    def set_up_event_list(self, details, plain, values):
        for event in values:
            if event not in EVENT_PLACE or not self.allows(EVENT_PLACE[event]):
                raise Answer(0x30)
        self.events = values
        return self.response(details, plain)

    def open(self, details, plain, qualifier, counting):
        bearer = counting[0x35][0]
        size = counting[0x39][0][0] * 256 + counting[0x39][0][1]
        transport = counting[0x3C][0][0] if counting.get(0x3C) else 0x02
        if bearer[0] != 0x03 and not (bearer[0] == 0x02 and self.allows(BEARER_02_PLACE)):
            raise Answer(0x30)
        if transport not in KINDS:
            raise Answer(0x3A, 0x06)
        if size == 0:
            raise Answer(0x3A, 0x04)
        unused = [n for n in range(1, self.number_of_channels() + 1) if n not in self.channels]
        if not unused:
            raise Answer(0x3A, 0x01)
        if self.unpromised() < 2:
            raise Answer(0x3A, 0x04)
        grant = self.grant_for(size)
        channel = KINDS[transport](unused[0], grant, bool(qualifier & 1))
        self.channels[channel.number] = channel
        result = 0x07 if grant < size else plain
        after = (write_object(0x38, channel.status())
                 + write_object(0x35, bearer)
                 + write_object(0x39, bytes([grant // 256, grant % 256])))
        return self.response(details, result, after=after)

    def receive(self, details, plain, channel, request):
        data = channel.hand_out(request)
        left = min(channel.held(), 0xFF)
        result = 0x02 if len(data) < request else plain
        after = write_object(0x36, data) + write_object(0x37, bytes([left]))
        return self.response(details, result, after=after)

    def send(self, details, plain, qualifier, channel, data):
        if channel.dropped:
            raise Answer(0x3A, 0x02)
        if len(data) > channel.room():
            raise Answer(0x3A, 0x04)
        channel.store(data, bool(qualifier & 1))
        if qualifier & 1:
            channel.established = True
        room = min(channel.room(), 0xFF)
        return self.response(details, plain, after=write_object(0x37, bytes([room])))

    def timer(self, details, plain, action, counting):
        number = counting[0x24][0][0]
        if action not in (START, STOP, ASK):
            raise Answer(0x32)
        if not 1 <= number <= 8:
            raise Answer(0x32)
        if action == START:
            seconds = read_time(counting[0x25][0])
            if not seconds:                 # no time of day, or zero time
                raise Answer(0x32)
            self.timers[number] = [seconds, seconds]
            return self.response(details, plain, after=write_object(0x24, bytes([number])))
        left, _ = self.timers.get(number, [0, 0])
        if left == 0:                       # not started, stopped, or waiting
            raise Answer(0x24)
        if action == STOP:
            del self.timers[number]
        return self.response(details, plain, after=timer_objects(number, left))

    def statuses(self):
        if not self.channels:
            return write_object(0x38, b"\x00\x00")
        return b"".join(write_object(0x38, self.channels[n].status())
                        for n in sorted(self.channels))

    def response(self, details, result, cause=None, after=b""):
        outcome = bytes([result]) if cause is None else bytes([result, cause])
        return (write_object(0x81, details)
                + write_object(0x82, b"\x82\x81")
                + write_object(0x83, outcome)
                + after)

    # -- calls from the radio

    def radio_channel(self, number):
        if not 1 <= number <= 7:
            raise Refusal(3)
        if number not in self.channels:
            raise Refusal(4)
        channel = self.channels[number]
        if not channel.link_is_up():
            raise Refusal(5)
        return channel

    def arrival(self, number, data):
        channel = self.radio_channel(number)
        if len(data) > channel.grant - channel.held():
            raise Refusal(6)
        was_empty = channel.held() == 0
        channel.arrive(data)
        if was_empty and len(data) >= 1 and 0x09 in self.events:
            came = min(len(data), 0xFF)
            return event(0x09, write_object(0x38, channel.status())
                         + write_object(0x37, bytes([came])))
        return b""

    def take(self, number, size):
        return self.radio_channel(number).take(size)

    def drop(self, number):
        channel = self.radio_channel(number)
        channel.dropped = True
        if 0x0A in self.events:
            return event(0x0A, write_object(0x38, channel.status()))
        return b""


    # -- calls of the host's clock

    def second(self):
        for timer in self.timers.values():
            timer[0] = max(timer[0] - 1, 0)

    def envelope(self, buffer):
        """The envelope of the lowest waiting timer, into a buffer of so many bytes."""
        if buffer < ENVELOPE_SIZE:
            raise Refusal(1)
        waiting = [number for number, (left, _) in self.timers.items() if left == 0]
        if not waiting:
            raise Refusal(10)
        number = min(waiting)
        _, started = self.timers.pop(number)
        return write_object(0xD7, write_object(0x82, b"\x82\x81") + timer_objects(number, started))


def timer_objects(number, seconds):
    return write_object(0x24, bytes([number])) + write_object(0x25, write_time(seconds))


def event(number, after):
    return write_object(0xD6, write_object(0x19, bytes([number]))
                        + write_object(0x82, b"\x82\x81") + after)


# ---------------------------------------------------------------- the fetch call

def called_for(front):
    """How many bytes a frame with this front has: None where that is still to come, 0 where no frame has it."""
    if front in (b"\xD0", b"\xD0\x81"):
        return None
    outer = read_length(front, 1)
    if front[0] != 0xD0 or outer is None:
        return 0
    size, start = outer
    return start + size


class Gathered:
    """What came of a frame so far, a record beside the session."""
    def __init__(self):
        self.data = b""

    def fetch(self, session, burst, buffer):
        """What a burst gets, with a buffer of so many bytes, and the count of its bytes left: a response,
        no bytes where more is to come, or a Refusal."""
        if buffer < RESPONSE_MAX:
            return Refusal(1), len(burst)
        for taken, byte in enumerate(burst, 1):
            self.data += bytes([byte])
            total = called_for(self.data)
            if total is None or len(self.data) < total <= COMMAND_MAX:
                continue
            frame, self.data = self.data, b""
            answer = Refusal(2) if total > COMMAND_MAX else session.command(frame)
            return answer, len(burst) - taken
        return b"", 0


# ---------------------------------------------------------------- the line program

DIGITS = {ord(c): v for v, c in enumerate("0123456789abcdef")}
DIGITS.update({ord(c): v for v, c in enumerate("0123456789ABCDEF")})


def read_hex(line):
    """The bytes of a line, or None if unreadable. A blank line gives no bytes."""
    if len(line) % 2 != 0 or any(c not in DIGITS for c in line):
        return None
    if len(line) // 2 > LINE_MAX:
        return None
    return bytes(16 * DIGITS[line[i]] + DIGITS[line[i + 1]] for i in range(0, len(line), 2))


def printed(answer):
    """Bytes written, in capitals; "--" if none; or R and the number."""
    if isinstance(answer, Refusal):
        return "R%d" % answer.number
    return answer.hex().upper() if answer else "--"


def run_line(session, line):
    """What one later line prints."""
    try:
        data = read_hex(line)
        if not data:                        # unreadable, or blank
            raise Refusal(9)
        if data[0] == 0xD0:
            written = session.command(data)
        elif data[0] == 0xA0 and len(data) >= 2:
            written = session.arrival(data[1], data[2:])
        elif data[0] == 0xA1 and len(data) == 4:
            count = data[2] * 256 + data[3]
            if count > TAKE_MAX:
                raise Refusal(9)
            written = session.take(data[1], count)
        elif data[0] == 0xA2 and len(data) == 2:
            written = session.drop(data[1])
        else:
            raise Refusal(9)
        return printed(written)
    except Refusal as r:
        return printed(r)


def split_lines(raw):
    """Split at line feeds; a last line without one is a line; empty input has none."""
    lines = raw.split(b"\n")
    if lines[-1] == b"":
        lines.pop()
    return lines


def start(line):
    """The session that the first line starts, and what it prints (None: nothing)."""
    profile = read_hex(line)
    if profile is None:
        return Session(b""), "R9"
    return Session(profile), None


def run(raw, line_of=run_line):
    """All of the output for all of the input, as bytes; line_of says what a later line prints."""
    lines = split_lines(raw)
    if not lines:
        return b""
    session, first = start(lines[0])
    out = [] if first is None else [first]
    out += [line_of(session, line) for line in lines[1:]]
    return "".join(o + "\n" for o in out).encode("ascii")


# ---------------------------------------------------------------- the tool calls

def calls_line(session, line):
    """What one later line prints: a second or more, an envelope, or what the line program's line prints."""
    data = read_hex(line) or b""
    if data[:1] == b"\xA3" and len(data) in (1, 3):
        for _ in range(data[1] * 256 + data[2] if data[1:] else 1):
            session.second()
        return printed(b"")
    if data[:1] == b"\xA4" and len(data) in (1, 2):
        try:
            return printed(session.envelope(data[1] if data[1:] else ENVELOPE_SIZE))
        except Refusal as r:
            return printed(r)
    return run_line(session, line)


# ---------------------------------------------------------------- the program fetch_lines

def fetch_line(gathered, session, line):
    """What one later line prints: each is a burst."""
    burst = read_hex(line)
    if burst is None:
        return printed(Refusal(9))
    answer, left = gathered.fetch(session, burst, RESPONSE_MAX)
    return "%s %d" % (printed(answer), left)


def run_fetch(raw):
    """All of its output for all of its input, as bytes."""
    return run(raw, functools.partial(fetch_line, Gathered()))


if __name__ == "__main__":
    sys.stdout.buffer.write(run(sys.stdin.buffer.read()))
