#!/usr/bin/env python3
"""Makes the lines of the tool bench, which gate.py writes, with the answers that they must get, from document 01 and the
request M-102.

A response is read here as a list of tagged objects and looked up in tables of the paper; a record is written object by object.
"""
SEVEN = [0x02, 0x05, 0x40, 0x41, 0x42, 0x43, 0x44]      # those that the bench writes
EIGHT = SEVEN + [0x27]                                  # those whose responses it reads
CAUSES = {0x40: [0x01, 0x04, 0x06], 0x41: [0x03], 0x42: [0x03], 0x43: [0x02, 0x03, 0x04]}
TO_MODEM = [0x02, 0x05, 0x40, 0x44]
OTHERS = [0x00, 0x01, 0x03, 0x04, 0x06, 0x3F, 0x45, 0x7F, 0x80, 0xC0, 0xFF]


def length(n):
    """The shortest form of a length."""
    return bytes([n]) if n <= 0x7F else bytes([0x81, n])


def tlv(tag, value):
    """A tagged object."""
    return bytes([tag]) + length(len(value)) + bytes(value)


# Reading a response


def objects(data):
    """The objects that fill the bytes, each length in its shortest form; None where they do not."""
    found, i = [], 0
    while i < len(data):
        if i + 2 > len(data):
            return None
        n, start = data[i + 1], i + 2
        if n > 0x7F:
            if n != 0x81 or start >= len(data) or data[start] <= 0x7F:
                return None
            n, start = data[start], start + 1
        if start + n > len(data):
            return None
        found.append((data[i], data[start:start + n]))
        i = start + n
    return found


def number_of(value, dropped):
    """The channel of a status, None where the two bytes are none; a dropped link only where it may stand."""
    if len(value) != 2:
        return None
    first, second = value
    if second == 0x00 and first & 0x7F in range(1, 8):
        return first & 0x7F
    if dropped and second == 0x05 and first in range(1, 8):
        return first
    return None


def time_of(value):
    """The six digits of a time from one second to 23:59:59, hours first, or None."""
    digits = "".join(two[::-1] for two in value.hex(" ").split())
    if len(digits) != 6 or not digits.isdecimal() or digits == "000000":
        return None
    return digits if digits[:2] < "24" and digits[2:4] < "60" and digits[4:] < "60" else None


def timer_follows(action, tags, values):
    """Whether these objects may follow a timer command that asked for so much: a timer, and its time but for a start."""
    if tags != {0: [0x24], 1: [0x24, 0x25], 2: [0x24, 0x25]}.get(action) or len(values[0]) != 1:
        return False
    return values[0][0] in range(1, 9) and (action == 0 or time_of(values[1]) is not None)


def follows(details, rest):
    """Whether these objects may follow a result 00, 01, 02 or 07."""
    kind = details[1]
    tags = [t for t, _ in rest]
    values = [v for _, v in rest]
    if kind == 0x27:
        return timer_follows(details[2] % 4, tags, values)
    if kind == 0x40:
        if tags != [0x38, 0x35, 0x39] or number_of(values[0], False) is None or len(values[2]) != 2:
            return False
        bearer = (len(values[1]) == 7 and values[1][0] == 0x02) or (len(values[1]) == 1 and values[1][0] == 0x03)
        return bearer and 1 <= int.from_bytes(values[2], "big") <= 1500
    if kind == 0x42:
        return tags == [0x36, 0x37] and len(values[0]) <= 237 and len(values[1]) == 1
    if kind == 0x43:
        return tags == [0x37] and len(values[0]) == 1
    if kind == 0x44:
        if tags == [0x38] and values[0] == b"\x00\x00":
            return True
        numbers = [number_of(v, True) for v in values]
        rises = None not in numbers and all(a < b for a, b in zip(numbers, numbers[1:]))
        return tags != [] and set(tags) == {0x38} and rises
    return rest == []


def fits(details, result, rest):
    """Whether a type can have a result, with what follows it."""
    kind, code = details[1], result[0]
    if len(result) == 2:
        return code == 0x3A and result[1] in CAUSES.get(kind, []) and rest == []
    if code in (0x00, 0x01, 0x02, 0x07):
        may = {0x00: EIGHT, 0x01: EIGHT, 0x02: [0x42], 0x07: [0x40]}[code]
        return kind in may and follows(details, rest)
    if rest:
        return False
    if code == 0x24:
        return kind == 0x27 and details[2] % 4 in (1, 2)
    if code == 0x30:
        return kind in EIGHT
    if code == 0x31:
        return kind not in EIGHT
    if code == 0x32:
        return True
    return code == 0x36 and (kind in EIGHT or details == b"\x00\x00\x00")


def shown(tag, value):
    return time_of(value) if tag == 0x25 else value.hex().upper() or "--"


def heard(data):
    """What a response says, or R8."""
    found = objects(data)
    if found is None or len(found) < 3 or [t for t, _ in found[:3]] != [0x81, 0x82, 0x83]:
        return "R8"
    details, devices, result = (v for _, v in found[:3])
    rest = found[3:]
    if len(details) != 3 or devices != b"\x82\x81" or len(result) not in (1, 2) or not fits(details, result, rest):
        return "R8"
    return " ".join(shown(t, v) for t, v in found[:1] + found[2:])


# Writing a record


def written(number, kind, qualifier, source, destination, values):
    """The command, or R7; values is None where a value is not such as the bench writes."""
    ends = [0x82] if kind in TO_MODEM else range(0x21, 0x28)
    if kind not in SEVEN or source != 0x81 or destination not in ends or values is None:
        return "R7"
    body = tlv(0x81, [number, kind, qualifier]) + tlv(0x82, [source, destination]) + values
    return tlv(0xD0, body).hex().upper()


def record(data):
    """The command of a record, R7, or R9."""
    if len(data) < 6:
        return "R9"
    number, kind, qualifier, source, destination = data[1:6]
    rest = data[6:]
    if kind in (0x05, 0x43):
        values = tlv({0x05: 0x99, 0x43: 0xB6}[kind], rest) if len(rest) <= 241 else None
    elif kind == 0x42:
        if len(rest) != 1:
            return "R9"
        values = tlv(0xB7, rest)
    elif kind == 0x40:
        if len(rest) < 2 or len(rest) - 2 - rest[1] not in (2, 5):
            return "R9"
        bearer, parameters, tail = rest[0], rest[2:2 + rest[1]], rest[2 + rest[1]:]
        fit = (bearer, len(parameters)) in ((0x02, 6), (0x03, 0))
        values = tlv(0xB5, bytes([bearer]) + parameters) + tlv(0xB9, tail[:2]) if fit else None
        if fit and tail[2:]:
            values += tlv(0x3C, tail[2:])
    elif rest:
        return "R9"
    else:
        values = b""
    return written(number, kind, qualifier, source, destination, values)


def answer(line):
    """The answer to a line, which is bytes without its line feed."""
    digits = b"0123456789abcdefABCDEF"
    if len(line) == 0 or len(line) % 2 or len(line) > 3200 or any(c not in digits for c in line):
        return "R9"
    data = bytes.fromhex(line.decode())
    return {0x81: heard, 0xB0: record}.get(data[0], lambda _: "R9")(data)


# The lines


def response(details, result, *rest):
    """A response, object by object."""
    return tlv(0x81, details) + tlv(0x82, [0x82, 0x81]) + tlv(0x83, result) + b"".join(tlv(t, v) for t, v in rest)


def counted(n):
    """So many bytes of data, no two neighbours alike."""
    return bytes((7 * i + 0x41) % 256 for i in range(n))


def followers(kind):
    """What may follow a success."""
    if kind == 0x40:
        for status in ([0x81, 0x00], [0x01, 0x00], [0x87, 0x00], [0x07, 0x00]):
            for bearer in (b"\x03", b"\x02" + counted(6)):
                for grant in (1, 1500):
                    yield (0x38, status), (0x35, bearer), (0x39, grant.to_bytes(2, "big"))
    elif kind == 0x42:
        for n in (0, 1, 127, 128, 237):
            for left in (0x00, 0xFF):
                yield (0x36, counted(n)), (0x37, [left])
    elif kind == 0x43:
        for room in (0x00, 0x7F, 0xFF):
            yield ((0x37, [room]),)
    elif kind == 0x44:
        yield ((0x38, [0x00, 0x00]),)
        for status in ([0x01, 0x00], [0x82, 0x00], [0x03, 0x05], [0x87, 0x00], [0x07, 0x05]):
            yield ((0x38, status),)
        kinds = [[0x01, 0x00], [0x82, 0x00], [0x03, 0x05], [0x84, 0x00], [0x05, 0x00], [0x06, 0x05], [0x87, 0x00]]
        yield tuple((0x38, s) for s in kinds)
        yield tuple((0x38, s) for s in kinds[1::2])
    else:
        yield ()


TIMES = ["000010", "000020", "000090", "000001", "000095", "001000", "009500", "100000", "900000", "010000", "910000",
         "020000", "320000", "323595", "329595", "213454"]


def timer_forms():
    """Every form of a response to a timer command; the six high bits of the qualifier mean nothing."""
    for high in (0x00, 0xFC):
        for code in (0x00, 0x01):
            for timer in (1, 8):
                yield response([0x01, 0x27, high], [code], (0x24, [timer]))
                for action in (1, 2):
                    yield response([0x01, 0x27, high + action], [code], (0x24, [timer]), (0x25, b"\x00\x50\x00"))
        for action in range(4):
            for code in [0x30, 0x32, 0x36] + [0x24] * (action in (1, 2)):
                yield response([0xFE, 0x27, high + action], [code])
    for time in TIMES:
        for action in (1, 2):
            yield response([0x01, 0x27, action], [0x00], (0x24, [8]), (0x25, bytes.fromhex(time)))


def forms():
    """Every form that the paper lists."""
    yield from timer_forms()
    for kind in SEVEN:
        for code in [0x00, 0x01] + [0x02] * (kind == 0x42) + [0x07] * (kind == 0x40):
            for rest in followers(kind):
                yield response([0x01, kind, 0x01], [code], *rest)
        for code in (0x30, 0x32, 0x36):
            yield response([0xFE, kind, 0x00], [code])
        for cause in CAUSES.get(kind, []):
            yield response([0x7F, kind, 0x80], [0x3A, cause])
    for kind in OTHERS:
        for code in (0x31, 0x32):
            yield response([0x01, kind, 0x02], [code])
    for code in (0x31, 0x32, 0x36):
        yield response([0, 0, 0], [code])


def places(data):
    """The bytes to change: all, but of long data the ends and every tenth."""
    return [i for i in range(len(data)) if i < 30 or i >= len(data) - 12 or i % 10 == 0]


def changed(data):
    """The form with one byte changed by one, cut by its last byte, and with a byte added."""
    for i in places(data):
        for by in (1, 255):
            yield data[:i] + bytes([(data[i] + by) % 256]) + data[i + 1:]
    yield data[:-1]
    yield data + b"\x00"
    yield data + data[-1:]


def long_tags(data):
    """The form with each of its tags in three bytes, one at a time."""
    i = 0
    for tag, value in objects(data):
        yield data[:i] + bytes([0x7F, tag & 0x80, tag & 0x7F]) + data[i + 1:]
        i += len(tlv(tag, value))


def timer_sweeps():
    """Every result and qualifier of a timer command, every timer, every byte of a time, and what else may not follow."""
    one, time = (0x24, [0x01]), (0x25, b"\x00\x50\x00")
    for action in range(4):
        for code in range(256):
            yield response([0x01, 0x27, action], [code])
        for code in (0x02, 0x07, 0x24, 0x30, 0x31, 0x32, 0x36, 0x3A):
            yield response([0x01, 0x27, action], [code], one)
            yield response([0x01, 0x27, action], [code], one, time)
        for rest in ((time,), (time, one), (one, one), (one, time, time), (one, time, one), (one, one, time),
                     ((0xA4, [0x01]),), ((0xA4, [0x01]), time), (one, (0xA5, time[1])), (one, (0x26, time[1])),
                     ((0x24, []),), ((0x24, []), time), ((0x24, [1, 1]),), ((0x24, [1, 1]), time), (one, (0x37, [0x01]))):
            yield response([0x01, 0x27, action], [0x00], *rest)
            yield response([0x01, 0x27, action], [0x24], *rest)
        for n in (0, 1, 2, 4, 6):
            yield response([0x01, 0x27, action], [0x00], one, (0x25, b"\x10" * n))
        for timer in range(256):
            yield response([0x01, 0x27, action], [0x00], (0x24, [timer]), *([time] if action else []))
    for qualifier in range(256):
        for code in (0x00, 0x01, 0x24, 0x31, 0x36):
            yield response([0x01, 0x27, qualifier], [code], *((one,) if code < 0x02 else ()))
        yield response([0x01, 0x27, qualifier], [0x00], one, time)
    for byte in range(256):
        for value in ([byte, 0, 0], [0, byte, 0], [0, 0, byte], [byte, 0x95, 0x95], [0x32, byte, 0x95], [0x32, 0x95, byte]):
            yield response([0x01, 0x27, 0x02], [0x00], one, (0x25, value))
    for kind in EIGHT:
        yield response([0x01, kind, 0x01], [0x24])
        yield response([0x01, kind, 0x01], [0x00], one)
        yield response([0x01, kind, 0x01], [0x00], one, time)


def sweeps():
    """Every result of some types, every cause, every type, every status, and grants about their bounds."""
    yield from timer_sweeps()
    for kind in SEVEN + [0x00, 0x45]:
        for code in range(256):
            yield response([0x01, kind, 0x00], [code])
    for kind in (0x02, 0x27, 0x40, 0x41, 0x42, 0x43, 0x44):
        for cause in range(256):
            yield response([0x01, kind, 0x00], [0x3A, cause])
    for kind in range(256):
        for code in (0x00, 0x30, 0x31, 0x36):
            yield response([0x00, kind, 0x00], [code])
    for code in (0x00, 0x07, 0x30, 0x32, 0x3B):
        yield response([0x01, 0x40, 0x00], [code, 0x01])
        yield response([0x01, 0x40, 0x00], [code] * 3)
    yield response([0x01, 0x40, 0x00], [])
    for first in range(256):
        for second in (0x00, 0x01, 0x05):
            yield response([0x01, 0x44, 0x00], [0x00], (0x38, [first, second]))
            yield response([0x01, 0x40, 0x00], [0x00], (0x38, [first, second]), (0x35, b"\x03"), (0x39, b"\x05\xDC"))
    for grant in (0, 1, 255, 256, 257, 1499, 1500, 1501, 1536, 0x8001, 65535):
        yield response([0x01, 0x40, 0x00], [0x07], (0x38, [0x81, 0x00]), (0x35, b"\x03"), (0x39, grant.to_bytes(2, "big")))
    for bearer in range(256):
        for n in (0, 6):
            yield response([0x01, 0x40, 0x00], [0x00], (0x38, [0x81, 0x00]), (0x35, bytes([bearer]) + counted(n)), (0x39, b"\x00\x20"))
    for n in range(9):
        for bearer in (0x02, 0x03):
            yield response([0x01, 0x40, 0x00], [0x00], (0x38, [0x81, 0x00]), (0x35, bytes([bearer]) + counted(n)), (0x39, b"\x00\x20"))


def odd_forms():
    """Forms that are nearly those of the paper: data too long, lengths not the shortest, statuses that do not rise, objects in another order."""
    for n in (236, 237, 238, 239, 255):
        yield response([0x01, 0x42, 0x00], [0x00], (0x36, counted(n)), (0x37, [0x00]))
    head = response([0x01, 0x42, 0x00], [0x00])
    for n in (0, 1, 126, 127, 128, 200):
        for form in (b"\x81", b"\x82\x00", b"\x80"):
            yield head + b"\x36" + form + bytes([n]) + counted(n) + b"\x37\x01\x00"
    for n in (0x00, 0x01, 0x7F, 0x80, 0xFF):
        yield head + b"\x36\x81" + bytes([n])
    for numbers in ([1, 1], [2, 1], [1, 3, 2], [1, 2, 3, 4, 5, 6, 7, 7], [1, 2, 3, 4, 5, 6, 7, 8], [0, 1], [7, 1], [5, 6], [1, 7]):
        for established in (0x00, 0x80):
            yield response([0x01, 0x44, 0x00], [0x00], *((0x38, [n + established, 0x00]) for n in numbers))
    yield response([0x01, 0x44, 0x00], [0x00], (0x38, [0x00, 0x00]), (0x38, [0x01, 0x00]))
    yield response([0x01, 0x44, 0x00], [0x00], (0x38, [0x00, 0x00]), (0x38, [0x00, 0x00]))
    yield response([0x01, 0x44, 0x00], [0x00], (0x38, [0x01, 0x00]), (0x38, [0x00, 0x00]))
    yield response([0x01, 0x44, 0x00], [0x00], (0x38, [0x01, 0x00]), (0x38, [0x81, 0x00]))
    for n in (0, 1, 3):
        yield response([0x01, 0x44, 0x00], [0x00], (0x38, bytes(n)))
        yield response([0x01, 0x43, 0x00], [0x00], (0x37, bytes(n))) if n != 1 else response([0x01, 0x43, 0x00], [0x00])
    status, bearer, grant = (0x38, [0x81, 0x00]), (0x35, b"\x03"), (0x39, b"\x05\xDC")
    for rest in ((bearer, status, grant), (status, grant, bearer), (status, bearer), (status, grant), (status, bearer, grant, grant), (status, bearer, grant, status)):
        yield response([0x01, 0x40, 0x00], [0x00], *rest)
    for rest in (((0x37, [0]), (0x36, b"A")), ((0x36, b"A"),), ((0x37, [0]),), ((0x36, b"A"), (0x37, [0]), (0x37, [0])), ((0xB6, b"A"), (0x37, [0]))):
        yield response([0x01, 0x42, 0x00], [0x00], *rest)
    for kind in EIGHT:
        for other in SEVEN:
            for rest in list(followers(other))[:1]:
                yield response([0x01, kind, 0x00], [0x00], *rest)
                yield response([0x01, kind, 0x00], [0x32], *rest)
    for n in range(13):
        yield response([0x01, 0x02, 0x00], [0x00])[:n]
    yield b"\x81" + bytes(1599)
    yield tlv(0x81, counted(3)) * 200


def bodies(kind):
    """What a record of a type may have behind its destination."""
    if kind == 0x05:
        return [b"", b"\x09", b"\x09\x0A", counted(3)]
    if kind == 0x43:
        return [b"", b"A", counted(20)]
    if kind == 0x42:
        return [b"\x00", b"\x01", b"\xFF"]
    if kind == 0x40:
        long = b"\x02\x06" + counted(6)
        return [b"\x03\x00\x05\xDC", b"\x03\x00\x05\xDC\x02\x1F\x90", long + b"\x00\x01", long + b"\xFF\xFF\x01\xFF\xFE"]
    return [b""]


def records():
    """Records of every type, those that R7 refuses, and those whose number of bytes is wrong."""
    for kind in range(256):
        for destination in (0x82, 0x21):
            for body in bodies(kind):
                yield bytes([0xB0, 0x01, kind, 0x00, 0x81, destination]) + body
    for rest in (b"\x00", b"\x01", b"\x01\x00\x50\x00", b"\x24\x01\x01"):
        for source, destination in ((0x81, 0x82), (0x82, 0x81)):
            yield bytes([0xB0, 0x01, 0x27, 0x00, source, destination]) + rest
    for qualifier in range(4):
        yield bytes([0xB0, 0x01, 0x27, qualifier, 0x81, 0x82])
    for kind in SEVEN:
        fit = 0x82 if kind in TO_MODEM else 0x21
        for body in bodies(kind):
            for number, qualifier in ((0x00, 0x00), (0xFF, 0x01), (0x81, 0xFF), (0x01, 0x80)):
                yield bytes([0xB0, number, kind, qualifier, 0x81, fit]) + body
        for source in (0x00, 0x01, 0x20, 0x21, 0x27, 0x7F, 0x80, 0x82, 0x83, 0x91, 0xFF):
            yield bytes([0xB0, 0x01, kind, 0x00, source, fit]) + bodies(kind)[-1]
        for destination in range(256):
            yield bytes([0xB0, 0x01, kind, 0x00, 0x81, destination]) + bodies(kind)[0]
        for body in bodies(kind):
            whole = bytes([0xB0, 0x01, kind, 0x00, 0x81, fit]) + body
            for n in range(1, len(whole)):
                yield whole[:n]
            for n in range(1, 6):
                yield whole + counted(n)
    for kind, to in ((0x05, 0x82), (0x43, 0x27)):
        for n in list(range(112, 132)) + [0, 1, 239, 240, 241, 242, 243, 254, 255, 256, 497, 498, 1593, 1594]:
            yield bytes([0xB0, 0x01, kind, 0x00, 0x81, to]) + counted(n)
    yield bytes([0xB0, 0x01, 0x43, 0x00, 0x81, 0x82]) + counted(242)
    head = bytes([0xB0, 0x01, 0x40, 0x01, 0x81, 0x82])
    for bearer in list(range(0, 6)) + [0x82, 0x83, 0xFF]:
        for n in list(range(0, 10)) + [127, 128, 255]:
            for tail in (b"\x05\xDC", b"\x05\xDC\x02\x1F\x90"):
                yield head + bytes([bearer, n]) + counted(n) + tail
    for size in (0, 1, 255, 256, 1500, 1501, 32768, 65535):
        yield head + b"\x03\x00" + size.to_bytes(2, "big")
    for protocol in (0x00, 0x01, 0x02, 0xFF):
        for port in (0, 1, 255, 256, 8080, 65535):
            yield head + b"\x03\x00\x05\xDC" + bytes([protocol]) + port.to_bytes(2, "big")
    for n in (1, 6, 255):
        for have in range(n + 8):
            yield head + bytes([0x02, n]) + counted(have)


def others():
    """Lines that are unreadable, each in one way, and lines in small and mixed letters."""
    good = b"81030140018202828183010038028100350103390205DC"
    order = b"B00140018182030005DC021F90"
    for line in (good, order):
        for c in b" \t\r.,-+_GgZz/:@`xX\x00\x7f\x80\xff":
            for at in (0, 1, len(line) // 2, len(line)):
                yield line[:at] + bytes([c]) + line[at:]
                yield line[:at] + bytes([c, c]) + line[at:]
                yield line[:at] + bytes([c]) + line[at + 1:]
        for at in range(len(line)):
            yield line[:at] + line[at + 1:]
        yield line.lower()
        yield line.capitalize()
        yield line.swapcase()
        yield line[:7].lower() + line[7:]
        yield b"0x" + line
        yield line + b" "
        yield line + b"\r"
    for first in range(256):
        yield b"%02X" % first
        yield b"%02x" % first + order[2:]
    for line in (b"", b" ", b"8", b"B", b"81", b"b0", b"", b"--", b"R8", b"0"):
        yield line
    for n in (1599, 1600, 1601, 1602, 5000):
        yield b"81" + b"00" * (n - 1)
        yield b"B00105008182" + b"09" * (n - 6)
        yield b"B00143008121" + b"41" * (n - 6) + b"4"
    yield b"B0" * 35000


# Lines of timers with the answer, worked out by hand from the request.
BY_HAND = [
    (b"810301270082028281830100240101", "012700 00 01"),
    (b"810301270082028281830101240108", "012700 01 08"),
    (b"81037F27FC82028281830100240102", "7F27FC 00 02"),
    (b"8103012702820282818301002401012503005000", "012702 00 01 000500"),
    (b"8103012702820282818301002401012503004095", "012702 00 01 000459"),
    (b"8103012701820282818301002401012503004095", "012701 00 01 000459"),
    (b"8103012702820282818301012401032503323595", "012702 01 03 235359"),
    (b"8103012702820282818301002401032503329595", "012702 00 03 235959"),
    (b"8103012701820282818301002401082503000010", "012701 00 08 000001"),
    (b"81030127FE820282818301002401082503910290", "0127FE 00 08 192009"),
    (b"810301270182028281830124", "012701 24"),
    (b"810301270282028281830124", "012702 24"),
    (b"810301270082028281830124", "R8"),
    (b"810301270382028281830124", "R8"),
    (b"810301020082028281830124", "R8"),
    (b"8103012701820282818301242401012503004095", "R8"),
    (b"810301270082028281830130", "012700 30"),
    (b"810301270382028281830130", "012703 30"),
    (b"810301270282028281830131", "R8"),
    (b"810301270382028281830132", "012703 32"),
    (b"810301270382028281830136", "012703 36"),
    (b"810301260382028281830136", "R8"),
    (b"810301260382028281830131", "012603 31"),
    (b"810301270382028281830100", "R8"),
    (b"810301270382028281830100240101", "R8"),
    (b"8103012703820282818301012401012503004095", "R8"),
    (b"810301270082028281830100", "R8"),
    (b"8103012700820282818301002401012503004095", "R8"),
    (b"810301270182028281830100240101", "R8"),
    (b"81030127018202828183010025030040952401" b"01", "R8"),
    (b"810301270082028281830100A40101", "R8"),
    (b"810301270282028281830100240101A503004095", "R8"),
    (b"810301270082028281830100240100", "R8"),
    (b"810301270082028281830100240109", "R8"),
    (b"8103012702820282818301002401012503000000", "R8"),
    (b"8103012702820282818301002401012503420000", "R8"),
    (b"8103012702820282818301002401012503000600", "R8"),
    (b"8103012702820282818301002401012503000006", "R8"),
    (b"8103012702820282818301002401012503A00000", "R8"),
    (b"81030127028202828183010024010125030A0000", "R8"),
    (b"810301270282028281830102240101", "R8"),
    (b"810301270082028281830107240101", "R8"),
    (b"81030127008202828183023A01", "R8"),
    (b"B00127008182", "R7"),
    (b"B00127028182", "R7"),
    (b"B00127008282", "R7"),
    (b"B0012700818201", "R9"),
    (b"B0012700818201005000", "R9"),
]


def check(accepted):
    """What the paper says by hand."""
    assert answer(b"81030140018202828183010038028100350103390205DC") == "014001 00 8100 03 05DC"
    assert answer(b"8103014200820282818301023603414243370100") == "014200 02 414243 00"
    assert answer(b"B00140018182030005DC021F90") == "D015810301400182028182B50103B90205DC3C03021F90"
    for line, want in BY_HAND:
        assert answer(line) == want, line
    assert all(heard(f) != "R8" for f in accepted) and len(set(accepted)) == len(accepted)


def played():
    """The lines and their answers."""
    accepted = list(forms())
    check(accepted)
    responses = accepted + [c for f in accepted for c in changed(f)] + [c for f in accepted[::4] for c in long_tags(f)]
    responses += list(sweeps()) + list(odd_forms())
    orders = list(records())
    lines = [line for line, _ in BY_HAND]
    lines += [d.hex().upper().encode() for d in responses + orders] + list(others())
    lines.append(b"81030102008202828183010")
    lines.append(b"810301020082028281830100")
    answers = [answer(line) for line in lines]
    return b"\n".join(lines), "".join(a + "\n" for a in answers).encode("ascii")
