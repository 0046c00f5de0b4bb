#!/usr/bin/env python3
"""A model of the reader, written from the agreed scope and not from the code, that makes the answers of crates/cases/stdin.

    samples/model.py 'read - 00000000000000000000000000030600030806 16368'     prints the answer of a case
    samples/model.py < crates/cases/stdin                                      prints each line whose answer is another, and a count

It answers `read`, `structs`, `feed`, `part` and `entry` lines, as crates/replay/src/lib.rt describes them, and `malformed` to others.
It is slow and plain: feeding keeps the bytes that came, and looks at them from their start each time."""
import struct
import sys

ENOUGH = 16368
LENT = 0xA5


def crc8(data):
    crc = 0xFF
    for byte in data:
        crc ^= byte
        for _ in range(8):
            crc = (crc << 1 ^ (0x07 if crc & 0x80 else 0)) & 0xFF
    return crc


def crc32(data):
    crc = 0xFFFFFFFF
    for byte in data:
        crc ^= byte
        for _ in range(8):
            crc = crc >> 1 ^ (0x82F63B78 if crc & 1 else 0)
    return crc ^ 0xFFFFFFFF


class Refused(Exception):
    """An entry that is refused, with its number."""


def pack(*fields):
    """Bytes of (value, width) fields, most significant bit first."""
    bits = "".join(format(value, f"0{width}b") for value, width in fields)
    return bytes(int(bits[i : i + 8], 2) for i in range(0, len(bits), 8))


def least(entry, length):
    if len(entry) < length:
        raise Refused(8)


def ascii_name(data):
    end = data.find(0)
    if end < 0:
        raise Refused(9)
    try:
        data[:end].decode("utf-8")
    except UnicodeDecodeError:
        raise Refused(10) from None
    return data[:end]


def utf16(data):
    """The printable ASCII of UTF-16 text, with a '.' for each unpaired surrogate."""
    if len(data) % 2:
        raise Refused(11)
    units = struct.unpack(f"<{len(data) // 2}H", data)
    text, i = bytearray(), 0
    while i < len(units):
        unit = units[i]
        i += 1
        if 0xD800 <= unit < 0xDC00 and i < len(units) and 0xDC00 <= units[i] < 0xE000:
            i += 1
        elif 0xD800 <= unit < 0xE000:
            text += b"."
        elif 0x21 <= unit <= 0x7E:
            text.append(unit)
    return bytes([len(text)]) + text


def kind_of(adapters, number):
    return next((kind for n, kind in adapters if n == number), 0)


def adapter(e, kind):
    number = e[1] & 63
    if e[1] & 64:
        return 2, pack((number, 8))
    if kind in (2, 3):
        least(e, 5)
        return 3, pack((number, 8), (e[4] >> 6 & 1, 1), (0, 1), (e[4] & 63, 6))
    if kind == 1:
        least(e, 4)
        return 4, pack((e[2] >> 4 & 1, 1), (e[2] >> 7, 1), (number, 6), (e[3] & 63, 8))
    if kind in (4, 5):
        least(e, 3)
        return kind + 1, pack((number, 6), (e[2] & 7, 3), (e[2] >> 3 & 3, 2), (e[2] >> 5, 3), (0, 2))
    return 1, pack((e[1] >> 6 & 1, 1), (0, 1), (number, 6))


def usb3_map(e):
    maps = [e[i : i + 3] for i in range(2, len(e) - 2, 3)]
    fields = [(len(maps), 8)]
    for m0, m1, m2 in maps:
        fields += [(m0 & 15, 4), (m1 & 31, 5), (m1 >> 5 & 3, 2), (m1 >> 7, 1), (m2 & 63, 6), (m2 >> 7, 1), (0, 5)]
    return pack(*fields)


def dptx(e):
    least(e, 5)
    n, mh = e[3] & 15, e[3] >> 4 & 1
    least(e, 5 + n)
    fields = [(e[2] & 31, 5), (mh, 1), (0, 2), (n, 4), (e[3] >> 5, 3), (0, 1), (e[4] & 31 if mh else 0, 8)]
    for b in e[5 : 5 + n]:
        fields += [(b & 31, 5), (b >> 5, 3)]
    return pack(*fields)


def generic(e):
    kind = e[1] & 63
    if kind in (0x01, 0x02):
        least(e, 3)
        text = ascii_name(e[2:])
        return 7 + kind, bytes([len(text)]) + text
    if kind == 0x08:
        least(e, 3)
        mode, rate = e[2] & 3, e[2] >> 2 & 3
        return 10, bytes([0xFF if mode == 3 else mode, rate if rate in (1, 2) else 0])
    if kind == 0x09:
        least(e, 14)
        return 11, bytes(e[i] for i in (3, 2, 5, 4, 7, 6, 9, 8, 13, 12, 11, 10, 10))
    if kind == 0x0A:
        least(e, 4)
        return 12, bytes([e[3], e[2]]) + utf16(e[4:])
    if kind == 0x0B:
        return 13, usb3_map(e)
    if kind in (0x0C, 0x0D):
        return kind + 2, utf16(e[2:])
    if kind == 0x0E:
        least(e, 4)
        return 16, bytes([e[3] % 4])
    if kind == 0x0F:
        return 17, dptx(e)
    if kind == 0x10:
        least(e, 3)
        return 18, bytes([e[2] & 31])
    return 7, bytes([kind]) + e[2:]


def record(adapters, e, offset):
    if len(e) == 1:
        tag, payload = 0, b""
    elif e[1] & 128:
        tag, payload = adapter(e, kind_of(adapters, e[1] & 63))
    else:
        tag, payload = generic(e)
    return pack((tag, 8), (offset, 13), (len(e), 8), (0, 3)) + payload


def start_of(drom):
    return 22 if drom[13] < 3 else 16


def header_refusal(drom, size):
    """The number for a header whose 16 bytes are in, of a DROM of that size."""
    if (drom[14] + 256 * drom[15]) % 4096 + 13 != size:
        return 2
    return 3 if drom[13] < 3 and size < 22 else 0


def walk(adapters, drom, size):
    """(number, offset, records, places) of the entries that are in, of a DROM of that size."""
    at, records, places = start_of(drom), [], []
    while at < len(drom):
        length = drom[at]
        if length == 0:
            return 6, at, records, places
        if size < at + length:
            return 7, at, records, places
        if len(drom) < at + length:
            break
        try:
            records.append(record(adapters, drom[at : at + length], at))
        except Refused as refused:
            return refused.args[0], at, records, places
        places.append((at, at + length))
        at += length
    return 0, 0, records, places


def pairs(listed):
    return [(listed[i], listed[i + 1]) for i in range(0, len(listed), 2)]


def opening_refusal(listed, size, room):
    if len(listed) % 2:
        return 5
    if room < ENOUGH:
        return 4
    return 1 if size < 16 else 0


def report_of(listed, drom, room):
    """The report's words, and the records."""
    number = opening_refusal(listed, len(drom), room) or header_refusal(drom, len(drom))
    if number:
        return f"{number} 0 0 0 0 00000000 0 00 0000000000000000 0 0 0", b""
    number, offset, records, _ = walk(pairs(listed), drom, len(drom))
    tbt3 = drom[13] < 3
    stored = struct.unpack("<I", drom[9:13])[0]
    words = [number, offset, drom[13], len(drom) - 13, start_of(drom), f"{stored:08x}", int(crc32(drom[13:]) == stored)]
    if tbt3:
        words += [f"{drom[0]:02x}", drom[8:0:-1].hex(), int(crc8(drom[1:9]) == drom[0])]
    else:
        words += ["00", "0" * 16, 0]
    joined = b"".join(records)
    return " ".join(map(str, words + [len(records), len(joined)])), joined


def shown(data, room):
    """A lent buffer with these bytes at its front, without its tail of bytes as they were lent."""
    buffer = data + bytes([LENT]) * (room - len(data))
    return buffer.rstrip(bytes([LENT])).hex() or "-"


def read(listed, drom, room):
    words, records = report_of(listed, drom, room)
    return f"{words} {shown(records, room)}"


def fed_so_far(listed, came, size):
    """The records that are written once these bytes of an accepted opening came."""
    if len(came) < 16 or header_refusal(came, size):
        return []
    return walk(pairs(listed), came, size)[2]


def feed(listed, size, room, steps):
    refusal = opening_refusal(listed, size, room)
    announced = 0 if refusal else size
    lent, came, records, answers = room, b"", [], []
    for step in steps:
        if step[0] == "@":
            lent = min(int(step[1:]), room)
        elif step == "?":
            if refusal:
                words = f"{refusal} 0 0 0 0 00000000 0 00 0000000000000000 0 0 0"
            elif len(came) < announced:
                words = "13 0 0 0 0 00000000 0 00 0000000000000000 0 0 0"
            else:
                words = report_of(listed, came, room)[0]
            answers.append(f"finish {words}")
        else:
            piece = unhex(step)
            number = 4 if lent < ENOUGH else 12 if announced - len(came) < len(piece) else 0
            if number == 0:
                came += piece
                records = [] if refusal else fed_so_far(listed, came, size)
            answers.append(f"fed {number} {len(records)} {sum(map(len, records))}")
    return "; ".join(answers + [f"buffer {shown(b''.join(records), room)}"])


def header_is_right(drom):
    return len(drom) >= 16 and header_refusal(drom, len(drom)) == 0


def part(which, drom):
    if not header_is_right(drom):
        return "0 0"
    start = start_of(drom)
    first, end = {"header": (0, start), "body": (start, len(drom)), "whole": (0, len(drom))}[which]
    return f"{first} {end}" if first < end else "0 0"


def entry(listed, drom, n):
    if len(listed) % 2 or not header_is_right(drom):
        return "0 0"
    places = walk(pairs(listed), drom, len(drom))[3]
    return "{} {}".format(*places[n]) if n < len(places) else "0 0"


def unhex(word):
    return b"" if word == "-" else bytes.fromhex(word)


def answer(case):
    kind, *words = case.split(" ")
    if kind == "structs" and len(unhex(words[0])) % 2 or kind == "feed" and 2**64 <= int(words[1]):
        return "malformed"
    if kind in ("read", "structs"):
        return read(unhex(words[0]), unhex(words[1]), int(words[2]))
    if kind == "feed":
        return feed(unhex(words[0]), int(words[1]), int(words[2]), words[3:])
    if kind == "part":
        return part(words[0], unhex(words[1]))
    if kind == "entry":
        return entry(unhex(words[0]), unhex(words[1]), int(words[2]))
    return "malformed"


def compare(lines):
    compared = wrong = 0
    for line in lines:
        line = line.rstrip("\n")
        if not line or line[0] == "#":
            continue
        case, expected = line.split(" => ")
        compared += 1
        computed = answer(case)
        if computed != expected:
            wrong += 1
            print(f"{line} -> {computed}")
    print(f"{compared} compared, {wrong} wrong")


if __name__ == "__main__":
    if len(sys.argv) > 1:
        print(answer(sys.argv[1]))
    else:
        compare(sys.stdin)
