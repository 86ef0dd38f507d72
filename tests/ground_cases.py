"""Writes the cases of program ground_cases and what it must print for them, from document 01's rules as this script has them.
The rules are implemented here anew; the worked examples of documents 01, 002 and 001 are asserted before anything is written."""
import re
from casefile import Cases, hexed, number, refused

cases = Cases("ground_cases")

# --- wave heights: 1 to 6 digits, optionally a point and 1 to 3 digits, then only spaces ---

HEIGHT = re.compile(rb"(\d{1,6})(?:\.(\d{1,3}))? *")
BEGINS_ONE = re.compile(rb"\d{0,6}|\d{1,6}\.\d{0,3}|\d{1,6}(\.\d{1,3})? *")


def height(text):
    """The thousandths, or the place of refusal 16: the first byte that cannot continue, or the text's length."""
    for i in range(len(text)):
        if not BEGINS_ONE.fullmatch(text[:i + 1]):
            return None, i
    m = HEIGHT.fullmatch(text)
    return (int(m[1]) * 1000 + int((m[2] or b"0").ljust(3, b"0")), None) if m else (None, len(text))


def height_answer(text):
    value, bad = height(text)
    return refused(16, bad) if value is None else str(value)


def judgement(measured, limit):
    for text in (limit, measured):  # of two bad texts the limit's is refused
        if height(text)[0] is None:
            return refused(16, height(text)[1])
    return "passes" if height(measured)[0] <= height(limit)[0] else "too high"


def shown(text):
    return "`" + "".join(chr(b) if 32 <= b <= 126 else f"\\x{b:02x}" for b in text) + "`"


HEIGHTS = [
    b"2.5", b"10.0", b"0", b"0.0", b"000000.000", b"999999", b"999999.999", b"999999.999   ", b"1", b"12", b"123456",
    b"1.2", b"1.23", b"1.234", b"1.05", b"1.005", b"2.5 ", b"2.5     ", b"7 ", b"007.5",
    b"", b" ", b"    ", b".", b".5", b"2.", b"2. ", b"2 .5", b"2.5.1", b"1234567", b"1234567.8", b"1.2345", b"1.2345 ",
    b"-1", b"+1", b"1e3", b"1,5", b" 1", b"1 2", b"2.5 x", b"2.5  1", b"2.5\t", b"2.5\n", b"2.5\x00", b"\xb2", b"1\xff", b"/", b":", b"2..5",
]
JUDGEMENTS = [
    (b"10.0", b"2.5"), (b"2.5", b"2.5"), (b"2.5", b"10.0"), (b"2.500", b"2.5  "), (b"2.501", b"2.5"), (b"2.499", b"2.5"), (b"0", b"0"),
    (b"9", b"10"), (b"10", b"9"), (b"999999.999", b"999999.999"), (b"999999.999", b"999999.998"),
    (b"x", b"    "), (b"    ", b"2x"), (b"12x", b"3"), (b"3", b"12x"), (b"", b""), (b"2.", b""), (b"", b"2."), (b"1.2345", b"1"), (b"1", b"1.2345"),
]
assert judgement(b"10.0", b"2.5") == "too high" and judgement(b"2.5", b"2.5") == "passes"  # P6
assert height(b"2.5") == (2500, None) and height(b"    ") == (None, 0)  # 01's own, P7

for text in HEIGHTS:
    cases.add(f"height {shown(text)}", [text, b""], height_answer(text))
for measured, limit in JUDGEMENTS:
    cases.add(f"passes {shown(measured)} under {shown(limit)}", [measured, limit], judgement(measured, limit))

# --- triplet ids ---

LARGEST = 2147483647
WIDTHS = [0, 1, 2, 4]
ORDERS = {"L": "little", "M": "big"}


def triplet_read(data, order):
    """The three parts and the bytes taken, or the place of refusal 11: the bad part's first byte."""
    if not data or data[0] & 3:
        return None, 0
    at, parts = 1, []
    for shift in (6, 4, 2):
        width = WIDTHS[data[0] >> shift & 3]
        part = data[at:at + width]
        value = int.from_bytes(part, ORDERS[order])
        if len(part) < width or value > LARGEST:
            return None, at
        parts.append(value)
        at += width
    return parts, at


def triplet_bytes(ids, order):
    codes = [0 if v == 0 else 1 if v < 256 else 2 if v < 65536 else 3 for v in ids]
    out = bytes([codes[0] << 6 | codes[1] << 4 | codes[2] << 2])
    for v, code in zip(ids, codes):
        out += v.to_bytes(WIDTHS[code], ORDERS[order])
    return out


def triplet_write(room, at, ids, order):
    """The answer and the row afterwards, of a row of so many bytes EE."""
    row = bytes([0xee]) * room
    for i, v in enumerate(ids):
        if v > LARGEST:
            return refused(11, i + 1), row
    if at > room:
        return refused(13, at), row
    out = triplet_bytes(ids, order)
    if at + len(out) > room:
        return refused(14, at + len(out)), row
    return str(len(out)), row[:at] + out + row[at + len(out):]


# Document 002, table 18, and document 001, table 98: ids, and the bytes under `L`.
WORKED = [
    ((6, 260, 210), "64060401d2"), ((1, 0, 0), "4001"), ((29, 196, 14), "541dc40e"), ((26, 12, 18), "541a0c12"), ((5, 0, 0), "4005"),
    ((8, 260, 214), "64080401d6"), ((30, 198, 12), "541ec60c"), ((76, 52, 48), "544c3430"), ((3, 11, 111), "54030b6f"), ((5, 15, 2), "54050f02"),
    ((51, 15, 4), "54330f04"),
]
for ids, data in WORKED:
    assert hexed(triplet_bytes(ids, "L")) == data and triplet_read(bytes.fromhex(data), "L") == (list(ids), len(data) // 2)
assert hexed(triplet_bytes((6, 260, 210), "M")) == "64060104d2"
assert triplet_read(b"\x41\x01", "L") == (None, 0)  # P5

SIZES = [(0, 0, 0), (255, 256, 65535), (65536, 255, 256), (16777215, 16777216, 1), (LARGEST, LARGEST, LARGEST), (0, 7, 0), (0, 0, 300), (70000, 0, 9)]


def add_read(data, order):
    parts, at = triplet_read(data, order)
    answer = refused(11, at) if parts is None else "{} {} {}".format(*parts) + f" in {at}"
    cases.add(f"read {order} {hexed(data)}", [data, order.encode()], answer)


def add_write(room, at, ids, order):
    answer, row = triplet_write(room, at, ids, order)
    ask = order.encode() + number(at, 8) + b"".join(number(v, 4) for v in ids)
    cases.add(f"write {order} {ids[0]} {ids[1]} {ids[2]} at {at} of {room}", [number(room, 1), ask], f"{answer} row {hexed(row)}")


for order in ORDERS:
    for ids in [ids for ids, _ in WORKED] + SIZES:
        data = triplet_bytes(ids, order)
        n = len(data)
        add_read(data, order)
        add_write(n, 0, ids, order)
        add_write(n + 5, 3, ids, order)
        add_write(n + 2, 3, ids, order)  # one short
        add_write(4, 4, ids, order)  # at the row's end
        add_write(4, 5, ids, order)  # beyond it
    for data in [b"\x64\x06\x04\x01\xd2\x99\x99", b"\x80\x06\x00", b"\x80\x00\x06", b"\xc0\x06\x00\x00\x00", b"\xc0\x00\x00\x00\x06",
                 b"\xfc" + bytes(12), b"\x50\x01\x00", b"\x54\x00\x00\x00", b"\x00", b"\x00\x05", b"\xa8\x01\x00\x02\x00\x03\x00"]:
        add_read(data, order)  # bytes after it, longer forms, a present 0
    for data in [b"\x41\x01", b"\x42\x01", b"\x43\x01", b"\x01", b"\x03", b"\xff" + bytes(12), b"\x67\x06\x04\x01\xd2"]:
        add_read(data, order)  # bits that are to be zero
    for whole in [triplet_bytes((6, 260, 210), order), triplet_bytes((65536, 65536, 65536), order)]:
        for n in range(len(whole)):
            add_read(whole[:n], order)  # cut short
    large, small = (LARGEST + 1).to_bytes(4, ORDERS[order]), (9).to_bytes(4, ORDERS[order])
    for data in [b"\xc0" + large, b"\xfc" + small + large + small, b"\xfc" + small + small + large, b"\xfc" + large + large + large,
                 b"\xf0" + large + b"\x01", b"\xfc" + small + large + b"\x01", b"\xc0\xff\xff\xff\xff"]:
        add_read(data, order)  # a part too large, before a later one that is cut as well
    over = LARGEST + 1
    for ids in [(over, 1, 1), (1, over, 1), (1, 1, over), (over, over, over), (1, over, over), (4294967295, 0, 0)]:
        add_write(13, 0, ids, order)
        add_write(1, 2, ids, order)  # before the place, and before the room
    add_write(0, 0, (0, 0, 0), order)
    add_write(0, 1, (0, 0, 0), order)
    add_write(1, 0, (0, 0, 0), order)
    add_write(13, 2**64 - 1, (1, 2, 3), order)

# --- numbers of 1, 2, 4 and 8 bytes; one that is not wholly inside reads as 0, and is not written ---

BYTES = bytes([0x81, 0x02, 0xf3, 0x04, 0x95, 0x06, 0xe7, 0x08, 0xff])


def inside(length, at, width):
    return at + width <= length


for order in ORDERS:
    for width in (1, 2, 4, 8):
        for at in sorted({0, 1, 9 - width, 10 - width, 8, 9, 10, 2**64 - 1}):
            value = int.from_bytes(BYTES[at:at + width], ORDERS[order]) if inside(9, at, width) else 0
            cases.add(f"number {order} {width} at {at} of {hexed(BYTES)}", [BYTES, order.encode() + number(width, 1) + number(at, 8)], str(value))
            put = 0x0123456789abcdef % 256**width
            row = bytearray(b"\xee" * 9)
            if inside(9, at, width):
                row[at:at + width] = put.to_bytes(width, ORDERS[order])
            ask = order.encode() + number(width, 1) + number(at, 8) + number(put, 8)
            cases.add(f"make {order} {width} at {at} of 9 {put}", [number(9, 1), ask], f"row {hexed(row)}")

# --- field types: letter, bytes of an element, whether `*` and other counts are allowed, null ---

TYPES = {"T": (1, True), "L": (1, True), "F": (4, False), "R": (8, False), "S": (2, False), "I": (4, False), "C": (8, True), "Z": (12, True),
         "B": (16, True), "Y": (24, True), "D": (20, False), "X": (0, False), "K": (0, False)}
NULLS = {"S": "-32768", "I": "-2147483648", "F": "NaN", "R": "NaN"}


def yes(answer):
    return " yes" if answer else " no"


for byte in range(256):
    answer = "unlisted"
    if chr(byte) in TYPES:
        width, many = TYPES[chr(byte)]
        counts = [many] + [1 <= n <= 65535 if many else n == 1 for n in (0, 1, 2, 65535, 65536, 4294967295)]
        answer = (f"{width}{yes(many)} null {NULLS.get(chr(byte), 'none')} counts{''.join(map(yes, counts))}"
                  f" I{yes(byte == ord('I'))} K{yes(byte == ord('K'))}")
    cases.add(f"letter {byte}", [bytes([byte]), b""], answer)

for kind, width, values in [
        ("S", 2, [0x8000, 0x7fff, 0x8001, 0, 0xffff]), ("I", 4, [0x80000000, 0x7fffffff, 0x80000001, 0, 0xffffffff]),
        ("F", 4, [0, 0x80000000, 0x3f800000, 0x7f7fffff, 0x7f800000, 0xff800000, 0x7f800001, 0xff800001, 0x7fc00000, 0xffffffff]),
        ("R", 8, [0, 2**63, 0x3ff0000000000000, 0x7fefffffffffffff, 0x7ff0000000000000, 0xfff0000000000000, 0x7ff0000000000001,
                  0xfff0000000000001, 0x7ff8000000000000, 2**64 - 1])]:
    for value in values:
        if kind in "SI":
            null = value == 1 << (8 * width - 1)
        else:  # a NaN: the exponent all ones, the fraction not zero
            fraction = 23 if kind == "F" else 52
            ones = 2**(8 * width - 1 - fraction) - 1
            null = value >> fraction & ones == ones and value % 2**fraction != 0
        cases.add(f"value {kind} {value:0{2 * width}x} null", [number(value, width), kind.encode()], "yes" if null else "no")

(cases.crate / "stdout").write_text(cases.write())
