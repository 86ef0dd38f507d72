"""Writes the cases of program table_cases and what it must print for them: tables with their index, rows, values and rectangles by
document 01's rules, implemented here anew over header_rules. What each case is made for is asserted before anything is written."""
import itertools
import math
import struct
from casefile import Cases, number, refused
from header_rules import ID, MOST_COLUMNS, ORDERS, WIDTHS, Refused, column, header, read, row_width, table

MOST_ROWS = 1000000
LARGEST_PART = 2**31 - 1

# --- opening ---


class Table:
    """A table opened with its index; Refused where it is not."""

    def __init__(self, file, index, most):
        letter, length, self.columns = read(file)
        self.file, self.start = file, length + 4
        self.order, self.mark = ORDERS[letter], ">" if letter == "M" else "<"
        most = min(most, MOST_ROWS)
        varies = any(c.kind == "K" or c.count == "*" for c in self.columns)
        self.bounds = self.indexed(index, length, most) if varies else self.fixed(index, most)
        self.rows = len(self.bounds) - 1

    def fixed(self, index, most):
        rows, rest = divmod(len(self.file) - self.start, row_width(self.columns))
        if rows > most:
            raise Refused(15, 0)
        if rest or index:
            raise Refused(7, len(self.file))
        return [self.start + k * row_width(self.columns) for k in range(rows + 1)]

    def indexed(self, index, length, most):
        if len(index) < 8:
            raise Refused(8, 0)
        n, size = struct.unpack(self.mark + "II", index[:8])
        if n > most:
            raise Refused(15, 0)
        if len(index) != 8 + 8 * n or size not in (length, length + 4):
            raise Refused(8, 0)
        bounds = [self.start]
        for k, (offset, length) in enumerate(struct.iter_unpack(self.mark + "II", index[8:]), 1):
            if offset != bounds[-1]:
                raise Refused(8, k)
            bounds.append(offset + length)
        if bounds[-1] != len(self.file):
            raise Refused(8, n)
        return bounds

    def row(self, i):
        """The values of row i with the coordinates of each column, or Refused."""
        if not 1 <= i <= self.rows:
            raise Refused(13, i)
        fields = Fields(self, i)
        values = [fields.value(c) for c in self.columns]
        if fields.at != fields.end:
            raise Refused(10, i)
        if fields.id != i:
            raise Refused(9, i)
        return values

    # what the program prints of a row, of a value and of a rectangle

    def value(self, i, k):
        if not 1 <= i <= self.rows:
            raise Refused(13, i)
        if not 1 <= k <= len(self.columns):
            raise Refused(13, k)
        return self.row(i)[k - 1][0]

    def rectangle(self, i, k):
        if not 1 <= i <= self.rows:
            raise Refused(13, i)
        if not 1 <= k <= len(self.columns) or self.columns[k - 1].kind not in "CZBY":
            raise Refused(13, k)
        tuples = self.row(i)[k - 1][1]
        if not tuples:
            raise Refused(12, 0)
        for place, (x, y, *_) in enumerate(tuples, 1):
            if not (math.isfinite(x) and math.isfinite(y)):
                raise Refused(12, place)
        xs, ys = [t[0] for t in tuples], [t[1] for t in tuples]
        name, letter = ("f32", "f") if self.columns[k - 1].kind in "CZ" else ("f64", "d")
        # min and max keep the first of equals
        return " ".join([name] + [struct.pack(">" + letter, v).hex() for v in (min(xs), min(ys), max(xs), max(ys))])


class Fields:
    """The fields of a row, taken one after the other."""

    def __init__(self, table, i):
        self.table, self.i, self.at, self.end, self.id = table, i, table.bounds[i - 1], table.bounds[i], None

    def take(self, n):
        if self.end - self.at < n:
            raise Refused(10, self.i)
        self.at += n
        return self.table.file[self.at - n:self.at]

    def unpack(self, letters):
        return struct.unpack(self.table.mark + letters, self.take(struct.calcsize("=" + letters)))

    def triplet(self):
        first, ids = self.at, []
        if self.at == self.end:
            raise Refused(11, 0)
        kind = self.take(1)[0]
        if kind % 4:
            raise Refused(11, 0)
        for shift in (6, 4, 2):
            place, bytes_ = self.at - first, (0, 1, 2, 4)[kind >> shift & 3]
            if self.end - self.at < bytes_:
                raise Refused(11, place)
            part = int.from_bytes(self.take(bytes_), self.table.order)
            if part > LARGEST_PART:
                raise Refused(11, place)
            ids.append(part)
        return "triplet " + " ".join(map(str, ids))

    def value(self, c):
        """What the program prints of a value, and its coordinates."""
        if c.kind == "K":
            return self.triplet(), None
        count = self.unpack("I")[0] if c.count == "*" else int(c.count)
        place = self.at
        if c.kind in "SI":
            value = self.unpack("h" if c.kind == "S" else "i")[0]
            if c.name.lower() == "id":
                self.id = value
            word, null = ("short", -2**15) if c.kind == "S" else ("integer", -2**31)
            return f"{word} {'null' if value == null else value}", None
        if c.kind in "FR":
            data = self.take(WIDTHS[c.kind])
            value = struct.unpack(self.table.mark + ("f" if c.kind == "F" else "d"), data)[0]
            pattern = int.from_bytes(data, self.table.order).to_bytes(len(data), "big").hex()
            return f"{'float' if c.kind == 'F' else 'double'} {'null ' if math.isnan(value) else ''}{pattern}", None
        if c.kind == "X":
            return "empty", None
        data = self.take(count * WIDTHS[c.kind])
        if c.kind in "TLD":
            return f"{'date' if c.kind == 'D' else 'text'} `{data.decode()}` at {place}", None
        letters = {"C": "ff", "Z": "fff", "B": "dd", "Y": "ddd"}[c.kind]
        return f"coordinates {data.hex()} at {place}", list(struct.iter_unpack(self.table.mark + letters, data))


def said(ask, *numbers):
    try:
        return ask(*numbers)
    except Refused as q:
        return refused(*q.args)


def answer(opened):
    def between(i):
        opened.row(i)
        return f"from {opened.bounds[i - 1]} to {opened.bounds[i]}"
    lines = [f"opened, rows {opened.rows}"]
    for i in range(opened.rows + 2):
        lines.append(f"  row {i} {said(between, i)}")
        asked = range(len(opened.columns) + 2) if 1 <= i <= opened.rows else [1]
        lines += [f"    {k} {said(opened.value, i, k)} | {said(opened.rectangle, i, k)}" for k in asked]
    return "\n".join(lines)


# --- the cases ---

cases, long = Cases("table_cases"), Cases("table_cases", "long")


def add(label, file, index=b"", says=None, most=None, to=cases):
    """A table with its index. `says` is what the case is made for: the refusal of the opening; or (row, column, what is said of the
    value, or of the rectangle), or a list of such."""
    try:
        opened = Table(file, index, MOST_ROWS if most is None else most)
        printed = answer(opened)
        for i, k, known in says if isinstance(says, list) else [says] if says else []:
            assert known in (said(opened.value, i, k), said(opened.rectangle, i, k)), (label, said(opened.value, i, k), said(opened.rectangle, i, k))
    except Refused as q:
        printed = refused(*q.args)
        assert says == printed, (label, printed)
    to.add(label, [file, index, b"" if most is None else number(most, 8)], printed)


def mark(letter):
    return ">" if letter == "M" else "<"


def indexed(text, rows, n=None, size=0, entries={}):
    """A table file of these rows and its index; `n`, a `size` past L, and `entries`, {k: what to add to offset and length}, make a wrong one."""
    letter, length = text[0], len(text)
    ends = list(itertools.accumulate(map(len, rows), initial=length + 4))
    index = struct.pack(mark(letter) + "II", len(rows) if n is None else n, length + size)
    for k, row in enumerate(rows, 1):
        more = entries.get(k, (0, 0))
        index += struct.pack(mark(letter) + "II", (ends[k - 1] + more[0]) % 2**32, (len(row) + more[1]) % 2**32)
    return table(text, rows=b"".join(rows)), index


def ids(letter, i):
    return struct.pack(mark(letter) + "i", i)


# Each type in both byte orders, with its null and its edges.
F32 = [0x3fc00000, 0x00000000, 0x80000000, 0x7f800000, 0xff800000, 0x7fc00000, 0xffc00000, 0x7f800001, 0xff800001, 0x7fffffff, 0x7f7fffff, 0x00000001]
F64 = [0x3ff8 << 48, 0, 1 << 63, 0x7ff0 << 48, 0xfff0 << 48, 0x7ff8 << 48, 0xfff8 << 48, (0x7ff0 << 48) + 1, (0xfff0 << 48) + 1, 2**63 - 1, (0x7ff0 << 48) - 1, 1]
for letter in "LM":
    m = mark(letter)
    S, I = [-2**15, -2**15 + 1, -1, 0, 2**15 - 1], [-2**31, -2**31 + 1, -1, 0, 2**31 - 1]
    text = header(ID, *[column(f"s{k}", "S") for k in range(5)], *[column(f"i{k}") for k in range(5)], letter=letter)
    add(f"S and I under {letter}", table(text, rows=ids(letter, 1) + struct.pack(m + "5h5i", *S, *I)),
        says=[(1, 2, "short null"), (1, 3, "short -32767"), (1, 7, "integer null"), (1, 8, "integer -2147483647"), (1, 11, "integer 2147483647")])
    text = header(ID, *[column(f"f{k}", "F") for k in range(12)], *[column(f"r{k}", "R") for k in range(12)], letter=letter)
    add(f"F and R under {letter}", table(text, rows=ids(letter, 1) + struct.pack(m + "12I12Q", *F32, *F64)),
        says=[(1, 2, "float 3fc00000"), (1, 4, "float 80000000"), (1, 5, "float 7f800000"), (1, 7, "float null 7fc00000"), (1, 10, "float null ff800001"),
              (1, 16, "double 8000000000000000"), (1, 19, "double null 7ff8000000000000"), (1, 22, "double null fff0000000000001")])
    text = header(ID, column("t", "T", "5"), column("l", "L", "1"), column("d", "D"), column("x", "X"), column("c", "C", "2"), column("z", "Z"),
                  column("b", "B"), column("y", "Y"), letter=letter)
    row = b"NO;1," + b"L" + b"20261115082100.00000" + struct.pack(m + "4f3f2d3d", 1.5, -2.0, -1.5, 3.0, 7.0, 8.0, math.nan, 0.1, 0.2, -0.1, -0.2, math.inf)
    add(f"T, L, D, X, C, Z, B, Y under {letter}", table(text, rows=ids(letter, 1) + row + ids(letter, 2) + row),
        says=[(1, 2, f"text `NO;1,` at {len(text) + 8}"), (1, 5, "empty"), (1, 6, "f32 bfc00000 c0000000 3fc00000 40400000"), (2, 7, "f32 40e00000 41000000 40e00000 41000000"),
              (2, 8, "f64 3fb999999999999a 3fc999999999999a 3fb999999999999a 3fc999999999999a"), (2, 9, "f64 bfb999999999999a bfc999999999999a bfb999999999999a bfc999999999999a")])
    stars = [column("t", "T", "*"), column("l", "L", "*"), column("c", "C", "*"), column("z", "Z", "*"), column("b", "B", "*"), column("y", "Y", "*")]
    text = header(ID, *stars, letter=letter)
    row = struct.pack(m + "I3sI1sI2fI6fI4dI3d", 3, b"abc", 1, b"L", 1, 1.0, 2.0, 2, 3.0, 4.0, 0.0, 1.0, 9.0, 0.0, 2, 1.0, 4.0, 2.0, 3.0, 1, 5.0, 6.0, 0.0)
    file, index = indexed(text, [ids(letter, 1) + row, ids(letter, 2) + bytes(24), ids(letter, 3) + row])
    add(f"`*` of each type under {letter}, and counts of 0", file, index,
        says=[(1, 2, f"text `abc` at {len(text) + 12}"), (1, 5, "f32 3f800000 40800000 40400000 41100000"), (2, 3, f"text `` at {len(text) + 4 + len(row) + 4 + 12}"), (2, 4, refused(12, 0)),
              (3, 6, "f64 3ff0000000000000 4008000000000000 4000000000000000 4010000000000000")])

# K in all lengths: every type byte but 0, a column each, in both orders.
WIDTH = (0, 1, 2, 4)
for letter in "LM":
    text = header(ID, *[column(f"k{k}", "K") for k in range(1, 64)], letter=letter)
    row = ids(letter, 1)
    for k in range(1, 64):
        row += bytes([k << 2])
        for shift in (4, 2, 0):
            width = WIDTH[k >> shift & 3]
            row += (k + {0: -k, 1: 0, 2: 1000, 4: 100000}[width]).to_bytes(width, ORDERS[letter])
    add(f"K in each form under {letter}", *indexed(text, [row]), says=[(1, 2, "triplet 0 0 1"), (1, 7, "triplet 0 6 1006"), (1, 64, "triplet 100063 100063 100063")])

# As many columns as a table can have, of one width and with an index: each is found at its place, the last too.
M = MOST_COLUMNS
for letter in "LM":
    shorts = [column(f"s{k}", "S") for k in range(2, M)]
    rows = [ids(letter, i) + struct.pack(f"{mark(letter)}{M - 2}h", *range(100 * i + 2, 100 * i + M)) for i in (1, 2)]
    text = header(ID, *shorts, column("last", "T", "3"), letter=letter)
    add(f"{M} columns of fixed width under {letter}", table(text, rows=b"".join(r + b"end" for r in rows)),
        says=[(1, 2, "short 102"), (2, M - 1, f"short {200 + M - 1}"), (2, M, f"text `end` at {len(text) + 4 + 2 * len(rows[0]) + 3}"), (2, M + 1, refused(13, M + 1))])
    add(f"{M} columns with an index under {letter}", *indexed(header(ID, *shorts, column("last", "K"), letter=letter), [r + b"\x40\7" for r in rows]),
        says=[(1, M - 1, f"short {100 + M - 1}"), (2, M, "triplet 7 0 0"), (2, M + 1, refused(13, M + 1))])
    add(f"{M} columns, the last cut short, under {letter}", *indexed(header(ID, *shorts, column("last", "K"), letter=letter), [r + b"\x40" for r in rows]),
        says=[(1, 1, refused(11, 1)), (2, M, refused(11, 1))])

# The opening: a fixed width.
FIXED = header(ID, column("s", "S"))
for size in range(8):
    add(f"fixed rows of 6, a body of {size}", table(FIXED, rows=(ids("L", 1) + b"\5\0\2\0")[:size]),
        says=None if size % 6 == 0 else refused(7, len(FIXED) + 4 + size))
for size in (1, 7, 8):
    add(f"an index of {size} bytes for fixed rows", table(FIXED, rows=ids("L", 1) + b"\5\0"), bytes(size), says=refused(7, len(FIXED) + 10))
add("an index for a fixed table without rows", table(FIXED), struct.pack("<II", 0, len(FIXED)), says=refused(7, len(FIXED) + 4))
three = b"".join(ids("L", k) + b"\5\0" for k in (1, 2, 3))
add("3 rows for a caller of 3", table(FIXED, rows=three), most=3)
add("3 rows for a caller of 2", table(FIXED, rows=three), most=2, says=refused(15, 0))
add("15 before 7: 3 rows and a rest for a caller of 2", table(FIXED, rows=three + b"\0"), most=2, says=refused(15, 0))
add("2 rows and a rest for a caller of 2", table(FIXED, rows=three[:-1]), most=2, says=refused(7, len(FIXED) + 21))
add("15 before 7: a lent index and too many rows", table(FIXED, rows=three), b"\0", most=2, says=refused(15, 0))
add("no rows for a caller of 0", table(FIXED), most=0)

# The opening: an index.
VARIES = header(ID, column("t", "T", "*"))


def worded(i, word, letter="L"):
    return ids(letter, i) + struct.pack(mark(letter) + "I", len(word)) + word


two = [worded(1, b"Skagerrak"), worded(2, b"")]
for letter in "LM":
    text = header(ID, column("t", "T", "*"), letter=letter)
    rows = [worded(1, b"Skagerrak", letter), worded(2, b"", letter)]
    for size, name in [(0, "L"), (4, "L + 4")]:
        add(f"header size {name} under {letter}", *indexed(text, rows, size=size), says=(1, 2, f"text `Skagerrak` at {len(text) + 12}"))
    for size, name in [(1, "L + 1"), (3, "L + 3"), (5, "L + 5"), (8, "L + 8"), (-1, "L - 1"), (-4, "L - 4"), (2**16, "L + 65,536")]:
        add(f"header size {name} under {letter}", *indexed(text, rows, size=size), says=refused(8, 0))
    add(f"an index without rows under {letter}", *indexed(text, []))
    add(f"an index without rows, header size L + 4, under {letter}", *indexed(text, [], size=4))
file, index = indexed(VARIES, two)
for size in range(len(index) + 1):
    add(f"index cut to {size} bytes", file, index[:size], says=None if size == len(index) else refused(8, 0))
add("index with a byte more", file, index + b"\0", says=refused(8, 0))
add("no rows in the index and a byte more", table(VARIES), indexed(VARIES, [])[1] + b"\0", says=refused(8, 0))
add("no rows in the index, a row in the file", file, indexed(VARIES, [])[1], says=refused(8, 0))
add("an index in the other order", file, indexed(header(ID, column("t", "T", "*"), letter="M"), [worded(1, b"Skagerrak", "M"), worded(2, b"", "M")])[1], says=refused(15, 0))
add("an indexed table without an index", file, says=refused(8, 0))
add("a table of K without an index", table(header(ID, column("k", "K"))), says=refused(8, 0))
for n in (MOST_ROWS, MOST_ROWS + 1, 2**31, 2**32 - 1):
    says = refused(8 if n <= MOST_ROWS else 15, 0)
    add(f"n of {n}", *indexed(VARIES, two, n=n), says=says)
    add(f"n of {n} for a caller of any number", *indexed(VARIES, two, n=n), most=2**64 - 1, says=says)
add("n of 3 for a caller of 2, and a wrong length", *indexed(VARIES, two, n=3), most=2, says=refused(15, 0))
add("n of 2 for a caller of 2", *indexed(VARIES, two), most=2)
add("n of 2 for a caller of 1", *indexed(VARIES, two), most=1, says=refused(15, 0))
add("8 at 0 before 15: 7 bytes, n of 2^32 - 1", file, b"\xff" * 7, says=refused(8, 0))
five = [worded(k, b"x" * k) for k in range(1, 6)]
for k in range(1, 6):
    for more in (1, -1):
        add(f"entry {k} starts {more} off", *indexed(VARIES, five, entries={k: (more, 0)}), says=refused(8, k))
        add(f"entry {k} is {more} longer", *indexed(VARIES, five, entries={k: (0, more)}), says=refused(8, k + 1 if k < 5 else 5))
add("entries 2 and 4 start off", *indexed(VARIES, five, entries={2: (1, 0), 4: (1, 0)}), says=refused(8, 2))
add("entries out of order", indexed(VARIES, five)[0], index=(lambda i: i[:8] + i[16:24] + i[8:16] + i[24:])(indexed(VARIES, five)[1]), says=refused(8, 1))
add("a sum of offset and length past 2^32", *indexed(VARIES, two, entries={1: (0, -len(two[0]) - 4)}), says=refused(8, 2))
add("a sum that comes round to the next offset", *indexed(VARIES, two, entries={1: (0, 2**32 - 1 - len(two[0])), 2: (-len(two[0]) - 1, 0)}), says=refused(8, 2))
file, index = indexed(VARIES, [worded(1, b"a"), worded(2, b"b")])
beyond = len(VARIES) + 4 + 2**31
round_about = struct.pack("<4I", len(VARIES) + 4, 2**31, beyond, (len(file) - beyond) % 2**32)
add("a last end past 2^32 that comes round to the file's end", file, index[:8] + round_about, says=refused(8, 2))
add("a last length of 2^32 - 1", file, index[:-4] + struct.pack("<I", 2**32 - 1), says=refused(8, 2))
add("the first offset 0 and a sum past 2^32", file, index[:8] + struct.pack("<II", 0, 2**32 - 1) + index[16:], says=refused(8, 1))
add("the file a byte longer than the last row", file + b"\0", index, says=refused(8, 2))
add("the file a byte shorter than the last row", file[:-1], index, says=refused(8, 2))
add("a row before the last runs past the file", *indexed(VARIES, five, entries={3: (0, 1000)}), says=refused(8, 4))
add("a row of no bytes", *indexed(VARIES, [worded(1, b"a"), b"", worded(3, b"b")]), says=[(1, 2, f"text `a` at {len(VARIES) + 12}"), (2, 1, refused(10, 2)), (3, 1, "integer 3")])

# Rows: 10 in each field, `*` counts, 11, not used up, 9.
SEVERAL = header(column("s", "S"), column("t", "T", "*"), column("k", "K"), ID, column("c", "C", "*"))
row = struct.pack("<hI2s", 7, 2, b"ab") + b"\x64\x06\x04\x01\xd2" + ids("L", 1) + struct.pack("<I2f", 1, 1.0, 2.0)
assert len(row) == 29
CUTS = {**dict.fromkeys(range(8), (10, 1)), 8: (11, 0), 9: (11, 1), 10: (11, 2), 11: (11, 2), 12: (11, 4), **dict.fromkeys(range(13, 29), (10, 1))}
for size in range(29):
    add(f"a row cut to {size} bytes", *indexed(SEVERAL, [row[:size]]), says=[(1, 1, refused(*CUTS[size])), (1, 5, refused(*CUTS[size]))])
add("the whole row", *indexed(SEVERAL, [row]), says=[(1, 1, "short 7"), (1, 3, "triplet 6 260 210"), (1, 5, "f32 3f800000 40000000 3f800000 40000000")])
add("a row with a byte more", *indexed(SEVERAL, [row + b"\0"]), says=(1, 1, refused(10, 1)))
add("10 before 9: a byte more and a wrong id", *indexed(SEVERAL, [row[:13] + ids("L", 2) + row[17:] + b"\0"]), says=(1, 1, refused(10, 1)))
add("11 before 10: a bad triplet and a byte more", *indexed(SEVERAL, [row[:8] + b"\x41" + row[9:] + b"\0"]), says=(1, 1, refused(11, 0)))
add("10 before 11: a count too large before a bad triplet", *indexed(SEVERAL, [row[:2] + b"\xff" + row[3:8] + b"\x41" + row[9:]]), says=(1, 3, refused(10, 1)))
add("11 before 9", *indexed(SEVERAL, [row[:8] + b"\x65" + row[9:13] + ids("L", 2) + row[17:]]), says=(1, 1, refused(11, 0)))
for wrong in (0, 2, -1, -2**31, 2**24):
    add(f"id {wrong} in row 1", *indexed(SEVERAL, [row[:13] + ids("L", wrong) + row[17:]]), says=(1, 3, refused(9, 1)))
    add(f"id {wrong} in row 1 of fixed rows", table(FIXED, rows=ids("L", wrong) + b"\5\0" + ids("L", 2) + b"\5\0"), says=[(1, 2, refused(9, 1)), (2, 2, "short 5")])
add("two rows changed about", *indexed(VARIES, [worded(2, b"a"), worded(1, b"b"), worded(3, b"c")]), says=[(1, 2, refused(9, 1)), (2, 2, refused(9, 2)), (3, 1, "integer 3")])
for kind in "TCZBY":
    text = header(ID, column("a", kind, "*"))
    for count in (0, 1, 2, 2**28, 2**29, 2**30, 2**31, 2**32 - 1):
        body = bytes(WIDTHS[kind]) if kind != "T" else b"a"
        right = count == 1
        add(f"{kind},* with a count of {count} over one element", *indexed(text, [ids("L", 1) + struct.pack("<I", count) + body]), says=(1, 1, "integer 1" if right else refused(10, 1)))
K = header(ID, column("k", "K"))
for label, data, place in [("type byte 41", b"\x41\x01", 0), ("type byte 42", b"\x42\x01", 0), ("type byte 43", b"\x43\x01", 0), ("id of 2^31", b"\xc0\0\0\0\x80", 1), ("tile of 2^31", b"\x70\x01\0\0\0\x80", 2),
                           ("external id of 2^32 - 1", b"\x5c\x01\x02\xff\xff\xff\xff", 3), ("external id cut", b"\x5c\x01\x02\xff\xff\xff", 3), ("tile cut", b"\x60\x01\x02", 2), ("id cut", b"\x80\x01", 1),
                           ("id too large, tile cut", b"\xf0\xff\xff\xff\xff\x01", 1), ("no byte", b"", 0)]:
    add(f"K, {label}", *indexed(K, [ids("L", 1) + data]), says=(1, 2, refused(11, place)))
add("K of the largest parts, and one not in its shortest form", *indexed(K, [ids("L", 1) + b"\xfc" + 3 * b"\xff\xff\xff\x7f", ids("L", 2) + b"\xfc" + bytes(12)]),
    says=[(1, 2, "triplet 2147483647 2147483647 2147483647"), (2, 2, "triplet 0 0 0")])
add("K cut although the file goes on", *indexed(K, [ids("L", 1) + b"\x80\x01", ids("L", 2) + b"\x00"]), says=[(1, 2, refused(11, 1)), (2, 2, "triplet 0 0 0")])

# Document 002, table 18, with the comma put in.
EDGE = ("L;Edge Primitive Table;-;id=I,1,P,Row Identifier,-,-,-,:*.lft_id=I,1,N,Line Feature Table ID,-,-,-,:start_node=I,1,N,Start/Left Node,-,-,-,:"
        "end_node=I,1,N,End/Right Node,-,-,-,:right_face=K,1,N,Right Face,-,-,-,:left_face=K,1,N,Left Face,-,-,-,:"
        "right_edge=K,1,N,Right Edge from End Node,-,-,-,:left_edge=K,1,N,Left Edge from Start Node,-,-,-,:coordinates=Z,*,N,Coordinates of Edge,-,-,-,:;")
assert len(EDGE) == 389


def triplet(*parts, letter="L"):
    """In its shortest form."""
    widths = [0 if p == 0 else 1 if p < 256 else 2 if p < 65536 else 4 for p in parts]
    kind = sum(WIDTH.index(w) << s for w, s in zip(widths, (6, 4, 2)))
    return bytes([kind]) + b"".join(p.to_bytes(w, ORDERS[letter]) for p, w in zip(parts, widths))


def edge(letter, numbers, triplets, tuples):
    row = struct.pack(mark(letter) + "4i", *numbers) + b"".join(triplet(*t, letter=letter) for t in triplets)
    return row + struct.pack(f"{mark(letter)}I{len(tuples) * 3}f", len(tuples), *itertools.chain(*tuples))


for letter in "LM":
    rows = [edge(letter, (1, 1, 1, 2), [(6, 260, 210), (1, 0, 0), (29, 196, 14), (26, 12, 18)], [(-10.00, 45.00, 9.90)]),
            edge(letter, (2, 2, 3, 5), [(5, 0, 0), (8, 260, 214), (30, 198, 12), (76, 52, 48)], [(-7.70, 43.69, 9.50), (-7.80, 43.70, 10.69), (-7.90, 43.80, 9.96)])]
    assert [len(r) for r in rows] == [47, 71]
    corners = " ".join(struct.pack(">f", v).hex() for v in (-7.90, 43.69, -7.70, 43.80))
    add(f"002 table 18 under {letter}", *indexed(letter + EDGE[1:], rows), says=[(1, 5, "triplet 6 260 210"), (1, 9, "f32 c1200000 42340000 c1200000 42340000"), (2, 6, "triplet 8 260 214"), (2, 9, f"f32 {corners}")])

# Rectangles: ties, and what is not finite.
for kind, parts, letters in [("C", 2, "f"), ("Z", 3, "f"), ("B", 2, "d"), ("Y", 3, "d")]:
    text = header(ID, column("a", kind, "*"), column("n", "F"))

    def line(i, *tuples):
        return ids("L", i) + struct.pack("<I", len(tuples)) + b"".join(struct.pack("<" + letters * parts, *t, *[math.nan] * (parts - len(t))) for t in tuples) + struct.pack("<f", 1.0)

    bad = [math.nan, math.inf, -math.inf]
    finite = [line(1, (-0.0, 0.0), (0.0, -0.0)), line(2, (0.0, -0.0), (-0.0, 0.0)), line(3, (1.0, 2.0), (-1.0, 5.0), (3.0, -4.0), (-1.0, 5.0)), line(4, (1.0, 2.0))]
    wrong = [line(5 + k, (1.0, 2.0), *[(1.0, v) if k % 2 else (v, 1.0), (bad[0], bad[1])]) for k, v in enumerate(2 * bad)]
    zeros = {"f": ("80000000", "00000000"), "d": ("8000000000000000", "0000000000000000")}[letters]
    name = "f32" if letters == "f" else "f64"
    add(f"rectangles of {kind}", *indexed(text, finite + wrong + [line(11)]),
        says=[(1, 2, f"{name} {zeros[0]} {zeros[1]} {zeros[0]} {zeros[1]}"), (2, 2, f"{name} {zeros[1]} {zeros[0]} {zeros[1]} {zeros[0]}"), (3, 1, refused(13, 1)), (3, 3, refused(13, 3))]
        + [(5 + k, 2, refused(12, 2)) for k in range(6)] + [(11, 2, refused(12, 0))])
add("a rectangle in a row whose id is wrong, and of another type there", *indexed(header(ID, column("c", "C", "*"), column("n", "F")), [ids("L", 2) + bytes(8)]), says=[(1, 2, refused(9, 1)), (1, 3, refused(13, 3))])

# 15 by L, and refusals of the header before those of the opening.
add("15 by L", table("M" + "x" * 32767), b"\0", says=refused(15, 0), to=long)
add("1 before all", b"\xff\xff\xff\xffL", b"\0", says=refused(1, 5))
add("6 before 8", table(header(column("k", "K"))), says=refused(6, 0))

(cases.crate / "stdout").write_text(cases.write() + long.write())
