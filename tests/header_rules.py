"""Document 01's header text, as amended by document 02, as the tests have it: its grammar, its rules and limits, and header texts made of columns. The rules are
implemented here anew, and shared by the scripts that write test cases."""
import collections

MOST_TEXT, MOST_COLUMNS = 32767, 128
ORDERS = {"L": "little", "M": "big", ";": "little"}

# --- the grammar: fields one after the other, each with its least and most bytes, the bytes that it takes, and what follows it ---

PRINTABLE = set(range(32, 127))
UNTIL_SEMICOLON = PRINTABLE - set(b";")
PLAIN = PRINTABLE - set(b";:,=")
Field = collections.namedtuple("Field", "least most takes then")
NAME = Field(1, 12, PLAIN, ",")
COLUMN = [Field(1, 24, PLAIN, "="), Field(1, 1, PLAIN, ","), "count", Field(1, 1, PLAIN, ","), Field(0, 80, PLAIN, ","), NAME, NAME]
Column = collections.namedtuple("Column", "start name kind count key description value thematic narrative comma after")


class Refused(Exception):
    """A refusal: number and place."""


class Text:
    """The header text, read from byte 4 on; a byte that cannot continue is refused with 3, and so is the end at L + 4."""

    def __init__(self, file, length):
        self.file, self.at, self.end = file, 4, 4 + length

    def next(self):
        if self.at == self.end:
            raise Refused(3, self.at)
        return self.file[self.at]

    def take(self, text):
        for b in text.encode():
            if self.next() != b:
                raise Refused(3, self.at)
            self.at += 1

    def word(self, field):
        start = self.at
        while self.next() in field.takes and self.at - start < field.most:
            self.at += 1
        if self.at - start < field.least:
            raise Refused(3, self.at)
        return self.file[start:self.at].decode()

    def read(self, field):
        word = self.word(field)
        self.take(field.then)
        return word

    def count(self):
        if self.next() == ord("*"):
            self.take("*,")
            return "*"
        if self.next() == ord("0"):
            raise Refused(3, self.at)
        return self.read(Field(1, 5, set(b"0123456789"), ","))

    def column(self):
        start = self.at
        words = [self.count() if f == "count" else self.read(f) for f in COLUMN]
        narrative = self.word(NAME)
        comma = self.next() == ord(",")  # the last one may be missing (document 02, No. 5)
        self.take(",:" if comma else ":")
        return Column(start, *words, narrative, comma, self.at)

    def columns(self):
        """Every column of the text, which is in the grammar, or Refused."""
        if self.next() != ord(";"):
            self.at += 1  # the order letter, which byte 4 was tested for
        self.take(";")
        self.read(Field(0, 80, UNTIL_SEMICOLON, ";"))
        self.read(Field(1, 12, UNTIL_SEMICOLON, ";"))
        found = [self.column()]
        while self.next() != ord(";"):
            found.append(self.column())
        self.at += 1
        if self.at < self.end:
            raise Refused(3, self.at)
        return found


# --- the columns' rules ---

WIDTHS = {"T": 1, "L": 1, "F": 4, "R": 8, "S": 2, "I": 4, "C": 8, "Z": 12, "B": 16, "Y": 24, "D": 20, "X": 0, "K": 0}
MANY = "TLCZBY"  # types that take a number or `*`


def sound(c):
    if c.kind not in WIDTHS or c.key not in "PUN":
        return False
    if c.kind in MANY:
        return c.count == "*" or int(c.count) <= 65535
    return c.count == "1"


def lower(name):
    return "".join(chr(ord(b) + 32) if "A" <= b <= "Z" else b for b in name)


def read(file):
    """The order letter, L and the columns, or Refused."""
    if len(file) < 5:
        raise Refused(1, len(file))
    letter = chr(file[4])
    if letter not in ORDERS:
        raise Refused(2, 4)
    length = int.from_bytes(file[:4], ORDERS[letter])
    if length + 4 > len(file):
        raise Refused(1, len(file))
    if length > MOST_TEXT:
        raise Refused(15, 0)
    if length == 0:
        raise Refused(3, 4)
    columns = Text(file, length).columns()
    for k, c in enumerate(columns, 1):
        if not sound(c):
            raise Refused(4, k)
    if len(columns) > MOST_COLUMNS:
        raise Refused(5, MOST_COLUMNS + 1)
    names = [lower(c.name) for c in columns]
    for k, name in enumerate(names, 1):
        if name in names[:k - 1]:
            raise Refused(5, k)
    keyed = [c for c in columns if c.key == "P"]
    if len(keyed) != 1 or lower(keyed[0].name) != "id" or keyed[0].kind != "I":
        raise Refused(6, 0)
    return letter, length, columns


def standing(columns, place):
    """The column that starts at the place, None just past the last, or Refused."""
    for c in columns:
        if c.start == place:
            return c
    if place != columns[-1].after:
        raise Refused(13, place)


def fixed_bytes(c):
    return 0 if c.count == "*" or c.kind == "K" else int(c.count) * WIDTHS[c.kind]


def row_width(columns):
    return 0 if any(c.count == "*" or c.kind == "K" for c in columns) else sum(map(fixed_bytes, columns))


# --- header texts and table files ---


def table(text, length=None, order=None, rows=b""):
    """A table file of this header text, with its own length and order letter unless others are given."""
    text = text if isinstance(text, bytes) else text.encode()
    order = order or ORDERS.get(chr(text[0]) if text else "L", "little")
    return (len(text) if length is None else length).to_bytes(4, order) + text + rows


def column(name, kind="I", count="1", key="N", description="", value="-", thematic="-", narrative="-", comma=True):
    return f"{name}={kind},{count},{key},{description},{value},{thematic},{narrative}{',' if comma else ''}:"


ID = column("id", key="P", description="Row Id")


def header(*columns, letter="L", description="Test", narrative="-"):
    return f"{letter};{description};{narrative};{''.join(columns)};"


P1 = "L;Ring Table;-;id=I,1,P,Row Id,-,-,-,:fac_id=I,1,N,Face,-,-,-,:start_edge=I,1,N,Edge,-,-,-,:;"
