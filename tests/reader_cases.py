"""Writes the cases of program reader_cases and what it must print for them, from document 01's rules as header_rules.py has them:
what each step of a new reader gives and where it stands then, to two steps past the last column, the first two by one reader that is
held; and two steps from a place that the case names."""
from casefile import Cases, number, refused
from header_rules import ID, MOST_COLUMNS, P1, Refused, column, header, read, standing, table


def step(file, place):
    """What a reader at the place gives, and where it stands after it."""
    try:
        c = standing(read(file)[2], place)
    except Refused as q:
        return refused(*q.args), place
    return ("done", place) if c is None else (c.name, c.after)


def start(file):
    """Where a new reader stands, and how many columns it comes to."""
    try:
        columns = read(file)[2]
    except Refused:
        return 0, 0
    return columns[0].start, len(columns)


def walk(file, at, count):
    """Where a reader stands at each of so many steps from a place, what it gives, and where it stands after it."""
    steps = []
    for _ in range(count):
        said, then = step(file, at)
        steps.append((at, said, then))
        at = then
    return steps


def told(steps):
    return [f"  at {at} {said}, then at {then}" for at, said, then in steps]


cases = Cases("reader_cases")


def add(label, file, place, known=None):
    """A table file and a place. `known` is what document 01 lets one say beforehand of the step there."""
    first, columns = start(file)
    assert known is None or known == step(file, place)[0], (label, step(file, place))
    steps = walk(file, first, columns + 2)
    held = f"  held: {steps[0][1]}, {steps[1][1]}, then at {steps[1][2]}"
    lines = [f"a new reader at {first}", held, *told(steps[2:]), *told(walk(file, place, 2))]
    cases.add(label, [file, number(columns, 2), number(place, 8)], "\n".join(lines))


# Document 01's P1 in both orders and without a letter: three columns, the end twice, and 13 at every place that starts none.
ring = table(P1)
for where, place, known in [("0", 0, refused(13, 0)), ("the first byte of the text", 4, refused(13, 4)), ("inside a definition", 20, refused(13, 20)), ("the closing `;`", 96, "done"),
                            ("L + 4", 97, refused(13, 97)), ("far out", 2**64 - 1, refused(13, 2**64 - 1)), ("the third definition", P1.index("start_edge") + 4, "start_edge")]:
    add(f"P1, from {where}", ring, place, known)
add("P1 under M, from one past the second's start", table("M" + P1[1:]), P1.index("fac_id") + 5, refused(13, P1.index("fac_id") + 5))
add("P1 without a letter, from the second", table(P1[1:], rows=bytes(24)), P1.index("fac_id") + 3, "fac_id")

# One column, as many as there may be, and names of one byte and of 24.
add("one column", table(header(ID)), 13, "id")
many = [ID] + [column(f"c{k}", kind="S", description="d" * (k % 81)) for k in range(2, MOST_COLUMNS + 1)]
last = f"c{MOST_COLUMNS}"
add(f"{MOST_COLUMNS} columns, from the last", table(header(*many)), 4 + header(*many).index(last), last)
bare = [column("id", key="P", comma=False), column("a"), column("b", narrative="n" * 12, comma=False)]
add("commas missing, from the last", table(header(*bare)), 4 + header(*bare).index("b="), "b")
add("commas missing, from a byte before the second", table(header(*bare)), 3 + header(*bare).index("a="), refused(13, 3 + header(*bare).index("a=")))
add("short and long names", table(header(ID, column("n"), column("N" * 24), column("-"))), 4, refused(13, 4))

# A header refusal comes first, whatever the place, and the reader stays.
add("P2, from where P1's first definition stands", table(P1, length=92), 19, refused(3, 96))
add("no file", b"", 0, refused(1, 0))
add("byte 4 is `x`", table("x" + P1[1:], order="little"), 4, refused(2, 4))
add("two names alike, from the first", table(header(ID, column("a"), column("A"))), 13, refused(5, 3))
add("no id, from far out", table(header(column("a"))), 2**64 - 1, refused(6, 0))

(cases.crate / "stdout").write_text(cases.write())
