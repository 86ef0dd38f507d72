"""Writes the cases of program tile_cases and what it must print for them, from the rules of document 01, with No. 1 of 02, as this script has them.
The rules are implemented here anew; what documents 000, 001 and 01 say of their tiles is asserted before anything is written."""
from casefile import Cases, number, refused

COLUMNS = ["start_node", "end_node", "right_face", "left_face", "right_edge", "left_edge", "ring_ptr", "fac_id", "start_edge", "first_edge"]
BEFORE = 7  # what marks and outputs hold before
MOST_LENT = 48
MOST_NUMBERS = 256
MOST_ROWS = 1000000


class Refused(Exception):
    """A refusal: number and place."""


class Tile(dict):
    """Ten columns by name. Rows and sides count from 1."""

    def at(self, column, row):
        return self[column][row - 1]

    def but(self, **columns):
        """The same tile with `column=[..]` anew, or single entries changed by `column={row: value}`."""
        new = Tile({k: list(v) for k, v in self.items()})
        for column, change in columns.items():
            if isinstance(change, dict):
                for row, value in change.items():
                    new[column][row - 1] = value
            else:
                new[column] = list(change)
        return new


def counts(t):
    return [len(t[c]) for c in ("start_node", "ring_ptr", "fac_id", "first_edge")]


def sizes(t):
    e, f, r, n = counts(t)
    unequal = {len(t[c]) for c in COLUMNS[:6]} != {e} or len(t["start_edge"]) != r
    if unequal or max(e, f, r, n) > MOST_ROWS or f == 0 or r == 0:
        raise Refused(15, 0)


def edge_of(side):
    return (side + 1) // 2


def is_right(side):
    return side % 2 == 1


def face_of(t, side):
    return t.at("right_face" if is_right(side) else "left_face", edge_of(side))


def successor(t, side):
    """The side that follows, or Refused with 22 to 25."""
    e, right, face = edge_of(side), is_right(side), face_of(t, side)
    node = t.at("end_node" if right else "start_node", e)
    link = t.at("right_edge" if right else "left_edge", e)
    if not 1 <= link <= len(t["start_node"]):
        raise Refused(22, e)
    leaving = [2 * link - 1] * (t.at("start_node", link) == node) + [2 * link] * (t.at("end_node", link) == node)
    if not leaving:
        raise Refused(23, side)
    fitting = [s for s in leaving if face_of(t, s) == face]
    if not fitting:
        raise Refused(24, side)
    if len(fitting) == 2:
        raise Refused(25, side)
    return fitting[0]


def start_side(t, row):
    """The start side of a ring row, None for the empty ring, or Refused with 29."""
    start, face = t.at("start_edge", row), t.at("fac_id", row)
    if (start, row, face) == (0, 1, 1):
        return None
    if 1 <= start <= len(t["start_node"]):
        for side in (2 * start - 1, 2 * start):
            if face_of(t, side) == face:
                return side
    raise Refused(29, row)


def lowest(number, rows, bad):
    for row in rows:
        if bad(row):
            raise Refused(number, row)


def cycle(t, start):
    sides, side = [], start
    while not sides or side != start:
        sides.append(side)
        side = successor(t, side)
    return sides


def checked(t, space):
    """The owner of each side, or Refused."""
    sizes(t)
    e, f, r, n = counts(t)
    if space < 2 * e:
        raise Refused(14, 2 * e)
    edges, sides, faces, rings, nodes = (range(1, m + 1) for m in (e, 2 * e, f, r, n))
    for code, most, columns in [(20, n, COLUMNS[0:2]), (21, f, COLUMNS[2:4]), (22, e, COLUMNS[4:6])]:
        lowest(code, edges, lambda row: not all(1 <= t.at(c, row) <= most for c in columns))
    follow = [successor(t, s) for s in sides]  # 23, 24, 25, side by side
    lowest(26, sides, lambda s: follow.count(s) > 1)
    lowest(27, nodes, lambda row: not (1 <= t.at("first_edge", row) <= e and row in
                                       (t.at("start_node", t.at("first_edge", row)), t.at("end_node", t.at("first_edge", row)))))
    lowest(28, rings, lambda row: not 1 <= t.at("fac_id", row) <= f)

    def run_wrong(face):
        rows = [row for row in rings if t.at("fac_id", row) == face]
        return not rows or rows != list(range(t.at("ring_ptr", face), t.at("ring_ptr", face) + len(rows)))

    lowest(28, faces, run_wrong)
    starts = [start_side(t, row) for row in rings]  # 29
    owner = {}
    for row, start in zip(rings, starts):
        if start is None:
            continue
        if start in owner:
            raise Refused(30, row)
        for side in cycle(t, start):
            owner[side] = row
    lowest(31, sides, lambda s: s not in owner)
    return [owner[s] for s in sides]


def check(t, space):
    """The verdict and the marks afterwards."""
    marks, twice = [BEFORE] * space, 2 * counts(t)[0]
    try:
        return "accepted", checked(t, space) + marks[twice:]
    except Refused as q:
        return refused(*q.args), [0] * twice + marks[twice:] if q.args[0] >= 20 else marks


def walked(t, row, room):
    sizes(t)
    e, _, r, _ = counts(t)
    if not 1 <= row <= r:
        raise Refused(13, row)
    start = start_side(t, row)
    if start is None:
        return []
    sides, side = [], start
    for _ in range(2 * e):
        sides.append(side)
        side = successor(t, side)
        if side == start:
            if room < len(sides):
                raise Refused(14, len(sides))
            return sides
    raise Refused(32, row)


def walk(t, row, room):
    """The answer and the output afterwards."""
    out = [BEFORE] * room
    try:
        sides = walked(t, row, room)
        return f"{len(sides)} steps", sides + out[len(sides):]
    except Refused as q:
        return refused(*q.args), out


def listed(numbers):
    return "".join(f" {n}" for n in numbers)


cases = Cases("tile_cases")


def add(label, t, space=None, walks=None, says=None):
    """A tile: marks of two more than its sides unless `space` says otherwise; every ring walked with room for two more, unless
    `walks` lists ring rows with rooms. `says` is what a document says of it, or the number and place that the case is made for."""
    twice = 2 * counts(t)[0]
    space = twice + 2 if space is None else space
    verdict, marks = check(t, space)
    if walks is None:
        walks = [(row, int(walk(t, row, 4 * len(t["start_node"]))[0].split()[0]) + 2) for row in range(1, counts(t)[2] + 1)] if verdict == "accepted" else []
    if says is not None:
        assert says == (verdict if verdict != "accepted" else [int(walk(t, row, room)[0].split()[0]) for row, room in walks]), (label, verdict)
    assert max([space] + [room for _, room in walks]) <= MOST_LENT
    lines = f"marks{listed([BEFORE] * space)}, {verdict}, marks{listed(marks)}"
    for row, room in walks:
        answer, out = walk(t, row, room)
        lines += f"\n  ring {row} into{listed([BEFORE] * room)}: {answer}, written{listed(out)}"
    directory, numbers = [], []
    for column in [t[c] for c in COLUMNS] + [[space], [n for pair in walks for n in pair]]:
        directory += [24 + len(numbers), len(column)]
        numbers += column
    assert len(directory + numbers) <= MOST_NUMBERS
    cases.add(label, [b"".join(number(n, 4) for n in directory + numbers)], lines)


def edges(*rows):
    """Edge rows as start node, end node, right face, left face, right edge, left edge."""
    return Tile({c: [row[i] for row in rows] for i, c in enumerate(COLUMNS[:6])})


def tile(edge_rows, ring_ptr, rings, first_edge):
    t = edges(*edge_rows)
    t.update(ring_ptr=list(ring_ptr), fac_id=[r[0] for r in rings], start_edge=[r[1] for r in rings], first_edge=list(first_edge))
    return t


# --- the documents' tiles ---

MJ21 = tile([(1, 2, 2, 1, 2, 3), (2, 3, 2, 1, 3, 1), (3, 1, 2, 1, 1, 2)], [1, 2], [(1, 1), (2, 1)], [1, 1, 2])  # document 000; P8
LOOP = tile([(1, 1, 2, 1, 1, 1)], [1, 2], [(1, 1), (2, 1)], [1])  # P10
DANGLING = tile([(1, 2, 1, 1, 1, 1)], [1], [(1, 1)], [1, 1])  # P11
EMPTY = tile([], [1], [(1, 0)], [])  # document 000, the empty tile
MJ22 = tile([(1, 2, 2, 1, 2, 5), (2, 3, 2, 1, 3, 1), (4, 3, 1, 2, 2, 4), (4, 5, 2, 1, 5, 3), (5, 1, 2, 1, 1, 4)], [1, 2], [(1, 1), (2, 1)],
            [1, 1, 2, 3, 4])  # document 000, face 7 as 2
EIGHT = tile([(1, 2, 2, 1, 3, 4), (3, 4, 2, 1, 4, 3), (2, 3, 2, 1, 2, 1), (4, 1, 2, 1, 1, 2), (5, 5, 3, 2, 5, 6), (5, 5, 4, 2, 6, 5)],
             [1, 2, 4, 5], [(1, 1), (2, 1), (2, 5), (3, 5), (4, 6)], [1, 1, 2, 2, 5])  # two loops at one node, in one ring of face 2
# Document 001, table 21: edge, start node, end node, right and left face, right and left edge.
TABLE21 = """328 346 362 3 2 339 334; 329 346 360 2 3 338 328; 330 343 345 2 2 330 330; 331 348 347 2 2 331 331; 332 349 349 4 2 332 332
333 344 350 2 2 333 334; 334 344 346 2 2 329 333; 335 353 351 2 2 335 335; 336 352 352 2 5 336 336; 337 357 357 2 6 337 337
338 360 362 2 1 328 339; 339 360 362 1 3 338 329; 340 354 358 2 2 343 340; 341 359 359 2 7 341 341; 342 355 356 2 2 342 342
343 361 358 2 2 340 343"""
ROWS21 = [[int(n) for n in row.split()] for row in TABLE21.replace("\n", ";").split(";")]
FIRST21 = {n: row[0] - 327 for row in reversed(ROWS21) for n in row[1:3]}  # nodes 343 to 362 as 1 to 20, edges 328 to 343 as 1 to 16
STARTS21 = [(1, 338)] + [(2, e) for e in (328, 330, 331, 332, 335, 336, 337, 340, 341, 342)] + [(3, 328), (4, 332), (5, 336), (6, 337), (7, 341)]
RENUMBERED = tile([(r[1] - 342, r[2] - 342, r[3], r[4], r[5] - 327, r[6] - 327) for r in ROWS21], [1, 2, 12, 13, 14, 15, 16],
                  [(f, e - 327) for f, e in STARTS21], [FIRST21[n] for n in range(343, 363)])

add("P8 tile MJ21", MJ21, says=[3, 3])
add("P9 left edge of 1 made 2", MJ21.but(left_edge={1: 2}), says=refused(23, 2))
add("P10 one loop", LOOP, says=[1, 1])
add("P11 one dangling edge", DANGLING, says=[2])
add("empty tile", EMPTY, space=3, walks=[(1, 0), (1, 4)], says=[0, 0])
add("tile MJ22 with face 7 as 2", MJ22, says=[5, 5])
add("table 21 renumbered", RENUMBERED, says=[2, 7, 2, 2, 1, 2, 1, 1, 4, 1, 2, 3, 1, 1, 1, 1])
add("figure of eight", EIGHT, says=[4, 4, 2, 1, 1])
assert walked(MJ21, 1, 3) == [2, 6, 4] and walked(MJ21, 2, 3) == [1, 3, 5]  # face 1: L1 L3 L2; face 2: R1 R2 R3
assert walked(MJ22, 2, 5) == [1, 3, 6, 7, 9] and set(walked(MJ22, 1, 5)) == {5, 4, 2, 10, 8}
assert walked(RENUMBERED, 2, 7) == [2, 14, 11, 12, 13, 3, 21]  # L328 L334 R333 L333 R334 R329 R338
assert walked(RENUMBERED, 9, 4) == [25, 32, 31, 26] and walked(RENUMBERED, 12, 3) == [1, 24, 4]

# --- lent space ---

add("owner space exactly right", MJ21, space=6, says=[3, 3])
add("owner space one short", MJ21, space=5, walks=[(1, 3)], says=refused(14, 6))
add("no owner space", MJ21, space=0, says=refused(14, 6))
add("much owner space", MJ21, space=48, walks=[])
add("owner space before a node", MJ21.but(start_node={1: 9}), space=5, says=refused(14, 6))
add("outputs exactly right, one short, none", MJ21, walks=[(1, 3), (1, 2), (2, 3), (2, 2), (2, 0)])
add("outputs of loops", EIGHT, walks=[(3, 2), (3, 1), (4, 1), (4, 0), (2, 4), (2, 3)])

# --- ring rows that are not there ---

add("ring row 0, R + 1, beyond", MJ21, walks=[(0, 4), (3, 4), (4294967295, 4)])
add("ring rows of the empty tile", EMPTY, walks=[(0, 1), (1, 1), (2, 1)])

# --- sizes: 15 at 0, with the marks and the output as they were ---

for column in ("end_node", "right_face", "left_face", "right_edge", "left_edge", "start_edge"):
    add(f"one row less of {column}", MJ21.but(**{column: MJ21[column][:-1]}), walks=[(1, 4)], says=refused(15, 0))
    add(f"one row more of {column}", MJ21.but(**{column: MJ21[column] + [1]}), walks=[(1, 4), (9, 4)], says=refused(15, 0))
add("one row less of start_node", MJ21.but(start_node=[1, 2]), walks=[(1, 4)], says=refused(15, 0))
add("one row more of fac_id", MJ21.but(fac_id=[1, 2, 2]), walks=[(1, 4)], says=refused(15, 0))
add("F zero", MJ21.but(ring_ptr=[]), walks=[(1, 4)], says=refused(15, 0))
add("R zero", MJ21.but(fac_id=[], start_edge=[]), walks=[(1, 4), (0, 4)], says=refused(15, 0))
add("F zero before owner space", MJ21.but(ring_ptr=[]), space=0, says=refused(15, 0))
add("E and N zero with one ring", EMPTY, says=[0])

# --- numbers out of range: 20, 21, 22 at the row ---

for code, most, columns in [(20, 3, COLUMNS[0:2]), (21, 2, COLUMNS[2:4]), (22, 3, COLUMNS[4:6])]:
    for column in columns:
        for row, value in [(1, 0), (2, most + 1), (3, 4294967295)]:
            add(f"{column} of {row} is {value}", MJ21.but(**{column: {row: value}}), says=refused(code, row))
add("21 of row 1 and 20 of row 3", MJ21.but(right_face={1: 3}, end_node={3: 4}), says=refused(20, 3))
add("22 of row 1 and 21 of row 3", MJ21.but(right_edge={1: 4}, left_face={3: 0}), says=refused(21, 3))
add("23 of side 1 and 22 of row 3", MJ21.but(right_edge={1: 3}, left_edge={3: 0}), says=refused(22, 3))
add("tile MJ22 as printed, two faces", MJ22.but(right_face=[7, 7, 1, 7, 7], left_face=[1, 1, 7, 1, 1]), says=refused(21, 1))
add("tile MJ22 as printed, seven faces", MJ22.but(right_face=[7, 7, 1, 7, 7], left_face=[1, 1, 7, 1, 1], ring_ptr=[1, 2, 3, 4, 5, 6, 7],
    fac_id=[1, 2, 3, 4, 5, 6, 7], start_edge=[1, 0, 0, 0, 0, 0, 1]), says=refused(29, 2))

# --- a successor at every side: 23, 24, 25 ---

add("right edge of 1 does not touch", MJ21.but(right_edge={1: 3}), says=refused(23, 1))
add("left edge of 3 does not touch", MJ21.but(left_edge={3: 1}), says=refused(23, 6))
add("link to a loop elsewhere", EIGHT.but(right_edge={1: 5}), says=refused(23, 1))
add("right face of 2 differs", MJ21.but(right_face={2: 1}), says=refused(24, 1))
add("left face of 1 differs", MJ21.but(left_face={1: 2}), says=refused(24, 2))
add("loop with the face on neither side", LOOP.but(right_face=[2, 1], left_face=[1, 1], start_node=[1, 1], end_node=[1, 1], right_edge=[2, 2],
    left_edge=[1, 1]), says=refused(24, 1))
add("loop with the face on both sides", LOOP.but(right_face=[1]), says=refused(25, 1))
add("right face of 4 differs", EIGHT.but(right_face={4: 1}), says=refused(24, 3))
add("24 of side 1 before 23 of side 2", MJ21.but(right_face={2: 1}, left_edge={1: 2}), says=refused(24, 1))
add("23 of side 2 before 24 of side 3", MJ21.but(left_edge={1: 2}, right_face={3: 1}), says=refused(23, 2))
add("parallel edges, the other one linked", RENUMBERED.but(right_edge={1: 11}), says=refused(24, 1))

# --- exactly one predecessor: 26 ---

TWO_LOOPS = tile([(1, 1, 2, 1, 1, 2), (1, 1, 3, 1, 2, 1)], [1, 2, 3], [(1, 1), (2, 1), (3, 2)], [1])  # both left sides in one ring
add("two loops at one node", TWO_LOOPS, says=[2, 1, 1])
add("two predecessors of side 2", TWO_LOOPS.but(left_edge={1: 1}), says=refused(26, 2))
add("two predecessors of side 4", TWO_LOOPS.but(left_edge={2: 2}), says=refused(26, 4))
STAR = tile([(1, 2, 1, 1, 1, 2), (1, 3, 1, 1, 2, 3), (1, 4, 1, 1, 3, 1)], [1], [(1, 1)], [1, 1, 2, 3])  # three dangling edges at one node
add("three dangling edges", STAR, says=[6])
add("two predecessors of side 3", STAR.but(left_edge={3: 2}), walks=[(1, 8)], says=refused(26, 3))

# --- first edges: 27 ---

for value in (0, 4, 4294967295):
    add(f"first_edge of 2 is {value}", MJ21.but(first_edge={2: value}), says=refused(27, 2))
add("first_edge of 1 does not touch", MJ21.but(first_edge={1: 2}), says=refused(27, 1))
add("first_edge of 3 by its end", MJ21.but(first_edge={3: 3}), says=[3, 3])
add("a node without edges", MJ21.but(first_edge=[1, 1, 2, 1]), says=refused(27, 4))
add("a node in a tile of no edges", EMPTY.but(first_edge=[0]), says=refused(27, 1))
add("26 before 27", TWO_LOOPS.but(left_edge={1: 1}, first_edge={1: 0}), says=refused(26, 2))

# --- ring rows of a face: 28 ---

for value in (0, 3, 4294967295):
    add(f"face of ring 2 is {value}", MJ21.but(fac_id={2: value}), says=refused(28, 2))
add("a ring's face before a face's run", MJ21.but(ring_ptr={1: 2}, fac_id={2: 3}), says=refused(28, 2))
for value in (0, 2, 3, 4294967295):
    add(f"ring_ptr of 1 is {value}", MJ21.but(ring_ptr={1: value}), says=refused(28, 1))
add("ring_ptr of 2 is 1", MJ21.but(ring_ptr={2: 1}), says=refused(28, 2))
add("a face without rings", MJ21.but(ring_ptr=[1, 2, 3]), says=refused(28, 3))
add("a face in two runs", EIGHT.but(ring_ptr=[1, 2, 3, 5], fac_id=[1, 2, 3, 2, 4], start_edge=[1, 1, 5, 5, 6]), says=refused(28, 2))
add("ring_ptr inside the run", EIGHT.but(ring_ptr={2: 3}), says=refused(28, 2))
add("runs not in the faces' order", EIGHT.but(ring_ptr=[5, 3, 1, 2], fac_id=[3, 4, 2, 2, 1], start_edge=[5, 6, 1, 5, 1]), says=[1, 1, 4, 2, 4])
add("27 before 28", MJ21.but(first_edge={3: 0}, fac_id={1: 0}), says=refused(27, 3))

# --- starts: 29, and cycles: 30, 31 ---

for value in (0, 4, 4294967295):
    add(f"start of ring 2 is {value}", MJ21.but(start_edge={2: value}), walks=[(2, 4), (1, 4)], says=refused(29, 2))
add("start with another face", EIGHT.but(start_edge={4: 1}), walks=[(4, 4)], says=refused(29, 4))
add("start 1 in a tile of no edges", EMPTY.but(start_edge=[1]), walks=[(1, 4)], says=refused(29, 1))
add("start on both sides", DANGLING, walks=[(1, 2)], says=[2])
add("28 before 29", MJ21.but(ring_ptr={2: 1}, start_edge={1: 0}), says=refused(28, 2))
TWICE = EIGHT.but(ring_ptr=[1, 2, 5, 6], fac_id=[1, 2, 2, 2, 3, 4], start_edge=[1, 1, 5, 6, 5, 6])
add("one cycle in two rings", TWICE, walks=[(3, 4), (4, 4)], says=refused(30, 4))
add("cycles A B B A", TWICE.but(ring_ptr=[1, 2, 6, 7], fac_id=[1, 2, 2, 2, 2, 3, 4], start_edge=[1, 1, 5, 6, 2, 5, 6]), says=refused(30, 4))
add("29 of ring 5 before 30 of ring 4", TWICE.but(start_edge=[1, 1, 5, 6, 1, 6]), says=refused(29, 5))
add("an inner ring missing", EIGHT.but(ring_ptr=[1, 2, 3, 4], fac_id=[1, 2, 3, 4], start_edge=[1, 1, 5, 6]), says=refused(31, 10))
add("an outer ring missing", EIGHT.but(ring_ptr=[1, 2, 3, 4], fac_id=[1, 2, 3, 4], start_edge=[1, 5, 5, 6]), says=refused(31, 1))
add("30 before 31", TWICE.but(start_edge=[1, 5, 6, 5, 5, 6]), says=refused(30, 3))

# --- start 0 in ring row 1 when its face is 1, whatever E is; elsewhere 0 stays 29 (document 02, No. 1) ---


def ring_first(t, face=1, start=0):
    """The tile with one more ring row before the others, and the pointers moved with the rows."""
    ring_ptr = [p + (f != face) for f, p in enumerate(t["ring_ptr"], 1)]
    return t.but(ring_ptr=ring_ptr, fac_id=[face] + t["fac_id"], start_edge=[start] + t["start_edge"])


NO_FACE_1 = tile([(1, 1, 3, 2, 1, 1)], [1, 2, 3], [(1, 0), (2, 1), (3, 1)], [1])  # one loop, and no side of face 1
add("start 0 before the ring of MJ21", ring_first(MJ21), says=[0, 3, 3])
add("start 0 before one loop", ring_first(LOOP), says=[0, 1, 1])
add("start 0 before one dangling edge", ring_first(DANGLING), says=[0, 2])
add("start 0 before two loops at one node", ring_first(EIGHT), says=[0, 4, 4, 2, 1, 1])
add("start 0 before table 21", ring_first(RENUMBERED), walks=[(1, 0), (1, 4), (2, 2), (3, 7)])
add("start 0, and no side of face 1", NO_FACE_1, says=[0, 1, 1])
add("start 0 walked into no output", ring_first(MJ21), walks=[(1, 0), (2, 0)])
add("start 0 as the only ring of a face with sides", DANGLING.but(start_edge=[0]), walks=[(1, 0), (1, 4)], says=refused(31, 1))
add("start 0 as the only ring of face 1", MJ21.but(start_edge=[0, 1]), walks=[(1, 4), (2, 4)], says=refused(31, 2))
add("start 0 in ring row 1 of face 2", MJ21.but(ring_ptr=[3, 1], fac_id=[2, 2, 1], start_edge=[0, 1, 1]), walks=[(1, 4), (2, 4)], says=refused(29, 1))
add("start 0 in ring row 2 of face 1", ring_first(MJ21, 1, 1).but(start_edge={2: 0}), walks=[(1, 4), (2, 4)], says=refused(29, 2))
add("start 0 in ring rows 1 and 2 of face 1", ring_first(ring_first(MJ21)), walks=[(1, 4), (2, 4)], says=refused(29, 2))
add("start 0 in ring rows 1 and 3", ring_first(MJ21).but(start_edge={3: 0}), walks=[(1, 4), (3, 4)], says=refused(29, 3))
add("start 0 of face 1 behind face 2", MJ21.but(ring_ptr=[2, 1], fac_id=[2, 1], start_edge=[1, 0]), walks=[(2, 4)], says=refused(29, 2))
add("start 0 in row 1 and a start past the edges", ring_first(MJ21).but(start_edge={2: 4}), says=refused(29, 2))
add("start 0 in row 1, ring_ptr of face 1 behind it", ring_first(MJ21).but(ring_ptr={1: 2}), walks=[(1, 4)], says=refused(28, 1))
add("start 0 in row 1, and the rest of its face behind face 2", ring_first(MJ21).but(fac_id=[1, 2, 1], ring_ptr=[1, 2]), says=refused(28, 1))
add("start 0 in row 1, then one cycle twice", ring_first(ring_first(MJ21, 1, 1)), walks=[(1, 4), (3, 4)], says=refused(30, 3))
add("start 0 in two rings of a tile of no edges", EMPTY.but(fac_id=[1, 1], start_edge=[0, 0]), walks=[(1, 4), (2, 4)], says=refused(29, 2))
add("start 0 in a tile of two faces and no edges", EMPTY.but(ring_ptr=[1, 2], fac_id=[1, 2], start_edge=[0, 0]), walks=[(1, 4), (2, 4)],
    says=refused(29, 2))
add("start 0 of face 2 in a tile of no edges", EMPTY.but(fac_id=[2]), walks=[(1, 4)], says=refused(28, 1))
add("start 0 of face 2 first in a tile of no edges", EMPTY.but(ring_ptr=[2, 1], fac_id=[2, 1], start_edge=[0, 0]), walks=[(1, 4), (2, 4)],
    says=refused(29, 1))

# --- walks of tiles that were not accepted ---

add("walk to a link out of range", MJ21.but(right_edge={2: 0}), walks=[(2, 4), (1, 4)], says=refused(22, 2))
add("walk to a link past the edges", MJ21.but(left_edge={3: 4}), walks=[(1, 0), (2, 4)], says=refused(22, 3))
add("walk to a link that does not touch", MJ21.but(left_edge={3: 1}), walks=[(1, 4), (2, 4)], says=refused(23, 6))
add("walk to another face", MJ21.but(right_face={3: 1}), walks=[(2, 4), (1, 4)], says=refused(24, 3))
add("walk to a loop with the face on both sides", LOOP.but(right_face=[1]), walks=[(1, 4), (2, 4)], says=refused(25, 1))
add("walk to a loop with the face on neither side", MJ21.but(end_node={3: 3}, right_face={3: 1}, left_face={3: 1}), walks=[(2, 4), (1, 4)],
    says=refused(23, 2))
add("walk that does not close", TWO_LOOPS.but(start_node=[1, 1, 1], end_node=[1, 1, 1], right_face=[2, 3, 4], left_face=[1, 1, 1], right_edge=[1, 2, 3],
    left_edge=[2, 3, 2], ring_ptr=[1, 2, 3, 4], fac_id=[1, 2, 3, 4], start_edge=[1, 1, 2, 3]), walks=[(1, 8), (1, 0), (2, 1)], says=refused(26, 4))
add("walk with nodes and faces out of range", MJ21.but(start_node=[11, 12, 13], end_node=[12, 13, 11], right_face=[9, 9, 9], fac_id=[1, 9]),
    walks=[(1, 4), (2, 4)], says=refused(20, 1))
add("walks that start nowhere", MJ21.but(start_edge={2: 9}), walks=[(0, 0), (2, 0), (1, 0)], says=refused(29, 2))

(cases.crate / "stdout").write_text(cases.write())
