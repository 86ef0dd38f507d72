"""Writes the cases of program header_cases and what it must print for them, from document 01's rules as header_rules.py has them.
The header texts of documents 01 and 002 and what is known of them are asserted before anything is written."""
import outside
from casefile import MOST_BYTES, Cases, number, refused
from header_rules import ID, MANY, MOST_COLUMNS, MOST_TEXT, P1, WIDTHS, Refused, column, fixed_bytes, header, lower, read, row_width, standing, table


def step(columns, place):
    """What a step says, and the place after it."""
    try:
        c = standing(columns, place)
    except Refused as q:
        return refused(*q.args), place
    if c is None:
        return "done", place
    return f"{c.name}={c.kind},{c.count},{c.key},{c.description},{c.value},{c.thematic},{c.narrative}{',' if c.comma else ''}: after {c.after}", c.after


def answer(file, place, name):
    try:
        letter, length, columns = read(file)
    except Refused as q:
        bad = refused(*q.args)
        return f"{bad}, order L, rows from 0, columns 0, id 0, width 0\n  at 0 {bad}\n  at {place} {bad}\n  `{name}` is column 0"
    names = [lower(c.name) for c in columns]
    lines = [f"accepted, order {'M' if letter == 'M' else 'L'}, rows from {length + 4}, columns {len(columns)}, id {names.index('id') + 1},"
             f" width {row_width(columns)}"]
    lines += [f"  {c.kind},{c.count} bytes {fixed_bytes(c)} after {sum(map(fixed_bytes, columns[:k]))}" for k, c in enumerate(columns)]
    at = columns[0].start
    for _ in range(len(columns) + 1):
        said, after = step(columns, at)
        lines.append(f"  at {at} {said}")
        at = after
    found = names.index(lower(name)) + 1 if lower(name) in names else 0
    return "\n".join(lines + [f"  at {place} {step(columns, place)[0]}", f"  `{name}` is column {found}"])


def verdict(file):
    try:
        return f"accepted, columns {len(read(file)[2])}"
    except Refused as q:
        return refused(*q.args)


# --- the cases ---

cases, long, longer = Cases("header_cases"), Cases("header_cases", "long"), Cases("header_cases", "longer")


def add(label, file, says=None, place=None, name="ID", to=cases):
    """A table file. `says` is the refusal that it is made for, or what is known of an accepted one: rows from, columns, width."""
    try:
        _, length, columns = read(file)
        known = (length + 4, len(columns), row_width(columns))
    except Refused as q:
        known = refused(*q.args)
    assert says is None or says == known, (label, known)
    place = len(file) if place is None else place
    to.add(label, [file, number(place, 8), name.encode()], answer(file, place, name))


# Document 002: tables 10 to 13 and 16 to 20, without the footnote marks and without table 16's space.
VMAP = {
    "10 node feature": "L;Transportation Structures Node Feature Table;-;id=I,1,P,Row Identifier,-,-,-,:f_code=T,5,N,FACC Feature Code,char.vdt,f_code1.nti,-,:"
    "tuc=S,1,N,Transportation Use Category,int.vdt,-,-,:tile_id=S,1,N,Tile Reference ID,-,tile1_id.nti,-,:"
    "cnd_id=I,1,N,Connected Node Primitive ID,-,cnd1_id.nti,-,:;",
    "11 line feature": "L;Water Course Line Feature Table;-;id=I,1,P,Row Identifier,-,-,-,:f_code=T,5,N,FACC Feature Code,char.vdt,-,-,:"
    "hyc=I,1,N,Hydrological Category,int.vdt,-,-,:tile_id=S,1,N,Tile Reference ID,-,tile1_id.lti,-,:edg_id=I,1,N,Edge Primitive ID,-,edg1_id.lti,-,:;",
    "12 area feature": "L;Inland Water Area Feature Table;-;id=I,1,P,Row Identifier,-,-,-,:f_code=T,5,N,FACC Feature Code,char.vdt,f_code2.ati,-,:"
    "hyc=S,1,N,Hydrological Category,int.vdt,-,-,:tile_id=S,1,N,Tile Reference ID,-,tile2_id.ati,-,:fac_id=I,1,N,Face Primitive ID,-,fac2_id.ati,-,:;",
    "13 text feature": "L;Hydrography Text Feature Table;-;id=I,1,P,Row Identifier,-,-,-,:f_code=T,5,N,FACC Feature Code,-,f_code1.tti,-,:"
    "symbol_id=S,1,N,Symbol Identification,-,-,-,:tile_id=S,1,N,Tile Reference ID,-,tile1_id.tti,-,:txt_id=I,1,N,Text Primitive ID,-,txt1_id.tti,-,:;",
    "16 entity node": "L;Entity Node Primitive Table;-;id=I,1,P,Row Identifier,-,-,-,:*.pft_id=I,1,N,Point Feature Table Identifier,-,-,-,:"
    "containing_face=I,1,N,Foreign Key to Face Table,-,-,-,:coordinate=Z,1,N,Coordinates of Entity Node,-,-,-,:;",
    "17 connected node": "L;Connected Node Primitive Table;-;id=I,1,P,Row Identifier,-,-,-,:*.pft_id=I,1,N,Node Feature Table Identifier,-,-,-,:"
    "first_edge=I,1,N,Foreign Key to Edge Table,-,-,-,:coordinate=Z,1,N,Coordinates of Connected Node,-,-,-,:;",
    "18 edge": "L;Edge Primitive Table;-;id=I,1,P,Row Identifier,-,-,-,:*.lft_id=I,1,N,Line Feature Table ID,-,-,-,:start_node=I,1,N,Start/Left Node,-,-,-,:"
    "end_node=I,1,N,End/Right Node,-,-,-,:right_face=K,1,N,Right Face,-,-,-,:left_face=K,1,N,Left Face,-,-,-,:"
    "right_edge=K,1,N,Right Edge from End Node,-,-,-,:left_edge=K,1,N,Left Edge from Start Node,-,-,-,:coordinates=Z,*,N,Coordinates of Edge,-,-,-,:;",
    "19 face": "L;Face Primitive Table;-;id=I,1,P,Row Identifier,-,-,-,:*.aft_id=I,1,N,Area Feature Table ID,-,-,-,:"
    "ring_ptr=I,1,N,Foreign Key to Ring Table,-,-,-,:;",
    "20 text": "L;Text Primitive Table;-;id=I,1,P,Row Identifier,-,-,-,:*.tft_id=I,1,N,text feature table id,-,-,-,:string=T,*,N,Text String,-,-,-,:"
    "shape_line=C,*,N,Shape of Text String,-,-,-,:;",
}
VMAP_WIDTH = {"10": 17, "11": 19, "12": 17, "13": 17, "16": 24, "17": 24, "18": 0, "19": 12, "20": 0}

# Document 01's examples, and both byte orders.
assert len(P1) == 93
add("P1", table(P1, rows=bytes(24)), says=(97, 3, 12), name="Fac_ID")
add("P2 L one less", table(P1, length=92), says=refused(3, 96))
add("P1 under M", table("M" + P1[1:]), says=(97, 3, 12), name="START_EDGE")
add("P1 without a letter", table(P1[1:]), says=(96, 3, 12), name="start_edg")
add("P1 under M, L the other way", table("M" + P1[1:], order="little"), says=refused(1, 97))
add("P1 under L, L the other way", table(P1, order="big"), says=refused(1, 97))
add("P1 without a letter, L the other way", table(P1[1:], order="big"), says=refused(1, 96))
add("L one more with a byte there", table(P1, length=94, rows=b"x"), says=refused(3, 97))
add("L one more with a blank there", table(P1, length=94, rows=b" "), says=refused(3, 97))
for where, place in [("the first byte", 4), ("the second definition", 51), ("inside a definition", 20), ("L + 4", 97), ("0", 0), ("far out", 2**64 - 1)]:
    add(f"P1, a step at {where}", table(P1), place=place)

# Document 002's header texts.
for name, text in VMAP.items():
    add(f"002 table {name}", table(text), says=(len(text) + 4, text.count(":"), VMAP_WIDTH[name[:2]]), name="TILE_id")
assert len(VMAP["18 edge"]) == 389
PRINTED = VMAP["18 edge"].replace("-,:;", "-:;")
assert len(PRINTED) == 388
add("002 table 18 as printed", table(PRINTED), says=(392, 9, 0), place=391, name="COORDINATES")
add("002 table 18 as printed, two commas missing", table(PRINTED.replace("-,-:;", "-:;")), says=refused(3, 388))
add("002 table 16 as printed, a blank before the type", table(VMAP["16 entity node"].replace("id=I", "id= I", 1)), says=refused(3, 40))

# 1 and 2.
for n in range(6):
    add(f"a file of {n} bytes", table(P1)[:n], says=refused(1, n))
add("4 bytes and a letter", b"\x00\x00\x00\x00L", says=refused(3, 4))
add("L past the end by one", table(P1)[:-1], says=refused(1, 96))
add("L of all ones", b"\xff\xff\xff\xff" + P1.encode(), says=refused(1, 97))
add("2 before 1", b"\xff\xff\xff\xffl;", says=refused(2, 4))
for letter in "lm :\x00":
    add(f"byte 4 is {ord(letter)}", table(letter + P1[1:], order="little"), says=refused(2, 4))
add("1 before 15", (MOST_TEXT + 1).to_bytes(4, "little") + b"L;x;-;", says=refused(1, 10))

# 3: the first byte that cannot continue, or L + 4.
start = len("L;Test;-;") + 4
add("L of 0 and a file after it", b"\x00\x00\x00\x00" + P1.encode(), says=refused(3, 4))
add("the letter alone", table("L"), says=refused(3, 5))
add("no `;` after the letter", table("LL;Test;-;" + ID + ";"), says=refused(3, 5))
add("the description not closed", table("L;Test"), says=refused(3, 10))
add("description of 80", table(header(ID, description="d" * 80)), says=(len(header(ID, description="d" * 80)) + 4, 1, 4))
add("description of 81", table(header(ID, description="d" * 81)), says=refused(3, 86))
add("description empty", table(header(ID, description="")), says=(len(header(ID, description="")) + 4, 1, 4))
add("description with `: , =`", table(header(ID, description="a:b,c=d ~")), says=(len(header(ID, description="a:b,c=d ~")) + 4, 1, 4))
add("description with byte 31", table(header(ID, description="a\x1f")), says=refused(3, 7))
add("description with byte 127", table(header(ID, description="a\x7f")), says=refused(3, 7))
add("description with byte 128", table(b"L;a\x80;-;" + ID.encode() + b";"), says=refused(3, 7))
add("narrative of 12", table(header(ID, narrative="n,n:n=n nnnn")), says=(len(header(ID)) + 15, 1, 4))
add("narrative of 13", table(header(ID, narrative="n" * 13)), says=refused(3, 11 + 12))
add("narrative empty", table(header(ID, narrative="")), says=refused(3, 11))
add("no columns", table(header()), says=refused(3, start))
add("no columns and the end", table("L;Test;-;"), says=refused(3, start))
add("no `;` after the columns", table(header(ID)[:-1]), says=refused(3, start + len(ID)))
add("a `:` after the columns", table(header(ID)[:-1] + ":"), says=refused(3, start + len(ID)))
add("a blank after the columns", table(header(ID)[:-1] + " "), says=refused(3, start + len(ID) + 1))
add("a byte after the text", table(header(ID) + ";"), says=refused(3, start + len(ID) + 1))
add("name empty", table(header(column(""))), says=refused(3, start))
add("name of 24", table(header(ID, column("n" * 24))), says=(len(header(ID)) + 4 + len(column("n" * 24)), 2, 8), name="N" * 24)
add("name of 25", table(header(column("n" * 25), ID)), says=refused(3, start + 24))
for mark in ";:,":
    add(f"name with `{mark}`", table(header(column("a" + mark + "b"), ID)), says=refused(3, start + 1))
add("type of two bytes", table(header(column("a", kind="II"), ID)), says=refused(3, start + 3))
add("type empty", table(header(column("a", kind=""), ID)), says=refused(3, start + 2))
for count, at in [("", 0), ("0", 0), ("01", 0), ("123456", 5), ("1x", 1), ("**", 1), ("*1", 1), ("1*", 1), ("-1", 0), (" 1", 0)]:
    add(f"count `{count}`", table(header(column("a", kind="T", count=count), ID)), says=refused(3, start + 4 + at))
add("key of two bytes", table(header(column("a", key="PP"), ID)), says=refused(3, start + 7))
add("key empty", table(header(column("a", key=""), ID)), says=refused(3, start + 6))
add("column description of 80", table(header(ID, column("a", description="d" * 80))), says=(len(header(ID, column("a"))) + 84, 2, 8))
add("column description of 81", table(header(column("a", description="d" * 81), ID)), says=refused(3, start + 8 + 80))
add("column description with `=`", table(header(column("a", description="b=c"), ID)), says=refused(3, start + 9))
for at, part in [(9, "value"), (11, "thematic"), (13, "narrative")]:
    add(f"{part} name empty", table(header(column("a", **{part: ""}), ID)), says=refused(3, start + at))
    add(f"{part} name of 12", table(header(ID, column("a", **{part: "n" * 12}))), says=(len(header(ID, column("a"))) + 4 + 11, 2, 8))
    add(f"{part} name of 13", table(header(column("a", **{part: "n" * 13}), ID)), says=refused(3, start + at + 12))
# Document 02, No. 5: the last comma of a column may be missing, and no other; a name that is empty is not made good by it.
for names, at in [("-,-,:", 4), ("-,-:", 3), ("-:", 1), ("-,-,,:", 4), (",,,:", 0), ("-,-,-,-:", 6)]:
    add(f"the names `{names}`", table(header(column("a").replace("-,-,-,:", names), ID)), says=refused(3, start + 9 + at))
for n in (1, 12):
    text = header(column("a", narrative="n" * n, comma=False), ID)
    add(f"no comma after a name of {n}", table(text), says=(len(text) + 4, 2, 8), place=start + 14 + n)
add("no comma after a name of 13", table(header(column("a", narrative="n" * 13, comma=False), ID)), says=refused(3, start + 25))
add("no colon after a name", table(header(ID[:-2], column("a"))), says=refused(3, start + len(ID) - 2 + len("a")))
add("`;` for the colon after a name", table(header(ID[:-2])), says=refused(3, start + len(ID) - 2))
add("`=` for the colon after a name", table(header(ID[:-2] + "=")), says=refused(3, start + len(ID) - 2))
add("the colon twice after a name", table(header(ID[:-2] + "::")), says=refused(3, start + len(ID) - 1))
add("the comma twice after a name", table(header(ID[:-1] + ",:")), says=refused(3, start + len(ID) - 1))
add("the text ends after a name", table(header(ID)[:-3]), says=refused(3, start + len(ID) - 2))
for forms in [(0, 1, 1), (1, 0, 1), (1, 1, 0), (0, 0, 0)]:
    text = header(*[column(n, key=k, comma=c) for n, k, c in zip(["id", "a", "b"], "PNN", forms)])
    for letter in "LM":
        add(f"commas {forms} under {letter}", table(letter + text[1:]), says=(len(text) + 4, 3, 12), place=4 + text.index("b="), name="B")
add("two names alike, the first without its comma", table(header(ID, column("a", comma=False), column("A"))), says=refused(5, 3))
add("4 in a column without its comma", table(header(ID, column("a", kind="Q", comma=False))), says=refused(4, 2))
add("a fourth name", table(header(ID[:-1] + "-,:")), says=refused(3, start + len(ID) - 1))
add("the text ends inside a column", table(header(ID)[:20]), says=refused(3, 24))
add("3 in column 2 before 4 in column 1", table(header(column("a", kind="Q"), column("b", count="0"))), says=refused(3, start + len(column("a")) + 4))

# 4: type, key or count, by column.
for kind in "NMiGt* 1":
    add(f"type `{kind}`", table(header(ID, column("a", kind=kind))), says=refused(4, 2))
for key in "pnFK ":
    add(f"key `{key}`", table(header(ID, column("a"), column("b", key=key))), says=refused(4, 3))
for kind in WIDTHS:
    for count in ("1", "2", "*"):
        text = header(ID, column("a", kind=kind, count=count))
        right = count == "1" or kind in MANY
        width = 0 if kind == "K" or count == "*" else 4 + int(count) * WIDTHS[kind]
        add(f"{kind},{count}", table(text), says=(len(text) + 4, 2, width) if right else refused(4, 2), name="A")
for kind, count in [("T", "65535"), ("Y", "65535"), ("T", "10000")]:
    text = header(ID, column("a", kind=kind, count=count))
    add(f"{kind},{count}", table(text), says=(len(text) + 4, 2, 4 + int(count) * WIDTHS[kind]))
for count in ("65536", "99999"):
    add(f"T,{count}", table(header(ID, column("a", kind="T", count=count))), says=refused(4, 2))
add("4 of column 1 before 4 of column 2", table(header(column("a", key="Q"), column("b", kind="Q"))), says=refused(4, 1))
add("4 before 5 and 6", table(header(column("a"), column("A"), column("b", kind="F", count="2"))), says=refused(4, 3))

# 5: columns and names.
many = [ID] + [column(f"c{k}", kind="S") for k in range(2, MOST_COLUMNS + 3)]
M = MOST_COLUMNS
add(f"{M} columns", table(header(*many[:M])), says=(len(header(*many[:M])) + 4, M, 4 + (M - 1) * 2), name=f"C{M}", to=longer)
bare = [column("id", key="P", comma=False)] + [column(f"c{k}", kind="S", comma=k % 3 == 0) for k in range(2, M + 1)]
add(f"{M} columns, two of three without their comma", table(header(*bare)), says=(len(header(*bare)) + 4, M, 4 + (M - 1) * 2), name=f"C{M}", to=longer)
add(f"{M + 1} columns", table(header(*many[:M + 1])), says=refused(5, M + 1), to=longer)
add(f"{M} columns under M", table(header(*many[:M], letter="M")), says=(len(header(*many[:M])) + 4, M, 4 + (M - 1) * 2), name="c2", to=longer)
add(f"{M + 1} columns under M", table(header(*many[:M + 1], letter="M")), says=refused(5, M + 1), to=longer)
add(f"{M + 1} columns, two with one name", table(header(ID, ID, *many[2:M + 1])), says=refused(5, M + 1), to=longer)
add(f"{M + 2} columns, 4 of the last", table(header(*many[:M + 1], column("x", kind="Q"))), says=refused(4, M + 2), to=longer)
add(f"{M} columns, the last named as the first", table(header(*many[:M - 1], column("Id"))), says=refused(5, M), to=longer)
add("two names alike", table(header(ID, column("a"), column("b"), column("A"))), says=refused(5, 4))
add("a b b a", table(header(ID, column("a"), column("b"), column("B"), column("A"))), says=refused(5, 4))
add("two columns id", table(header(ID, column("ID"))), says=refused(5, 2))
add("`[` and `{` differ", table(header(ID, column("a["), column("a{"), column("a@"), column("a`"))), says=(len(header(ID, *4 * [column("a[")])) + 4, 5, 20), name="A{")
add("a blank more differs", table(header(ID, column("a"), column("a "), column(" a"))), says=(len(header(ID, *[column("a"), column("a "), column(" a")])) + 4, 4, 16), name="a ")
add("5 before 6", table(header(column("a"), column("a"))), says=refused(5, 2))

# Names of one length that begin and end alike, and bytes that have the same five bits: each another name until its bytes are the same.
alike = [ID] + [column(f"ab{k:03}xyz", kind="S") for k in range(2, M + 1)]
add("names that differ in the middle", table(header(ID, column("ab1xyz"), column("ab2xyz"))), says=(len(header(ID, *2 * [column("ab1xyz")])) + 4, 3, 12), name="AB2xyz")
add("names that differ in the middle, the second again", table(header(ID, column("ab1xyz"), column("ab2xyz"), column("AB2XYZ"))), says=refused(5, 4))
add("`1q` and `Q1`", table(header(ID, column("1q"), column("q1"), column("11"), column("qq"))), says=(len(header(ID, *4 * [column("1q")])) + 4, 5, 20), name="Q1")
add("`1q` and `1Q`", table(header(ID, column("q1"), column("1q"), column("11"), column("1Q"))), says=refused(5, 5))
add(f"{M} columns that differ in the middle", table(header(*alike)), says=(len(header(*alike)) + 4, M, 4 + (M - 1) * 2), name=f"AB{M}XYZ", to=longer)
add(f"{M} columns that differ in the middle, the first again", table(header(*alike[:-1], column("Ab002xyZ"))), says=refused(5, M), to=longer)

# 6: the id column and key P.
add("no id", table(header(column("a"), column("b"))), says=refused(6, 0))
add("`id ` is not id", table(header(column("id ", key="P"))), says=refused(6, 0))
add("iD last", table(header(column("a"), column("iD", key="P"))), says=(len(header(column("a"), column("iD"))) + 4, 2, 8), name="id")
add("id of type S", table(header(column("id", kind="S", key="P"))), says=refused(6, 0))
for key in "UN":
    add(f"id with key {key}", table(header(column("id", key=key), column("a"))), says=refused(6, 0))
add("another key P", table(header(ID, column("a", key="P"))), says=refused(6, 0))
add("key P on another column alone", table(header(column("id"), column("a", key="P"))), says=refused(6, 0))
add("key U on another column", table(header(ID, column("a", key="U"))), says=(len(header(ID, column("a"))) + 4, 2, 8))

# The longest header that is accepted, and L of 32,767 and 32,768: in the grammar, with more than 200 columns.
full = [column(f"{k:03}".ljust(24, "n"), kind="Y", count="65535", description="d" * 80, value="v" * 12, thematic="t" * 12, narrative="r" * 12) for k in range(M - 1)]
full_id = column("id", key="P", description="d" * 80, value="v" * 12, thematic="t" * 12, narrative="r" * 12)
longest = header(full_id, *full, description="d" * 80, narrative="n" * 12)
assert len(longest) == 20039
add("the longest header", table(longest), says=(len(longest) + 4, M, 4 + (M - 1) * 65535 * 24), to=long)


def of_length(length):
    columns = [ID] + [column(f"c{k}", description="d" * 80) for k in range(2, 301)]
    rest = length - len(header(*columns))
    assert 0 <= rest
    for k in range(len(columns)):
        more = min(rest, 33)
        columns[k] = columns[k].replace(",-,-,-,:", f",{'v' * (1 + more // 3)},{'t' * (1 + more // 3)},{'r' * (1 + more - 2 * (more // 3))},:")
        rest -= more
    assert rest == 0 and len(header(*columns)) == length
    return header(*columns)


add("L of 32,767", table(of_length(MOST_TEXT)), says=refused(5, M + 1), to=long)
add("L of 32,768", table(of_length(MOST_TEXT + 1)), says=refused(15, 0), to=longer)
add("L of 32,768 and no header text", table("M" + "x" * MOST_TEXT), says=refused(15, 0))


# Outside cases of names: the answer alone.
names = [Cases("header_cases", "names"), Cases("header_cases", "more_names")]
for k, values in outside.cases("03-headers"):
    file, bad = table(values["text"]), outside.refusal(values["answer"])
    says = refused(*bad) if bad else f"accepted, columns {values['answer'].removeprefix('ok ')}"
    assert says == verdict(file), (k, says, verdict(file))
    to = names[0] if len(names[0].data) + len(file) + 40 <= MOST_BYTES and not names[1].data else names[1]
    to.add(f"03-headers {k}", [file], says)

(cases.crate / "stdout").write_text("".join(c.write() for c in [cases, long, longer, *names]))
