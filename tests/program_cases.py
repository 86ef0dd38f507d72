"""Runs the program tilecheck as it was built, and holds what it writes to document 01.
    program_cases.py FAILING_READ PROGRAM RUNNER..
RUNNER is the command that runs a program, FAILING_READ the library made of native/failing_read.c, which RUNNER takes after `--preload`.
The last line is `N passed, M failed`; native/program calls this.

What must be written comes from the directories of tests/vectors, and from these rules of document 01. "A file that cannot be read counts as
empty": an empty table is refused with 1 at 0, an empty index that is needed with 8 at 0. "each at most 65,536 bytes ... Larger is 15":
here stand files of 65,536 bytes and more, which the program reads whole, or finds larger by one byte more."""
import errno
import os
import pathlib
import re
import shutil
import struct
import subprocess
import sys
import tempfile

from casefile import MOST_BYTES

VECTORS = pathlib.Path(__file__).resolve().parent / "vectors"
FILES = ["edg", "edx", "fac", "rng", "cnd", "cnx"]
INDEX_OF = {"edg": "edx", "cnd": "cnx"}
MOST_TRIES = 100  # interrupted reads of a file that are tried again
WITHOUT_END = 10**9
NOBODY = 65534

failing_read, program, *runner = sys.argv[1:]
passed = failed = 0


# --- running

def run(folder, reads=None, user=None):
    """What the program writes in a folder; with `reads` under the library that makes reads fail."""
    command = runner + (["--preload", failing_read] if reads is not None else []) + [program]
    env = os.environ | {f"READ_{k.upper()}": str(v) for k, v in (reads or {}).items()}
    as_user = {"user": user, "group": user, "extra_groups": []} if user else {}
    try:
        done = subprocess.run(command, cwd=folder, env=env, stdin=subprocess.DEVNULL, capture_output=True, timeout=60, **as_user)
    except subprocess.TimeoutExpired:
        return "", "it did not end within a minute", None
    return done.stdout.decode(errors="replace"), done.stderr.decode(errors="replace"), done.returncode


def expect(label, says, got):
    """Counts a run: it must write `says`, nothing to standard error, and end well."""
    global passed, failed
    if got == (says, "", 0):
        passed += 1
    else:
        failed += 1
        print(f"{label}: must write {says!r}, and wrote {got[0]!r}; standard error {got[1]!r}, exit status {got[2]}")


def laid(files, folder):
    """The files in a new folder. None stands for a directory of that name."""
    place = pathlib.Path(tempfile.mkdtemp(dir=folder))
    place.chmod(0o755)
    for name, data in files.items():
        if data is None:
            (place / name).mkdir()
        else:
            (place / name).write_bytes(data)
    return place


def case(label, files, says, **reads):
    with tempfile.TemporaryDirectory() as folder:
        expect(label, says, run(laid(files, folder), reads or None))


# --- tiles, and what is known of them

def tile(vector):
    return {f: (VECTORS / vector / f).read_bytes() for f in FILES if (VECTORS / vector / f).exists()}


def said(vector):
    return (VECTORS / vector / "expected").read_text()


def head(table):
    """The byte order of a table, and where its rows start."""
    order = ">" if table[4:5] == b"M" else "<"
    return order, 4 + struct.unpack(order + "I", table[:4])[0]


def needs_index(table):
    """Whether a column is K or has a count `*`."""
    return any(kind == b"K" or count == b"*" for kind, count in re.findall(rb"=(.),(\*|\d+),", table[4:head(table)[1]]))


def is_read(name, files):
    return name != "cnx" or needs_index(files["cnd"])


def unread(name, files, otherwise):
    """What is written of an accepted tile once a file of it cannot be read."""
    if name in INDEX_OF.values():
        table = next(t for t, index in INDEX_OF.items() if index == name)
        return f"REFUSE {name} 8 0\n" if needs_index(files[table]) else otherwise
    return f"REFUSE {name} 1 0\n"


def widened(table, rows, total):
    """A table of these rows with one text column more, so wide that the file has `total` bytes; where each row starts, and how long it is."""
    order, start = head(table)
    text = table[4:start]
    for described in range(len(rows)):
        def column(width):
            return b"wide=T,%d,N,%s,-,-,-,:;" % (width, b"x" * described)

        room = total - 4 - len(text) + 1 - len(column(10000)) - sum(map(len, rows))
        if room % len(rows) == 0:
            break
    width = room // len(rows)
    assert 10000 <= width <= 65535
    text = text[:-1] + column(width)
    rows = [row + width * b" " for row in rows]
    file = struct.pack(order + "I", len(text)) + text + b"".join(rows)
    assert len(file) == total
    starts = [4 + len(text) + sum(map(len, rows[:i])) for i in range(len(rows))]
    return file, list(zip(starts, map(len, rows)))


def with_size(files, name, total):
    """The tile MJ21 with a table of it widened to so many bytes, its index after it."""
    files = dict(files)
    order, start = head(files[name])
    body = files[name][start:]
    if name in INDEX_OF and needs_index(files[name]):
        count = struct.unpack(order + "I", files[INDEX_OF[name]][:4])[0]
        pairs = list(struct.iter_unpack(order + "II", files[INDEX_OF[name]][8:]))
    else:
        count = {"fac": 2, "rng": 2, "cnd": 3}[name]
        width = len(body) // count
        pairs = [(start + width * i, width) for i in range(count)]
    rows = [files[name][at:at + length] for at, length in pairs]
    assert b"".join(rows) == body
    files[name], pairs = widened(files[name], rows, total)
    if name in INDEX_OF and needs_index(files[name]):
        files[INDEX_OF[name]] = struct.pack(order + "II", count, pairs[0][0]) + b"".join(struct.pack(order + "II", *p) for p in pairs)
    return files


MJ21, MJ21_SAYS = tile("mj21"), said("mj21")
K_VECTOR = next(v.name for v in sorted(VECTORS.glob("accept-*")) if (v / "cnx").exists())
WITH_K, WITH_K_SAYS = tile(K_VECTOR), said(K_VECTOR)
assert needs_index(MJ21["edg"]) and not needs_index(MJ21["cnd"])
assert needs_index(WITH_K["cnd"])
TILES = [("mj21", MJ21, MJ21_SAYS), (K_VECTOR, WITH_K, WITH_K_SAYS)]


# --- every directory of tests/vectors, read at once and seven bytes at a time

for vector in sorted(p for p in VECTORS.iterdir() if p.is_dir()):
    expect(vector.name, said(vector.name), run(vector))
    expect(f"{vector.name}, seven bytes a read", said(vector.name), run(vector, {"part": 7}))

# --- a file that cannot be read: missing, empty, a directory, one that may not be read

for label, files, says in TILES:
    for f in FILES:
        says_without = unread(f, files, says)
        case(f"{label}, {f} missing", {k: v for k, v in files.items() if k != f}, says_without)
        case(f"{label}, {f} empty", files | {f: b""}, says_without)
        case(f"{label}, {f} a directory", files | {f: None}, says_without)
case("an empty directory", {}, "REFUSE edg 1 0\n")
case("rng and fac missing", {f: MJ21[f] for f in ["edg", "edx", "cnd"]}, "REFUSE fac 1 0\n")


def unreadable():
    """Files of mode 000. The superuser may read them, so it runs the program as another user; where that cannot be, the cases are left out."""
    user = NOBODY if os.getuid() == 0 else None
    with tempfile.TemporaryDirectory() as folder:
        os.chmod(folder, 0o755)
        try:
            can = run(laid(MJ21, folder), user=user) == (MJ21_SAYS, "", 0)
        except OSError:
            can = False
        if not can:
            print("left out: files that may not be read (the program cannot be run as a user who may not read them)")
            return
        for label, files, says in TILES:
            for f in files:
                place = laid(files, folder)
                (place / f).chmod(0)
                expect(f"{label}, {f} may not be read", unread(f, files, says), run(place, user=user))


unreadable()

# --- cnx, read only beside a cnd that shows K

wrong = struct.pack(">II", 1, 0)
case("a wrong cnx, no K in cnd", MJ21 | {"cnx": wrong}, MJ21_SAYS)
case("a wrong cnx, K in cnd", WITH_K | {"cnx": wrong}, "REFUSE cnx 8 0\n")
case("reads of cnx fail, no K in cnd", MJ21 | {"cnx": wrong}, MJ21_SAYS, file="cnx", errno=errno.EIO, **{"from": 1})
with tempfile.TemporaryDirectory() as folder:  # to open a pipe that nobody writes to would take for ever
    place = laid(MJ21, folder)
    os.mkfifo(place / "cnx")
    expect("a pipe as cnx, no K in cnd", MJ21_SAYS, run(place))
case("cnd refused, cnx too large", tile("refuse-cnd-3") | {"cnx": bytes(MOST_BYTES + 1)}, said("refuse-cnd-3"))

# --- sizes: a table of 65,536 bytes is judged as any other, and an index of so many has not 8 + 8n

for f in ["edg", "fac", "rng", "cnd"]:
    case(f"{f} of 65,536 bytes", with_size(MJ21, f, MOST_BYTES), MJ21_SAYS)
    case(f"{f} of 65,537 bytes", with_size(MJ21, f, MOST_BYTES + 1), f"REFUSE {f} 15 0\n")
    case(f"{f} of 65,536 bytes, 1,000 a read", with_size(MJ21, f, MOST_BYTES), MJ21_SAYS, file=f, part=1000)
    case(f"{f} of 65,537 bytes, 65,536 a read", with_size(MJ21, f, MOST_BYTES + 1), f"REFUSE {f} 15 0\n", file=f, part=MOST_BYTES)
    case(f"{f} much larger", MJ21 | {f: MJ21[f] + bytes(300000)}, f"REFUSE {f} 15 0\n")
for f, files in [("edx", MJ21), ("cnx", WITH_K)]:
    case(f"{f} of 65,536 bytes", files | {f: files[f].ljust(MOST_BYTES, b"\0")}, f"REFUSE {f} 8 0\n")
    case(f"{f} of 65,537 bytes", files | {f: files[f].ljust(MOST_BYTES + 1, b"\0")}, f"REFUSE {f} 15 0\n")
case("cnx of 65,537 bytes, no K in cnd", MJ21 | {"cnx": bytes(MOST_BYTES + 1)}, MJ21_SAYS)
everything = MJ21
for f in ["edg", "fac", "rng", "cnd"]:
    everything = with_size(everything, f, MOST_BYTES)
case("four tables of 65,536 bytes", everything, MJ21_SAYS)
for k, f in enumerate(FILES):
    large = {g: bytes(MOST_BYTES + 1) for g in FILES[k:]}
    # cnx is too large where it is read, and it is read only beside an accepted cnd with K
    case(f"{f} and all after it too large", WITH_K | large, f"REFUSE {f} 15 0\n")
case("cnx too large, edg empty", WITH_K | {"edg": b"", "cnx": bytes(MOST_BYTES + 1)}, "REFUSE cnx 15 0\n")

# --- reads that fail: at the start, midway, at the end

for label, files, says in TILES:
    for f in files:
        bytes_there = len(files[f])
        for when, reads in [("at the start", {"from": 1}), ("at the end", {"from": 2}), ("midway", {"part": max(1, bytes_there // 2), "from": 2})]:
            case(f"{label}, reads of {f} fail {when}", files, unread(f, files, says), file=f, errno=errno.EIO, **reads)
# a third ring that names the cycle of the second: the file without it is that of an accepted tile
third = MJ21 | {"rng": MJ21["rng"] + struct.pack("<III", 3, 2, 2)}
before_third = {"file": "rng", "part": len(MJ21["rng"])}
case("a third ring", third, "REFUSE rng 30 3\n")
case("a third ring, two reads", third, "REFUSE rng 30 3\n", **before_third)
case("a third ring, a read fails before it", third, "REFUSE rng 1 0\n", **before_third, errno=errno.EIO, **{"from": 2})
case("a third ring, reads interrupted before it without end", third, "REFUSE rng 1 0\n", **before_third, errno=errno.EINTR,
     times=WITHOUT_END, **{"from": 2})
case("a third ring, a read interrupted before it", third, "REFUSE rng 30 3\n", **before_third, errno=errno.EINTR, **{"from": 2})
# the byte that shows a file too large cannot be read
for f in ["edg", "fac", "rng", "cnd"]:
    case(f"{f} of 65,537 bytes, its last not read", with_size(MJ21, f, MOST_BYTES + 1), f"REFUSE {f} 1 0\n",
         file=f, part=MOST_BYTES, errno=errno.EIO, **{"from": 2})

# --- reads interrupted by a signal: once, as often as they are tried again, once more, without end

for label, files, says in TILES:
    for f in files:
        for first in [1, 2]:
            for times, read in [(1, True), (MOST_TRIES, True), (MOST_TRIES + 1, False), (WITHOUT_END, False)]:
                case(f"{label}, reads of {f} interrupted from the {first}. on, {times} times", files, says if read else unread(f, files, says),
                     file=f, errno=errno.EINTR, times=times, **{"from": first})

# --- an answer that cannot be written: the program ends with status 1, and says so on standard error

for vector in ["mj21", "refuse-edg-20"]:
    with open("/dev/full", "w") as full:
        done = subprocess.run(runner + [program], cwd=VECTORS / vector, stdin=subprocess.DEVNULL, stdout=full, stderr=subprocess.PIPE, timeout=60)
    told = done.stderr.decode(errors="replace")
    if done.returncode == 1 and re.fullmatch("Error: .+\n", told):
        passed += 1
    else:
        failed += 1
        print(f"{vector}, to a full device: must end with status 1 and a line of Error, and ended with {done.returncode} and {told!r}")

print(f"{passed} passed, {failed} failed")
sys.exit(failed != 0 or passed == 0)
