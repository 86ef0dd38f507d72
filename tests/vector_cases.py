"""Lays the tile directories of tests/vectors out for the program vector_cases, with what stands in each as what must be written for it; and
beside them the sizes of files that document 01 says are too large, which the program can be told without such a file."""
import pathlib
import shutil

from casefile import CRATES, MOST_BYTES, field, number

VECTORS = pathlib.Path(__file__).resolve().parent / "vectors"
FILES = ["edg", "edx", "fac", "rng", "cnd", "cnx"]

crate = CRATES / "vector_cases"
cases, answers = [], []


def size(vector, file):
    """How large a file of a directory is; one that is not there counts as empty."""
    path = VECTORS / vector / file
    return path.stat().st_size if path.exists() else 0


def said(vector):
    return (VECTORS / vector / "expected").read_text()


def add(label, vector, says, **sizes):
    """A case; a size that is given stands for a file of that size, of which the program holds what is there."""
    told = b"".join(number(sizes.get(f, size(vector, f)), 8) for f in FILES)
    cases.append(field(b"".join(map(field, [label.encode(), *(f"{vector}/{f}".encode() for f in FILES), told]))))
    answers.append(f"{label}\n{says}")


# --- every directory

vectors = sorted(p.name for p in VECTORS.iterdir() if p.is_dir())
for vector in vectors:
    add(vector, vector, said(vector))

# --- sizes first, in the order of the files

for f in FILES[:5]:
    add(f"{f} of 65,536 bytes", "mj21", said("mj21"), **{f: MOST_BYTES})
    add(f"{f} of 65,537 bytes", "mj21", f"REFUSE {f} 15 0\n", **{f: MOST_BYTES + 1})
add("all too large", "mj21", "REFUSE edg 15 0\n", **{f: 2**40 for f in FILES})
add("edx and later too large", "mj21", "REFUSE edx 15 0\n", **{f: 2**64 - 1 for f in FILES[1:]})
add("rng too large, edg refused", "refuse-edg-1", "REFUSE rng 15 0\n", rng=MOST_BYTES + 1)
add("cnx too large, but no K in cnd", "mj21", said("mj21"), cnx=MOST_BYTES + 1)
with_index = next(v for v in vectors if v.startswith("accept-") and size(v, "cnx"))
add("cnx too large, K in cnd", with_index, "REFUSE cnx 15 0\n", cnx=MOST_BYTES + 1)
add("cnx of 65,536 bytes", with_index, said(with_index), cnx=MOST_BYTES)
add("cnx too large, cnd refused", "refuse-cnd-3", said("refuse-cnd-3"), cnx=MOST_BYTES + 1)

# --- a file has never less than what is lent of it: a smaller size that is said has no effect

for vector, fewer in [("mj21", FILES[:5]), (with_index, ["cnx"]), ("refuse-rng-30", [])]:
    for f in fewer:
        add(f"{vector}, {f} said to be empty", vector, said(vector), **{f: 0})
        add(f"{vector}, {f} said to have a byte less", vector, said(vector), **{f: size(vector, f) - 1})
    add(f"{vector}, all said to be empty", vector, said(vector), **{f: 0 for f in FILES})
add("all said to be empty but rng, too large", "mj21", "REFUSE rng 15 0\n", **({f: 0 for f in FILES} | {"rng": MOST_BYTES + 1}))

# --- the files, and the list of cases beside them

data = crate / "data"
shutil.rmtree(data, ignore_errors=True)
for vector in vectors:
    (data / vector).mkdir(parents=True)
    for f in FILES:
        if (VECTORS / vector / f).exists():
            shutil.copyfile(VECTORS / vector / f, data / vector / f)
assert sum(map(len, cases)) <= MOST_BYTES
(data / "cases").write_bytes(b"".join(cases))
(crate / "stdout").write_text("".join(answers))
refused = {tuple(line.split()[1:3]) for a in answers for line in a.splitlines() if line.startswith("REFUSE")}
assert {f for f, _ in refused} == set(FILES)
print(len(cases), "tiles;", len(refused), "pairs of file and number refused")
