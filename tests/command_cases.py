"""Runs the command ./tilecheck as users and scripts do: a table of cases, each with what stands in its directory, the arguments, and what
must come on standard output, on standard error and as status. The program is the one that is built (it is built first where it is not);
the project is a copy in a temporary folder, so that nothing here changes the checkout. Ends `N passed, 0 failed`.

    python3 tests/command_cases.py            all cases
    python3 tests/command_cases.py WORD...    those with one of the words in their name
    python3 tests/command_cases.py measure    the figures of docs/COMMAND.md: stack, memory and time
"""
import functools
import os
import pathlib
import re
import shutil
import signal
import socket
import subprocess
import sys
import tempfile
import time

HERE = pathlib.Path(__file__).resolve().parent
CHECKOUT = HERE.parent
VECTORS = HERE / "vectors"
FILES = ["edg", "edx", "fac", "rng", "cnd", "cnx"]
MJ21 = (VECTORS / "mj21" / "expected").read_text()
SHIPPED = r"tilecheck: no directory was named: this is the standard's tile MJ21, .*\n"
NOTHING = ""
ROOT = os.getuid() == 0
NOBODY = ["setpriv", "--reuid=65534", "--regid=65534", "--clear-groups"] if ROOT else []



def crates_of(wanted):
    """Which crates of crates.txt a crate stands on, and itself, in the order in which the kit proves them; and all others."""
    lines = [text.split("#")[0].partition(":") for text in (CHECKOUT / "crates.txt").read_text().splitlines()]
    deps = {name.split()[0]: after.split() for name, colon, after in lines if colon}
    reached = []

    def reach(crate):
        if crate in deps and crate not in reached:
            for dep in deps[crate]:
                reach(dep)
            reached.append(crate)

    reach(wanted)
    return reached, [crate for crate in deps if crate not in reached]


UNDER, OTHERS = crates_of("tilecheck")
ALL = len(UNDER)
NUMBER = UNDER.index("number") + 1  # which of them the acted kit proves

work = pathlib.Path(tempfile.mkdtemp(prefix="command_cases."))
work.chmod(0o755)
real_kit = shutil.which("rt")
cases = []


# ---- what stands in a directory

def tile(name, vector="mj21", **names):
    """A tile of tests/vectors under a name; where it is said, a file under another name, or under several."""
    os.mkdir(name)
    for file in FILES:
        for other in names.get(file, file).split(","):
            if (VECTORS / vector / file).exists():
                shutil.copy(VECTORS / vector / file, pathlib.Path(name) / other)


def tiles(*names):
    """Tiles by their vectors' names."""
    return lambda: [tile(name, name) for name in names]


def table(name, columns, rows):
    """A table of numbers, written to a file."""
    head = "L;-;-;" + "".join(f"{c}=I,1,{'P' if c == 'id' else 'N'},-,-,-,-,:" for c in ["id", *columns]) + ";"
    numbers = [n for i, row in enumerate(rows, 1) for n in (i, *row)]
    pathlib.Path(name).write_bytes(len(head).to_bytes(4, "little") + head.encode() + b"".join(n.to_bytes(4, "little") for n in numbers))


EDGE = ["start_node", "end_node", "right_face", "left_face", "right_edge", "left_edge"]


def loops(name, k):
    """k loops side by side in one face: 2k rings, all of one step. What the program must write of it."""
    os.mkdir(name)
    table(f"{name}/edg", EDGE, [(i, i, 1, i + 1, i, i) for i in range(1, k + 1)])
    table(f"{name}/fac", ["ring_ptr"], [(1,)] + [(k + i,) for i in range(1, k + 1)])
    table(f"{name}/rng", ["fac_id", "start_edge"], [(1, i) for i in range(1, k + 1)] + [(i + 1, i) for i in range(1, k + 1)])
    table(f"{name}/cnd", ["first_edge"], [(i,) for i in range(1, k + 1)])
    rings = [f"ring {r} face {1 if r <= k else r - k + 1} steps 1" for r in range(1, 2 * k + 1)]
    return "\n".join([f"ACCEPT nodes {k} edges {k} faces {k + 1} rings {2 * k}", *rings, f"steps {2 * k}"]) + "\n"


def round_tile(name, k):
    """k edges around one face: two rings of k steps."""
    os.mkdir(name)
    table(f"{name}/edg", EDGE, [(i, i % k + 1, 2, 1, i % k + 1, (i - 2) % k + 1) for i in range(1, k + 1)])
    table(f"{name}/fac", ["ring_ptr"], [(1,), (2,)])
    table(f"{name}/rng", ["fac_id", "start_edge"], [(1, 1), (2, 1)])
    table(f"{name}/cnd", ["first_edge"], [(i,) for i in range(1, k + 1)])
    return f"ACCEPT nodes {k} edges {k} faces 2 rings 2\nring 1 face 1 steps {k}\nring 2 face 2 steps {k}\nsteps {2 * k}\n"


def replaced(name, file, make):
    """MJ21 with something else in a file's place."""
    tile(name)
    os.remove(f"{name}/{file}")
    make(f"{name}/{file}")


def bind(path):
    socket.socket(socket.AF_UNIX).bind(path)


def kept_program():
    """The program of the checkout, as the command keeps it."""
    sources, kit, digest = (CHECKOUT / "target/command/tilecheck").read_text().split("\n")[:3]
    return CHECKOUT / "target/command" / f"tilecheck-{digest}"


def project(name, built=True, libraries=False):
    """A copy of the project, with what is built of it."""
    to = work / name
    to.mkdir()
    shutil.copy(CHECKOUT / "tilecheck", to)
    shutil.copy(CHECKOUT / "crates.txt", to)
    shutil.copytree(CHECKOUT / "command", to / "command")
    shutil.copytree(CHECKOUT / "crates", to / "crates", symlinks=True, ignore=shutil.ignore_patterns("out"))
    shutil.copytree(VECTORS / "mj21", to / "tests" / "vectors" / "mj21")
    (to / "target").mkdir()
    if built:
        (to / "target/command").mkdir()
        for part in [kept_program(), CHECKOUT / "target/command/tilecheck"]:
            shutil.copy(part, to / "target/command")
        (to / "crates/tilecheck/out").mkdir()
        shutil.copy(kept_program(), to / "crates/tilecheck/out/tilecheck")
        (to / "crates/tilecheck/out/tilecheck.stamp").write_text("another\n")
    if libraries:
        subprocess.run([real_kit, "run"], cwd=CHECKOUT / "crates/tilecheck", stdin=subprocess.DEVNULL, capture_output=True, check=True)
        for crate in UNDER[:-1]:
            shutil.copytree(CHECKOUT / "crates" / crate / "out/rlib", to / "crates" / crate / "out/rlib")
    return to


# ---- the kit, acted: `rt run` does what the case wants and is counted; all else is the kit's own

ACTED = r"""#!/bin/sh
[ "$1" = run ] || exec "$REAL_KIT" "$@"
[ "${PWD##*/}" = tilecheck ] && cd ../.. || exit 2
out=crates/tilecheck/out
sum=$(find crates -name out -prune -o -type f -exec sha256sum {} + | sort | sha256sum)
began() { echo "rt: chose --jobs 2 for $1"; }
proved() { echo "logic=proved functions=1 native=nat,char,string logic-built=trusted libraries-built=trusted statements=trusted incremental=trusted"; }
ran() { echo "rt: running out/tilecheck; to give it other input, run that file yourself"; echo "REFUSE edg 1 0"; exit 0; }
finish() { room=$(mktemp -d) && rmdir "$room" || exit 1; mkdir -p $out; began tilecheck; cp "$ACTED_PROGRAM" $out/tilecheck; echo "$sum" >$out/tilecheck.stamp; proved; ran; }
if [ -e $out/tilecheck.stamp ] && [ "$sum" = "$(cat $out/tilecheck.stamp)" ]; then
    echo again >>"$ACTED_LOG"
    echo "rt: nothing has changed since the last proved build, by out/tilecheck.stamp, so nothing is checked now"
    ran
fi
echo check >>"$ACTED_LOG"
case $ACTED in
quick) finish ;;
slow) began number; sleep 1.5; proved; sleep 1.5; finish ;;
hang) echo $$ >>"$ACTED_LOG.pids"; (trap '' INT TERM; mkdir -p $out; echo half >$out/tilecheck; sleep 600) & echo $! >>"$ACTED_LOG.pids"; wait ;;
fail) echo "error: it is not so: src/lib.rt:1:1"; echo "rt: the library laws did not build, so nothing above it was checked"; exit 1 ;;
broken) [ -e $out/tilecheck.stamp ] && { echo "rt: nothing has changed since the last proved build"; exit 0; }; finish ;;
change-once) [ -e "$ACTED_LOG.changed" ] || echo '// a word more' >>crates/laws/src/lib.rt; : >"$ACTED_LOG.changed"; finish ;;
others) [ -e "$ACTED_LOG.changed" ] || sum=others; : >"$ACTED_LOG.changed"; finish ;;
back) [ -e "$ACTED_LOG.changed" ] || { cp -p crates/laws/src/lib.rt "$ACTED_LOG.was"; echo '// a word more' >>crates/laws/src/lib.rt; sleep 0.1; cp -p "$ACTED_LOG.was" crates/laws/src/lib.rt; }
    : >"$ACTED_LOG.changed"; finish ;;
change-always) echo '// a word more' >>crates/laws/src/lib.rt; finish ;;
esac
"""


def acted(what, **more):
    place = pathlib.Path(tempfile.mkdtemp(dir=work))
    place.chmod(0o755)
    (place / "bin").mkdir()
    (place / "bin/rt").write_text(ACTED)
    (place / "bin/rt").chmod(0o755)
    shutil.copy(kit() / "KIT-ID", place)
    (place / "toolchain").symlink_to(kit() / "toolchain")
    (place / "log").write_text("")
    return {"PATH": f"{place}/bin:{os.environ['PATH']}", "REAL_KIT": real_kit, "ACTED": what, "ACTED_LOG": str(place / "log"),
            "ACTED_PROGRAM": str(kept_program()), **more}


def asked(env):
    """How often the kit was asked, and had to prove something."""
    return pathlib.Path(env["ACTED_LOG"]).read_text().count("check")


# ---- one run

def run(args, env=None, command=None, before=(), timeout=120, **more):
    """Status, standard output and standard error of the command."""
    command = command or [str(built / "tilecheck")]
    env = env() if callable(env) else env
    more.setdefault("stdout", subprocess.PIPE)
    more.setdefault("stderr", subprocess.PIPE)
    done = subprocess.run([*before, *command, *args], env={**os.environ, **(env or {})}, stdin=subprocess.DEVNULL, timeout=timeout, **more)
    return done.returncode, (done.stdout or b"").decode(), (done.stderr or b"").decode()


def start(args, env, command):
    return subprocess.Popen([str(command), *args], env={**os.environ, **env}, stdin=subprocess.DEVNULL, stdout=subprocess.PIPE, stderr=subprocess.PIPE)


def expect(got, stdout, stderr, status):
    assert got[1] == stdout, f"standard output is {got[1]!r}, not {stdout!r}"
    assert re.fullmatch(stderr, got[2], re.S), f"standard error is {got[2]!r}, not {stderr!r}"
    assert got[0] == status, f"the status is {got[0]}, not {status}"


def case(name, make, args, stdout, stderr, status, **how):
    """A row of the table: what is made in the case's own directory, the arguments, and what must come."""
    def act():
        make()
        expect(run(args, **how), stdout, stderr, status)
    cases.append((name, act))


def of(act):
    """A case that is more than one run."""
    cases.append((act.__doc__, act))
    return act


def nothing():
    pass


def line(text):
    return "tilecheck: " + text + r"\n"


def all_of(*makes):
    return lambda: [make() for make in makes]


def several(*named):
    """What is written of several directories: (name, vector), or (name, None, why)."""
    lines, counts = [], [0, 0, 0]
    for name, vector, *why in named:
        said = (VECTORS / vector / "expected").read_text().splitlines() if vector else [f"NOT JUDGED: {why[0]}"]
        lines += [f"{name}: {text}" for text in said]
        counts[0 if said[0].startswith("ACCEPT") else 1 if vector else 2] += 1
    return "\n".join(lines) + "\n{} accepted, {} refused, {} not judged\n".format(*counts)


# ---- never an answer for a tile that was not named

case("named: no argument is the shipped tile, and it is said", nothing, [], MJ21, SHIPPED, 0)
case("named: an empty argument", nothing, [""], NOTHING, line("an empty argument names no directory"), 2)
case("named: an empty argument beside a tile", tiles("mj21"), ["mj21", ""], NOTHING, line("an empty argument names no directory"), 2)
case("named: an empty argument after --", tiles("mj21"), ["--", ""], NOTHING, line("an empty argument names no directory"), 2)
case("named: nothing after --", nothing, ["--"], NOTHING, line("no directory was named after --"), 2)
case("named: an option that is not known", tiles("mj21"), ["--quiet", "mj21"], NOTHING, line("there is no option --quiet; .*"), 2)
case("named: an option after a directory", tiles("mj21"), ["mj21", "-v"], NOTHING, line("there is no option -v; .*"), 2)
case("named: a help that does not stand alone", tiles("mj21"), ["--help", "mj21"], NOTHING, line("--help stands alone"), 2)
case("named: a directory that is not there", nothing, ["none"], NOTHING, line("there is no directory none"), 2)
case("named: a blank", nothing, [" "], NOTHING, line("there is no directory  "), 2)
case("named: a file", lambda: open("f", "w").close(), ["f"], NOTHING, line("there is no directory f"), 2)
case("named: a name that ends with a line break", all_of(lambda: tile("t"), lambda: tile("t\n", "refuse-edg-20")), ["t\n"],
     (VECTORS / "refuse-edg-20" / "expected").read_text(), NOTHING, 1)
case("named: what is not there is shown on one line", nothing, ["a\nb\x1b"], NOTHING, line(r"there is no directory a\?b\?"), 2)
case("named: a line break among several", all_of(lambda: tile("t"), lambda: tile("t\n")), ["t", "t\n"], NOTHING, line(".* has a line break: .*"), 2)
case("named: a tile through a link and back is the one the system finds", all_of(lambda: os.makedirs("a/b"), lambda: os.symlink("a/b", "l"),
     lambda: tile("a/t"), lambda: tile("t", "refuse-edg-20")), ["l/../t"], MJ21, NOTHING, 0)
case("named: an empty directory is a tile of empty files", lambda: os.mkdir("t"), ["t"], "REFUSE edg 1 0\n", NOTHING, 1)

# ---- one directory and several

case("one: accepted", tiles("mj21"), ["mj21"], MJ21, NOTHING, 0)
case("one: accepted, after --", tiles("mj21"), ["--", "mj21"], MJ21, NOTHING, 0)
case("one: refused", tiles("refuse-rng-30"), ["refuse-rng-30"], (VECTORS / "refuse-rng-30" / "expected").read_text(), NOTHING, 1)
case("several: all accepted", tiles("mj21", "empty"), ["mj21", "empty"], several(("mj21", "mj21"), ("empty", "empty")), NOTHING, 0)
case("several: one twice", tiles("mj21"), ["mj21", "mj21/"], several(("mj21", "mj21"), ("mj21/", "mj21")), NOTHING, 0)
case("several: one refused", tiles("refuse-edg-20", "mj21"), ["refuse-edg-20", "mj21"], several(("refuse-edg-20", "refuse-edg-20"), ("mj21", "mj21")), NOTHING, 1)
case("several: one is not there", tiles("refuse-edg-20", "mj21"), ["refuse-edg-20", "none", "mj21"],
     several(("refuse-edg-20", "refuse-edg-20"), ("none", None, "there is no directory none"), ("mj21", "mj21")), NOTHING, 2)
case("several: one has two files for edg", all_of(lambda: tile("t", edg="EDG,edg."), lambda: tile("u")), ["t", "u"],
     several(("t", None, "two files stand for edg in t: EDG and edg."), ("u", "mj21")), NOTHING, 2)
case("several: names that a format or a pattern could take for more", all_of(lambda: tile("%s\\n*"), lambda: tile("a b")), ["%s\\n*", "a b"],
     several(("%s\\n*", "mj21"), ("a b", "mj21")), NOTHING, 0)
vectors = sorted(p.name for p in VECTORS.iterdir() if p.is_dir())
case("several: every vector", lambda: os.symlink(VECTORS, "v"), [f"v/{v}" for v in vectors], several(*((f"v/{v}", v) for v in vectors)), NOTHING, 1)


@of
def shown_in_readme():
    """one: what the README shows is what comes"""
    text = (CHECKOUT / "README.md").read_text()
    shown = re.findall(r"^    \$ \./tilecheck (\S+)\n((?:    (?!\$).*\n)+)", text, re.M)
    assert len(shown) >= 2, shown
    for directory, said in shown:
        expect(run([str(CHECKOUT / directory)]), re.sub("^    ", "", said, flags=re.M), NOTHING, 0 if "ACCEPT" in said else 1)


@of
def large():
    """several: large tiles, one of 1,998 rings and one of 2,000 edges around, whole"""
    many, around = loops("l", 999), round_tile("r", 2000)
    expect(run(["l"]), many, NOTHING, 0)
    expect(run(["r"]), around, NOTHING, 0)
    both = "".join(f"{name}: {text}\n" for name, said in (("l", many), ("r", around)) for text in said.splitlines())
    expect(run(["l", "r"]), both + "2 accepted, 0 refused, 0 not judged\n", NOTHING, 0)


@of
def help_and_version():
    """help and version: they do what they say"""
    status, said, told = run(["--help"])
    assert status == 0 and said.startswith("usage: tilecheck") and "Status: 0" in said and not told, said
    status, said, told = run(["--version"])
    assert status == 0 and re.fullmatch(r"tilecheck of Vumbarete, sources [0-9a-f]{64}, program [0-9a-f]{64}, built by .*\n", said) and not told, said
    new = project("version", built=False)
    status, said, told = run(["--version"], command=[str(new / "tilecheck")])
    assert status == 0 and said.endswith(", not built yet\n") and not told, said


# ---- names of files

UPPER = {f: f.upper() for f in FILES}
case("files: all as EDG", lambda: tile("t", **UPPER), ["t"], MJ21, NOTHING, 0)
case("files: all as edg.", lambda: tile("t", **{f: f + "." for f in FILES}), ["t"], MJ21, NOTHING, 0)
case("files: all as EDG.;1", lambda: tile("t", **{f: f.upper() + ".;1" for f in FILES}), ["t"], MJ21, NOTHING, 0)
case("files: some of each", lambda: tile("t", edg="EDG", fac="fac.", cnd="CND.;1"), ["t"], MJ21, NOTHING, 0)
case("files: edg itself, whatever stands beside it", all_of(lambda: tile("t"), lambda: open("t/EDG", "w").close(), lambda: open("t/edg.", "w").close()),
     ["t"], MJ21, NOTHING, 0)
case("files: edg itself, though it cannot be read", all_of(lambda: replaced("t", "edg", os.mkdir), lambda: shutil.copy(VECTORS / "mj21" / "edg", "t/EDG")),
     ["t"], "REFUSE edg 1 0\n", NOTHING, 1)
case("files: edg itself, though it is a link to nothing", all_of(lambda: replaced("t", "edg", lambda p: os.symlink("none", p)),
     lambda: shutil.copy(VECTORS / "mj21" / "edg", "t/EDG")), ["t"], "REFUSE edg 1 0\n", NOTHING, 1)
case("files: other names are not read", lambda: tile("t", edg="Edg,edg.;1,EDG.,edg;1"), ["t"], "REFUSE edg 1 0\n", NOTHING, 1)
case("files: EDG and edg.", lambda: tile("t", edg="EDG,edg."), ["t"], NOTHING, line("two files stand for edg in t: EDG and edg\\."), 2)
case("files: RNG and RNG.;1", lambda: tile("t", rng="RNG,RNG.;1"), ["t"], NOTHING, line("two files stand for rng in t: RNG and RNG\\.;1"), 2)
case("files: EDX and edx. where edx is missing on purpose", all_of(lambda: tile("t", edx="EDX,edx.")), ["t"], NOTHING, line("two files stand for edx .*"), 2)
K = "accept-1"
K_SAYS = (VECTORS / K / "expected").read_text()
case("files: cnx as CNX, where it is read", lambda: tile("t", K, cnx="CNX"), ["t"], K_SAYS, NOTHING, 0)
case("files: two for cnx, where it is read", lambda: tile("t", K, cnx="CNX,cnx."), ["t"], NOTHING, line("two files stand for cnx in t: CNX and cnx\\."), 2)
case("files: two for cnx, where it is read, cnd under another name", lambda: tile("t", K, cnd="CND", cnx="CNX,CNX.;1"), ["t"], NOTHING,
     line("two files stand for cnx in t: CNX and CNX\\.;1"), 2)
case("files: two for cnx, where it is not read", all_of(lambda: tile("t"), lambda: open("t/CNX", "w").close(), lambda: open("t/cnx.", "w").close()),
     ["t"], MJ21, NOTHING, 0)
case("files: two for cnx beside cnx itself", all_of(lambda: tile("t", K), lambda: open("t/CNX", "w").close(), lambda: open("t/cnx.", "w").close()),
     ["t"], K_SAYS, NOTHING, 0)
case("files: two for cnx beside a cnd that is too large", all_of(lambda: tile("t", K, cnx="CNX,cnx."), lambda: os.truncate("t/cnd", 65537)),
     ["t"], "REFUSE cnd 15 0\n", NOTHING, 1)
case("files: nothing of one tile is left for the next", all_of(lambda: tile("t", K, cnx="CNX,cnx."), lambda: tile("u", edg="EDG"), lambda: os.remove("u/cnd")),
     ["t", "u"], "t: NOT JUDGED: two files stand for cnx in t: CNX and cnx.\nu: REFUSE cnd 1 0\n0 accepted, 1 refused, 1 not judged\n", NOTHING, 2)
case("files: a tile in odd names, in a directory whose name ends with a line break", lambda: tile("t\n", edg="EDG"), ["t\n"], MJ21, NOTHING, 0)

# ---- odd places

for file in ["edg", "cnd"]:
    says = f"REFUSE {file} 1 0\n"
    case(f"odd: a FIFO for {file}", lambda file=file: replaced("t", file, os.mkfifo), ["t"], says, NOTHING, 1, timeout=20)
    case(f"odd: a device for {file}", lambda file=file: replaced("t", file, lambda p: os.symlink("/dev/zero", p)), ["t"], says, NOTHING, 1)
    case(f"odd: a socket for {file}", lambda file=file: replaced("t", file, bind), ["t"], says, NOTHING, 1)
    case(f"odd: a directory for {file}", lambda file=file: replaced("t", file, os.mkdir), ["t"], says, NOTHING, 1)
    case(f"odd: a link to nothing for {file}", lambda file=file: replaced("t", file, lambda p: os.symlink("none", p)), ["t"], says, NOTHING, 1)
    case(f"odd: a link to the file for {file}", lambda file=file: all_of(lambda: shutil.copy(VECTORS / "mj21" / file, "f"),
         lambda: replaced("t", file, lambda p: os.symlink("../f", p)))(), ["t"], MJ21, NOTHING, 0)
    case(f"odd: {file} without permission", lambda file=file: all_of(lambda: tile("t"), lambda: os.chmod(f"t/{file}", 0))(), ["t"], says, NOTHING, 1, before=NOBODY)
case("odd: a FIFO for EDG", all_of(lambda: tile("t"), lambda: os.remove("t/edg"), lambda: os.mkfifo("t/EDG")), ["t"], "REFUSE edg 1 0\n", NOTHING, 1, timeout=20)
case("odd: a FIFO for cnx, where it is not read", all_of(lambda: tile("t"), lambda: os.mkfifo("t/cnx")), ["t"], MJ21, NOTHING, 0, timeout=20)
case("odd: a directory that cannot be entered", all_of(lambda: tile("t"), lambda: os.chmod("t", 0)), ["t"], NOTHING, line("the directory t cannot be entered"), 2, before=NOBODY)
case("odd: one that cannot be entered among several", all_of(lambda: tile("t"), lambda: os.chmod("t", 0), lambda: tile("u")), ["t", "u"],
     several(("t", None, "the directory t cannot be entered"), ("u", "mj21")), NOTHING, 2, before=NOBODY)
case("odd: a directory that cannot be listed", all_of(lambda: tile("t", fac="FAC"), lambda: os.chmod("t", 0o711)), ["t"], MJ21, NOTHING, 0, before=NOBODY)
case("odd: -x by ./", lambda: tile("-x"), ["./-x"], MJ21, NOTHING, 0)
case("odd: -x after --", lambda: tile("-x"), ["--", "-x"], MJ21, NOTHING, 0)
case("odd: -x alone", lambda: tile("-x"), ["-x"], NOTHING, line("there is no option -x; a directory of that name is given as \\./-x, .*"), 2)
case("odd: - by ./", lambda: tile("-"), ["./-"], MJ21, NOTHING, 0, env={"OLDPWD": "/"})
case("odd: - after --", lambda: tile("-"), ["--", "-"], MJ21, NOTHING, 0, env={"OLDPWD": "/"})
case("odd: - alone", lambda: tile("-"), ["-"], NOTHING, line("there is no option -; .*"), 2)
case("odd: -- and --help after --", all_of(lambda: tile("--"), lambda: tile("--help")), ["--", "--", "--help"], several(("--", "mj21"), ("--help", "mj21")), NOTHING, 0)
case("odd: -- between directories", all_of(*(lambda n=n: tile(n) for n in ("t", "-x", "--", "yes--"))), ["t", "--", "-x", "--", "yes--"],
     several(("t", "mj21"), ("-x", "mj21"), ("--", "mj21"), ("yes--", "mj21")), NOTHING, 0)
case("odd: -- after a directory", lambda: tile("t"), ["t", "--"], MJ21, NOTHING, 0)
case("odd: yes-- after --", lambda: tile("yes--"), ["--", "yes--"], MJ21, NOTHING, 0)
case("odd: what CDPATH has is not what was named", all_of(lambda: os.mkdir("o"), lambda: tile("o/t")), ["t"], NOTHING, line("there is no directory t"), 2, env={"CDPATH": "o"})
case("odd: CDPATH beside the tile", all_of(lambda: os.mkdir("o"), lambda: tile("o/t", "refuse-edg-20"), lambda: tile("t")), ["t"], MJ21, NOTHING, 0, env={"CDPATH": "o:"})
case("odd: no TMPDIR", lambda: tile("t", edg="EDG"), ["t"], MJ21, NOTHING, 0, before=["env", "-u", "TMPDIR"])
case("odd: a TMPDIR that is not there", lambda: tile("t", edg="EDG"), ["t"], MJ21, NOTHING, 0, env={"TMPDIR": "/none/such"})
case("odd: an empty TMPDIR", lambda: tile("t", edg="EDG"), ["t"], MJ21, NOTHING, 0, env={"TMPDIR": ""})
case("odd: a TMPDIR by a short name", all_of(lambda: tile("t", edg="EDG"), lambda: os.mkdir("-p")), ["t"], MJ21, NOTHING, 0, env={"TMPDIR": "-p"})
case("odd: what the environment says to a loader", lambda: tile("t"), ["t"], MJ21, NOTHING, 0, env={"LD_LIBRARY_PATH": ".", "LD_BIND_NOW": "1", "QEMU_STRACE": "1", "IFS": "e"})
for tmp in ["/none/such", "-p", "/dev/null", ""]:
    case(f"odd: TMPDIR is {tmp!r}, and the program is to be built", lambda tmp=tmp: (tile("t", edg="EDG"), project(f"tmp-{len(tmp)}", built=False)), ["t"], MJ21, NOTHING, 0,
         env=lambda tmp=tmp: acted("quick", TMPDIR=tmp), command=[str(work / f"tmp-{len(tmp)}" / "tilecheck")])
if not shutil.which("rt", path="/usr/bin:/bin"):
    case("odd: no kit", lambda: tile("t"), ["t"], NOTHING, line("the Rattle kit's command rt is not there"), 2, env={"PATH": "/usr/bin:/bin"})
def another_machine():
    """A directory bin in which `uname` says another machine."""
    os.mkdir("bin")
    pathlib.Path("bin/uname").write_text("#!/bin/sh\necho aarch64\n")
    os.chmod("bin/uname", 0o755)
    tile("t")


case("odd: a machine that is not x86-64", another_machine, ["t"], NOTHING, line("the program and the Rattle kit are for x86-64, and this machine is aarch64"), 2,
     env=lambda: {"PATH": f"{os.getcwd()}/bin:{os.environ['PATH']}"})
case("odd: a stack too small for the program", lambda: tile("t"), ["t"], NOTHING, line("the program could not be run: it ended with status [0-9]*"), 2,
     before=["sh", "-c", 'ulimit -s 200 && exec "$@"', "sh"])


def unwritten(name, open_it, args=("t",), vector="mj21"):
    def act():
        tile("t", vector)
        out = open_it()
        status, _, told = run(args, stdout=out)
        assert status == 2 and told == "tilecheck: the answer could not be written\n", (status, told)
    cases.append((name, act))


def gone():
    """A pipe that nobody reads."""
    reader, writer = os.pipe()
    os.close(reader)
    return writer


unwritten("unwritten: a full device", lambda: open("/dev/full", "w"))
unwritten("unwritten: a full device, a refused tile", lambda: open("/dev/full", "w"), vector="refuse-edg-20")
unwritten("unwritten: a full device, several", lambda: open("/dev/full", "w"), ["t", "t"])
unwritten("unwritten: a full device, help", lambda: open("/dev/full", "w"), ["--help"])
unwritten("unwritten: a reader that went away", gone)
unwritten("unwritten: a reader that went away, help", gone, ["--help"])
unwritten("unwritten: a reader that went away, several", gone, ["t", "t"])
case("unwritten: no standard output", lambda: tile("t"), ["t"], NOTHING, line("the answer could not be written"), 2, before=["sh", "-c", 'exec "$@" >&-', "sh"])
case("unwritten: no standard error", nothing, [], MJ21, NOTHING, 0, before=["sh", "-c", 'exec "$@" 2>&-', "sh"])
case("unwritten: no standard input", lambda: tile("t", edg="EDG"), ["t"], MJ21, NOTHING, 0, before=["sh", "-c", 'exec "$@" <&-', "sh"])


@of
def nobody_listens():
    """unwritten: standard error that nobody reads: the answer and the status are the same"""
    status, said, _ = run([], stderr=gone())
    assert (status, said) == (0, MJ21), (status, said)
    status, said, _ = run([""], stderr=gone())
    assert (status, said) == (2, NOTHING), (status, said)


@of
def another_shell():
    """called: where sh is bash"""
    if not shutil.which("bash"):
        return
    os.mkdir("bin")
    os.symlink(shutil.which("bash"), "bin/sh")
    tile("t", K, cnx="CNX,cnx.")
    tile("u", edg="EDG")
    os.mkfifo("u/cnx")
    tile("-x", "refuse-edg-20")
    made, path = project("bash", built=False), f"{os.getcwd()}/bin"
    env = acted("slow")
    env["PATH"] = f"{path}:{env['PATH']}"
    both = ["sh", str(made / "tilecheck")]
    expect(run(["--", "u", "-x", "t"], env=env, command=both), several(("u", "mj21"), ("-x", "refuse-edg-20"),
           ("t", None, "two files stand for cnx in t: CNX and cnx.")), line("proving and building .*") + f"(tilecheck: . of {ALL} .*\n)*", 2)
    expect(run([], env=env, command=both), MJ21, SHIPPED, 0)
    expect(run([""], env=env, command=both), NOTHING, line("an empty argument .*"), 2)
    expect(run(["u"], env=env, command=both, stdout=open("/dev/full", "w")), NOTHING, line("the answer could not be written"), 2)
    expect(run(["u"], env=env, command=both, stdout=gone()), NOTHING, line("the answer could not be written"), 2)
    assert asked(env) == 1


@of
def through_links():
    """called: through links, by PATH, by another name and from a folder with an odd name"""
    tile("t")
    os.symlink(built / "tilecheck", "l")
    os.mkdir("d")
    os.symlink("../l", "d/judge")
    expect(run(["t"], command=["./l"]), MJ21, NOTHING, 0)
    expect(run(["t"], command=["d/judge"]), MJ21, NOTHING, 0)
    expect(run(["t"], command=["judge"], env={"PATH": f"{os.getcwd()}/d:{os.environ['PATH']}"}), MJ21, NOTHING, 0)
    expect(run(["t"], command=["sh", "d/judge"]), MJ21, NOTHING, 0)
    odd = project("an odd 'name' $HOME *\n")
    expect(run(["t"], command=[str(odd / "tilecheck")]), MJ21, NOTHING, 0)
    expect(run([], command=[str(odd / "tilecheck")]), MJ21, SHIPPED, 0)


@of
def read_only():
    """called: a project that cannot be written runs where it is built; where it is not, one plain line"""
    tile("t", edg="EDG")
    one, two = project("written"), project("unwritten", built=False)
    for made in (one, two):
        subprocess.run(["chmod", "-R", "a-w,a+rX", str(made)], check=True)
    expect(run(["t"], command=[str(one / "tilecheck")], before=NOBODY), MJ21, NOTHING, 0)
    expect(run(["t"], command=[str(two / "tilecheck")], before=NOBODY), NOTHING, line("the program is not built from these sources yet, and .* cannot be written"), 2)
    for made in (one, two):
        subprocess.run(["chmod", "-R", "u+w", str(made)], check=True)


# ---- up to date, or not

@of
def quick():
    """quick: the kit is not asked, and a run takes under 0.2 s (the shortest of ten)"""
    env, times = acted("fail"), []
    tile("t")
    for _ in range(10):
        began = time.monotonic()
        expect(run(["t"], env=env), MJ21, NOTHING, 0)
        times.append(time.monotonic() - began)
    assert asked(env) == 0
    assert min(times) < 0.2, f"{min(times):.3f} s"


def changed(name, change, times=1, act="quick"):
    """A case in which the copy of the project is changed: how often the kit is asked in two runs."""
    def go():
        tile("t")
        made, env = project("changed-" + re.sub("[^a-z]+", "-", name)), acted(act)
        change(made, env)
        for _ in range(2):
            expect(run(["t"], env=env, command=[str(made / "tilecheck")]), MJ21, "(tilecheck: .*\n)*", 0)
        assert asked(env) == times, f"the kit was asked {asked(env)} times, not {times}"
    cases.append((name, go))


def append(path, text):
    with open(path, "a") as file:
        file.write(text)


def some(made, pattern):
    """A file of a crate that the program stands on."""
    return next(path for crate in UNDER for path in sorted((made / "crates" / crate).glob(pattern)))


def spoil(made, how):
    program, = (made / "target" / "command").glob("tilecheck-*")
    how(program)


def other_kit(made, env):
    """A kit of another name, with what the real one has."""
    (pathlib.Path(env["ACTED_LOG"]).parent / "KIT-ID").write_text("another-kit\n")


def elsewhere(made, env):
    """A command rt that does not stand in its kit, and says where that is."""
    rt = pathlib.Path(env["ACTED_LOG"]).parent / "bin/rt"
    (rt.parent.parent / "kit").mkdir()
    for part in ("KIT-ID", "toolchain"):
        (rt.parent.parent / part).rename(rt.parent.parent / "kit" / part)
    rt.write_text(ACTED.replace('exec "$REAL_KIT" "$@"', f"{{ echo '{rt.parent.parent}/kit/START-HERE.md'; exit 0; }}"))


changed("built from: nothing changed", lambda made, env: None, 0)
changed("built from: times changed alone", lambda made, env: subprocess.run(["find", str(made / "crates"), "-exec", "touch", "{}", "+"], check=True), 0)
changed("built from: a definition changed", lambda made, env: append(some(made, "specs/**/*.antt"), "-- a word\n"))
changed("built from: a proof changed", lambda made, env: append(some(made, "proofs/**/*.antt"), "-- a word\n"))
changed("built from: a source changed, its time and length the same", lambda made, env: same_length(some(made, "src/*.rt")))
changed("built from: a source more", lambda made, env: append(some(made, "src/*.rt").with_name("more.rt"), "// more\n"))
changed("built from: a proof renamed", lambda made, env: (lambda p: p.rename(p.with_name("Other.antt")))(some(made, "proofs/**/*.antt")))
changed("built from: a source gone", lambda made, env: some(made, "proofs/**/*.antt").unlink())
changed("built from: crates.txt changed", lambda made, env: append(made / "crates.txt", "# a word\n"))
changed("built from: a crate that the program does not stand on changed", lambda made, env: append(made / f"crates/{OTHERS[0]}/README", "a word\n"), 0)
changed("built from: another kit", other_kit)
changed("built from: the same kit, elsewhere", elsewhere, 0)
changed("built from: the program changed", lambda made, env: spoil(made, lambda p: append(p, "x")))
changed("built from: the program gone", lambda made, env: spoil(made, os.remove))
changed("built from: the program cut", lambda made, env: spoil(made, lambda p: os.truncate(p, 100)))
changed("built from: the record cut", lambda made, env: os.truncate(made / "target/command/tilecheck", 70))
changed("built from: no record, the kit's program as it was", lambda made, env: os.remove(made / "target/command/tilecheck"))
changed("built from: no record, and the kit's program is not the one that was tried: it is built anew",
        lambda made, env: (os.remove(made / "target/command/tilecheck"), os.truncate(made / "crates/tilecheck/out/tilecheck", 100)), 3, "broken")
changed("built from: no record, and the kit's program is gone: it is built anew",
        lambda made, env: (os.remove(made / "target/command/tilecheck"), os.remove(made / "crates/tilecheck/out/tilecheck")), 1, "broken")
changed("built from: sources that change once while they are proved", lambda made, env: append(made / "crates/laws/src/lib.rt", "// a word\n"), 2, "change-once")


def same_length(path):
    before, text = path.stat(), path.read_text()
    path.write_text(text.replace("e", "a", 1))
    assert path.read_text() != text and path.stat().st_size == before.st_size
    os.utime(path, ns=(before.st_atime_ns, before.st_mtime_ns))


changed("built from: sources that are others for a while, while they are proved", lambda made, env: append(made / "crates/laws/src/lib.rt", "// a word\n"), 2, "others")
changed("built from: sources that are others for a while, and the kit does not see it", lambda made, env: append(made / "crates/laws/src/lib.rt", "// a word\n"), 2, "back")


@of
def linked_source():
    """built from: a source that is a link is not believed"""
    tile("t")
    made = project("linked")
    source = some(made, "proofs/**/*.antt")
    source.rename(made / "elsewhere")
    source.symlink_to(made / "elsewhere")
    expect(run(["t"], command=[str(made / "tilecheck")]), NOTHING, line("the sources of the program cannot be read, or one is a link"), 2)


@of
def always_changing():
    """built from: sources that change whenever they are proved are not believed"""
    made, env = project("changing", built=False), acted("change-always")
    tile("t")
    expect(run(["t"], env=env, command=[str(made / "tilecheck")]), NOTHING, "(tilecheck: .*\n)*" + line("the sources change while they are being proved"), 2)


# ---- long work

@of
def plain_lines():
    """long work: plain lines, one for each crate that is proved, of how many"""
    made = project("lines", built=False)
    tile("t")
    expect(run(["t"], env=acted("slow"), command=[str(made / "tilecheck")]), MJ21,
           line(f"proving and building the program, .* all {ALL} crates take several minutes")
           + line(rf"{NUMBER} of {ALL} crates proved, [0-9]+ s: number") + line(rf"{ALL} of {ALL} crates proved, [0-9]+ s: tilecheck"), 0)


@of
def moving_line():
    """long work: on a terminal one line that moves"""
    import pty
    made = project("terminal", built=False)
    tile("t")
    main, side = pty.openpty()
    status, said, _ = run(["t"], env=acted("slow"), command=[str(made / "tilecheck")], stderr=side)
    os.close(side)
    told = b""
    try:
        while more := os.read(main, 65536):
            told += more
    except OSError:
        pass
    assert (status, said) == (0, MJ21), (status, said)
    assert re.search(rb"\r\ntilecheck: |^tilecheck: ", told) is not None and told.count(b"\rtilecheck: ") >= 3 and told.count(b"\n") == 2, told
    assert all(f"\rtilecheck: {n} of {ALL} crates proved, ".encode() in told for n in (NUMBER - 1, NUMBER, ALL)), told


@of
def not_proved():
    """long work: what the kit says of what is not proved is shown, and nothing is judged"""
    made = project("refused", built=False)
    tile("t")
    expect(run(["t"], env=acted("fail"), command=[str(made / "tilecheck")]), NOTHING,
           "error: it is not so: src/lib.rt:1:1\nrt: the library laws did not build, so nothing above it was checked\n" + line("the program was not proved and built; .*"), 2)


# ---- side by side

def together(command, env, count=50, vectors_of=vectors):
    os.symlink(VECTORS, "v")
    chosen = [vectors_of[i % len(vectors_of)] for i in range(count)]
    runs = [(v, start([f"v/{v}"], env, command)) for v in chosen]
    for vector, process in runs:
        said, told = process.communicate(timeout=300)
        expected = (VECTORS / vector / "expected").read_text()
        expect((process.returncode, said.decode(), told.decode()), expected, "(tilecheck: .*\n)*", 0 if expected.startswith("ACCEPT") else 1)


@of
def fifty_built():
    """side by side: 50 runs on a project that is built, each its own answer"""
    env = acted("fail")
    together(built / "tilecheck", env)
    assert asked(env) == 0


@of
def fifty_unbuilt():
    """side by side: 50 runs on a project that is not built, the kit asked once"""
    made, env = project("fifty", built=False), acted("slow")
    together(made / "tilecheck", env)
    assert asked(env) == 1, asked(env)


@of
def fifty_changed():
    """side by side: 50 runs while the kit itself proves the program anew, its source just changed"""
    made = project("fifty-changed", libraries=True)
    append(made / "crates/tilecheck/src/main.rt", "// a word\n")
    together(made / "tilecheck", {})
    log = (made / "target/command/tilecheck.log").read_text()
    assert re.findall(r"^rt: chose --jobs \d+ for (.*)$", log, re.M) == ["tilecheck"] and len(re.findall("^logic=proved ", log, re.M)) == 1, log


def pids_of(env):
    return [int(p) for p in pathlib.Path(env["ACTED_LOG"] + ".pids").read_text().split()]


def alive(pid):
    try:
        return pathlib.Path(f"/proc/{pid}/stat").read_text().rpartition(")")[2].split()[0] != "Z"
    except OSError:
        return False


def until(what, seconds=20):
    end = time.monotonic() + seconds
    while not what():
        assert time.monotonic() < end, "it did not come to that"
        time.sleep(0.05)


def ended_by(signal_number, name):
    def act():
        tile("t")
        made, env = project(f"ended-{signal_number}", built=False), acted("hang")
        first = start(["t"], env, made / "tilecheck")
        until(lambda: os.path.exists(env["ACTED_LOG"] + ".pids") and len(pids_of(env)) == 2)
        waiting = start(["t"], {**env, "ACTED": "quick"}, made / "tilecheck")
        time.sleep(0.5)
        os.kill(first.pid, signal_number)  # not waited for yet: what watches it must see its end all the same
        began = time.monotonic()
        said, told = waiting.communicate(timeout=20)
        assert time.monotonic() - began < 10
        expect((waiting.returncode, said.decode(), told.decode()), MJ21, "(tilecheck: .*\n)*", 0)
        assert not any(map(alive, pids_of(env))), "what the killed run started is still at work"
        first.communicate(timeout=20)
        expect(run(["t"], env={**env, "ACTED": "fail"}, command=[str(made / "tilecheck")]), MJ21, NOTHING, 0)
    cases.append((name, act))


ended_by(signal.SIGKILL, "ended: a run killed while it proves; one that waited, and a later one, are right")
ended_by(signal.SIGTERM, "ended: a run told to end while it proves")
ended_by(signal.SIGINT, "ended: a run interrupted while it proves")
ended_by(signal.SIGHUP, "ended: a run whose terminal went while it proves")


@of
def killed_waiting():
    """ended: a run killed while it waits for another"""
    tile("t")
    made, env = project("killed-waiting", built=False), acted("slow")
    first = start(["t"], env, made / "tilecheck")
    until(lambda: asked(env) == 1)
    second = start(["t"], env, made / "tilecheck")
    time.sleep(0.5)
    second.kill()
    second.communicate(timeout=20)
    said, told = first.communicate(timeout=20)
    expect((first.returncode, said.decode(), told.decode()), MJ21, "(tilecheck: .*\n)*", 0)
    assert asked(env) == 1


@of
def nothing_left():
    """ended: no run leaves a temporary file"""
    os.mkdir("tmp")
    tile("t", K, edg="EDG", cnx="CNX,cnx.")
    tile("u", edg="EDG")
    for args in (["t"], ["u"], ["t", "u", "t"]):
        run(args, env={"TMPDIR": os.path.abspath("tmp")})
    assert os.listdir("tmp") == [], os.listdir("tmp")


# ---- for those who build it in

@of
def the_program_alone():
    """alone: the program ends with status 0 whatever it finds, and its lines tell; 1 MB of stack is enough"""
    for vector in vectors:
        done = subprocess.run(["sh", "-c", 'ulimit -s 1024 && exec "$@"', "sh", *program()], cwd=VECTORS / vector, capture_output=True, timeout=20)
        assert (done.returncode, done.stdout.decode()) == (0, (VECTORS / vector / "expected").read_text()), vector


@of
def another_command():
    """alone: another command stands on what is shared, in a few lines"""
    made = project("another")
    (made / "count").write_text("""#!/bin/sh
set -u
command=count
self=$(readlink -f -- "$0"; echo .)
self=${self%??}
project=${self%/*}
. "$project/command/shared.sh"
ready tilecheck
path_of "$1"
hear "$path" || fail "the program could not be run"
say "$(printf '%s\\n' "$said" | wc -l)"
""")
    (made / "count").chmod(0o755)
    tile("t")
    expect(run(["t"], command=[str(made / "count")]), "4\n", NOTHING, 0)


@functools.cache
def kit():
    return pathlib.Path(subprocess.run([real_kit, "doc"], capture_output=True, text=True, check=True).stdout.strip()).parent


def program():
    """The words that run the program as it is built."""
    libraries = kit() / "toolchain/lib"
    return [str(libraries / "ld-linux-x86-64.so.2"), "--library-path", str(libraries), str(kept_program())]


def measure():
    """Prints the figures of docs/COMMAND.md."""
    import ctypes
    import resource
    os.chdir(work)
    tile("small")
    says = {"small": MJ21, "loops": loops("loops", 999), "round": round_tile("round", 2000)}
    what = {"small": "MJ21", "loops": "1,998 rings", "round": "2,000 edges around a face"}

    def runs_with(where, kilobytes):
        size = kilobytes * 1024
        done = subprocess.run(program(), cwd=where, capture_output=True, preexec_fn=lambda: resource.setrlimit(resource.RLIMIT_STACK, (size, size)))
        return done.returncode == 0 and done.stdout.decode() == says[where]

    for where in says:
        low, high = 16, 8192
        while high - low > 4:
            middle = (low + high) // 2
            low, high = (low, middle) if runs_with(where, middle) else (middle, high)
        print(f"stack, {what[where]}: runs with {high} KB, not with {low} KB")

    # a process counts the memory of the one that started it as its own: so a small shell starts it, and leaves it to this process
    ctypes.CDLL(None).prctl(36, 1)  # PR_SET_CHILD_SUBREAPER
    for label, words, where in [("a process that does nothing", ["/bin/true"], "small"), *((what[w], program(), w) for w in says)]:
        subprocess.Popen(["sh", "-c", '"$@" >/dev/null &', "sh", *words], cwd=where).wait()
        print(f"memory, {label}: {os.wait4(-1, 0)[2].ru_maxrss} KB")

    def times(words, where, count):
        taken = []
        for _ in range(count):
            began = time.monotonic()
            subprocess.run(words, cwd=where, stdout=subprocess.DEVNULL, stderr=subprocess.DEVNULL)
            taken.append(time.monotonic() - began)
        return f"{min(taken) * 1000:.1f} ms the shortest, {sorted(taken)[count // 2] * 1000:.1f} ms the middle of {count}"

    print("time, a process that does nothing:", times(["/bin/true"], "small", 300))
    for where in says:
        print(f"time, the program, {what[where]}:", times(program(), where, 300))
    print("time, the command, MJ21:", times([str(CHECKOUT / "tilecheck"), "small"], work, 100))
    print(f"time, the command, {len(vectors)} directories:", times([str(CHECKOUT / "tilecheck"), *vectors], VECTORS, 20))


def main(words):
    global built
    if run([str(VECTORS / "mj21")], command=[str(CHECKOUT / "tilecheck")], timeout=3600, stderr=None)[1] != MJ21:
        sys.exit("the command does not run in the checkout")
    if words == ["measure"]:
        return measure()
    built = project("built")
    passed, failed = 0, 0
    for number, (name, act) in enumerate(cases):
        if words and not any(word in name for word in words):
            continue
        own = work / f"case-{number}"
        own.mkdir()
        os.chdir(own)
        try:
            act()
            passed += 1
        except (AssertionError, OSError, subprocess.SubprocessError, StopIteration, ValueError) as why:
            failed += 1
            print(f"FAILED {name}: {type(why).__name__}: {why}", flush=True)
        os.chdir(work)
    print(f"{passed} passed, {failed} failed")
    return 1 if failed else 0


if __name__ == "__main__":
    try:
        ended = main(sys.argv[1:])
    finally:
        os.chdir("/")
        subprocess.run(["chmod", "-R", "u+rwX", str(work)])
        shutil.rmtree(work, ignore_errors=True)
    sys.exit(ended)
