#!/usr/bin/env python3
"""edits.py: says which must-fail edits no longer fit the sources (an `old:` line that is not there, or there twice), without proving anything;
`rt ci` says the same after half an hour.
edits.py shown LOG: of a log of `rt ci` or `rt must-fail`, the first thing that each edit was refused for. One that is refused because a name is not
known or a text cannot be read shows nothing about what is promised, and is named.
Run it in the project's root."""
import pathlib
import re
import sys

EDITS = sorted(pathlib.Path("crates").glob("*/must-fail/*.edit"))
# what says that an edit did not come as far as a meaning
UNREAD = re.compile(r"not in scope|no such|unknown|cannot find|expected one of|parse|syntax|has no `Need|does not have a|unresolved")


def fit():
    bad = 0
    for edit in EDITS:
        for line in edit.read_text().split("\n"):
            if line.startswith("file:"):
                name = line[5:].strip()
                source = pathlib.Path("crates", edit.parts[1], name).read_text()
            elif line.startswith("old: "):
                old = line[5:]
                if source.count(old) != 1:
                    print(f"{edit}: in {name} {source.count(old)} times: {old.strip()}")
                    bad += 1
            elif line.startswith("new:"):
                source = source.replace(old, line[5:], 1)
    print(f"{bad} do not fit")
    return bad


def shown(log):
    bad = tried = 0
    for line in pathlib.Path(log).read_text(errors="replace").split("\n"):
        m = re.match(r"rt: must-fail (\S+)\.edit: (.*)$", line)
        if not m:
            continue
        tried += 1
        unread = not m[2].startswith("refused, as it must be: ") or UNREAD.search(m[2])
        bad += bool(unread)
        print(f"{'LOOK ' if unread else ''}{m[1]}: {m[2]}")
    print(f"{tried} tried, {bad} to look at")
    return bad or tried != len(EDITS)


sys.exit((shown(sys.argv[2]) if sys.argv[1:2] == ["shown"] else fit()) != 0)
