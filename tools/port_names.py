#!/usr/bin/env python3
"""Respells this repository's own antt names: snake case for all but types, modules and facts, and a dash only between two names.

usage: python3 tools/port_names.py            at the top of a checkout: rewrites files in place
       python3 tools/port_names.py --list     prints each old name with its new one, and changes nothing
       python3 tools/port_names.py --check    prints what falls together, and changes nothing; with -v also what did so before

It goes by text. From every definition, field and constructor in specs/ and in the lemma files of proofs/ it makes a table
from the old spelling to the new one:

  - camelCase becomes snake_case;
  - in a name with dashes a dash stays where the words on both sides of it are names, of a definition in scope or of something
    imported by the file that defines it. Elsewhere it becomes `_`;
  - RENAMES has the names that the two rules would let fall together with another name, each with a name of its own.

The table is applied to .antt files, to `ghost use` lines and clauses of .rt files, to words between backticks in comments, and
to the texts of must-fail edits. Names from Rattle source, of the library, of the modules that Rattle makes and of a function's
own Proof.antt stay as they are. Then each file is looked at for names that fall together: two old names with one new
name, a variable or parameter that would hide a definition, a name of the library, a reserved word. A second run changes nothing.
"""

import os
import re
import sys

# old name -> new name, where the plain rules give a name that means something else in a file that cites it
RENAMES = {
    # `with-comma` is a form of a column, and this is the column in that form
    "withComma": "column_with_comma",
    # a binder of a lemma file has the plain name
    "atPlace": "number_at_place",
    # a name after `as`, beside the lemma `value_in_row`
    "valueInRow": "row_value",
    # fields of a fact whose types cite the definition of the same words
    "header-size": "size_of_header",
    "cnx-read": "reads_cnx",
    "key-P": "has_key_p",
    # cases of a fact, beside tests of a tile with the same words
    "sizes-wrong": "wrong_sizes",
    "start-wrong": "wrong_start",
    "link-outside": "outside_link",
    # constructors of the walk's outcome, with capitals as the source's variants have
    "Back": "came_back",
    "Open": "still_open",
    "Stuck": "stuck",
    # a case of a fact, beside the test of one part
    "part-too-large": "large_part",
}
# in one crate only: (crate that defines it, old name) -> new name
RENAMES_IN = {
    # `at_row` is a refusal's word, which this lemma does not speak of
    ("rectangle", "at-row"): "answered_at_row",
}

VERBOSE = "-v" in sys.argv
RESERVED = set(
    "data record deriving module where use mod pub package open as unfoldable abbrev axiom unfold unfolding ruleset mutual infix infixl "
    "infixr elim let in do Type coe fcoe tcoe hcom com tt absurd Unit refl search grind simp rw cc omega hlevel assumption ground syntax "
    "result now old new entry exit".split()
)
MADE = {"declared", "contracts", "TheVariants", "TheConstants", "Lts", "Tie", "Statement", "Goals", "Proof", "Answers", "Invariants"}
LIBRARY_WORDS = {"getD": "get_or"}
NAME = r"""[^\s(){}\[\],;:."«»λ`]+"""
TOKEN = re.compile(NAME)
DEFINES = re.compile(r"^( *)((?:(?:abbrev|unfoldable|pub|data|record)\s+)*)(" + NAME + r")(\s+(?::(?:\s|$)|[({]))")
CAMEL = re.compile(r"^[a-z][a-z0-9_]*[a-z0-9][A-Z]")
ANTT = re.compile(r'(?P<comment>(?:(?<=\s)|(?<=\A))--[^\n]*)|(?P<string>"(?:\\.|[^"\\\n])*")|(?P<name>' + NAME + r")", re.M)
RT = re.compile(
    r"""(?P<comment>//[^\n]*)|(?P<string>b?"(?:\\.|[^"\\])*"|b?'(?:\\[^']+|[^'\\\n])')|(?P<name>""" + NAME + r")", re.S
)


def read(path):
    with open(path, encoding="utf-8", newline="") as f:
        return f.read()


def files(ending):
    for folder, dirs, names in os.walk("crates"):
        dirs[:] = sorted(d for d in dirs if d != "out")
        for n in sorted(names):
            if n.endswith(ending):
                yield os.path.join(folder, n)


def no_comments(text):
    return re.sub(r'(?:(?<=\s)|(?<=\A))--[^\n]*', "", text)


def atoms(name):
    """The words of a name with the joints between them."""
    return re.split(r"([-_])", name)


def snake(word):
    for old, new in LIBRARY_WORDS.items():
        word = re.sub(old + "(?![a-z])", new, word)
    if not CAMEL.match(word):
        return word
    word = re.sub(r"([a-z0-9])([A-Z])", r"\1_\2", word)
    word = re.sub(r"([A-Z])([A-Z][a-z])", r"\1_\2", word)
    return word.lower()


class File:
    """An .antt file: what it imports, what it defines, what it says."""

    def __init__(self, path, own):
        self.path = path
        self.crate = path.split(os.sep)[1]
        self.text = read(path)
        self.own_proof = path.endswith((".antt",)) and "proofs" in path.split(os.sep) and os.path.basename(path) in ("Proof.antt", "Answers.antt", "Invariants.antt")
        self.code = no_comments(self.text)
        self.imports(own)
        self.definitions()
        self.tokens = set(TOKEN.findall(re.sub(r'"(?:\\.|[^"\\\n])*"', " ", self.code)))

    def imports(self, own):
        self.mine, self.others, self.aliases, self.as_names, self.origin = set(), set(), {}, set(), {}
        for m in re.finditer(r"(?m)^\s*(?:pub\s+|ghost\s+)*use\s+([^\s{;]+?)(?:\.\{([^}]*)\}|\s+as\s+([^\s;]+)|)\s*;?\s*$", self.code):
            path, items, alias = m.groups()
            mine = is_mine(path, own)
            if items is not None:
                for it in items.split(","):
                    w = it.split()
                    if len(w) == 3 and w[1] == "as":
                        self.as_names.add(w[2])
                        self.origin[w[2]] = path
                    elif w:
                        (self.mine if mine else self.others).add(w[0])
                        self.origin[w[0]] = path
            elif alias:
                self.aliases[alias] = mine
                self.as_names.add(alias)
            else:
                last = path.split(".")[-1]
                self.aliases[last] = mine

    def definitions(self):
        """Name -> kinds: 'def' (value, type or fact of a spec, or an abbreviation), 'lemma', 'field', 'constructor', 'type'."""
        self.defs = {}
        in_specs = f"{os.sep}specs{os.sep}" in self.path
        block, waiting = [], None
        for line in self.code.split("\n"):
            if not line.strip():
                continue
            indent = len(line) - len(line.lstrip())
            while block and indent <= block[-1][0]:
                block.pop()
            m = DEFINES.match(line)
            if m and m.group(3) not in ("let", "module", "use", "in", "where") and m.group(3) != "_":
                words, name = m.group(2).split(), m.group(3)
                if not m.group(4).strip().startswith(":") and not ("data" in words or "record" in words):
                    continue
                if "data" in words or "record" in words:
                    kind = "type"
                    block.append((indent, "field" if "record" in words else "constructor"))
                elif block and indent > block[-1][0] and block[-1][1]:
                    kind = block[-1][1]
                elif in_specs or "abbrev" in words or "unfoldable" in words:
                    kind = "def"
                else:
                    kind = "lemma"
                self.defs.setdefault(name, set()).add(kind)


def is_mine(path, own):
    w = path.split(".")
    return len(w) > 3 and w[0] == "Rattle" and w[1] in own and w[2] in ("specs", "proofs") and not MADE & set(w[3:]) and all(x[0].isupper() for x in w[3:])


class Names:
    def __init__(self):
        self.own = {c for c in os.listdir("crates")}
        self.antt = [File(p, self.own) for p in files(".antt")]
        self.rt = [File(p, self.own) for p in files(".rt")]
        self.lemmas = [f for f in self.antt if not f.own_proof]
        self.kinds, self.where = {}, {}
        for f in self.lemmas:
            for n, k in f.defs.items():
                self.kinds.setdefault(n, set()).update(k)
                self.where.setdefault(n, []).append(f)
        # in a function's own proof a word after a dot may be one of the source's, which keeps its spelling
        self.source_words = {w for f in self.rt for w in re.findall(r"[a-z_]\w*", re.sub(r"//[^\n]*", " ", f.text))}
        self.modules = {}
        for f in self.lemmas:
            w = f.path[:-5].split(os.sep)
            self.modules[".".join(["Rattle"] + w[1:])] = f
        self.fields = {n for n, k in self.kinds.items() if "field" in k}
        # names of the library and of Rattle source, by the words that stand for them in another name
        self.imported = set()
        for f in self.antt:
            for n in f.others:
                self.imported.add(n)
                self.imported.add(n.replace("◌", ""))
        self.spell()

    def locals(self):
        """Variables and names after `as` that are in camel case or have a dash, in the specs and the lemma files."""
        found = {}
        for f in self.lemmas:
            for m in re.finditer(r"(?<![.\w'-])" + NAME, re.sub(r'(?m)^\s*use .*|"(?:\\.|[^"\\\n])*"', " ", f.code)):
                t = m.group()
                if (CAMEL.match(t) or re.search(r"\w-\w", t)) and t not in self.kinds and t not in f.others and t not in f.mine:
                    found.setdefault(t, []).append(f)
            for t in f.as_names:
                if (CAMEL.match(t) or "-" in t) and t not in self.kinds:
                    found.setdefault(t, []).append(f)
        return found

    def spell(self):
        self.variables = self.locals()
        where = dict(self.where)
        for n, fs in self.variables.items():
            where.setdefault(n, fs)
        table = {}
        for _ in range(8):
            new = lambda n: table.get(n, n)
            known = {new(n) for n, k in self.kinds.items() if k & {"def", "type", "constructor"}} | self.imported
            seen = {f.path: {new(t) for t in f.tokens} | {t.replace("◌", "") for t in f.tokens} for f in self.lemmas}
            after = {}
            for n, fs in where.items():
                visible = set()
                for f in fs:
                    visible |= known & seen[f.path]
                after[n] = self.spelled(n, visible)
            after = {n: m for n, m in after.items() if m != n}
            if after == table:
                break
            table = after
        self.table = table
        self.field_table = dict(table)
        self.lemma_too()

    def lemma_too(self):
        """A lemma that would have its function's name gets `_lem`."""
        by_new = {}
        for n, k in self.kinds.items():
            by_new.setdefault(self.table.get(n, n), []).append(n)
        self.strict = set()
        for new, olds in by_new.items():
            facts = [n for n in olds if self.kinds[n] & {"def", "type", "constructor"}]
            for n in olds:
                if "lemma" not in self.kinds[n] or n in facts or n in RENAMES:
                    continue
                for d in facts:
                    crates = {f.crate for f in self.where[n]} & {f.crate for f in self.where[d]}
                    if crates or any({n, d} <= set(f.defs) | f.mine for f in self.antt):
                        self.table[n] = new + "_lem"
                        if n == new:
                            self.strict.add(n)

    def lookup(self, t, f):
        """The new name of t in the file f, or None."""
        if t not in self.table:
            return None
        source = self.modules.get(f.origin.get(t)) if t in f.mine else f
        if source and (source.crate, t) in RENAMES_IN:
            return RENAMES_IN[source.crate, t]
        if t in self.strict and not (source and source.defs.get(t) == {"lemma"}):
            return None
        return self.table[t]

    def spelled(self, name, known):
        if name in RENAMES:
            return RENAMES[name]
        if "◌" in name or not re.search(r"[a-z]", name):
            return name
        if "-" not in name and not CAMEL.match(name) and "′" not in name:
            return name
        body = name.replace("′", "'")
        tail = body[len(body.rstrip("'")):]
        body = body.rstrip("'")
        if "-" not in body:
            return snake(body) + tail if CAMEL.match(body) else body + tail
        parts = atoms(body)
        words, joints = [snake(w) for w in parts[::2]], parts[1::2]
        if "" in words:
            return name
        # longest known names from the left
        spans, i = [], 0
        while i < len(words):
            for j in range(len(words), i, -1):
                if "_".join(words[i:j]) in known:
                    spans.append((i, j, True))
                    i = j
                    break
            else:
                spans.append((i, i + 1, False))
                i += 1
        out = ""
        for k, (i, j, is_name) in enumerate(spans):
            if k:
                both = is_name and spans[k - 1][2] and joints[i - 1] == "-"
                out += "-" if both else "_"
            # a capital stays where it is a fact's, and not a letter's
            word = "_".join(words[i:j])
            out += word if is_name or not re.match(r"[A-Z0-9]+$", word) else word.lower()
        return out + tail

    # ---- applying the table

    def backticks(self, text, f):
        def inside(m):
            return "`" + TOKEN.sub(lambda t: self.global_name(t.group(), f), m.group(1)) + "`"

        return re.sub(r"`([^`\n]*)`", inside, text)

    def global_name(self, t, f):
        return t if t in f.others or t in self.strict else self.lookup(t, f) or t

    def apply(self, f):
        rt = f.path.endswith(".rt")
        out, at, chain, last = [], 0, [], None
        text = f.text
        for m in (RT if rt else ANTT).finditer(text):
            gap = text[at : m.start()]
            out.append(gap)
            at = m.end()
            t = m.group()
            if m.lastgroup == "comment":
                out.append(self.backticks(t, f))
                chain = []
                continue
            if m.lastgroup == "string":
                out.append(t)
                chain = []
                continue
            before = text[max(0, m.start() - 400) : m.start()]
            if gap == "." or (gap.endswith(".") and not gap.startswith(" ") and len(gap) == 1):
                chain = chain + [t]
            elif before.endswith(".") and not before.endswith(" ."):
                chain = ["(", t]
            elif before.endswith(" .") and not rt:
                chain = ["(", t]
            else:
                chain = [t]
            out.append(self.one(t, f, chain, before, text[m.end() : m.end() + 4], rt))
        out.append(text[at:])
        return "".join(out)

    def one(self, t, f, chain, before, after, rt):
        new = self.lookup(t, f)
        field = self.field_table.get(t, t)
        if new is None:
            return field if t in self.fields and len(chain) > 1 and chain[0] not in f.aliases else t
        if t in self.fields and field != new and not rt:
            # a field in its record's declaration, or in the record's value
            if re.search(r"[{;]\s*$", before) and re.match(r"\s*=", after) or re.search(r"\n\s+(?:pub )?$", before) and f.defs.get(t) == {"field"} and re.match(r"\s*:", after):
                return field
        use = re.search(r"(?:^|\n)\s*(?:pub\s+|ghost\s+)*use\s+([^\s{;]+)\.\{[^}\n]*$", before)
        if use and len(chain) == 1:
            if re.search(r"\bas\s+$", before):
                return new if self.turns_bare(t, f) or t in self.variables and not f.own_proof else t
            return new if is_mine(use.group(1), self.own) else t
        if len(chain) > 1:
            root = chain[0]
            if root in ("Rattle", "lib", "native", "mathlib", "borrow", "Prim"):
                path = ".".join(chain[:-1])
                if root != "Rattle" or not is_mine(path, self.own):
                    return t
                source = self.modules.get(path)
                return t if t in self.strict and not (source and source.defs.get(t) == {"lemma"}) else self.table[t]
            if root in f.aliases and len(chain) == 2:
                return new if f.aliases[root] else t
            if root in f.aliases and not f.aliases[root] and t not in self.fields:
                return t
            if t in self.fields and f.own_proof and t.replace("-", "_") in self.source_words:
                return t.replace("-", "_")
            return field if t in self.fields else t
        if rt or f.own_proof:
            if t in f.mine or t in f.as_names and t in self.variables and not f.own_proof:
                return new
            if t in self.fields and re.search(r"[{;]\s*$", before) and re.match(r"\s*=", after):
                return field
            return t
        return new if self.turns_bare(t, f) else t

    def turns_bare(self, t, f):
        return t not in f.others and not (f.own_proof and t not in f.mine)

    def edit(self, path):
        lines = read(path).split("\n")
        crate = os.path.join("crates", path.split(os.sep)[1])
        by_path = {f.path: f for f in self.antt + self.rt}
        f = None
        known = {self.table.get(n, n) for n in self.kinds}
        for i, l in enumerate(lines):
            if l.startswith("file: "):
                f = by_path.get(os.path.normpath(os.path.join(crate, l[6:].strip())))
            elif f and l[:5] in ("old: ", "new: "):

                def turn(t):
                    t = t.group()
                    if t in f.others:
                        return t
                    if self.lookup(t, f):
                        return self.lookup(t, f) if not f.path.endswith(".rt") or t in f.mine or t in self.fields else t
                    if CAMEL.match(t) and snake(t) in known:
                        return snake(t)
                    if f.path.endswith(".antt") and "-" in t and t.replace("-", "_") in known:
                        return t.replace("-", "_")
                    return t

                lines[i] = l[:5] + TOKEN.sub(turn, l[5:])
        return "\n".join(lines)

    # ---- what falls together

    def only_fields(self, f):
        """Names that stand in the file after a dot or before the `=` of a record's value, and nowhere else."""
        code = re.sub(r'(?m)^\s*(?:pub\s+)?use .*|"(?:\\.|[^"\\\n])*"', " ", f.code)
        code = re.sub(r"\.(" + NAME + r")|(?<=[{;])\s*(" + NAME + r")(?=\s*=\s)", " ", code)
        return f.tokens - set(TOKEN.findall(code)) - f.mine - f.others

    def bound(self, f):
        """Names that an .antt file binds: after λ, let, in a telescope, on the left of a definition's clause."""
        code = re.sub(r'(?m)^\s*(?:pub\s+)?use .*|"(?:\\.|[^"\\\n])*"', " ", f.code)
        found = set()
        for m in re.finditer(r"λ\s*([^.]*)\.", code):
            found.update(TOKEN.findall(re.sub(r":[^)}]*", " ", m.group(1))))
        for m in re.finditer(r"\blet\s+(" + NAME + r")\s", code):
            found.add(m.group(1))
        for m in re.finditer(r"[({]\s*((?:" + NAME + r"\s+)+):", code):
            found.update(TOKEN.findall(m.group(1)))
        for m in re.finditer(r"(?m)^ *(" + NAME + r")((?:[^=\n:→]|\.)*) =(?:\s|$)", code):
            if not re.search(r"\b(let|in|record)\b", m.group(0)):
                found.update(t.group() for t in re.finditer(r"(?<![.\w'])" + NAME, m.group(2)))
        return found

    def collisions(self):
        said = []
        table = self.table
        # fields are named after a dot only: they fall together with nothing else
        bare = {n for n, k in self.kinds.items() if k - {"field"}}
        new_names = {}
        for n in bare:
            for f in self.where[n]:
                new_names.setdefault(self.lookup(n, f) or n, set()).add(n)
        for new, olds in sorted(new_names.items()):
            if len(olds) > 1:
                crates = [{f.crate for f in self.where[o]} for o in sorted(olds)]
                both = [f.path for f in self.antt + self.rt if len(olds & (set(f.defs) | f.mine)) > 1]
                if both or set.intersection(*crates):
                    kinds = " and ".join(f"{o} ({','.join(sorted(self.kinds[o]))} of {','.join(sorted({f.path[7:-5] for f in self.where[o]}))})" for o in sorted(olds))
                    said.append(f"fall together: {kinds} are both {new} {' '.join(both[:3])}")
        for n, new in sorted(table.items()):
            if new in RESERVED:
                said.append(f"reserved word: {n} -> {new}")
        for f in self.antt:
            plain = set(re.findall(r"(?<![.\w'◌-])(" + NAME + ")", re.sub(r'(?m)^\s*(?:pub\s+)?use .*|"(?:\\.|[^"\\\n])*"', " ", f.code)))
            imported = f.mine | f.others | f.as_names
            for n in sorted((plain | imported) & set(table)):
                if f.own_proof and n not in f.mine or n in f.others or not self.lookup(n, f):
                    continue
                new = self.lookup(n, f)
                field = self.kinds.get(n) == {"field"} and n not in f.defs
                if new in plain | imported and not field and new not in self.only_fields(f) and not self.lookup(new, f):
                    kind = "field " if self.kinds.get(n) == {"field"} else ""
                    said.append(f"in {f.path}: {kind}{n} -> {new}, which stands there already")
            twice = {}
            for n in sorted((plain | imported) & set(table)):
                if (not f.own_proof or n in f.mine) and self.lookup(n, f):
                    if self.kinds.get(n) != {"field"} or n in f.defs:
                        twice.setdefault(self.lookup(n, f), []).append(n)
            for new, olds in twice.items():
                if len(olds) > 1 and any(self.kinds.get(o) != {"field"} for o in olds):
                    said.append(f"in {f.path}: {' and '.join(olds)} both become {new}")
        turned = set(table.values()) | set(RENAMES.values()) | set(RENAMES_IN.values())
        for f in self.antt:
            cited = {n for n in f.mine | f.others} | {n for n, k in f.defs.items() if k & {"def", "lemma", "constructor", "type"}}
            # a variable that had the definition's name before is no new one
            bound = self.bound(f)
            new_cited = {self.lookup(n, f) or n if n not in f.others else n for n in cited - bound}
            b = {self.lookup(n, f) or n if not f.own_proof and n not in f.others else n for n in bound}
            constructors = {table.get(n, n) for n, k in self.kinds.items() if "constructor" in k}
            for n in sorted(new_cited & b):
                if (n in turned or VERBOSE) and n not in constructors and not n[0].isupper() and n not in ("zero", "suc", "pos", "true", "false", "refl", "[]"):
                    said.append(f"in {f.path}: {n} is bound and is a definition's name")
        for f in self.rt:
            said += [l for l in self.in_source(f) if re.search(r": (\S+?),? ", l).group(1) in turned or VERBOSE]
        return said

    def in_source(self, f):
        said = []
        cited = {self.table.get(n, n) for n in f.mine} | f.others | f.as_names
        code = re.sub(r"//[^\n]*|" + r'b?"(?:\\.|[^"\\])*"', " ", f.text)
        for m in re.finditer(r"(?m)^\s*(?:#\[[^\]]*\]\s*)*(?:pub(?:\([a-z]+\))?\s+)?(?:unsafe\s+)?fn\s+(\w+)(?:<[^(]*>)?\s*\(", code):
            i, depth = m.end(), 1
            while depth:
                depth += {"(": 1, ")": -1}.get(code[i], 0)
                i += 1
            parameters = set(re.findall(r"(\w+)\s*:", code[m.end() : i]))
            end = re.search(r"(?m)^\}|^    \}$", code[i:])
            body = code[i : i + (end.start() if end else len(code))]
            names = set(re.findall(r"\blet\s+(?:mut\s+)?(\w+)", body)) | set(re.findall(r"\bfor\s+(\w+)\s+in", body)) | set(re.findall(r"\((\w+)\)\s*=>", body)) | set(re.findall(r"\|(\w+)\|", body))
            head = re.split(r"\n\s*\{\n", body)[0]
            used = {self.table.get(t, t) for t in re.findall(r"(?<![.\w'])(" + NAME + ")", head)}
            for n in sorted(cited & used & parameters):
                said.append(f"in {f.path}: {n}, a parameter of {m.group(1)}, hides the definition that its clauses cite")
            inner = {self.table.get(t, t) for t in TOKEN.findall("\n".join(re.findall(r"(?:invariant|prove!|ghost|decreases)[^\n]*(?:\n[^\n]*){0,3}", body)))}
            for n in sorted(cited & names):
                if n in inner:
                    said.append(f"in {f.path}: {n}, a local of {m.group(1)}, hides the definition that its clauses cite")
                elif VERBOSE:
                    said.append(f"in {f.path}: {n}, a local of {m.group(1)}, has the name of a definition (no clause beside it)")
        consts = set(re.findall(r"\b(?:const|static|struct|enum|trait|type)\s+(\w+)", code))
        for n in sorted(cited & consts):
            said.append(f"in {f.path}: {n} is a constant or type and a definition")
        return said


def main(argv):
    names = Names()
    if "--list" in argv:
        for old, new in sorted(names.table.items()):
            print(f"{old} -> {new}   {','.join(sorted(names.kinds.get(old, {'variable'})))}")
        return 0
    said = names.collisions()
    print("\n".join(said))
    print(f"{len(said)} collisions")
    if "--check" in argv:
        return 1 if said else 0
    changed = 0
    for f in names.antt + names.rt:
        t = names.apply(f)
        if t != f.text:
            changed += 1
            with open(f.path, "w", encoding="utf-8", newline="") as out:
                out.write(t)
    for p in files(".edit"):
        t = names.edit(p)
        if t != read(p):
            changed += 1
            with open(p, "w", encoding="utf-8", newline="") as out:
                out.write(t)
    print(f"{len(names.table)} names renamed, {changed} files changed")
    return 0


if __name__ == "__main__":
    raise SystemExit(main(sys.argv[1:]))
