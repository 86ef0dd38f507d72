#!/usr/bin/env python3
"""Turns the proofs of functions from the older form, one walk in `Proof.antt`, to answers of named goals.

usage: answers.py NAMES.json CRATE [FOLDER..]    CRATE: the crate's folder; FOLDER: functions' folders below proofs/ (all where none is given)

NAMES.json is what `rt check --generated DIR --old-names` leaves in DIR for that crate: of each goal and each step the older name and
today's. A `Proof.antt` becomes `Answers.antt` and, where the function has loops, `Invariants.antt`. What it cannot turn it leaves as it
stands and says so; what it turned, `rt check` judges.
"""
import json, os, re, sys

def toks(s):
    """Splits antt text into tokens; comments and white space are kept."""
    out, i = [], 0
    while i < len(s):
        c = s[i]
        if s.startswith("--", i):
            j = s.find("\n", i)
            j = len(s) if j < 0 else j
            out.append(s[i:j]); i = j
        elif c.isspace():
            j = i
            while j < len(s) and s[j].isspace(): j += 1
            out.append(s[i:j]); i = j
        elif c in "(){}[],;:.«»λ":
            out.append(c); i += 1
        else:
            j = i
            while j < len(s) and not s[j].isspace() and s[j] not in "(){}[],;:.«»": j += 1
            out.append(s[i:j]); i = j
    return out

def norm(s):
    return s.replace("_", "-").replace("'", "′")

class Skip(Exception):
    pass

class Fn:
    def __init__(self, names, key, clauses):
        self.d = names[key]
        self.key = key
        self.clauses = clauses
        self.places = {}
        for (p, new) in zip(self.d["places"], self.d["places_by_name"]):
            self.places[norm(p[0])] = (p, new)
        self.goals = {norm(a): b for a, b in self.d["needs"]}
        self.goal_place = {}
        for (a, b), at in zip(self.d["needs"], self.d["asked_at"]):
            self.goal_place[norm(a)] = at

    def place(self, name):
        k = norm(name)
        if k not in self.places:
            raise Skip("no place " + name)
        return self.places[k]

def read_clauses(crate_root):
    """The names of the clauses of each function, by crate::path::name, from the sources."""
    out = {}
    for c in sorted(os.listdir(crate_root)):
        src = os.path.join(crate_root, c, "src")
        if not os.path.isdir(src): continue
        for f in sorted(os.listdir(src)):
            if not f.endswith(".rt"): continue
            mod = [] if f in ("lib.rt", "main.rt") else [f[:-3]]
            text = open(os.path.join(src, f), encoding="utf-8").read()
            impl = None
            for m in re.finditer(r"^impl(?:<[^>]*>)? (\w+)|^\}|^(\s*)(?:pub(?:\(crate\))? )?(?:extern \"C\" )?fn (\w+)", text, re.M):
                if m.group(1): impl = m.group(1); continue
                if m.group(3) is None: impl = None; continue
                # the clauses that follow, to the body
                rest = text[m.end():]
                j = re.search(r"\n\s*\{\n|\n\}\n|;\n", rest)
                head = rest[: j.start()] if j else rest
                one = re.search(r"\{[^{}]*\}\s*$", head)
                req = re.findall(r"^\s*requires(\*?)(?: (\w+))? \{", head, re.M)
                ens = re.findall(r"^\s*ensures(\*?)(?: (\w+))? \{", head, re.M)
                path = "::".join([c] + mod + ([impl] if impl and m.group(2) else []) + [m.group(3)])
                params = re.search(r"\((.*?)\)\s*(?:->|\n|\{)", rest, re.S)
                muts = []
                if params:
                    for q in re.findall(r"(\w+): (&mut)?", params.group(1)):
                        muts.append(q)
                out[path] = ([n for s, n in req], [n for s, n in ens], muts)
    return out

def pick(path, names):
    """Turns a path .1.1.0 into right-nested clauses to the clause's name; what is left of the path stays."""
    n = len(names)
    if n < 2: return path
    i = 0
    while i < n - 1 and path and path[0] == "1":
        path = path[1:]; i += 1
    if i == n - 1:
        return [names[i]] + path
    if path and path[0] == "0":
        return [names[i]] + path[1:]
    raise Skip("a clause is not named by .%s of %s" % (".".join(path), names))

def split_items(text):
    lines = text.split("\n")
    head, i = [], 0
    items, cur = [], None
    comments = []
    for l in lines:
        if re.match(r"^(pub )?use ", l) and cur is None and not items:
            head.append(l); continue
        if l.startswith("--"):
            if cur: items.append(cur); cur = None
            comments.append(l); continue
        if not l.strip():
            continue
        if l.startswith("unfolding "):
            cur["unfolding"] = l; continue
        if l[0].isspace() or l[0] in ")]}":
            if cur is None: raise Skip("text before the first item")
            cur["text"][-1] += "\n" + l; continue
        m = re.match(r"^((?:abbrev |unfoldable |pub )*)(\S+) :(\s.*)?$", l)
        if m:
            if cur: items.append(cur)
            cur = {"comments": comments, "mods": m.group(1), "name": m.group(2), "text": [l], "unfolding": None}
            comments = []
        elif re.match(r"^(use |pub use )", l):
            head.append(l)
        elif cur is not None and l.startswith(cur["name"]):
            cur["text"].append(l)
        else:
            raise Skip("a line that is not read: " + l[:80])
    if cur: items.append(cur)
    return head, items, comments

def p_is_loop(q):
    return re.match(r"^(At|Joined)-", q[0]) is not None and not q[0].startswith("At-match")

class Turn:
    def __init__(self, fn, clauses, pkg):
        self.fn, self.clauses, self.pkg = fn, clauses, pkg
        self.texts = {}
        self.declared = {}
        self.goal_at = None
        self.helpers = {}   # name -> (old place, new place)
        self.to_place = {}  # name -> (old place from, path text)
        self.places_used = set()

    # a value is ('place', oldplace) or ('out', text list) or None
    def step(self, place, rest):
        """What follows a place: [field, ..] -> text below c."""
        p, new = self.fn.place(place)
        rest = list(rest)
        while True:
            if not rest: return ("place", p[0])
            f = rest[0]
            if f == "before":
                if p[1] is not None: p, new = self.fn.place(p[1])
                rest = rest[1:]; continue
            break
        return ("out", self.field(p, rest))

    def field(self, p, rest):
        f = rest[0]
        name = p[0]
        if f in ("args", "requires", "pre", "ranges", "well-formed", "well_formed"):
            if f == "pre": f = "requires"
            r = rest[1:]
            if f == "args" and r: r = [r[0].replace("-", "_")] + r[1:]
            if f == "ranges" and r: r = [r[0].replace("-", "_")] + r[1:]
            if f == "requires":
                own = self.fn.clauses
                if own is not None and len(own[0]) > 1:
                    if not r:
                        t = "c.requires." + own[0][-1]
                        for n in reversed(own[0][:-1]): t = "(c.requires.%s, %s)" % (n, t)
                        return ["\0" + t]
                    if set(r) == {"1"} and len(r) < len(own[0]) - 1:
                        t = "c.requires." + own[0][-1]
                        for n in reversed(own[0][len(r):-1]): t = "(c.requires.%s, %s)" % (n, t)
                        return ["\0" + t]
                    r = pick(r, own[0])
            return [f] + r
        old, new = p[2]
        q = p
        if norm(f) != norm(old):
            # a field of an earlier step, opened
            while q[1] is not None and norm(q[2][0]) != norm(f):
                q = self.fn.place(q[1])[0]
            if norm(q[2][0]) != norm(f):
                # the path counts other steps than today's walk has: the step of that name on the goal's way
                chain, g = [], self.goal_at
                while g is not None:
                    g = self.fn.place(g)[0]; chain.append(g); g = g[1]
                hit = [x for x in chain if norm(x[2][0]) == norm(f)]
                if hit:
                    q = hit[0]
                else:
                    # a name that another script respelled: the place's own step
                    q = p
                    print("  look: %s at %s is read as %s" % (f, name, p[2][0]))
            old, new = q[2]
        r = ["type_inv" if x == "type-inv" else x for x in rest[1:]]
        callee = q[3]
        if r and r[0] == "ensures" and callee and callee in self.clauses and len(self.clauses[callee][1]) > 1 and len(r) > 1:
            r = ["ensures"] + pick(r[1:], self.clauses[callee][1])
        if r and r[0] in ("new", "auto") and len(r) > 1 and re.match(r"^[01]$", r[1]) and callee and callee in self.clauses:
            params = self.clauses[callee][2]
            k = 0
            path = r[1:]
            while path and path[0] == "1": k += 1; path = path[1:]
            if k == len(params) - 1 or (path and path[0] == "0"):
                if path and path[0] == "0": path = path[1:]
                r = [r[0], params[k][0]] + path
        if p_is_loop(q) and r and "-" in r[0]:
            r = [r[0].replace("-", "_")] + r[1:]
        a = self.fn.d["arms"][self.fn.d["places"].index(q)]
        if a and r:
            best = None
            for (nf, os_, path) in a[2]:
                if norm(os_) == norm(old) and r[: len(path)] == path and (best is None or len(path) > len(best[1])):
                    best = (nf, path)
            if best is not None and (best[1] or r[0] == "rest"):
                return [a[0], best[0]] + r[len(best[1]):]
        return [new] + r

    def expr(self, text, env, goal, where):
        """Rewrites the text of a term. env: name -> ('place', P) or ('out', [..]) or ('fun', P, path)."""
        ts = toks(text)
        out = []
        i = 0
        env = dict(env)
        def path_at(i):
            """An identifier with the fields after it: (name, fields, next index)."""
            name = ts[i]; j = i + 1; fs = []
            while j + 1 < len(ts) and ts[j] == "." and not ts[j + 1].isspace() and re.match(r"[\w]", ts[j + 1]):
                fs.append(ts[j + 1]); j += 2
            return name, fs, j
        while i < len(ts):
            t = ts[i]
            if t == "let":
                # let NAME = PATH in  (a path to a place or a prefix that is only a name)
                j = i + 1
                while ts[j].isspace(): j += 1
                nm = ts[j]; k = j + 1
                while ts[k].isspace(): k += 1
                if ts[k] == "=":
                    # the text to the matching in
                    m = k + 1; depth = 0; par = 0
                    while True:
                        if m >= len(ts): raise Skip("let without in")
                        if ts[m] == "let": depth += 1
                        if ts[m] == "in" and depth == 0 and par == 0: break
                        if ts[m] == "in" and par == 0: depth -= 1
                        if ts[m] in "([{": par += 1
                        if ts[m] in ")]}": par -= 1
                        m += 1
                    rhs = "".join(ts[k + 1 : m]).strip()
                    v = self.path(rhs, env)
                    if v is not None:
                        env[nm] = v
                        i = m + 1
                        while i < len(ts) and ts[i].isspace() and out and (out[-1].isspace() or out[-1] == ""): i += 1
                        continue
                    # ordinary let: the right side with the old env, then the name hides
                    r = self.expr("".join(ts[k + 1 : m]), env, goal, where)
                    env.pop(nm, None)
                    out.append("let " + nm + " =" + r + "in")
                    i = m + 1
                    continue
                else:
                    env.pop(nm, None)
                    out.append(t); i += 1; continue
            if t == "(":
                d = 0; m = i
                while True:
                    if ts[m] == "(": d += 1
                    if ts[m] == ")":
                        d -= 1
                        if d == 0: break
                    m += 1
                k = m + 1; fs = []
                while k + 1 < len(ts) and ts[k] == "." and re.match(r"\w", ts[k + 1]):
                    fs.append(ts[k + 1]); k += 2
                if fs:
                    v = self.path("".join(ts[i + 1 : m]), env)
                    if v is not None:
                        v = self.walk(v[1], v[2] + fs)
                        if v[2]:
                            r = self.step(v[1], v[2])
                            out.append(self.text(r[1])); i = k; continue
            if re.match(r"[A-Za-z_\u0370-\u03ff]", t) and t != "λ" and not t.startswith("--"):
                prev = out[-1] if out else ""
                if prev == "." :
                    out.append(t); i += 1; continue
                if t == "λ":
                    out.append(t); i += 1; continue
                name, fs, j = path_at(i)
                if name in self.helpers and not fs:
                    out.append(name); i = j
                    # the argument
                    k = j
                    while k < len(ts) and ts[k].isspace(): k += 1
                    arg, nk = self.argument(ts, k, path_at)
                    v = self.path(arg, env) if arg is not None else None
                    if v is None or v[2]: raise Skip("the argument of the helper %s is not read: %s" % (name, arg))
                    if goal is None and where != self.helpers[name]:
                        out[-1] = self.inline(name, v, where)
                    else:
                        out.append(" " + self.at_place(v[1], goal, self.helpers[name], where))
                    i = nk
                    continue
                if name in env:
                    v = env[name]
                    if v[0] == "place":
                        r = self.step(v[1], v[2] + fs)
                        if r[0] == "place":
                            out.append(self.at_place(r[1], goal, None, where))
                        else:
                            out.append(self.text(r[1]))
                    i = j; continue
                out.append(t); i += 1; continue
            if t == "λ":
                out.append(t); i += 1
                k = i; d = 0
                while k < len(ts) and not (ts[k] == "." and d == 0):
                    if ts[k] in "({": d += 1
                    elif ts[k] in ")}": d -= 1
                    elif not ts[k].isspace(): env.pop(ts[k], None)
                    k += 1
                if any(x in ("(", ":") for x in ts[i:k]):
                    continue
                out.append("".join(ts[i:k])); i = k
                continue
            out.append(t); i += 1
        return "".join(out)

    def text(self, fields):
        if fields[0].startswith("\0"): return fields[0][1:] + "".join("." + x for x in fields[1:])
        return "c." + ".".join(fields)

    def argument(self, ts, k, path_at):
        if k >= len(ts): return None, k
        if ts[k] == "(":
            d = 0; m = k
            while True:
                if ts[m] == "(": d += 1
                if ts[m] == ")":
                    d -= 1
                    if d == 0: break
                m += 1
            return "".join(ts[k : m + 1]), m + 1
        if re.match(r"[A-Za-z_]", ts[k]):
            name, fs, j = path_at(k)
            return "".join(ts[k:j]), j
        return None, k

    def path(self, text, env):
        """A text that is only a path from a place: the place and the fields after it; None for any other."""
        text = text.strip()
        while text.startswith("(") and text.endswith(")") and self.closed(text[1:-1]):
            text = text[1:-1].strip()
        m = re.match(r"^let\s+([\w\-'\u2080-\u2089]+)\s*=\s*(.*?)(?<![\w-])in(?![\w-])\s*(.*)$", text, re.S)
        if m:
            v = self.path(m.group(2), env)
            return None if v is None else self.path(m.group(3), dict(env, **{m.group(1): v}))
        m = re.match(r"^([A-Za-z_][\w\-'\u2080-\u2089]*)((?:\s*\.[\w\-'\u2080-\u2089]+)*)$", text)
        if m:
            name = m.group(1); fs = [f.strip() for f in m.group(2).split(".") if f.strip()]
            if name not in env: return None
            v = env[name]
            return self.walk(v[1], v[2] + fs)
        m = re.match(r"^([A-Za-z_][\w\-']*)\s+(\S.*)$", text, re.S)
        if m and m.group(1) in self.to_place:
            v = self.path(m.group(2), env)
            if v is not None and not v[2]:
                return ("place", self.fn.place(self.declared[m.group(1)])[0][0], [])
        m = re.match(r"^\(([A-Za-z_][\w\-']*)\s+([^()]*|\([^()]*\))\)((?:\.[\w\-']+)+)$", text, re.S)
        if m and m.group(1) in self.to_place:
            v = self.path(m.group(1) + " " + m.group(2), env)
            if v is not None: return self.walk(v[1], v[2] + [f for f in m.group(3).split(".") if f])
        return None

    def walk(self, place, fs):
        p = self.fn.place(place)[0]
        while fs and fs[0] == "before":
            if p[1] is None:
                print("  look: a path goes past the start at %s" % place)
            else:
                p = self.fn.place(p[1])[0]
            fs = fs[1:]
        return ("place", p[0], fs)

    def closed(self, s):
        d = 0
        for ch in s:
            if ch == "(": d += 1
            if ch == ")":
                d -= 1
                if d < 0: return False
        return d == 0

    def inline(self, name, v, where):
        it = self.texts[name]
        eq = it["text"][1]
        e = re.match(r"^\S+\s+(\S+)\s*=(.*)$", eq, re.S)
        if e is None: raise Skip("the helper %s cannot be written out" % name)
        body = self.expr(e.group(2), {e.group(1): v}, None, where).strip()
        if "abbrev" in it["mods"]: return "(" + body + ")"
        ty = it["type"]
        bm = re.match(r"^\((\S+) : ([^()]*)\)\s*→(.*)$", ty, re.S)
        t = self.expr(bm.group(3), {bm.group(1): v}, None, where) if bm else ty.split("→", 1)[1]
        return "(let it : %s = %s in it)" % (t.strip(), body)

    def at_place(self, place, goal, want, where):
        p, new = self.fn.place(place)
        self.places_used.add(new)
        if where == new:
            return "c"
        if goal is None:
            raise Skip("a helper passes the place %s on" % place)
        return "(goal.at.%s c).%s" % (goal, new)

def split_top(s):
    """Splits at top-level commas."""
    parts, d, cur = [], 0, ""
    for ch in s:
        if ch in "([{": d += 1
        if ch in ")]}": d -= 1
        if ch == "," and d == 0:
            parts.append(cur); cur = ""
        else: cur += ch
    if cur.strip(): parts.append(cur)
    return parts

def to_record(body, names):
    """A tuple of as many parts as there are clauses becomes a record by the clauses' names."""
    # find the last top-level ( .. ) that ends the text
    s = body.rstrip()
    if not s.endswith(")"): return None
    d = 0
    for i in range(len(s) - 1, -1, -1):
        if s[i] == ")": d += 1
        if s[i] == "(":
            d -= 1
            if d == 0: break
    before = s[:i].rstrip()
    if before and not re.search(r"((?<![\w-])in|=)$", before) and not re.match(r"^\s*(rw|simp)\b", re.split(r"(?<![\w-])in(?![\w-])", before)[-1]): return None
    parts = split_top(s[i + 1 : -1])
    vals = []
    k = 0
    while len(vals) < len(names) - 1:
        if len(parts) == len(names) - len(vals):
            vals += parts; break
        if len(parts) != 2: return None
        vals.append(parts[0])
        inner = parts[1].strip()
        if len(vals) == len(names) - 1:
            vals.append(inner); break
        if not (inner.startswith("(") and inner.endswith(")")): return None
        parts = split_top(inner[1:-1])
    if len(vals) != len(names): return None
    rec = "record {\n" + "".join("      %s = %s;\n" % (n, v.strip()) for n, v in zip(names, vals)) + "    }"
    return (before + " " if before else "") + rec

def parts_of(body, names):
    """One term for all clauses becomes a record of its parts, or of the tactic, which serves each."""
    m = re.match(r"^(.*(?<![\w-])in\s+|\s*)(\S.*)$", body, re.S)
    if not m or re.search(r"(?<![\w-])let(?![\w-])", m.group(2)): return None
    before, last = m.group(1), m.group(2).strip()
    if re.search(r"(?<![\w-])in(?![\w-])", last): return None
    if re.match(r"^(search|omega|simp|cc|grind)\b", last):
        vals = [last] * len(names)
    elif re.match(r"^(rw|elim|absurd|λ|record)\b", last):
        return None
    else:
        vals = []
        for i, n in enumerate(names):
            vals.append("(%s)%s%s" % (last, ".1" * min(i, len(names) - 1), "" if i == len(names) - 1 else ".0"))
    return before + "record {\n" + "".join("      %s = %s;\n" % (n, v) for n, v in zip(names, vals)) + "    }"

def turn(path, names, clauses, crate, folder):
    pkg = os.path.basename(os.path.abspath(crate))
    key_path = folder.replace("/", ".")
    key = "Rattle-%s-proofs.%s.Lts" % (pkg, key_path)
    if key not in names: raise Skip("no names for " + key)
    fid = "::".join([pkg] + folder.replace("+", "").split("/"))
    own = clauses.get(fid)
    fn = Fn(names, key, own)
    text = open(path, encoding="utf-8").read()
    head, items, tail = split_items(text)
    first = items[0]["comments"] if items else tail
    T = Turn(fn, clauses, pkg)
    spec = os.path.basename(folder).replace("+", "") + "-spec"
    answers, invs, helpers = [], [], []
    top_comment = []
    lines = text.split("\n")
    for l in lines:
        if l.startswith("--"): top_comment.append(l)
        else: break
    if items and items[0]["comments"][: len(top_comment)] == top_comment:
        items[0]["comments"] = items[0]["comments"][len(top_comment):]
    spec_item = None
    for it in items:
        if norm(it["name"]) == norm(spec): spec_item = it
    items = [it for it in items if it is not spec_item]
    loopnames = {}
    for (pair, vs), ch in zip(fn.d["loops"], fn.d["changed"]):
        loopnames[norm(pair[0])] = (pair[1], vs, ch)
    byname = {}
    for it in items:
        sig = it["text"][0]
        it["type"] = sig.split(" :", 1)[1].strip()
        byname[norm(it["name"])] = it
    def goal_of(word):
        g = norm(word)
        if g not in fn.goals:
            g2 = re.sub(r"^overflow-", "", g)
            if g2 in fn.goals: g = g2
            g3 = re.sub(r"^slice-bounds-", "part-", g)
            if g3 in fn.goals: g = g3
        if g not in fn.goals:
            raise Skip("no goal %s (%s)" % (word, ", ".join(fn.goals)))
        return g
    # helpers over a place: (c : tie.P ..) -> or tie.P ->
    rest = []
    for it in items:
        ty = it["type"]
        if re.match(r"^tie\.(Need|invariant|decreases)-", ty): continue
        m = re.search(r"tie\.((?:Start|After|At|In|Then|Else|Past)[\w\-']*)", ty)
        if m:
            old, new = fn.place(m.group(1))
            it["place"] = old[0]
            T.helpers[it["name"]] = new
            T.texts[it["name"]] = it
            mm = re.match(r"^tie\.[\w\-']+(?: invariant-[\w-]+| decreases-[\w-]+)*\s*→\s*tie\.[\w\-']+(?: invariant-[\w-]+| decreases-[\w-]+)*\s*$", ty)
            if mm:
                eq = it["text"][1]
                e = re.match(r"^\S+\s+(\S+)\s*=(.*)$", eq, re.S)
                body = e.group(2).strip()
                # a body of lets of paths is folded by evaluation
                T.to_place[it["name"]] = (e.group(1), body)
                T.declared[it["name"]] = re.search(r"→\s*tie\.([\w\-']+)", ty).group(1)
                T.helpers.pop(it["name"])
                it["folded"] = True
    inline = {}
    if spec_item is not None:
        body = " ".join(spec_item["text"][1:])
        k = body.find("tie.spec")
        args = []
        if k >= 0:
            ts = toks(body[k + len("tie.spec"):])
            d = 0; cur = ""
            for t in ts:
                if t == ")" and d == 0: break
                if t in "([{": d += 1
                if t in ")]}": d -= 1
                if t.isspace() and d == 0:
                    if cur.strip(): args.append(cur.strip())
                    cur = ""
                else: cur += t
            if cur.strip(): args.append(cur.strip())
        nl = 2 * len(fn.d["loops"])
        if re.search(r"\.\s*$", "") is None and len(args) in (nl + len(fn.goals), nl + len(fn.d["needs"])):
            for (g, new), a, at in zip(fn.d["needs"], args[nl:], fn.d["asked_at"]):
                if a.startswith("("):
                    m = re.match(r"^\(λ (\S+)(?: κs)?\.\s*(.*)\)$", a, re.S)
                    if not m: raise Skip("an argument of tie.spec is not read: " + a[:60])
                    if m.group(2).strip() in ("search rules",): continue
                    inline[norm(g)] = (m.group(1), m.group(2))
        elif any(a.startswith("(") and not re.match(r"^\(λ (\S+)(?: κs)?\.\s*search rules\)$", a) for a in args):
            raise Skip("tie.spec has %d arguments, %d goals and %d of loops" % (len(args), len(fn.d["needs"]), nl))
    def finish(new, body):
        cl = None
        if new.startswith("returns"):
            cl = own[1] if own else None
        elif "-requires" in new:
            for callee in fn.d["params"]:
                w = callee.split("::")[-1]
                if re.match(r"%s(-|$)" % re.escape(w), new) and callee in clauses: cl = clauses[callee][0]
        if cl and len(cl) > 1:
            rec = to_record(body, cl)
            if rec is None: rec = parts_of(body, cl)
            if rec is None: print("  look: %s: clauses %s are left as they stand" % (new, cl))
            else: body = rec
        return body
    for it in items:
        nm, ty = it["name"], it["type"]
        m = re.match(r"^tie\.Need-([\w\-']+)", ty)
        if m:
            g = goal_of(m.group(1))
            new, at = fn.goals[g], fn.goal_place[g]
            out = []
            for eq in it["text"][1:]:
                mm = re.match(r"^%s((?:\s+[^\s=]+)*)\s*=(.*)$" % re.escape(nm), eq, re.S)
                if not mm: raise Skip("an equation of %s is not read" % nm)
                args = mm.group(1).split()
                if not args:
                    out.append("%s =%s" % (new, mm.group(2))); continue
                env = {args[0]: ("place", at[0], [])}
                T.goal_at = at[0]
                for x in args[1:]: env.pop(x, None)
                more = "".join(" " + x for x in args[1:] if x != "κs")
                body = finish(new, T.expr(mm.group(2), env, new, at[1]))
                out.append("%s c%s =%s" % (new, more, body if body[:1] in " \n" else " " + body))
            answers.append(("\n".join(it["comments"]), new, it["unfolding"], out))
            continue
        m = re.match(r"^tie\.(invariant|decreases)-([\w\-']+)", ty)
        if m:
            kind, lp = m.group(1), norm(m.group(2))
            nn, vs, ch = loopnames[lp]
            eq = it["text"][1]
            mm = re.match(r"^%s((?:\s+[^\s=]+)*)\s*=(.*)$" % re.escape(nm), eq, re.S)
            params = mm.group(1).split()
            want = [("l." + v if not c else "l.initial." + v) for v, c in zip(vs, ch)] + ["l." + v for v, c in zip(vs, ch) if c]
            if len(params) != len(want):
                raise Skip("loop %s: %s for %s" % (lp, params, want))
            sub = {p: w for p, w in zip(params, want) if p != "_"}
            ts = toks(mm.group(2)); res = []
            hid, depth, bind = [], 0, None   # names that a λ binds, to the end of its brackets
            for i, t in enumerate(ts):
                if t == "(": depth += 1
                if t == ")":
                    depth -= 1
                    hid = [(n, d) for n, d in hid if d <= depth]
                if t == "λ": bind = depth
                elif bind is not None and t == "." and depth == bind: bind = None
                elif bind is not None and re.match(r"\w", t) and i and (ts[i - 1] in "λ(" or ts[i - 1].isspace()):
                    if not any(x == ":" for x in ts[max(0, i - 4):i]): hid.append((t, bind))
                if t in sub and not (i and ts[i - 1] == ".") and all(t != n for n, d in hid): res.append(sub[t])
                else: res.append(t)
            invs.append(("\n".join(it["comments"]), it["mods"], "%s-%s" % (kind, nn), it["unfolding"], "".join(res)))
            continue
        if it.get("folded"): continue
        if it.get("place"):
            old, new = fn.place(it["place"])
            T.goal_at = it["place"]
            T.places_used.add(new)
            sig = re.sub(r"tie\.([\w\-']+)((?: invariant-[\w-]+| decreases-[\w-]+)*)", lambda m: fn.place(m.group(1))[1] if not m.group(1).startswith(("Need", "inv", "dec")) else m.group(0), ty)
            bm = re.match(r"^\((\S+) : ([^()]*)\)(.*)$", sig, re.S)
            if bm:
                v = bm.group(1)
                sig = "(c : %s)%s" % (bm.group(2), T.expr(bm.group(3), {v: ("place", it["place"], [])}, None, new))
            eqs = []
            for eq in it["text"][1:]:
                mm = re.match(r"^%s((?:\s+[^\s=]+)*)\s*=(.*)$" % re.escape(nm), eq, re.S)
                args = mm.group(1).split()
                body = T.expr(mm.group(2), {args[0]: ("place", it["place"], [])}, None, new)
                eqs.append("%s%s =%s" % (nm, "".join(" " + (a if k else "c") for k, a in enumerate(args)), body))
            helpers.append(("\n".join(it["comments"]), it["mods"] + nm + " : " + sig, it["unfolding"], eqs))
        else:
            helpers.append(("\n".join(it["comments"]), it["text"][0], it["unfolding"], it["text"][1:]))
        answers.append(helpers[-1])
    for g, (arg, b) in inline.items():
        new, at = fn.goals[g], fn.goal_place[g]
        T.goal_at = at[0]
        body = finish(new, T.expr(" " + b, {arg: ("place", at[0], [])}, new, at[1]))
        answers.append(("", new, None, ["%s c =%s" % (new, body)]))
    head = [l.replace("{type-inv", "{type_inv") for l in head]
    uses = [l for l in head if not re.search(r"\.Statement\.\{|\.Tie as tie|\.Tie\b", l)]
    files = {}
    base = "Rattle.%s.proofs.%s" % (pkg, key_path)
    if invs:
        b = list(uses) + ["use %s.Given as goal" % base, ""]
        for com, mods, name, unf, text_ in invs:
            if com: b.append(com)
            b.append("abbrev pub %s : goal.%s" % (name, name))
            if unf: b.append(unf)
            b.append("%s l =%s" % (name, text_)); b.append("")
        files["Invariants.antt"] = "\n".join(b)
    if answers:
        b = list(top_comment) + list(uses) + ["use %s.Goals as goal" % base]
        if T.places_used: b.append("use %s.Goals.{%s}" % (base, ", ".join(sorted(T.places_used))))
        b.append("")
        for com, new, unf, out in answers:
            if com: b.append(com)
            if " : " in new: b.append(new)
            else: b.append("pub %s : goal.%s" % (new, new))
            if unf: b.append(unf)
            b += out; b.append("")
        files["Answers.antt"] = "\n".join(b)
    # a parameter that the older kit named by its type goes by its own name
    for old, new in fn.d["args"]:
        o = old.replace(" ", "")
        for f in files:
            files[f] = re.sub(re.escape(o) + r"(?![\w-])", new.replace(" ", ""), files[f])
    return files

def main():
    names = json.load(open(sys.argv[1]))
    crate = sys.argv[2].rstrip("/")
    folders = sys.argv[3:]
    clauses = read_clauses(os.path.dirname(os.path.abspath(crate)))
    if not folders:
        for r, ds, fs in os.walk(os.path.join(crate, "proofs")):
            if "Proof.antt" in fs:
                folders.append(os.path.relpath(r, os.path.join(crate, "proofs")))
    for f in sorted(folders):
        p = os.path.join(crate, "proofs", f, "Proof.antt")
        try:
            t = turn(p, names, clauses, crate, f)
        except Skip as e:
            print("left: %s: %s" % (f, e)); continue
        for fn_, tx in t.items():
            open(os.path.join(os.path.dirname(p), fn_), "w", encoding="utf-8").write(tx)
        os.remove(p)
        print("turned: " + f)

if __name__ == "__main__":
    main()
