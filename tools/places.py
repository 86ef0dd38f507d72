#!/usr/bin/env python3
"""places.py [TREE]: the places of the points of docs/DESIGN-PASS.md in TREE/crates/*/src, by pattern, a line for each.

places.py --count [TREE]: a line for each kind of place, with how many there are.
What is counted is told by its name: a pattern finds what it finds, and whether a place is one to change is for the page to say."""
import re, sys, os, glob, collections

FN = re.compile(r"^[ \t]*(?:pub(?:\(crate\))? )?(?:final )?(?:const )?fn (\w+)[^{;]*", re.M)


def functions(text):
    """(name, line, signature with clauses, body) of each function."""
    out = []
    for m in re.finditer(r"^[ \t]*(?:pub(?:\(crate\))? )?(?:final )?fn (\w+)", text, re.M):
        i, depth = m.end(), 0
        # the body is the first `{` at the start of a line, or that ends the signature's line
        n = re.search(r"(?:^[ \t]*\{[ \t]*$)|(?:\{[ \t]*$)", text[i:], re.M)
        if not n:
            continue
        start = i + n.end() - 1
        while text[start] != "{":
            start -= 1
        depth, j = 0, start
        while j < len(text):
            if text[j] == "{":
                depth += 1
            elif text[j] == "}":
                depth -= 1
                if depth == 0:
                    break
            j += 1
        out.append((m.group(1), text.count("\n", 0, m.start()) + 1, text[m.start():start], text[start:j + 1]))
    return out


def parameters(signature):
    i = signature.index("(") if "(" in signature else -1
    if i < 0:
        return []
    depth, j = 0, i
    while j < len(signature):
        if signature[j] in "([{<":
            depth += 1
        elif signature[j] in ")]}>" and signature[j - 1:j + 1] != "->":
            depth -= 1
            if depth == 0:
                break
        j += 1
    inside, parts, depth, cur = signature[i + 1:j], [], 0, ""
    for c in inside:
        if c in "([{<":
            depth += 1
        if c in ")]}>":
            depth -= 1
        if c == "," and depth == 0:
            parts.append(cur)
            cur = ""
        else:
            cur += c
    parts.append(cur)
    return [p.strip() for p in parts if p.strip()]


def shape(body):
    """the body with its names numbered in order of appearance and its literals taken out: twins have one shape"""
    body = re.sub(r"//[^\n]*", "", body)
    seen, out = {}, []
    for t in re.findall(r"[A-Za-z_]\w*|b?'[^']*'|\d\w*|\S", body):
        if re.match(r"\d|b?'", t):
            out.append("0")
        elif re.match(r"[A-Za-z_]", t):
            if t in ("if", "else", "match", "while", "for", "in", "let", "mut", "return", "as", "loop", "break", "true", "false", "self"):
                out.append(t)
            else:
                out.append("n%d" % seen.setdefault(t, len(seen)))
        else:
            out.append(t)
    return " ".join(out)


SHAPED = {"Unlisted", "Nothing", "Refused", "NotFinite", "Stop", "Bad", "BadByte", "Short", "Failed", "Wrong", "Done"}
HAND = (r"(?:plain_\w+|no_column|no_value|refused_\w+|one_if|order_for|ids_for|table_number|lesser\w*|larger|greater\w*|same_text|same_name|lower_of|"
        r"signed_\w+|is_printable|is_letter|is_plain|is_digit|digit_of|natural_of|of_table|of_index|of_node_index|name_of|kind_of|key_listed|"
        r"either_varies|width_of|body_size|most_taken|bytes_from|part|front\w*|lent\w*|bytes_between|row_from|say_\w+|put_number|put_text|put_byte|"
        r"is_integer|is_triplet|has_coordinates|extent_of|refusal_of|find_answer|wide|entry|number_at|columns_within|no_such|one_more|join\d|"
        r"split\d|put\d|lacks_comma|ends_columns|is_star|columns_after|finish_at|in_range|"
        r"short_found|double_found|short_value|integer_value|float_value|double_value|triplet_value|clear|find)")


def places(tree):
    found = collections.OrderedDict((k, []) for k in (
        "1 enum with a variant for none or a refusal", "1 number tested against 0 for `nothing is refused`", "1 constant that is a refusal's number", "1 Refusal that may say nothing",
        "1 result where 0 stands for none", "1 struct with a flag or refusal beside a value",
        "2 functions of one shape in a crate (three lines or more)", "2 function or type named by its width", "3 index counted by hand in a `while`",
        "4 conversion, comparison or printing by hand", "5 function of seven parameters or more", "5 `requires` that three functions or more have",
        "6 fixed array beside its length, or parallel arrays", "7 code that says which step to run"))
    for crate in sorted(os.listdir(os.path.join(tree, "crates"))):
        shapes, clauses = collections.defaultdict(list), collections.defaultdict(list)
        for path in sorted(glob.glob(os.path.join(tree, "crates", crate, "src", "*.rt"))):
            text, short = open(path).read(), os.path.relpath(path, os.path.join(tree, "crates"))
            line = lambda i: text.count("\n", 0, i) + 1
            add = lambda kind, n, what: found[kind].append("%s:%d %s" % (short, n, what))
            for m in re.finditer(r"^(?:pub )?enum (\w+)[^{]*\{(.*?)^\}", text, re.M | re.S):
                variants = re.findall(r"^    (\w+)", m.group(2), re.M)
                if len(variants) <= 4 and SHAPED & set(variants) or "Refused" in variants:
                    add("1 enum with a variant for none or a refusal", line(m.start()), m.group(1))
            for m in re.finditer(r"(?:number|wrong|refusal) (?:!=|==) 0", text):
                add("1 number tested against 0 for `nothing is refused`", line(m.start()), m.group(0))
            for m in re.finditer(r"^pub const ([A-Z_]+): u32 = (\d+);", text, re.M):
                if crate == "refusal":
                    add("1 constant that is a refusal's number", line(m.start()), m.group(1))
            for m in re.finditer(r"^(?:pub )?struct (\w+) \{(.*?)^\}", text, re.M | re.S):
                if re.search(r"^    (?:pub )?(?:answer|refusal|wrong|finding): ", m.group(2), re.M) and m.group(2).count(":") > 2:
                    add("1 struct with a flag or refusal beside a value", line(m.start()), m.group(1))
                arrays = re.findall(r"^    (?:pub )?(\w+): \[[^;]+; \w+\]", m.group(2), re.M)
                if arrays and (len(arrays) > 1 or re.search(r"^    (?:pub )?(columns|rows|n|len): usize", m.group(2), re.M)):
                    add("6 fixed array beside its length, or parallel arrays", line(m.start()), m.group(1) + ": " + ", ".join(arrays))
            for m in re.finditer(r"^const \w*CODE\w*: \w+|^\s*code: u64", text, re.M):
                add("7 code that says which step to run", line(m.start()), m.group(0).strip())
            for m in re.finditer(r"^(?:pub )?(?:struct|enum) (\w*(?:32|64))\b", text, re.M):
                add("2 function or type named by its width", line(m.start()), m.group(1))
            for name, n, signature, body in functions(text):
                if re.search(r"(?:[a-z]\d|32|64)$", name):
                    add("2 function or type named by its width", n, name)
                if re.search(r"-> Refusal\s", signature) and name not in ("refuse", "at", "stuck_at"):
                    add("1 Refusal that may say nothing", n, name)
                before = text[:text.index(signature)].rstrip().split("\n")[-3:]
                comment = " ".join(l for l in before if l.strip().startswith("//"))
                if re.search(r"-> usize\s", signature) and re.search(r"\bor 0\b|0 where|; 0 |or nothing", comment):
                    add("1 result where 0 stands for none", n, name)
                for m in re.finditer(r"^\s*while ", body, re.M):
                    add("3 index counted by hand in a `while`", n + signature.count("\n") + body.count("\n", 0, m.end() - 1), name)
                if re.fullmatch(HAND, name):
                    add("4 conversion, comparison or printing by hand", n, name)
                if len(parameters(signature)) >= 7:
                    add("5 function of seven parameters or more", n, "%s (%d)" % (name, len(parameters(signature))))
                for m in re.finditer(r"^\s*requires (?:\w+ )?(\{.*?\})\s*(?=requires|ensures|$)", signature, re.M | re.S):
                    clauses[re.sub(r"\s+", " ", m.group(1))].append((short, n, name))
                if body.count("\n") >= 4:
                    shapes[shape(body)].append((short, n, name))
        for s, of in shapes.items():
            if len(of) > 1:
                found["2 functions of one shape in a crate (three lines or more)"] += ["%s:%d %s" % (a, b, c) for a, b, c in of]
        for s, of in clauses.items():
            if len(of) >= 3:
                found["5 `requires` that three functions or more have"] += ["%s:%d %s %s" % (a, b, c, s[:60]) for a, b, c in of]
    return found


if __name__ == "__main__":
    args = [a for a in sys.argv[1:] if a != "--count"]
    tree = args[0] if args else os.path.join(os.path.dirname(os.path.abspath(__file__)), "..")
    for kind, of in places(tree).items():
        if "--count" in sys.argv:
            print("%4d  %s" % (len(of), kind))
        else:
            for p in of:
                print("%s | %s" % (kind, p))
