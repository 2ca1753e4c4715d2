#!/usr/bin/env python3
"""The places that docs/DESIGN-PASS.md counts, point by point.

    tools/design_places.py            the counts
    tools/design_places.py 3          the places of point 3, a line each
"""
import collections
import pathlib
import re
import sys

TOP = pathlib.Path(__file__).resolve().parent.parent
FILES = sorted(TOP.glob("crates/*/src/*.rt"))


def lines():
    """Each line of a source file, with its place."""
    for path in FILES:
        for number, line in enumerate(path.read_text().split("\n"), 1):
            yield f"{path.relative_to(TOP / 'crates')}:{number}", line


def functions():
    """Each function: its place, name, parameters, clauses and body."""
    head = re.compile(r"^( *)(?:pub(?:\(crate\))? )?(?:extern \"C\" )?fn (\w+)(?:<[^>]*>)?\(", re.M)
    for path in FILES:
        text = path.read_text()
        for m in head.finditer(text):
            at, depth = m.end(), 1
            while depth:
                depth += {"(": 1, "[": 1, ")": -1, "]": -1}.get(text[at], 0)
                at += 1
            end = re.compile(rf"^{m[1]}\}}", re.M).search(text, at)
            rest = text[at : end.start()] if end else ""
            start = re.search(rf"^{m[1]}\{{\n|\{{\n", rest, re.M)
            if start:
                place = f"{path.relative_to(TOP / 'crates')}:{text[: m.start()].count(chr(10)) + 1}"
                yield place, m[2], " ".join(text[m.end() : at - 1].split()), rest[: start.start()], rest[start.end() :]


def grep(pattern, keep=lambda place: True):
    found = re.compile(pattern)
    return [f"{place}: {line.strip()}" for place, line in lines() if found.search(line) and keep(place)]


def enums_of_two_ends():
    """Own enums with a case for what failed or is missing."""
    out, name = [], None
    for place, line in lines():
        if m := re.match(r"pub enum (\w+)", line):
            name = f"{place}: enum {m[1]}"
        elif name and re.match(r"    (Fault|Stopped|Missing|OutOfRange|Stuck|Nothing)\b", line):
            out.append(name)
            name = None
        elif line == "}":
            name = None
    return out


def twins():
    """Functions that are the same but for names, types, sizes and constants."""
    groups = collections.defaultdict(list)
    for place, name, params, clauses, body in functions():
        if body.count("\n") < 1 or "extern" in clauses:
            continue
        seen = {}
        words = re.findall(r"b?'[^']*'|b?\"[^\"]*\"|\w+|[^\w\s]", body)
        shape = []
        for w in words:
            if re.match(r"b?['\"]|\d|[A-Z]|u8$|u16$|u32$|u64$|usize$|i32$|true$|false$", w):
                shape.append("C")
            elif re.match(r"[a-z_]\w*$", w) and w not in ("let", "mut", "if", "else", "return", "while", "loop", "match", "as", "for", "in"):
                shape.append(seen.setdefault(w, f"v{len(seen)}"))
            else:
                shape.append(w)
        groups[" ".join(shape)].append(f"{place}: {name}")
    return [", ".join(g) for g in groups.values() if len(g) > 1]


def conversions():
    """Functions that only convert, compare or hold a bit."""
    out = []
    for place, name, params, clauses, body in functions():
        code = " ".join(body.split())
        if re.fullmatch(r"\w+(\[\w+\])? as \w+", code) or re.search(r"^if \w+(\.\w+)? (==|<) .* \{ return (1|\w+); \} (0|\w+)$", code):
            out.append(f"{place}: {name}")
        elif name in ("before", "both", "misfeeds", "digit", "digit_of", "small_digit", "tell", "no_text"):
            out.append(f"{place}: {name}")
    return out


TRAVEL = {
    "text, table and count": r"\b(d|l|v|t)?text: &\[u8\], (d|l|v|t)?table: &\[u32\], (d|l|v|t)?n: usize",
    "class table": r"classes: &\[u8; 256\]",
    "output and place": r"out: &mut \[u8\].* s: Place",
    "directory": r"\bwords: &\[u32\]",
    "index of names": r"\bl?index: &(mut )?\[u16\]",
}


def travelling():
    """Parameters that always travel together."""
    return [f"{place}: {name}: {what}" for place, name, params, *_ in functions() for what, p in TRAVEL.items() if re.search(p, params)]


def facts():
    """Facts that stand in the contracts of three or more functions of a crate."""
    count = collections.Counter()
    for place, name, params, clauses, body in functions():
        for fact in set(re.findall(r"requires(?: \w+)? \{ (.*?) \}\n", clauses + "\n", re.S)):
            crate = place.split("/")[0]
            count[crate, re.sub(r"\b(d|l|v|t|vt|tt)?(text|table|n)\b", r"\2", " ".join(fact.split()))] += 1
    return [f"{crate}: {n} times: {fact}" for (crate, fact), n in count.most_common() if n > 2]


POINTS = {
    "1a enums shaped like Option or Result": enums_of_two_ends,
    "1b a number that says there is none": lambda: grep(r"^\s*//.*(\b0 where|\bor 0\b|, 0 for|; 0 |\b0 beyond|\b0 in its place|code of acceptance there is none)"),
    "1c constants for kinds and refusals": lambda: grep(r"pub const [A-Z_]+: u(8|32) = \d+;", lambda p: re.search(r"/(class|kind|code|symbol|lib|types)\.rt", p)),
    "1d parameters and fields for them": lambda: grep(r"\b(code|kind|k|s): u(8|32)\b"),
    "2 twins": twins,
    "3 loops that count by hand": lambda: grep(r"^\s*(while|loop)\b"),
    "4 conversions and comparisons by hand": conversions,
    "5a parameters that travel together": travelling,
    "5b facts in three or more contracts": facts,
    "6 arrays of words": lambda: grep(r"\[0u(8|16|32); "),
    "7 switches on the step to run": lambda: grep(r"match (which|run|leaves)\b"),
}

if __name__ == "__main__":
    want = sys.argv[1] if len(sys.argv) > 1 else None
    for title, find in POINTS.items():
        places = find()
        if want is None:
            print(f"{len(places):4}  {title}")
        elif title.startswith(want):
            print(f"{title}: {len(places)}")
            for place in places:
                print("    " + place)
