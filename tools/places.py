#!/usr/bin/env python3
"""Counts the places of the eight points of docs/DESIGN-PASS.md.

    python3 tools/places.py FOLDER            a line for each point: point N: COUNT places
    python3 tools/places.py FOLDER --list     each place too: crate/file:line: text
    python3 tools/places.py FOLDER --point N  one point
    python3 tools/places.py FOLDER --second   the second way of counting, point by point

FOLDER is a checkout: its crates.txt gives the order, and crates/NAME/src/*.rt is read (point 8: crates/NAME/proofs).
Nothing is run or written, and the answer depends on the files alone."""
import collections
import os
import re
import sys

# ---------------------------------------------------------------- reading


def crates_of(folder):
    names = []
    for line in open(os.path.join(folder, "crates.txt"), encoding="utf-8"):
        if line.strip() and not line.startswith("#"):
            names.append(re.split(r"[ :]", line)[0])
    return names


def blanked(text):
    """Comments, and what stands in strings, as blanks: places stay."""
    out = list(text)
    i, n = 0, len(text)
    while i < n:
        two = text[i:i + 2]
        if two == "//":
            while i < n and text[i] != "\n":
                out[i] = " "
                i += 1
            continue
        if text[i] == '"':
            i += 1
            while i < n and text[i] != '"':
                step = 2 if text[i] == "\\" else 1
                for k in range(i, min(n, i + step)):
                    if text[k] != "\n":
                        out[k] = " "
                i += step
            i += 1
            continue
        char = re.match(r"b?'(\\.[^']*|[^'\\])'", text[i:i + 12])
        if char:
            for k in range(i, i + char.end()):
                if text[k] not in "b'":
                    out[k] = "c"
            i += char.end()
            continue
        i += 1
    return "".join(out)


PAIRS = {"(": ")", "{": "}", "[": "]"}


def closing(code, at):
    """The place of the bracket that closes the one at `at`."""
    opened, closed, depth = code[at], PAIRS[code[at]], 0
    for i in range(at, len(code)):
        if code[i] == opened:
            depth += 1
        elif code[i] == closed:
            depth -= 1
            if depth == 0:
                return i
    return len(code) - 1


def split_at_top(text, by):
    parts, depth, now = [], 0, ""
    for c in text:
        if c in "([{<" and not (c == "<" and by == "×"):
            depth += 1
        elif c in ")]}>" and not (c == ">" and by == "×"):
            depth -= 1
        if c == by and depth == 0:
            parts.append(now)
            now = ""
        else:
            now += c
    parts.append(now)
    return [p.strip() for p in parts if p.strip()]


class File:
    def __init__(self, crate, name, text):
        self.crate, self.name, self.text = crate, name, text
        self.code = blanked(text)
        self.starts = [0]
        for i, c in enumerate(text):
            if c == "\n":
                self.starts.append(i + 1)

    def line(self, at):
        import bisect
        return bisect.bisect_right(self.starts, at)

    def line_text(self, number):
        return self.text.split("\n")[number - 1].strip()

    def place(self, at):
        return f"{self.crate}/{self.name}:{self.line(at)}"


class Fn:
    """A function: what it is given, promises and does."""

    def __init__(self, file, match):
        code = file.code
        self.file, self.at, self.name = file, match.start(4), match.group(4)
        self.public, self.exported = bool(match.group(2)), bool(match.group(3))
        i = match.end()
        if i < len(code) and code[i] == "<":
            depth = 0
            while True:
                depth += {"<": 1, ">": -1}.get(code[i], 0) if code[i - 1:i + 1] != "->" else 0
                i += 1
                if depth == 0:
                    break
        end = closing(code, i)
        self.params = []
        for part in split_at_top(code[i + 1:end], ","):
            if ":" in part:
                name, kind = part.split(":", 1)
                name = re.sub(r"^\s*mut\s+", "", name)
                self.params.append((name.strip(), re.sub(r"\s+", " ", kind.strip())))
            else:
                self.params.append((part.strip(), "Self"))
        i = end + 1
        self.requires, self.ensures, self.ret = [], [], ""
        rest = re.compile(r"\s*(->\s*[^\n{]+|where\b[^\n{]*|requires\b[^{]*|ensures\b[^{]*)").match
        while True:
            m = rest(code, i)
            if not m:
                # what stands behind `where`, up to a clause, the body or the end of a trait's method
                more = re.compile(r"(?:[^{};](?!\b(?:requires|ensures)\b))*[^{};]?").match(code, i)
                if more and more.end() > i and re.compile(r"\s*(?:requires|ensures)\b").match(code, more.end()):
                    i = more.end()
                    continue
                break
            word = m.group(1)
            if word.startswith("->"):
                self.ret = word[2:].strip()
                i = m.end()
            elif word.startswith("where"):
                i = m.end()
            else:
                at = m.end()
                stop = closing(code, at)
                clause = re.sub(r"\s+", " ", code[at + 1:stop]).strip()
                (self.requires if word.startswith("requires") else self.ensures).append((clause, at))
                i = stop + 1
        end = re.compile(r"[{;]").search(code, i)
        if not end or end.group(0) == ";":
            # a trait's method without a body
            self.body_at = self.end = end.start() if end else len(code) - 1
            self.body = self.text = ""
            return
        i = end.start()
        stop = closing(code, i)
        self.body_at, self.end = i, stop
        self.body = code[i:stop + 1]
        self.text = file.text[i:stop + 1]

    def place(self):
        return self.file.place(self.at)

    def signature(self):
        given = ", ".join(f"{n}: {t}" if t != "Self" else n for n, t in self.params)
        return f"fn {self.name}({given})" + (f" -> {self.ret}" if self.ret else "")


HEAD = re.compile(r"^( *)(pub(?:\([^)\n]*\))? )?(extern \" \" )?(?:const |unsafe )?fn (\w+)", re.M)


class Tree:
    def __init__(self, folder):
        self.folder = folder
        self.crates = crates_of(folder)
        self.files, self.fns = [], []
        for crate in self.crates:
            src = os.path.join(folder, "crates", crate, "src")
            for base, dirs, names in os.walk(src):
                dirs.sort()
                for name in sorted(names):
                    if name.endswith(".rt"):
                        path = os.path.join(base, name)
                        rel = os.path.relpath(path, os.path.join(folder, "crates", crate))
                        self.files.append(File(crate, rel, open(path, encoding="utf-8").read()))
        self.files.sort(key=lambda f: (self.crates.index(f.crate), f.name != "src/lib.rt" and f.name != "src/main.rt", f.name))
        for f in self.files:
            for m in HEAD.finditer(f.code):
                self.fns.append(Fn(f, m))

    def fn_at(self, file, at):
        for fn in self.fns:
            if fn.file is file and fn.body_at <= at <= fn.end:
                return fn
        return None


class Place:
    def __init__(self, where, text, sort, key=None):
        self.where, self.text, self.sort, self.key = where, text, sort, key or text
        self.crate = where.split("/")[0]


def enums_in(file):
    for m in re.finditer(r"^(?:pub )?enum (\w+)[^{]*\{", file.code, re.M):
        end = closing(file.code, m.end() - 1)
        variants = []
        for part in split_at_top(file.code[m.end():end], ","):
            part = re.sub(r"#\[[^\]]*\]", "", part).strip()
            v = re.match(r"(\w+)\s*(.*)", part, re.S)
            payload = re.sub(r"\s+", " ", v.group(2)).strip()
            variants.append((v.group(1), payload))
        yield m, variants


def structs_in(file):
    for m in re.finditer(r"^(?:pub )?struct (\w+)(?:<[^>]*>)? \{", file.code, re.M):
        end = closing(file.code, m.end() - 1)
        fields = []
        for part in split_at_top(file.code[m.end():end], ","):
            part = re.sub(r"#\[[^\]]*\]", "", part).strip()
            if ":" in part:
                name, kind = part.split(":", 1)
                fields.append((name.replace("pub ", "").strip(), kind.strip()))
        yield m, fields


def loops_in(fn):
    for m in re.finditer(r"\b(while|loop|for)\b", fn.body):
        at = fn.body.index("{", m.end())
        # a `while` may have a block or a struct in its condition nowhere in this repository
        stop = closing(fn.body, at)
        yield m.group(1), fn.body_at + m.start(), fn.body[m.end():at].strip(), fn.body[at:stop + 1]


def matches_in(fn):
    for m in re.finditer(r"\bmatch\b", fn.body):
        at = fn.body.index("{", m.end())
        stop = closing(fn.body, at)
        inner = fn.body[at + 1:stop]
        raw = fn.text[at + 1:stop]
        arms, i = [], 0
        while i < len(inner):
            arrow = top_arrow(inner, i)
            if arrow < 0:
                break
            pattern = re.sub(r"\s+", " ", raw[i:arrow]).strip().lstrip(",").strip()
            j = arrow + 2
            while j < len(inner) and inner[j].isspace():
                j += 1
            if j < len(inner) and inner[j] == "{":
                k = closing(inner, j)
                arms.append((pattern, re.sub(r"\s+", " ", raw[j:k + 1]).strip()))
                i = k + 1
            else:
                k, depth = j, 0
                while k < len(inner) and not (inner[k] == "," and depth == 0):
                    depth += inner[k] in "([{"
                    depth -= inner[k] in ")]}"
                    k += 1
                arms.append((pattern, re.sub(r"\s+", " ", raw[j:k]).strip()))
                i = k + 1
        yield fn.body_at + m.start(), re.sub(r"\s+", " ", fn.body[m.end():at]).strip(), arms


def top_arrow(text, start):
    depth = 0
    for i in range(start, len(text) - 1):
        if text[i] in "([{":
            depth += 1
        elif text[i] in ")]}":
            depth -= 1
        elif text[i:i + 2] == "=>" and depth == 0:
            return i
    return -1


# ---------------------------------------------------------------- point 1

REFUSING = ("Refused", "Unread", "Stopped", "Over", "Fails", "Failed", "Err")
# a byte of data, not a number for something
DATA_BYTES = {("test_hex_lines", "joined"), ("test_image", "repeated")}
CODES = ("kind", "form", "operation", "fault", "refusal", "action", "validate", "apply", "upper", "source")


def sentinel_fns(tree):
    """Functions with a number as result whose callers ask it for a value that means none."""
    by_name = collections.defaultdict(list)
    for fn in tree.fns:
        if fn.ret in ("usize", "u64", "u32"):
            by_name[fn.name].append(fn)
    asked = set()
    none = r"(?:0|NO_\w+|NONE|ENDED|(?:\w+::)?ROW_COUNT|OFFSET_SIZE)"
    for fn in tree.fns:
        for m in re.finditer(r"let (?:mut )?(\w+) = (?:\w+::)*(\w+)\(", fn.body):
            var, called = m.group(1), m.group(2)
            if called not in by_name:
                continue
            rest = fn.body[m.end():]
            if re.search(rf"\bif {var} [!=]= {none}\b", rest) or re.search(rf"\bif {var} >= n\b", rest):
                own = [f for f in by_name[called] if f.file.crate == fn.file.crate] or by_name[called]
                asked.update(own)
        for m in re.finditer(rf"\b(\w+)\([^()]*(?:\([^()]*\)[^()]*)*\) [!=]= {none}\b", fn.body):
            if m.group(1) in by_name:
                own = [f for f in by_name[m.group(1)] if f.file.crate == fn.file.crate] or by_name[m.group(1)]
                asked.update(own)
    # a number of data that may be 0 and that no place takes for none
    data = {"number_at", "value_number", "get", "len", "power", "left", "used_in", "magnitude", "has", "field_number", "bump", "epoch_length", "kraft_length", "seen_size", "put_projected"}
    for fn in tree.fns:
        said = comment_above(fn)
        if fn.ret in ("usize", "u64", "u32") and re.search(r"\b0\b[^.;]*\b(?:none|no|not|where|unless|otherwise|of|for)\b|\b(?:or|else) (?:0|NO_\w+|the end|all of them|their number)\b|nothing where", said):
            asked.add(fn)
        if fn.ret in ("usize", "u64") and re.search(r"\b(?:return|=>) (?:NO_\w+|LITERAL)\b|^\s+NO_\w+$", fn.body, re.M):
            asked.add(fn)
        if fn.ret in ("Place", "Part", "Cursor") and (fn.ret == "Place" or re.search(r"(?:at|start): 0,\s*(?:to|end): 0\b", fn.body)):
            asked.add(fn)
    return [f for f in tree.fns if f in asked and f.name not in data and not (f.name == "number_in" and f.file.crate == "tool_words")]


def comment_above(fn):
    lines = fn.file.text.split("\n")
    i = fn.file.line(fn.at) - 2
    out = []
    while i >= 0 and (lines[i].strip().startswith("//") or lines[i].strip().startswith("#[")):
        out.append(lines[i].strip().lstrip("/ "))
        i -= 1
    return " ".join(reversed(out))


def point1(tree):
    found = []
    for f in tree.files:
        for m, variants in enums_in(f):
            full = [v for v in variants if v[1]]
            empty = [v for v in variants if not v[1]]
            refusing = [v for v in full if v[0] in REFUSING and "u8" in v[1]]
            if full and (empty or refusing) and len(variants) > 1:
                text = f"enum {m.group(1)} {{ " + ", ".join(n + p for n, p in variants) + " }"
                found.append(Place(f.place(m.start()), text, "enum", m.group(1)))
        for m, fields in structs_in(f):
            flags = [n for n, t in fields if t == "bool"]
            if flags and len(fields) > 1:
                text = f"struct {m.group(1)} {{ " + ", ".join(f"{n}: {t}" for n, t in fields) + " }"
                found.append(Place(f.place(m.start()), text, "flag", m.group(1)))
            for n, t in fields:
                if t in ("u8", "u32") and n in CODES:
                    found.append(Place(f.place(m.start()), f"{m.group(1)}.{n}: {t}", "code field", f"{m.group(1)}.{n}"))
        # a number of fields is no code
        run = [m for m in re.finditer(r"^(?:pub )?const (?!FIELDS)(\w+): (u8|u32) = \d+;", f.code, re.M)]
        if len(run) >= 3:
            text = f"{len(run)} constants of type {run[0].group(2)}, {run[0].group(1)} to {run[-1].group(1)}"
            found.append(Place(f.place(run[0].start()), text, "constants", f.name))
        else:
            for m in run:
                found.append(Place(f.place(m.start()), m.group(0), "constants", m.group(1)))
        for m in re.finditer(r"^(?:pub )?const (NO_\w+|NONE|DEFAULT|ENDED|\w*UNKNOWN\w*): (usize|u64) = .*$", f.code, re.M):
            found.append(Place(f.place(m.start()), m.group(0), "sentinel", m.group(1)))
    for fn in tree.fns:
        if fn.ret == "u8" and (fn.file.crate, fn.name) not in DATA_BYTES:
            found.append(Place(fn.place(), fn.signature(), "fn -> u8", fn.name))
        if fn.ret == "u32" and "form" in fn.name:
            found.append(Place(fn.place(), fn.signature(), "fn -> u8", fn.name))
        for n, t in fn.params if (fn.file.crate, fn.name) not in DATA_BYTES else []:
            if t in ("u8", "u32") and (n in CODES or (n == "number" and t == "u8")):
                found.append(Place(fn.place(), f"{n}: {t} of {fn.signature()}", "code parameter", f"{fn.name}.{n}"))
        if fn.ret == "Prior":
            if fn.name == "no_key":
                found.append(Place(fn.place(), fn.signature() + ", start above end means none", "sentinel", fn.name))
    for fn in sentinel_fns(tree):
        found.append(Place(fn.place(), fn.signature() + ", of which a value means none", "sentinel", fn.name))
    # a refusal handed on by hand, where `?` would stand
    for fn in tree.fns:
        handed = 0
        for m in re.finditer(r"\bif (\w+) != 0 \{\s*return (\w+::\w+\()?\1\)?;\s*\}", fn.body):
            handed += bool(m.group(2)) or fn.ret == "u8"
        for at, on, arms in matches_in(fn):
            for p, e in arms:
                m = re.match(r"(?:\w+::)*(Refused|Fails|Stopped|Over|Unread)\((\w+)(?:, \w+)?\)$", p)
                if m and re.match(r"\{? ?(?:return )?(?:(?:\w+::)*\w+\()?" + m.group(2) + r"\b(?:, \w+)*\)?;? ?\}?$", e):
                    handed += 1
        if handed:
            found.append(Place(fn.place(), f"{handed} handed on by hand in {fn.name}", "handed on", fn.name))
    return found


def second1(tree):
    """By line: what a reader greps for."""
    n = collections.Counter()
    for f in tree.files:
        for m in re.finditer(r"\benum \w+ \{([^}]*(?:\{[^}]*\}[^}]*)*)\}", f.code):
            if "(" in m.group(1) or "{" in m.group(1):
                n["enums with a payload"] += 1
        lines = f.code.split("\n")
        n["functions -> u8"] += sum(bool(re.search(r"\) -> u8\b", l)) for l in lines)
        n["fields of type bool"] += sum(bool(re.match(r"    (pub )?\w+: bool,$", l)) for l in lines)
        n["parameters kind, form, operation, number, fault, refusal, action: u8 or u32"] += sum(
            len(re.findall(r"\b(?:kind|form|operation|number|fault|refusal|action): u(?:8|32)\b", l)) for l in lines if not re.match(r"    (pub )?\w+: ", l) or re.match(r"    \w+: u\d+,$", l))
        n["lines with `Refused(x) =>`, `Fails(..) =>`, `Stopped(..) =>`"] += sum(bool(re.search(r"\b(Refused|Fails|Stopped|Over|Unread)\(\w+[^)]*\) =>", l)) for l in lines)
        n["lines `if x != 0 {` of a fault"] += sum(bool(re.search(r"\bif \w+ != 0 \{$", l)) for l in lines)
    return n


# ---------------------------------------------------------------- point 2

WORDS = set("if else while loop match return let mut fn for in break continue true false as pub struct enum".split())
TOKEN = re.compile(r"[A-Za-z_]\w*|0x[0-9a-fA-F_]+|\d[\d_]*|[^\sA-Za-z_0-9]")


def skeleton(fn, letters):
    """The tokens of a function's parameters and body; names and literals give way to letters in their order, or all to one."""
    text = "(" + ",".join(t for _, t in fn.params) + ")" + fn.ret + re.sub(r"\"[^\"]*\"", "9", fn.body)
    seen, out = {}, []
    for t in TOKEN.findall(text):
        if t in WORDS:
            out.append(t)
        elif re.match(r"[A-Za-z_]", t):
            out.append(seen.setdefault(t, f"n{len(seen)}") if letters else "n")
        elif t[0].isdigit():
            out.append("9")
        else:
            out.append(t)
    return tuple(out)


LEAST_TOKENS = 24


def twin_fns(tree):
    groups = collections.defaultdict(list)
    for fn in tree.fns:
        s = skeleton(fn, True)
        if len(s) >= LEAST_TOKENS:
            groups[s].append(fn)
    return [g for g in groups.values() if len(g) > 1]


def near(a, b):
    """Whether two skeletons are alike but for one in ten of their tokens."""
    import difflib
    if min(len(a), len(b)) * 10 < 9 * max(len(a), len(b)):
        return False
    return difflib.SequenceMatcher(None, a, b, autojunk=False).ratio() >= 0.92


def near_fns(tree):
    rows = [(fn, skeleton(fn, False)) for fn in tree.fns]
    rows = [(fn, s) for fn, s in rows if len(s) >= 48]
    parent = list(range(len(rows)))

    def top(i):
        while parent[i] != i:
            parent[i] = parent[parent[i]]
            i = parent[i]
        return i

    counts = [collections.Counter(s) for _, s in rows]
    for i in range(len(rows)):
        for j in range(i):
            if top(i) == top(j):
                continue
            a, b = counts[i], counts[j]
            common = sum((a & b).values())
            if 2 * common < 0.92 * (len(rows[i][1]) + len(rows[j][1])):
                continue
            if near(rows[i][1], rows[j][1]):
                parent[top(i)] = top(j)
    groups = collections.defaultdict(list)
    for i, (fn, _) in enumerate(rows):
        groups[top(i)].append(fn)
    return [g for g in groups.values() if len(g) > 1]


def twin_types(tree):
    groups = collections.defaultdict(list)
    for f in tree.files:
        for m, fields in structs_in(f):
            if len(fields) > 1:
                groups[("struct",) + tuple(t for _, t in fields)].append((f, m, f"struct {m.group(1)}"))
        for m, variants in enums_in(f):
            if any(p for _, p in variants):
                kinds = tuple(sorted(re.sub(r"\w+: ", "", p).strip("(){} ,") for _, p in variants))
                groups[("enum",) + kinds].append((f, m, f"enum {m.group(1)}"))
                groups[("names",) + tuple(sorted(n for n, _ in variants))].append((f, m, f"enum {m.group(1)}"))
    out = []
    for key, g in groups.items():
        if len(g) > 1 and not any(set(id(x[1]) for x in g) <= set(id(x[1]) for x in h) for h in out):
            out.append(g)
    return out


def point2(tree):
    found = []
    exact, loose = twin_fns(tree), near_fns(tree)
    groups = []
    for g in loose + exact:
        hit = [h for h in groups if set(h) & set(g)]
        new = set(g)
        for h in hit:
            new |= set(h)
            groups.remove(h)
        groups.append(new)
    for g in groups:
        g = [fn for fn in tree.fns if fn in g]
        names = ", ".join(f"{x.file.crate}::{x.name}" for x in g)
        same = "alike but for names" if any(set(g) <= set(e) for e in exact) else "nearly alike"
        found.append(Place(g[0].place(), f"{len(g)} functions {same}: {names}", "functions", g[0].name))
    for g in twin_types(tree):
        f, m, name = g[0]
        names = ", ".join(f"{x[0].crate}::{x[2].split()[1]}" for x in g)
        found.append(Place(f.place(m.start()), f"{len(g)} types with the same parts or the same cases: {names}", "types", name.split()[1]))
    # one definition written again under its own name in another crate
    consts = collections.defaultdict(list)
    for f in tree.files:
        for m in re.finditer(r"^(?:pub )?const (\w+): ([^=]+) = ([^;]+);", f.text, re.M):
            consts[(m.group(1), m.group(2), m.group(3))].append((f, m))
    for (name, kind, value), g in consts.items():
        if len(g) > 1:
            names = ", ".join(x[0].crate for x in g)
            found.append(Place(g[0][0].place(g[0][1].start()), f"constant {name}: {kind} = {value} in {len(g)} crates: {names}", "constants", name))
    found.sort(key=lambda p: (tree.crates.index(p.crate), p.where.split(":")[0], int(p.where.split(":")[1])))
    return found


def second2(tree):
    """Runs of six or more lines that are the same but for names, numbers and texts."""
    least = 6
    runs = collections.defaultdict(list)
    texts = {}
    for f in tree.files:
        rows = []
        for number, line in enumerate(f.code.split("\n"), 1):
            s = line.strip()
            if len(s) > 3 and not s.startswith(("use ", "ghost use", "mod ", "pub mod", "pub use", "#")):
                rows.append((number, tuple("n" if re.match(r"[A-Za-z_0-9]", t) and t not in WORDS else t for t in TOKEN.findall(s))))
        texts[id(f)] = rows
        for i in range(len(rows) - least + 1):
            window = tuple(r for _, r in rows[i:i + least])
            if sum(len(r) for r in window) >= 30:
                runs[window].append((f, i))
    pairs, seen = [], set()
    for places in runs.values():
        for a in range(len(places)):
            for b in range(a):
                fa, ia = places[a]
                fb, ib = places[b]
                if fa is fb and abs(ia - ib) < least:
                    continue
                key = (id(fa), id(fb), ia - ib)
                if key in seen:
                    continue
                seen.add(key)
                pairs.append((fa, texts[id(fa)][ia][0], fb, texts[id(fb)][ib][0]))
    return collections.Counter({"pairs of runs": len(pairs), "files in them": len({id(p[0]) for p in pairs} | {id(p[2]) for p in pairs})})


# ---------------------------------------------------------------- point 3


def step_of(kind, cond, block):
    """What a loop moves by hand, if anything."""
    entry = re.search(r"\.next\(", cond + block)
    if kind == "for":
        return None
    if entry and re.search(r"\b[cd] = (?:next|after|Cursor)\b", block):
        return "cursor"
    if re.search(r"\bnext_(?:entity|value)\(", block):
        return "cursor"
    var = set(re.findall(r"\b[a-z_]\w*\b", cond))
    for m in re.finditer(r"\b(\w+) (?:\+=|-=) ([^;,]+)[;,]|\b(\w+) = \3 [+-] ([^;]+);", block):
        name = m.group(1) or m.group(3)
        by = (m.group(2) or m.group(4)).strip()
        if name in var or kind == "loop":
            return "index" if by == "1" else "place"
    for m in re.finditer(r"\b(at|to|start|from) = (\w+)", block):
        if m.group(1) in var:
            return "place"
    return "other"


def point3(tree):
    found = []
    for fn in tree.fns:
        for kind, at, cond, block in loops_in(fn):
            sort = step_of(kind, cond, block)
            if sort in (None, "other"):
                continue
            text = f"{kind} {cond} in {fn.name}".replace("  ", " ")
            found.append(Place(fn.file.place(at), text, sort, fn.name))
    return found


def second3(tree):
    n = collections.Counter()
    for f in tree.files:
        for l in f.code.split("\n"):
            if re.match(r"\s*(while|loop)\b", l):
                n["lines that begin with while or loop"] += 1
            if re.match(r"\s*for \w+ in", l):
                n["for loops (not counted)"] += 1
            if re.search(r"\b(\w+) ([+-]= 1|= \1 [+-] 1);", l):
                n["lines that step by one"] += 1
            if re.search(r"\b[cd] = (next|after);", l):
                n["lines that move a cursor"] += 1
            if re.search(r"\b(at|to|start|from|total|top) = (end|from|to|next|at \+|\w+ \+)", l) and "let" not in l:
                n["lines that move a place"] += 1
    return n


# ---------------------------------------------------------------- point 4

COPIES = re.compile(r"\b(\w+)\[[^\]]+\] = (?:(\w+)\[[^\]]+\]|0x\w+|\d+|[A-Z_]+|repeated\(.*\)|i);")


def point4(tree):
    found = []
    for fn in tree.fns:
        for kind, at, cond, block in loops_in(fn):
            m = COPIES.search(block)
            if m and len(re.findall(r";", block)) <= 4 and not re.search(r"\bif\b", block):
                found.append(Place(fn.file.place(at), f"elements set one by one in {fn.name}", "copying", fn.name))
        for at, on, arms in matches_in(fn):
            orders = [(p, e) for p, e in arms if re.match(r"Order(?:ing)?::(Less|Equal|Greater)", p)]
            if len(orders) >= 3:
                values = [e for _, e in orders]
                if all(v in ("true", "false") for v in values):
                    found.append(Place(fn.file.place(at), f"match {on} on Order gives true or false in {fn.name}", "order", fn.name))
                elif any(v == p for p, v in orders):
                    found.append(Place(fn.file.place(at), f"match {on} hands Order on in {fn.name}", "order", fn.name))
                elif sum("return false" in v or "return Order" in v for v in values) >= 2:
                    found.append(Place(fn.file.place(at), f"match {on} on Order, two arms alike, in {fn.name}", "order", fn.name))
            plain = [(p, e) for p, e in arms if re.fullmatch(r"[\w:]*\w+(?:\([\w:]+\))?", e) and not e.endswith(")") or re.fullmatch(r"\w+::\w+\((?:\w+::)+\w+\)", e)]
            mapped = [(p, e) for p, e in arms if re.match(r"(?:kinds::|Kind::|Source::|\d)", p) and (re.fullmatch(r"\d+|0x\w+|(?:\w+::)*[A-Z]\w*|true|false", e) or re.fullmatch(r"\w+::\w+\(Kind::\w+\)", e))]
            if len(mapped) >= 3 and len(mapped) * 2 >= len(arms):
                found.append(Place(fn.file.place(at), f"match {on}, {len(arms)} arms from kinds to values, in {fn.name}", "conversion", fn.name))
        m = re.findall(r"if (\w+) < (\w+) \{\s*return Order(?:ing)?::Less;\s*\}\s*if \2 < \1 \{\s*return Order(?:ing)?::Greater;", fn.body)
        if m:
            found.append(Place(fn.place(), f"two numbers compared by hand in {fn.name}", "order", fn.name))
        if fn.name in ("compare", "same", "same_words", "begins_with", "lower", "is_same", "slots_equal") and fn.file.crate in ("wire", "tool_course"):
            found.append(Place(fn.place(), fn.signature(), "equality", fn.name))
        if re.search(r"while i < (?:\w+\.len\(\)|count|n) \{\s*if .*? (?:==|!=) .*?\{\s*return (?:true|false);\s*\}\s*i (?:\+= 1|= i \+ 1);\s*\}", fn.body, re.S) or re.search(r"while i < \w+\.len\(\) \{\s*if !\w+\(.*?\) \{\s*return false;", fn.body, re.S):
            found.append(Place(fn.place(), f"all or any of a list by hand: {fn.signature()}", "equality", fn.name))
        if re.search(r"if \w+ < \w+ \{\s*return false;\s*\}\s*\w+ <= \w+\s*\}", fn.body) or fn.name in ("is_name_byte", "is_unread", "is_capacity"):
            found.append(Place(fn.place(), f"a range of values by hand: {fn.signature()}", "equality", fn.name))
        if re.fullmatch(r"\{\s*x as \w+\s*\}", fn.body):
            found.append(Place(fn.place(), f"a cast with a name: {fn.signature()}", "conversion", fn.name))
        if fn.name in ("get", "get16", "put", "place", "half_of", "signed", "pack", "alone", "put_first", "put_both", "decimal", "digit", "magnitude", "number_reply", "is_offset", "is_positive", "bump", "is_under"):
            if fn.file.crate not in ("restore_copy", "entries"):
                found.append(Place(fn.place(), f"conversion by hand: {fn.signature()}", "conversion", fn.name))
        for m in re.finditer(r"(\w+) \{((?:\s*\w+(?:: [^,{}]+)?,)+)\s*\}", fn.body):
            own = collections.Counter(re.findall(r"(?:^|\s)(\w+): (\w+)\.\1,", m.group(2)))
            of = collections.Counter(x for (_, x), _ in own.items())
            if of and of.most_common(1)[0][1] >= 2:
                found.append(Place(fn.file.place(fn.body_at + m.start()), f"{m.group(1)} rebuilt field by field in {fn.name}", "copying", fn.name))
        if re.search(r"Copied \{\s*end", fn.body) and fn.name == "copy_record":
            found.append(Place(fn.place(), "Copied rebuilt field by field, five times, in copy_record", "copying", fn.name))
        if re.match(r"(say|print|complain|fail)(_|$)", fn.name) and fn.file.crate.startswith(("tool_", "test_")):
            found.append(Place(fn.place(), fn.signature(), "printing", fn.name))
        for m in re.finditer(r"\b(say_line|say_word|complain_line)\(", fn.body):
            if re.search(r'b"[^"]*\\n\\', fn.text[m.start():]):
                found.append(Place(fn.file.place(fn.body_at + m.start()), f"byte-string table of names in {fn.name}", "table", fn.name))
    return found


def second4(tree):
    n = collections.Counter()
    for f in tree.files:
        lines = f.code.split("\n")
        n["lines `Order::Less =>`"] += sum("Order::Less =>" in l or "Ordering::Less =>" in l for l in lines)
        n["calls of wire::same, compare, copy, clear, begins_with, is_clear"] += sum(len(re.findall(r"\b(?:wire::)?(?:same|compare|copy|clear|begins_with|is_clear)\(", l)) for l in lines if not re.search(r"\bfn ", l))
        n["functions say_*, print_*, complain*, fail"] += sum(bool(re.search(r"\bfn (say|print|complain|fail)(_\w+)?[(<]", l)) for l in lines)
        n["lines `kinds::X => ` or `Kind::X => `"] += sum(bool(re.match(r"\s*(\| )?[kK]inds?::\w+ =>", l)) for l in lines)
        n["`as` casts"] += sum(len(re.findall(r"\bas (?:u8|u16|u32|u64|usize|i32|i64)\b", l)) for l in lines)
    return n


# ---------------------------------------------------------------- point 5


def normal(fn, clause):
    """A clause with the function's own names as letters, in the order of their coming."""
    own = {n for n, _ in fn.params} | {"result"}
    seen = {}

    def letter(m):
        w = m.group(0)
        if w in own and not (m.start() and clause[m.start() - 1] == "."):
            if w == "result":
                return "result"
            return seen.setdefault(w, "abcdefghijkl"[len(seen) % 12])
        return w

    return re.sub(r"[A-Za-z_]\w*", letter, clause)


def parts_of(clause):
    text = clause.strip()
    while text.startswith("(") and closing(text, 0) == len(text) - 1:
        text = text[1:-1].strip()
    parts = split_at_top(text, "×")
    if len(parts) == 1:
        return [text]
    return [x for p in parts for x in parts_of(p)]


def clause_groups(tree):
    groups = collections.defaultdict(list)
    for fn in tree.fns:
        mine = set()
        for clause, at in fn.requires + fn.ensures:
            for part in parts_of(clause):
                mine.add(normal(fn, part))
        for part in sorted(mine):
            groups[part].append(fn)
    return {k: v for k, v in groups.items() if len(v) >= 3}


def travelling(tree):
    """Sets of three or more parameters, with their types, that three or more functions have; the largest for the same functions."""
    rows = [(fn, frozenset(p for p in fn.params if p[1] != "Self")) for fn in tree.fns]
    rows = [(fn, s) for fn, s in rows if len(s) >= 3]
    closed = set()
    sets = list({s for _, s in rows})
    work = set(sets)
    for a in sets:
        for b in sets:
            c = a & b
            if len(c) >= 3:
                work.add(c)
    for c in work:
        on = [s for _, s in rows if c <= s]
        if len(on) >= 3:
            closed.add(frozenset.intersection(*on))
    out = []
    for c in closed:
        fns = [fn for fn, s in rows if c <= s]
        out.append((c, fns))
    out.sort(key=lambda x: (-len(x[1]), -len(x[0]), sorted(x[0])))
    return out


def point5(tree):
    found = []
    groups = clause_groups(tree)
    for text, fns in sorted(groups.items(), key=lambda x: (-len(x[1]), x[0])):
        names = ", ".join(f"{f.file.crate}::{f.name}" for f in fns)
        plain = not re.search(r"[A-Za-z]\w{2,}", re.sub(r"\b(?:length|result|now|old|new|take|drop|entry)\b", "", text))
        found.append(Place(fns[0].place(), f"`{text}` in {len(fns)} functions: {names}", "bound" if plain else "fact", text))
    for c, fns in travelling(tree):
        given = ", ".join(f"{n}: {t}" for n, t in sorted(c, key=lambda p: [x for x in fns[0].params].index(p)))
        names = ", ".join(f"{f.file.crate}::{f.name}" for f in fns)
        found.append(Place(fns[0].place(), f"({given}) in {len(fns)} functions: {names}", "parameters", given))
    return found


def second5(tree):
    """The clauses as they stand, line by line, and each pair of parameters."""
    n = collections.Counter()
    lines = collections.Counter()
    for f in tree.files:
        for l in f.text.split("\n"):
            m = re.match(r"\s*(requires|ensures)\b[^{]*\{(.*)\}\s*$", l)
            if m:
                for part in m.group(2).split("×"):
                    lines[part.strip(" ()")] += 1
    n["texts, names as they stand, that come three times or more"] = sum(v >= 3 for v in lines.values())
    n["their occurrences"] = sum(v for v in lines.values() if v >= 3)
    pairs = collections.Counter()
    for fn in tree.fns:
        got = [f"{a}: {b}" for a, b in fn.params if b != "Self"]
        for i in range(len(got)):
            for j in range(i + 1, len(got)):
                for k in range(j + 1, len(got)):
                    pairs[(got[i], got[j], got[k])] += 1
    n["threes of parameters in three functions or more (not joined to sets)"] = sum(v >= 3 for v in pairs.values())
    return n


# ---------------------------------------------------------------- point 6


def point6(tree):
    found = []
    for fn in tree.fns:
        kinds = dict(fn.params)
        every = " ".join(c for c, _ in fn.requires + fn.ensures)
        buffers = [n for n, t in fn.params if re.match(r"&(mut )?\[u8\]$", t)]
        lengths = [n for n, t in fn.params if t == "usize"]
        beside = []
        for b in buffers if fn.file.crate != "wire" else []:
            if kinds[b] == "&mut [u8]":
                for n in lengths:
                    if re.search(rf"take {n} {b}\.(old|new|now)|BrokerIn {b}\.\w+ {n}\b|{n} ≤ length {b}\.old|slice \w+ {n} {b}\.old", every) and n in ("n", "used", "size", "len"):
                        beside.append(f"{b} with its length {n}")
            if "bounds" in kinds and b == "w":
                beside.append("w with bounds: Bounds")
            if "state" in kinds and kinds["state"] == "State" and b == "w":
                beside.append("w with state: State")
        if not beside and fn.ret == "usize" and any(kinds[b] == "&mut [u8]" for b in buffers) and re.search(r"take result \w+\.new", every):
            beside.append("a buffer, and as the result how much of it is used")
        if beside:
            found.append(Place(fn.place(), f"{'; '.join(beside)}: {fn.signature()}", "length beside", fn.name))
        local = []
        for m in re.finditer(r"let mut (\w+) = (?:\[[^\]]*; ?[\w]+\]|io::(?:large_)?buffer\(\));", fn.body):
            v = m.group(1)
            if re.search(rf"&(?:mut )?{v}\[\.\.\w+\]|&{v}\[\w+\.\.\w+\]", fn.body):
                local.append(v)
        if local:
            found.append(Place(fn.place(), f"array with a length beside it: {', '.join(local)} in {fn.name}", "array", fn.name))
        names = {n for n, t in fn.params if re.match(r"&(mut )?\[", t)}
        by = collections.defaultdict(set)
        for m in re.finditer(r"\b(\w+)\[([a-z]\w*)\]", fn.body):
            if m.group(1) in names:
                by[m.group(2)].add(m.group(1))
        both = [(i, s) for i, s in by.items() if len(s) > 1 and fn.file.crate != "wire"]
        given = [s for s in ({"tags", "lengths", "values"}, {"high", "low"}, {"nodes", "dirs"}) if s <= names]
        if both or given:
            which = ", ".join(sorted(set().union(*[s for _, s in both], *given)))
            found.append(Place(fn.place(), f"parallel arrays {which}: {fn.signature()}", "parallel", fn.name))
        loops = [b for _, _, _, b in loops_in(fn)]
        if any(re.search(r"match compare_keys\(|match beside\(|is_below\(|if tag < t\b", b) for b in loops) and fn.name not in ("look_at",):
            found.append(Place(fn.place(), f"an ordered list searched, merged or tested by hand: {fn.signature()}", "sorted", fn.name))
        elif any(re.search(r"same_key\(|names\(&|if t == tag|== node|== number", b) for b in loops) and fn.ret in ("usize", "Place", "Found", "bool", "Value"):
            found.append(Place(fn.place(), f"a list searched by hand: {fn.signature()}", "searched", fn.name))
        arenas = [n for n, t in fn.params if re.search(r"\[usize", t)]
        if arenas:
            found.append(Place(fn.place(), f"arrays of indices {', '.join(arenas)}: {fn.signature()}", "indices", fn.name))
    for f in tree.files:
        for m, fields in structs_in(f):
            names = [n for n, t in fields if t == "usize"]
            if {"start", "end"} <= set(names) or {"at", "end"} <= set(names) or {"at", "to"} <= set(names):
                found.append(Place(f.place(m.start()), f"struct {m.group(1)}: a part of a slice as two places", "part", m.group(1)))
        for m, variants in enums_in(f):
            for v, p in variants:
                if v not in ("On", "Names", "History") and (re.match(r"\(usize, usize", p) or "start: usize, len: usize" in p):
                    found.append(Place(f.place(m.start()), f"{m.group(1)}::{v}{p}: a part of a slice as two places", "part", f"{m.group(1)}::{v}"))
    return found


def second6(tree):
    n = collections.Counter()
    for f in tree.files:
        for l in f.code.split("\n"):
            n["slices `&x[..n]`"] += len(re.findall(r"&(?:mut )?\w+\[\.\.\w+\]", l))
            n["slices `&x[a..b]` of two places"] += len(re.findall(r"&(?:mut )?\w+\[\w+\.\.\w+\]", l))
            n["lines `let start = p.start;` and the like"] += bool(re.match(r"\s*let \w+ = \w+\.(start|end|at|to|mid|used);", l))
            n["arrays of a fixed size"] += len(re.findall(r"= \[\w+; ?\w+\]|io::(?:large_)?buffer\(\)", l))
    return n


# ---------------------------------------------------------------- point 7


def point7(tree):
    found = []
    call = re.compile(r"\{?\s*(?:return )?!?(?:[\w:]+)\(.*")
    for fn in tree.fns:
        for at, on, arms in matches_in(fn):
            steps = [(p, e) for p, e in arms if re.match(r"(?:kinds::|\d|Source::|Kind::|ROOM|LOAD)", p) and (call.match(e) or re.search(r"\b[a-z_]+\(", e)) and not re.match(r"\w+::(?:Kind|Is)\(", e)]
            if len(steps) >= 2 and len(steps) * 3 >= len(arms):
                found.append(Place(fn.file.place(at), f"match {on} with {len(arms)} arms, {len(steps)} of them calls, in {fn.name}", "match", fn.name))
        chain = re.findall(r"if (?:\w+|\w+\[0\]) (?:==|!=) (?:kinds::)?[A-Z_]+ \{\s*return [^;]*\(", fn.body)
        same = re.findall(r"if wire::same\(\w+, b\"[^\"]*\"\) \{\s*return \w+\(", fn.body)
        if len(chain) >= 2 or len(same) >= 2:
            found.append(Place(fn.place(), f"a chain of {max(len(chain), len(same))} tests that choose a step, in {fn.name}", "chain", fn.name))
        elif len(chain) == 1 and fn.name in ("listed_size", "put_listed"):
            found.append(Place(fn.place(), f"a chain of tests that choose a step, in {fn.name}", "chain", fn.name))
        for n, t in fn.params:
            if t == "bool" and re.search(rf"\bif !?{n}\b", fn.body) and fn.name not in ("unless",):
                found.append(Place(fn.place(), f"a flag that chooses a step: {n} of {fn.signature()}", "flag", f"{fn.name}.{n}"))
    for f in tree.files:
        for m in re.finditer(r"const \w+: \[(?:fn|&dyn)", f.code):
            found.append(Place(f.place(m.start()), m.group(0), "table of functions"))
    return found


def second7(tree):
    n = collections.Counter()
    for f in tree.files:
        for l in f.code.split("\n"):
            n["lines `match` on a kind byte, a form, an operation or a source"] += bool(re.search(r"\bmatch (rec\[0\] |e\[0\] |(?:kind|form|operation|source|number|q|width)\b)", l))
            n["lines with a parameter or a private field of type bool"] += bool(re.search(r"\bfn .*\b\w+: bool\b", l) or re.match(r"    \w+: bool,$", l))
            n["`if kind == kinds::X`"] += bool(re.search(r"if (kind|s\[0\]|rec\[0\]) [=!]= (kinds::)?[A-Z_]+ \{", l))
    return n


# ---------------------------------------------------------------- point 8

STD = re.compile(r"^(std|core|mathlib|lib|Prim|native|Math|borrow)\b")


def antt_files(folder, crate, below="proofs"):
    top = os.path.join(folder, "crates", crate, below)
    for base, dirs, names in os.walk(top):
        dirs.sort()
        for name in sorted(names):
            if name.endswith(".antt"):
                path = os.path.join(base, name)
                yield os.path.relpath(path, os.path.join(folder, "crates", crate)), open(path, encoding="utf-8").read()


def answers_in(text):
    """The answers of a file: name, line, what stands behind the `=`."""
    lines = text.split("\n")
    i = 0
    while i < len(lines):
        m = re.match(r"(?:pub )?([\w+-]+) : goal\.([\w+-]+)", lines[i])
        if m:
            j = i + 1
            block = []
            while j < len(lines) and not re.match(r"(?:pub )?[\w+-]+ : ", lines[j]) and not lines[j].startswith("module "):
                block.append(lines[j])
                j += 1
            yield m.group(1), i + 1, "\n".join(block)
            i = j
        else:
            i += 1


BARE = re.compile(r"^(?:unfolding [^\n]*\n)?[\w+-]+(?: [\w{}]+)* =\s*(search rules|search|rules|refl|omega arith|arith|simp|search all|auto)\s*$")
PLAIN = re.compile(r"^[\w+-]+(?: [\w{}]+)* =\s*(c\.[\w.+-]+|omega \(arith, c\.[\w.+-]+\)|\(c\.[\w.+-]+(?:, c\.[\w.+-]+)*\))\s*$")


def lets_in(text):
    for m in re.finditer(r"\blet\s+([\w+-]+)(?:\s*:\s*(?P<t>[^=]+?))?\s=\s(?P<v>.*?)\s+in\b", text, re.S):
        yield m, re.sub(r"\s+", " ", m.group(0)).strip()


def lemmas_in(text):
    """Lemmas of a helper file: name, line, statement."""
    lines = text.split("\n")
    for i, l in enumerate(lines):
        m = re.match(r"( *)(?:pub )?([\w+-]+) : (.+)$", l)
        if m and not re.match(r" *(?:data|record|where|let|abbrev|unfoldable)\b", l):
            yield m.group(2), i + 1, m.group(3)


def imports_of(text):
    out = {}
    for m in re.finditer(r"^(?:pub )?use ([\w.+-]+?)\.?\{([^}]*)\}", text, re.M):
        for n in m.group(2).split(","):
            n = n.strip().split(" as ")[-1].strip()
            out[n] = m.group(1)
    return out


def is_general(statement, given):
    """Whether a statement binds each of its variables, and names nothing but the library's words."""
    if not re.search(r"[≡≤<]", statement) or not re.match(r"[({]", statement):
        return False
    bound = set()
    for m in re.finditer(r"[({]([\w' +-]+?) : ", statement):
        bound.update(m.group(1).split())
    for m in re.finditer(r"λ ([\w ]+)\.", statement):
        bound.update(m.group(1).split())
    for w in re.findall(r"[A-Za-z_][\w'+-]*(?:\.[\w-]+)?", statement):
        if w in bound or w in ("Type", "λ", "Bool", "List", "Option") or w.split(".")[0] in bound:
            continue
        source = given.get(w.split(".")[0], "")
        if not source or (source.startswith("Rattle.") and not source.startswith(("Rattle.std", "Rattle.core"))):
            return False
    return True


def point8(tree):
    found = []
    for crate in tree.crates:
        lets = collections.defaultdict(list)
        for rel, text in antt_files(tree.folder, crate):
            for number, line in enumerate(text.split("\n"), 1):
                if len(line) > 300:
                    found.append(Place(f"{crate}/{rel}:{number}", f"a line of {len(line)} characters", "long line", rel))
            answers = os.path.basename(rel) == "Answers.antt"
            if answers:
                for name, line, block in answers_in(text):
                    body = "\n".join(l for l in block.split("\n") if l.strip() and not l.strip().startswith("--"))
                    if BARE.match(body):
                        found.append(Place(f"{crate}/{rel}:{line}", f"{name} = {BARE.match(body).group(1)}", "bare", name))
                    elif PLAIN.match(body):
                        found.append(Place(f"{crate}/{rel}:{line}", f"{name} = {PLAIN.match(body).group(1)}", "plain", name))
                    for m, let in lets_in(block):
                        if len(let) >= 40:
                            lets[let].append((rel, line, name))
            if os.path.basename(rel) not in ("Answers.antt", "Invariants.antt", "Lib.antt"):
                given = imports_of(text)
                for name, line, statement in lemmas_in(text):
                    if is_general(statement, given):
                        found.append(Place(f"{crate}/{rel}:{line}", f"{name} : {statement}", "general lemma", name))
        for let, where in sorted(lets.items(), key=lambda x: -len(x[1])):
            if len({(r, n) for r, _, n in where}) >= 3:
                files = collections.Counter(r for r, _, _ in where)
                found.append(Place(f"{crate}/{where[0][0]}:{where[0][1]}", f"`{let}` in {len(where)} answers of {len(files)} files", "repeated let", let))
    return found


def second8(tree):
    n = collections.Counter()
    for crate in tree.crates:
        lines = collections.Counter()
        for rel, text in antt_files(tree.folder, crate):
            for l in text.split("\n"):
                n["lines over 300 characters"] += len(l) > 300
                if re.match(r" +let .* in$", l):
                    lines[l.strip()] += 1
                n["answers that end in a bare word"] += bool(re.search(r"^[\w+-]+ c = *(search rules|search|rules|refl|omega arith)$", l))
                n["answers in all"] += bool(re.match(r"(?:pub )?[\w+-]+ : goal\.", l))
        n["lines `let .. in` that stand three times or more in a crate"] += sum(v >= 3 for v in lines.values())
        n["their occurrences"] += sum(v for v in lines.values() if v >= 3)
    return n


POINTS = [point1, point2, point3, point4, point5, point6, point7, point8]
SECONDS = [second1, second2, second3, second4, second5, second6, second7, second8]


def main(words):
    folder = next((w for w in words if not w.startswith("--") and not w.isdigit()), ".")
    only = None
    if "--point" in words:
        only = int(words[words.index("--point") + 1])
    tree = Tree(folder)
    for i in range(8):
        if only not in (None, i + 1):
            continue
        if "--second" in words:
            n = SECONDS[i](tree)
            print(f"point {i + 1}, the second way: " + "; ".join(f"{k}: {v}" for k, v in n.items()))
            continue
        found = POINTS[i](tree)
        sorts = collections.Counter(p.sort for p in found)
        print(f"point {i + 1}: {len(found)} places (" + ", ".join(f"{k} {v}" for k, v in sorts.items()) + ")")
        if "--list" in words:
            for p in found:
                print(f"  {p.where}: [{p.sort}] {p.text}")


if __name__ == "__main__":
    main(sys.argv[1:])
