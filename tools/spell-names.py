#!/usr/bin/env python3
"""Spells the repository's own definitions and lemmas as today's library spells its own, by names.tsv beside this script: old, tab, new, tab, `field` where
the name is also a record's field, `page` where port.py turned it in the crates already.
usage: python3 tools/spell-names.py [FOLDER]
It turns whole words: in .antt files (behind a dot only fields, and what stands behind a module or a type), in the clauses and ghost items of .rt files, in the
texts of .edit files, and in the code spans of comments and pages. It is run once, right after port.py, and does nothing where it ran."""
import os
import re
import sys

HERE = os.path.dirname(os.path.realpath(__file__))
ROOT = os.path.abspath(sys.argv[1] if len(sys.argv) > 1 else os.path.join(HERE, ".."))
WORD = re.compile(r'[^\s(){}.;,@"«»`]+')
NEW, FIELDS, PAGES = {}, set(), {}
with open(os.path.join(HERE, "names.tsv"), encoding="utf-8") as table:
    for line in table:
        old, new, *kind = line.rstrip("\n").split("\t")
        PAGES[old] = new
        if kind != ["page"]:
            NEW[old] = new
        if kind == ["field"]:
            FIELDS.add(old)
CAMEL = {n for n in PAGES if re.fullmatch(r"[a-z]+(?:[A-Z][A-Za-z0-9]*)+", n)}


def code(text, names=NEW):
    """A piece of antt: each word that the table has."""

    def turn(m):
        w = m[0]
        if w not in names:
            return w
        if m.start() and text[m.start() - 1] == ".":
            before = re.search(r"([^\s(){}.;,@\"«»`]+)\.$", text[: m.start()])
            if w not in FIELDS and not (before and before[1][0].isupper()):
                return w
        return names[w]

    return WORD.sub(turn, text)


def prose(text):
    """A comment or a page: words in code spans, and words that are no prose."""
    text = re.sub(r"`([^`\n]*)`", lambda m: "`" + spoken(m[1]) + "`", text)
    return re.sub(r"(?<![\w.-])[a-z]+(?:[A-Z][A-Za-z0-9]*)+(?![\w-])", lambda m: PAGES[m[0]] if m[0] in CAMEL else m[0], text)


def spoken(text):
    """A code span: one name, also behind a module, or a few words of antt."""
    whole = re.fullmatch(r"((?:[A-Z]\w*\.)*)(\S+)", text)
    return whole[1] + PAGES[whole[2]] if whole and whole[2] in PAGES else code(text, PAGES)


def antt(text):
    out = []
    for line in text.split("\n"):
        at = re.search(r"(?:^|\s)--(?:\s|$)", line)
        k = at.start() if at else len(line)
        out.append(code(line[:k]) + prose(line[k:]))
    return "\n".join(out)


def closing(text, i):
    deep = 0
    for k in range(i, len(text)):
        deep += (text[k] == "{") - (text[k] == "}")
        if not deep:
            return k
    return len(text) - 1


CLAUSE = re.compile(r"\b(?:requires|ensures)\s*\*?\s*(?:\w+\s*)?\{|\bghost\s*(?:\w+\s*(?::|=)\s*)?\{|\bghost use\b")


def rattle(text):
    out, i = [], 0
    for m in CLAUSE.finditer(text):
        if m.start() < i:
            continue
        if text.rfind("//", text.rfind("\n", 0, m.start()) + 1, m.start()) >= 0:
            continue
        end = text.index(";", m.end()) if m[0].endswith("use") else closing(text, m.end() - 1)
        out += [comments(text[i : m.start()]), code(text[m.start() : end + 1])]
        i = end + 1
    return "".join(out) + comments(text[i:])


def comments(text):
    return re.sub(r"//[^\n]*", lambda m: prose(m[0]), text)


def edit(text):
    lines = text.split("\n")
    in_antt = False
    for k, line in enumerate(lines):
        if line.startswith("file: "):
            in_antt = line.endswith(".antt")
        elif line.startswith(("old: ", "new: ")):
            lines[k] = line[:5] + (code(line[5:], PAGES) if in_antt else WORD.sub(lambda m: PAGES[m[0]] if m[0] in CAMEL else m[0], line[5:]))
    return "\n".join(lines)


def has_run():
    with open(os.path.join(ROOT, "crates/model/specs/Order.antt"), encoding="utf-8") as f:
        return "compareBytes" not in f.read()


if has_run():
    sys.exit("the names are spelled already")
TURN = {".antt": antt, ".rt": rattle, ".edit": edit, ".md": prose}
count = 0
for folder, dirs, files in os.walk(ROOT):
    dirs[:] = sorted(d for d in dirs if d not in (".git", "out", "target"))
    for name in sorted(files):
        ending = os.path.splitext(name)[1]
        path = os.path.join(folder, name)
        if ending not in TURN or os.path.islink(path) or path.startswith(os.path.join(ROOT, "tools")):
            continue
        with open(path, encoding="utf-8") as f:
            before = f.read()
        after = TURN[ending](before)
        if after != before:
            count += 1
            with open(path, "w", encoding="utf-8") as f:
                f.write(after)
print(f"{count} files")
