#!/usr/bin/env python3
"""Respells the definitions and lemmas of this repository by respell.tsv: words in snake case.

usage: python3 tools/respell.py [TOP]

TOP is the top of a checkout that port.py has run over; the default is this one. A row of the table is an old name, a
tab, a new one, and behind another tab "field" where a record has a field of that name. Whole names turn alone, in the
code of .antt files, in .rt files and in must-fail edits. In a comment a name turns where a capital stands in it, where
it stands between backticks, or in the list of names at the head of a file. Behind the dot of a value only a field
turns.
"""
import os
import re
import sys

HERE = os.path.dirname(os.path.realpath(__file__))
TOP = sys.argv[1] if len(sys.argv) > 1 else os.path.dirname(HERE)
ROWS, FIELDS = {}, set()
with open(os.path.join(HERE, "respell.tsv"), encoding="utf-8") as table:
    for row in table:
        old, new, *field = row.rstrip("\n").split("\t")
        ROWS[old] = new
        if field:
            FIELDS.add(old)
WORD = re.compile(r"(\.?)([^\s(){}.;,@\"«»`:\[\]!?]+)")


def code(text, aliases=()):
    def turn(m):
        dot, word = m.groups()
        if word not in ROWS:
            return m[0]
        if dot:
            before = re.search(r"[^\s(){};,]*$", text[: m.start()])[0]
            last = before.split(".")[-1]
            # behind a value's dot stands a field; behind a module's dot any name
            module = last[:1].isupper() or last in aliases
            if not module and word not in FIELDS and not re.search("[a-z][A-Z]", word):
                return m[0]
        return dot + ROWS[word]

    return WORD.sub(turn, text)


def prose(text):
    # a list of names at the head of a file: names, then two spaces, then what they say
    m = re.match(r"^(\s*--   )(\S.*?)(\s{2,}.*|)$", text)
    if m and not text.startswith("--    "):
        names = words(m[2], True)
        gap = m[3][: len(m[3]) - len(m[3].lstrip())]
        # the column of what they say stays
        gap = " " * max(2, len(gap) + len(m[2]) - len(names)) if gap else ""
        return m[1] + names + gap + words(m[3].lstrip(), False)
    return words(text, False)


def words(text, every):
    parts = re.split(r"(`[^`]*`)", text)
    return "".join(
        code(p) if p.startswith("`") else WORD.sub(lambda m: m[0] if m[2] not in ROWS or not (every or re.search("[a-z][A-Z]", m[2])) else m[1] + ROWS[m[2]], p)
        for p in parts
    )


def antt(line, aliases):
    if line.startswith("#"):  # what an edit says of itself
        return words(line, False)
    m = re.match(r"^(.*?)((?:^|(?<=\s))--(?:\s.*)?)$", line)
    return code(m[1], aliases) + prose(m[2]) if m else code(line, aliases)


def rt(line, aliases):
    m = re.match(r"^(.*?)(//.*)$", line)
    return code(m[1], aliases) + words(m[2], False) if m else code(line, aliases)


def main():
    for folder, dirs, files in os.walk(os.path.join(TOP, "crates")):
        dirs[:] = [d for d in dirs if d not in ("out", "target")]
        for f in files:
            p = os.path.join(folder, f)
            how = antt if f.endswith((".antt", ".edit")) else rt if f.endswith(".rt") else None
            if how is None:
                continue
            with open(p, encoding="utf-8") as it:
                old = it.read()
            aliases = set(re.findall(r"^use \S+ as (\S+)$", old, re.M)) - {"tie", "goal"}
            new = "\n".join(how(line, aliases) for line in old.split("\n"))
            if new != old:
                with open(p, "w", encoding="utf-8") as it:
                    it.write(new)


main()
