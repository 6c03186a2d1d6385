#!/usr/bin/env python3
"""Brings the repository's own definitions and lemmas to today's spelling: words in snake case, as `rightOf` to `right_of` and `weight-falls` to `weight_falls`.

usage: respell.py [--check]     in the repository, once, behind port.py: rewrites the files of crates/, and the code spans of docs/ (but for CHANGES.md), oracle/ and bindings/
       --check                  writes nothing, and prints the names

A name is taken from specs/ and proofs/ of each crate: what is declared there, at any depth, and begins with a small letter. What Rattle makes of the
sources (the goals of a Proof.antt, modules named after functions) keeps its spelling, and so do types, modules, fields of structs of src/ and strings.
Where two names fall together, the definition has the plain one, and the lemma `_lem`.
"""

import collections
import os
import re
import sys

DECLARED = re.compile(
    r"^ *(?:(?:abbrev|unfoldable|opaque|pub|instance)\s+)*(?:(?:record|data)\s+)?([^\s:(){},.=|\[\]\"]+)(?:\s+[({][^=]*?)?\s*:(?:\s|$)"
)
WORDS = {"use", "mod", "open", "module", "let", "in", "λ", "where"}
TOKEN = re.compile(r"[A-Za-z_][\w'-]*\??(?<!-)")
STRING = re.compile(r'b?"(?:\\.|[^"\\])*"|b?\'(?:\\.|[^\'\\])\'')
COMMENT = {".antt": re.compile(r"(?<![^\s(){}.;,@])--.*"), ".rt": re.compile(r"//.*")}
# English in comments, though lemmas have the name
PROSE = {"well-spelled"}
# what port.py turned to the spelling that a definition of ours has: the lemma gets `_lem`
MET = "after_first and_second by_length given_back in_order is_leaf laid_out left_and left_by left_false limits_of numbers_of term_in first_leaf leaves_in".split()
# what port.py turned to the definition's spelling, where a lemma falls together with it; and fields of records, which meet no definition but within their own record
GIVEN = {"fields-of": "fields_of_lem", "on_step": "on_step", "goal-in": "goal_in", "unordered-in": "unordered_inside", "ordered-in": "ordered_inside"}
GIVEN |= {f"on-{word}": f"on_{word}" for word in ("charge", "nodes", "premise", "try")}
# names of the library's, which a lemma of ours has too
LIBRARY = {"drop-cons", "or-false"}


def snake(name):
    return re.sub(r"([a-z0-9])([A-Z])", lambda m: m[1] + "_" + m[2].lower(), name).replace("-", "_")


def texts(top, ends, skip):
    for folder, dirs, files in os.walk(top):
        dirs[:] = sorted(d for d in dirs if d not in skip)
        for f in sorted(files):
            if f.endswith(ends):
                yield os.path.join(folder, f)


def read(path):
    with open(path, encoding="utf-8") as f:
        return f.read()


def declared():
    """Each name that specs/ or proofs/ declares, with the rooms that do."""
    names = collections.defaultdict(set)
    for path in texts("crates", ".antt", {"out", "src", "Generated", "Proof"}):
        if os.path.basename(path) == "Proof.antt":
            continue
        for line in read(path).split("\n"):
            m = DECLARED.match(re.sub(r"\s*--.*", "", line))
            if m and m[1] not in WORDS:
                names[m[1]].add(path)
    return names


def table(names):
    """Old name to new."""
    rows, taken = {}, collections.defaultdict(list)
    for n in sorted(names):
        if n not in LIBRARY and re.fullmatch(r"[a-z][A-Za-z0-9_'?₀-₉-]*", n) and (re.search(r"[a-z0-9][A-Z]", n) or "-" in n):
            taken[snake(n)].append(n)
    for new, olds in taken.items():
        for old in olds:
            rows[old] = new
        if len(olds) > 1:
            for old in olds:
                if "-" in old:
                    rows[old] = new + "_lem"
    for new in MET:
        if new in names and new in taken:
            rows[new] = new + "_lem"
    return rows | {old: new for old, new in GIVEN.items() if old in names}


def turned(text, rows, kind):
    """The text with each name of the table turned. A name behind or before a dot that is no camel or dashed word may be a module's, and stays."""

    def one(m):
        old = m[0]
        if old not in rows:
            return old
        if old in MET and (text[m.start() - 1 : m.start()] == "." or text[m.end() : m.end() + 1] in (".", "'")):
            return old
        return rows[old]

    if kind == ".rt":
        keep = [m.span() for m in STRING.finditer(text)]
    else:
        keep = []
    comments = [m.span() for m in COMMENT[kind].finditer(text)] if kind in COMMENT else []
    inside = lambda spans, at: any(a <= at < b for a, b in spans)  # noqa: E731

    def place(m):
        if m[0] not in rows or (keep and inside(keep, m.start())):
            return m[0]
        if m[0] in MET and kind != ".antt":
            return m[0]
        if comments and (m[0] in PROSE or m[0] in MET) and inside(comments, m.start()):
            return m[0]
        return one(m)

    return TOKEN.sub(place, text)


def widened(text, rows, names):
    """The text with each name turned, also one that port.py turned in the sources, since it leaves pages and edits as they are."""
    new = {n for n in names if n not in rows} | set(rows.values())

    def one(m):
        old = m[0]
        if old in MET or old in LIBRARY:
            return old
        if old in rows:
            return rows[old]
        return snake(old) if old[0].islower() and snake(old) != old and snake(old) in new else old

    return TOKEN.sub(one, text)


def edited(text, rows, names):
    """An edit, whose other spelling port.py left to us too: primes, a projection's space, the path of a crate's own folder, `getD`."""
    text = widened(text, rows, names).replace("′", "'").replace("getD ", "get_or ")
    text = re.sub(r"Rattle·(\w+)·(?:specs|proofs)\.", r"Rattle.\1.", text).replace("Rattle·", "Rattle.")
    return re.sub(r"(?<=[\w')]) \.(?=[a-z0-9])", ".", text)


def spans(text, rows, names):
    """A page's code spans, turned."""
    return re.sub(r"`[^`]+`", lambda m: widened(m[0], rows, names), text)


def main(argv):
    if not os.path.isdir("crates"):
        print("respell: run it at the top of the repository", file=sys.stderr)
        return 2
    names = declared()
    rows = table(names)
    if "--check" in argv:
        for old, new in sorted(rows.items()):
            print(old, new)
        return 0
    count = 0
    for path in texts("crates", (".antt", ".rt", ".edit"), {"out", "data"}):
        old = read(path)
        new = edited(old, rows, names) if path.endswith(".edit") else turned(old, rows, os.path.splitext(path)[1])
        if new != old:
            count += 1
            with open(path, "w", encoding="utf-8") as f:
                f.write(new)
    pages = [p for p in texts("docs", ".md", set()) if not p.endswith("CHANGES.md")] + ["README.md"] + list(texts("oracle", ".md", set())) + list(texts("bindings", ".md", set()))
    for path in pages:
        old = read(path)
        new = spans(old, rows, names)
        if new != old:
            count += 1
            with open(path, "w", encoding="utf-8") as f:
                f.write(new)
    print(f"respell: {len(rows)} names, {count} files")
    return 0


if __name__ == "__main__":
    raise SystemExit(main(sys.argv[1:]))
