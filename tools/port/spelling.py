#!/usr/bin/env python3
"""Spells the repository's own names as today's Rattle does: definitions and lemmas in snake case, types and modules as they were.

usage: tools/port/spelling.py [FOLDER]     after the kit's port.py, once, at the top of the repository or in FOLDER

A name is ours where a file of specs/ or one right in proofs/ declares it: a definition, a lemma, a set of rules, a constructor or a field of
a record. In it `aB` and `a-b` become `a_b`. Where a definition and a lemma fall together so, the lemma gains `_lem`; that list is printed. Names that come from the kit,
names of src/ and names that Rattle makes are left. In comments a name is turned where it stands between backticks. Lines of
must-fail/, misreadings.txt and pins.txt are turned as those of the files that they change.
"""
import collections
import glob
import os
import re
import sys

WORD = re.compile(r'--[^\n]*|"(?:[^"\\]|\\.)*"|«[^»]*»|[^\s(){}.;,@"«»\[\]\\`]+')
HEAD = re.compile(r"((?:(?:abbrev|unfoldable|pub|ruleset) )*)([^\s(){}.;,:=]+) (:|=)(?: |$)")
USE = re.compile(r"^(?:pub |ghost )?use ([^\s{;]+?)(?:\.\{([^}]*)\})?(?: as (\S+?))?;?$")
OURS = re.compile(r"Rattle\.(%s)\.")


def read(path):
    with open(path, encoding="utf-8", newline="") as f:
        return f.read()


def write(path, text):
    with open(path, "w", encoding="utf-8", newline="") as f:
        f.write(text)


def is_odd(name):
    return bool(re.match(r"^[^\W\d_][\w'-]*$", name)) and ("-" in name or (name[0].islower() and re.search("[a-z0-9][A-Z]", name) is not None))


def plain(name):
    if name[0].islower():
        name = re.sub("(?<=[a-z0-9])([A-Z])", lambda m: "_" + m[1].lower(), name)
    return name.replace("-", "_")


def shared(root):
    """The files whose names others may cite: those of specs/, and those right in proofs/."""
    return sorted(glob.glob(os.path.join(root, "crates/*/specs/**/*.antt"), recursive=True) + glob.glob(os.path.join(root, "crates/*/proofs/*.antt")))


def declared(path):
    """Each name that a file declares."""
    kind = deep = None
    for line in read(path).split("\n"):
        text = line.strip()
        if not text or text.startswith("--"):
            continue
        at = len(line) - len(line.lstrip())
        if kind and at <= deep:
            kind = None
        m = re.match(r"(?:pub )?(record|data) ([^\s(){}.;,:]+)", text)
        if m:
            kind, deep = m[1], at
            yield m[2]
        elif kind:
            m = re.match(r"(?:pub )?([^\s(){}.;,:]+) :", text)
            if m:
                yield m[1]
        else:
            m = HEAD.match(text)
            if m and (m[3] == ":" or "ruleset" in m[1]):
                yield m[2]


def table(root):
    """From each of our names that is spelled otherwise to its new spelling."""
    names = collections.defaultdict(set)
    for path in shared(root):
        for name in declared(path):
            names[plain(name)].add(name)
    new = {}
    for to, of in sorted(names.items()):
        definitions = [n for n in of if n[0].islower() and re.search("[a-z0-9][A-Z]", n)] or [n for n in of if n == to]
        for n in sorted(of):
            if n not in definitions and definitions:
                new[n] = to + "_lem"
            elif is_odd(n):
                new[n] = to
    return new


def foreign(text, crates):
    """The names that a file takes from elsewhere than this repository."""
    of = set()
    for line in text.split("\n"):
        m = USE.match(line)
        if m and m[2] and not re.match(r"Rattle\.(%s)\." % "|".join(crates), m[1]):
            of |= {n.strip().split(" as ")[-1] for n in m[2].split(",")}
    return of


def in_comment(text, new):
    return re.sub("`([^`]+)`", lambda m: "`" + turned(m[1], new) + "`", text)


def turned(text, new):
    def one(m):
        w = m[0]
        if w.startswith("--"):
            return in_comment(w, new)
        if w[0] in '"«':
            return w
        before = text[max(0, m.start() - 4) : m.start()]
        return w if before.endswith("tie.") else new.get(w, w)

    return WORD.sub(one, text)


def turned_code(text, new):
    """Of a file of src/: only what is spelled aB, which no name of src/ is."""
    small = {a: b for a, b in new.items() if re.search("[a-z0-9][A-Z]", a) and "-" not in a}

    def line(one):
        code, mark, note = one.partition("//")
        code = re.sub(r"[a-z][A-Za-z0-9]*(?:'|\b)", lambda m: small.get(m[0], m[0]), code)
        return code + mark + (in_comment(note, new) if mark else "")

    return "\n".join(line(one) for one in text.split("\n"))


def edit_lines(text, new):
    """Of must-fail/ and misreadings.txt: each line as those of the file that stands above it."""
    out, code = [], False
    for line in text.split("\n"):
        if line.startswith("file: "):
            code = line.endswith(".rt")
        elif line.startswith(("old: ", "new: ")):
            line = line[:5] + (turned_code if code else turned)(line[5:], new)
        out.append(line)
    return "\n".join(out)


def main(argv):
    root = argv[0] if argv else "."
    crates = sorted(os.listdir(os.path.join(root, "crates")))
    new = table(root)
    for path in sorted(glob.glob(os.path.join(root, "crates/*/*/**/*"), recursive=True) + glob.glob(os.path.join(root, "crates/*/*.txt"))):
        if not os.path.isfile(path) or "/out/" in path:
            continue
        if path.endswith(".antt"):
            text = read(path)
            less = foreign(text, crates)
            write(path, turned(text, {a: b for a, b in new.items() if a not in less}))
        elif path.endswith(".rt"):
            write(path, turned_code(read(path), new))
        elif path.endswith((".edit", "misreadings.txt")):
            write(path, edit_lines(read(path), new))
        elif path.endswith("pins.txt"):
            write(path, "\n".join(l if l.startswith("#") else turned(l, new) for l in read(path).split("\n")))
    for a, b in sorted(new.items()):
        if b.endswith("_lem"):
            print(f"{a} -> {b}")
    print(f"{len(new)} names")


if __name__ == "__main__":
    main(sys.argv[1:])
