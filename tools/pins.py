#!/usr/bin/env python3
"""How well the computed figures pin the definitions of a crate.

A figure is a theorem that computes one case and is proved by refl alone. This makes wrong definitions, one change each, and sees
which of them no figure refuses. It works on a copy with no code and no other proof, so that nothing but a figure can refuse.

crates/CRATE/misreadings.txt has wrong definitions that somebody wrote: a sentence of the paper read otherwise, which takes more than one change. They
are tried too; tools/misreadings.py says how they are written.

Refused: all errors stand in figures. Ill-typed: an error stands in specs/; it does not count, and a misreading may not be. Passed: no figure minds;
these are listed by file, line, definition, old -> new. A line `DEFINITION: OLD -> NEW because REASON` of crates/CRATE/pins.txt allows one that means the
same, or that a theorem shuts out.
"""
import argparse
import concurrent.futures
import os
import pathlib
import queue
import random
import re
import shutil
import signal
import subprocess
import sys
import tempfile
import time
import typing

from misreadings import Fault, misread, misreadings

# Files of specs/ that hold no definition of the paper's: the root, and steps that serve proofs only.
NO_DEFINITIONS = {"Lib", "Steps"}

# Names and fields of like type, one of which is easily written for the other.
NEIGHBOURS = [
    (".up", ".down"), (".media", ".rtcp"), (".rs", ".rr"), (".start", ".end"), (".from", ".to"), (".kind", ".transport"),
    ("as_of", "tias_of"), ("rate.As", "rate.Tias"), ("most_as", "most_rate"),
    ("uplink", "downlink"), ("offer", "answer"), ("in_offer", "in_answer"), ("was", "now"), ("new", "old"), ("true", "false"),
    ("leb", "ltb"), ("&&", "||"), ("+", "*"), ("/", "%"),
]

# The word of a name that says which way.
UP_OR_DOWN = re.compile(r"(?<=_)(?:up|down)(?=link|_|$)")

# Names that a change may bring into a file, and the module that they come from.
PRELUDE = "Rattle.std.specs.Prelude"
IMPORTS = {n: n for n in ("true", "false", "not", "leb", "ltb")} | {n: f"◌{n}◌" for n in ("&&", "||", "+", "*", "/", "%")}

TESTS = {"eqb": 2, "ltb": 2, "leb": 2}

# How many wrong definitions one process judges.
LOT = 12


class Trouble(Exception):
    pass


# ---- reading antt

class Token(typing.NamedTuple):
    text: str
    start: int
    end: int


# A comment, a string, a mark, a projection, or a word: a constructor has its type before it, and a name that λ binds last its dot behind it.
TOKEN = re.compile(r"""--[^\n]*|"(?:[^"\\]|\\.)*"|[(){};,]|\.(?=[a-z_0-9])[^\s(){};,".]+|[^\s(){};,".]+(?:\.[A-Z][^\s(){};,".]*)*(?:\.(?=\s))?|\.""")


def tokens(text, start, end):
    return [Token(m.group(), m.start(), m.end()) for m in TOKEN.finditer(text, start, end) if not m.group().startswith("--")]


class Clause(typing.NamedTuple):
    """What stands before the `=`, and where the body is."""
    pattern: str
    start: int
    end: int


class Definition:
    """A declaration: the words before its name, its name, its type and its clauses."""
    def __init__(self, words, name, type_):
        self.words, self.name, self.type, self.clauses = words, name, type_, []


def blocks(text):
    """Each line that starts at the margin, with the indented lines after it: (start, end)."""
    starts = [m.start() for m in re.finditer(r"^\S", text, re.M)]
    return [(a, b) for a, b in zip(starts, starts[1:] + [len(text)])]


def definitions(text):
    found, last = [], None
    for start, end in blocks(text):
        block = text[start:end]
        if re.match(r"--|use |(pub )?mod |unfolding |(pub )?(record|data) ", block):
            if re.match(r"(pub )?(record|data) ", block):
                last = None
            continue
        signature = re.match(r"((?:unfoldable |abbrev |pub )*)([^\s(){};,]+)\s*:\s", block)
        if signature:
            last = Definition(signature.group(1).split(), signature.group(2), " ".join(block[signature.end():].split()))
            found.append(last)
        elif last and block.split(None, 1)[0] == last.name:
            equals = re.search(r"(?<=\s)=(?=\s)", block)
            if equals:
                last.clauses.append(Clause(block[:equals.start()], start + equals.end(), end))
    return found


def arrows(type_):
    """The parts of a type between its outer arrows."""
    parts, depth, at = [], 0, 0
    for i, c in enumerate(type_):
        depth += (c in "({") - (c in ")}")
        if c == "→" and depth == 0:
            parts.append(type_[at:i].strip())
            at = i + 1
    return [p for p in parts if not p.startswith("{")] + [type_[at:].strip()]


def imported(text):
    names = set()
    for m in re.finditer(r"^use [^\n{]*\.\{([^}]*)\}", text, re.M):
        names.update(n.strip().strip("◌") for n in m.group(1).split(","))
    return names


def cited(text):
    """The modules that a file names: (crate, specs or proofs, module)."""
    return set(re.findall(r"Rattle\.(\w+)\.(specs|proofs)\.(\w+)", text))


# ---- the repository and the checker

class Repository:
    def __init__(self):
        here = pathlib.Path.cwd()
        self.root = next((p for p in [here, *here.parents] if (p / "crates.txt").is_file()), None)
        if not self.root:
            raise Trouble("no crates.txt in this folder or above it")
        self.crates = [m.group(1) for m in re.finditer(r"^\s*(\w+)(?:\s+staticlib)?\s*:", (self.root / "crates.txt").read_text(), re.M)]
        self.text = {}
        for crate in self.crates:
            for part in ("src/**/*.rt", "specs/*.antt", "proofs/**/*.antt"):
                for file in self.dir(crate).glob(part):
                    self.text[file.relative_to(self.root / "crates").as_posix()] = file.read_text()
        rt = shutil.which("rt")
        if not rt:
            raise Trouble("rt is not on the path")
        self.kit = pathlib.Path(rt).resolve().parent.parent
        self.pins = {crate: Pins(self.dir(crate) / "pins.txt") for crate in self.crates}
        self.figures = self.find_figures()
        self.tests = dict(TESTS)
        for name, text in self.text.items():
            if "/specs/" in name:
                for d in definitions(text):
                    if arrows(d.type)[-1] == "Bool":
                        self.tests[d.name] = len(arrows(d.type)) - 1

    def dir(self, crate):
        return self.root / "crates" / crate

    def modules(self, crate, part):
        """The files right in specs/ or proofs/ of a crate: module name to text."""
        at = f"{crate}/{part}/"
        return {n[len(at):-5]: t for n, t in self.text.items() if n.startswith(at) and "/" not in n[len(at):]}

    def find_figures(self):
        """The proof modules that only compute: every theorem is refl, and so is all that they import from proofs."""
        figures = {c: {m for m, t in self.modules(c, "proofs").items() if computes(t)} for c in self.crates}
        for crate in self.crates:
            figures[crate] = self.pins[crate].figures or figures[crate]
        while True:
            lost = [(c, m) for c in figures for m in figures[c]
                    if not all(a not in figures or b in figures[a] for a, part, b in cited(self.text[f"{c}/proofs/{m}.antt"]) if part == "proofs")]
            if not lost:
                return figures
            for c, m in lost:
                figures[c].discard(m)

    def definition_files(self, crate):
        """The files of specs/ that something else than figures cites: a contract, a proof, or another such file."""
        tables = set()
        while True:
            cites = set()
            for name, text in self.text.items():
                c, part, rest = name.split("/", 2)
                if part == "proofs" and rest[:-5] in self.figures[c] or part == "specs" and (c, rest[:-5]) in tables:
                    continue
                own = {(c, rest[:-5])} if part == "specs" else set()
                cites |= {(a, m) for a, p, m in cited(text) if p == "specs"} - own
            more = {(c, m) for c in self.crates for m in self.modules(c, "specs")} - cites - tables
            if not more:
                return sorted(m for m in self.modules(crate, "specs") if (crate, m) not in tables and m not in NO_DEFINITIONS)
            tables |= more

    def strip(self, crate, to, figures=True):
        """Writes the crate with no code and no proof but its figures, or none at all."""
        kept = self.figures[crate] if figures else set()
        for name, text in self.text.items():
            c, part, rest = name.split("/", 2)
            if c == crate and (part != "proofs" or rest[:-5] in kept):
                put(to / part / rest, types_only(text) if part == "src" else text)
        put(to / "proofs" / "Lib.antt", "".join(f"pub mod {m}\n" for m in sorted(kept)))
        return to

    def names(self, crate):
        """The crates that the stripped crate names."""
        named = set()
        for name, text in self.text.items():
            c, part, rest = name.split("/", 2)
            if c == crate and (part == "specs" or part == "proofs" and rest[:-5] in self.figures[crate]):
                named |= {a for a, _, _ in cited(text)}
            elif c == crate and part == "src":
                named |= set(re.findall(r"\b(\w+)::", types_only(text)))
        return [c for c in self.crates if c in named and c != crate]

    def below(self, crate):
        """All crates that the stripped crate stands on, each after its own."""
        found = []
        for c in self.names(crate):
            found += [d for d in [*self.below(c), c] if d not in found]
        return found

    def above(self, crate):
        """The crates with figures that stand on this one, and those between."""
        tops = [c for c in self.crates if self.figures[c] and crate in self.below(c)]
        return [c for c in self.crates if c in tops or any(c in self.below(t) for t in tops) and crate in self.below(c)]

    def rattle(self, verb, name, dir_, externs, rlibs, *words, timeout=None):
        command = [self.kit / "bin" / "rattle", verb, "--crate-name", name, dir_ / "src" / "lib.rt"]
        command += ["--extern", f"std={self.kit}/rlibs/std.rlib"]
        for c in externs:
            command += ["--extern", f"{c}={rlibs}/{c}.rlib"]
        command += ["-L", f"dependency={rlibs}", "-L", f"dependency={self.kit}/rlibs"]
        command += ["--antt-project", self.kit / "rattle" / "logic" / "antt-project.json", "--logic-built", self.kit / "logic_built", *words]
        try:
            run = subprocess.run([str(w) for w in command], stdout=subprocess.PIPE, stderr=subprocess.STDOUT, text=True, timeout=timeout)
        except subprocess.TimeoutExpired:
            return 3, "no verdict in time\n"
        return run.returncode, run.stdout


class Pins:
    """crates/NAME/pins.txt: `figures: A B` in place of those found, and a line for each survivor that is right."""
    def __init__(self, file):
        self.figures, self.allowed = set(), {}
        for line in file.read_text().splitlines() if file.is_file() else []:
            if line.startswith("figures:"):
                self.figures = set(line[8:].split())
            elif line.strip() and not line.startswith("#"):
                change, sep, reason = line.partition(" because ")
                if not sep or " -> " not in change:
                    raise Trouble(f"crates/{file.parent.name}/{file.name}: not `DEFINITION: OLD -> NEW because REASON`: {line}")
                self.allowed[change.strip()] = reason.strip()


def put(file, text):
    file.parent.mkdir(parents=True, exist_ok=True)
    file.write_text(text)


def computes(text):
    """Every declaration that is no abbreviation is a theorem `name = refl`, or a pair or record of refls."""
    theorems = [d for d in definitions(text) if "abbrev" not in d.words]
    return bool(theorems) and all(
        len(d.clauses) == 1 and d.clauses[0].pattern.split() == [d.name]
        and re.fullmatch(r"(record|[\w-]+ =|refl|tt|[(){};,\s])+", uncommented(text[d.clauses[0].start:d.clauses[0].end])) for d in theorems)


def uncommented(text):
    return re.sub(r"--[^\n]*", "", text)


def types_only(source):
    """The declared types of a Rattle file, and the `use` items that they need."""
    items = []
    for start, end in blocks(source):
        block = source[start:end]
        if re.match(r"(pub )?(struct|enum|const|type|mod|use|fn|impl|extern)\b|ghost |#\[|//", block):
            items.append(block)
        elif items:
            items[-1] += block
    kept = [i for i in items if re.match(r"(pub )?(struct|enum|const|type|mod)\b", i)]
    body = "".join(kept)
    uses = [i for i in items if re.match(r"(pub )?use\b", i) and any(re.search(rf"\b{n}\b", body) for n in re.findall(r"\w+", i.split("::")[-1]))]
    return "".join(uses) + body


# ---- wrong definitions

class Mutant:
    def __init__(self, file, line, name, old, new, text):
        self.file, self.line, self.name, self.old, self.new, self.text = file, line, name, old, new, text
        self.outcome, self.by, self.far, self.misread = None, "", False, False

    def change(self):
        return f"{self.name}: {self.old} -> {self.new}"


def written(crate, file, specs):
    """The wrong definitions of crates/CRATE/misreadings.txt."""
    for name, lines in misreadings(file.read_text() if file.is_file() else ""):
        try:
            changed, text = misread(lines, lambda f: specs[pathlib.PurePath(f).stem])
        except (Fault, KeyError) as fault:
            raise Trouble(f"crates/{crate}/misreadings.txt: {name}: {fault}")
        m = Mutant(pathlib.PurePath(changed).stem, 1, name, "the paper", "misread", text)
        m.misread = True
        yield m


OPERATORS = {"&&", "||", "=", "∷", "++", "+", "*", "-", "/", "%", "→", "≡", "×", "≤", "<", ":", ";", ",", ")", "}", "λ", "+ℤ"}


class Body:
    """The tokens of a clause's body, and what stands where."""
    def __init__(self, text, clause):
        self.text, self.tokens = text, tokens(text, clause.start, clause.end)
        self.match, opened = {}, []
        for i, t in enumerate(self.tokens):
            if t.text in "({":
                opened.append(i)
            elif t.text in ")}" and opened:
                j = opened.pop()
                self.match[i], self.match[j] = j, i
        self.binder = set()
        bound = False
        for i, t in enumerate(self.tokens):
            bound = bound or t.text == "λ"
            if bound:
                self.binder.add(i)
                bound = not (t.text.endswith(".") and t.text != "λ")

    def at(self, i):
        return self.tokens[i].text if 0 <= i < len(self.tokens) else ""

    def is_label(self, i):
        return self.at(i + 1) == "=" and self.at(i - 1) in ("{", ";")

    def heads(self, i):
        """Token i stands where an application begins."""
        return i == 0 or self.at(i - 1) in {"(", "=", "&&", "||", "∷", ","} or i - 1 in self.binder

    def arguments(self, i, count):
        """The first and last token of each of the `count` arguments behind token i, or none."""
        found, j = [], i + 1
        while len(found) < count:
            t = self.at(j)
            if not t or t in OPERATORS or t.startswith("."):
                return []
            last = j
            if t in "({":
                last = self.match.get(j, j)
            elif t == "record":
                last = self.match.get(j + 1, j)
            while self.at(last + 1).startswith("."):
                last += 1
            found.append((j, last))
            j = last + 1
        return found

    def span(self, first, last):
        return self.text[self.tokens[first].start:self.tokens[last].end]


def changes(body, tests, names):
    """Each change of a body: first and last token, and the text to put there; of a long one, old and new as they are shown."""
    b = body
    pairs = dict(NEIGHBOURS) | {y: x for x, y in NEIGHBOURS}
    for i, t in enumerate(b.tokens):
        if i in b.binder or b.is_label(i):
            continue
        if t.text.isdecimal():
            for n in (int(t.text) + 1, int(t.text) - 1):
                if n >= 0:
                    yield i, i, str(n)
        elif t.text.startswith('"'):
            letters = [m.start() for m in re.finditer(r"(?<!\\)[A-Za-z0-9]", t.text)]
            if letters:
                k = letters[-1]
                other = {"z": "a", "Z": "A", "9": "0"}.get(t.text[k], chr(ord(t.text[k]) + 1))
                yield i, i, t.text[:k] + other + t.text[k + 1:]
        elif t.text == "cond":
            three = b.arguments(i, 3)
            if three:
                old, new = ([b.span(*three[k]) for k in order] for order in ((0, 1, 2), (0, 2, 1)))
                yield i, three[2][1], " ".join(["cond", *new]), *(" ".join(["cond", *(brief(x, 40) for x in arms)]) for arms in (old, new))
        elif t.text in ("not", "suc") and b.arguments(i, 1):
            (a, z), = b.arguments(i, 1)
            yield i, z, b.span(a, z)
        elif t.text in pairs:
            if t.text.startswith(".") or t.text in IMPORTS or pairs[t.text] in names:
                yield i, i, pairs[t.text]
        elif UP_OR_DOWN.search(t.text):
            other = UP_OR_DOWN.sub(lambda m: "down" if m.group() == "up" else "up", t.text)
            if other in names:
                yield i, i, other
        if t.text in tests and b.heads(i):
            args = b.arguments(i, tests[t.text])
            last = args[-1][1] if args else i
            whole = b.at(i - 1) == "(" and b.at(last + 1) == ")"
            if (args or not tests[t.text]) and not (whole and b.at(i - 2) in ("cond", "not")):
                yield i, last, f"not ({b.span(i, last)})"


def brief(text, room=28):
    text = " ".join(uncommented(text).split())
    return text if len(text) <= room else text[:room - 3].rstrip() + " .."


def around(body, first, last):
    """The tokens that show a change: its parentheses, field or clause, and no more than a line of it."""
    low, high, depth = first, last, 0
    while low > 0 and not (depth == 0 and body.at(low - 1) in ("(", "{", ";")):
        depth += (body.at(low - 1) in ")}") - (body.at(low - 1) in "({")
        low -= 1
    depth = 0
    while high + 1 < len(body.tokens) and not (depth == 0 and body.at(high + 1) in (")", "}", ";")):
        depth += (body.at(high + 1) in "({") - (body.at(high + 1) in ")}")
        high += 1
    while low < first and len(brief(body.span(low, first), 999)) > 48:
        low += 1
    while high > last and (len(brief(body.span(last, high), 999)) > 32 or body.at(high) in ("(", "{", "&&", "||")):
        high -= 1
    return low, high


def mutants(file, text, tests):
    known = imported(text) | {d.name for d in definitions(text)}
    made, shown = set(), {}
    for d in definitions(text):
        if arrows(d.type)[-1].startswith("Type"):
            continue
        for c in d.clauses:
            body = Body(text, c)
            names = known | set(re.findall(r"[^\s(){};,]+", c.pattern)) | {body.at(i).rstrip(".") for i in body.binder}
            for first, last, new, *show in changes(body, tests, names):
                start, end = body.tokens[first].start, body.tokens[last].end
                wrong = text[:start] + new + text[end:]
                if wrong in made:
                    continue
                made.add(wrong)
                low, high = around(body, first, last)
                lead, tail = text[body.tokens[low].start:start], text[end:body.tokens[high].end]
                old, now = show or (brief(lead + t + tail, 160) for t in (text[start:end], new))
                # the same change at another place of the definition has a number
                count = shown[d.name, old, now] = shown.get((d.name, old, now), 0) + 1
                if count > 1:
                    now += f" ({count})"
                for name, word in IMPORTS.items():
                    if name not in known and name in new.split():
                        wrong = f"use {PRELUDE}.{{{word}}}\n" + wrong
                yield Mutant(file, text.count("\n", 0, start) + 1, d.name, old, now, wrong)


# ---- trying them

class Workshop:
    """Built libraries of the crates below and of the crate itself, without figures; lots of wrong definitions, and benches for those that passed."""
    def __init__(self, repo, crate, folder, own_alone):
        self.repo, self.crate, self.folder = repo, crate, folder
        self.rlibs = folder / "rlib"
        self.rlibs.mkdir(parents=True)
        self.above = [] if own_alone else repo.above(crate)
        self.with_above = [crate, *self.above]
        self.under = list(dict.fromkeys(c for a in self.with_above for c in repo.below(a) if c not in self.with_above))
        for c in self.under:
            self.build(c, True)
        self.build(crate, False)
        self.specs = repo.modules(crate, "specs")
        self.figures = {m: text for m, text in repo.modules(crate, "proofs").items() if m in repo.figures[crate]}
        self.order = re.findall(r"pub mod (\w+)", self.specs["Lib"])
        self.limit = [None, None]

    def build(self, crate, figures):
        to = self.repo.strip(crate, self.folder / "under" / crate, figures)
        code, said = self.repo.rattle("build", crate, to, self.repo.names(crate), self.rlibs, "-o", self.rlibs / f"{crate}.rlib")
        if code or not re.search("^logic=proved", said, re.M):
            raise Trouble(f"{crate} with no code and its figures alone is not proved:\n{said}")

    def bench(self, n):
        """The folder of job n."""
        bench = self.folder / f"job{n}"
        for c in self.with_above if self.above else []:
            self.repo.strip(c, bench / c)
        put(bench / "top" / "src" / "lib.rt", "")
        return bench

    def standing_on(self, file):
        """The modules of specs/ that see this one, itself among them."""
        found = {file}
        while True:
            more = {m for m, text in self.specs.items() if m not in found and m != "Lib"
                    and any((c, part) == (self.crate, "specs") and x in found for c, part, x in cited(text))}
            if not more:
                return found
            found |= more

    def copy(self, to, name, file, text):
        """Writes a library of another name that has only the wrong module, those that stand on it, and all figures."""
        copied = self.standing_on(file)

        def renamed(source):
            source = re.sub(rf"\bRattle\.{self.crate}\.specs\.(\w+)",
                            lambda m: f"Rattle.{name if m.group(1) in copied else self.crate}.specs.{m.group(1)}", source)
            return re.sub(rf"\bRattle\.{self.crate}\.proofs\.", f"Rattle.{name}.proofs.", source)

        put(to / "src" / "lib.rt", "")
        for m in copied:
            put(to / "specs" / f"{m}.antt", renamed(text if m == file else self.specs[m]))
        for m, source in self.figures.items():
            put(to / "proofs" / f"{m}.antt", renamed(source))
        put(to / "specs" / "Lib.antt", "".join(f"pub mod {m}\n" for m in self.order if m in copied))
        put(to / "proofs" / "Lib.antt", "".join(f"pub mod {m}\n" for m in sorted(self.figures)))
        return ["--lib", f"{name}={to / 'src' / 'lib.rt'}"]

    def verdict(self, code, said, folder):
        """What the checker said of the files of a folder: the outcome, and the theorems that refused."""
        errors = re.findall(rf"^{re.escape(str(folder))}/(?:(\w+)/)?(specs|proofs)/([^:]*)\.antt:\d+:\d+: error: (?:`([^`]*)`: )?(.*)", said, re.M)
        # an error in specs/ is a type error; where a refl fails, the error stands in a figure and speaks of two types that differ
        if any(part == "specs" for _, part, *_ in errors):
            return "ill-typed", ""
        by = dict.fromkeys(f"{c or self.crate}/{m} {name}" for c, _, m, name, what in errors if re.search("the two types|expected type", what))
        if by:
            return "refused", ", ".join(by)
        if not errors and re.search("^logic=(not-)?proved", said, re.M) and code in (0, 1):
            return "passed", ""
        return "no verdict", (said.strip().splitlines() or [""])[-1]

    def try_lot(self, bench, lot):
        """Many wrong definitions in one process, each a library of its own, held to the crate's own figures."""
        at = bench / "lot"
        shutil.rmtree(at, ignore_errors=True)
        words = [w for k, m in enumerate(lot) for w in self.copy(at / f"x{k}", f"{self.crate}x{k}", m.file, m.text)]
        externs = list(dict.fromkeys([*self.repo.below(self.crate), self.crate]))
        code, said = self.repo.rattle("check", "pins_top", bench / "top", externs, self.rlibs, *words, timeout=self.limit[0])
        for k, m in enumerate(lot):
            m.outcome, m.by = self.verdict(code, said, at / f"x{k}")

    def try_above(self, bench, mutant):
        """One that passed, held to the figures of the crates above too."""
        file = bench / self.crate / "specs" / f"{mutant.file}.antt"
        right = file.read_text()
        file.write_text(mutant.text)
        try:
            mutant.outcome, mutant.by = self.check_above(bench)
            mutant.far = True
        finally:
            file.write_text(right)

    def check_above(self, bench):
        words = [w for c in self.with_above for w in ("--lib", f"{c}={bench / c / 'src' / 'lib.rt'}")]
        code, said = self.repo.rattle("check", "pins_top", bench / "top", self.under, self.rlibs, *words, timeout=self.limit[1])
        return self.verdict(code, said, bench)

    def baseline(self, bench):
        """Nothing changed, nothing is refused; how long that takes bounds the rest."""
        began = time.monotonic()
        same = [Mutant(m, 0, m, "", "", self.specs[m]) for m in self.specs if m != "Lib"][:LOT]
        self.try_lot(bench, same)
        for m in same:
            if m.outcome != "passed":
                raise Trouble(f"{self.crate}/specs/{m.file}.antt as it is does not pass ({m.outcome}): {m.by}")
        self.limit[0] = 60 + 20 * (time.monotonic() - began)
        if self.above:
            began = time.monotonic()
            outcome, by = self.check_above(bench)
            if outcome != "passed":
                raise Trouble(f"{self.crate} and those above it as they are do not pass ({outcome}): {by}")
            self.limit[1] = 30 + 10 * (time.monotonic() - began)

    def attempt(self, bench, lot):
        self.try_lot(bench, lot)
        # a lot that the checker could not judge is tried one by one
        for m in lot:
            if m.outcome == "no verdict" and len(lot) > 1:
                self.try_lot(bench, [m])
        for m in lot:
            if m.outcome == "passed" and self.above:
                self.try_above(bench, m)


def main():
    words = argparse.ArgumentParser(description=__doc__.split("\n\n")[0], epilog="Exit status: 0 all are refused or allowed; 1 some are not; 2 trouble.")
    words.add_argument("crate")
    words.add_argument("files", nargs="*", metavar="FILE", help="files of its specs/ (default: all that hold definitions)")
    words.add_argument("--list", action="store_true", help="list the wrong definitions, and try none")
    words.add_argument("--own", action="store_true", help="count the crate's own figures alone, not those of the crates above it")
    words.add_argument("--jobs", type=int, default=min(os.cpu_count() or 1, 4), metavar="N", help="how many to try at a time")
    words.add_argument("--sample", type=int, metavar="K", help="try K of them, chosen at random")
    words.add_argument("--seed", type=int, default=1, metavar="S", help="for --sample (default 1)")
    words.add_argument("--misreadings", action="store_true", help="those of misreadings.txt alone")
    words.add_argument("--again", metavar="REPORT", help="only those that an earlier report lists as passed")
    words.add_argument("--verbose", action="store_true", help="print each one as it is tried, and the figures that refused it")
    args = words.parse_args()

    repo = Repository()
    if args.crate not in repo.crates:
        raise Trouble(f"{args.crate} is not listed in crates.txt")
    if not (repo.dir(args.crate) / "src" / "lib.rt").is_file():
        raise Trouble(f"{args.crate} is no library")
    files = [pathlib.Path(f).stem for f in args.files] or repo.definition_files(args.crate)
    specs = repo.modules(args.crate, "specs")
    for f in files:
        if f not in specs:
            raise Trouble(f"{args.crate} has no specs/{f}.antt")
    todo = [] if args.misreadings else [m for f in files for m in mutants(f, specs[f], repo.tests)]
    todo += [m for m in written(args.crate, repo.dir(args.crate) / "misreadings.txt", specs) if m.file in files]
    if args.again:
        passed = {re.split(r" \[(?:allowed|no verdict): ", line.split(": ", 1)[1])[0].strip() for line in pathlib.Path(args.again).read_text().splitlines() if line.startswith("  crates/")}
        todo = [m for m in todo if m.change() in passed]
    if args.sample is not None and args.sample < len(todo):
        chosen = set(random.Random(args.seed).sample(range(len(todo)), args.sample))
        todo = [m for i, m in enumerate(todo) if i in chosen]

    def place(m):
        return f"crates/{args.crate}/specs/{m.file}.antt:{m.line}: {m.change()}"

    if args.list:
        for m in todo:
            print(place(m))
        print(f"{args.crate}: {len(todo)} wrong definitions")
        return 0

    signal.signal(signal.SIGTERM, lambda *_: sys.exit(2))
    folder = pathlib.Path(tempfile.mkdtemp(prefix="pins-"))
    try:
        shop = Workshop(repo, args.crate, folder, args.own)
        benches = queue.Queue()
        for n in range(args.jobs):
            benches.put(shop.bench(n))
        first = benches.get()
        shop.baseline(first)
        benches.put(first)

        def run(lot):
            bench = benches.get()
            try:
                shop.attempt(bench, lot)
            finally:
                benches.put(bench)
            for m in lot if args.verbose else []:
                print(f"{m.outcome}: {place(m)}" + (f" ({m.by})" if m.by else ""), flush=True)

        began = time.monotonic()
        with concurrent.futures.ThreadPoolExecutor(args.jobs) as pool:
            list(pool.map(run, [todo[i:i + LOT] for i in range(0, len(todo), LOT)]))
        took = time.monotonic() - began
    finally:
        shutil.rmtree(folder, ignore_errors=True)

    return report(args, repo.pins[args.crate].allowed, files, todo, took, place)


def report(args, allowed, files, todo, took, place):
    counted = [m for m in todo if m.outcome != "ill-typed" or m.misread]
    refused = [m for m in counted if m.outcome == "refused"]
    bad = 0
    for f in files:
        here = [m for m in counted if m.file == f]
        left = [m for m in here if m.outcome != "refused"]
        print(f"crates/{args.crate}/specs/{f}.antt: {len(here)} wrong definitions, {len(here) - len(left)} refused, {len(left)} passed")
        for m in left:
            reason = allowed.get(m.change())
            bad += reason is None
            print(f"  {place(m)}" + (f" [{m.outcome}: {m.by}]" if m.outcome != "passed" else "") + (f" [allowed: {reason}]" if reason else ""))
    if not args.files and args.sample is None and not args.again and not args.misreadings:
        for change in sorted(allowed.keys() - {m.change() for m in counted if m.outcome == "passed"}):
            print(f"pins.txt allows what is refused or is no more: {change}")
    print(f"{len(todo) - len(counted)} more are ill-typed and do not count; {sum(m.far for m in refused)} were refused only by a crate above")
    print(f"{took:.0f} s, {took / max(len(todo), 1):.1f} s for each, {args.jobs} at a time")

    def score(misread):
        return f"{sum(m.misread == misread for m in refused)} of {sum(m.misread == misread for m in counted)}"

    print(f"{args.crate}: {score(False)} wrong definitions and {score(True)} misreadings refused by a figure")
    return 1 if bad else 0


if __name__ == "__main__":
    try:
        sys.exit(main())
    except Trouble as trouble:
        print(f"pins: {trouble}", file=sys.stderr)
        sys.exit(2)
