#!/usr/bin/env python3
"""Spells the repository's own definitions and lemmas as the toolchain's library does: words in snake case, a dash between two names.

usage: tools/respell.py [--dry] ROOT          after port.py, once, in the repository ROOT; writes tools/respell.tsv there
       tools/respell.py --table FILE ROOT     the same, by the rows of a FILE that an earlier run wrote

What turns: names that the .antt files of crates/ declare (definitions, lemmas, fields, variables), in .antt files, and in .rt files the clauses,
`ghost use` items and comments. Names imported from a library stay, and names of Rust's functions, types, strings. A name that would meet another stays and is told.
"""
import os
import re
import subprocess
import sys

WORD = r'[^\s(){}\[\].;,@"«»:|]+'
USE = re.compile(r"(?m)^(?:ghost |pub |unfoldable )*use\s+([^\s{};]+?)\.?(?:\{([^}]*)\}|\s+as\s+\S+|)\s*;?\s*$")
LIB = re.compile(r"(Rattle\.(std|core|io|libc|std_\w+)\b|mathlib\b|Prim\b|native\b|lib\b|mir\b|borrow\b|logic\b|seplogic\b|abs\b|base\b|prog\b|store\b|denote\b|ghost\b|contract\b)")
DECL = re.compile(rf"(?m)^[ \t]*(?:pub |abbrev |unfoldable |opaque |ruleset |data |record |syntax )*({WORD}(?:[ \t]+{WORD})*?)(?:[ \t]+\{{[^{{}}]*\}})*[ \t]*(?::(?=\s)|=(?=\s))")
BINDER = re.compile(rf"[({{]((?:{WORD}\s+)*{WORD})\s*:(?=\s)|λ\s+((?:{WORD}\s+)*{WORD})\.|\blet\s+({WORD})\b|use \{{([^}}]*)\}}")
WORDS_OF_LEMMAS = set("length take drop append map reverse zero suc nil cons add mul sub neg abs le lt eq mod div pow max min set get get_or one all one even odd pos".split())


def snake(name, known):
    """The name's new spelling."""
    parts = [p for p in re.split(r"(?<=[^-])-(?=[^-])", name)]
    parts = [re.sub(r"(?<=[a-z0-9])([A-Z])", lambda m: "_" + m[0].lower(), p) if re.match(r"[a-z]", p) else p for p in parts]
    both = len(parts) == 2 and all(it in known for it in parts)
    return ("-" if both else "_").join(parts)


def read(path):
    with open(path, encoding="utf-8") as it:
        return it.read()


def files_of(root):
    for at, folders, files in os.walk(os.path.join(root, "crates")):
        folders[:] = sorted(it for it in folders if it not in ("out", "must-fail"))
        for name in sorted(files):
            if name.endswith((".antt", ".rt")):
                yield os.path.join(at, name)


def code_of(text):
    return re.sub(r"(?m)(?<![^\s(){}.;,])--.*$", "", text)


def lent(text):
    """The names that a file takes from a library."""
    found = set()
    for path, names in USE.findall(text):
        if LIB.match(path):
            for it in re.split(r"\s*,\s*", names.strip()):
                found.update(re.split(r"\s+as\s+", it)[:1] if it else [])
    return found


def declared(text):
    found = set()
    for it in DECL.findall(text):
        found.update(it.split())
    for groups in BINDER.findall(text):
        for it in groups:
            found.update(re.split(r"[\s,]+", it.strip()))
    # variables on the left of a clause
    for line in text.split("\n"):
        if re.search(r"\s=(\s|$)", line):
            found.update(re.findall(WORD, re.split(r"\s=(?:\s|$)", line)[0]))
    return found - {""}


def is_old(name):
    dashed = re.search(r"[^-◌]-[^-◌]", name) and re.search(r"[A-Za-z]", name)
    return bool(dashed) or bool(re.match(r"[a-z][a-z0-9_]*[A-Z]", name))


SPAN = re.compile(r"(`+)[^`\n]*\1")
QUIET = re.compile(r'"(?:[^"\\\n]|\\.)*"')
# Lemmas that port.py left under the name that their definition gets, by the files that name them.
LEMMAS = [
    ("crates/ferruntzo/proofs/", "test_fits"),
    ("crates/proposals/proofs/", "quotient_fits"),
    ("crates/series/proofs/TableTest", "same_number"),
    ("crates/survey/specs/laws/", "kept_byte"),
    ("crates/promises/specs/", "little_endian"),
]
# Names under which a `use` item brings a definition in.
ALIASES = "weightOf jobAccepted floorOf zeroCandidateOf jobRefused upOf nearOf differenceOf".split()
LANDED = "4bd86aed7bd9f23f02538c6dd8a243108541eb7a"


def boundary(names):
    alternatives = "|".join(sorted(map(re.escape, names), key=len, reverse=True))
    return re.compile(rf"(?<![^\s(){{}}\[\].;,@«»:|`])({alternatives})(?![^\s(){{}}\[\].;,@«»:|`])")


def made_of(root):
    """The table: each old name with its new one."""
    texts = {p: code_of(read(p)) for p in files_of(root)}
    own, functions = set(), set(WORDS_OF_LEMMAS)
    for path, text in texts.items():
        if not path.endswith(".antt"):
            continue
        if os.path.basename(path) != "Proof.antt":
            own |= {it for it in declared(text) - lent(text) if is_old(it)}
        if "/specs/definitions" in path:
            functions |= {it for pair in re.findall(rf"(?m)^(?:pub |unfoldable )+({WORD}) :(?=\s)|^abbrev pub ({WORD}) :(?=\s)", text) for it in pair if it}
    known = {snake(it, ()) if "-" not in it else it for it in functions}
    table = {it: snake(it, known) for it in sorted({*own, *ALIASES})}
    table = {old: new for old, new in table.items() if old != new}
    for _ in range(3):
        for path, text in texts.items():
            if os.path.basename(path) == "Proof.antt":
                continue
            words = set(re.findall(WORD, text))
            spelled = {}
            for it in words:
                spelled.setdefault(table.get(it, it), []).append(it)
            for new, olds in spelled.items():
                for old in olds if len(olds) > 1 else ():
                    if "-" in old and old in table:
                        table[old] = new + "_lem"
                        print(f"{os.path.relpath(path, root)}: {' '.join(olds)} would meet: {old} is {table[old]}")
                    elif old in table and path.endswith(".antt") and not any("-" in it for it in olds):
                        print(f"{os.path.relpath(path, root)}: {' '.join(olds)} meet: by hand")
    return table


def turned(text, path, table, at, fields):
    is_source = path.endswith(".rt")
    walks = os.path.basename(path) == "Proof.antt"

    def code(part):
        def one(m):
            dotted = part[m.start() - 1 : m.start()] == "."
            if walks and dotted and (m[1] not in fields or m[1].endswith(("-is", "-fits", "-requires", "-end"))):
                return m[1]
            return table[m[1]]

        return at.sub(one, part)

    def prose(part):
        part = SPAN.sub(lambda m: at.sub(lambda n: table[n[1]], m[0]), part)
        return at.sub(lambda m: m[1] if "-" in m[1] else table[m[1]], part)

    out = []
    for line in text.split("\n"):
        mark = re.search(r"//" if is_source else r"(?<![^\s(){}.;,])--", line)
        head, tail = (line[: mark.start()], line[mark.start() :]) if mark else (line, "")
        kept, last = [], 0
        for m in QUIET.finditer(head):
            kept += [code(head[last : m.start()]), m[0]]
            last = m.end()
        out.append("".join(kept) + code(head[last:]) + prose(tail))
    return "\n".join(out)


def lemmas_apart(root):
    for path in files_of(root):
        for where, name in LEMMAS:
            if os.path.relpath(path, root).startswith(where):
                text = read(path)
                new = "\n".join(boundary([name]).sub(name + "_lem", line.split(" -- ")[0]) + line[len(line.split(" -- ")[0]) :] if not line.lstrip().startswith("--") else line for line in text.split("\n"))
                if new != text:
                    with open(path, "w", encoding="utf-8") as it:
                        it.write(new)


def comments_as_landed(root):
    """A comment's words that only look like names, as little-endian, stand as they stood."""
    for path in files_of(root):
        was = subprocess.run(["git", "show", f"{LANDED}:{os.path.relpath(path, root)}"], cwd=root, capture_output=True, text=True).stdout
        plain = lambda line: re.sub(r"[-_]", "-", line.strip())
        landed = {plain(line): line for line in was.split("\n") if re.match(r"\s*(--|//)", line) and "`" not in line}
        text = read(path)
        new = "\n".join(landed[plain(line)] if re.match(r"\s*(--|//)", line) and plain(line) in landed else line for line in text.split("\n"))
        if new != text:
            with open(path, "w", encoding="utf-8") as it:
                it.write(new)


def main(argv):
    root = argv[-1]
    if "--dry" not in argv:
        lemmas_apart(root)
    if "--table" in argv:
        with open(argv[argv.index("--table") + 1], encoding="utf-8") as it:
            table = dict(line.rstrip("\n").split("\t") for line in it if line.strip())
    else:
        table = made_of(root)
        with open(os.path.join(root, "tools", "respell.tsv"), "w", encoding="utf-8") as it:
            it.writelines(f"{old}\t{new}\n" for old, new in sorted(table.items()))
    print(f"{len(table)} names")
    if "--dry" in argv:
        return
    at = boundary(table)
    fields = set()
    for path in files_of(root):
        if path.endswith(".antt") and os.path.basename(path) != "Proof.antt":
            fields |= {it for it in re.findall(rf"(?m)^  (?:pub )?({WORD}) :(?=\s)", code_of(read(path)))}
    for path in files_of(root):
        text = read(path)
        names = lent(code_of(text)) & set(table)
        mine = at if not names else boundary(set(table) - names)
        new = turned(text, path, table, mine, fields)
        if new != text:
            with open(path, "w", encoding="utf-8") as it:
                it.write(new)
    comments_as_landed(root)


main(sys.argv[1:])
