#!/usr/bin/env python3
"""Moves the theorems from specs/laws to proofs/laws, and what the definition of the fractions rests on into crates of its own.

usage: tools/move_laws.py ROOT     after respell.py, once

A definition's edit is tried by the theorems that rest on it: in proofs/ a refusal is the prover's, in specs/ it reads as a text that could not be read.
A definition may name no proof of its own crate, so the laws behind ℚ stand in crates below: ring (rings, whole numbers, pairs), fraction (ℚ).
"""
import os
import re
import subprocess
import sys

RING = {"definitions": ["Ring", "Integer", "OrderedRing", "Pairs"], "laws": ["Parts", "Difference"], "proofs": ["Polynomial", "Solver", "IntegerSolver", "OrderedRingLaws", "Order", "PairLaws"]}
FRACTION = {"definitions": ["Fraction"], "laws": [], "proofs": ["FractionLaws"]}
HEAD = {
    "ring": "// Rings, whole numbers and pairs of them, and the solver of equations in a ring: definitions and theorems, no code.\n#![tactic(auto)]\n",
    "fraction": "// The fractions: definitions and theorems, no code.\n#![tactic(auto)]\n",
}


def read(path):
    with open(path, encoding="utf-8") as it:
        return it.read()


def write(path, text):
    os.makedirs(os.path.dirname(path), exist_ok=True)
    with open(path, "w", encoding="utf-8") as it:
        it.write(text)


def move(root, old, new):
    os.makedirs(os.path.dirname(f"{root}/{new}"), exist_ok=True)
    subprocess.run(["git", "mv", old, new], cwd=root, check=True)


def names(text):
    return re.findall(r"(?m)^pub mod (\w+)", text)


def main(root):
    table = {}
    crates = [it for it in sorted(os.listdir(f"{root}/crates")) if os.path.isdir(f"{root}/crates/{it}/src")]
    for crate, parts in (("ring", RING), ("fraction", FRACTION)):
        base = f"crates/{crate}"
        write(f"{root}/{base}/src/lib.rt", HEAD[crate])
        for name in parts["definitions"]:
            move(root, f"crates/integer/specs/definitions/{name}.antt", f"{base}/specs/definitions/{name}.antt")
            table[f"Rattle.integer.specs.definitions.{name}"] = f"Rattle.{crate}.specs.definitions.{name}"
        for name in parts["laws"]:
            move(root, f"crates/integer/specs/laws/{name}.antt", f"{base}/specs/laws/{name}.antt")
            table[f"Rattle.integer.specs.laws.{name}"] = f"Rattle.{crate}.specs.laws.{name}"
        for name in parts["proofs"]:
            move(root, f"crates/integer/specs/laws/{name}.antt", f"{base}/proofs/laws/{name}.antt")
            table[f"Rattle.integer.specs.laws.{name}"] = f"Rattle.{crate}.proofs.laws.{name}"
        lines = lambda them: "".join(f"pub mod {it}\n" for it in them)
        write(f"{root}/{base}/specs/Lib.antt", "pub mod definitions\n" + ("pub mod laws\n" if parts["laws"] else ""))
        write(f"{root}/{base}/specs/definitions.antt", lines(parts["definitions"]))
        if parts["laws"]:
            write(f"{root}/{base}/specs/laws.antt", lines(parts["laws"]))
        write(f"{root}/{base}/proofs/Lib.antt", "pub mod laws\n")
        write(f"{root}/{base}/proofs/laws.antt", lines(parts["proofs"]))
        gone = set(sum(parts.values(), []))
        for it in ("definitions", "laws"):
            path = f"{root}/crates/integer/specs/{it}.antt"
            write(path, "".join(line for line in read(path).splitlines(True) if not set(names(line)) & gone))
    for crate in crates:
        base = f"crates/{crate}"
        if not os.path.isdir(f"{root}/{base}/specs/laws"):
            continue
        table[f"Rattle.{crate}.specs.laws"] = f"Rattle.{crate}.proofs.laws"
        move(root, f"{base}/specs/laws", f"{base}/proofs/laws")
        move(root, f"{base}/specs/laws.antt", f"{base}/proofs/laws.antt")
        path = f"{root}/{base}/specs/Lib.antt"
        write(path, "".join(line for line in read(path).splitlines(True) if names(line) != ["laws"]))
        path = f"{root}/{base}/proofs/Lib.antt"
        write(path, "pub mod laws\n" + (read(path) if os.path.exists(path) else ""))
    at = re.compile("(" + "|".join(sorted(map(re.escape, table), key=len, reverse=True)) + r")(?!\w)")
    for folder, folders, files in os.walk(f"{root}/crates"):
        folders[:] = [it for it in folders if it not in ("out", "must-fail")]
        for name in files:
            if name.endswith((".rt", ".antt")):
                path = os.path.join(folder, name)
                text = read(path)
                new = at.sub(lambda m: table[m[1]], text)
                if new != text:
                    write(path, new)
    path = f"{root}/crates.txt"
    out = []
    for line in read(path).splitlines():
        if line.startswith("#"):
            out.append(line)
            continue
        name, deps = line.split(":")
        if name == "integer":
            out += ["ring:", "fraction: ring"]
        out.append(f"{name}: ring fraction{deps}")
    write(path, "\n".join(out) + "\n")


main(sys.argv[1])
