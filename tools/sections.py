#!/usr/bin/env python3
"""Checks the sections of crates.txt: each crate stands in one, and uses no crate of a later one.

usage: tools/sections.py

A section begins at a line "# == NAME ==". It prints each line that breaks a rule, and fails if there is one.
"""
import os
import sys

sys.dont_write_bytecode = True
import below

SECTIONS = "model parts futures executors services text programs examples tests".split()


def sections_of(lines):
    """The number of each crate's section, and what is wrong with the headings."""
    found, wrong, at = {}, [], -1
    for line in lines:
        if line.startswith("# == "):
            name = line[5:].strip().removesuffix(" ==")
            if name not in SECTIONS or SECTIONS.index(name) <= at:
                wrong.append(f"{name}: not a section, or not in order")
            else:
                at = SECTIONS.index(name)
        elif line.strip() and not line.startswith("#"):
            crate = line.split(":")[0].split()[0]
            found[crate] = at
            if at < 0:
                wrong.append(f"{crate}: stands before the first section")
    return found, wrong


def main():
    with open(os.path.join(below.TOP, "crates.txt"), encoding="utf-8") as file:
        lines = file.read().splitlines()
    sections, wrong = sections_of(lines)
    for line in lines:
        if line.startswith("#") or ":" not in line:
            continue
        crate = line.split(":")[0].split()[0]
        for used in line.split(":", 1)[1].split():
            if sections.get(used, -1) > sections[crate]:
                wrong.append(f"{crate} ({SECTIONS[sections[crate]]}) uses {used} ({SECTIONS[sections[used]]})")
    print("\n".join(wrong) if wrong else f"{len(sections)} crates in {len(SECTIONS)} sections")
    return 1 if wrong else 0


if __name__ == "__main__":
    sys.exit(main())
