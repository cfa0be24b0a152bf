#!/usr/bin/env python3
"""Writes the programs into docs/COOKBOOK.md from the sources: each block that begins with `// crates/` and a file.

usage: tools/cookbook.py [--check]

Each file of a crate of the page but its main.rt has to be on the page. Under a heading, the files together have at most 60
lines, none writes a poll by hand, and the crate's stored run has each line of "prints `LINE`". With --check nothing is
written, and the status is 1 if the page is not the one that the sources give.
"""
import glob
import os
import re
import sys

sys.dont_write_bytecode = True
import below

PAGE = os.path.join("docs", "COOKBOOK.md")
BLOCK = re.compile(r"^```rust\n// (crates/\S+)\n.*?^```$", re.S | re.M)
MOST = 60


def read(path):
    with open(path, encoding="utf-8") as file:
        return file.read()


def filled(page):
    """Returns the page with each file in its block."""
    return BLOCK.sub(lambda block: f"```rust\n// {block[1]}\n{read(block[1])}```", page)


def sections(page):
    """Returns the sections of the page that have programs, each with its heading and its files."""
    parts = [part for part in re.split(r"^## ", page, flags=re.M) if BLOCK.search(part)]
    return [(part.split("\n")[0], part, BLOCK.findall(part)) for part in parts]


def faults(page):
    """Returns what is wrong with the page or its programs, a line each."""
    found = []
    for heading, text, files in sections(page):
        count = sum(read(file).count("\n") for file in files)
        if count > MOST:
            found.append(f"{heading}: {count} lines, at most {MOST}")
        found += [f"{file}: a poll by hand" for file in files if re.search(r"\bfn poll\b", read(file))]
        printed = read(os.path.join(*files[-1].split("/")[:2], "stdout")).splitlines()
        said = re.findall(r"`([^`]+)`", " ".join(re.findall(r"[Pp]rints (.*)", BLOCK.sub("", text))))
        found += [f"{heading}: no stored run prints `{line}`" for line in said if line not in printed]
    shown = {file for _, _, files in sections(page) for file in files}
    crates = {os.path.join(*file.split("/")[:2]) for file in shown}
    sources = {file for crate in crates for file in glob.glob(f"{crate}/src/*.rt") if not file.endswith("/main.rt")}
    return found + [f"{file}: not on the page" for file in sorted(sources - shown)]


def main():
    os.chdir(below.TOP)
    page = read(PAGE)
    wrong = faults(page)
    if filled(page) != page and "--check" in sys.argv[1:]:
        wrong.append(f"{PAGE} is not what the sources give: run tools/cookbook.py")
    elif filled(page) != page:
        with open(PAGE, "w", encoding="utf-8") as file:
            file.write(filled(page))
    print("\n".join(wrong) or f"{PAGE}: {len(sections(page))} programs as in the sources")
    return 1 if wrong else 0


if __name__ == "__main__":
    sys.exit(main())
