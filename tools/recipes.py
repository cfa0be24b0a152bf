#!/usr/bin/env python3
"""Checks the recipes of docs/CONTRIBUTING.md: each file that they name exists, and each pattern to search for is found.

usage: tools/recipes.py

A line of a recipe names files, with a comma between two, and after two blanks says what belongs there. A file is one of
docs/ or tools/, or begins with its crate. One that begins with src/, specs/ or proofs/ is of the line's last crate, or else
of that of the recipe's heading; one without a folder lies beside the file before it. A pattern with NAME is passed over. The
script prints each name that is wrong, and fails if there is one.
"""
import glob
import os
import re
import sys

sys.dont_write_bytecode = True
import below

PARTS = ("src", "specs", "proofs")


def path_of(name, crate, folder):
    """Returns the path of a file by its name, with the crate and the folder of the file before it."""
    if name.startswith(("docs/", "tools/")):
        return name
    if name.split("/")[0] in PARTS:
        return os.path.join("crates", crate, name)
    return os.path.join("crates", name) if "/" in name else os.path.join(folder, name)


def lost_files(recipe):
    """Returns the files that a recipe names and that are not there."""
    heading = re.search(r"as in `(mono_\w+)`", recipe)
    lost = []
    for line in re.findall(r"^    (\S.*)$", recipe, re.M):
        crate, folder = heading[1] if heading else "", ""
        for name in re.split(r"  +", line)[0].split(", "):
            path = path_of(name, crate, folder)
            folder = os.path.dirname(path)
            if folder.startswith("crates/"):
                crate = folder.split("/")[1]
            if not os.path.exists(path):
                lost.append(path)
    return lost


def lost_patterns(page):
    """Returns the patterns that the page searches for, and that nothing in the crates has."""
    found = re.findall(r"`git grep -\w+ '([^']+)'", page)
    lost = {pattern: re.compile(pattern) for pattern in found if "NAME" not in pattern}
    for path in glob.glob("crates/*/**/*", recursive=True):
        if lost and path.endswith((".rt", ".antt")) and "/out/" not in path:
            with open(path, encoding="utf-8") as file:
                text = file.read()
            lost = {pattern: it for pattern, it in lost.items() if not it.search(text)}
    return list(lost)


def main():
    os.chdir(below.TOP)
    with open("docs/CONTRIBUTING.md", encoding="utf-8") as file:
        page = file.read()
    recipes = page.split("\n## Recipes\n")[1].split("\n**")
    lost = [path for recipe in recipes for path in lost_files(recipe)] + lost_patterns(page)
    print("\n".join(f"a recipe names {it}" for it in lost) or f"{len(recipes) - 1} recipes: each file and pattern is there")
    return 1 if lost else 0


if __name__ == "__main__":
    sys.exit(main())
