#!/usr/bin/env python3
"""Lists a crate and the crates that it stands on, one a line.

usage: tools/below.py CRATE

A crate is one of crates.txt, or one that is kept as text, outside CI: tools/PART/CRATE/crate.txt has the line of such a crate.
"""
import glob
import os
import shutil
import sys

TOP = os.path.dirname(os.path.dirname(os.path.abspath(__file__)))


def texts():
    """The folder of each crate that is kept as text, by its name."""
    found = sorted(glob.glob(os.path.join(TOP, "tools", "*", "*", "crate.txt")))
    return {os.path.basename(os.path.dirname(path)): os.path.dirname(path) for path in found}


def lines():
    """The line of each crate by its name, without comments: those of CI, lowest first, and then those that are kept as text."""
    found = []
    for path in (os.path.join(TOP, "crates.txt"), *(os.path.join(folder, "crate.txt") for folder in texts().values())):
        with open(path, encoding="utf-8") as file:
            found += [line.split("#")[0].strip() for line in file]
    return {line.split(":")[0].split()[0]: line for line in found if line}


def libraries():
    """The libraries that each crate names."""
    return {name: line.split(":")[1].split() for name, line in lines().items()}


def closure(crate):
    """The crate and those that it stands on."""
    below = libraries()
    found, ahead = [], [crate]
    while ahead:
        name = ahead.pop()
        if name in below and name not in found:
            found.append(name)
            ahead += below[name]
    return found


def need_rt():
    """Ends the program with a sentence if the kit's command is missing."""
    if shutil.which("rt") is None:
        sys.exit("the Rattle kit is missing: put its command rt on the path")


def main():
    print("\n".join(closure(sys.argv[1])))


if __name__ == "__main__":
    main()
