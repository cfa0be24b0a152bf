#!/usr/bin/env python3
"""Proves a program, or a library's tests, and the crates below, and keeps the program.

usage: tools/build.py CRATE [PROGRAM]
       tools/build.py --try CRATE
       tools/build.py --lay FOLDER CRATE

The crate and those below it are copied to a folder of their own. There `rt ci` proves them side by side, each once its
libraries are proved, and compares the program's stored run. If the kit keeps proofs, neither CI nor the next build proves a
crate again whose files are the same. No mutant is tried. The program is kept as PROGRAM, or else as bin/CRATE, and what rt
prints as bin/CRATE.log. A program that was built from the same files by the same kit stays. A library's program is that of
its tests.

With --try nothing is proved or kept, but the stored run is compared. With --lay the copy is made in the new FOLDER, and
stays: there rt works on a crate that is kept as text as on any other.
"""
import hashlib
import os
import shutil
import subprocess
import sys
import tempfile

sys.dont_write_bytecode = True
import below
import layout
import progress


def sum_of(folder):
    """The sum of the kit's name and of each file in a folder."""
    made = hashlib.sha256(subprocess.run(["rt", "version"], stdout=subprocess.PIPE, check=True).stdout)
    for at, folders, files in os.walk(folder):
        folders.sort()
        for name in sorted(files):
            path = os.path.join(at, name)
            with open(path, "rb") as file:
                made.update(repr((os.path.relpath(path, folder), file.read())).encode())
    return made.hexdigest()


def is_built(program, made_from):
    """Whether the program stands and was built from files with this sum."""
    path = f"{program}.sum"
    if not os.path.exists(program) or not os.path.exists(path):
        return False
    with open(path, encoding="ascii") as file:
        return file.read() == made_from


def keep(made, program, made_from):
    """Puts a program in its place, also if an older one runs, and notes the sum of the files from which it was built."""
    shutil.copy(made, f"{program}.new")
    os.replace(f"{program}.new", program)
    with open(f"{program}.sum", "w", encoding="ascii") as out:
        out.write(made_from)


def made_of(folder, crate):
    """The path of the program that `rt ci` makes of a crate: its own, or that of its tests if it is a library."""
    home = os.path.join(folder, "crates", crate)
    is_program = os.path.exists(os.path.join(home, "src", "main.rt"))
    return os.path.join(home, "out", crate if is_program else f"{crate}_tests")


def build(crate, program, log):
    """Proves and keeps the program, unless it is built; returns the status of rt."""
    with tempfile.TemporaryDirectory(prefix="build-") as folder:
        crates = layout.lay_closure([crate], folder)
        made_from = sum_of(folder)
        if is_built(program, made_from):
            return 0
        print(f"proving {crate} and the crates below it; log: {log}", flush=True)
        status = progress.run_ci(folder, crates, log)
        if status == 0:
            keep(made_of(folder, crate), program, made_from)
    return status


def try_stored_run(crate):
    """Compares the stored run of the program, unproved; returns 0 if it is the same."""
    with tempfile.TemporaryDirectory(prefix="build-") as folder:
        layout.lay_closure([crate], folder)
        try:
            status = layout.run_unproved(os.path.join(folder, "crates", crate))
        except subprocess.TimeoutExpired:
            sys.exit(f"{crate} had not ended after {layout.LIMIT} seconds")
    print(crate, ("prints the stored lines, unproved", "prints other lines than the stored ones, or ends with another status", "does not compile")[status])
    return status


def main():
    words = sys.argv[1:]
    flag = words.pop(0) if words[:1] in (["--try"], ["--lay"]) else ""
    if len(words) not in {"": (1, 2), "--try": (1,), "--lay": (2,)}[flag]:
        sys.exit(__doc__)
    crate = words[-1] if flag else words[0]
    if crate not in below.libraries():
        sys.exit(f"there is no crate {crate}")
    below.need_rt()
    if flag == "--try":
        return try_stored_run(crate)
    if flag == "--lay":
        if os.path.lexists(words[0]):
            sys.exit(f"{words[0]} is there already")
        os.makedirs(words[0])
        layout.lay_closure([crate], words[0])
        return 0
    home = os.path.join(below.TOP, "bin")
    os.makedirs(home, exist_ok=True)
    program = words[1] if len(words) == 2 else os.path.join(home, crate)
    return build(crate, program, os.path.relpath(os.path.join(home, f"{crate}.log")))


if __name__ == "__main__":
    sys.exit(main())
