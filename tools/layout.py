"""Lays crates out as a repository of their own, for tools/build.py and tools/planted.py."""
import os
import re
import shutil
import subprocess

import below

# How long a stored run may take, and with its compilation, in seconds.
RUN_LIMIT, LIMIT = 300, 600


def folder_of(crate):
    """The folder of a crate of CI, or of one that is kept as text."""
    return below.texts().get(crate) or os.path.join(below.TOP, "crates", crate)


def lay_crate(crate, folder, leave=()):
    """Copies a crate, without what `leave` names, to the folder crates/ of a repository.

    The files of a crate that is kept as text lose the ending .txt.
    """
    home = os.path.join(folder, "crates", crate)
    shutil.copytree(folder_of(crate), home, ignore=shutil.ignore_patterns("out", "crate.txt", *leave))
    for at, _, names in os.walk(home):
        for name in names:
            if name.endswith((".rt.txt", ".antt.txt")):
                os.rename(os.path.join(at, name), os.path.join(at, name.removesuffix(".txt")))


def lay_closure(crates, folder):
    """Lays crates and those below them out in a folder, without their mutants, and returns their names, lowest first."""
    needed = {name for crate in crates for name in below.closure(crate)}
    lines = {name: line for name, line in below.lines().items() if name in needed}
    for name in lines:
        lay_crate(name, folder, ("planted", "must-fail"))
    with open(os.path.join(folder, "crates.txt"), "w", encoding="utf-8") as out:
        out.write("\n".join(lines.values()) + "\n")
    shutil.copy(os.path.join(below.TOP, "HANDLES"), folder)
    # rt asks for the top of a repository.
    os.mkdir(os.path.join(folder, ".git"))
    return list(lines)


def stored(folder, name):
    """The bytes of a file of a crate's folder, or none if there is no such file."""
    path = os.path.join(folder, name)
    if not os.path.exists(path):
        return b""
    with open(path, "rb") as file:
        return file.read()


def run_unproved(folder):
    """How the stored run of the crate in this folder ends, without proofs.

    Returns 0 if it prints what is stored and ends with the stored status, 0 without one; 1 if it does something else or
    does not end; else 2.
    """
    words = stored(folder, "args").decode().splitlines()
    run = subprocess.run(
        ["rt", "try", "--steps", "1", "--seconds", str(RUN_LIMIT), "--", *words],
        cwd=folder,
        input=stored(folder, "stdin"),
        stdout=subprocess.PIPE,
        stderr=subprocess.PIPE,
        timeout=LIMIT,
    )
    ended = re.search(rb"^run=ended status=(\d+) ", run.stderr, re.M)
    if ended:
        wanted = int(stored(folder, "status") or 0)
        return 0 if run.stdout == stored(folder, "stdout") and int(ended[1]) == wanted else 1
    if b"did not end within the time limit" in run.stderr:
        return 1
    return 2 if run.returncode == 2 else 1
