"""Runs the kit's prover on a crate with edited texts, for tools/planted.py."""
import importlib.machinery
import importlib.util
import os
import re
import shutil
import subprocess
import sys
import tempfile
import threading

import below
import layout
import progress
from edits import PARTS

FUNCTION = re.compile(r"^fn (\S+): (.*)$", re.M)
ENDED = re.compile(r"^(?:only=\d+|holes=\d+|logic=)", re.M)
UNKNOWN = re.compile(r"has no function `([^`]+)`")
# What the prover says of a function that may be right but rests on one that is not proved.
RESTS = re.compile(r"^(?:no proof: it calls |depends on )")
# An error of a text that the prover cannot read, and one in a proof that only misses a name.
UNREAD = re.compile(r"is not in scope|has no field|is no name|operand is missing|expected the end|cannot continue")
MISSES = re.compile(r"has no field|is not in scope|has no `|was not admitted")
PLACE = re.compile(r"^(?:note: )?(?:\./)?(\S+?):(\d+):\d+: (.*)$")
# The break of a long line before its last words.
WRAPPED = re.compile(r"\n  (?=has no |is not in scope|was not admitted)")
# Rattle's words for a limit of its own.
LIMIT = re.compile(r"antt ran out of |outgrew the memory limit|stopped at the step limit")


def kit():
    """The library of the command rt, which lies beside it."""
    path = os.path.join(os.path.dirname(os.path.realpath(shutil.which("rt"))), "rtlib.py")
    loader = importlib.machinery.SourceFileLoader("rtlib", path)
    made = importlib.util.module_from_spec(importlib.util.spec_from_loader("rtlib", loader))
    sys.modules["rtlib"] = made
    loader.exec_module(made)
    return made


def free_memory():
    """The memory that is free, in bytes."""
    with open("/proc/meminfo", encoding="ascii") as lines:
        return next(int(line.split()[1]) * 1024 for line in lines if line.startswith("MemAvailable"))


def link_or_copy(one, other):
    """Links a file that a check replaces and never changes, and copies any other."""
    if one.endswith(".oantt"):
        os.link(one, other)
    else:
        shutil.copy2(one, other)


def take(library, folder):
    """Links a library that is built in a folder."""
    os.makedirs(os.path.dirname(library.rlib), exist_ok=True)
    os.symlink(os.path.abspath(os.path.join(folder, f"{library.name}.rlib")), library.rlib)


def is_taken(library, built):
    """Takes a library that is built in the folder `built`; says whether there is one."""
    if not os.path.lexists(library.rlib):
        if not built or not os.path.isdir(os.path.join(built, f"{library.name}.rlib")):
            return False
        take(library, built)
    return True


def crate_of(rtlib, copy, name):
    """A crate of a copy of the repository."""
    return rtlib.Crate(os.path.join(copy, "crates", name), copy, {})


def take_libraries(rtlib, copy, names, built):
    """Takes the libraries below these crates: as they are built in the folder `built`, or as one run of `rt ci` proves them."""
    below_them = {it.name: it for name in names for it in crate_of(rtlib, copy, name).below()}
    lacking = [it for it in below_them.values() if not is_taken(it, built)]
    if not lacking:
        return
    folder = tempfile.mkdtemp(prefix="libraries-", dir=os.path.dirname(copy))
    log = os.path.join(below.TOP, "bin", "planted.log")
    os.makedirs(os.path.dirname(log), exist_ok=True)
    if progress.run_ci(folder, layout.lay_closure([it.name for it in lacking], folder), log) != 0:
        sys.exit("a library below the crates is not proved")
    for library in lacking:
        take(library, os.path.join(folder, "crates", library.name, "out", "rlib"))


class Prover:
    """Checks one crate of a copy of the repository, over libraries that were taken.

    What is checked once is kept for the next checks of a worker.
    """

    def __init__(self, rtlib, copy, name):
        self.rtlib = rtlib
        self.crate = crate_of(rtlib, copy, name)
        self.kept = tempfile.mkdtemp(prefix="kept-", dir=os.path.dirname(copy))
        self.memory = threading.Lock()

    def check(self, worker, texts, only, holes=True):
        """Checks the crate, with its tests, with these texts in place of its own: all of it, or the named functions alone.

        Returns the status and what the prover printed.
        """
        kept = os.path.join(self.kept, str(worker))
        os.makedirs(kept, exist_ok=True)
        flags = ["--jobs", "1", "--incremental", kept, *(["--allow-holes"] if holes else [])]
        flags += ["--test"] * self.crate.has_tests()
        for path in only or ():
            flags += ["--only", f"{self.crate.name}::{path}"]
        self.wait_for_memory()
        with tempfile.TemporaryDirectory(prefix="edited-", dir=self.kept) as room:
            for part in PARTS:
                if os.path.isdir(os.path.join(self.crate.folder, part)):
                    shutil.copytree(os.path.join(self.crate.folder, part), os.path.join(room, part))
            for path, text in texts.items():
                with open(os.path.join(room, path), "w", encoding="utf-8") as out:
                    out.write(text)
            words = [self.rtlib.RATTLE, "check", *self.crate.words(flags, keeps=False)]
            run = subprocess.run(
                words, cwd=room, stdin=subprocess.DEVNULL, stdout=subprocess.PIPE, stderr=subprocess.STDOUT,
                encoding="utf-8", errors="replace",
            )
        return run.returncode, run.stdout

    def share(self, jobs):
        """Gives each other worker what the first has checked."""
        os.makedirs(os.path.join(self.kept, "0"), exist_ok=True)
        for worker in range(1, jobs):
            shutil.copytree(
                os.path.join(self.kept, "0"), os.path.join(self.kept, str(worker)), symlinks=True,
                copy_function=link_or_copy, dirs_exist_ok=True,
            )

    def wait_for_memory(self):
        with self.memory:
            need = min(self.crate.need() // 2, 4_000_000_000)
            for _ in range(600):
                if free_memory() > need:
                    return
                threading.Event().wait(1)


class Told:
    """What a check said of functions."""

    def __init__(self, crate, status, text):
        self.crate, self.status, self.text = crate, status, text
        self.functions = dict(FUNCTION.findall(text))
        self.has_ended = status in (0, 1, 3) and ENDED.search(text) is not None

    def unknown(self):
        """The functions that were asked for and are none of the crate, by their paths below it."""
        return {name.removeprefix(self.crate + "::") for name in UNKNOWN.findall(self.text)}

    def of(self, path):
        """What is said of the functions with this path, or in the module of this path."""
        whole = f"{self.crate}::{path}"
        return [said for name, said in self.functions.items() if name == whole or name.startswith(whole + "::")]

    def errors(self):
        return [line for line in WRAPPED.sub(" ", self.text).split("\n") if PLACE.match(line)]

    def limit(self):
        """The line about a limit of the prover."""
        return next((line for line in self.text.split("\n") if LIMIT.search(line)), "")

    def reason(self, functions=None):
        """The first line about one of these functions, and whether its like say only that a proof misses a name."""
        lines = [line for line in self.errors() if ": error" in line or line.startswith("note: ")]
        if functions is not None:
            lines = [line for line in lines if any(is_about(PLACE.match(line), *of) for of in functions.items())]
        firm = [line for line in lines if not misses_a_name(line)]
        return (firm or lines or [""])[0], bool(lines) and not firm

    def unread(self, changed):
        """The first line about a text that the prover cannot read: of src/ or specs/, or a changed one."""
        for line in self.errors():
            found = PLACE.match(line)
            if found[1].startswith(("src/", "specs/")) or found[1] in changed:
                said = found[3]
                if re.match(r"error(\[|:)", said) and (not re.match(r"error: `", said) or UNREAD.search(said)):
                    return line
        return None


def misses_a_name(line):
    """Whether the line says that a proof names what the edit took away."""
    return PLACE.match(line)[1].startswith("proofs/") and MISSES.search(line) is not None


def is_about(place, path, of):
    """Whether a line's place is in the function: in the lines of its source, or in the folder of its proof."""
    file, first, last = of
    if place[1] == file:
        return first <= int(place[2]) <= last
    return place[1].startswith("proofs/" + path.replace("::", "/") + "/")
