#!/usr/bin/env python3
"""Runs the tests of threads again and again for some seconds: parks, pools, inboxes, and runtimes against each other.

usage: tools/soak/threads.py [SECONDS]

`rt try --test` builds the tests, unproved, with checks and with AddressSanitizer. A kit has no ThreadSanitizer, so
valgrind's helgrind looks for races between threads, if it is installed. That build runs every test once, and on a copy of
the tests also the larger ones of LARGER, once each. Then the other tests are drawn at random until the time is over, and
each drawn test runs once under helgrind and ten times without. The soak ends at the first run that fails or takes ten
minutes.
"""
import os
import random
import re
import shutil
import subprocess
import sys
import tempfile
import time

sys.dont_write_bytecode = True
sys.path.insert(0, os.path.join(os.path.dirname(os.path.abspath(__file__)), ".."))
import below
from unproved import keep

CRATES = ("test_threads", "test_runtime")
HELGRIND = ("valgrind", "-q", "--tool=helgrind", "--error-exitcode=99")
LIMIT = 600

PLAN = "Plan {{ workers: {}, after: 0, first: 2, jobs: 64, between: Between::Nothing }},"
PLANS = "\n".join(PLAN.format(workers) for workers in range(1, 33))
# Larger tests of test_threads, in modules of their own: the module, its test, and what replaces which text.
LARGER = {
    "million_parks": ("parkers", "a_token_goes_to_and_fro", "TURNS: u64 = 100_000;", "TURNS: u64 = 1_000_000;"),
    "pools_to_32": ("pools", "workers_run_all", "PLANS: [Plan; 8] = [", f"PLANS: [Plan; 40] = [\n{PLANS}"),
    **{
        f"wakes_by_{threads}": ("wakes", "four_threads_wake_eight_tasks", "THREADS: u64 = 4;", f"THREADS: u64 = {threads};")
        for threads in (8, 16, 32, 64)
    },
}


def enlarge(source):
    """Adds the larger tests to the sources of test_threads."""
    with open(os.path.join(source, "lib.rt"), "a", encoding="utf-8") as root:
        for name, (module, test, old, new) in LARGER.items():
            root.write(f"#[cfg(test)]\nmod {name};\n")
            with open(os.path.join(source, f"{module}.rt"), encoding="utf-8") as file:
                text = file.read()
            if text.count(old) != 1 or f"#[test]\nfn {test}(" not in text:
                sys.exit(f"{module}.rt: it lacks {old} or {test}")
            text = re.sub(rf"#\[test\]\nfn (?!{test}\().*?\n}}\n", "", text.replace(old, new), flags=re.S)
            with open(os.path.join(source, f"{name}.rt"), "w", encoding="utf-8") as file:
                file.write(text)


def copied(folder):
    """Returns the crates of a copy of the repository, with the larger tests."""
    copy = os.path.join(folder, "copy")
    shutil.copytree(below.TOP, copy, ignore=shutil.ignore_patterns("out", ".git", "bin"))
    subprocess.run(["git", "init", "-q", copy], check=True)
    crates = os.path.join(copy, "crates")
    enlarge(os.path.join(crates, "test_threads", "src"))
    return crates


def built(crates, crate, folder):
    """Runs the tests of a crate once, and returns the path of their program."""
    work, kept = os.path.join(folder, "work-" + crate), os.path.join(folder, crate)
    os.mkdir(work)
    words = ["rt", "try", "--test", "--seconds", str(LIMIT)]
    place = os.path.join(crates, crate)
    run = subprocess.Popen(words, cwd=place, env={**os.environ, "TMPDIR": work}, stdout=sys.stderr)
    is_kept = False
    while run.poll() is None:
        is_kept = is_kept or keep(work, kept)
        time.sleep(0.2 if is_kept else 0.01)
    if run.returncode != 0 or not is_kept:
        sys.exit(f"{crate}: the tests failed, or rt left no program to keep")
    # valgrind can't read the debug data of these programs
    if shutil.which("strip"):
        subprocess.run(["strip", "-g", "-o", kept + "-stripped", kept], check=True)
        return kept + "-stripped"
    return kept


def tests(program):
    """The commands that run one test each."""
    listed = subprocess.run([program, "--list"], stdout=subprocess.PIPE, text=True, check=True).stdout
    names = [line.removesuffix(": test") for line in listed.splitlines() if line.endswith(": test")]
    return [(program, name) for name in names if not any(larger in name for larger in LARGER)]


def must_pass(words):
    """Runs a test, and ends the soak if it fails."""
    try:
        run = subprocess.run(words, stdout=subprocess.PIPE, stderr=subprocess.STDOUT, timeout=LIMIT)
    except subprocess.TimeoutExpired:
        sys.exit(f"{' '.join(words)}: no end within {LIMIT} seconds")
    if run.returncode != 0:
        sys.exit(f"{run.stdout.decode(errors='replace')}{' '.join(words)}: status {run.returncode}")


def soak(commands, seconds):
    """Runs the tests until the time is over, and returns how many runs there were, and how many under helgrind."""
    plain, watched, end = 0, 0, time.monotonic() + seconds
    while time.monotonic() < end:
        words = random.choice(commands)
        if shutil.which("valgrind"):
            must_pass((*HELGRIND, *words))
            watched += 1
        for _ in range(10):
            must_pass(words)
            plain += 1
    return plain, watched


def main():
    seconds = float(sys.argv[1]) if len(sys.argv) > 1 else 60
    below.need_rt()
    with tempfile.TemporaryDirectory(prefix="threads-") as folder:
        crates = copied(folder)
        commands = [words for crate in CRATES for words in tests(built(crates, crate, folder))]
        print("once each: " + ", ".join(LARGER), flush=True)
        plain, watched = soak(commands, seconds)
    print(f"{len(commands)} tests of threads: {plain} runs, and {watched} under helgrind; all with AddressSanitizer")


if __name__ == "__main__":
    main()
