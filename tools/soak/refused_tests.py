#!/usr/bin/env python3
"""Refuses memory to the tests that hold with and without a refusal, each allocation in turn.

usage: tools/soak/refused_tests.py PROGRAM

PROGRAM is bin/refused_tests, the tests of test_sync as `rt ci` builds them. A test whose name begins with `refused` repeats
a call that was refused memory, and fails if that call changed anything. It runs once to count its allocations, and then once
for each of them, which is refused. Each run has to pass.
"""
import os
import pathlib
import subprocess
import sys
import tempfile

from faults import shim_in

# How long a run may take, in seconds.
LIMIT = 60


def ran(program, shim, test, refused):
    """The status of a test, what it wrote, and how many allocations there were; 0 refuses none."""
    told, tell = os.pipe()
    run = subprocess.run(
        [program, test], stdout=subprocess.PIPE, stderr=subprocess.STDOUT, timeout=LIMIT, pass_fds=(tell,),
        env={**os.environ, "LD_PRELOAD": str(shim), "TELL": str(tell), "REFUSE": str(refused)},
    )
    os.close(tell)
    with os.fdopen(told) as counts:
        allocations = int((counts.read().split() or ["0"])[0])
    return run.returncode, run.stdout.decode(errors="replace"), allocations


def must_pass(program, shim, test, refused):
    """Runs a test, ends the soak if it fails, and returns how many allocations there were."""
    try:
        status, output, allocations = ran(program, shim, test, refused)
    except subprocess.TimeoutExpired:
        sys.exit(f"{test}, allocation {refused} refused: it had not ended after {LIMIT} seconds")
    if status != 0:
        sys.exit(f"{output}{test}, allocation {refused} refused: status {status}")
    return allocations


def tried(program, shim, test):
    """Refuses each allocation of the test in turn, and returns how many there are."""
    allocations = must_pass(program, shim, test, 0)
    for n in range(1, allocations + 1):
        must_pass(program, shim, test, n)
    return allocations


def main():
    program = pathlib.Path(sys.argv[1]).resolve()
    listed = subprocess.run([program, "--list"], stdout=subprocess.PIPE, text=True, check=True).stdout
    names = [line.removesuffix(": test") for line in listed.splitlines() if line.endswith(": test")]
    tests = [name for name in names if name.split("::")[-1].startswith("refused")]
    with tempfile.TemporaryDirectory() as folder:
        shim = shim_in(folder)
        counts = [tried(program, shim, test) for test in tests]
    if not all(counts):
        sys.exit("a test allocates nothing")
    print(f"{len(tests)} tests, of {sum(counts)} allocations each was refused in turn: all passed")


if __name__ == "__main__":
    main()
