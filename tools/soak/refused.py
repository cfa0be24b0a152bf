#!/usr/bin/env python3
"""Refuses memory to each library call that promises to leave its object as it was, and looks at the object afterwards.

usage: tools/soak/refused.py PROGRAM [CALL ..]

PROGRAM is bin/refused, built from test_out_of_memory, which is kept here as text. It makes a call many times, each once more
where it was refused, and looks at the object between the two. Each allocation of a run is refused in turn: the run ends as
if nothing had been refused, but for one call that was made twice; or with status 6 or 1 and no output, where memory was
refused to the object's making or to the printing. A run that loses a wake ends with status 3, or parks for ever.
"""
import os
import pathlib
import subprocess
import sys
import tempfile

from faults import shim_in

CALLS = (
    "push", "list", "spawn", "add", "fire", "node", "key", "know", "drain", "record", "register", "make", "open", "acquire",
    "bucket", "retry", "hire", "send", "tick", "join", "try", "select", "enter", "wake", "child", "block",
    "sleep", "interval", "timeout", "attempt",
)
TIMES = 300
# How long a run may take, in seconds.
LIMIT = 60


def ran(program, shim, call, **given):
    told, tell = os.pipe()
    run = subprocess.run(
        [program, call, str(TIMES)], capture_output=True, timeout=LIMIT, pass_fds=(tell,),
        env={**os.environ, **{name: str(n) for name, n in given.items()}, "LD_PRELOAD": str(shim), "TELL": str(tell)},
    )
    os.close(tell)
    with os.fdopen(told) as counts:
        allocations = int(counts.read().split()[0])
    return run.returncode, run.stdout.decode(), allocations


def tried(program, shim, call):
    """How many calls were refused, of how many allocations."""
    status, output, allocations = ran(program, shim, call)
    assert (status, output) == (0, f"{call}: 0 refused\n"), f"{call}: {status} {output}"
    refused = 0
    for n in range(1, allocations + 1):
        try:
            status, output, _ = ran(program, shim, call, REFUSE=n)
        except subprocess.TimeoutExpired:
            sys.exit(f"{call}, allocation {n} refused: it had not ended after {LIMIT} seconds")
        if (status, output) == (0, f"{call}: 1 refused\n"):
            refused += 1
        elif (status, output) != (0, f"{call}: 0 refused\n") and (status not in (1, 6) or output):
            sys.exit(f"{call}, allocation {n} refused: status {status}, {output!r}")
    assert refused, f"{call}: no call was ever refused"
    return refused, allocations


def main():
    program = pathlib.Path(sys.argv[1]).resolve()
    calls = sys.argv[2:] or CALLS
    with tempfile.TemporaryDirectory() as folder:
        shim = shim_in(folder)
        for call in calls:
            refused, allocations = tried(program, shim, call)
            print(f"{call}: {TIMES} calls, of {allocations} allocations {refused} were refused to one: it left its object as it was", flush=True)


if __name__ == "__main__":
    main()
