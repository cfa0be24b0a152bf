#!/usr/bin/env python3
"""Runs the program with one call of the system that fails, for each call in turn, and checks how it ends.

usage: tools/soak/faults.py PROGRAM

PROGRAM is bin/monoio. Inputs are the examples and the rows below. Each allocation is refused in turn: the program ends with
status 6 and no output, or as if nothing had been refused. Each read fails in turn: status 4 and no output. Each write fails in
turn: status 5 and the first bytes of the output. Reads and writes of at most 1, 2 and 7 bytes change nothing.
"""
import os
import pathlib
import subprocess
import sys
import tempfile

TOP = pathlib.Path(__file__).resolve().parent.parent.parent
WORDS = "replay attached 16 16 16"
ROWS = (
    # the order of refusals of a join
    (WORDS, "spawn\nspawn\nturn; join 1; pending\nturn; ready 9\nturn; join 1; join 1; drop-join 1; join 1; join 5; pending\n"),
    # the three strategies
    ("replay panic 4 4 4", "block 3\n"),
    ("replay local 4 4 4", "spawn\nturn; block 3; job 0; pending\njob-end 0 ran\n"),
    (
        "replay attached 4 4 4",
        "spawn\nturn; block 3; job 0; pending\njob-end 0 canceled\nremote 0\ndrain\nturn; job 0; drop-job 0; job-end 0 ran; ready 1\n",
    ),
    # a script of a main task with two children that sleep
    (
        "run 0 1000",
        "limits 16 16 16\ntask\nspawn 1\nspawn 1\njoin 0\njoin 1\ndone 3\ntask\nawait-sleep 1000000\ndone 7\n",
    ),
    # past the first room of each table
    ("replay attached 999 999 999", "spawn\nblock 1\nsleep 5000000\n" * 300 + "turn; poll 0; poll 1; pending\nclock 9000000\n"),
    # a bad line, no command, and one that reads nothing
    (WORDS, "spawn\nspawm\n"),
    ("replay x 1 1 1", "spawn\n"),
    ("load 7 40", ""),
)


def inputs():
    yield from ROWS
    for path in sorted((TOP / "examples").glob("*.events")):
        words = path.with_suffix(".words")
        call = words.read_text().strip() if words.exists() else WORDS
        # A command that follows has written answers before the call that fails.
        if "--follow" not in call:
            yield call, path.read_text()


class Ended:
    def __init__(self, program, shim, words, text, **faults):
        told, tell = os.pipe()
        given = {name: str(number) for name, number in faults.items()}
        run = subprocess.Popen(
            [program, *words.split(" ")], stdin=subprocess.PIPE, stdout=subprocess.PIPE, stderr=subprocess.DEVNULL,
            env={**os.environ, **given, "LD_PRELOAD": str(shim), "TELL": str(tell)}, pass_fds=(tell,),
        )
        os.close(tell)
        self.output = run.communicate(text.encode(), timeout=60)[0]
        self.status = run.returncode
        with os.fdopen(told) as counts:
            self.allocations, self.reads, self.writes, _ = map(int, counts.read().split())


def faults_of(plain):
    yield from (({"REFUSE": n}, 6) for n in range(1, plain.allocations + 1))
    yield from (({"READ": n}, 4) for n in range(1, plain.reads + 1))
    yield from (({"WRITE": n}, 5) for n in range(1, plain.writes + 1))
    yield from (({"SHORT": n}, None) for n in (1, 2, 7))


def is_right(plain, run, status):
    if (run.status, run.output) == (plain.status, plain.output):
        return status in (None, 6)
    return run.status == status and (not run.output if status != 5 else plain.output.startswith(run.output) and run.output != plain.output)


def shim_in(folder):
    """The shim that makes one call fail, built in the folder."""
    shim = pathlib.Path(folder) / "faulty.so"
    subprocess.run(["cc", "-O1", "-shared", "-fPIC", "-o", shim, TOP / "tools/soak/faulty.c", "-ldl"], check=True)
    return shim


def main():
    program = pathlib.Path(sys.argv[1]).resolve()
    runs = refused = 0
    with tempfile.TemporaryDirectory() as folder:
        shim = shim_in(folder)
        for words, text in inputs():
            plain = Ended(program, shim, words, text)
            for faults, status in faults_of(plain):
                run = Ended(program, shim, words, text, **faults)
                if not is_right(plain, run, status):
                    print(f"{words}: {faults}: status {run.status}, output {run.output!r}, and not as status {plain.status}, output {plain.output!r}")
                    return 1
                runs += 1
                refused += run.status == 6
    print(f"{runs} runs with one fault each, {refused} of them out of memory: each ended as it is to")
    return 0


if __name__ == "__main__":
    sys.exit(main())
