#!/usr/bin/env python3
"""Runs the program before any proof, by `rt try`, and keeps what was built for it.

usage: tools/unproved.py PROGRAM [WORD ..] < INPUT

The program with these words reads the input. What rt built is kept as PROGRAM; it checks each step as it runs, so it is
slower than a proved one. The lines that rt writes about its runs are said in plain words, unless a run failed. The
status is that of rt.
"""
import os
import re
import shutil
import subprocess
import sys
import tempfile
import threading
import time

sys.dont_write_bytecode = True
import below

# What rt writes after the program's output.
ABOUT_RUNS = re.compile(r"(interpreter|checked|races|run)[:=] ?\S.*")
FOLDER = os.path.join(below.TOP, "crates", "monoio")


def keep(work, kept):
    """Links the program that stands in the folder of work, once one does; says whether one was kept."""
    for at, _, names in os.walk(work):
        path = os.path.join(at, "program")
        if "program" in names and os.access(path, os.X_OK):
            try:
                os.link(path, kept)
            except OSError:
                continue
            return True
    return False


def pass_on(source, to, about):
    """Copies a stream of rt, and keeps its lines about the runs."""
    for line in source:
        if ABOUT_RUNS.fullmatch(line.rstrip("\n")):
            about.append(line)
        else:
            to.write(line)
            to.flush()


def say(about):
    """Says in plain words how the runs ended; if one failed, in those of rt."""
    ended = re.search(r"^run=ended status=(\d+) runners=([12])\b", "".join(about), re.M)
    if ended:
        runs = ["It was built with a check of each step, and",
                "It ran twice, interpreted and built with a check of each step, and both runs"][int(ended[2]) - 1]
        print(f"This was the output of the program. {runs} ended with status {ended[1]}. Nothing is proved yet: "
              "`make build` does that.")
    else:
        sys.stderr.write("".join(about))


def main():
    below.need_rt()
    program = os.path.abspath(sys.argv[1])
    os.makedirs(os.path.dirname(program), exist_ok=True)
    with tempfile.TemporaryDirectory(prefix="unproved-", dir=os.path.dirname(program)) as folder:
        work, kept = os.path.join(folder, "work"), os.path.join(folder, "program")
        os.mkdir(work)
        run = subprocess.Popen(
            ["rt", "try", "--", *sys.argv[2:]], cwd=FOLDER, env={**os.environ, "TMPDIR": work},
            stdout=subprocess.PIPE, stderr=subprocess.PIPE, text=True)
        about = []
        copies = [threading.Thread(target=pass_on, args=(*streams, about))
                  for streams in ((run.stdout, sys.stdout), (run.stderr, sys.stderr))]
        for copy in copies:
            copy.start()
        # rt removes the program soon after it has run, so it is looked for until it is there.
        is_kept = False
        while run.poll() is None:
            is_kept = is_kept or keep(work, kept)
            time.sleep(0.2 if is_kept else 0.01)
        for copy in copies:
            copy.join()
        say(about)
        if is_kept:
            shutil.copy2(kept, program)
            os.chmod(program, 0o755)
            print(f"The unproved program is kept as {os.path.relpath(program)}.")
        else:
            print("rt left no program to keep", file=sys.stderr)
    return run.returncode


if __name__ == "__main__":
    sys.exit(main())
