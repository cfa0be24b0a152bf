#!/usr/bin/env python3
"""Runs scripts made from a seed, with 0, 1 and 4 workers, and has each journal checked.

usage: tools/soak/scripts.py PROGRAM [RUNS [SEED]]

PROGRAM is bin/monoio. Each run ends by itself within a minute; it ends with status 0, where its last line is `main O`, or with
8 or 10, where it is not; and `check` says of its journal that it is a run of the machine, `check --whole` that it is whole.
"""
import random
import subprocess
import sys
import time


def body(draw, kinds):
    lines, groups = [], {"spawn": [], "block": []}
    for _ in range(draw.randrange(9)):
        form = draw.choice(("spawn", "join", "detach", "await-sleep", "block", "await-job", "drop-job", "yield"))
        group = groups["spawn" if form in ("spawn", "join", "detach") else "block"]
        if form in ("join", "detach", "await-job", "drop-job"):
            if not group:
                continue
            lines.append(f"{form} {group.pop(draw.randrange(len(group)))}")
        elif form == "spawn":
            group.append(sum(line.startswith("spawn ") for line in lines))
            lines.append(f"spawn {draw.randrange(kinds)}")
        elif form == "block":
            group.append(sum(line.startswith("block ") for line in lines))
            lines.append(f"block {draw.randrange(100)}")
        elif form == "await-sleep":
            lines.append(f"await-sleep {draw.choice((0, 1, 999999, 1000000, 3000001, 5000000))}")
        else:
            lines.append("yield")
    return lines


def script(draw):
    limits = [draw.choice((0, 1, 3, 16, 64)) for _ in range(3)]
    kinds = draw.randrange(1, 5)
    lines = ["limits " + " ".join(map(str, limits))]
    for _ in range(kinds):
        lines += ["task", *body(draw, kinds), f"done {draw.randrange(100)}"]
    return limits, "".join(line + "\n" for line in lines)


def is_right(program, limits, run):
    last = run.stdout.splitlines()[-1] if run.stdout else ""
    if run.returncode not in (0, 8, 10) or (run.returncode == 0) != last.startswith("main "):
        return False
    for form in ([], ["--whole"]):
        words = [program, "check", *form, "attached", *map(str, limits)]
        check = subprocess.run(words, input=run.stdout, capture_output=True, text=True, timeout=60)
        if (check.returncode, check.stdout) != (0, "yes\n"):
            return False
    return True


def main():
    program = sys.argv[1]
    runs = int(sys.argv[2]) if len(sys.argv) > 2 else 1000
    seed = int(sys.argv[3]) if len(sys.argv) > 3 else int(time.time())
    draw = random.Random(seed)
    ends = {0: 0, 8: 0, 10: 0}
    for number in range(runs):
        limits, text = script(draw)
        words = [program, "run", str(draw.choice((0, 1, 4))), str(draw.choice((10, 100, 1000)))]
        run = subprocess.run(words, input=text, capture_output=True, text=True, timeout=60)
        if not is_right(program, limits, run):
            print(f"seed {seed}, run {number}: {' '.join(words[1:])} ended with {run.returncode}")
            print(text, run.stdout, run.stderr, sep="\n--- answered\n")
            return 1
        ends[run.returncode] += 1
    print(f"seed {seed}: {runs} scripts, ended with {ends}, each journal a run of the machine")
    return 0


if __name__ == "__main__":
    sys.exit(main())
