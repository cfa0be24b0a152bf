#!/usr/bin/env python3
"""Replays inputs made from a seed, malformed ones among them, and checks each report line by an independent machine.

Events and reports, joined to a journal, must pass `check`; with one report changed the independent machine says which
line must be named, or that the other report is allowed too.

usage: tools/soak/soak.py PROGRAM [SECONDS [SEED]]

PROGRAM is bin/monoio. It ends after SECONDS (default 60), or at the first input whose answer is wrong, which it prints.
"""
import random
import subprocess
import sys
import time

from journals import joined, verdict, with_one_changed
from machine import BadLine, Machine, parse

STRATEGIES = ("attached", "local", "panic")
TICKS = (0, 1, 2, 63, 64, 65, 4095, 4096, 2**36, 2**36 + 2**31, 2**42, 2**63 - 1, 2**63)


def nanos(draw, near):
    tick = draw.choice((draw.randrange(100), draw.randrange(10**6), near, near + draw.randrange(1, 70), draw.choice(TICKS)))
    return max(0, tick * 10**6 + draw.choice((-1, 0, 0, 0, 1, 999999)))


def act(draw, near, turn):
    some = draw.randrange(8)
    forms = [
        "spawn", f"wake {some}", f"sleep {nanos(draw, near)}", f"reset {some} {nanos(draw, near)}", f"drop-sleep {some}",
        f"elapsed {some}", f"drop-join {some}", f"finished {some}", f"block {draw.randrange(99)}", f"drop-job {some}",
        f"job-finished {some}", f"job-end {some} {draw.choice(('ran', 'canceled'))}",
    ]
    if turn:
        forms += [f"poll {some}", f"poll {some}", f"join {some}", f"join {some}", f"job {some}"]
    return draw.choice(forms)


def event(draw, near):
    kind = draw.random()
    if kind < 0.5:
        steps = [act(draw, near, True) for _ in range(draw.randrange(7))]
        end = "pending" if draw.random() < 0.75 else f"ready {draw.randrange(2**64)}"
        return "; ".join(["turn", *steps, end])
    if kind < 0.65:
        return f"clock {nanos(draw, near)}"
    if kind < 0.75:
        return draw.choice((f"remote {draw.randrange(8)}", "drain"))
    return "spawn" if kind < 0.85 else act(draw, near, False)


def spoil(draw, line):
    return draw.choice((
        line + " ", " " + line, line.replace(" ", "  ", 1) + "x", "", line.upper(), line + "\r", "turn", "turn; pending; pending",
        "wake 00", "wake 18446744073709551616", "poll 0", "sleep 340282366920938463463374607431768211456",
    ))


def made(draw):
    near = 0
    lines = []
    for _ in range(draw.randrange(1, 120)):
        near += draw.randrange(40)
        lines.append(event(draw, near))
    text = "".join(line + "\n" for line in lines)
    if draw.random() < 0.2:
        place = draw.randrange(len(lines))
        lines[place] = spoil(draw, lines[place])
        text = "".join(line + "\n" for line in lines)
    if draw.random() < 0.05:
        text = text[:-1]
    return text


def first_bad(text):
    *lines, rest = text.split("\n")
    for place, line in enumerate(lines, 1):
        try:
            parse(line)
        except BadLine:
            return place
    return len(lines) + 1 if rest else None


def is_right(words, text, run):
    bad = first_bad(text)
    if bad is not None:
        return run.returncode == 3 and run.stdout == f"bad line {bad}\n"
    machine = Machine(words[1], *(int(word) for word in words[2:]))
    events = text.split("\n")[:-1]
    reports = run.stdout.split("\n")
    return (
        run.returncode == 0 and len(reports) == len(events) + 1 and reports[-1] == ""
        and all(machine.check(line, report) for line, report in zip(events, reports))
    )


def answer(program, words, text):
    return subprocess.run([program, *words], input=text, capture_output=True, text=True, timeout=60)


def wrong_journal(draw, program, words, text, reports):
    """A journal of these events and reports that is answered wrongly, with its answer; or none."""
    reports = reports.split("\n")[:-1]
    lines = joined(text.split("\n")[:-1], reports)
    for journal in (lines, with_one_changed(draw, lines, reports)):
        wanted = ("yes\n", 0) if journal is lines else verdict(words, journal)
        run = answer(program, ["check", *words[1:]], "".join(line + "\n" for line in journal))
        if (run.stdout, run.returncode) != wanted:
            return journal, run
    return None


def main():
    program = sys.argv[1]
    seconds = float(sys.argv[2]) if len(sys.argv) > 2 else 60
    seed = int(sys.argv[3]) if len(sys.argv) > 3 else int(time.time())
    draw = random.Random(seed)
    end = time.time() + seconds
    inputs = lines = journals = 0
    while time.time() < end:
        words = ["replay", draw.choice(STRATEGIES), *(str(draw.choice((0, 1, 3, 16))) for _ in range(3))]
        text = made(draw)
        run = answer(program, words, text)
        if not is_right(words, text, run):
            print(f"seed {seed}, input {inputs}: wrong answer to {' '.join(words)}, status {run.returncode}")
            print(text, run.stdout, sep="\n--- answered\n")
            return 1
        if run.returncode == 0:
            wrong = wrong_journal(draw, program, words, text, run.stdout)
            if wrong is not None:
                print(f"seed {seed}, input {inputs}: wrong answer to a check {' '.join(words[1:])}, status {wrong[1].returncode}")
                print(*wrong[0], "--- answered", wrong[1].stdout, sep="\n")
                return 1
            journals += 1
        inputs += 1
        lines += text.count("\n")
    print(f"seed {seed}: {inputs} inputs of {lines} lines and {journals} journals, each also with one report changed: all answered rightly")
    return 0


if __name__ == "__main__":
    sys.exit(main())
