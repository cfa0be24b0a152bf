#!/usr/bin/env python3
"""Writes the long examples: one of each command, with the output that the models in this folder give.

usage: tools/soak/large.py INPUT OUTPUT

Appends the examples to the two files in the form of docs/FORMATS.md, "Tables of rows". What is written depends on a fixed
seed alone. Each replay, run, sessions, limiter and actors example has at least 2,000 lines and 100 KB of output.
"""
import random
import sys

from machine import TICK, Machine, parse
from services import Actors, Limiter, Script, Sessions, Unsure

LINES, BYTES = 2000, 102400
# How many sleeps each of 300 tasks has.
OWN = 8


def size(lines):
    return sum(len(line) + 1 for line in lines)


def is_enough(lines):
    return len(lines) >= LINES and size(lines) >= BYTES


def calls(model, draw, call_of):
    """Calls that a function draws, and their answers, until there are enough. No two waits end at one tick."""
    asked, told = [], []
    while not is_enough(told):
        line = call_of(model, draw)
        try:
            answer = model.answer(line)
        except Unsure:
            continue
        asked.append(line)
        told.append(answer)
    return asked, told


def free_wait(model, draw, now, most):
    """A wait from now that ends at a tick at which no other does."""
    taken = set(model.ticks())
    while True:
        ticks = draw.randrange(1, most)
        if now + ticks not in taken:
            return ticks


def session_call(model, draw):
    some = draw.choice(list(model.open) or [0]) if draw.random() < 0.9 else draw.randrange(model.next + 2)
    kind = draw.random()
    if kind < 0.25:
        return f"open {free_wait(model, draw, model.now, 5000)}"
    if kind < 0.4:
        last = model.open.get(some)
        if last is None or model.now + last[1] not in model.ticks():
            return f"beat {some}"
        return f"owner {draw.randrange(40)}"
    if kind < 0.45:
        return f"close {some}"
    if kind < 0.7:
        return f"acquire {some} {draw.randrange(40)}"
    if kind < 0.8:
        return f"release {some} {draw.randrange(40)}"
    if kind < 0.97:
        return f"owner {draw.randrange(40)}"
    return f"clock {(model.now + draw.randrange(300)) * TICK + draw.randrange(TICK)}"


def limiter_call(model, draw):
    some = draw.choice(list(model.retries) or [0]) if draw.random() < 0.9 else draw.randrange(model.next + 2)
    kind = draw.random()
    if kind < 0.05:
        return f"bucket {draw.randrange(1, 50)} {draw.randrange(1, 100)}"
    if kind < 0.45:
        return f"take {draw.randrange(len(model.buckets) + 1)} {draw.randrange(1, 20)}"
    if kind < 0.6:
        return f"retry {draw.randrange(1, 50)} {draw.randrange(50, 5000)} {draw.randrange(1, 12)}"
    if kind < 0.9:
        retry = model.retries.get(some)
        if retry is None or model.now + min(retry["cap"], retry["base"] * 2**retry["failed"]) not in model.ticks():
            return f"fail {some}"
        return f"done {some}"
    if kind < 0.95:
        return f"done {some}"
    return f"clock {(model.now + draw.randrange(60)) * TICK + draw.randrange(TICK)}"


def actor_call(model, draw):
    live = list(model.live) or [0]

    def some():
        return draw.choice(live) if draw.random() < 0.95 else draw.randrange(model.next + 2)

    kind = draw.random()
    if kind < 0.1:
        return "actor"
    if kind < 0.25:
        return f"send {some()} {some()} {draw.randrange(1000)}"
    if kind < 0.35:
        return f"timeout {some()} {free_wait(model, draw, model.now, 3000)}"
    if kind < 0.45:
        return f"clock {(model.now + draw.randrange(100)) * TICK + draw.randrange(TICK)}"
    front = model.live[model.queue[0]] if model.queue else None
    if front and not front["mail"][1:] and model.now + front["timeout"] in model.ticks():
        return f"timeout {model.queue[0]} {free_wait(model, draw, model.now, 3000)}"
    sends = [f"send {some()} {draw.randrange(1000)}" for _ in range(draw.randrange(6))]
    return "; ".join(["turn", *sends, "stop" if draw.random() < 0.1 else "stay"])


def report_of(machine, line):
    """The report of an event, and none if more than one is allowed."""
    event = parse(line)
    if event[0] == "turn":
        return machine.turn(event[1], event[2])
    if event[0] == "clock":
        now = max(machine.greatest, event[1] // TICK)
        due = [
            (entry["tick"], entry["arm"], number, entry["moved"]) for number, entry in enumerate(machine.sleeps)
            if entry and entry["state"] == "armed" and entry["tick"] <= now
        ]
        moved = {tick for tick, _, _, is_moved in due if is_moved}
        if any(sum(entry[0] == tick for entry in due) > 1 for tick in moved):
            return None
        report = " ".join(["fired", *(str(entry[2]) for entry in sorted(due))])
        assert machine.may_fire(event[1], report)
        return report
    if event[0] in ("remote", "drain"):
        return getattr(machine, event[0])(*event[1:])
    return machine.act(event)


def live(table):
    return [number for number, entry in enumerate(table) if entry is not None]


def step_of(machine, draw):
    def some(table):
        there = live(table)
        return draw.choice(there) if there and draw.random() < 0.95 else draw.randrange(len(table) + 2)

    now = machine.greatest
    tick = now + draw.choice((draw.randrange(1, 64), draw.randrange(1, 5000), draw.randrange(1, 10**6)))
    sleeps, tasks, jobs = machine.sleeps, machine.tasks, machine.jobs
    forms = [
        "spawn", f"wake {some(tasks)}", f"sleep {tick * TICK - draw.randrange(TICK)}", f"poll {some(sleeps)}", f"poll {some(sleeps)}",
        f"reset {some(sleeps)} {tick * TICK}", f"drop-sleep {some(sleeps)}", f"elapsed {some(sleeps)}", f"join {some(tasks)}",
        f"finished {some(tasks)}", f"drop-join {some(tasks)}", f"block {draw.randrange(10**6)}", f"job {some(jobs)}",
        f"job-finished {some(jobs)}", f"drop-job {some(jobs)}", f"job-end {some(jobs)} {draw.choice(('ran', 'canceled'))}",
    ]
    return draw.choice(forms)


def event_of(machine, draw):
    kind = draw.random()
    if kind < 0.6 and machine.queue:
        # a step is drawn before the ones in front of it are done, so some are refused
        steps = [step_of(machine, draw) for _ in range(draw.randrange(12))]
        end = "pending" if draw.random() < 0.9 else f"ready {draw.randrange(2**32)}"
        return "; ".join(["turn", *steps, end])
    if kind < 0.7:
        return f"clock {(machine.greatest + draw.randrange(400)) * TICK + draw.randrange(TICK)}"
    if kind < 0.8:
        return draw.choice((f"remote {draw.randrange(len(machine.tasks) + 1)}", "drain"))
    if kind < 0.9:
        return "spawn"
    step = step_of(machine, draw)
    return f"wake {draw.randrange(len(machine.tasks) + 1)}" if step.split(" ")[0] in ("poll", "join", "job") else step


def long_turns(draw):
    """300 tasks; each takes a turn of 25 steps, and all wait for sleeps that fire in two clock steps."""
    yield from ["spawn"] * 300
    for task in range(300):
        steps = []
        for own in range(OWN):
            sleep = task * OWN + own
            steps += [f"sleep {(1 + (sleep * 7) % 2400) * TICK}", f"poll {sleep}", f"elapsed {sleep}"]
        yield "; ".join(["turn", *steps, f"wake {(task + 1) % 300}", "pending"])
    yield f"clock {1200 * TICK}"
    yield f"clock {2400 * TICK}"
    for task in range(300):
        yield "; ".join(["turn", *(f"drop-sleep {task * OWN + own}" for own in range(OWN)), f"ready {task}"])


def replayed(words, events):
    machine = Machine(words[1], *map(int, words[2:]))
    asked, told = [], []
    for line in events(machine):
        report = report_of(machine, line)
        if report is not None:
            asked.append(line)
            told.append(report)
        if events is not_ended and is_enough(told):
            break
    return asked, told


def not_ended(machine):
    draw = random.Random(44)
    while True:
        yield event_of(machine, draw)


def script(draw):
    """A main task that spawns others, which spawn in turn: more than 300 tasks."""
    kinds = [["spawn 1"] * 15 + [f"join {own}" for own in range(0, 15, 2)] + ["detach 1", "await-sleep 7000000000", "done 9"]]
    kinds.append([*(f"spawn {2 + own}" for own in range(20)), *(f"join {own}" for own in range(20)), "done 3"])
    for kind in range(20):
        lines, jobs = [], 0
        for _ in range(4):
            form = draw.choice(("await-sleep", "await-sleep", "block", "yield", "drop"))
            if form == "await-sleep":
                lines.append(f"await-sleep {draw.randrange(6 * 10**9)}")
            elif form == "yield":
                lines.append("yield")
            else:
                lines += [f"block {draw.randrange(1000)}", f"{'await-job' if form == 'block' else 'drop-job'} {jobs}"]
                jobs += 1
        kinds.append([*lines, f"done {kind}"])
    return kinds


def rows():
    draw = random.Random(44)
    words = ["replay", "attached", "300", "300", "400"]
    asked, told = replayed(words, not_ended)
    yield "large: events of all kinds", words, asked, told, 0
    many = ["replay", "attached", "300", "1", "4000"]
    turns, reports = replayed(many, lambda machine: long_turns(draw))
    yield "large: 300 tasks with long turns", many, turns, reports, 0
    journal = [f"{event} -> {report}" for event, report in zip(asked, told)]
    yield "large: a journal", ["check", *words[1:]], journal, ["yes"], 0
    kinds = script(draw)
    limits = (400, 60, 300)
    status, out = Script(limits, kinds, 65536).run()
    lines = ["limits " + " ".join(map(str, limits))]
    for kind in kinds:
        lines += ["task", *kind]
    yield "large: a script of more than 300 tasks", ["run", "0", "65536"], lines, out, status
    wrong = [*out[:-2], "drop-join 0 -> dropped 8"]
    yield "large: a journal whose last report is wrong", ["check", "attached", *map(str, limits)], wrong, [f"no {len(wrong)}"], 11
    for title, words, model, call_of in (
        ("large: sessions", ["sessions", "100", "200"], Sessions(100, 200), session_call),
        ("large: buckets and retries", ["limiter", "100", "100"], Limiter(100, 100), limiter_call),
        ("large: actors", ["actors", "100", "300"], Actors(100, 300), actor_call),
    ):
        asked, told = calls(model, draw, call_of)
        yield title, words, asked, told, 0


def main():
    with open(sys.argv[1], "a", encoding="utf-8") as stdin, open(sys.argv[2], "a", encoding="utf-8") as stdout:
        for title, words, lines, output, status in rows():
            head = [f"== {title}", "$ " + " ".join(words)]
            stdin.write("".join(line + "\n" for line in [*head, *lines]))
            stdout.write("".join(line + "\n" for line in [*head, *output, f"= {status}"]))
            print(f"{title}: {len(lines)} lines in, {len(output)} lines and {size(output)} bytes out", file=sys.stderr)


if __name__ == "__main__":
    main()
