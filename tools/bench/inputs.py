"""Lines for the commands of the services, by a seed."""
import random


def sessions(seed):
    draws, made, now = random.Random(seed), 1000, 0
    for _ in range(made):
        yield "open 30000"
    while True:
        kind, some, key = draws.random(), draws.randrange(max(0, made - 3000), made), draws.randrange(500)
        if kind < 0.10:
            made += 1
            yield f"open {draws.choice((1000, 5000, 30000))}"
        elif kind < 0.55:
            yield f"beat {some}"
        elif kind < 0.58:
            yield f"close {some}"
        elif kind < 0.73:
            yield f"acquire {some} {key}"
        elif kind < 0.85:
            yield f"release {some} {key}"
        elif kind < 0.95:
            yield f"owner {key}"
        else:
            now += draws.randrange(1, 40) * 1000000
            yield f"clock {now}"


def limiter(seed):
    draws, now, made = random.Random(seed), 0, 0
    for _ in range(1000):
        yield f"bucket {draws.randrange(1, 50)} {draws.randrange(1, 100)}"
    while True:
        kind = draws.random()
        if kind < 0.60:
            yield f"take {draws.randrange(1000)} {draws.randrange(1, 10)}"
        elif kind < 0.68 or not made:
            made += 1
            yield "retry 100 10000 5"
        elif kind < 0.92:
            yield f"{'fail' if kind < 0.85 else 'done'} {draws.randrange(max(0, made - 2000), made)}"
        else:
            now += draws.randrange(1, 100) * 1000000
            yield f"clock {now}"


def actors(seed):
    draws, now, count = random.Random(seed), 0, 1000
    for _ in range(count):
        yield "actor"
    for actor in range(count):
        yield f"timeout {actor} {draws.choice((0, 50, 1000, 30000))}"
    for actor in range(count):
        yield f"send {actor} {(actor + 1) % count} {actor}"
    while True:
        kind = draws.random()
        if kind < 0.06:
            now += draws.randrange(1, 40) * 1000000
            yield f"clock {now}"
        elif kind < 0.16:
            yield f"send {draws.randrange(count)} {draws.randrange(count)} {draws.randrange(10000)}"
        elif kind < 0.90:
            yield f"turn; send {draws.randrange(count)} {draws.randrange(10 ** 6)}; stay"
        else:
            yield "turn; stay"


def write(path, lines, size):
    """Writes whole lines, at most `size` bytes."""
    with open(path, "w", encoding="ascii") as out:
        for line in lines:
            size -= len(line) + 1
            if size < 0:
                return
            out.write(line + "\n")


def join(events, reports, journal):
    """Writes a journal: each event with its report."""
    with open(events, encoding="ascii") as left, open(reports, encoding="ascii") as right, open(journal, "w", encoding="ascii") as out:
        for event, report in zip(left, right):
            out.write(f"{event.rstrip()} -> {report}")
