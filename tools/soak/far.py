#!/usr/bin/env python3
"""Replays sleeps that end in far slots of the wheel's top level, and bounds the processor time.

usage: tools/soak/far.py PROGRAM [SLEEPS]

PROGRAM is bin/monoio. Each family of inputs arms SLEEPS sleeps (default 100,000) in one turn; SLEEPS clock steps or one
follow. Each input takes at most 40 times the time of as many near sleeps and clock steps. A wheel that moves or reads all
far keys at each step takes several hundred times as long. The sleeps have to fire in the order of their ticks.
"""
import resource
import subprocess
import sys
import tempfile

NANOS = 10**6
TURN = 2**42
LAST = 2**62
LIMIT = "4194304"
MOST = 40


def armed(ticks):
    yield "spawn"
    yield "; ".join(["turn", *(f"sleep {tick * NANOS}; poll {sleep}" for sleep, tick in enumerate(ticks)), "pending"])


def near(count):
    """The measure: sleeps that end one tick apart, and as many clock steps."""
    yield from armed(range(1, count + 1))
    yield from (f"clock {tick * NANOS}" for tick in range(1, count + 1))


def pairs(count):
    """Two sleeps in each second turn of the top level, all in one of its 64 slots, and one clock step."""
    yield from armed(pair * 2 * TURN + tick for pair in range(count // 2) for tick in (7, 12))
    yield f"clock {LAST * NANOS}"


def apart(count):
    """Each sleep in a slot of its own, the last first, and one clock step."""
    yield from armed(1 + sleep * (LAST // count) for sleep in range(count, 0, -1))
    yield f"clock {(LAST + 1) * NANOS}"


def steps(count):
    """Sleeps that no clock step reaches; each step is a tick shorter than a turn of the top level."""
    yield from armed(LAST // 2 + sleep * TURN for sleep in range(count))
    yield from (f"clock {step * (TURN - 1) * NANOS}" for step in range(1, count + 1))


def between(count):
    """Half of the sleeps first, and one before each clock step."""
    half = count // 2
    yield from armed(LAST - 2**50 + sleep * 2**36 for sleep in range(half))
    for step in range(1, half + 1):
        yield from ("wake 0", f"turn; sleep {LAST * NANOS}; poll {half + step - 1}; pending")
        yield f"clock {step * (TURN + 2**37) * NANOS}"


def fired(lines):
    """The sleeps of an input in the order in which they fire, all by one clock step."""
    ticks = [int(word.split(" ")[1]) for line in lines for word in line.split("; ") if word.startswith("sleep ")]
    return sorted(range(len(ticks)), key=ticks.__getitem__)


def taken(program, lines):
    """Returns the processor time of a replay, and its last report."""
    with tempfile.TemporaryFile() as source:
        source.write("".join(line + "\n" for line in lines).encode())
        source.seek(0)
        before = resource.getrusage(resource.RUSAGE_CHILDREN)
        done = subprocess.run([program, "replay", "attached", *[LIMIT] * 3], stdin=source, capture_output=True, check=True)
        after = resource.getrusage(resource.RUSAGE_CHILDREN)
    return after.ru_utime + after.ru_stime - before.ru_utime - before.ru_stime, done.stdout.decode().splitlines()[-1]


def main():
    program = sys.argv[1]
    count = int(sys.argv[2]) if len(sys.argv) > 2 else 100000
    least = min(taken(program, near(count))[0] for _ in range(3))
    failed = 0
    for family in (pairs, apart, steps, between):
        lines = list(family(count))
        time, last = taken(program, lines)
        wrong = family in (pairs, apart) and last != " ".join(["fired", *map(str, fired(lines))])
        failed += wrong or time > MOST * least
        print(f"{family.__name__}: {time:.2f} s, {time / least:.1f} times as long as near sleeps{', and a wrong order' if wrong else ''}")
    sys.exit(1 if failed else 0)


if __name__ == "__main__":
    main()
