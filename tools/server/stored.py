#!/usr/bin/env python3
"""Writes the stored run of crates/lease_server, which CI compares: stdin, and by the rules of check.py stdout.

A run with a still clock prints the same each time only if all replies come from one core: replies of two cores, and those
to bad lines, come in any order. So each key is of core 1 of 2, and no line is bad. The lines fill several blocks, each
refusal of a still clock is there, and some acquires wait as the input ends.
"""
import collections
import pathlib
import random
import sys

sys.dont_write_bytecode = True
import check

CRATE = pathlib.Path(__file__).resolve().parent.parent.parent / "crates" / "lease_server"
CORES, CORE = 2, 1
BLOCKS, BLOCK = 2, 65536
TOP = 2 ** 64 - 1


def keys(first, many):
    """This many keys of the core, upward from the first."""
    found = (key for key in range(first, first + 1000) if check.core_of(key, CORES) == CORE)
    return [key for _, key in zip(range(many), found)]


class Lines:
    """Random requests on few sessions, locks, buckets and actors."""

    def __init__(self, seed):
        self.draw = random.Random(seed)
        self.far, self.near = keys(TOP - 1000, 200), keys(0, 5)

    def one(self, *of):
        return self.draw.choice(of)

    def line(self, open_sessions, last):
        """A line. Most name an open session; few name one that is not open. Few close or open one."""
        draw, words = self.draw, list(check.CALLS)
        word = draw.choices(words, [{"open": 2, "spawn": 1, "bucket": 1, "close": 1}.get(word, 12) for word in words])[0]
        session, key = draw.choice([*open_sessions, last]), self.one(*self.near)
        numbers = {
            "open": [self.one(0, 1, 60000, 2 ** 63 - 1, 2 ** 63, TOP)],
            "beat": [session],
            "close": [session],
            "acquire": [session],
            "release": [session],
            "try": [session],
            "owner": [],
            "stats": [],
            "bucket": [self.one(0, 1, 7, 2 ** 32 - 1, 2 ** 32), self.one(0, 1, 60000, 2 ** 32)],
            "take": [draw.randrange(12), self.one(0, 1, 2, 8, TOP)],
            "spawn": [],
            "send": [draw.randrange(11), draw.randrange(11), draw.randrange(2 ** 64)],
            "receive": [],
        }[word]
        if word not in ("acquire", "release", "try", "owner"):
            key = draw.choice(self.far)
        return " ".join(map(str, [word, key, *numbers]))


def main():
    core = check.Core([10] * 5)
    lines, replies, said = [], [], collections.Counter()
    made = Lines(63)

    def reply(number, text):
        said[text.rstrip("0123456789 ")] += 1
        replies.append(f"{number} {CORE} 0 0 {text}\n")

    def settle(ends):
        for _, answers in ends:
            for number in sorted(answers):
                reply(number, answers[number])

    while sum(map(len, lines)) < BLOCKS * BLOCK + BLOCK // 2 or len(core.waiting) < 3:
        lines.append(made.line(core.sessions, core.next_session) + "\n")
        number, (word, key, numbers) = len(lines), check.request_of(lines[-1][:-1])
        text, ends = check.call(core, number, word, key, numbers)
        if text is not None:
            reply(number, text)
        settle(ends)
    settle([(None, {number: "ended"}) for number in core.waiting.values()])
    (CRATE / "stdin").write_text("".join(lines), "ascii")
    (CRATE / "stdout").write_text("".join(replies), "ascii")
    for text, count in sorted(said.items()):
        print(f"{count:5} {text}")


if __name__ == "__main__":
    main()
