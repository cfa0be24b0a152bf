#!/usr/bin/env python3
"""Tries the checker on servers that are right and on servers that are wrong in one way, without the proved program.

usage: tools/server/check_test.py

Each server is a class below and serves in virtual time, so a run takes no time and is always the same. The checker has to
say yes to `Plain` and to those that differ from it as the document allows, and no to each `Wrong`. Then `run.py` has to say
no to the program `liar.py`."""
import pathlib
import subprocess
import sys
import tempfile

sys.dont_write_bytecode = True
import check
from load import Client, Load
from run import LATE

HERE = pathlib.Path(__file__).resolve().parent
CORES, SIZES = 2, [4000] * 5
BLOCK, HOUR = 65536, 3600000
# in milliseconds: how long lines come, and how long they then do not
BUSY, QUIET = 1000, 2 * LATE


class Plain:
    """Serves by the rules."""

    leave = check.Leave(late=LATE)

    def __init__(self):
        self.cores = [check.Core(SIZES) for _ in range(CORES)]
        self.number, self.arrived, self.replies = 0, {}, []

    def say(self, core, number, text, is_end=False):
        tick = self.cores[core].tick
        arrived = self.arrived.get(number, tick) if is_end else tick
        self.put(f"{number} {core} {arrived} {tick} {text}\n")

    def put(self, line):
        self.replies.append(line)

    def settle(self, core, ends):
        for _, answers in ends:
            for number in sorted(answers):
                self.say(core, number, answers[number], True)

    def tick_at(self, now):
        return now

    def step(self, core, now):
        self.settle(core, self.cores[core].advance(self.tick_at(now)))

    def wake(self, now):
        """What the server does at a time at which no line comes."""
        for core in range(CORES):
            if self.cores[core].waiting:
                self.step(core, now)

    def core_of(self, key):
        return check.core_of(key, CORES)

    def request_of(self, line):
        return check.request_of(line)

    def perform(self, core, number, word, key, numbers):
        text, ends = check.call(self.cores[core], number, word, key, numbers)
        if text is None:
            self.arrived[number] = self.cores[core].tick
            return
        self.say(core, number, text)
        self.settle(core, ends)

    def serve(self, lines, now):
        """Serves the lines of a block."""
        for core in range(CORES):
            self.step(core, now)
        for line in lines:
            self.number += 1
            found = self.request_of(line)
            if found is None:
                self.put(f"{self.number} bad\n")
            else:
                self.perform(self.core_of(found[1]), self.number, *found)

    def end(self, now):
        for core in range(CORES):
            self.step(core, now)
            for number in list(self.cores[core].waiting.values()):
                self.say(core, number, "ended", True)


class CoresInTurn(Plain):
    """The replies of a block core by core, and those to bad lines first."""

    def serve(self, lines, now):
        begin = len(self.replies)
        super().serve(lines, now)
        self.replies[begin:] = sorted(self.replies[begin:], key=lambda line: line.split()[1].replace("bad", ""))


class SlowClock(Plain):
    """Wakes once a second."""

    def wake(self, now):
        if now % 1000 == 0:
            super().wake(now)


class OneRefusal(Plain):
    """One allocation was refused."""

    leave = check.Leave(1, LATE)
    was_refused = False

    def is_refused(self, word, numbers):
        return self.number > 500 and word == "acquire"

    def perform(self, core, number, word, key, numbers):
        if not self.was_refused and self.is_refused(word, numbers):
            self.was_refused = True
            self.say(core, number, "refused out-of-memory")
        else:
            super().perform(core, number, word, key, numbers)


class Wrong(Plain):
    """A server that is wrong."""


class AllOutOfMemory(Wrong):
    def perform(self, core, number, word, key, numbers):
        self.say(core, number, "refused out-of-memory")


class RefusalWithoutCause(OneRefusal, Wrong):
    leave = Plain.leave


class RefusalOfBeat(OneRefusal, Wrong):
    """A request that takes no memory."""

    def is_refused(self, word, numbers):
        return self.number > 500 and word == "beat"


class RefusalInPlace(OneRefusal, Wrong):
    """In place of another refusal."""

    def is_refused(self, word, numbers):
        return word == "open" and numbers == [0]


class WaitsInTry(Wrong):
    """A session that tries waits."""

    def perform(self, core, number, word, key, numbers):
        super().perform(core, number, "acquire" if word == "try" else word, key, numbers)


class ClockStands(Wrong):
    def tick_at(self, now):
        return 0


class ClockIsAhead(Wrong):
    def tick_at(self, now):
        return now + now // 50


class ClockIsSlow(Wrong):
    def tick_at(self, now):
        return now // 2


class NeverWakes(Wrong):
    def wake(self, now):
        pass


class WakesForOneCore(Wrong):
    def wake(self, now):
        if self.cores[0].waiting:
            self.step(0, now)


class DropsRequests(Wrong):
    """A full lane drops its requests."""

    def serve(self, lines, now):
        if now == BUSY // 2:
            self.number += len(lines)
        else:
            super().serve(lines, now)


class DropsText(Wrong):
    """A core drops a text that waits."""

    def serve(self, lines, now):
        begin = len(self.replies)
        super().serve(lines, now)
        if now == BUSY // 2:
            self.replies[begin:] = [line for line in self.replies[begin:] if line.split()[1] != "0"]


class DropsLargeTexts(Wrong):
    def serve(self, lines, now):
        begin = len(self.replies)
        super().serve(lines, now)
        if sum(map(len, self.replies[begin:])) > 3000:
            del self.replies[begin:]


class EndsUnsent(Wrong):
    """Ends with a text unsent."""

    def end(self, now):
        pass


class DeadCore(Wrong):
    """A dead core is passed over."""

    def say(self, core, number, text, is_end=False):
        if core == 0 or self.cores[core].tick < BUSY // 2:
            super().say(core, number, text, is_end)


class TailIsLine(Wrong):
    """The tail of a long line is a line."""

    def request_of(self, line):
        return super().request_of(line[len(line) // BLOCK * BLOCK :])


class AnswersTwice(Wrong):
    def put(self, line):
        super().put(line)
        if self.number == 500:
            super().put(line)


class MixesLines(Wrong):
    def put(self, line):
        super().put(line[:-1] if self.number == 500 else line)


class CutsTheLast(Wrong):
    def end(self, now):
        super().end(now)
        self.replies[-1] = self.replies[-1][:-1]


class CountsFromZero(Wrong):
    def __init__(self):
        super().__init__()
        self.number = -1


class OneCoreServes(Wrong):
    def core_of(self, key):
        return 0


class SwapsReplies(Wrong):
    """Two replies of a core in the wrong order."""

    def serve(self, lines, now):
        begin = len(self.replies)
        super().serve(lines, now)
        of_core = [at for at in range(begin, len(self.replies)) if self.replies[at].split()[1] == "0"]
        if now == BUSY // 2:
            one, other = of_core[:2]
            self.replies[one], self.replies[other] = self.replies[other], self.replies[one]


class EndsBackwards(Wrong):
    """The waits that the end of the input ends, in the wrong order."""

    def end(self, now):
        begin = len(self.replies)
        super().end(now)
        self.replies[begin:] = self.replies[begin:][::-1]


class HeldAtClose(Wrong):
    """A session that closes in a step may become the holder in it."""

    def settle(self, core, ends):
        for _, answers in ends:
            for number in sorted(answers):
                self.say(core, number, answers[number].replace("closed", "held"), True)


class ArrivedIsTick(Wrong):
    def say(self, core, number, text, is_end=False):
        super().say(core, number, text)


class BucketsAreEmpty(Wrong):
    def perform(self, core, number, word, key, numbers):
        super().perform(core, number, word, key, numbers)
        if word == "bucket" and self.replies[-1].split()[4] == "bucket":
            self.cores[core].buckets[-1][3] = 0


class ClosesLate(Wrong):
    """A session closes a millisecond too late."""

    def perform(self, core, number, word, key, numbers):
        super().perform(core, number, word, key, [numbers[0] + 1] if word == "open" else numbers)


def hand_on(load, limit):
    """Lines by which on each core a session holds a lock for a while, and another waits for it."""
    for core, keys in enumerate(load.locks):
        for milliseconds in (limit, HOUR):
            client = Client(keys[0], core)
            yield load.open(client, milliseconds)
            yield f"acquire {keys[0]} {client.session}"


def blocks():
    """The times in milliseconds, and the lines that come then. First random lines. Then none, while sessions close and hand
    their locks on. At the end lines that are no request, and some that leave waits."""
    load = Load(17, CORES, 120)
    for now in range(5, BUSY, 5):
        yield now, [load.line() for _ in range(20)]
    yield BUSY, list(hand_on(load, 300))
    yield BUSY + QUIET, ["", "spawn", "x" * BLOCK + "spawn 1", "open 1 0", *hand_on(load, HOUR), *(load.line() for _ in range(200)), "spawn 01"]


class Run:
    """A server that has served the blocks in virtual time, and the times in microseconds."""

    def __init__(self, server):
        self.server, self.lines, self.times = server, [], check.Times()
        self.now = self.sent = self.read = self.noted = 0
        for now, block in blocks():
            self.pass_to(now)
            self.give(block)
        self.pass_to(self.now + 10)
        server.end(self.now)
        self.note()

    def note(self):
        self.read += sum(map(len, self.server.replies[self.noted :]))
        self.noted = len(self.server.replies)
        self.times.read.append((self.read, 1000 * self.now + 900))

    def pass_to(self, now):
        while self.now < now:
            self.now += 1
            self.server.wake(self.now)
            if len(self.server.replies) > self.noted:
                self.note()

    def give(self, block):
        self.lines += block
        self.sent += sum(len(line) + 1 for line in block)
        self.times.sent.append((self.sent, 1000 * self.now + 100))
        self.server.serve(block, self.now)
        self.note()

    def judge(self, folder):
        """What the checker finds wrong, or None."""
        (folder / "lines").write_text("".join(line + "\n" for line in self.lines), "ascii")
        (folder / "replies").write_text("".join(self.server.replies), "ascii")
        try:
            check.check(CORES, SIZES, folder / "lines", folder / "replies", self.times, self.server.leave)
        except check.Wrong as wrong:
            return str(wrong)
        return None


def main():
    kinds = [Plain, *Plain.__subclasses__(), *Wrong.__subclasses__()]
    kinds.remove(Wrong)
    with tempfile.TemporaryDirectory() as name:
        for kind in kinds:
            wrong = Run(kind()).judge(pathlib.Path(name))
            print(f"{kind.__name__:16} {wrong or 'yes'}"[:150], flush=True)
            if (wrong is not None) != issubclass(kind, Wrong):
                sys.exit(f"the checker is wrong about {kind.__name__}")
    liar = subprocess.run([sys.executable, HERE / "run.py", HERE / "liar.py", "1"], stdout=subprocess.PIPE, text=True)
    print("liar.py         ", liar.stdout, end="")
    if liar.returncode != 1 or not liar.stdout.startswith("no: request "):
        sys.exit(f"run.py ended with status {liar.returncode}")


if __name__ == "__main__":
    main()
