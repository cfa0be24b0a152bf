#!/usr/bin/env python3
"""Measures the programs of this tree next to plain Rust programs, and prints the tables of docs/PERFORMANCE.md.

usage: tools/bench/run.py PROGRAM BENCH [quick]

PROGRAM is `monoio`, BENCH is `mono_bench`, which is kept here as text. rustc builds the plain programs of tools/bench.
Runs of both sides alternate. A time is processor time (user and system) of the best run at the allocator's defaults; peak
memory is the largest resident set. `quick` takes inputs of a sixteenth and two runs, but for the tables beside tokio and
the original.

At the end each figure stands beside the last committed one of docs/PERFORMANCE.md, with the word `worse` if it grew by more
than five percent. Times that have a ratio are compared by it. `quick` compares nothing.

Instructions are valgrind's; without valgrind their tables are left out. They do not depend on what else runs.

The environment's ANCHORS names a program of the original's wheel and tasks, if there is one. It is not in the repository:
put the crate's own wheel and slab behind `fn register, remove, reset, poll`, and its tasks over a stepped driver. With the
words `one WORKLOAD orig-packed|orig-task N RUNS` it prints a line with `ns_op=X`, nanoseconds an operation of the best run.
"""
import os
import re
import shutil
import subprocess
import sys
import tempfile

sys.dont_write_bytecode = True
import inputs
import last
import tokio

HERE = os.path.dirname(os.path.abspath(__file__))
CAP = 16 * 1024 * 1024
LIMITS = ["4194304"] * 3


# The title of the table that is printed, and the cells of all rows so far by title and label.
TITLE = [""]
ROWS = {}


def begin(title, text):
    """Prints the heading of a table, and what its rows are."""
    TITLE[0] = title
    print(f"\n## {title}\n\n{text}\n")


def row(label, *cells):
    """Prints a row of a table, and keeps it."""
    ROWS[TITLE[0], label] = cells
    print(f"    {label:32}{''.join(f'  {cell:>12}' for cell in cells)}".rstrip(), flush=True)


class Bench:
    """The two programs, the folder of inputs and plain programs, and how much is run."""

    def __init__(self, program, bench, folder, quick):
        self.program, self.bench = os.path.abspath(program), os.path.abspath(bench)
        self.folder, self.quick = folder, quick
        self.runs, self.by = (2, 16) if quick else (7, 1)

    def path(self, name):
        return os.path.join(self.folder, name)

    def build(self):
        for name in ("replay", "services", "beats", "limiter", "ring", "turns", "measure"):
            source = os.path.join(HERE, f"{name}.rs")
            command = ["rustc", "--edition", "2021", "-C", "opt-level=3", "-A", "warnings", source, "-o", self.path(name)]
            subprocess.run(command, check=True)

    def once(self, words, source, sink=os.devnull):
        """Runs a program; returns its processor time in seconds and its peak memory in KiB."""
        used = self.path("used")
        with open(source or os.devnull, "rb") as into, open(sink, "wb") as out:
            status = subprocess.run([self.path("measure"), used, *words], stdin=into, stdout=out, stderr=subprocess.PIPE)
        if status.returncode not in (0, 11):
            sys.exit(f"{' '.join(words)}: status {status.returncode}: {status.stderr.decode()[-200:]}")
        with open(used, encoding="ascii") as text:
            micros, peak = text.read().split()
        return int(micros) / 1e6, int(peak)

    def instructions(self, words, source=None):
        """Returns how many instructions a program executes."""
        counts = ["valgrind", "--tool=callgrind", f"--callgrind-out-file={self.path('calls')}", *words]
        with open(source or os.devnull, "rb") as into:
            done = subprocess.run(counts, stdin=into, stdout=subprocess.DEVNULL, stderr=subprocess.PIPE, text=True)
        found = re.search(r"refs: +([\d,]+)", done.stderr)
        if done.returncode or not found:
            sys.exit(f"{' '.join(counts)}: {done.stderr[-200:]}")
        return int(found[1].replace(",", ""))

    def pair(self, ours, plain, source=None):
        """Returns the best time and the peak memory of each side, in alternate runs."""
        sides = [[], []]
        for _ in range(self.runs):
            for side, words in zip(sides, (ours, plain)):
                if words:
                    side.append(self.once(words, source))
        return [(min(t for t, _ in side), max(m for _, m in side)) if side else None for side in sides]

    def table(self, title, command, rows, other="plain"):
        """Prints a table; a row is a label, our words, the other program's words or None, and an input or None."""
        begin(title, f"Command: `{command}`.")
        row("", "ms", "MB", "ratio", f"{other} ms", f"{other} MB")
        for label, ours, plain, source in rows:
            here, there = self.pair(ours, plain, source)
            cells = (f"{here[0] / max(there[0], 1e-6):.2f}", f"{1000 * there[0]:.0f}", f"{there[1] / 1024:.1f}") if there else ()
            row(label, f"{1000 * here[0]:.0f}", f"{here[1] / 1024:.1f}", *cells)


def replays(b):
    rows, checks = [], []
    for kind in ("mix", "timers", "spawn"):
        events, reports, journal = b.path(f"{kind}.events"), b.path(f"{kind}.reports"), b.path(f"{kind}.journal")
        b.once([b.path("replay"), "generate", kind, str(CAP // b.by), "3"], None, events)
        ours = [b.program, "replay", "attached", *LIMITS]
        rows.append((kind, ours, [b.path("replay"), "replay", "attached", *LIMITS], events))
        small = b.path(f"{kind}.small")
        b.once([b.path("replay"), "generate", kind, str(CAP // b.by // 5), "3"], None, small)
        b.once(ours, small, reports)
        inputs.join(small, reports, journal)
        checks.append((kind, [b.program, "check", "attached", *LIMITS], journal, ours, small))
    b.table("Replay", "monoio replay attached 4194304 4194304 4194304 < FILE", rows)
    count = str(100000 // b.by)
    b.table("Load", f"monoio load 7 {count}", [("load", [b.program, "load", "7", count], [b.path("replay"), "load", "7", count], None)])
    begin("Check", "Command: `monoio check` of a journal. The ratio is its time by that of the replay of its events.")
    for kind, check, journal, replay, events in checks:
        times = [min(b.once(words, source)[0] for _ in range(b.runs)) for words, source in ((check, journal), (replay, events))]
        row(kind, f"{times[0] / max(times[1], 1e-6):.2f}")


def services(b):
    rows = []
    for name, lines, words in (("sessions", inputs.sessions, 2), ("limiter", inputs.limiter, 2), ("actors", inputs.actors, 2)):
        path = b.path(f"{name}.lines")
        inputs.write(path, lines(3), CAP // b.by)
        asked = [name, *LIMITS[:words]]
        rows.append((name, [b.program, *asked], [b.path("services"), *asked], path))
    b.table("Services by lines", "monoio sessions|limiter|actors 4194304 4194304 < FILE", rows)


def workloads(b):
    """A workload is its words, with the plain program of the same words, if there is one."""
    million, ten = str(1000000 // b.by), str(10000000 // b.by)
    rows = [
        (["beats", million, "0"], "beats"),
        (["beats", million, "60"], "beats"),
        (["buckets", million, ten, "50"], "limiter"),
        (["ring", "1000", ten, "0"], "ring"),
        (["ring", million, "0", "16"], "ring"),
        (["turns", "pair", ten], "turns"),
        (["turns", "sleeps", million], "turns"),
        (["turns", "spawn", million], None),
        (["turns", "come", ten], None),
        (["churn", ten, "1000"], None),
        (["errands", ten, "1000"], None),
        (["sparse", "retries", ten, "1000000000"], None),
        (["sparse", "actors", ten, "1000000000"], None),
        (["sweep", million, "100"], None),
    ]
    full = []
    for words, plain in rows:
        full.append((" ".join(words), [b.bench, *words], [b.path(plain), *words[1:]] if plain else None, None))
    b.table("Workloads of `mono_bench`", "mono_bench WORKLOAD ..", full)


def memory(b):
    """Prints the bytes of one of many: the peak memory of many without that of one, by how many there are."""
    count = 1000000 // b.by
    begin("Memory", "Command: `mono_bench WORKLOAD ..`. The bytes of each are the peak memory of many without that of two, by how many live.")
    for each, words, n, every in (
        ("a task with a sleep", ["turns", "sleeps", "{}"], count, 1),
        ("a session in a queue of two", ["beats", "{}", "0"], count, 1),
        ("an actor without messages", ["ring", "{}", "0", "0"], count, 1),
        ("a task that waits for a permit", ["channels", "waits", "{}"], count, 1),
        ("the only live task of 64", ["sparse", "tasks", "{}", "64"], 16 * count, 64),
        ("the only live task of 256", ["sparse", "tasks", "{}", "256"], 16 * count, 256),
    ):
        many, two = (b.once([b.bench, *(word.format(m) for word in words)], None)[1] for m in (n, 2 * every))
        row(" ".join(words).format(n), f"{1024 * (many - two) * every / n:,.0f}", each)


def script(turns):
    """Returns a script whose ten tasks each end so many turns."""
    lines = ["limits 100 100 100", "task", *["spawn 1"] * 10, *(f"join {i}" for i in range(10)), "done 0"]
    return "\n".join([*lines, "task", *["yield"] * turns, "done 0", ""])


def counted(b):
    """Prints what is counted in instructions, for which the machine may be busy."""
    if not shutil.which("valgrind"):
        return
    begin("Instructions", "Command: `valgrind --tool=callgrind PROGRAM ..`.")
    for words in ("spawn", "pair", "large", "sleeps"):
        few, many = (b.instructions([b.bench, "turns", words, str(n)]) for n in (1000, 11000))
        row(f"one of turns {words} N", f"{(many - few) / 10000:,.0f}")
    for words in ("chain", "hand"):
        few, many = (b.instructions([b.bench, "forms", words, "1", str(n)]) for n in (1000, 11000))
        row(f"a poll of forms {words} 1 N", f"{(many - few) / 30000:.1f}")
    whole = []
    for turns in (10, 110):
        with open(b.path("script"), "w", encoding="ascii") as out:
            out.write(script(turns))
        whole.append(b.instructions([b.program, "run", "0", "65536"], b.path("script")))
    row("a turn in monoio run", f"{(whole[1] - whole[0]) / 1000:,.0f}")
    for work in WHEEL:
        row(f"wheel {work} 1000", f"{b.instructions([b.bench, 'wheel', work, '1000']):,}")


WHEEL = ("insert_fire", "insert_cancel", "reset_later", "short_ticks", "far_jump", "next_expiration", "far_many")


def anchor(work, peer, count, runs):
    """Returns the nanoseconds an operation takes by the original, or None without a program of it."""
    program = os.environ.get("ANCHORS")
    if not program:
        return None
    done = subprocess.run([program, "one", work, peer, str(count), str(runs)], capture_output=True, text=True, check=True)
    return float(re.search(r"ns_op=([\d.]+)", done.stdout)[1])


def originals(b):
    """Prints what a task costs beside the original's, if its program is there."""
    if not os.environ.get("ANCHORS"):
        return
    count = 1000000
    begin("Tasks beside the original's", "Command: `mono_bench turns WORD N`, nanoseconds of processor time each.")
    row("", "ns", "ratio", "original ns")
    for each, word, n, work in (
        ("spawn: with its turn", "spawn", count, "spawn_turn"),
        ("pair: a wake with its turn", "pair", 10 * count, "yield_turn"),
        ("sleeps: a task that sleeps once", "sleeps", count, "load_tasks"),
    ):
        ours = 1e9 * min(b.once([b.bench, "turns", word, str(n)], None)[0] for _ in range(b.runs)) / n
        theirs = anchor(work, "orig-task", count, 3)
        row(each, f"{ours:,.0f}", f"{ours / theirs:.2f}", f"{theirs:,.0f}")


def wheel(b):
    ratio = ", by those of the original, and as they are" if os.environ.get("ANCHORS") else ""
    begin("Wheel", f"Command: `mono_bench wheel WORKLOAD N timed RUNS`, nanoseconds a key of the best run{ratio}.")
    counts = [(1000, 101), (100000 // b.by, 9), (1000000 // b.by, 3)]
    row("N", *(f"{count:,}" for count, _ in counts))
    for work in WHEEL:
        cells = []
        for count, runs in counts:
            if work == "far_many" and count > 1000:
                continue
            done = subprocess.run([b.bench, "wheel", work, str(count), "timed", str(runs)], capture_output=True, text=True, check=True)
            cells.append(re.search(r" ns ([\d.]+)", done.stdout)[1])
            other = None if work in ("reset_later", "far_many") else anchor(work, "orig-packed", count, runs)
            if other:
                cells[-1] = f"{float(cells[-1]) / other:.2f} ({cells[-1]})"
        row(work, *cells)


def main():
    if len(sys.argv) < 3:
        sys.exit(__doc__)
    with tempfile.TemporaryDirectory(prefix="bench-") as folder:
        b = Bench(sys.argv[1], sys.argv[2], folder, "quick" in sys.argv[3:])
        b.build()
        replays(b)
        services(b)
        workloads(b)
        tokio.channels(b)
        memory(b)
        counted(b)
        originals(b)
        wheel(b)
        if not b.quick:
            begin("Beside the last figures", "A row is a figure, the last committed one, and its change.")
            print("\n".join(last.beside(ROWS, last.read())))


if __name__ == "__main__":
    main()
