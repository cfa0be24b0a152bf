#!/usr/bin/env python3
"""Serves loads under faults, and checks each reply.

usage: tools/server/faults.py SERVER [ROW ..]

With words it does these rows alone:

- cut: an input that is cut off in the middle, at several places
- silent: 10,000 clients that hold locks and stop beating at once
- hot: a core that gets nearly all requests
- small: sizes that are too small
- hostile: lines that are nearly requests, and lines longer than a block, whose tails would be requests
- quiet: an input that stands still while the clock closes a session whose lock another waits for
- idle: a server that has nothing to do while acquires wait: it takes no processor time
- crowd: 60,000 waits that end at once, in one text
- reader: a reader of the replies that pauses until all channels are full, and then is slow to the end
- end: a reader that pauses until the input has ended, and a wait whose end finds no place for its text
- core: a core that gets no turn until its channel is full and the router waits
- failed: a read or a write that fails; it ends with status 4 or 5
- refused: each allocation is refused in turn. The server ends with status 0, and one request may be refused memory; or it
  ends with status 6 or 7, and what it answered is right. It does not wait for the end of its input
- threadless: each of its threads can't be made, in turn. It ends with status 7 and without a reply, while its input is open

Each other row ends with status 0, each line with one reply, by the rules of its core. No request is refused memory.
"""
import itertools
import os
import pathlib
import random
import subprocess
import sys
import tempfile
import threading
import time

sys.dont_write_bytecode = True
import check as checker
from load import Load
from run import LATE, LIMIT, SIZES, Server, check, serve

TOP = pathlib.Path(__file__).resolve().parent.parent.parent
NAMES = ["cut", "silent", "hot", "small", "hostile", "quiet", "idle", "crowd", "reader", "end", "core", "failed", "refused", "threadless"]
BLOCK = 65536
# Without a thread; out of memory, or without a thread.
THREADLESS = 7
LACKING = (6, THREADLESS)


def row(name, server, cores, load, cut=None, sizes=SIZES, late=None):
    with tempfile.TemporaryDirectory() as folder:
        status, served = serve(server, cores, load, folder, cut, sizes)
        if status != 0 or not check(cores, served.lines, served.replies, served.times, sizes, late=late):
            sys.exit(f"{name}: status {status}")
    print(f"{name}: as documented", flush=True)


def cut(server):
    for at in (0, 1, 17, 1000, 65535, 65537, 300001):
        row(f"cut off after {at} bytes", server, 2, ["5", "2", "100", "50000"], cut=at)


def silent(server):
    row("10,000 clients that stop beating", server, 2, ["6", "2", "12000", "60000", "--silent", "10000", "--rate", "30000"], late=LATE)


def hot(server):
    row("one core has most keys", server, 4, ["7", "4", "300", "100000", "--hot"])


def small(server):
    row("sizes too small", server, 2, ["8", "2", "300", "100000"], sizes=["40", "30", "20", "20", "10"])


def serve_bytes(name, server, cores, parts, **leave):
    """Serves blocks of bytes; between two of them are the seconds that the first is followed by."""
    with tempfile.TemporaryDirectory() as folder:
        served = Server([server, str(cores), *SIZES], folder)
        for block, seconds in parts:
            served.send(block)
            time.sleep(seconds)
        status = served.end()
        if status != 0 or not check(cores, served.lines, served.replies, served.times, **leave):
            sys.exit(f"{name}: status {status}")
    print(f"{name}: as documented", flush=True)


def hostile(server):
    """Lines that are nearly requests."""
    near = ["", " ", "spawn", "spawn ", "spawn 1 ", " spawn 1", "spawn  1", "SPAWN 1", "spawn 1\r", "spawn\t1", "spawn 01", "spawn +1"]
    near += ["spawn -1", "spawn 1x", "spawn 0x1", "spawn 1\0", f"spawn {2 ** 64}", f"spawn {10 ** 30}", "open 1", "open 1 5 5", "owner", "try 1", "stats 1 2", "clock 5"]
    near += ["beat 1 " + "0" * 20, "send 1 2 3", "send 1 2 3 4 5", "receive", "bad", "\xb2", "spawn \xb2", "take 1 2"]
    draw = random.Random(4)
    load = Load(12, 2, 100)
    lines = []
    for length in (BLOCK - 1, BLOCK, BLOCK + 1, 2 * BLOCK - 1, 2 * BLOCK, 2 * BLOCK + 1, 200000):
        for tail in ("", "spawn 1", "open 2 5", " spawn 3"):
            lines += [load.line() for _ in range(draw.randrange(300))] + draw.sample(near, 5) + ["x" * length + tail]
            lines += ["spawn 7" + " " * length, draw.choice(near)]
    whole = "".join(line + "\n" for line in lines + near)
    serve_bytes("lines that are no requests", server, 2, [(whole.encode("latin-1"), 0), (b"spawn 5", 0)])
    serve_bytes("a long line that is cut off", server, 2, [(b"x" * 3 * BLOCK, 0), (b"spawn 5", 0)])


def quiet(server):
    """A session closes and hands its lock on, while no line comes."""
    keys = [next(key for key in range(100) if checker.core_of(key, 2) == core) for core in (0, 1)]
    lines = [f"open {key} {limit}\n" for key in keys for limit in (300, 60000)]
    lines += [f"acquire {key} {session}\n" for key in keys for session in (0, 1)]
    first, last = "".join(lines).encode(), "".join(f"beat {key} 0\n" for key in keys).encode()
    serve_bytes("an input that stands still", server, 2, [(first, (LATE + 1500) / 1000), (last, 0.5)], late=LATE, is_prompt=True)


def crowd(server):
    """Many wait for one lock as the input ends."""
    count = 60000
    lines = ["open 1 3600000\n"] * count + [f"acquire 1 {session}\n" for session in range(count)]
    serve_bytes("60,000 waits that end at once", server, 1, [("".join(lines).encode(), 0)])


def long_load(path):
    """Writes a load that fills all channels, and leaves a wait on each core. Returns its size."""
    load = Load(10, 2, 100)
    with open(path, "w", encoding="ascii") as out:
        for _ in range(9):
            out.write("".join(load.line() + "\n" for _ in range(20000)))
        out.writelines(line + "\n" for line in load.waits())
    return path.stat().st_size


def position(program):
    """How many bytes of its input, a file, a program has read."""
    return int(pathlib.Path(f"/proc/{program.pid}/fdinfo/0").read_text("ascii").split()[1])


def is_asleep(program):
    """Whether the main thread, the router, waits: a router that can go on is ready to run, also on a busy machine."""
    return pathlib.Path(f"/proc/{program.pid}/stat").read_text("ascii").rpartition(")")[2].split()[0] == "S"


def waits_early(program, size, seconds):
    """Waits until the router has slept for a time. Returns whether some of its input, a file of this size, is left."""
    last, since = -1, time.monotonic()
    while time.monotonic() < since + seconds:
        if program.poll() is not None:
            return False
        at = position(program)
        if at >= size:
            return False
        if at != last or not is_asleep(program):
            last, since = at, time.monotonic()
        time.sleep(0.002)
    return True


def start(server, **files):
    """A server that is ended if it does not end by itself."""
    program = subprocess.Popen([server, "2", *SIZES], **files)
    limit = threading.Timer(LIMIT, program.kill)
    limit.daemon = True
    limit.start()
    return program


def judge(name, program, folder, is_full):
    status = program.wait()
    if not is_full:
        sys.exit(f"{name}: the router read all of its input, and never waited")
    if status != 0 or not check(2, folder / "lines", folder / "replies"):
        sys.exit(f"{name}: status {status}")
    print(f"{name}: as documented", flush=True)


def reader(server):
    """Reads no reply until the texts and then the requests have filled their channels, and then reads slowly to the end."""
    with tempfile.TemporaryDirectory() as name:
        folder = pathlib.Path(name)
        size = long_load(folder / "lines")
        with open(folder / "lines", "rb") as source, open(folder / "replies", "wb") as out:
            program = start(server, stdin=source, stdout=subprocess.PIPE)
            is_full = waits_early(program, size, 0.5)
            while block := os.read(program.stdout.fileno(), BLOCK):
                out.write(block)
                time.sleep(0.005)
            program.stdout.close()
        judge("a reader that pauses and is slow", program, folder, is_full)


def used(program):
    """The seconds of processor time that a program has used."""
    words = pathlib.Path(f"/proc/{program.pid}/stat").read_text("ascii").rpartition(")")[2].split()
    return (int(words[11]) + int(words[12])) / os.sysconf("SC_CLK_TCK")


def used_for(program, seconds):
    """The seconds of processor time that a program uses in this time."""
    before = used(program)
    time.sleep(seconds)
    return used(program) - before


def idle(server):
    """Acquires wait: first while the reader pauses, with sessions that are due; then while no line comes."""
    with tempfile.TemporaryDirectory() as name:
        folder = pathlib.Path(name)
        size = long_load(folder / "lines")
        with open(folder / "lines", "rb") as source, open(folder / "replies", "wb") as out:
            program = start(server, stdin=source, stdout=subprocess.PIPE)
            is_full = waits_early(program, size, 0.5)
            # the sessions of the load close within three seconds
            time.sleep(3)
            paused = used_for(program, 2)
            out.write(program.stdout.read())
            program.stdout.close()
        judge("acquires that wait while the reader pauses", program, folder, is_full)
    key = next(key for key in range(100) if checker.core_of(key, 2) == 0)
    with tempfile.TemporaryDirectory() as name:
        served = Server([server, "2", *SIZES], name)
        served.send((f"open {key} 60000\n" * 2 + f"acquire {key} 0\nacquire {key} 1\n").encode())
        time.sleep(0.5)
        quiet = used_for(served.program, 2)
        if served.end() != 0 or not check(2, served.lines, served.replies, served.times):
            sys.exit("acquires that wait while no line comes")
    if max(paused, quiet) > 0.2:
        sys.exit(f"in 2 seconds a server with nothing to do took {paused:.2f} and {quiet:.2f} seconds of processor time")
    print("nothing to do: no processor time", flush=True)


def are_asleep(program):
    """Whether all threads of a program wait."""
    threads = pathlib.Path(f"/proc/{program.pid}/task").glob("*/stat")
    return all(thread.read_text("ascii").rpartition(")")[2].split()[0] == "S" for thread in threads)


def end(server):
    """Reads no reply until the input has ended and all threads wait. Then the channel of the texts is full, and the core
    with a wait has its end as a text. The other core's lines fill the channel of the texts, and not that of the requests."""
    keys = [next(key for key in range(100) if checker.core_of(key, 2) == core) for core in (0, 1)]
    first = [f"open {keys[1]} 3600000\n"] * 2 + [f"acquire {keys[1]} {session}\n" for session in (0, 1)]
    more = f"send {keys[0]} {2 ** 64 - 1} {2 ** 64 - 1} {2 ** 64 - 1}\n"
    with tempfile.TemporaryDirectory() as name:
        folder = pathlib.Path(name)
        (folder / "lines").write_text("".join(first) + more * (28 * BLOCK // len(more)), "ascii")
        size = (folder / "lines").stat().st_size
        with open(folder / "lines", "rb") as source, open(folder / "replies", "wb") as out:
            program = start(server, stdin=source, stdout=subprocess.PIPE)
            since = time.monotonic()
            while time.monotonic() < since + 0.5 and program.poll() is None:
                if position(program) < size or not are_asleep(program):
                    since = time.monotonic()
                time.sleep(0.002)
            out.write(program.stdout.read())
            program.stdout.close()
        judge("an end while the reader pauses", program, folder, True)


def make_slow(program):
    """Lets the second thread of a program run on one processor, where another program goes before it. Returns the thread
    and the other program."""
    threads = pathlib.Path(f"/proc/{program.pid}/task")
    while len(found := sorted(int(thread.name) for thread in threads.iterdir())) < 4:
        time.sleep(0.001)
    place = {min(os.sched_getaffinity(0))}
    other = subprocess.Popen([sys.executable, "-c", "while True: pass"])
    os.sched_setaffinity(other.pid, place)
    # the main thread, the writer, and then the cores
    os.sched_setaffinity(found[2], place)
    os.sched_setscheduler(found[2], os.SCHED_IDLE, os.sched_param(0))
    return found[2], other


def core(server):
    """Serves a load while a core hardly gets a turn, until its channel is full and the router waits."""
    with tempfile.TemporaryDirectory() as name:
        folder = pathlib.Path(name)
        size = long_load(folder / "lines")
        with open(folder / "lines", "rb") as source, open(folder / "replies", "wb") as out:
            program = start(server, stdin=source, stdout=out)
            thread, other = make_slow(program)
            try:
                is_full = waits_early(program, size, 0.1)
            finally:
                other.kill()
                other.wait()
            os.sched_setscheduler(thread, os.SCHED_OTHER, os.sched_param(0))
            os.sched_setaffinity(thread, os.sched_getaffinity(0))
        judge("a core that gets no turn", program, folder, is_full)


def failed(server):
    """Reads a folder, and writes to a device that is full."""
    with tempfile.TemporaryDirectory() as name, open("/dev/full", "wb") as full:
        folder = os.open(name, os.O_RDONLY)
        read = subprocess.run([server, "2", *SIZES], stdin=folder, stdout=subprocess.DEVNULL, timeout=LIMIT).returncode
        os.close(folder)
        write = subprocess.run([server, "2", *SIZES], input=b"spawn 1\n", stdout=full, timeout=LIMIT).returncode
    if (read, write) != (4, 5):
        sys.exit(f"failed read, failed write: status {read}, {write}")
    print("a failed read, a failed write: as documented", flush=True)


def shim_in(folder):
    """The C library with one call that fails, built in the folder."""
    shim = pathlib.Path(folder) / "faulty.so"
    subprocess.run(["cc", "-O1", "-shared", "-fPIC", "-o", shim, TOP / "tools/soak/faulty.c", "-ldl"], check=True)
    return shim


class Refusals:
    """Runs a server on a short load with one of its allocations refused."""

    def __init__(self, server, folder):
        self.server, self.folder = server, pathlib.Path(folder)
        self.shim = shim_in(folder)
        load = Load(9, 2, 20)
        (self.folder / "lines").write_text("".join(load.line() + "\n" for _ in range(300)), "ascii")

    def settings(self, n):
        return {**os.environ, "LD_PRELOAD": str(self.shim), "REFUSE": str(n)}

    def run(self, n):
        """Refuses allocation n, none for 0. Returns the status, and how many allocations there were."""
        told, tell = os.pipe()
        how = {"env": {**self.settings(n), "TELL": str(tell)}, "pass_fds": [tell], "timeout": LIMIT}
        with open(self.folder / "lines", "rb") as source, open(self.folder / "replies", "wb") as out:
            status = subprocess.run([self.server, "2", *SIZES], stdin=source, stdout=out, **how).returncode
        os.close(tell)
        with os.fdopen(told) as counts:
            count = int((counts.read().split() or [0])[0])
        try:
            leave = checker.Leave(refusals=min(n, 1), is_cut=status in LACKING)
            checker.check(2, list(map(int, SIZES)), self.folder / "lines", self.folder / "replies", leave=leave)
        except checker.Wrong as wrong:
            sys.exit(f"allocation {n} refused: status {status}, {wrong}")
        if status not in ((0, *LACKING) if n else (0,)):
            sys.exit(f"allocation {n} refused: status {status}")
        return status, count

    def run_open(self, n):
        """Refuses allocation n while lines keep coming for ten seconds. Returns the status, and whether it ended before."""
        served = Server([self.server, "2", *SIZES], self.folder, env=self.settings(n))
        served.send((self.folder / "lines").read_bytes())
        begin, keys = time.monotonic(), itertools.cycle(range(20))
        while time.monotonic() < begin + 10 and served.program.poll() is None:
            served.send(f"receive {next(keys)}\n".encode())
            time.sleep(0.005)
        has_ended = served.program.poll() is not None
        return served.end(), has_ended


def refused(server):
    """Refuses each allocation of a short load in turn; then, with an open input, some of those that end the server."""
    with tempfile.TemporaryDirectory() as folder:
        runs = Refusals(server, folder)
        _, count = runs.run(0)
        if count == 0:
            sys.exit("no allocation was seen: this server brings an allocator of its own")
        ends = [n for n in range(1, count + 20) if runs.run(n)[0] in LACKING]
        print(f"{count} allocations, each refused in turn: as documented; {len(ends)} ended it", flush=True)
        tried = 0
        for n in ends[:: max(1, len(ends) // 20)]:
            status, has_ended = runs.run_open(n)
            if status not in (0, *LACKING) or (status in LACKING and not has_ended):
                sys.exit(f"allocation {n} refused: it went on until its input ended, and then came status {status}")
            tried += status in LACKING
        if tried == 0:
            sys.exit("nothing ran out of memory while the input was open")
    print(f"{tried} times out of memory with an open input: as documented", flush=True)


def run_without(server, shim, n):
    """Serves an input that stays open, without thread n, or with all for 0. Returns the status, the replies, and how many
    threads were asked for."""
    told, tell = os.pipe()
    settings = {**os.environ, "LD_PRELOAD": str(shim), "TELL": str(tell), "THREAD": str(n)}
    program = subprocess.Popen([server, "2", *SIZES], env=settings, pass_fds=[tell], stdin=subprocess.PIPE, stdout=subprocess.PIPE)
    os.close(tell)
    limit = threading.Timer(LIMIT, program.kill)
    limit.start()
    try:
        program.stdin.write(b"".join(b"spawn %d\n" % key for key in range(100)))
        program.stdin.flush()
    except BrokenPipeError:
        pass
    if n == 0:
        program.stdin.close()
    replies = program.stdout.read()
    status = program.wait()
    limit.cancel()
    program.stdout.close()
    with os.fdopen(told) as counts:
        return status, replies, int((counts.read().split() or [0])[-1])


def threadless(server):
    """Runs the server without each of its threads in turn."""
    with tempfile.TemporaryDirectory() as folder:
        shim = shim_in(folder)
        status, replies, count = run_without(server, shim, 0)
        # a writer and two cores
        lines = replies.count(b"\n")
        if (status, lines, count) != (0, 100, 3):
            sys.exit(f"with all threads: status {status}, {lines} replies, {count} threads")
        for n in range(1, count + 1):
            status, replies, _ = run_without(server, shim, n)
            if (status, replies) != (THREADLESS, b""):
                sys.exit(f"without thread {n}: status {status}, {len(replies)} bytes of replies")
    print(f"without each of {count} threads: as documented", flush=True)


def main():
    server, *names = sys.argv[1:]
    for name in names or NAMES:
        globals()[name](server)


if __name__ == "__main__":
    main()
