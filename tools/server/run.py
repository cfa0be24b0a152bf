#!/usr/bin/env python3
"""Serves a generated load for a while, and checks each reply.

usage: tools/server/run.py SERVER [SECONDS] [CORES] [RATE] [SEED]

SERVER is bin/lease_server. RATE is in lines a second. It exits with 0 if the server ended with status 0 and the checker said
yes: each reply is right, its ticks are those of a clock, and each wait ended soon after its session or the one before it.
"""
import os
import pathlib
import subprocess
import sys
import tempfile
import threading
import time

sys.dont_write_bytecode = True
import check as checker

HERE = pathlib.Path(__file__).resolve().parent
SIZES = ["100000", "100000", "10000", "10000", "100000"]
# By how many milliseconds a busy machine may delay a core or a reader.
LATE = 5000
# After how many seconds a server that does not end is ended.
LIMIT = 180


class Server:
    """A server at work. Its lines and its replies are kept, with the times at which they went and came."""

    def __init__(self, words, folder, **more):
        self.lines, self.replies = pathlib.Path(folder) / "requests", pathlib.Path(folder) / "replies"
        self.times, self.count = checker.Times(), 0
        self.kept = open(self.lines, "wb")
        self.begin = time.monotonic_ns()
        self.program = subprocess.Popen(words, stdin=subprocess.PIPE, stdout=subprocess.PIPE, **more)
        self.reader = threading.Thread(target=self.read)
        self.reader.start()
        self.limit = threading.Timer(LIMIT, self.program.kill)
        self.limit.start()

    def now(self):
        return (time.monotonic_ns() - self.begin) // 1000

    def send(self, block):
        """Sends bytes. Returns whether the server still reads."""
        self.kept.write(block)
        self.count += len(block)
        self.times.sent.append((self.count, self.now()))
        try:
            self.program.stdin.write(block)
            self.program.stdin.flush()
        except BrokenPipeError:
            return False
        return True

    def read(self):
        count = 0
        with open(self.replies, "wb") as out:
            while block := os.read(self.program.stdout.fileno(), 1 << 20):
                count += len(block)
                self.times.read.append((count, self.now()))
                out.write(block)

    def end(self):
        """Ends the input, and returns the status."""
        try:
            self.program.stdin.close()
        except BrokenPipeError:
            pass
        self.kept.close()
        self.reader.join()
        self.program.stdout.close()
        status = self.program.wait()
        self.limit.cancel()
        return status


def serve(server, cores, load, folder, cut=None, sizes=SIZES):
    """Pipes the lines of a load through the server. Returns its status and the server."""
    maker = subprocess.Popen([sys.executable, str(HERE / "load.py"), *load], stdout=subprocess.PIPE)
    served = Server([server, str(cores), *sizes], folder)
    left = cut
    while block := maker.stdout.read1(65536):
        block = block if left is None else block[:left]
        left = None if left is None else left - len(block)
        if not served.send(block) or left == 0:
            break
    maker.stdout.close()
    maker.terminate()
    maker.wait()
    return served.end(), served


def check(cores, lines, replies, times=None, sizes=SIZES, **leave):
    """Whether the checker says yes; its words go to standard output."""
    try:
        count = checker.check(cores, list(map(int, sizes)), lines, replies, times, checker.Leave(**leave))
    except checker.Wrong as wrong:
        print("no:", wrong)
        return False
    print(f"yes: {count} lines, each answered once by its core's rules")
    return True


def main():
    server, *numbers = sys.argv[1:]
    seconds, cores, rate, seed = (list(map(int, numbers)) + [10, 2, 20000, 1][len(numbers):])
    with tempfile.TemporaryDirectory() as folder:
        load = [str(seed), str(cores), "2000", str(seconds * rate), "--rate", str(rate)]
        status, served = serve(server, cores, load, folder)
        if status != 0:
            print(f"no: the server ended with status {status}")
        if not check(cores, served.lines, served.replies, served.times, late=LATE) or status != 0:
            sys.exit(1)


if __name__ == "__main__":
    main()
