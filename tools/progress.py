"""Follows a run of `rt ci` and shows how far it has come, for tools/build.py.

A line comes when a crate is proved, with the seconds since the start and the number of crates that are done. After a
minute without a line, one names the crates that are under way or next. Errors stand once, at the end.
"""
import os
import re
import select
import signal
import subprocess
import sys
import time

import below

DONE = re.compile(r"^rt: (\w+) (proved$|is kept: )")
WAITS = re.compile(r"^rt: (.*waiting .*)")
FAILED = re.compile(r": error(\[|:)|^error(\[|:)|: no proof: |: not proved$| NOT PROVED|^rt: FAILED|: the program |: what the program ")
# How much of the log stands at the end of a command that failed without a line of the kinds above.
TAIL = 30
# After how many seconds without a line there is one that says what runs.
QUIET = 60


class Progress:
    """What is shown of the lines of one run over these crates."""

    def __init__(self, crates):
        self.all, self.done = crates, set()
        self.failures, self.tail = [], []
        self.start = self.shown = time.monotonic()

    def show(self, text):
        """Prints a line: the time, the count, and a text."""
        self.shown = time.monotonic()
        print(f"{self.shown - self.start:6.0f} s  {len(self.done):2} of {len(self.all)}  {text}", flush=True)

    def take(self, line):
        """Shows what a line of the command says, or what runs if nothing was shown for long; without a line it is None."""
        if line is not None:
            self.tail = (self.tail + [line])[-TAIL:]
            self.read(line)
        if time.monotonic() - self.shown >= QUIET:
            self.show("under way or next: " + " ".join(self.ready()))

    def ready(self):
        """The crates that are not done and whose libraries are."""
        libraries = below.libraries()
        return [name for name in self.all if name not in self.done and not (set(libraries[name]) & set(self.all)) - self.done]

    def read(self, line):
        done, waits = DONE.match(line), WAITS.match(line)
        if done:
            self.done.add(done[1])
            self.show(f"{done[1]:18}  {'proved' if done[2] == 'proved' else 'kept from an earlier proof'}")
        elif waits:
            self.show(waits[1])
        elif FAILED.search(line) and line not in self.failures and "no proof: it calls " not in line:
            self.failures.append(line)

    def end(self, status, log):
        """Shows how the command ended."""
        if status == 0:
            self.show("all proved")
        else:
            print(*(self.failures or self.tail), f"status {status}; the whole text: {log}", sep="\n", flush=True)


def lines_of(pipe, seconds):
    """Yields each line of a pipe once it is there, and None for so long without one."""
    rest = b""
    while True:
        if not select.select([pipe], [], [], seconds)[0]:
            yield None
            continue
        block = os.read(pipe.fileno(), 65536)
        *whole, rest = (rest + block).split(b"\n")
        yield from (line.decode(errors="replace") for line in whole)
        if not block:
            break
    if rest:
        yield rest.decode(errors="replace")


def follow(run, progress, log):
    """Shows a command's lines until it has ended, and keeps them; returns its status."""
    with open(log, "w", encoding="utf-8") as kept:
        for line in lines_of(run.stdout, 1):
            if line is not None:
                print(line, file=kept, flush=True)
            progress.take(line)
    return run.wait()


def run_ci(folder, crates, log):
    """Runs `rt ci` in a folder and shows its progress; returns its status.

    A signal ends the command, and with it all that rt started; the status is then 128 and the signal's number.
    """
    for it in (signal.SIGINT, signal.SIGTERM, signal.SIGHUP):
        # A signal that the caller ignores, as nohup does, stays so.
        if signal.getsignal(it) is not signal.SIG_IGN:
            signal.signal(it, lambda number, _: sys.exit(128 + number))
    progress = Progress(crates)
    run = subprocess.Popen(["rt", "ci"], cwd=folder, stdin=subprocess.DEVNULL, stdout=subprocess.PIPE, stderr=subprocess.STDOUT)
    try:
        status = follow(run, progress, log)
        progress.end(status, log)
    except BrokenPipeError:
        # Whoever read the lines has gone, so what Python still has to write goes nowhere.
        os.dup2(os.open(os.devnull, os.O_WRONLY), sys.stdout.fileno())
        status = 128 + signal.SIGPIPE
    finally:
        # What rt started ends with rt, however rt ends.
        run.terminate()
        run.wait()
    return status if status >= 0 else 128 - status
