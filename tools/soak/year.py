#!/usr/bin/env python3
"""Runs a year of a lease server, and compares its memory after an hour with that at the end.

usage: tools/soak/year.py PROGRAM PLAIN EVENTS [SEED]

PROGRAM is `mono_bench`, and PLAIN the program of tools/bench/year.rs, which has to print the same lines. Both print a line
after an hour, after a month and at the end. The run fails if a line differs, or if the peak memory after the hour and
that at the end differ by more than a tenth.

A program that `rt try` built has AddressSanitizer, which keeps freed memory: there, set ASAN_OPTIONS to
quarantine_size_mb=0:thread_local_quarantine_size_kb=0.
"""
import os
import subprocess
import sys
import time

MOMENTS = ("after an hour", "after a month", "at the end")


def memory(pid):
    """The peak and the present resident set of a process, in KB, or None once it has ended."""
    try:
        with open(f"/proc/{pid}/status") as status:
            rows = dict(line.split(":", 1) for line in status if line.startswith("Vm"))
        return tuple(int(rows[name].split()[0]) for name in ("VmHWM", "VmRSS"))
    except (OSError, KeyError):
        return None


def next_line(run):
    """The line of a moment, and the memory then."""
    line = run.stdout.readline()
    return line, memory(run.pid)


def last_line(run, last):
    """The line at the end, and the memory at most a second before."""
    while run.poll() is None:
        last = memory(run.pid) or last
        time.sleep(min(1, 0.02 + (time.monotonic() - START) / 100))
    return run.stdout.read(), last


def main():
    program, plain, events, seed = (*sys.argv[1:], "1")[:4]
    words = [events, seed]
    with subprocess.Popen([program, "year", *words], stdout=subprocess.PIPE, text=True) as run:
        first, new = next_line(run)
        second, before = next_line(run)
        last, after = last_line(run, before)
    if run.returncode != 0 or None in (new, before, after):
        sys.exit(f"the program ended with status {run.returncode}, or before its memory was read")
    for name, line, (peak, resident) in zip(MOMENTS, (first, second, last), (new, before, after)):
        print(f"{line.strip()}\n  {name}: peak {peak} KB, resident {resident} KB")
    print(f"  {time.monotonic() - START:.0f} seconds")
    if subprocess.run([plain, *words], stdout=subprocess.PIPE, text=True, check=True).stdout != first + second + last:
        sys.exit("the plain program prints other lines")
    print("the plain program prints the same lines")
    if 10 * abs(after[0] - new[0]) > new[0]:
        sys.exit("the peak memory differs by more than a tenth")


START = time.monotonic()

if __name__ == "__main__":
    main()
