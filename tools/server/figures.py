#!/usr/bin/env python3
"""Measures the server beside the same server on tokio, in one run.

usage: tools/server/figures.py SERVER PEER [LINES]

SERVER is bin/lease_server, PEER what build_peer.sh built. It prints requests a second with 1, 2 and 4 cores (the best of
eight runs, from a file to a file), latencies at half of that load with 2 cores (latency.rs), and the memory of 1,000,000
leases.
"""
import os
import pathlib
import subprocess
import sys
import tempfile
import time

from load import Load

SIZES = ["2000000", "2000000", "100000", "100000", "1000000"]


def run(program, cores, lines, folder):
    """Seconds and the greatest resident kilobytes of one run."""
    with open(lines, "rb") as source, open(folder / "replies", "wb") as out:
        begin = time.monotonic()
        child = subprocess.Popen([program, str(cores), *SIZES], stdin=source, stdout=out)
        _, status, usage = os.wait4(child.pid, 0)
        seconds = time.monotonic() - begin
    if status != 0:
        sys.exit(f"{program} ended with {status}")
    return seconds, usage.ru_maxrss


def latencies(driver, program, cores, lines, rate):
    """What the driver prints of the delays at a rate of lines a second."""
    words = [driver, program, str(rate), str(lines), str(cores), *SIZES]
    return subprocess.run(words, stdout=subprocess.PIPE, text=True, check=True).stdout.strip()


def memory(program, folder):
    """The peak of 1,000,000 leases without that of one, in mebibytes.

    A child's peak counts what its parent held when it began, so this comes before the parent makes anything large.
    """
    peaks = []
    for leases in (1, 1000000):
        with open(folder / "lines", "w", encoding="ascii") as out:
            out.writelines(f"open {key} 3600000\n" for key in range(leases))
        peaks.append(run(program, 2, folder / "lines", folder)[1])
    return (peaks[1] - peaks[0]) / 1024


def print_each(what, figures):
    """Prints one line with the figure of each program."""
    print(f"{what}: " + ", ".join(f"{pathlib.Path(program).name} {figure:,.0f}" for program, figure in figures.items()), flush=True)


def main():
    programs = sys.argv[1:3]
    count = int(sys.argv[3]) if len(sys.argv) > 3 else 3000000
    with tempfile.TemporaryDirectory() as name:
        folder = pathlib.Path(name)
        held = {program: memory(program, folder) for program in programs}
        best = {}
        for cores in (1, 2, 4):
            load = Load(1, cores, 2000)
            text = "".join(load.line() + "\n" for _ in range(count)).encode()
            (folder / "lines").write_bytes(text)
            for program in programs * 8:
                seconds, _ = run(program, cores, folder / "lines", folder)
                best[program, cores] = max(best.get((program, cores), 0), count / seconds)
            print_each(f"requests a second, {cores} cores", {program: best[program, cores] for program in programs})
            if cores == 2:
                (folder / "lines").rename(folder / "two")
        driver = folder / "latency"
        source = pathlib.Path(__file__).with_name("latency.rs")
        subprocess.run(["rustc", "--edition", "2021", "-C", "opt-level=3", source, "-o", driver], check=True)
        for program in programs:
            rate = best[program, 2] / 2
            told = latencies(driver, program, 2, folder / "two", rate)
            print(f"{pathlib.Path(program).name}: latency at {rate:,.0f} a second: {told}", flush=True)
        print_each("MiB for 1,000,000 leases", held)


if __name__ == "__main__":
    main()
