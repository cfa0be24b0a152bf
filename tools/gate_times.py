#!/usr/bin/env python3
"""Runs the gate from nothing and prints the processor seconds of each crate, as a table.

usage: tools/gate_times.py [RT CI'S ARGUMENTS ..]

Without arguments the gate takes nothing that an earlier run has kept: if the kit's `rt ci` has a word --anew, it gets
that; the others keep nothing. What the gate prints is kept in bin/gate.log.

The descendants of this run of the gate are looked at twice a second, and no other process: what a check has used when
it is last seen counts for its crate. The sum of all is what the system counts for the run when it has ended; what no
check was seen to use (the gate itself, compiled tests and programs, compilers) stands in the row "beside the checks".
"""
import collections
import os
import resource
import subprocess
import sys
import time

sys.dont_write_bytecode = True
import below

TOP = below.TOP
TICKS = os.sysconf("SC_CLK_TCK")
LOG = os.path.join(TOP, "bin", "gate.log")
KINDS = ("proof", "tests", "edits")

# The lower half: the tables and the wheel, tasks, timers, the inbox, the join word, jobs, combinators, streams, the
# machine with its executor and their lines, and the tests of these. The upper half is every other crate.
LOWER = (
    "mono_model mono_table mono_wheel mono_task mono_time mono_combine mono_stream "
    "mono_joinword mono_inbox mono_blocking mono_machine mono_replay "
    "mono_text mono_forms mono_sync test_futures test_threads example_parts"
).split()


def words_of(pid):
    with open(f"/proc/{pid}/cmdline", "rb") as file:
        return [word.decode(errors="replace") for word in file.read().split(b"\0")]


def seconds_of(pid):
    with open(f"/proc/{pid}/stat", encoding="ascii", errors="replace") as file:
        fields = file.read().rsplit(")", 1)[1].split()
    return sum(int(field) for field in fields[11:15]) / TICKS, int(fields[1])


def crate_of(pid):
    """The crate and the kind of a check, or none where the process is no check."""
    words = words_of(pid)
    if "--crate-name" not in words or words[1] not in ("build", "check"):
        return None
    crate = words[words.index("--crate-name") + 1]
    if "rt-edit" in os.readlink(f"/proc/{pid}/cwd"):
        return crate, "edits"
    return crate, "tests" if "--test" in words else "proof"


def descendants(root, parents):
    inside = {root}
    grew = True
    while grew:
        more = {pid for pid, parent in parents.items() if parent in inside} - inside
        inside |= more
        grew = bool(more)
    return inside


def look(root, used, kinds):
    parents = {}
    seconds = {}
    for name in os.listdir("/proc"):
        if name.isdigit():
            try:
                seconds[int(name)], parents[int(name)] = seconds_of(name)
            except (OSError, IndexError, ValueError):
                continue
    for pid in sorted(descendants(root, parents)):
        if kinds.get(pid) is None:
            try:
                kinds[pid] = crate_of(pid)
            except (OSError, IndexError):
                continue
        # A worker's time is its parent's once it has ended.
        if kinds[pid] and pid in seconds and not kinds.get(parents[pid]):
            key = (pid, kinds[pid])
            used[key] = max(used.get(key, 0), seconds[pid])


def arguments_from_nothing():
    """The arguments with which the kit's `rt ci` proves all anew: none if it always does."""
    said = subprocess.run(["rt", "help"], stdout=subprocess.PIPE, stderr=subprocess.STDOUT, text=True).stdout
    return ["--anew"] if "--anew" in said else []


def run_gate(arguments):
    """Runs the gate; gives what each check used, the last line, the status, and the processor seconds of the whole."""
    used, kinds = {}, {}
    os.makedirs(os.path.dirname(LOG), exist_ok=True)
    with open(LOG, "w+", encoding="utf-8") as log:
        run = subprocess.Popen(["rt", "ci", *arguments], cwd=TOP, stdout=log, stderr=log)
        while run.poll() is None:
            look(run.pid, used, kinds)
            time.sleep(0.5)
        log.seek(0)
        last = log.read().strip().rpartition("\n")[2]
    ended = resource.getrusage(resource.RUSAGE_CHILDREN)
    return used, last, run.returncode, ended.ru_utime + ended.ru_stime


def line(name, row):
    cells = [f"{row[kind]:.0f}" if row[kind] else "" for kind in KINDS]
    return f"| {name} | " + " | ".join(cells) + f" | {sum(row[kind] for kind in KINDS):.0f} |"


def total(table, crates):
    row = collections.Counter()
    for crate in crates:
        row.update(table[crate])
    return row


def minutes(row):
    return sum(row.values()) / 60


def print_table(used, whole):
    table = collections.defaultdict(collections.Counter)
    for (_, (crate, kind)), amount in used.items():
        table[crate][kind] += amount
    crates = [crate for crate in below.libraries() if crate in table]
    lower = total(table, [crate for crate in crates if crate in LOWER])
    upper = total(table, [crate for crate in crates if crate not in LOWER])
    beside = max(0.0, whole - sum(lower.values()) - sum(upper.values()))
    print("| Crate | Proof | Tests | Edits | All, in processor seconds |")
    print("|---|---:|---:|---:|---:|")
    for crate in crates:
        print(line(f"`{crate}`", table[crate]))
    print(line("lower half", lower))
    print(line("upper half", upper))
    print(f"| beside the checks | | | | {beside:.0f} |")
    print(f"| the whole gate | | | | {whole:.0f} |")
    print()
    print(
        f"Lower half {minutes(lower):.1f} processor minutes, upper half {minutes(upper):.1f}, "
        f"beside the checks {beside / 60:.1f}, the whole gate {whole / 60:.1f}"
    )


def main():
    below.need_rt()
    begin = time.time()
    used, last, status, whole = run_gate(sys.argv[1:] or arguments_from_nothing())
    print_table(used, whole)
    print(f"{(time.time() - begin) / 60:.1f} minutes by the clock on {os.cpu_count()} processors; {last}")
    return status


if __name__ == "__main__":
    sys.exit(main())
