"""The table of channels: `mono_bench channels` next to `tokio.rs` on tokio's current-thread runtime.

cargo builds `tokio.rs` without a network, over Debian's package librust-tokio-dev. A sentence takes the table's place if
either is missing.
"""
import os
import shutil
import subprocess

HERE = os.path.dirname(os.path.abspath(__file__))
MANIFEST = """[package]
name = "messages"
version = "0.0.0"
edition = "2021"
[dependencies]
tokio = { version = "1", features = ["rt", "sync"] }
[profile.release]
opt-level = 3
lto = "thin"
codegen-units = 1
panic = "abort"
"""
CONFIG = """[source.crates-io]
replace-with = "debian"
[source.debian]
directory = "{}"
[net]
offline = true
"""


def registry():
    """Returns the folder of Debian's crates, or None if the package or a tool is missing."""
    if not shutil.which("dpkg") or not shutil.which("cargo"):
        return None
    listed = subprocess.run(["dpkg", "-L", "librust-tokio-dev"], capture_output=True, text=True)
    for line in listed.stdout.splitlines():
        folder, name = os.path.split(line)
        if name == "Cargo.toml":
            return os.path.dirname(folder)
    return None


def build(folder):
    """Builds the program in this folder, and returns its path, or None if it cannot be built here."""
    crates = registry()
    if not crates:
        return None
    for name in ("src", ".cargo"):
        os.makedirs(os.path.join(folder, name))
    shutil.copy(os.path.join(HERE, "tokio.rs"), os.path.join(folder, "src", "main.rs"))
    for name, text in (("Cargo.toml", MANIFEST), (os.path.join(".cargo", "config.toml"), CONFIG.format(crates))):
        with open(os.path.join(folder, name), "w", encoding="utf-8") as out:
            out.write(text)
    flags = {"RUSTFLAGS": "--cap-lints allow"}
    subprocess.run(["cargo", "build", "--release", "--offline", "-q"], cwd=folder, env={**os.environ, **flags}, check=True)
    return os.path.join(folder, "target", "release", "messages")


def channels(b):
    """Prints the table of channels."""
    program = build(b.path("tokio"))
    if not program:
        print("\n## Channels\n\nLeft out: tokio's program needs cargo and Debian's package librust-tokio-dev.", flush=True)
        return
    count, runs = "1000000", b.runs
    b.runs = 7
    words = ("mpsc", "keyed", "permits", "oneshot", "waits", "threads")
    # tokio has no channels by key.
    plain = {word: [program, word, count] for word in words if word != "keyed"}
    rows = [(f"{word} {count}", [b.bench, "channels", word, count], plain.get(word), None) for word in words]
    b.table("Channels", "mono_bench channels WORKLOAD N", rows, "tokio")
    keyed(b, count)
    b.runs = runs
    jobs(b, program)


def keyed(b, count):
    """Prints what the same messages cost over one of many channels, by that of the one channel."""
    here, there = b.pair([b.bench, "channels", "keyed", count], [b.bench, "channels", "mpsc", count])
    print(f"\n`mono_bench channels keyed {count}`, by the time of `mpsc`: {here[0] / max(there[0], 1e-6):.2f}.", flush=True)


def jobs(b, program):
    """Prints what a blocking job's round trip on one worker costs, in a script of 60 tasks with 60 jobs each."""
    lines = ["limits 100 100 100", "task", *["spawn 1"] * 60, *(f"join {at}" for at in range(60)), "done 0"]
    lines += ["task", *(word for at in range(60) for word in ("block 1", f"await-job {at}")), "done 0", ""]
    with open(b.path("jobs"), "w", encoding="ascii") as out:
        out.write("\n".join(lines))
    ours = min(b.once([b.program, "run", "1", "65536"], b.path("jobs"))[0] for _ in range(b.runs)) / 3600
    theirs = min(b.once([program, "jobs", "3600"], None)[0] for _ in range(b.runs)) / 3600
    print("\nA job's round trip on one worker, by `monoio run 1 65536` with its journal:", end=" ")
    print(f"{1e6 * ours:.1f} microseconds of processor time, tokio's {1e6 * theirs:.1f}: {ours / theirs:.2f}.", flush=True)
