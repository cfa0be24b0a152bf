#!/usr/bin/env python3
"""Writes docs/CALLS.md: the public calls of each library, by crate and by type, from the sources.

usage: tools/calls.py [--check]

A call's entry has its signature, its first sentence, the sentences that say when it is refused or fails, and the names
of its clauses. Listed are the crates of the sections from "parts" to "services", and of these what the crate's lib.rt
exports: its free functions, and the calls of its types and traits. With --check nothing is written, and the status is
1 if the page is not the one that the sources give.
"""
import collections
import glob
import os
import re
import sys

sys.dont_write_bytecode = True
import below

PAGE = os.path.join(below.TOP, "docs", "CALLS.md")
SECTIONS = ("parts", "futures", "executors", "services")
# The calls that a user looks for first, by subject.
SUBJECTS = """
    make a runtime       run_alone, start; RuntimeBuilder::new, build, build_sharing; Runtime::new      mono_rt
    run it               Runtime::block_on, run_until, spawn                                            mono_rt
    ask it               is_finished, poll_join, drop_join, tasks, turns, shared, context, journal      mono_rt
    end it               into_driver, into_pool, into_shared                                            mono_rt
    act in a turn        Context: me, now, wake; SpawnContext: spawn; JobContext: spawn_blocking        mono_task, mono_blocking
    wait for a task      JoinHandle, a future; is_finished, cancel_join                                 mono_task
    wait for a job       run_job; JobHandle, a future; poll_job, job_finished, drop_job                 mono_blocking
    sleep, time out      sleep_for, timeout_for, interval; sleep, timeout and their kin                 mono_time
    one after the other  FutureExt: map, then, and_then and their kin; repeat, lazy                     mono_forms
    several at once      Join2, TryJoin2, Select2 and their kin; race and its kin                       mono_combine, mono_forms
    streams              Stream, StreamExt                                                              mono_stream
    share a value        SharedState; SharedContext: shared, shared_mut                                 mono_task
    wait in it           Channel, Oneshot, Semaphore, Notify, Watch                                     mono_sync
    lock it, meet, tell  Mutex, RwLock, Barrier, OnceCell, Broadcast                                    mono_locks
    stop tasks, gather   run_until_cancelled, Tokens; JoinSet: enter, gather, join_next, shutdown       mono_groups
    simulate             World, run                                                                     mono_sim
    talk to threads      channel; remote_waker; RemoteWaker::wake                                       mono_channel, mono_inbox
    leases, limits, mail Leases, Buckets, Mailboxes to await; Sessions, Limiter, Actors without tasks   mono_serve and below
"""

NAME = re.compile(r"(?:pub )?(?:const )?(?:final )?fn (\w+)")
REFUSES = re.compile(r"^(Fails|Refuse|A refusal|If refused|If out of memory|Returns? `?(?:Err|None)|The answer is `Err)|refused|is `?None`?|fails? if", re.I)
Call = collections.namedtuple("Call", "owner name signature doc clauses requires")


def read(path):
    with open(path, encoding="utf-8") as file:
        return file.read().split("\n")


def listed_crates():
    """The crates of the listed sections, in order."""
    found, section = [], ""
    for line in read(os.path.join(below.TOP, "crates.txt")):
        heading = re.match(r"# == (\w+) ==", line)
        if heading:
            section = heading[1]
        elif line and not line.startswith("#") and section in SECTIONS:
            found.append(line.split(":")[0].split()[0])
    return found


def exports(folder):
    """The names that lib.rt exports, its public modules, and by module and name what these export of others."""
    text = "\n".join(read(os.path.join(folder, "src", "lib.rt")))
    names = set()
    for used in re.findall(r"^pub use (?!mono_)([^;]+);", text, re.M):
        names |= set(re.findall(r"\w+", used))
    modules = set(re.findall(r"^pub mod (\w+);", text, re.M))
    passed = {}
    for module in modules:
        path = os.path.join(folder, "src", f"{module}.rt")
        text = "\n".join(read(path)) if os.path.exists(path) else ""
        for of, used in re.findall(r"^pub use crate::(\w+)::([^;]+);", text, re.M):
            passed |= {(of, name): module for name in re.findall(r"\w+", used)}
    return names, modules, passed


def sentences_of(doc):
    text = " ".join(line for line in doc if not line.startswith("```")).strip()
    return re.split(r"(?<=[.:])\s+(?=[A-Z`\[])", text) if text else []


def doc_above(lines, at):
    """The lines of the comment above a line."""
    found = []
    while at > 0 and lines[at - 1].strip().startswith(("///", "#[")):
        at -= 1
        if lines[at].strip().startswith("///"):
            found.insert(0, lines[at].strip()[3:].strip())
    for end, line in enumerate(found):
        if line.startswith("```"):
            return found[:end]
    return found


def head_of(lines, at):
    """The signature that begins at a line, on one line, and the line after it."""
    parts = []
    while at < len(lines):
        text = lines[at].strip()
        if text.startswith(("ensures", "requires", "ghost ")) or text == "{":
            break
        parts.append(text)
        at += 1
        if text.endswith(("{", ";")):
            break
    text = " ".join(parts)
    text = re.sub(r"\s*[{;]$", "", text)
    text = text.replace("( ", "(").replace(", )", ")").replace(",)", ")").replace("< ", "<").replace(", >", ">")
    return re.sub(r"\bself: ", "", text), at


def clauses_from(lines, at):
    """The names of the clauses, and of the requirements, that follow a signature. A clause may take several lines."""
    ensures, requires, depth = [], [], 0
    while at < len(lines):
        text = lines[at].strip()
        clause = re.match(r"(ensures|requires)\b\s*(\w*)\s*\{", text)
        if depth == 0 and clause:
            (ensures if clause[1] == "ensures" else requires).append(clause[2])
        elif depth == 0 and (text in ("{", "") or not text.startswith(("ghost", "ensures", "requires"))):
            break
        depth += text.count("{") - text.count("}")
        at += 1
    return ensures, requires


def type_of(head):
    """The type or trait of a heading such as `impl<T> Name<T>`."""
    if head.startswith("pub trait "):
        return before_bounds(head[len("pub trait ") :]), "trait"
    body = re.sub(r"^impl\s*", "", head)
    depth = 0
    if body.startswith("<"):
        for at, char in enumerate(body):
            depth += (char == "<") - (char == ">" and body[at - 1] != "-")
            if depth == 0:
                body = body[at + 1 :].strip()
                break
    if re.search(r"\bfor\b", re.sub(r"<.*", "", body)) or " for " in body:
        return None, None
    body = re.sub(r"\s*\bwhere\b.*", "", body)
    return (body.strip(), "type") if re.match(r"\w", body) else (None, None)


def before_bounds(head):
    """A trait's name with its parameters, without its own bounds."""
    depth = 0
    for at, char in enumerate(head):
        depth += (char == "<") - (char == ">" and head[at - 1] != "-")
        if char == ":" and depth == 0:
            return head[:at].strip()
    return head.strip()


def calls_of(path):
    """The public calls of a file, each with the type that has it or none."""
    lines = read(path)
    owner, kind, at = None, None, 0
    while at < len(lines):
        line = lines[at]
        if re.match(r"(impl\b|pub trait )", line):
            head, at = head_of(lines, at)
            owner, kind = type_of(re.sub(r"\s+where\b.*", "", head))
            if owner is None:
                kind = "other"
            continue
        if line == "}":
            owner, kind = None, None
        inside = r"    (?:pub (?:const )?fn|(?:final )?fn) " if kind == "trait" else r"    pub (?:const )?fn "
        if (kind in ("type", "trait") and re.match(inside, line)) or (kind is None and re.match(r"pub (?:const )?fn ", line)):
            signature, after = head_of(lines, at)
            ensures, requires = clauses_from(lines, after)
            yield Call(owner, NAME.search(signature)[1], re.sub(r"^(pub |final )+", "", signature), doc_above(lines, at), ensures, requires)
        at += 1


def entry(call):
    """The lines of a call."""
    said = sentences_of(call.doc)
    lines = [f"- `{call.signature}`"]
    text = [said[0]] if said else []
    text += [sentence for sentence in said[1:] if REFUSES.search(sentence)]
    for word, names in (("Requires", call.requires), ("Clauses", call.clauses)):
        named = [f"`{name}`" for name in names if name]
        if named:
            text.append(f"{word}: {', '.join(named)}.")
    if text:
        lines.append("  " + " ".join(text))
    return lines


def place_of(call, of, names, modules, passed):
    """The heading below which a call of the file `of` stands, or None if the crate does not export it."""
    if call.owner:
        name = re.match(r"\w+", call.owner)[0]
        if (of, name) in passed:
            return f"`{passed[of, name]}::{call.owner}`"
        return f"`{call.owner}`" if name in names or of in modules else None
    if of == "laws" and of in modules:
        return "Laws"
    module = passed.get((of, call.name), of)
    if module in modules:
        return f"Functions of {module}"
    return "Functions" if call.name in names else None


def crate_lines(crate):
    """The lines of a crate, or none if it exports no call."""
    folder = os.path.join(below.TOP, "crates", crate)
    names, modules, passed = exports(folder)
    groups, heading = collections.defaultdict(list), {}
    for path in sorted(glob.glob(os.path.join(folder, "src", "**", "*.rt"), recursive=True)):
        of = os.path.relpath(path, os.path.join(folder, "src"))[: -len(".rt")].split(os.sep)[0]
        for call in calls_of(path):
            place = place_of(call, of, names, modules, passed)
            if place:
                name = place.split("<")[0].strip("`")
                groups[heading.setdefault(name, place)].append(call)
    about = [line[3:].strip() for line in read(os.path.join(folder, "src", "lib.rt")) if line.startswith("//!")]
    lines = [f"## {crate}", "", (sentences_of(about) or [""])[0], ""] if groups else []
    for place in sorted(groups, key=lambda place: (place == "Laws", place.startswith("Functions"), place)):
        lines += [f"### {place}", ""]
        for call in groups[place]:
            lines += entry(call)
        lines.append("")
    return lines


def page():
    lines = [
        "# Calls",
        "",
        "`tools/calls.py` writes this page from the sources. An entry has a call's signature, its first sentence, when it is",
        "refused, what it requires, and its clauses by name. A clause without a name is not listed. [GUIDE.md](GUIDE.md) shows",
        "how the calls go together; `mono_rt` re-exports the types of its signatures.",
        "",
        "## By subject",
        SUBJECTS,
    ]
    for crate in listed_crates():
        lines += crate_lines(crate)
    return "\n".join(lines).rstrip("\n") + "\n"


def main():
    text = page()
    if "--check" in sys.argv[1:]:
        with open(PAGE, encoding="utf-8") as file:
            if file.read() != text:
                print("docs/CALLS.md is not what the sources give: run tools/calls.py")
                return 1
        return 0
    with open(PAGE, "w", encoding="utf-8") as file:
        file.write(text)
    return 0


if __name__ == "__main__":
    sys.exit(main())
