#!/usr/bin/env python3
"""Lists each crate that makes or holds something and never calls what gives it up, and each future that polls another and
whose `cancel` gives nothing up. Ends with status 1 if there is one.

The crates are example_* and those of which docs/GUIDE.md shows code. The pairs are the table "Give up what you hold" of that
guide, row by row. Names alone decide, so this finds only what a crate forgets altogether. It leaves out what ends with its
runtime: tasks that `Runtime::spawn` makes, and channels, semaphores and watched values of the shared value.

usage: tools/give_up.py
"""
import glob
import os
import re
import sys

TOP = os.path.dirname(os.path.dirname(os.path.abspath(__file__)))

FORMS = (
    "SleepFor|TimeoutFor|Race|RaceEither|RaceList|Repeat|Map|MapOk|MapErr|Inspect|Then|Flatten|AndThen|TryFlatten|OrElse"
    "|TryFlattenErr|Fuse|RunJob|Join2|JoinList|TryJoin2|TryJoinList|Select2|SelectList"
)

POLLS = r"\.poll\(rt,|\bTaskFuture::<\w+>::poll\("
# polls a future in the expression that makes it: it borrows an end of a channel, and nothing of it is left
POLLS_AT_ONCE = r"\.(send|recv)\([^()]*\)\.poll\(rt,"

# what a crate makes, how its code has it, and the calls of which one gives it up
MADE = [
    ("polls a future", POLLS, [".cancel("]),
    ("makes a sleep", r"\bsleep(_until)?\(alloc", [".cancel("]),
    ("makes an interval", r"\binterval(_at)?\(alloc", [".cancel("]),
    ("makes a timeout", r"\btimeout(_at)?\(alloc", [".cancel(", ".into_inner("]),
    ("makes a task's handle", r"\bcx\.spawn\(", [".cancel_join(", ".cancel(", ".drop_join("]),
    ("makes a job's handle", r"\bcx\.spawn_blocking\(", [".cancel_join(", ".drop_job(", ".cancel("]),
    ("takes a permit", r"\b(Acquire(::<\w+>)?::new\(\)|try_acquire\b)", ["permits::release", "acts::release"]),
    ("takes a key of a session", r"\bAcquire::new\(\s*\w", ["locks::release", "locks::close"]),
    ("has an end of a channel between runtimes", r"\b(Sender|Receiver)<", [".close("]),
]

# what a struct or an enum holds, the names of its type, and the calls
HELD = [
    ("a sleep or an interval", "Sleep|Interval", [".cancel("]),
    ("a form", FORMS, [".cancel("]),
    ("an Either", "Either", [".cancel("]),
    ("a timeout", "Timeout", [".cancel(", ".into_inner("]),
    ("a task's handle", "JoinHandle", [".cancel_join(", ".cancel(", ".drop_join("]),
    ("a job's handle", "JobHandle", [".cancel_join(", ".drop_job(", ".cancel("]),
    ("a future over shared state", "Send|Recv|Acquire|Notified|Changed|Take|Keeper", [".cancel("]),
]


# crates whose program is about what nobody gives up
KEPT = {"example_waits": "takes a permit"}


def code(crate):
    """The crate's lines without comments and white space at their ends."""
    text = ""
    for path in sorted(glob.glob(os.path.join(crate, "src", "**", "*.rt"), recursive=True)):
        with open(path, encoding="utf-8") as file:
            text += "".join(line.split("//")[0].strip() + " " for line in file)
    return re.sub(POLLS_AT_ONCE, " ", text)


def block(text, start):
    """The block of braces that begins at or after a place."""
    begin = text.find("{", start)
    depth = 0
    for place in range(begin, len(text)):
        depth += {"{": 1, "}": -1}.get(text[place], 0)
        if depth == 0:
            return text[begin : place + 1]
    return ""


def forgotten(text):
    for thing, maker, calls in MADE:
        if re.search(maker, text) and not any(call in text for call in calls):
            yield f"{thing}, and never calls {' or '.join(calls)}"
    fields = " ".join(
        block(text, found.start()) for found in re.finditer(r"\b(struct|enum) \w+(<[^{;(]*>)? \{", text)
    )
    for thing, names, calls in HELD:
        # the name as a type: after a colon, an angle or a bracket
        held = re.search(rf"[:<(,] ?(\w+::)*({names})\b(?! ?[:(])", fields)
        if held and not any(call in text for call in calls):
            yield f"holds {thing}, and never calls {' or '.join(calls)}"
    for found in re.finditer(r"\bTaskFuture<[^{;]*?> for (\w+)", text):
        body = block(text, found.start())
        cancel = block(body, body.find("fn cancel(")) if "fn cancel(" in body else ""
        if re.search(POLLS, body) and not re.search(r"\b[a-z]\w*\(", cancel):
            yield f"polls a future in {found.group(1)}, whose `cancel` calls nothing"


def crates():
    shown = set(glob.glob(os.path.join(TOP, "crates", "example_*")))
    with open(os.path.join(TOP, "docs", "GUIDE.md"), encoding="utf-8") as guide:
        for name in re.findall(r"^// (\w+)/src/", guide.read(), re.M):
            shown.add(os.path.join(TOP, "crates", name))
    return sorted(shown)


def main():
    status = 0
    for crate in crates():
        name = os.path.basename(crate)
        for thing in forgotten(code(crate)):
            if not thing.startswith(KEPT.get(name, "-")):
                print(f"{name} {thing}")
                status = 1
    return status


if __name__ == "__main__":
    sys.exit(main())
