#!/usr/bin/env python3
"""Tries the mutants of each folder planted/ on a copy of the repository, outside CI.

usage: tools/planted.py [--jobs N] [--built FOLDER] [--no-tests] [--only NAME,..] [--untried] [--list] [CRATE ..]

Each planted/*.edit has the form of a must-fail edit. The edits of must-fail/, which CI tries at each run, are tried
like them if the crate has both folders. The mutants of crates that are kept as text are tried, too. For each mutant a
row is printed: the crate, the mutant, and what refuses it. That is "clause" with the prover's words, or
"proof's text" if a proof only misses a name that the edit took away. It is "limit" if the prover gave up at a limit of
its own. It is "test" if the prover lets the edit through and a test of the crate or of one above it fails, or the
stored run of a program above it, with that crate. It is "served" if none of these refuses it and its line `served:`
names a row of `make server`, which is not run here; likewise "soak" if its line `soak:` names a call that `make soak`
refuses memory (tools/soak/refused.py). It is "no verdict" if a check or the tests of a crate do not end
well, "bad edit" if it does not apply or compile, or "GOT THROUGH". Then the kinds are counted for each crate.

A proof rests on the contracts of the functions that it calls, and never on their bodies. So an edit of bodies alone
is tried by a check of these functions. One check takes several edits of different functions; an edit whose function
calls one that is refused in the same check is tried again. Any other edit is tried by a check of its crate. First the
functions are checked as they are.

The libraries below the crates are taken from FOLDER/NAME.rlib, or else one run of `rt ci` proves them first. N checks
run at a time (2), each when memory is free. With --no-tests, what the prover lets through is not tested. With --only,
the named mutants alone are tried, and with --untried those that --list names.

The verdicts are kept in verdicts.txt beside the mutants, a line for each mutant: its name, the kind of verdict, and
what fails. With --list the kept verdicts are counted, and a mutant without one, or one that got through, is named. So
is one that only tests refuse and that tools/only_tests.txt lacks, and one of that file without such a verdict.
"""
import argparse
import collections
import os
import re
import shutil
import subprocess
import sys
import tempfile
import threading
from concurrent.futures import ThreadPoolExecutor
from queue import Queue

sys.dont_write_bytecode = True
import below
import layout
import prover
from edits import Edit, module_of

TOP = below.TOP
# How long the tests of one crate may take, in seconds.
LIMIT = 600
# How many edits one check takes at most.
MOST = 8
# A statement of specs/ that is proved there, and that the prover rejects, with those that rest on it.
REJECTED = re.compile(r"depend on `([^`]+)`, which was (?:rejected|not admitted)")
KINDS = ("clause", "proof's text", "limit", "test", "served", "soak", "let through", "GOT THROUGH", "no verdict", "bad edit")
# The kinds of a mutant that the prover lets through, and that something else refuses.
TESTED = ("test", "served", "soak")
# The page with a table of the kinds of those mutants, its heading, and the file with their names.
PAGE, HEADING, NAMES = "docs/GATE.md", "What only tests refuse", "tools/only_tests.txt"
# The kinds of a mutant that nothing is known to refuse.
OPEN = (None, "let through", "GOT THROUGH", "no verdict", "bad edit")


def crates(names):
    have = [name for name in below.libraries() if os.path.isdir(os.path.join(layout.folder_of(name), "planted"))]
    unknown = [name for name in names if name not in have]
    if unknown:
        sys.exit("no mutants in: " + " ".join(unknown))
    return names or have


def mutants_of(crate):
    """The file of each mutant of a crate, by the mutant's name: those of planted/, and those of must-fail/."""
    found = {}
    for part in ("must-fail", "planted"):
        folder = os.path.join(layout.folder_of(crate), part)
        for file in sorted(os.listdir(folder)) if os.path.isdir(folder) else ():
            if file.endswith(".edit"):
                found[file.removesuffix(".edit")] = os.path.join(folder, file)
    return dict(sorted(found.items()))


def is_chosen(crate, name, options):
    """Whether the options ask for a mutant."""
    if options.only and name not in options.only.split(","):
        return False
    return not options.untried or kind_of(kept_verdicts(crate).get(name, "")) in OPEN


def copy_of_the_repository(folder):
    copy = os.path.join(folder, "copy")
    leave = shutil.ignore_patterns("out", ".git", "bin")
    shutil.copytree(TOP, copy, ignore=leave)
    for name in below.texts():
        layout.lay_crate(name, copy)
    with open(os.path.join(copy, "crates.txt"), "w", encoding="utf-8") as out:
        out.write("\n".join(below.lines().values()) + "\n")
    subprocess.run(["git", "init", "-q", copy], check=True)
    return copy


def batches(edits, folder):
    """Groups of edits of different functions, each with the texts of all its edits."""
    made = []
    for edit in edits:
        for group, functions, texts in made:
            if len(group) < MOST and not any(is_within(one, other) for one in functions for other in edit.functions):
                over = edit.over(folder, texts)
                if over is not None:
                    group.append(edit)
                    functions |= set(edit.functions)
                    texts.update(over)
                    break
        else:
            made.append(([edit], set(edit.functions), dict(edit.texts)))
    return [(group, texts) for group, _, texts in made]


def is_within(one, other):
    """Whether one of two paths is the other, or a module or a type that holds it."""
    return f"{one}::".startswith(f"{other}::") or f"{other}::".startswith(f"{one}::")


class Trial:
    """Tries the edits of one crate by the prover. `verdicts` has for each edit's name its kind and a text.

    A verdict is kept as soon as it is there, so that a run that is ended early loses none.
    """

    def __init__(self, of, jobs):
        self.of, self.crate = of, of.crate.name
        self.verdicts = {}
        self.workers = Queue()
        self.workers.put(0)
        self.jobs = jobs
        self.keeping = threading.Lock()

    def say(self, edit, kind, text):
        self.verdicts[edit.name] = kind, text
        with self.keeping:
            keep_verdicts(self.crate, {edit.name: (kind, text)})
        if kind != "let through":
            print_row(self.crate, edit.name, kind, text)

    def check(self, texts, only, holes=True):
        worker = self.workers.get()
        try:
            return prover.Told(self.crate, *self.of.check(worker, texts, only, holes))
        finally:
            self.workers.put(worker)

    def check_as_they_are(self, edits):
        """Checks the functions of the edits without any edit, and returns the edits whose functions are proved so.

        If the prover does not know the path of a function, its module is asked for, or at the root the whole crate.
        """
        asked, told = edits, None
        while asked:
            paths = sorted({path for edit in asked for path in edit.functions})
            told = self.check({}, paths)
            unknown = told.unknown() & set(paths)
            if not unknown:
                break
            for edit in asked:
                ask_for_modules(edit, unknown)
            asked = [edit for edit in asked if edit.functions is not None]
        self.of.share(self.jobs)
        for worker in range(1, self.jobs):
            self.workers.put(worker)
        good = []
        for edit in asked:
            said = [text for path in edit.functions for text in told.of(path)]
            if said and all(is_proved(text) for text in said):
                good.append(edit)
            else:
                self.say(edit, "no verdict", f"not proved without it: {(said or told.errors() or ['?'])[0]}")
        return good

    def try_bodies(self, edits):
        """Tries edits of bodies by checks of their functions, and leaves one of an unknown function to try_whole."""
        left = self.check_as_they_are(edits)
        with ThreadPoolExecutor(self.jobs) as pool:
            while left:
                again = list(pool.map(lambda batch: self.try_batch(*batch), batches(left, self.of.crate.folder)))
                left = [edit for edits in again for edit in edits]

    def try_batch(self, group, texts):
        """Tries edits of different functions, and returns those that have to be tried again."""
        paths = sorted({path for edit in group for path in edit.functions})
        told = self.check(texts, paths)
        if not told.has_ended or any(told.unread(edit.texts) for edit in group):
            if len(group) > 1:
                return [*self.try_parts(group[::2]), *self.try_parts(group[1::2])]
            self.say(group[0], *unended(told, group[0]))
            return []
        again = []
        for edit in group:
            found = self.found(told, edit, len(group) == 1)
            if found:
                self.say(edit, *found)
            else:
                again.append(edit)
        return again

    def try_parts(self, group):
        return [edit for batch in batches(group, self.of.crate.folder) for edit in self.try_batch(*batch)]

    def found(self, told, edit, is_alone):
        """What a check came to for an edit, or None if it has to be tried in other company."""
        said = [text for path in edit.functions for text in told.of(path)]
        refused = [text for text in said if not is_proved(text) and not is_open(text)]
        if refused:
            line, misses = told.reason(edit.functions)
            return ("proof's text" if misses else "clause"), line or refused[0]
        if said and all(is_proved(text) for text in said):
            return "let through", "by the prover"
        if not is_alone:
            return None
        if "could not tell" in said:
            return "limit", told.limit()
        return "no verdict", (said or ["the prover says nothing of its function"])[0]

    def try_whole(self, edits):
        """Tries each edit by a check of the whole crate."""
        with ThreadPoolExecutor(self.jobs) as pool:
            list(pool.map(self.try_one, edits))

    def try_one(self, edit):
        told = self.check(edit.texts, None, holes=False)
        if told.status == 0:
            return self.say(edit, "let through", "by the prover")
        if not told.has_ended or told.unread(edit.texts):
            return self.say(edit, *unended(told, edit))
        if told.status == 3:
            return self.say(edit, "limit", told.limit())
        line, misses = told.reason()
        return self.say(edit, "proof's text" if misses else "clause", line)


def ask_for_modules(edit, unknown):
    """Puts the module in the place of a function that is not known."""
    for path in unknown & set(edit.functions):
        module = "::".join(module_of(edit.functions[path][0]))
        if not module or path == module:
            edit.functions = None
            return
        edit.functions[module] = edit.functions.pop(path)


def is_proved(said):
    return said in ("no holes", "proved")


def is_open(said):
    """Whether the prover says nothing of the function itself."""
    return said == "could not tell" or prover.RESTS.match(said) is not None


def unended(told, edit):
    """The verdict on an edit whose check says nothing of functions."""
    line = told.unread(edit.texts) or next((line for line in told.text.split("\n") if "error" in line), "")
    rejected = REJECTED.search(line)
    if rejected and not any(rejected[1] in text for pair in edit.pairs for text in pair):
        return "clause", line
    if told.status in (1, 2) and line:
        return "bad edit", line
    return "no verdict", f"its check ended with status {told.status}: {told.text.strip().rpartition(chr(10))[2]}"


def has_tests(copy, crate):
    folder = os.path.join(copy, "crates", crate, "src")
    for at, _, names in os.walk(folder):
        for name in names:
            if name.endswith(".rt"):
                with open(os.path.join(at, name), encoding="utf-8") as text:
                    if "#[test]" in text.read():
                        return True
    return False


def has_stored_run(copy, crate):
    """Whether the crate is a program with a stored run."""
    return os.path.exists(os.path.join(copy, "crates", crate, "stdout"))


def above(crate):
    """The crates that may run the crate's code: itself, those that name it, and those that stand on it."""
    libraries = below.libraries()
    reached, row = [], [crate]
    while row:
        reached += row
        row = [name for name, of in libraries.items() if name not in reached and set(of) & set(row)]
    return reached


def run_tests(copy, crate):
    """How the crate's tests end: the status of rt."""
    return subprocess.run(
        ["rt", "try", "--test"],
        cwd=os.path.join(copy, "crates", crate),
        stdout=subprocess.DEVNULL,
        stderr=subprocess.DEVNULL,
        timeout=LIMIT,
    ).returncode


def failing_tests(copy, crate, edit, jobs):
    """The kind of verdict, and the nearest crate of which a test fails with the edit, or does not end."""
    folder = os.path.join(copy, "crates", crate)
    before = {path: layout.stored(folder, path) for path in edit.texts}
    write(folder, {path: text.encode() for path, text in edit.texts.items()})
    found = []

    def tries(name):
        if not found:
            found.extend(failure_of(copy, name))

    with ThreadPoolExecutor(jobs) as pool:
        list(pool.map(tries, above(crate)))
    write(folder, before)
    if not found and edit.served:
        return "served", f"make server, row {edit.served}"
    if not found and edit.soak:
        return "soak", f"make soak, call {edit.soak}"
    return found[0] if found else ("GOT THROUGH", "the prover and all tests")


def failure_of(copy, name):
    """The verdict by the tests or the stored run of a crate, if one fails or does not end."""
    try:
        status = 0
        if has_tests(copy, name):
            status = run_tests(copy, name)
        elif has_stored_run(copy, name):
            status = layout.run_unproved(os.path.join(copy, "crates", name))
    except subprocess.TimeoutExpired:
        return [("no verdict", f"the tests of {name} had not ended after {LIMIT} seconds")]
    return [("test", f"of {name}")] if status not in (0, 2) else []


def write(folder, texts):
    for path, text in texts.items():
        with open(os.path.join(folder, path), "wb") as out:
            out.write(text)


def print_row(crate, name, kind, text):
    print(f"{crate:14} {name[: -len('.edit')]:45} {kind:13} {text[:160]}", flush=True)


def try_crate(rtlib, copy, crate, options):
    """Tries the crate's edits, and returns how many have each kind of verdict."""
    folder = os.path.join(copy, "crates", crate)
    edits = [Edit(folder, path) for name, path in mutants_of(crate).items() if is_chosen(crate, name, options)]
    if not edits:
        return collections.Counter()
    trial = Trial(prover.Prover(rtlib, copy, crate), options.jobs)
    for edit in edits:
        if edit.bad:
            trial.say(edit, "bad edit", edit.bad)
    good = [edit for edit in edits if not edit.bad]
    trial.try_bodies([edit for edit in good if edit.functions is not None])
    trial.try_whole([edit for edit in good if edit.functions is None and edit.name not in trial.verdicts])
    for edit in good:
        if trial.verdicts[edit.name][0] == "let through":
            if not options.no_tests:
                trial.verdicts[edit.name] = failing_tests(copy, crate, edit, options.jobs)
            print_row(crate, edit.name, *trial.verdicts[edit.name])
    shutil.rmtree(trial.of.kept, ignore_errors=True)
    keep_verdicts(crate, trial.verdicts)
    return collections.Counter(kind for kind, _ in trial.verdicts.values())


def record_of(crate):
    folder = below.texts().get(crate, os.path.join(TOP, "crates", crate))
    return os.path.join(folder, "planted", "verdicts.txt")


def kept_verdicts(crate):
    """The verdicts that were kept, by the mutant's name."""
    if not os.path.exists(record_of(crate)):
        return {}
    with open(record_of(crate), encoding="utf-8") as file:
        rows = (line.rstrip("\n").split(": ", 1) for line in file)
        return {name: said for name, said in rows}


def what_fails(kind, text):
    """The goal that is not proved, if the prover names one, the crate of the test that fails, or the row or call."""
    if kind in ("served", "soak"):
        return text.rpartition(" ")[2]
    goal = re.search(r"`((?:returns|loop|invariant|[a-z_0-9]+-requires)[^`]*)`", text)
    return goal[1] if goal and kind != "test" else text.removeprefix("of ") if kind == "test" else ""


def keep_verdicts(crate, verdicts):
    """Writes the verdicts of a crate down, with those kept of mutants that were not tried."""
    there = mutants_of(crate)
    rows = {name: said for name, said in kept_verdicts(crate).items() if name in there}
    for name, (kind, text) in verdicts.items():
        rows[name.removesuffix(".edit")] = f"{kind} {what_fails(kind, text)}".strip()
    with open(record_of(crate), "w", encoding="utf-8") as file:
        file.writelines(f"{name}: {said}\n" for name, said in sorted(rows.items()))


def kind_of(said):
    """The kind of a kept verdict, or None if it has none."""
    return next((kind for kind in KINDS if said.startswith(kind)), None)


def named_by_kinds():
    """How often the file of names has each mutant. The table of the page has to have its kinds, each with its number."""
    with open(os.path.join(TOP, PAGE), encoding="utf-8") as page:
        _, _, text = page.read().partition(f"## {HEADING}\n")
    rows = dict(re.findall(r"^\| (.*?) \|.*\| (\d+) \|$", text.partition("\n## ")[0], re.M))
    found = collections.Counter()
    with open(os.path.join(TOP, NAMES), encoding="utf-8") as file:
        for line in file:
            kind, _, names = line.rstrip("\n").rpartition(": ")
            if line.startswith("#"):
                continue
            found.update(names.split())
            if rows.pop(kind, None) != str(len(names.split())):
                print(f"{PAGE}: the table lacks {len(names.split())} mutants: {kind}")
    for kind in rows:
        print(f"{NAMES} lacks: {kind}")
    return found


def compare_with_the_page(tested):
    """Names what the file of names lacks of these mutants, and what it has beyond them. Returns how many."""
    named = named_by_kinds()
    for name in sorted((tested - named).elements()):
        print(f"{NAMES}: only a test refuses {name}, and it is lacking")
    for name in sorted((named - tested).elements()):
        print(f"{NAMES}: {name} has no such verdict")
    return ((tested - named) + (named - tested)).total()


def list_verdicts(names):
    """Counts the kept verdicts, and names each mutant that has none or got through. So it does with those that only tests
    refuse, and that the page lacks."""
    found = collections.Counter()
    tested = collections.Counter()
    missing = 0
    for crate in names:
        rows = kept_verdicts(crate)
        for edit in mutants_of(crate):
            kind = kind_of(rows.get(edit, ""))
            found[kind] += 1
            tested[edit] += kind in TESTED
            if kind in OPEN:
                print(f"{crate:14} {edit:45} {kind or 'not tried'}")
                missing += 1
    if set(names) == set(crates([])):
        missing += compare_with_the_page(tested)
    print(f"all: {counts(found)}, {found[None]} not tried")
    return 1 if missing else 0


def counts(found):
    return ", ".join(f"{found[kind]} {kind}" for kind in KINDS if found[kind])


def options_of(words):
    parser = argparse.ArgumentParser(usage=__doc__)
    parser.add_argument("--jobs", type=int, default=2)
    parser.add_argument("--built")
    parser.add_argument("--no-tests", action="store_true")
    parser.add_argument("--only")
    parser.add_argument("--untried", action="store_true")
    parser.add_argument("--list", action="store_true")
    parser.add_argument("crates", nargs="*")
    return parser.parse_args(words)


def main():
    options = options_of(sys.argv[1:])
    if options.list:
        return list_verdicts(crates(options.crates))
    below.need_rt()
    all_found = collections.Counter()
    with tempfile.TemporaryDirectory(prefix="planted-") as folder:
        copy = copy_of_the_repository(folder)
        rtlib = prover.kit()
        names = crates(options.crates)
        prover.take_libraries(rtlib, copy, names, options.built)
        for crate in names:
            found = try_crate(rtlib, copy, crate, options)
            all_found += found
            print(f"{crate}: {counts(found)}", flush=True)
    print(f"all: {counts(all_found)}")
    return 1 if all_found["GOT THROUGH"] else 0


if __name__ == "__main__":
    sys.exit(main())
