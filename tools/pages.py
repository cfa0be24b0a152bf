#!/usr/bin/env python3
"""Compiles the first Rust example of each page as it stands, by `rt try`, before any proof, and runs it as the page says.

usage: tools/pages.py

A page is README.md, a file of docs, or a crate's README. An example that begins with `//` and a file of crates/ has parts of
that file, but for its imports; if the text behind it says "prints `LINE`", the crate's stored run has that line. The first
examples of the pages that differ from their file, or name none, become modules of one program in a folder of its own,
which names each crate that an example names. If the text behind an example begins with "`CALL` returns `PATTERN`", the
program makes that call, with the host `rt` and its allocator `alloc`, and matches what it returns. One example may have a
`main`, and has to print the line of "prints `LINE`". The status is that of rt, or 1 if a page says something else.
"""
import glob
import os
import re
import shutil
import subprocess
import sys
import tempfile

sys.dont_write_bytecode = True
import below

# The function that makes a page's call, and the line of the program that prints the page if the call returns what it says.
CHECK = """
pub fn is_as_said<R: mono_model::Host + Send + 'static>(
    rt: &R,
    alloc: std::alloc::Global,
) -> Result<bool, std::alloc::AllocError> {{
    Ok(matches!({call}, {pattern}))
}}
"""
TELL = """    match {name}::is_as_said(&rt, rt.alloc()) {{
        Ok(true) => println!(rt; "{name}")?,
        _ => println!(rt; "{name} returns something else")?,
    }}
"""
MAIN = "fn main(rt: HostRuntime) -> io::Result<()> {\n"
# The first line of an example that is a part of a file.
NAMED = re.compile(r"// (?:crates/)?(\w+/src/\S+\.rt)[^\n]*\n")


def body_of(text):
    """Returns the lines of a text without white space at their ends, and without imports."""
    text = re.sub(r"^(ghost )?use [^;]*;\n", "", text, flags=re.S | re.M)
    return "\n".join(line.strip() for line in text.strip().split("\n"))


def is_in_file(page, file, text, line):
    """Returns whether the text is a part of the file as it stands. Ends the program if it is none without its imports, or
    if the line that it prints is not stored."""
    with open(file, encoding="utf-8") as source:
        whole = source.read()
    if any(part not in body_of(whole) for part in body_of(text).split("\n\n")):
        sys.exit(f"{page}: an example is not in {file}")
    if line is not None:
        with open(os.path.join(*file.split("/")[:2], "stdout"), encoding="utf-8") as stored:
            if line not in stored.read().splitlines():
                sys.exit(f"{page}: no stored run prints `{line}`")
    return text in whole


def said(pattern, behind):
    """Returns what the pattern finds in the first paragraph behind an example."""
    found = re.search(pattern, behind.lstrip("\n").split("\n\n")[0])
    return found and found.groups()


def examples_of(page):
    """Yields each example of a page that is to be compiled: its module's name, its text, its call with the pattern, its line."""
    with open(page, encoding="utf-8") as file:
        text = file.read()
    for number, block in enumerate(re.finditer(r"^```rust\n(.*?)^```", text, re.S | re.M)):
        behind = text[block.end():]
        (line,) = said(r"prints `([^`]+)`", behind) or (None,)
        named = NAMED.match(block[1])
        is_shown = named and is_in_file(page, f"crates/{named[1]}", block[1][named.end():], line)
        if number == 0 and not is_shown:
            name = page.removesuffix(".md").removesuffix("/README").removeprefix("crates/").replace("/", "_")
            yield "page_" + name.lower(), block[1], said(r"^`([^`]+)` returns `([^`]+)`", behind), line


def examples():
    """Returns the examples of all pages that are to be compiled."""
    pages = [*glob.glob("README.md"), *sorted(glob.glob("docs/*.md")), *sorted(glob.glob("crates/*/README.md"))]
    return [example for page in pages for example in examples_of(page)]


def lines_of_crates(names):
    """Returns crates.txt with the program below all crates, which names these."""
    with open("crates.txt", encoding="utf-8") as text:
        return text.read().rstrip("\n") + f"\npages may_wait=100: {' '.join(names)}\n"


def is_program(text):
    """Returns whether an example is a program."""
    return "\n" + MAIN in text


def root_of(text, found):
    """Returns the root of the program: the example that is one, and in its main first the calls of the other examples."""
    begin, end = text.split("\n" + MAIN)
    calls = "".join(TELL.format(name=name) for name, _, call, _ in found if call)
    modules = "".join(f"\nmod {name};" for name, other, _, _ in found if other != text)
    return f"{begin}\n{MAIN}{calls}{end}{modules}\n"


def write(path, text):
    with open(path, "w", encoding="utf-8") as file:
        file.write(text)


def run(found):
    """Compiles and runs the program of all examples in a folder of its own, and returns how it ended."""
    named = lambda name, text: re.search(rf"(use |Rattle\.|\b){name}(::|\.)", text)
    crates = [name for name in sorted(os.listdir("crates")) if any(named(name, text) for _, text, _, _ in found)]
    with tempfile.TemporaryDirectory(prefix="pages-") as folder:
        shutil.copytree("crates", f"{folder}/crates", ignore=shutil.ignore_patterns("out", "planted", "must-fail"))
        os.makedirs(f"{folder}/crates/pages/src")
        write(f"{folder}/crates.txt", lines_of_crates(crates))
        shutil.copy("HANDLES", folder)
        for name, text, call, _ in found:
            if is_program(text):
                write(f"{folder}/crates/pages/src/main.rt", root_of(text, found))
            else:
                check = CHECK.format(call=call[0], pattern=call[1]) if call else ""
                write(f"{folder}/crates/pages/src/{name}.rt", text + check)
        return subprocess.run(["rt", "try"], cwd=f"{folder}/crates/pages", stdout=subprocess.PIPE, text=True)


def main():
    below.need_rt()
    os.chdir(below.TOP)
    found = examples()
    owed = [name for name, _, call, _ in found if call] + [line for _, text, _, line in found if is_program(text)]
    done = run(found)
    if done.returncode != 0:
        print(done.stdout, end="")
        return done.returncode
    printed = done.stdout.splitlines()
    if printed != owed:
        print("\n".join(f"not as its page says: {line}" for line in printed if line not in owed) or "lines are missing")
        return 1
    print(f"{len(found)} examples compile as they stand, {len(owed)} of them do as their pages say, and the others are in their files")
    return 0


if __name__ == "__main__":
    sys.exit(main())
