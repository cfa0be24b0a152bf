#!/usr/bin/env python3
"""Compares the page docs/monoio.1 with what the program says of itself: commands, their words, statuses and lines.

usage: tools/man_page.py PROGRAM [--write]

PROGRAM is bin/monoio. With --write the page's section LINES is made of the program's pages.
"""
import pathlib
import re
import subprocess
import sys

PAGE = pathlib.Path(__file__).resolve().parent.parent / "docs/monoio.1"
BEGIN, END = ".SH LINES\n", ".SH EXIT STATUS\n"


def said_by(program, *words):
    return subprocess.run([program, *words], capture_output=True, text=True, check=True).stdout


def of_help(text):
    commands = {tuple(line.split()[1:]) for line in re.findall(r"^  (monoio [a-z]+ [A-Z ]+)$", text, re.M)}
    statuses = set(re.findall(r"\b(\d+) [a-z]", text[text.index("exit status:"):]))
    return commands, statuses - {"16777216"}


def of_page(text):
    text = text.replace("\\-", "-")
    commands = {(name, *words.split()) for name, words in re.findall(r"^\.B monoio ([a-z]+)\n\.I ([A-Z ]+)$", text, re.M)}
    statuses = set(re.findall(r"^\.TP\n\.B (\d+)$", text, re.M))
    return commands, statuses


def lines_of(text):
    """The part of a command's page that has the forms of its lines."""
    begin = re.search(r"^(lines|it writes one line)\b", text, re.M).start()
    return text[begin:text.index("exit status:")].rstrip("\n")


def roff(text):
    """The text as roff takes it: a hyphen is one, and no line begins a request."""
    return re.sub(r"^([.'])", r"\\&\1", text.replace("\\", "\\e").replace("-", "\\-"), flags=re.M)


def section(program, commands):
    parts = [f".SS {name}\n.nf\n{roff(lines_of(said_by(program, name, '--help')))}\n.fi\n" for name in commands]
    return BEGIN + "".join(parts)


def main():
    program, page = sys.argv[1], PAGE.read_text(encoding="utf-8")
    help_text = said_by(program, "--help")
    names = re.findall(r"^  monoio ([a-z]+) [A-Z ]+$", help_text, re.M)
    lines = section(program, names)
    end = page.index(END)
    begin = page.index(BEGIN) if BEGIN in page else end
    if sys.argv[2:] == ["--write"]:
        PAGE.write_text(page[:begin] + lines + page[end:], encoding="utf-8")
        return 0
    for what, here, there in zip(("commands", "statuses"), of_help(help_text), of_page(page)):
        if here != there or not here:
            print(f"{what}: --help has {sorted(here)}, docs/monoio.1 has {sorted(there)}")
            return 1
    if page[begin:end] != lines:
        print("lines: docs/monoio.1 has others than the commands' pages; tools/man_page.py PROGRAM --write makes them")
        return 1
    print("docs/monoio.1 has the commands, statuses and lines of the program's help")
    return 0


if __name__ == "__main__":
    sys.exit(main())
