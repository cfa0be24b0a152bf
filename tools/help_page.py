#!/usr/bin/env python3
"""Compares a manual page with the help of its program, whose forms it has word for word.

usage: tools/help_page.py PROGRAM [--write]

PROGRAM is bin/lease_server or bin/mono_bench, and its page docs/lease_server.1 or docs/mono_bench.1. With --write the page's
section of forms is made of the help.
"""
import pathlib
import re
import subprocess
import sys

DOCS = pathlib.Path(__file__).resolve().parent.parent / "docs"
# The title of the section, and the words with which its part of the help begins.
SECTIONS = {"lease_server": ("LINES", "requests, and their answers"), "mono_bench": ("WORKLOADS", "workloads, and the words")}
END = ".fi\n.SH EXIT STATUS\n"


def roff(text):
    """The text as roff takes it: a hyphen is one, and no line begins a request."""
    return re.sub(r"^([.'])", r"\\&\1", text.replace("\\", "\\e").replace("-", "\\-"), flags=re.M)


def forms_of(text, first):
    """The part of the help that has the forms."""
    return text[text.index(first):text.index("exit status:")]


def main():
    program, *more = sys.argv[1:]
    name = pathlib.Path(program).name
    title, first = SECTIONS[name]
    help_text = subprocess.run([program, "--help"], capture_output=True, text=True, check=True).stdout
    path = DOCS / f"{name}.1"
    page, forms, head = path.read_text(encoding="utf-8"), roff(forms_of(help_text, first)), f".SH {title}\n.nf\n"
    begin, end = page.index(head) + len(head), page.index(END)
    if more == ["--write"]:
        path.write_text(page[:begin] + forms + page[end:], encoding="utf-8")
        return 0
    here = set(re.findall(r"\b(\d) [a-z]", help_text[help_text.index("exit status:"):help_text.index("other words:")]))
    there = set(re.findall(r"^\.TP\n\.B (\d+)$", page, re.M))
    if page[begin:end] != forms or here != there:
        print(f"docs/{name}.1 has other forms or statuses than --help; tools/help_page.py {program} --write makes the forms")
        return 1
    print(f"docs/{name}.1 has the forms and statuses of the program's help")
    return 0


if __name__ == "__main__":
    sys.exit(main())
