"""The last committed figures of docs/PERFORMANCE.md, beside those of a run."""
import os
import re

PAGE = os.path.join(os.path.dirname(os.path.abspath(__file__)), "..", "..", "docs", "PERFORMANCE.md")
# A figure that grew by more than this part is marked.
MARGIN = 0.05
# The columns that are judged; of time, the ratio is, if there is one. The other columns are another program's.
JUDGED = ("ms", "MB", "ns", "ratio")


def number(cell):
    """Returns the number with which a cell begins, or None."""
    found = re.match(r"[\d,]*\.?\d+", cell)
    return float(found[0].replace(",", "")) if found else None


def read(path=PAGE):
    """Returns the rows of each table of a page: the cells by title and label; a heading's label is empty."""
    rows, title = {}, ""
    with open(path, encoding="utf-8") as page:
        for line in page:
            if line.startswith("## "):
                title = line[3:].strip()
            elif line.startswith("    ") and line.strip():
                label, rest = line[4:36].strip(), line[36:]
                # A label that is longer than its column runs up to the first two blanks.
                if label and not line[34:36].isspace() and not rest.startswith("  "):
                    more, _, rest = rest.partition("  ")
                    label += more.rstrip()
                rows[title, label] = re.split(r"  +", rest.strip())
    return rows


def judged(heading, cells):
    """Returns the cells of a row that are judged, by the names of their columns."""
    if heading is None:
        return {"": cells[0]}
    named = dict(zip(heading, cells))
    if all(number(name) is not None for name in heading):
        return named
    return {name: named[name] for name in JUDGED if name in named and not ("ratio" in named and name in ("ms", "ns"))}


def figures(now, then):
    """Returns the numbers of two cells: of a ratio with a time in brackets the time, if the other has no ratio."""
    if ("(" in now) != ("(" in then):
        now, then = (cell.rpartition("(")[2] for cell in (now, then))
    return number(now), number(then)


def heading_of(rows, title):
    """Returns the names of a table's columns, or None if it has no heading."""
    return rows.get((title, "")) or rows.get((title, "N"))


def beside(new, old):
    """Returns a line for each judged figure that both have: the new one, the last one, and a mark if it is worse."""
    lines = []
    for (title, label), cells in new.items():
        if label in ("", "N") or (title, label) not in old:
            continue
        now = judged(heading_of(new, title), cells)
        then = judged(heading_of(old, title), old[title, label])
        for name in now:
            new_figure, old_figure = figures(now[name], then.get(name, ""))
            if new_figure is None or not old_figure:
                continue
            change = new_figure / old_figure - 1
            mark = "worse" if change > MARGIN else ""
            what = f"{title}: {label} {name}".rstrip()
            line = f"    {what:66}  {new_figure:>11,.10g}  {old_figure:>11,.10g}  {100 * change:>+7.1f} %  {mark}"
            lines.append(line.rstrip())
    return lines
