#!/usr/bin/env python3
"""Writes a journal of `monoio run` as one page for a browser, which needs no network.

usage: tools/view.py [TITLE] < JOURNAL > PAGE.html

The input is a journal of `run` or `Runtime::journal`, also with the list of tasks that `run` writes after status 8, that
list alone, or replies of the lease server. The page shows a lane for each task or core, and says for each task at each
line why it waits. Its key `?` shows the legend and the other keys.

The page takes no library: it draws on one canvas, since libraries that make an element for each mark are slow at 100,000.
"""
import bisect
import json
import os
import signal
import sys

sys.dont_write_bytecode = True
import journal

FOLDER = os.path.join(os.path.dirname(os.path.abspath(__file__)), "view")
KINDS = ["queued", "sleep", "task", "job", "other"]
TELLS = ["made", "reset", "pending", "ready", "ended", "dropped"]
CAUSES = {"spawn": 1, "a wake from another thread": 5}
# The lanes from which a wake comes if no task made it.
CLOCK, INBOX, OUTSIDE = -1, -2, -3


def rows_of(bars):
    """Gives each bar, a list of first and last place and text, the first row in which it lies on no other.

    A bar ends where its last place begins; one of a single place fills it.
    """
    ends, found = [], []
    for first, last, text in sorted(bars):
        row = next((row for row, end in enumerate(ends) if end <= first), len(ends))
        ends[row:row + 1] = [max(last, first + 1)]
        found.append([first, last, row, text])
    return found


class Page:
    """The data of the page, as lists by number."""

    def __init__(self, of, title):
        self.of, self.title = of, title
        names = of.tasks()
        cores = sorted({reply.core for reply in of.replies}, key=lambda core: -1 if core is None else core)
        self.lane_of = {task: lane for lane, task in enumerate(names)}
        self.core_of = {core: len(names) + lane for lane, core in enumerate(cores)}
        self.lanes = [self.lane(f"task {task}", task, of.rows.get(task)) for task in names]
        self.lanes += [self.lane("bad lines" if core is None else f"core {core}", -1, None) for core in cores]
        self.sources = {source: number for number, source in enumerate(of.tells)}

    @staticmethod
    def lane(name, task, row):
        return {"name": name, "task": task, "row": row, "turns": [], "ends": [], "waits": [], "bars": []}

    def put_spans(self):
        for span in self.of.spans:
            lane = self.lanes[self.lane_of[span.task]]
            if span.kind == "turn":
                lane["turns"].append(span.first)
                lane["ends"].append(span.ended)
            else:
                kind = span.waits[0][0] if span.waits else span.text
                number = KINDS.index(kind) if kind in KINDS else 4
                lane["waits"].append([span.first, span.last, number, *(self.sources[source] for source in span.waits)])

    def put_jobs(self):
        """A job has a bar from the turn that made it to its end or to the drop of its handle."""
        bars = [[] for _ in self.lanes]
        for (kind, number), tells in self.of.tells.items():
            maker = tells[0].task if tells[0].what == "made" else None
            if kind == "job" and maker is not None:
                ends = [tell.place for tell in tells if tell.what == "ended"]
                bars[self.lane_of[maker]].append((tells[0].place, ends[0] if ends else self.of.place + 1, f"job {number}"))
        for reply, (first, last) in zip(self.of.replies, self.places_of_replies()):
            if first < last:
                bars[self.core_of[reply.core]].append((first, last, f"{reply.number} {reply.text}"))
        for lane, of_lane in zip(self.lanes, bars):
            lane["bars"] = rows_of(of_lane)

    def places_of_replies(self):
        """The place at which a core had a request's ticks, and that of the reply."""
        ticks, places, found = {}, {}, []
        for reply in self.of.replies:
            known, at = ticks.setdefault(reply.core, []), places.setdefault(reply.core, [])
            known.append(max(reply.tick, known[-1] if known else 0))
            at.append(reply.place)
            # A request that waited came before its reply's place.
            came = min(at[bisect.bisect_left(known, reply.arrived)], reply.place - 1)
            found.append((came if reply.arrived < reply.tick else reply.place, reply.place))
        return found

    def put_replies(self):
        for reply in self.of.replies:
            lane = self.lanes[self.core_of[reply.core]]
            lane["turns"].append(reply.place)
            lane["ends"].append("bad" if reply.text == "bad" else "reply")

    def wakes(self):
        found = []
        for wake in self.of.wakes:
            kind = CAUSES.get(wake.text) or {"wake": 0, "sleep": 2, "task": 3, "job": 4}[wake.text.split(" ")[0]]
            alone = {2: CLOCK, 5: INBOX}.get(kind, OUTSIDE)
            source = alone if wake.source is None else self.lane_of.get(wake.source, OUTSIDE)
            if wake.task in self.lane_of:
                found.append([wake.place, source, self.lane_of[wake.task], kind, wake.text])
        return found

    def tell(self, source, tell):
        value = tell.value
        if tell.what == "ended" and value is not None:
            value = self.lane_of.get(value, -1)
        lane = -1 if tell.task is None else self.lane_of.get(tell.task, -1)
        return [tell.place, TELLS.index(tell.what), lane, value]

    def data(self):
        self.put_spans()
        self.put_replies()
        self.put_jobs()
        of = self.of
        nanos = list(of.nanos_of)
        for reply in of.replies:
            nanos[reply.place - 1] = reply.tick * 1000000
        return {
            "title": self.title,
            "isList": of.is_list,
            "lines": of.lines,
            "lineOf": [0, *of.line_of],
            "nanos": [0, *nanos],
            "lanes": self.lanes,
            "sources": [
                {"kind": kind, "number": number, "tells": [self.tell((kind, number), tell) for tell in tells]}
                for (kind, number), tells in of.tells.items()
            ],
            "wakes": self.wakes(),
            "parks": [[mark.place, mark.text] for mark in of.marks if mark.kind == "park"],
            "steps": [[mark.place, mark.text] for mark in of.marks if mark.kind == "clock"],
            "inbox": [[mark.place, mark.text] for mark in of.inbox],
        }


def read(name):
    with open(os.path.join(FOLDER, name), encoding="utf-8") as file:
        return file.read()


def page(lines, title):
    data = json.dumps(Page(journal.Journal(lines), title).data(), separators=(",", ":"), ensure_ascii=False)
    parts = {"page.css": read("page.css"), "page.js": read("page.js"), "data": data.replace("<", "\\u003c")}
    first, *others = read("page.html").split("{{")
    for part in others:
        name, rest = part.split("}}", 1)
        first += parts[name] + rest
    return first


def main():
    if len(sys.argv) > 2 or sys.argv[1:2] in (["-h"], ["--help"]):
        sys.exit(__doc__.strip())
    signal.signal(signal.SIGPIPE, signal.SIG_DFL)  # a reader that closes the pipe ends the program
    sys.stdin.reconfigure(errors="backslashreplace")
    sys.stdout.reconfigure(encoding="utf-8")
    sys.stdout.write(page(sys.stdin, sys.argv[1] if len(sys.argv) > 1 else "journal"))


if __name__ == "__main__":
    main()
