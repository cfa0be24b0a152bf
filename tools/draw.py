#!/usr/bin/env python3
"""Draws a journal of `monoio run` as a picture in SVG.

usage: tools/draw.py < JOURNAL > PICTURE.svg

Each task has a lane with its turns and, between them, what it waits for. The clock is the last lane, with parks and clock
steps. An arrow is a wake: from the task that woke, or from the clock; a dashed line with a ball is a spawn. A turn names the
jobs that it made or saw end. The places from left to right are those of the journal, so that what happens at one instant stands
apart. In a wide picture the names come again. A journal of more than 100 events and parks is for tools/view.py.
"""
import collections
import signal
import sys
from xml.sax.saxutils import escape

sys.dont_write_bytecode = True
import journal

COLUMN, LANE, NOTE, LEFT, TOP = 74, 62, 11, 70, 34
# How many columns lie between two names of a lane, and how many a picture has at most.
NAMES_APART, MOST = 12, 100
WAKE, SPAWN = "#b02a30", "#1f8a4c"
COLOURS = {"sleep": "#2b7bba", "task": "#8a4fb3", "job": "#c46a1b"}


def x_of(place):
    return LEFT + COLUMN * place


def text(x, y, words, size=11, anchor="middle", colour="#222222"):
    return f'<text x="{x:g}" y="{y:g}" font-size="{size}" text-anchor="{anchor}" fill="{colour}">{escape(words)}</text>'


def line(x1, y1, x2, y2, colour, more=""):
    return f'<line x1="{x1:g}" y1="{y1:g}" x2="{x2:g}" y2="{y2:g}" stroke="{colour}" {more}/>'


def box(x, y, width, height, colour, title):
    return (
        f'<rect x="{x:g}" y="{y:g}" width="{width:g}" height="{height:g}" rx="3" fill="{colour}" stroke="#333333">'
        f"<title>{escape(title)}</title></rect>"
    )


class Picture:
    def __init__(self, of):
        self.of = of
        # How many notes each task's places have: they stand below each other.
        self.notes = collections.Counter((note.task, note.place) for note in of.notes)
        self.lanes, self.clock = {}, TOP
        for task in of.tasks():
            self.lanes[task] = self.clock
            most = max((count for (of_task, _), count in self.notes.items() if of_task == task), default=1)
            self.clock += LANE + NOTE * (most - 1)
        self.drawn_notes = collections.Counter()
        self.parts = []

    def width(self):
        return x_of(self.of.place + 1) + 30

    def lane(self, task):
        return self.clock if task is None else self.lanes.get(task, self.clock)

    def draw_lanes(self):
        for task, y in self.lanes.items():
            self.draw_name(f"task {task}", y)
        self.draw_name("clock", self.clock)
        self.parts.append(line(LEFT, self.clock, self.width() - 20, self.clock, "#666666"))

    def draw_name(self, name, y):
        self.parts.append(text(LEFT - 12, y + 4, name, 12, "end"))
        for place in range(NAMES_APART, self.of.place - 2, NAMES_APART):
            self.parts.append(text(x_of(place), y - 20, name, 9, colour="#777777"))

    def draw_span(self, span):
        y = self.lanes[span.task]
        if span.kind == "turn":
            self.parts.append(box(x_of(span.first) - 16, y - 11, 32, 22, "#f2d388", span.text))
            self.parts.append(text(x_of(span.first), y + 4, "turn"))
            return
        colour = COLOURS.get(span.text.split(" ")[0], "#999999")
        first, last = x_of(span.first) + 16, x_of(span.last) - 16
        if first < last:
            dashed = 'stroke-width="3"' if span.text != "queued" else 'stroke-width="2" stroke-dasharray="3 3"'
            self.parts.append(line(first, y, last, y, colour, dashed))
            self.parts.append(text((first + last) / 2, y - 6, span.text, 10, colour=colour))

    def draw_mark(self, mark):
        x = x_of(mark.place)
        if mark.kind == "park":
            self.parts.append(box(x - 30, self.clock - 9, 60, 18, "#dde7ee", mark.text))
            self.parts.append(text(x, self.clock + 4, mark.text, 9))
        else:
            self.parts.append(line(x, self.clock - 6, x, self.clock + 6, "#333333", 'stroke-width="2"'))
            self.parts.append(text(x, self.clock + 20, mark.text, 10))

    def draw_note(self, note):
        y = self.lane(note.task) + 24 + NOTE * self.drawn_notes[note.task, note.place]
        self.drawn_notes[note.task, note.place] += 1
        self.parts.append(text(x_of(note.place) + 4, y, note.text, 9, "start", COLOURS["job"]))

    def draw_wake(self, wake):
        x, begin, end = x_of(wake.place), self.lane(wake.source), self.lane(wake.task)
        if begin == end:
            return
        shift = 12 if begin < end else -12
        how = f'stroke="{WAKE}" marker-end="url(#tip)"'
        if wake.text == "spawn":
            how = f'stroke="{SPAWN}" stroke-dasharray="4 3" marker-end="url(#ball)"'
        self.parts.append(
            f'<line x1="{x:g}" y1="{begin + shift:g}" x2="{x:g}" y2="{end - shift:g}" {how}>'
            f"<title>{escape(wake.text)}</title></line>"
        )

    def svg(self):
        self.draw_lanes()
        for span in self.of.spans:
            if span.kind == "wait":
                self.draw_span(span)
        for wake in self.of.wakes:
            self.draw_wake(wake)
        for span in self.of.spans:
            if span.kind == "turn":
                self.draw_span(span)
        for note in self.of.notes:
            self.draw_note(note)
        for mark in self.of.marks:
            self.draw_mark(mark)
        if self.of.output is not None:
            self.parts.append(text(x_of(self.of.place + 1) - 20, TOP + 4, f"output {self.of.output}", 11))
        height = self.clock + 34
        return "\n".join([
            f'<svg xmlns="http://www.w3.org/2000/svg" width="{self.width():g}" height="{height:g}" font-family="sans-serif">',
            '<defs><marker id="tip" markerWidth="7" markerHeight="7" refX="6" refY="3" orient="auto">'
            f'<path d="M0,0 L6,3 L0,6 z" fill="{WAKE}"/></marker>'
            '<marker id="ball" markerWidth="7" markerHeight="7" refX="3" refY="3">'
            f'<circle cx="3" cy="3" r="3" fill="{SPAWN}"/></marker></defs>',
            f'<rect width="{self.width():g}" height="{height:g}" fill="#ffffff"/>',
            *self.parts,
            "</svg>",
        ])


def main():
    if len(sys.argv) > 1:
        sys.exit(__doc__.strip())
    signal.signal(signal.SIGPIPE, signal.SIG_DFL)  # a reader that closes the pipe ends the program
    of = journal.Journal(sys.stdin)
    if of.place > MOST:
        sys.exit(f"a picture has at most {MOST} events and parks, and this journal has {of.place}: tools/view.py shows it")
    print(Picture(of).svg())


if __name__ == "__main__":
    main()
