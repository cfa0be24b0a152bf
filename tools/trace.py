#!/usr/bin/env python3
"""Writes a journal of `monoio run` as a Chrome trace in JSON, which Perfetto shows.

usage: tools/trace.py < JOURNAL > TRACE.json

Each task is a thread with its turns and its waits, and the clock is one with its parks. Wakes are flows. A turn takes no
time of the journal's clock, so it has a microsecond, and what happens at one instant stands one after another.
"""
import json
import signal
import sys

sys.dont_write_bytecode = True
import journal


class Trace:
    def __init__(self, of):
        self.of = of
        self.events = []
        self.times = self.times_of()

    def times_of(self):
        """The microsecond of each place: that of the clock, and at least one after the place before."""
        nanos = {}
        for span in self.of.spans:
            nanos[span.first] = max(nanos.get(span.first, 0), span.begin)
        for mark in self.of.marks:
            nanos[mark.place] = max(nanos.get(mark.place, 0), mark.begin)
        times, last = {}, -1.0
        for place in range(self.of.place + 2):
            last = max(last + 1, nanos.get(place, 0) / 1000)
            times[place] = last
        return times

    def put(self, **event):
        self.events.append({"pid": 1, **event})

    def names(self):
        self.put(ph="M", name="process_name", tid=0, args={"name": "runtime"})
        self.put(ph="M", name="thread_name", tid=0, args={"name": "clock"})
        for task in self.of.tasks():
            self.put(ph="M", name="thread_name", tid=task + 1, args={"name": f"task {task}"})

    def span(self, span):
        begin, end = self.times[span.first], self.times[span.last]
        if span.kind == "turn":
            self.put(ph="X", name="turn", tid=span.task + 1, ts=begin, dur=1, args={"steps": span.text})
        elif end > begin + 1:
            self.put(ph="X", name=span.text, tid=span.task + 1, ts=begin + 1, dur=end - begin - 1)

    def park(self, mark):
        begin = self.times[mark.place]
        end = max(self.times[mark.place + 1], mark.end / 1000)
        self.put(ph="X", name=mark.text, tid=0, ts=begin, dur=max(end - begin, 1))

    def wake(self, number, wake):
        source = 0 if wake.source is None else wake.source + 1
        time = self.times[wake.place]
        self.put(ph="s", id=number, cat="wake", name=wake.text, tid=source, ts=time)
        self.put(ph="f", id=number, cat="wake", name=wake.text, tid=wake.task + 1, ts=time + 1, bp="e")

    def text(self):
        self.names()
        for span in self.of.spans:
            self.span(span)
        for mark in self.of.marks:
            if mark.kind == "park":
                self.park(mark)
            else:
                self.put(ph="i", s="t", name=mark.text, tid=0, ts=self.times[mark.place])
        for note in self.of.notes:
            thread = 0 if note.task is None else note.task + 1
            self.put(ph="i", s="t", name=note.text, tid=thread, ts=self.times[note.place])
        for number, wake in enumerate(self.of.wakes, 1):
            self.wake(number, wake)
        return json.dumps({"displayTimeUnit": "ms", "traceEvents": self.events}, indent=1)


def main():
    if len(sys.argv) > 1:
        sys.exit(__doc__.strip())
    signal.signal(signal.SIGPIPE, signal.SIG_DFL)  # a reader that closes the pipe ends the program
    print(Trace(journal.Journal(sys.stdin)).text())


if __name__ == "__main__":
    main()
