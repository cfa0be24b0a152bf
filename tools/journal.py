"""Reads a journal of `monoio run` into turns, waits, wakes and the clock, for tools/draw.py, tools/trace.py and tools/view.py.

It also reads the list of tasks that `run` writes after status 8, and replies of the lease server.
"""
import collections
import re
import sys

# A span of a task: a turn, or a wait between two turns. `first` and `last` are places in the journal, `begin` and `end`
# nanoseconds of the clock. `kind` is `turn` or `wait`, `ended` a turn's last reply, `waits` a wait's sources.
Span = collections.namedtuple("Span", "task kind text first last begin end ended waits")
# A wake of a task at a place, by another task or by none, with its cause.
Wake = collections.namedtuple("Wake", "source task text place nanos")
# What a turn says of a job: that it made it, or saw its end.
Note = collections.namedtuple("Note", "task text place")
# Something of the clock, a step or a park, or of the inbox, a drain or a wake from another thread.
Mark = collections.namedtuple("Mark", "kind text place begin end")
# What a line says of a sleep, a task's output or a job's: made, reset, pending, ready, wakes, ended or dropped.
Tell = collections.namedtuple("Tell", "place what task value")
# A reply of the lease server: the request's line, its core, the core's ticks at its coming and answer, and the answer. A bad
# line has no core.
Reply = collections.namedtuple("Reply", "number core arrived tick text place")

POLLS = {"poll": "sleep", "join": "task", "job": "job"}
DROPS = {"drop-sleep": "sleep", "drop-join": "task", "drop-job": "job"}
ROW = re.compile(r"(?:monoio: )?(task (\d+) (?:waits for|is queued|runs|has finished).*)")
SOURCE = re.compile(r"waits for (sleep|task|job) (\d+)(?: until (\d+) ms)?")
REPLY = re.compile(r"(\d+) (?:bad|(\d+) (\d+) (\d+) (.+))")


class Journal:
    """What the lines of a journal say, in their order."""

    def __init__(self, lines):
        self.spans, self.wakes, self.marks, self.inbox, self.notes = [], [], [], [], []
        self.rows, self.replies, self.lines = {}, [], []
        # What the lines say of each source, such as ("sleep", 0); the line and the clock of each place, from place 1.
        self.tells, self.line_of, self.nanos_of = collections.defaultdict(list), [], []
        self.output = None
        self.nanos, self.place = 0, 0
        # Where a task's wait began and what it waits for; which task waits for a source, and the sources of a task.
        self.since, self.waiters, self.sources = {}, {}, collections.defaultdict(dict)
        self.open_park = None
        for number, line in enumerate(lines, 1):
            try:
                self.lines.append(line.rstrip("\n"))
                self.take(self.lines[-1])
            except (ValueError, IndexError):
                sys.exit(f"line {number} is no line of a journal: {line[:60]!r}")
        self.end()

    def take(self, line):
        if line.startswith("now "):
            self.see(int(line[4:]))
        elif line.startswith("main "):
            self.output = int(line[5:])
        elif line.startswith("park"):
            self.step_on()
            millis = line[5:]
            self.open_park = (self.place, self.nanos, f"park {int(millis)} ms" if millis else "park")
        elif " -> " in line:
            event, report = line.split(" -> ")
            self.step_on()
            self.act(event, report)
        else:
            self.take_other(line)

    def take_other(self, line):
        """Takes a line of the list of tasks, or a reply of the lease server."""
        row, reply = ROW.fullmatch(line), REPLY.fullmatch(line)
        if row:
            self.rows[int(row[2])] = row[1]
        elif reply:
            self.step_on()
            core, arrived, tick = (int(word or 0) for word in reply.groups()[1:4])
            self.replies.append(Reply(int(reply[1]), core if reply[2] else None, arrived, tick, reply[5] or "bad", self.place))
        elif not line.startswith("monoio: "):
            raise ValueError(line)

    def step_on(self):
        self.place += 1
        self.line_of.append(len(self.lines))
        self.nanos_of.append(self.nanos)

    def see(self, nanos):
        self.nanos = max(self.nanos, nanos)

    def close_park(self):
        if self.open_park:
            place, begin, text = self.open_park
            self.marks.append(Mark("park", text, place, begin, self.nanos))
        self.open_park = None

    def mark(self, kind, text):
        return Mark(kind, text, self.place, self.nanos, self.nanos)

    def act(self, event, report):
        word, *rest = event.split(" ")
        if word == "clock" and report.startswith("fired"):
            self.see(int(rest[0]))
            self.nanos_of[-1] = self.nanos
            self.close_park()
            self.marks.append(self.mark("clock", f"{self.nanos / 1e6:g} ms"))
            for sleep in report.split(" ")[1:]:
                self.wake_waiter(("sleep", int(sleep)), None, f"sleep {sleep} fires")
        elif word == "drain":
            self.inbox.append(self.mark("drain", report))
            for task in report.split(" ")[1:]:
                self.wake(None, int(task), "a wake from another thread")
        elif word == "remote":
            self.inbox.append(self.mark("remote", f"{event}: {report}"))
        elif word == "turn;" or word == "turn":
            self.turn(event, report)
        else:
            self.step(None, event, report)

    def turn(self, event, report):
        if report == "refused idle":
            return
        task = int(report.split(";")[0].split(" ")[1])
        steps, replies = event.split("; ")[1:], report.split("; ")[1:]
        self.end_wait(task, self.place)
        for step, reply in zip(steps[:-1], replies[:-1]):
            self.step(task, step, reply)
        ended = replies[-1]
        here, now = self.place, self.nanos
        self.spans.append(Span(task, "turn", "; ".join(steps), here, here, now, now, ended, ()))
        if ended in ("done", "gone"):
            self.wake_waiter(("task", task), task, f"task {task} ends")
        else:
            waits = tuple(self.sources[task])
            names = " and ".join(f"{kind} {number}" for kind, number in waits)
            self.since[task] = (here, now, "queued" if ended == "again" else names or "a wake", waits)

    def end_wait(self, task, place):
        if task in self.since:
            first, begin, text, waits = self.since.pop(task)
            self.spans.append(Span(task, "wait", text, first, place, begin, self.nanos, "", waits))

    def step(self, task, step, reply):
        word, *rest = step.split(" ")
        made = reply.split(" ")
        if word in POLLS:
            self.poll(task, (POLLS[word], int(rest[0])), reply)
        elif word in DROPS:
            if made[0] == "dropped":
                self.unwatch((DROPS[word], int(rest[0])))
                self.tell((DROPS[word], int(rest[0])), "dropped", task)
        elif word == "spawn" and made[0] == "task":
            if task is not None:
                self.wake(task, int(made[1]), "spawn")
            self.tell(("task", int(made[1])), "made", task)
            self.since[int(made[1])] = (self.place, self.nanos, "queued", ())
        elif word == "wake" and reply in ("queued", "noted"):
            self.wake(task, int(rest[0]), "wake")
        elif word == "sleep" and made[0] == "sleep":
            self.tell(("sleep", int(made[1])), "made", task, int(rest[0]))
        elif word == "reset" and made[0] in ("armed", "elapsed"):
            self.tell(("sleep", int(rest[0])), "reset", task, int(rest[1]))
        elif word == "block" and made[0] == "job":
            self.notes.append(Note(task, f"{reply} made", self.place))
            self.tell(("job", int(made[1])), "made", task)
        elif word == "job-end" and made[0] == "ended":
            self.job_ends(task, rest, made)

    def poll(self, task, source, reply):
        if reply.startswith("refused"):
            return
        self.unwatch(source)
        if reply == "pending":
            self.waiters[source] = task
            self.sources[task][source] = True
        self.tell(source, reply.split(" ")[0], task)

    def unwatch(self, source):
        """Takes the task that waits for a source, and returns it."""
        waiter = self.waiters.pop(source, None)
        self.sources[waiter].pop(source, None)
        return waiter

    def job_ends(self, task, rest, made):
        self.notes.append(Note(task, f"job {rest[0]} {rest[1]}", self.place))
        source = ("job", int(rest[0]))
        if len(made) > 1:
            self.unwatch(source)
            self.wake(task, int(made[1]), f"job {rest[0]} ends")
        self.tell(source, "ended", task, int(made[1]) if len(made) > 1 else None)

    def wake_waiter(self, source, task, text):
        waiter = self.unwatch(source)
        if waiter is not None:
            self.wake(task, waiter, text)
        self.tell(source, "ended", task, waiter)

    def wake(self, source, task, text):
        self.wakes.append(Wake(source, task, text, self.place, self.nanos))

    def tell(self, source, what, task, value=None):
        self.tells[source].append(Tell(self.place, what, task, value))

    def take_list(self):
        """Makes waits of a list of tasks that stands alone, at one place."""
        self.step_on()
        for task, row in self.rows.items():
            found = SOURCE.search(row)
            source = (found[1], int(found[2])) if found else None
            if source:
                self.tell(source, "made", None, int(found[3]) * 1000000 if found[3] else None)
                self.poll(task, source, "pending")
            if not row.endswith("has finished"):
                name = row.split(" waits for ")[-1] if source else "a wake" if "waits for" in row else "queued"
                self.since[task] = (self.place, self.nanos, name, (source,) if source else ())

    def end(self):
        self.close_park()
        self.is_list = bool(self.rows) and self.place == 0
        if self.is_list:
            self.take_list()
        for task in list(self.since):
            self.end_wait(task, self.place + 1)

    def tasks(self):
        return sorted({span.task for span in self.spans} | set(self.rows))
