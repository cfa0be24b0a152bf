"""Makes a journal of any length for tools/view_test.py: tasks that sleep, make jobs, call children and wake each other.

Tasks have their turns; if none is queued, the driver parks, other threads end jobs, and the clock moves on. The lines are a run of the
reference machine with worker threads, which `monoio check attached` accepts.
"""
import random

MILLI = 1000000


class Turn:
    """The steps of a turn and their replies."""

    def __init__(self, task):
        self.task, self.steps, self.replies = task, ["turn"], [f"turn {task}"]

    def put(self, step, reply):
        self.steps.append(step)
        self.replies.append(reply)

    def line(self):
        return f"{'; '.join(self.steps)} -> {'; '.join(self.replies)}"


class Machine:
    def __init__(self, tasks, seed):
        self.lines, self.draw = ["spawn -> task 0"], random.Random(seed)
        self.nanos, self.queue, self.first = 0, [0], tasks
        self.count = {"task": 1, "sleep": 0, "job": 0}
        # What each task waits for, by kind and number; the deadline of each armed sleep; which task called a child.
        self.waits, self.armed, self.callers = {}, {}, {}
        # The sleeps that fired, the jobs that ended and the tasks that are done, whose waiter has not yet seen it.
        self.ended = set()

    def run(self, lines):
        while len(self.lines) < lines:
            while self.queue:
                turn = self.turn(self.queue.pop(0))
                self.lines += [f"now {self.nanos}", turn.line()]
            self.park()
        return self.lines[:lines]

    def new(self, kind):
        self.count[kind] += 1
        return self.count[kind] - 1

    def turn(self, task):
        turn = Turn(task)
        if task == 0 and self.count["task"] == 1:
            for _ in range(self.first):
                self.spawn(turn)
        left = [source for source in self.waits.pop(task, []) if not self.sees(turn, *source)]
        if not left and task in self.callers and self.draw.random() < 0.6:
            turn.put(f"ready {task}", "done")
            self.ended.add(("task", task))
            self.queue.append(self.callers[task])
            return turn
        self.waits[task] = left or self.begin(turn, task)
        turn.put("pending", "idle")
        return turn

    def sees(self, turn, kind, number):
        """Polls a source. Returns whether it has answered, and drops it then."""
        is_over = (kind, number) in self.ended
        if is_over and kind == "job":
            turn.put(f"job-end {number} ran", f"ended {turn.task}")
        poll = {"sleep": "poll", "task": "join", "job": "job"}[kind]
        value = "" if kind == "sleep" else f" {number}"
        turn.put(f"{poll} {number}", f"ready{value}" if is_over else "pending")
        if is_over:
            self.ended.remove((kind, number))
            turn.put({"sleep": "drop-sleep", "task": "drop-join", "job": "drop-job"}[kind] + f" {number}", "dropped")
        return is_over

    def spawn(self, turn):
        child = self.new("task")
        turn.put("spawn", f"task {child}")
        self.queue.append(child)
        return child

    def begin(self, turn, task):
        """Begins a sleep, some jobs or a call, and at times wakes a task that waits. Returns what the task waits for."""
        drawn, sources = self.draw.random(), []
        if drawn < 0.1 and task not in self.callers:
            child = self.spawn(turn)
            self.callers[child] = task
            sources.append(("task", child))
        elif drawn < 0.3:
            for _ in range(self.draw.randrange(1, 4)):
                number = self.new("job")
                turn.put(f"block {number}", f"job {number}")
                sources.append(("job", number))
        else:
            number, until = self.new("sleep"), self.nanos + MILLI * self.draw.randrange(1, 400)
            turn.put(f"sleep {until}", f"sleep {number}")
            self.armed[number] = (until, task)
            sources.append(("sleep", number))
        for source in sources:
            self.sees(turn, *source)
        other = self.draw.randrange(self.first + 1)
        if self.draw.random() < 0.1 and other != task and other in self.waits and other not in self.queue:
            turn.put(f"wake {other}", "queued")
            self.queue.append(other)
        return sources

    def park(self):
        until = min((until for until, _ in self.armed.values()), default=self.nanos)
        self.lines += [f"now {self.nanos}", f"park {(until - self.nanos) // MILLI}"]
        listed = [task for task, sources in self.waits.items() if self.ends_jobs(sources)]
        self.lines += [f"remote {task} -> listed" for task in listed]
        self.lines.append(" ".join(["drain -> drained", *map(str, listed)]))
        self.queue += listed
        self.nanos = max(self.nanos, until)
        fired = [sleep for sleep, (at, _) in self.armed.items() if at <= self.nanos]
        self.lines.append(" ".join([f"clock {self.nanos} -> fired", *map(str, fired)]))
        for sleep in fired:
            _, task = self.armed.pop(sleep)
            self.ended.add(("sleep", sleep))
            if task not in self.queue:
                self.queue.append(task)

    def ends_jobs(self, sources):
        """Ends the jobs for which a task waits, at times. Returns whether one ended."""
        jobs = [source for source in sources if source[0] == "job" and source not in self.ended]
        if not jobs or self.draw.random() < 0.7:
            return False
        self.ended.update(jobs[:self.draw.randrange(1, len(jobs) + 1)])
        return True
