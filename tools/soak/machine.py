"""An independent reading of docs/FORMATS.md and docs/MACHINE.md: the plain machine over lines of text.

It shares nothing with the proved program. `Machine.check` takes an event line and the report line that was given for it,
and says whether the machine may give that report; a clock step may list sleeps of one tick in more than one order.
"""

TICK = 10**6
MAX_NANOS = (2**63 - 1) * TICK
LAST_NUMBER = 2**64 - 1


class BadLine(Exception):
    """The line says no event."""


def number(word, bound=2**64):
    if not word.isascii() or not word.isdigit() or (word[0] == "0" and word != "0") or int(word) >= bound:
        raise BadLine(word)
    return int(word)


ACTS = {
    "spawn": 0, "wake": 1, "drop-sleep": 1, "elapsed": 1, "drop-join": 1, "finished": 1, "block": 1, "drop-job": 1,
    "job-finished": 1,
}


def parse_act(words):
    name = words[0]
    if name in ACTS and len(words) == ACTS[name] + 1:
        return (name, *(number(word) for word in words[1:]))
    if name == "sleep" and len(words) == 2:
        return name, number(words[1], 2**128)
    if name == "reset" and len(words) == 3:
        return name, number(words[1]), number(words[2], 2**128)
    if name == "job-end" and len(words) == 3 and words[2] in ("ran", "canceled"):
        return name, number(words[1]), words[2]
    raise BadLine(" ".join(words))


def parse_step(text):
    words = text.split(" ")
    if words[0] in ("poll", "join", "job") and len(words) == 2:
        return (words[0], number(words[1]))
    return parse_act(words)


def parse_end(text):
    words = text.split(" ")
    if text == "pending":
        return None
    if words[0] == "ready" and len(words) == 2:
        return number(words[1])
    raise BadLine(text)


def parse(line):
    if line.startswith("turn; "):
        *steps, end = line.split("; ")[1:]
        return "turn", [parse_step(step) for step in steps], parse_end(end)
    words = line.split(" ")
    if words[0] == "clock" and len(words) == 2:
        return "clock", number(words[1], 2**128)
    if words[0] == "remote" and len(words) == 2:
        return "remote", number(words[1])
    if line == "drain":
        return ("drain",)
    return parse_act(words)


class Refused(Exception):
    """An act is refused for this cause."""


class Machine:
    def __init__(self, strategy, tasks, jobs, sleeps):
        self.strategy = strategy
        self.limits = {"task": tasks, "job": jobs, "sleep": sleeps}
        self.queue, self.inbox = [], []
        self.tasks, self.jobs, self.sleeps = [], [], []
        self.greatest = self.arms = 0
        self.running = None

    # tasks: [phase, kept, waiter, output]; phases idle, queued, running, noted, done, taken; none once gone
    def full(self, kind, table):
        live = sum(entry is not None for entry in table)
        return live >= self.limits[kind] or len(table) >= LAST_NUMBER

    def live(self, task):
        return self.tasks[task] if task is not None and task < len(self.tasks) else None

    def wake(self, task):
        entry = self.live(task)
        if entry and entry[0] == "idle":
            entry[0] = "queued"
            self.queue.append(task)
            return "queued"
        if entry and entry[0] in ("running", "noted"):
            entry[0] = "noted"
            return "noted"
        return "nothing"

    def kept(self, task):
        if task >= len(self.tasks):
            raise Refused("no-task")
        if self.tasks[task] is None or not self.tasks[task][1]:
            raise Refused("no-handle")
        return self.tasks[task]

    def sleep(self, sleep):
        if sleep >= len(self.sleeps) or self.sleeps[sleep] is None:
            raise Refused("no-timer")
        return self.sleeps[sleep]

    def job(self, job):
        if job >= len(self.jobs):
            raise Refused("no-task")
        if self.jobs[job] is None:
            raise Refused("no-handle")
        return self.jobs[job]

    # sleeps: {"state": fresh|armed|elapsed, "tick", "arm", "moved", "waker"}
    def arm(self, entry, nanos):
        tick = -(-nanos // TICK)
        if tick <= self.greatest:
            waker, entry["waker"] = entry.get("waker"), None
            entry["state"] = "elapsed"
            self.wake(waker)
            return "elapsed"
        if entry["state"] == "armed" and entry["tick"] <= tick:
            entry["moved"] = entry["moved"] or tick > entry["tick"]
        else:
            entry.update(arm=self.arms, moved=False)
            self.arms += 1
        entry.update(state="armed", tick=tick)
        return "armed"

    def act(self, act):
        try:
            return getattr(self, "do_" + act[0].replace("-", "_"))(*act[1:])
        except Refused as cause:
            return f"refused {cause}"

    def do_spawn(self):
        if self.full("task", self.tasks):
            raise Refused("at-capacity")
        self.queue.append(len(self.tasks))
        self.tasks.append(["queued", True, None, None])
        return f"task {len(self.tasks) - 1}"

    def do_wake(self, task):
        if task >= len(self.tasks):
            raise Refused("no-task")
        return self.wake(task)

    def do_sleep(self, nanos):
        if self.full("sleep", self.sleeps):
            raise Refused("at-capacity")
        if nanos > MAX_NANOS:
            raise Refused("invalid")
        self.sleeps.append({"state": "fresh", "nanos": nanos, "waker": None})
        return f"sleep {len(self.sleeps) - 1}"

    def do_reset(self, sleep, nanos):
        entry = self.sleep(sleep)
        if nanos > MAX_NANOS:
            raise Refused("invalid")
        return self.arm(entry, nanos)

    def do_drop_sleep(self, sleep):
        self.sleep(sleep)
        self.sleeps[sleep] = None
        return "dropped"

    def do_elapsed(self, sleep):
        return "yes" if self.sleep(sleep)["state"] == "elapsed" else "no"

    def do_drop_join(self, task):
        entry = self.kept(task)
        if entry[0] in ("done", "taken"):
            self.tasks[task] = None
            return f"dropped {entry[3]}" if entry[0] == "done" else "dropped"
        entry[1:3] = [False, None]
        return "dropped"

    def do_finished(self, task):
        return "yes" if self.kept(task)[0] in ("done", "taken") else "no"

    def do_block(self, output):
        if self.full("job", self.jobs):
            raise Refused("at-capacity")
        if self.strategy == "panic":
            raise Refused("no-pool")
        self.jobs.append(["running" if self.strategy == "attached" else "ok", output, None])
        return f"job {len(self.jobs) - 1}"

    def do_drop_job(self, job):
        state, output, _ = self.job(job)
        self.jobs[job] = None
        return f"dropped {output}" if state == "ok" else "dropped"

    def do_job_finished(self, job):
        return "no" if self.job(job)[0] == "running" else "yes"

    def do_job_end(self, job, how):
        if job >= len(self.jobs):
            raise Refused("no-task")
        entry = self.jobs[job]
        if entry is None:
            return "ended"
        if entry[0] != "running":
            raise Refused("ended")
        waiter = entry[2]
        entry[:] = ["ok" if how == "ran" else "canceled", entry[1], None]
        return "ended" if waiter is None else f"ended {waiter}"

    def do_poll(self, sleep):
        entry = self.sleep(sleep)
        if entry["state"] == "fresh":
            self.arm(entry, entry["nanos"])
        if entry["state"] == "elapsed":
            return "ready"
        entry["waker"] = self.running
        return "pending"

    def do_join(self, task):
        entry = self.kept(task)
        if entry[0] == "taken":
            raise Refused("taken")
        if entry[0] == "done":
            entry[0] = "taken"
            return f"ready {entry[3]}"
        entry[2] = self.running
        return "pending"

    def do_job(self, job):
        entry = self.job(job)
        if entry[0] == "taken":
            raise Refused("taken")
        if entry[0] == "running":
            entry[2] = self.running
            return "pending"
        state, entry[0] = entry[0], "taken"
        return f"ready {entry[1]}" if state == "ok" else "canceled"

    def turn(self, steps, end):
        if not self.queue:
            return "refused idle"
        self.running = task = self.queue.pop(0)
        self.tasks[task][0] = "running"
        replies = [self.act(step) for step in steps]
        entry = self.tasks[task]
        self.running = None
        if end is None:
            again = entry[0] == "noted"
            entry[0] = "queued" if again else "idle"
            if again:
                self.queue.append(task)
            last = "again" if again else "idle"
        elif entry[1]:
            waiter = entry[2]
            entry[:] = ["done", True, None, end]
            self.wake(waiter)
            last = "done"
        else:
            self.tasks[task] = None
            last = "gone"
        return "; ".join([f"turn {task}", *replies, last])

    def may_fire(self, nanos, report):
        if nanos > MAX_NANOS:
            return report == "refused invalid"
        words = report.split(" ")
        if words[0] != "fired":
            return False
        fired = [int(word) for word in words[1:]]
        self.greatest = max(self.greatest, nanos // TICK)
        due = {
            place for place, entry in enumerate(self.sleeps)
            if entry and entry["state"] == "armed" and entry["tick"] <= self.greatest
        }
        if len(set(fired)) != len(fired) or set(fired) != due:
            return False
        ticks = [self.sleeps[sleep]["tick"] for sleep in fired]
        if ticks != sorted(ticks):
            return False
        arms = {}
        for sleep in fired:
            entry = self.sleeps[sleep]
            if not entry["moved"]:
                if arms.get(entry["tick"], -1) >= entry["arm"]:
                    return False
                arms[entry["tick"]] = entry["arm"]
        for sleep in fired:
            entry = self.sleeps[sleep]
            waker, entry["waker"] = entry["waker"], None
            entry["state"] = "elapsed"
            self.wake(waker)
        return True

    def remote(self, task):
        if task >= len(self.tasks):
            return "refused no-task"
        entry = self.tasks[task]
        if entry is None or entry[0] in ("done", "taken") or task in self.inbox:
            return "unlisted"
        self.inbox.append(task)
        return "listed"

    def drain(self):
        waiting, self.inbox = self.inbox, []
        for task in waiting:
            self.wake(task)
        return " ".join(["drained", *map(str, waiting)])

    def check(self, line, report):
        event = parse(line)
        if event[0] == "clock":
            return self.may_fire(event[1], report)
        if event[0] == "turn":
            return self.turn(event[1], event[2]) == report
        if event[0] in ("remote", "drain"):
            return getattr(self, event[0])(*event[1:]) == report
        return self.act(event) == report
