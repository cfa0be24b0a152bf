"""An independent reading of docs/FORMATS.md: sessions, a limiter and actors over lines of text, and runs of scripts without
workers. It shares nothing with the proved program.

Each model's `answer(line)` returns the line that answers a call. It raises Unsure if more than one answer is allowed: two
waits that end in one clock step at one tick.
"""
from machine import MAX_NANOS, TICK, Machine

LAST_TICK = 2**63 - 1
# `open` is a field of the sessions.
METHODS = {"open": "open_"}


class Unsure(Exception):
    """The order of this step's list is free."""


def listed(word, due):
    """The line of a clock step: the numbers in ascending ticks."""
    ticks = [tick for tick, _ in due]
    if len(set(ticks)) != len(ticks):
        raise Unsure
    return " ".join([word, *(str(number) for _, number in sorted(due))])


class Sessions:
    def __init__(self, most_sessions, most_entries):
        self.most_sessions, self.most_entries = most_sessions, most_entries
        self.next = self.now = 0
        self.open, self.entries = {}, []

    def queue(self, key):
        return [session for session, of in self.entries if of == key]

    def answer(self, line):
        word, *rest = line.split(" ")
        return getattr(self, METHODS.get(word, word))(*(int(part) for part in rest))

    def ticks(self):
        return [last + limit for last, limit in self.open.values()]

    def leave(self, session):
        del self.open[session]
        self.entries = [entry for entry in self.entries if entry[0] != session]

    def clock(self, nanos):
        if nanos > MAX_NANOS:
            return "refused invalid"
        now = max(self.now, nanos // TICK)
        due = [(last + limit, session) for session, (last, limit) in self.open.items() if last + limit <= now]
        text = listed("closed", due)
        self.now = now
        for _, session in due:
            self.leave(session)
        return text

    def refusal(self, name):
        return f"refused {name}"

    def open_(self, limit):
        if len(self.open) >= self.most_sessions:
            return self.refusal("at-capacity")
        if self.now + limit > LAST_TICK:
            return self.refusal("invalid")
        if limit == 0:
            return self.refusal("zero-limit")
        self.open[self.next] = (self.now, limit)
        self.next += 1
        return f"session {self.next - 1}"

    def beat(self, session):
        if session not in self.open:
            return self.refusal("no-session")
        limit = self.open[session][1]
        if self.now + limit > LAST_TICK:
            return self.refusal("invalid")
        self.open[session] = (self.now, limit)
        return "ok"

    def close(self, session):
        if session not in self.open:
            return self.refusal("no-session")
        self.leave(session)
        return "ok"

    def acquire(self, session, key):
        if len(self.entries) >= self.most_entries:
            return self.refusal("at-capacity")
        if session not in self.open:
            return self.refusal("no-session")
        if (session, key) in self.entries:
            return self.refusal("doubled")
        first = not self.queue(key)
        self.entries.append((session, key))
        return "held" if first else "waits"

    def release(self, session, key):
        if session not in self.open:
            return self.refusal("no-session")
        if (session, key) not in self.entries:
            return self.refusal("not-in")
        self.entries.remove((session, key))
        return "ok"

    def owner(self, key):
        queue = self.queue(key)
        return f"owner {queue[0]}" if queue else "free"


class Limiter:
    def __init__(self, most_buckets, most_retries):
        self.most_buckets, self.most_retries = most_buckets, most_retries
        self.buckets, self.retries = [], {}
        self.next = self.now = 0

    def answer(self, line):
        word, *rest = line.split(" ")
        return getattr(self, METHODS.get(word, word))(*(int(part) for part in rest))

    def bucket(self, burst, period):
        if len(self.buckets) >= self.most_buckets:
            return "refused at-capacity"
        if not (0 < burst < 2**32 and 0 < period < 2**32):
            return "refused bad-bucket"
        self.buckets.append({"burst": burst, "period": period, "origin": self.now, "tokens": burst})
        return f"bucket {len(self.buckets) - 1}"

    def fill(self, now):
        for bucket in self.buckets:
            ended = (now - bucket["origin"]) // bucket["period"] - (self.now - bucket["origin"]) // bucket["period"]
            bucket["tokens"] = min(bucket["burst"], bucket["tokens"] + ended)
        self.now = now

    def take(self, number, tokens):
        if number >= len(self.buckets):
            return "refused no-bucket"
        bucket = self.buckets[number]
        if tokens > bucket["burst"]:
            return "refused too-many"
        if tokens <= bucket["tokens"]:
            bucket["tokens"] -= tokens
            return "granted"
        ended = (self.now - bucket["origin"]) // bucket["period"]
        return f"short {bucket['origin'] + (ended + tokens - bucket['tokens']) * bucket['period']}"

    def retry(self, base, cap, most):
        if len(self.retries) >= self.most_retries:
            return "refused at-capacity"
        if base == 0 or cap < base or not 0 < most < 2**32:
            return "refused bad-retry"
        self.retries[self.next] = {"base": base, "cap": cap, "most": most, "failed": 0, "until": None}
        self.next += 1
        return f"retry {self.next - 1}"

    def ticks(self):
        return [retry["until"] for retry in self.retries.values() if retry["until"] is not None]

    def fail(self, number):
        retry = self.retries.get(number)
        if retry is None:
            return "refused no-retry"
        if retry["until"] is not None:
            return "refused waiting"
        if retry["failed"] + 1 == retry["most"]:
            del self.retries[number]
            return "gave-up"
        until = self.now + min(retry["cap"], retry["base"] * 2**retry["failed"])
        if until > LAST_TICK:
            return "refused invalid"
        retry["failed"] += 1
        retry["until"] = until
        return f"again {until}"

    def done(self, number):
        if self.retries.pop(number, None) is None:
            return "refused no-retry"
        return "ok"

    def clock(self, nanos):
        if nanos > MAX_NANOS:
            return "refused invalid"
        now = max(self.now, nanos // TICK)
        due = [
            (retry["until"], number) for number, retry in self.retries.items()
            if retry["until"] is not None and retry["until"] <= now
        ]
        text = listed("due", due)
        self.fill(now)
        for _, number in due:
            self.retries[number]["until"] = None
        return text


class Actors:
    def __init__(self, most_actors, most_messages):
        self.most_actors, self.most_messages = most_actors, most_messages
        self.live, self.queue = {}, []
        self.next = self.now = 0

    def answer(self, line):
        if line == "turn" or line.startswith("turn; "):
            return self.turn(line.split("; ")[1:])
        word, *rest = line.split(" ")
        return getattr(self, METHODS.get(word, word))(*(int(part) for part in rest))

    def actor(self):
        if len(self.live) >= self.most_actors:
            return "refused at-capacity"
        self.live[self.next] = {"mode": "idle", "until": None, "mail": [], "timeout": 0}
        self.next += 1
        return f"actor {self.next - 1}"

    def send(self, sender, receiver, message):
        if sum(len(actor["mail"]) for actor in self.live.values()) >= self.most_messages:
            return "refused at-capacity"
        if sender not in self.live or receiver not in self.live:
            return "refused no-actor"
        actor = self.live[receiver]
        actor["mail"].append((sender, message))
        if actor["mode"] != "idle":
            return "waits"
        actor.update(mode="queued", until=None)
        self.queue.append(receiver)
        return "queued"

    def wait(self, actor):
        until = self.now + actor["timeout"]
        actor["until"] = until if actor["timeout"] and until <= LAST_TICK else None

    def timeout(self, number, ticks):
        actor = self.live.get(number)
        if actor is None:
            return "refused no-actor"
        actor["timeout"] = ticks
        if actor["mode"] == "idle":
            self.wait(actor)
        return "ok"

    def ticks(self):
        return [actor["until"] for actor in self.live.values() if actor["until"] is not None]

    def clock(self, nanos):
        if nanos > MAX_NANOS:
            return "refused invalid"
        now = max(self.now, nanos // TICK)
        due = [(a["until"], number) for number, a in self.live.items() if a["until"] is not None and a["until"] <= now]
        text = listed("due", due)
        self.now = now
        for _, number in sorted(due):
            self.live[number].update(mode="queued", until=None)
            self.queue.append(number)
        return text

    def turn(self, parts):
        *sends, end = parts
        if not self.queue:
            return "refused idle"
        me = self.queue.pop(0)
        actor = self.live[me]
        actor["mode"] = "running"
        told = [f"turn {me}"]
        if actor["mail"]:
            sender, message = actor["mail"].pop(0)
            told.append(f"from {sender} {message}")
        else:
            told.append("timeout")
        for send in sends:
            _, receiver, message = send.split(" ")
            told.append(self.send(me, int(receiver), int(message)))
        if end == "stop":
            del self.live[me]
            told.append("stopped")
        elif actor["mail"]:
            actor["mode"] = "queued"
            self.queue.append(me)
            told.append("again")
        else:
            actor["mode"] = "idle"
            self.wait(actor)
            told.append("idle")
        return "; ".join(told)


class Script:
    """A run of a script without workers. The clock shows the sum of the parks."""

    def __init__(self, limits, kinds, turns):
        self.machine = Machine("attached", *limits)
        self.kinds, self.units = kinds, turns
        self.now = 0
        self.tasks, self.out = {}, []

    def note(self, event, report):
        self.out.append(f"{event} -> {report}")

    def pair(self, event, report):
        if not self.machine.check(event, report):
            raise AssertionError((event, report))
        self.note(event, report)

    def fired(self):
        """The sleeps that are due, in ascending ticks and then in the order of arming: none is ever moved."""
        now = max(self.machine.greatest, self.now // TICK)
        due = [
            (entry["tick"], entry["arm"], number) for number, entry in enumerate(self.machine.sleeps)
            if entry and entry["state"] == "armed" and entry["tick"] <= now
        ]
        return [number for _, _, number in sorted(due)]

    def next_start(self):
        """The least start of a slot over the armed ticks: the lower digits at base 64 than the one that differs are 0."""
        starts = []
        for entry in self.machine.sleeps:
            if entry and entry["state"] == "armed":
                tick, elapsed = entry["tick"], self.machine.greatest
                level = 0
                while (tick ^ elapsed) >> (6 * (level + 1)):
                    level += 1
                starts.append(tick >> (6 * level) << (6 * level))
        return min(starts, default=None)

    def steps_of(self, number):
        """Polls the task's lines; returns its steps with their replies, and its output or none."""
        task, machine = self.tasks[number], self.machine
        steps = []

        def act(*words):
            text = " ".join(map(str, words))
            reply = machine.act((words[0], *words[1:]))
            steps.append((text, reply))
            return reply

        def see(job):
            if job in task["running"]:
                task["running"].remove(job)
                act("job-end", job, "ran")

        while True:
            line = task["lines"][task["at"]].split(" ")
            word, arg = line[0], int(line[1]) if len(line) > 1 else None
            if word == "done":
                return steps, arg
            if word == "yield":
                task["at"] += 1
                act("wake", number)
                return steps, None
            if word == "spawn":
                reply = act("spawn")
                task["children"].append(None)
                if reply.startswith("task "):
                    child = int(reply[5:])
                    task["children"][-1] = child
                    self.tasks[child] = self.new_task(arg)
            elif word == "join" and task["children"][arg] is not None:
                if act("join", task["children"][arg]) == "pending":
                    return steps, None
                act("drop-join", task["children"][arg])
            elif word == "detach" and task["children"][arg] is not None:
                act("drop-join", task["children"][arg])
            elif word == "await-sleep":
                if task["sleep"] is None:
                    reply = act("sleep", self.now + arg)
                    if reply.startswith("sleep "):
                        task["sleep"] = int(reply[6:])
                if task["sleep"] is not None:
                    if act("poll", task["sleep"]) == "pending":
                        return steps, None
                    act("drop-sleep", task["sleep"])
                    task["sleep"] = None
            elif word == "block":
                reply = act("block", arg)
                task["jobs"].append(None)
                if reply.startswith("job "):
                    task["jobs"][-1] = int(reply[4:])
                    task["running"].append(task["jobs"][-1])
            elif word in ("await-job", "drop-job") and task["jobs"][arg] is not None:
                see(task["jobs"][arg])
                if word == "await-job":
                    act("job", task["jobs"][arg])
                act("drop-job", task["jobs"][arg])
            task["at"] += 1

    def new_task(self, kind):
        return {"lines": self.kinds[kind], "at": 0, "children": [], "jobs": [], "running": [], "sleep": None}

    def turn(self):
        machine = self.machine
        self.out.append(f"now {self.now}")
        number = machine.queue[0]
        replies = []

        def steps():
            found, output = self.steps_of(number)
            replies.extend(found)
            return output

        report = polled_turn(machine, steps)
        told = [text for text, _ in replies]
        self.note("; ".join(["turn", *told, report[0]]), report[1](replies))
        self.units -= 1

    def round(self):
        left = 2 * len(self.machine.queue) + 1
        while left > 0 and self.units > 0 and self.machine.queue:
            self.turn()
            left -= 1

    def ended(self):
        entry = self.machine.tasks[0]
        return entry is not None and entry[0] == "done"

    def pause(self):
        if self.machine.queue:
            self.pair("drain", "drained")
            return
        self.out.append(f"now {self.now}")
        start = self.next_start()
        if start is None:
            self.out.append("park")
        else:
            wait = max(0, start - self.now // TICK)
            self.out.append(f"park {wait}")
            self.now += wait * TICK
        self.pair("drain", "drained")
        self.pair(f"clock {self.now}", " ".join(["fired", *map(str, self.fired())]))
        if not self.machine.queue:
            self.units -= 1

    def run(self):
        if not self.machine.limits["task"]:
            return 10, []
        self.pair("spawn", "task 0")
        self.tasks[0] = self.new_task(0)
        self.round()
        while self.units > 0 and not self.ended():
            self.pause()
            self.round()
        output = self.machine.tasks[0][3] if self.ended() else None
        self.pair("drop-join 0", "dropped" if output is None else f"dropped {output}")
        if output is None:
            return 8, self.out
        self.out.append(f"main {output}")
        return 0, self.out


def polled_turn(machine, steps):
    """One turn whose steps are found while it runs: its end, and a function from the steps to its report."""
    task = machine.queue.pop(0)
    machine.tasks[task][0] = "running"
    machine.running = task
    output = steps()
    machine.running = None
    entry = machine.tasks[task]
    if output is None:
        again = entry[0] == "noted"
        entry[0] = "queued" if again else "idle"
        if again:
            machine.queue.append(task)
        last = "again" if again else "idle"
    elif entry[1]:
        waiter = entry[2]
        entry[:] = ["done", True, None, output]
        machine.wake(waiter)
        last = "done"
    else:
        machine.tasks[task] = None
        last = "gone"
    end = "pending" if output is None else f"ready {output}"
    return end, lambda replies: "; ".join([f"turn {task}", *(reply for _, reply in replies), last])
