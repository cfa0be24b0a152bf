"""check.py CORES SESSIONS ENTRIES BUCKETS ACTORS MESSAGES REQUESTS REPLIES: replays the requests of each core by the
ticks of the replies, and says whether the replies are those of the services' rules, in an order that they allow.

It exits with 0 if each line has exactly one reply and all replies are right, else with 1 and the first that is not. No
reply may be `refused out-of-memory`. `check` also compares the ticks with a clock of its caller, bounds how late a wait
ends, and allows what a run with a refused allocation may answer."""
import bisect
import collections
import copy
import heapq
import itertools
import sys

SPREAD = 11400714819323198485
LAST_TICK = 2 ** 63 - 1
# the calls, with how many numbers follow the key
CALLS = {"open": 1, "beat": 1, "close": 1, "acquire": 1, "release": 1, "try": 1, "owner": 0, "stats": 0}
CALLS |= {"bucket": 2, "take": 2, "spawn": 0, "send": 3, "receive": 0}
TAKES_MEMORY = {"open", "acquire", "try", "bucket", "spawn", "send"}
Reply = collections.namedtuple("Reply", "core arrived tick text end")
# What a run may do beside the rules. `refusals`: how many requests may be refused memory. `late`: by how many milliseconds
# at most a wait may end after the tick at which its session, or the one before it, closes, and a request's tick be earlier
# than it was sent; None for any. `is_prompt`: whether replies may be read at most so much after their ticks. `is_cut`:
# whether the program may have ended before it had answered all.
Leave = collections.namedtuple("Leave", "refusals late is_prompt is_cut", defaults=(0, None, False, False))


class Wrong(Exception):
    """A reply that no run gives."""


def number_of(text):
    """A number below 2^64 in its only spelling, or None."""
    if not (text.isascii() and text.isdigit()) or (len(text) > 1 and text[0] == "0") or int(text) >= 2 ** 64:
        return None
    return int(text)


def core_of(key, cores):
    """The core of a key."""
    return (key * SPREAD % 2 ** 64 >> 32) % cores


def request_of(line):
    """A line's call: the word, the key and the other numbers, or None."""
    word, *numbers = line.split(" ")
    numbers = [number_of(text) for text in numbers]
    if word not in CALLS or len(numbers) != CALLS[word] + 1 or None in numbers:
        return None
    return word, numbers[0], numbers[1:]


class Core:
    """The rules of one core.

    A call returns its answer, None for a wait, and the ends of waits: pairs of the tick at which a session closed, None
    after a request, and of the answers by their requests' numbers. The pairs are in the order of the replies; the answers
    of one pair are in any order."""

    def __init__(self, sizes):
        self.most_sessions, self.most_entries, self.most_buckets, self.most_actors, self.most_messages = sizes
        self.tick = 0
        self.sessions = {}           # number -> [last heartbeat, limit]
        self.closings = []           # a heap of ticks and sessions; those of an earlier heartbeat are passed over
        self.next_session = 0
        self.queues = {}             # key -> sessions, the holder first
        self.keys = {}               # session -> keys in whose queues it is, in the order in which it entered them
        self.entries = 0
        self.waiting = {}            # (session, key) -> number of the request, in the order of arrival
        self.buckets = []            # [burst, period, origin, tokens, ended periods]
        self.actors = []             # [is idle, messages]
        self.queue = collections.deque()
        self.messages = 0

    # ---- leases

    def leave(self, session, key):
        self.queues[key].pop(session)
        if not self.queues[key]:
            del self.queues[key]
        del self.keys[session][key]
        self.entries -= 1

    def end(self, session, key, text):
        """The end of a session's wait for a key, if it waits."""
        number = self.waiting.pop((session, key), None)
        return {} if number is None else {number: text}

    def hand_on(self, key):
        """The end of the wait of the session that holds a key's lock."""
        return self.end(next(iter(self.queues.get(key, [None]))), key, "held")

    def remove(self, gone):
        """Removes pairs of a tick and a session. All leave their queues before the first wait is answered."""
        left = [(tick, session, key) for tick, session in gone for key in self.keys.get(session, ())]
        for _, session, key in left:
            self.leave(session, key)
        for _, session in gone:
            del self.sessions[session]
            self.keys.pop(session, None)
        return [(tick, ends) for tick, *at in left for ends in ({**self.end(*at, "closed"), **self.hand_on(at[1])},) if ends]

    def advance(self, tick):
        self.tick = max(self.tick, tick)
        gone = {}
        while self.closings and self.closings[0][0] <= self.tick:
            due, session = heapq.heappop(self.closings)
            if sum(self.sessions.get(session, [-1])) == due:
                gone[session] = due
        ends = self.remove([(due, session) for session, due in gone.items()])
        # sessions that close at the same tick are answered in any order
        return [(due, {n: text for _, one in group for n, text in one.items()}) for due, group in itertools.groupby(ends, lambda end: end[0])]

    def renew(self, session, limit):
        self.sessions[session] = [self.tick, limit]
        heapq.heappush(self.closings, (self.tick + limit, session))

    def open(self, key, limit):
        if len(self.sessions) >= self.most_sessions:
            return "refused at-capacity", []
        if self.tick + limit > LAST_TICK:
            return "refused invalid", []
        if limit == 0:
            return "refused zero-limit", []
        self.renew(self.next_session, limit)
        self.next_session += 1
        return f"session {self.next_session - 1}", []

    def beat(self, key, session):
        if session not in self.sessions:
            return "refused no-session", []
        if self.tick + self.sessions[session][1] > LAST_TICK:
            return "refused invalid", []
        self.renew(session, self.sessions[session][1])
        return "ok", []

    def close(self, key, session):
        if session not in self.sessions:
            return "refused no-session", []
        return "ok", [(None, ends) for _, ends in self.remove([(None, session)])]

    def refusal_to_enter(self, key, session):
        if self.entries >= self.most_entries:
            return "refused at-capacity"
        if session not in self.sessions:
            return "refused no-session"
        return "refused doubled" if session in self.queues.get(key, {}) else None

    def acquire(self, key, session, number):
        refusal = self.refusal_to_enter(key, session)
        if refusal:
            return refusal, []
        queue = self.queues.get(key, {})
        self.queues.setdefault(key, {})[session] = True
        self.keys.setdefault(session, {})[key] = True
        self.entries += 1
        if not queue:
            return "held", []
        self.waiting[session, key] = number
        return None, []

    def release(self, key, session):
        if session not in self.sessions:
            return "refused no-session", []
        if session not in self.queues.get(key, {}):
            return "refused not-in", []
        self.leave(session, key)
        ends = {**self.end(session, key, "left"), **self.hand_on(key)}
        return "ok", [(None, ends)] if ends else []

    def attempt(self, key, session):
        """A `try`: an acquire that does not wait."""
        refusal = self.refusal_to_enter(key, session)
        if not refusal and self.queues.get(key):
            return "busy", []
        return (refusal, []) if refusal else self.acquire(key, session, None)

    def owner(self, key):
        queue = self.queues.get(key)
        return f"owner {next(iter(queue))}" if queue else "free", []

    def stats(self, key):
        return f"stats {len(self.sessions)} {self.entries} {len(self.actors)} {len(self.waiting)}", []

    # ---- buckets

    def bucket(self, key, burst, period):
        if len(self.buckets) >= self.most_buckets:
            return "refused at-capacity", []
        if not (0 < burst < 2 ** 32 and 0 < period < 2 ** 32):
            return "refused bad-bucket", []
        self.buckets.append([burst, period, self.tick, burst, 0])
        return f"bucket {len(self.buckets) - 1}", []

    def take(self, key, number, n):
        if number >= len(self.buckets):
            return "refused no-bucket", []
        burst, period, origin, tokens, ended = self.buckets[number]
        if n > burst:
            return "refused too-many", []
        now = (self.tick - origin) // period
        tokens = min(burst, tokens + now - ended)
        if n <= tokens:
            self.buckets[number] = [burst, period, origin, tokens - n, now]
            return "granted", []
        return f"short {origin + (now + n - tokens) * period}", []

    # ---- mailboxes

    def spawn(self, key):
        if len(self.actors) >= self.most_actors:
            return "refused at-capacity", []
        self.actors.append([True, collections.deque()])
        return f"actor {len(self.actors) - 1}", []

    def send(self, key, sender, receiver, message):
        if self.messages >= self.most_messages:
            return "refused at-capacity", []
        if sender >= len(self.actors) or receiver >= len(self.actors):
            return "refused no-actor", []
        actor = self.actors[receiver]
        actor[1].append((sender, message))
        self.messages += 1
        if not actor[0]:
            return "waits", []
        actor[0] = False
        self.queue.append(receiver)
        return "queued", []

    def receive(self, key):
        if not self.queue:
            return "refused idle", []
        me = self.queue.popleft()
        sender, message = self.actors[me][1].popleft()
        self.messages -= 1
        if self.actors[me][1]:
            self.queue.append(me)
        else:
            self.actors[me][0] = True
        return f"message {me} {sender} {message}", []


def call(core, number, word, key, numbers):
    """Performs a request. Returns its answer, and the ends of waits."""
    performs = core.attempt if word == "try" else getattr(core, word)
    return performs(key, *numbers, *([number] if word == "acquire" else []))


def may_lack(core, word, key, numbers):
    """Whether the request may be refused memory: a try and an acquire before they look at anything else, others if nothing refuses
    them."""
    if word not in TAKES_MEMORY:
        return False
    return word in ("acquire", "try") or not call(copy.deepcopy(core), None, word, key, numbers)[0].startswith("refused")


class Replies:
    """The replies by number, and the numbers in the order of the replies: of each core, and of the bad lines."""

    def __init__(self, path):
        self.by_number = {}
        self.of_core = collections.defaultdict(list)
        end = 0
        with open(path, encoding="latin-1", newline="\n") as lines:
            for line in lines:
                end += len(line)
                self.add(line, end)

    def add(self, line, end):
        if not line.endswith("\n"):
            raise Wrong(f"the last reply is cut off: {line!r}")
        number, *rest = line.rstrip("\n").split(" ", 4)
        number = int(number)
        if number in self.by_number:
            raise Wrong(f"request {number} was answered twice")
        reply = Reply(None, None, None, "bad", end) if rest == ["bad"] else Reply(*map(int, rest[:3]), rest[3], end)
        self.by_number[number] = reply
        self.of_core[reply.core].append(number)


def read_requests(path):
    """The lines, and whether the last has its line feed."""
    with open(path, "rb") as file:
        text = file.read().decode("latin-1")
    lines = text.split("\n")
    is_cut = lines[-1] != ""
    return (lines if is_cut else lines[:-1]), is_cut


class Replay:
    """One core, replayed by the ticks of its replies."""

    def __init__(self, sizes, replies, order, leave):
        self.core, self.replies, self.leave = Core(sizes), replies, leave
        self.order, self.said = order, 0
        self.arrivals = {}           # the ticks at which waiting requests came
        self.due = {}                # tick -> waiting requests that were answered then
        self.is_over = False         # whether the program ended before it had answered the next request

    def expect(self, number, arrived, text):
        reply = self.replies[number]
        if (reply.arrived, reply.tick, reply.text) != (arrived, self.core.tick, text):
            raise Wrong(f"request {number}: expected {arrived} {self.core.tick} {text!r}, got {reply}")

    def say(self, numbers):
        """The next replies are to these requests, in any order."""
        found = self.order[self.said : self.said + len(numbers)]
        if set(found) != set(numbers):
            raise Wrong(f"out of order: expected the replies to {sorted(numbers)}, got those to {found}")
        self.said += len(numbers)

    def settle(self, ends):
        """Compares the replies to requests whose waits ended."""
        for due, answers in ends:
            if due is not None and self.leave.late is not None and due + self.leave.late < self.core.tick:
                raise Wrong(f"the waits {sorted(answers)} ended at tick {self.core.tick}, and a session closed at {due}")
            there = {number: text for number, text in answers.items() if number in self.replies}
            if len(there) < len(answers):
                self.lose(set(answers) - set(there))
            for number, text in there.items():
                self.expect(number, self.arrivals.pop(number), text)
                self.due[self.core.tick].discard(number)
            self.say(there)

    def lose(self, numbers):
        """Requests have no reply: the program ended before."""
        if not self.leave.is_cut:
            raise Wrong(f"the requests {sorted(numbers)} have no reply")
        self.is_over = True

    def pass_to(self, tick):
        """Makes the clock steps that the replies show, up to a tick."""
        if tick < self.core.tick:
            raise Wrong(f"the clock went back from {self.core.tick} to {tick}")
        for step in sorted(t for t in self.due if t < tick and self.due[t]):
            if step < self.core.tick:
                raise Wrong(f"requests {self.due[step]} were answered late or early, at {step}")
            self.settle(self.core.advance(step))
            if self.due[step]:
                raise Wrong(f"requests {self.due[step]} were answered at {step} for no reason")
        self.settle(self.core.advance(tick))
        self.due = {t: numbers for t, numbers in self.due.items() if numbers}

    def wait(self, number):
        self.arrivals[number] = self.core.tick
        if number in self.replies:
            self.due.setdefault(self.replies[number].tick, set()).add(number)

    def perform(self, number, word, key, numbers):
        """Performs a request. Returns how often it was refused memory: once or not."""
        reply = self.replies.get(number)
        if reply is None or self.is_over:
            self.perform_unanswered(number, word, key, numbers)
            return 0
        self.pass_to(reply.arrived)
        if reply.text == "refused out-of-memory" and self.leave.refusals and may_lack(self.core, word, key, numbers):
            self.expect(number, self.core.tick, reply.text)
            self.say([number])
            return 1
        text, ends = call(self.core, number, word, key, numbers)
        if text is None:
            self.wait(number)
            return 0
        self.expect(number, self.core.tick, text)
        self.say([number])
        self.settle(ends)
        return 0

    def perform_unanswered(self, number, word, key, numbers):
        """Performs an acquire that waits and has no reply; with any other request the program ended."""
        if self.is_over and number in self.replies:
            raise Wrong(f"request {number} was answered, and one before it was not")
        if not self.is_over and word == "acquire" and call(self.core, number, word, key, numbers)[0] is None:
            self.wait(number)
        else:
            self.lose([number])

    def finish(self):
        if not self.is_over:
            self.pass_to(max([self.core.tick, *self.due]))
            waiting = list(self.core.waiting.values())
            if not self.leave.is_cut or any(number in self.replies for number in waiting):
                for number in waiting:
                    self.expect(number, self.arrivals[number], "ended")
                    self.say([number])
        if self.said < len(self.order):
            raise Wrong(f"replies for no reason: to {self.order[self.said :][:10]}")


class Times:
    """When bytes went to the server and when its replies were read, in microseconds since it was started.

    `sent` and `read` have pairs: how many bytes had gone in all, and a time: just before they went, just after they came."""

    def __init__(self):
        self.sent, self.read = [], []

    @staticmethod
    def at(pairs, byte):
        """The time at which this many bytes had gone."""
        return pairs[bisect.bisect_left(pairs, (byte,))][1]

    def compare(self, lines, replies, order, leave):
        """Compares a core's ticks. Its clock began at some time after the start, the same for all ticks.

        A reply is read after its tick, so this time is at most `begin`."""
        if not order:
            return
        read = {number: self.at(self.read, replies[number].end) for number in order}
        begin = min(read[number] - 1000 * replies[number].tick for number in order)
        if begin < -1000:
            raise Wrong(f"a clock is {-begin} microseconds ahead")
        if leave.late is None:
            return
        for number in order:
            reply = replies[number]
            sent = self.at(self.sent, lines[number - 1])
            if begin + 1000 * (reply.arrived + leave.late) < sent:
                raise Wrong(f"request {number} was sent {sent - begin} microseconds after tick 0 or later, and has {reply}")
            if leave.is_prompt and begin + 1000 * (reply.tick + leave.late) < read[number]:
                raise Wrong(f"a reply came {read[number] - begin} microseconds after tick 0: to request {number}, {reply}")


def check(cores, sizes, requests, replies, times=None, leave=Leave()):
    """Raises Wrong unless some run of each core gives the replies, at these times. Returns how many lines there are."""
    lines, is_cut = read_requests(requests)
    told = Replies(replies)
    answered = told.by_number
    wrong = set(answered) - set(range(1, len(lines) + 1))
    if not leave.is_cut:
        wrong |= set(range(1, len(lines) + 1)) - set(answered)
    if wrong:
        raise Wrong(f"{len(wrong)} lines have no reply, or replies no line; the first: {min(wrong)}")
    replays = [Replay(sizes, answered, told.of_core[core], leave) for core in range(cores)]
    refusals = 0
    for number, line in enumerate(lines, 1):
        found = None if is_cut and number == len(lines) else request_of(line)
        reply = answered.get(number)
        if found is None:
            if reply is not None and reply.text != "bad":
                raise Wrong(f"line {number} is no request, and was answered: {reply}")
            continue
        core = core_of(found[1], cores)
        if reply is not None and reply.core != core:
            raise Wrong(f"request {number} belongs to core {core}, and was answered: {reply}")
        refusals += replays[core].perform(number, *found)
    if refusals > leave.refusals:
        raise Wrong(f"{refusals} requests were refused memory, and {leave.refusals} allocations")
    for replay in replays:
        replay.finish()
    if told.of_core[None] != sorted(told.of_core[None]):
        raise Wrong("the bad lines were answered out of order")
    if times is not None:
        ends = list(itertools.accumulate(len(line) + 1 for line in lines))
        for core in range(cores):
            times.compare(ends, answered, told.of_core[core], leave)
    return len(lines)


if __name__ == "__main__":
    cores, *sizes = map(int, sys.argv[1:7])
    try:
        count = check(cores, sizes, sys.argv[7], sys.argv[8])
    except Wrong as wrong:
        print("no:", wrong)
        sys.exit(1)
    print(f"yes: {count} lines, each answered once by its core's rules")
