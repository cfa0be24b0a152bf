"""load.py SEED CORES CLIENTS COUNT [--rate LINES] [--silent N] [--hot]: writes request lines for a server of CORES cores.

The same seed gives the same lines. With --rate it writes this many lines a second, else as fast as it can. With
--silent the first N clients open a session, acquire a lock, and then never beat. With --hot nearly all keys are of core 0."""
import argparse
import itertools
import random
import sys
import time

sys.dont_write_bytecode = True
from check import core_of


class Client:
    """A client: its key, its session, bucket and actor on the key's core, and the locks that it asked for."""

    def __init__(self, key, core):
        self.key, self.core = key, core
        self.session = self.bucket = self.actor = None
        self.asked = []


class Load:
    """The lines of a seed. Numbers of sessions, buckets and actors count on each core in the order of the lines."""

    def __init__(self, seed, cores, clients, silent=0, is_hot=False):
        self.draw = random.Random(seed)
        self.cores = cores
        self.sessions = [0] * cores
        self.buckets = [0] * cores
        self.actors = [[] for _ in range(cores)]
        keys = (key for key in range(10 ** 6) if not is_hot or key % 20 == 0 or core_of(key, cores) == 0)
        self.clients = [Client(key, core_of(key, cores)) for key in itertools.islice(keys, clients)]
        self.locks = [[] for _ in range(cores)]
        for key in range(10 ** 6, 10 ** 6 + max(cores * 8, clients // 4)):
            self.locks[core_of(key, cores)].append(key)
        self.silent = silent
        self.starts = list(range(silent))

    def lock(self, client):
        """A key of the client's core, or the client's own."""
        keys = self.locks[client.core]
        return self.draw.choice(keys) if keys else client.key

    def open(self, client, limit):
        client.session = self.sessions[client.core]
        self.sessions[client.core] += 1
        client.asked = []
        return f"open {client.key} {limit}"

    def acquire(self, client):
        key = self.lock(client)
        client.asked.append(key)
        return f"acquire {key} {client.session}"

    def release(self, client):
        key = client.asked.pop(self.draw.randrange(len(client.asked)))
        return f"release {key} {client.session}"

    def look(self, client):
        """A try, or a question."""
        word = self.draw.choice(["try", "owner", "stats"])
        key = client.key if word == "stats" else self.lock(client)
        return f"try {key} {client.session}" if word == "try" else f"{word} {key}"

    def lease_line(self, client):
        """A call on the leases."""
        if client.session is None or self.draw.random() < 0.02:
            return self.open(client, self.draw.randrange(20, 3000))
        what = self.draw.random()
        if what < 0.4:
            return f"beat {client.key} {client.session}"
        if what < 0.43:
            return self.look(client)
        if what < 0.44:
            line = f"close {client.key} {client.session}"
            client.session = None
            return line
        if client.asked and (what < 0.72 or len(client.asked) > 2):
            return self.release(client)
        return self.acquire(client)

    def token_line(self, client):
        """A call on the buckets."""
        if client.bucket is None:
            client.bucket = self.buckets[client.core]
            self.buckets[client.core] += 1
            return f"bucket {client.key} {self.draw.randrange(1, 20)} {self.draw.randrange(1, 50)}"
        return f"take {client.key} {client.bucket} {self.draw.randrange(1, 8)}"

    def mail_line(self, client):
        """A call on the mailboxes."""
        actors = self.actors[client.core]
        if client.actor is None:
            client.actor = len(actors)
            actors.append(client.actor)
            return f"spawn {client.key}"
        if self.draw.random() < 0.5:
            return f"send {client.key} {client.actor} {self.draw.choice(actors)} {self.draw.randrange(1000)}"
        return f"receive {client.key}"

    def waits(self):
        """Lines that leave a wait on each core."""
        for keys in self.locks:
            for _ in range(2):
                client = Client(keys[0], core_of(keys[0], self.cores))
                yield self.open(client, 3600000)
                yield f"acquire {client.key} {client.session}"

    def line(self):
        """The next line."""
        if self.starts:
            client = self.clients[self.starts[-1]]
            if client.session is None:
                return self.open(client, 500)
            self.starts.pop()
            return self.acquire(client)
        client = self.clients[self.draw.randrange(self.silent, len(self.clients))]
        what = self.draw.random()
        if what < 0.001:
            return self.draw.choice(["", "beat", "open 1", "take 1 2 3 4", "acquire x 1", "receive 01"])
        if what < 0.6:
            return self.lease_line(client)
        return self.token_line(client) if what < 0.8 else self.mail_line(client)


def main():
    words = argparse.ArgumentParser()
    for word in ("seed", "cores", "clients", "count"):
        words.add_argument(word, type=int)
    words.add_argument("--rate", type=int, default=0)
    words.add_argument("--silent", type=int, default=0)
    words.add_argument("--hot", action="store_true")
    words = words.parse_args()
    load = Load(words.seed, words.cores, words.clients, words.silent, words.hot)
    out, begin, done = sys.stdout.buffer, time.monotonic(), 0
    while done < words.count:
        many = 4096
        if words.rate:
            due = int((time.monotonic() - begin) * words.rate)
            if due <= done:
                time.sleep(0.002)
                continue
            many = due - done
        many = min(many, words.count - done)
        out.write("".join(load.line() + "\n" for _ in range(many)).encode())
        out.flush()
        done += many


if __name__ == "__main__":
    try:
        main()
    except BrokenPipeError:
        sys.exit(1)
