#!/usr/bin/env python3
"""Hostile use of a server over TCP: `python3 tools/hostile.py [PROGRAM] [--seconds N] [--seed S] [--progress]`, or
`make hostile`. Clients of its own, through a proxy that splits, delays, holds back, repeats and cuts off what it passes,
and straight, put, read and ask by requests that are right, refused, garbage, begun and not ended, or not there. Each
reply has to be whole and right for its request, or cut off by the proxy; each document whose put was answered is read
back straight from the server; and in the end the server has no descriptor, no thread and no memory more than the store
needs, answers, and ends when it is told to. It keeps itself and the server below a fifth of a processor. A failure is
printed when it is seen, with `--progress` or on a terminal a line each minute, and in the end a table of what was tried
and seen; the status is 1 where anything failed. Sessions follow from the seed and their number, the times do not."""
import argparse
import ctypes
import os
import random
import re
import sys
import threading
import time
from collections import Counter
from concurrent.futures import ThreadPoolExecutor

import asks
import lasts
import proxy
from asks import Wrong, wants
from hostile_sessions import GET, IDLE, KINDS, OPTIONS, PATIENCE
from replies import Broken, Replies

# The share of a processor that this and the server take, and how many sessions there are at once.
SHARE, AT_ONCE = 0.18, 32
# How much of the store all writes may take, in bytes, and a minute's part at most.
STORE, MINUTE = 90_000_000, 2_000_000
# What a stored write takes beside its bytes, and what everything else may take, in KB: buffers, stacks, copies.
EACH, ELSE = 0.8, 12_000


class Run:
    """One run: the server, the proxy before it, the collections, and what was seen of each kind of session."""

    def __init__(self, server, seconds, seed):
        self.server, self.seed, self.seconds = server, seed, seconds
        self.proxy = proxy.Proxy(server.port)
        self.register = asks.Register()
        self.lock = threading.Lock()
        self.collections = [asks.Collection(f"c{it}", self.register) for it in range(64)]
        self.tried, self.whole, self.cut = Counter(), Counter(), Counter()
        self.seen, self.failures = {}, []
        self.opened, self.asleep, self.slowest, self.readbacks = 0, 0, 0.0, 0
        self.commits, self.resets = 0, 0

    def fail(self, what):
        with self.lock:
            self.failures.append(what)
        with lasts.PRINTING:
            print(f"FAILED {what}", flush=True)

    def straight(self, **how):
        with self.lock:
            self.opened += 1
        return self.server.client(**how)

    def count(self, kind, statuses, cut=False):
        with self.lock:
            self.whole[kind] += len(statuses)
            self.cut[kind] += cut
            self.seen.setdefault(kind, Counter()).update(statuses)

    # Shelves.

    def take(self):
        """A collection that no other session has, whose writes are done, and whose records are known."""
        while True:
            with self.lock:
                now = time.monotonic()
                collection = next((it for it in self.collections if it.ready < now), None)
                if collection is not None:
                    self.collections.remove(collection)
                    break
            time.sleep(0.1)
        if collection.others:
            self.read_back(collection)
        return collection

    def give(self, collection):
        with self.lock:
            self.collections.append(collection)

    def read_back(self, collection):
        """Reads the records of a collection straight from the server."""
        with self.straight(timeout=20) as client:
            client.sendall(b"".join(asks.request(f"GET {collection.path(it)}") for it in asks.IDS))
            replies = Replies()
            while len(replies.all) < len(asks.IDS):
                more = client.recv(65536)
                wants(more, f"a straight read ended after {len(replies.all)} replies")
                replies.take(more)
        found = {}
        for it, reply in zip(asks.IDS, replies.all):
            wants(reply.status in (200, 404), f"a straight read was answered {reply}")
            found[it] = (reply.body, reply.number("Quaestor-Version")) if reply.status == 200 else None
            collection.known = max(collection.known, reply.number("Quaestor-Commit"))
        collection.settle(found)
        with self.lock:
            self.readbacks += len(asks.IDS)

    # The run.

    def heartbeat(self, stop):
        """Asks for the numbers once a second, each time by a new connection."""
        while not stop.wait(1):
            try:
                began, replies = time.monotonic(), Replies()
                with self.straight(timeout=PATIENCE) as client:
                    client.sendall(GET)
                    replies.take(lasts.reply(client))
                self.slowest = max(self.slowest, time.monotonic() - began)
                wants(replies.statuses == [200], "it was not answered 200")
                commits, front = re.search(rb'"commits":(\d+),"front":(\d+)', replies.all[0].body).groups()
                wants(int(front) <= int(commits) >= self.commits, f"there were {self.commits} commits")
                self.commits = int(commits)
                self.count("asked once a second", replies.statuses)
                self.tried["asked once a second"] += 1
            except Exception as error:
                self.fail(f"a client that asks once a second: {type(error).__name__}: {error}")

    def session(self, number, kind):
        rng = random.Random(self.seed * 1_000_003 + number)
        try:
            KINDS[kind][1](self, kind, rng)
        except (Wrong, Broken, lasts.Wrong, OSError) as error:
            self.fail(f"session {number} of seed {self.seed}, {kind}: {type(error).__name__}: {error}")
        except Exception as error:
            self.fail(f"session {number} of seed {self.seed}, {kind}, is wrong itself: {type(error).__name__}: {error}")
        finally:
            with self.lock:
                self.tried[kind] += 1
                self.asleep -= 1

    def used(self):
        """The CPU time of this and the server, in seconds."""
        with open(f"/proc/{self.server.process.pid}/stat") as it:
            fields = it.read().rpartition(")")[2].split()
        return time.process_time() + (int(fields[11]) + int(fields[12])) / os.sysconf("SC_CLK_TCK")

    def status(self):
        """The descriptors, the threads and the memory in KB of the server."""
        pid = self.server.process.pid
        with open(f"/proc/{pid}/status") as it:
            threads = int(re.search(r"Threads:\s+(\d+)", it.read())[1])
        return len(os.listdir(f"/proc/{pid}/fd")), threads, self.server.resident()

    def line(self, began):
        files, threads, memory = self.status()
        passed = time.monotonic() - began
        return (
            f"{passed / 60:.0f} min: {sum(self.tried.values())} sessions, {sum(self.whole.values())} replies, "
            f"{self.commits} commits, {files} descriptors, {threads} threads, {memory} KB, "
            f"{len(self.failures)} failures, {100 * self.used() / passed:.0f} % of a processor"
        )

    def goes_on(self, progress):
        began, used, number = time.monotonic(), self.used(), 0
        budget, stop = min(MINUTE, 60 * STORE / max(60, self.seconds)), threading.Event()
        names, weights = list(KINDS), [it[0] for it in KINDS.values()]
        order, minute = random.Random(self.seed), 1
        beat = threading.Thread(target=self.heartbeat, args=(stop,))
        beat.start()
        with ThreadPoolExecutor(AT_ONCE) as pool:
            while (passed := time.monotonic() - began) < self.seconds and len(self.failures) < 20:
                is_full = self.register.kept > budget * (passed + 5) / 60
                if self.asleep >= AT_ONCE or is_full or self.used() - used > SHARE * passed + 1:
                    time.sleep(0.02)
                    continue
                number += 1
                with self.lock:
                    self.asleep += 1
                pool.submit(self.session, number, order.choices(names, weights)[0])
                if progress and passed > 60 * minute:
                    print(self.line(began), flush=True)
                    minute += 1
        stop.set()
        beat.join()
        return began


def ends_well(run, base):
    """What has to hold when all clients are gone. What was found, in words."""
    until = time.monotonic() + IDLE + 20
    while run.status()[:2] != base[:2] and time.monotonic() < until:
        time.sleep(0.2)
    files, threads, memory = run.status()
    if files != base[0]:
        run.fail(f"{files} descriptors are open, and {base[0]} were at first")
    if threads != base[1]:
        run.fail(f"{threads} threads are there, and {base[1]} were at first")
    for collection in run.collections:
        time.sleep(max(0, collection.ready - time.monotonic()))
        try:
            run.read_back(collection)
        except (Wrong, Broken, OSError) as error:
            run.fail(f"the last read of {collection.name}: {error}")
    most = base[2] + ELSE + (EACH * run.commits + run.register.kept / 1024)
    if memory > most:
        run.fail(f"{memory} KB of memory, where {most:.0f} are enough for {run.commits} commits")
    lasts.answers(run.server, 5)
    run.opened += 1
    run.server.tell()
    said = run.server.ends(20)
    served, most_served = re.fullmatch(r"served (\d+)\n", said), run.opened + run.proxy.opened
    few = most_served - run.tried["reset by the client"] - 150 * run.tried["150 at once"]
    if not served or not few <= int(served[1]) <= most_served:
        run.fail(f"it said {said!r} in the end, and {few} to {most_served} connections were opened")
    return [
        f"{most_served} connections; the longest wait of a client that asks once a second {1000 * run.slowest:.0f} ms",
        f"{run.resets} resets by the server of what was sent behind a last reply",
        f"{run.commits} commits, {run.register.kept // 1024} KB by `--bytes`; {run.readbacks} straight reads of what was put",
        f"in the end {files} descriptors and {threads} threads, as at first; {memory} KB, at first {base[2]}, at most {most:.0f}",
        said.strip(),
    ]


def table(run):
    names = [*KINDS, "asked once a second"]
    rows = [("What was tried", "Sessions", "Whole replies", "Cut by the proxy", "Statuses")]
    for name in names:
        seen = ", ".join(f"{status}: {count}" for status, count in sorted(run.seen.get(name, {}).items()))
        rows.append((name, str(run.tried[name]), str(run.whole[name]), str(run.cut[name]), seen))
    widths = [max(len(row[at]) for row in rows) for at in range(4)]
    for row in rows:
        print("  ".join(text.ljust(width) for text, width in zip(row, [*widths, 0])))


def main():
    words = argparse.ArgumentParser(description="Hostile use of a server over TCP.")
    words.add_argument("program", nargs="?", default=lasts.BUILT if os.access(lasts.BUILT, os.X_OK) else "dist/quaestor")
    words.add_argument("--seconds", type=int, default=30)
    words.add_argument("--seed", type=int, default=1)
    words.add_argument("--progress", action="store_true", default=sys.stdout.isatty())
    given = words.parse_args()
    lasts.PROGRAM = given.program
    # M_ARENA_MAX of glibc: else each of the many short threads of this leaves memory behind
    ctypes.CDLL(None).mallopt(-8, 1)
    with lasts.Server(*OPTIONS) as server:
        for _ in range(3):
            lasts.answers(server, 5)
        run = Run(server, given.seconds, given.seed)
        run.opened += 3
        time.sleep(1.5)
        base = run.status()
        began = run.goes_on(given.progress)
        if given.progress:
            print(run.line(began), flush=True)
        said = ends_well(run, base)
    table(run)
    print("\n".join(said))
    print(f"{sum(run.tried.values())} sessions, {len(run.failures)} failures, seed {given.seed}, {given.seconds} seconds")
    return 1 if run.failures else 0


if __name__ == "__main__":
    sys.exit(main())
