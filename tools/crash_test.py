#!/usr/bin/env python3
"""Tests that a server with a file loses nothing: `python3 tools/crash_test.py [PROGRAM] [NAME..] [--rounds N] [--seed N]
[--folder DIR]`, or `make crash-test`. Without names it tries all of these:

kills     a server under 64 writers and 8 readers is killed by SIGKILL, 200 times at random delays, each time with the file
          of the time before, and with a new one each 20 times. After each opening each acknowledged write is there, with
          the commit that it was told; no other but at most those in flight; and nothing that a reader was shown is gone.
          Half of the rounds are with `--sync 'batch 5'`, and some of the kills come while the file is opened.
full      the same on a file system of 2 MB that fills: what does not fit is answered 503, and so is each later request
          that would show it; with more room it opens with all that was acknowledged.
refusals  each call on the file in turn is refused, is short, or is interrupted, of an opening and of some writes.
cuts      the file is cut at each byte of its last record, and its last gate is closed or torn; what no crash leaves is
          refused, with the place, and not touched.
second    a second server at the file is refused, and the first goes on.
moved     a copy of the file opens elsewhere with the same records.
lifetimes a server with short lifetimes, behind one with long ones, has full pages while copies of before may be kept; and
          so has one behind it, though no read was answered between.
big       a file of 1 GB over few records opens in memory of what lives. With `--big N` it has N MB.

A kill loses nothing that the kernel has, so what a crash of the machine leaves is not tried here: the model of a disk
says that, and `log_tests` and the proofs are about it. A line is printed for each, `ok NAME` or `FAILED NAME: WHY`, and then
`N passed, M failed`; the status is 1 where any failed. It needs a C compiler for `refusals`, and may mount for `full`; where
it may not, the size of the file is limited in place of the file system's."""
import argparse
import json
import os
import random
import re
import resource
import shutil
import signal
import socket
import struct
import subprocess
import sys
import tempfile
import threading
import time

HERE = os.path.dirname(os.path.realpath(__file__))
BUILT = os.path.join(os.path.dirname(HERE), "crates/quaestor/out/quaestor")
WRITERS, READERS = 64, 8
# How many times a server is killed with the same file.
PER_FILE = 20
COLLECTION = "crash"
MARK = b"QSJ1"
HEAD = 14
# The bytes of a page before its bits.
PAGE_HEAD = 30
TESTS = {}


class Wrong(Exception):
    """Why a test failed."""


def wants(holds, why):
    if not holds:
        raise Wrong(why)


def test(run):
    TESTS[run.__name__] = run
    return run


class Ended(Exception):
    """A connection ended before its reply."""


class Client:
    """A connection, by which one request at a time is answered."""

    def __init__(self, port):
        self.socket = socket.create_connection(("127.0.0.1", port), timeout=30)
        self.socket.setsockopt(socket.IPPROTO_TCP, socket.TCP_NODELAY, 1)
        self.port, self.left = port, b""

    def ask(self, method, target, body=None, fields=()):
        """The status, the fields and the body of the reply. Where a connection has had its requests, another is made."""
        lines = [f"{method} {target} HTTP/1.1", "Host: a", *fields]
        if body is not None:
            lines.append(f"Content-Length: {len(body)}")
        try:
            self.socket.sendall("\r\n".join([*lines, "", ""]).encode() + (body or b""))
            status, fields, text = self.reply()
        except OSError as error:
            raise Ended(str(error)) from None
        if fields.get("connection") == "close":
            self.socket.close()
            self.__init__(self.port)
        return status, fields, text

    def reply(self):
        came = self.left
        while b"\r\n\r\n" not in came:
            came += self.more()
        head, _, body = came.partition(b"\r\n\r\n")
        line, *rest = head.decode().split("\r\n")
        fields = {name.lower(): value for name, _, value in (it.partition(": ") for it in rest)}
        size = int(fields.get("content-length", 0))
        while len(body) < size:
            body += self.more()
        self.left = body[size:]
        return int(line.split()[1]), fields, body[:size]

    def more(self):
        more = self.socket.recv(65536)
        if not more:
            raise Ended("the connection ended")
        return more


class Server:
    """A server with a file, which is killed at the end of a `with`."""

    def __init__(self, program, file, *options, outside=None, files=(), limit=None, opens=60):
        words = [program, "serve", "127.0.0.1:0", "--data", file, "--workers", "64", *options]
        how = {"stdin": subprocess.DEVNULL, "stdout": subprocess.PIPE, "stderr": subprocess.PIPE}
        outside = dict(os.environ, **(outside or {}))
        begin = (lambda: bound(limit)) if limit else None
        self.process = subprocess.Popen(words, env=outside, pass_fds=files, preexec_fn=begin, **how)
        self.errors, self.port, self.opens = b"", None, opens
        self.reader = threading.Thread(target=self.read_errors, daemon=True)
        self.reader.start()

    def read_errors(self):
        for line in self.process.stderr:
            self.errors += line

    def listens(self):
        """Waits until it answers. False where it has ended instead."""
        line = self.process.stdout.readline().decode()
        found = re.fullmatch(r"listening on .*:(\d+)\n", line)
        if not found:
            self.process.wait()
            self.reader.join()
            return False
        self.port = int(found[1])
        until = time.monotonic() + self.opens
        while time.monotonic() < until:
            try:
                Client(self.port).ask("GET", "/v1/stats")
                return True
            except (Ended, OSError):
                if self.process.poll() is not None:
                    self.reader.join()
                    return False
                time.sleep(0.01)
        raise Wrong(f"it does not answer within {self.opens} seconds")

    def kill(self):
        self.process.kill()
        self.process.wait()
        self.reader.join()
        self.process.stdout.close()

    def stop(self):
        """Ends it by the signal that it waits for, or kills it."""
        self.kill()

    def greatest_memory(self):
        """The most memory that it had so far, in MB."""
        with open(f"/proc/{self.process.pid}/status") as it:
            return int(re.search(r"VmHWM:\s+(\d+)", it.read())[1]) // 1024

    def __enter__(self):
        return self

    def __exit__(self, *_):
        if self.process.poll() is None:
            self.kill()


def bound(size):
    signal.signal(signal.SIGXFSZ, signal.SIG_IGN)
    resource.setrlimit(resource.RLIMIT_FSIZE, (size, size))


class Book:
    """What all writers sent and were told. Each writer has a record of its own, with rising numbers."""

    def __init__(self):
        self.lock = threading.Lock()
        # Of each record: the last number that was acknowledged, with its commit; the last that was sent; the last that a reader saw.
        self.told, self.sent, self.shown = {}, {}, {}
        self.commits, self.in_flight, self.seen = 0, 0, 0

    def send(self, name):
        with self.lock:
            number = self.sent.get(name, 0) + 1
            self.sent[name] = number
            self.in_flight += 1
            return number

    def tell(self, name, number, commit):
        with self.lock:
            self.told[name] = (number, commit)
            self.commits += 1
            self.in_flight -= 1
            self.seen = max(self.seen, commit)

    def refuse(self):
        with self.lock:
            self.in_flight -= 1

    def show(self, name, number, commit):
        with self.lock:
            self.shown[name] = max(self.shown.get(name, 0), number)
            self.seen = max(self.seen, commit)

    def compare(self, port):
        """Compares a server that was opened with what was told, and goes on from what it has."""
        client = Client(port)
        status, _, text = client.ask("GET", "/v1/stats")
        wants(status == 200, f"stats are answered {status}")
        commits = json.loads(text)["commits"]
        least, most = self.commits, self.commits + self.in_flight
        wants(least <= commits <= most, f"{commits} commits, of {least} that were acknowledged and {most} that were sent")
        wants(commits >= self.seen, f"{commits} commits, where a reply showed {self.seen}")
        for name, sent in self.sent.items():
            number, version = read(client, name)
            told, commit = self.told.get(name, (0, 0))
            least = max(told, self.shown.get(name, 0))
            wants(least <= number <= sent, f"{name} has {number}, of {told} that were acknowledged, {least} shown and {sent} sent")
            wants(number != told or version == commit, f"{name} is of commit {version}, where {commit} was told")
            if number:
                self.told[name], self.sent[name], self.shown[name] = (number, version), number, number
        self.commits, self.in_flight, self.seen = commits, 0, commits
        return commits


def target(name):
    return f"/v1/d/{COLLECTION}/{name}"


def read(client, name):
    """The number that a record has, with its commit; 0 where there is none."""
    status, fields, text = client.ask("GET", target(name))
    if status == 404:
        return 0, 0
    wants(status == 200, f"{name} is answered {status}")
    return json.loads(text)["n"], int(fields["quaestor-version"])


def write(port, book, name, rng, until):
    """Writes numbers to a record until the server ends, a write is not accepted, or the flag is set."""
    try:
        client = Client(port)
        while not until.is_set():
            number = book.send(name)
            text = b'{"n":%d,"t":"%s"}' % (number, b"x" * rng.choice([0, 10, 200, 2000]))
            status, _, reply = client.ask("PUT", target(name), text)
            if status not in (200, 201):
                # The write of a 503 may have been made: it stays in flight.
                if status != 503:
                    book.refuse()
                return
            book.tell(name, number, json.loads(reply)["commit"])
    except (Ended, OSError):
        pass


def look(port, book, names, rng, until):
    """Reads records until the server ends, and notes what it shows."""
    try:
        client = Client(port)
        while not until.is_set():
            name = rng.choice(names)
            status, fields, text = client.ask("GET", target(name))
            commit = int(fields.get("quaestor-commit", 0))
            if status == 200:
                book.show(name, json.loads(text)["n"], commit)
            elif status == 404:
                book.show(name, 0, commit)
            else:
                return
    except (Ended, OSError):
        pass


def work(port, book, rng, writers=WRITERS, readers=READERS):
    """Starts writers and readers. What ends them is a flag, which is returned with the threads."""
    until = threading.Event()
    names = [f"w{it}" for it in range(writers)]
    threads = [
        *[threading.Thread(target=write, args=(port, book, it, random.Random(rng.random()), until)) for it in names],
        *[threading.Thread(target=look, args=(port, book, names, random.Random(rng.random()), until)) for _ in range(readers)],
    ]
    for thread in threads:
        thread.start()
    return until, threads


def joined(threads):
    for thread in threads:
        thread.join(60)
        wants(not thread.is_alive(), "a client waits for ever")


@test
def kills(how):
    rng = random.Random(how.seed)
    commits, size, early = 0, 0, 0
    for first in range(0, how.rounds, PER_FILE):
        file = os.path.join(how.folder, f"kills{first}.qsj")
        rounds = range(first, min(first + PER_FILE, how.rounds))
        more, killed = kill_often(how, file, rng, rounds)
        commits, size, early = commits + more, size + os.path.getsize(file), early + killed
        os.remove(file)
    return f"{how.rounds} kills and {early} at openings, {commits} commits, {size:,} bytes"


def kill_often(how, file, rng, rounds):
    """Kills servers of one file in turn. How many commits it has then, and how many were killed as they opened."""
    book, early = Book(), 0
    for turn in rounds:
        if turn % 10 == 9:
            # One that is killed while it opens changes nothing.
            server = Server(how.program, file)
            time.sleep(rng.uniform(0, 0.05))
            server.kill()
            early += 1
        options = ["--sync", "batch 5"] if turn % 2 else []
        with Server(how.program, file, *options) as server:
            wants(server.listens(), f"it does not open the file of round {turn}: {server.errors!r}")
            book.compare(server.port)
            until, threads = work(server.port, book, rng)
            time.sleep(rng.uniform(0, 0.5))
            server.kill()
            until.set()
            joined(threads)
    with Server(how.program, file) as server:
        wants(server.listens(), f"it does not open the last file: {server.errors!r}")
        return book.compare(server.port), early


@test
def full(how):
    folder = os.path.join(how.folder, "full")
    os.mkdir(folder)
    mounted = subprocess.run(["mount", "-t", "tmpfs", "-o", "size=2m", "tmpfs", folder], capture_output=True).returncode == 0
    try:
        return fills(how, folder, None if mounted else 2 << 20)
    finally:
        if mounted:
            subprocess.run(["umount", folder], check=True)


def fills(how, folder, limit):
    rng, book = random.Random(how.seed), Book()
    file = os.path.join(folder, "full.qsj")
    with Server(how.program, file, limit=limit) as server:
        wants(server.listens(), f"it does not make the file: {server.errors!r}")
        until, threads = work(server.port, book, rng, readers=2)
        joined(threads[:WRITERS])
        until.set()
        joined(threads)
        wants(book.commits > 0, "nothing was written before it was full")
        client = Client(server.port)
        for _ in range(3):
            status, _, _ = client.ask("PUT", target("more"), b'{"n":1}')
            wants(status == 503, f"a write behind the fault is answered {status}")
        status, _, _ = client.ask("GET", target("w0"))
        wants(status == 503, f"a read that would show what is not kept is answered {status}")
        server.kill()
        said = server.errors.decode()
        wants("no room" in said or "No space" in said or "File too large" in said or "failed" in said, f"it said {said!r}")
    told = book.commits
    roomy = os.path.join(how.folder, "roomy.qsj")
    shutil.copyfile(file, roomy)
    # The write above that was refused may not be there.
    with Server(how.program, roomy) as server:
        wants(server.listens(), f"it does not open the file that was full: {server.errors!r}")
        book.compare(server.port)
        status, _, _ = Client(server.port).ask("PUT", target("more"), b'{"n":1}')
        wants(status in (200, 201), f"a write with more room is answered {status}")
    return f"{told} writes were acknowledged before {'2 MB' if limit is None else 'the limit'} were full"


def library(how):
    """The library that refuses calls on files."""
    built = os.path.join(how.folder, "refuse_io.so")
    if not os.path.exists(built):
        words = ["cc", "-O2", "-shared", "-fPIC", "-o", built, os.path.join(HERE, "refuse_io.c"), "-ldl"]
        subprocess.run(words, check=True)
    return built


@test
def refusals(how):
    counts = {}
    base, book = os.path.join(how.folder, "base.qsj"), Book()
    with Server(how.program, base) as server:
        wants(server.listens(), f"it makes no file: {server.errors!r}")
        client = Client(server.port)
        for turn in range(5):
            put(client, book, f"w{turn}")
        server.kill()
    for kind in ["fault", "full", "short", "signal"]:
        number, met = 0, True
        while met:
            number += 1
            met = refuse_one(how, base, book, kind, number)
        counts[kind] = number - 1
    return ", ".join(f"{count} by {kind}" for kind, count in counts.items())


def put(client, book, name):
    """Writes the next number of a record. The status."""
    number = book.send(name)
    status, _, reply = client.ask("PUT", target(name), b'{"n":%d}' % number)
    if status in (200, 201):
        book.tell(name, number, json.loads(reply)["commit"])
    return status


def refuse_one(how, base, before, kind, number):
    """One run in which a call on the file is refused, and an opening without. Whether it came to that call."""
    file, book = os.path.join(how.folder, "refused.qsj"), Book()
    book.told, book.sent, book.shown = dict(before.told), dict(before.sent), dict(before.shown)
    book.commits, book.seen = before.commits, before.seen
    shutil.copyfile(base, file)
    with tempfile.TemporaryFile() as told:
        outside = {"LD_PRELOAD": library(how), "IO_FROM": str(number), "IO_TO": str(number), "IO_HOW": kind, "IO_TELL": str(told.fileno())}
        with Server(how.program, file, outside=outside, files=[told.fileno()]) as server:
            if server.listens():
                client = Client(server.port)
                for turn in range(5):
                    status = put(client, book, f"w{turn}")
                    wants(status in (200, 201, 503), f"call {number} by {kind}: a write is answered {status}")
                    wants(status != 503 or kind in ("fault", "full"), f"call {number} by {kind}: a write is answered 503")
                server.kill()
            else:
                wants(kind in ("fault", "full"), f"call {number} by {kind}: it does not open: {server.errors!r}")
                wants(server.errors, f"call {number} by {kind}: it says nothing")
        met = os.fstat(told.fileno()).st_size > 0
    with Server(how.program, file) as server:
        wants(server.listens(), f"behind call {number} by {kind} it does not open: {server.errors!r}")
        book.compare(server.port)
    return met


def record(kind, clock, body, gate=1):
    """A record of a file, behind its gate."""
    return struct.pack(">BBQI", gate, kind, clock, len(body)) + body


def commit(clock, name, text):
    body = bytes([len(COLLECTION)]) + COLLECTION.encode() + bytes([len(name)]) + name.encode() + text
    return record(1, clock, body)


def gates_of(text):
    """The places of the gates of a file, the last one that is not open among them."""
    wants(text.startswith(MARK), "the file does not begin with its mark")
    place, gates = len(MARK), []
    while place < len(text) and text[place] == 1:
        gates.append(place)
        place += HEAD + struct.unpack(">I", text[place + 10 : place + HEAD])[0]
    return [*gates, place]


@test
def cuts(how):
    whole = MARK + b"".join(commit(1000 + it, f"w{it}", b'{"n":%d}' % (it + 1)) for it in range(3)) + b"\0"
    gates = gates_of(whole)
    last, end = gates[-2], gates[-1]
    wants(end == len(whole) - 1, "the file that is cut has a mistake")
    file = os.path.join(how.folder, "cut.qsj")

    def opens(text, commits, why):
        with open(file, "wb") as it:
            it.write(text)
        with Server(how.program, file) as server:
            wants(server.listens(), f"{why}: it does not open: {server.errors!r}")
            _, _, reply = Client(server.port).ask("GET", "/v1/stats")
            wants(json.loads(reply)["commits"] == commits, f"{why}: it has {reply!r}")
        with open(file, "rb") as it:
            text = it.read()
        wants(text[gates_of(text)[-1]] == 0, f"{why}: the last gate is not closed")

    def refuses(text, place, why):
        with open(file, "wb") as it:
            it.write(text)
        with Server(how.program, file) as server:
            wants(not server.listens(), f"{why}: it opens")
            said = server.errors.decode()
        wants(place is None or str(place) in said, f"{why}: it says {said!r}, without byte {place}")
        wants(server.process.returncode not in (0, -9), f"{why}: its status is {server.process.returncode}")
        with open(file, "rb") as it:
            wants(it.read() == text, f"{why}: it changed the file")

    count = 0
    for size in range(last, len(whole)):
        # What no crash leaves: a record that was open is cut off.
        place = end if size == end else last
        refuses(whole[:size], place, f"cut at byte {size}")
        count += 1
    for size in range(last + 1, len(whole) + 1):
        # What a crash leaves of a batch whose gate is closed, or was being opened.
        opens(whole[:last] + b"\0" + whole[last + 1 : size], 2, f"closed, cut at byte {size}")
        opens(whole[:last] + b"\7" + whole[last + 1 : size], 2, f"torn, cut at byte {size}")
        count += 2
    opens(whole[:last] + b"\0" + bytes(random.Random(how.seed).randrange(256) for _ in range(100)), 2, "anything behind the gate")
    opens(b"", 0, "an empty file")
    opens(b"QSJ", 0, "a file of three bytes")
    refuses(b"#!/bin/sh\n", None, "a file that is no store")
    return f"{count} cuts"


@test
def second(how):
    file, book = os.path.join(how.folder, "second.qsj"), Book()
    with Server(how.program, file) as first:
        wants(first.listens(), f"it makes no file: {first.errors!r}")
        put(Client(first.port), book, "w0")
        with Server(how.program, file) as other:
            wants(not other.listens(), "a second server has the same file")
            wants(b"another" in other.errors, f"it said {other.errors!r}")
        wants(put(Client(first.port), book, "w0") in (200, 201), "the first one does not go on")
    with Server(how.program, file) as server:
        wants(server.listens(), f"behind a kill it is locked: {server.errors!r}")
        book.compare(server.port)
    return "it is refused"


@test
def moved(how):
    file, copy, book = os.path.join(how.folder, "here.qsj"), os.path.join(how.folder, "there.qsj"), Book()
    with Server(how.program, file) as server:
        wants(server.listens(), f"it makes no file: {server.errors!r}")
        client = Client(server.port)
        for turn in range(20):
            put(client, book, f"w{turn % 7}")
    shutil.copyfile(file, copy)
    with Server(how.program, copy) as server:
        wants(server.listens(), f"the copy does not open: {server.errors!r}")
        book.compare(server.port)
    return "the copy has all"


def is_full(port):
    """Whether each bit of the page is set."""
    status, _, text = Client(port).ask("GET", "/v1/filter")
    wants(status == 200 and text[:4] == b"QSF1", f"the page is answered {status}, {text[:4]!r}")
    return set(text[PAGE_HEAD:]) == {255}


@test
def lifetimes(how):
    file, book = os.path.join(how.folder, "lifetimes.qsj"), Book()
    with Server(how.program, file, "--ttl-low", "300", "--ttl-high", "300") as server:
        wants(server.listens(), f"it makes no file: {server.errors!r}")
        wants(not is_full(server.port), "a new store has full pages")
        client = Client(server.port)
        put(client, book, "w0")
        status, fields, _ = client.ask("GET", target("w0"))
        until = int(fields["quaestor-until"])
        wants(status == 200 and until > time.time() + 200, f"the copy is answered {status}, until {until}")
    for turn in range(2):
        with Server(how.program, file, "--ttl-high", "1") as server:
            wants(server.listens(), f"it does not open: {server.errors!r}")
            wants(is_full(server.port), f"opening {turn}: the page is not full, and a copy may be kept until {until}")
    return "pages are full"


@test
def big(how):
    file, size, text = os.path.join(how.folder, "big.qsj"), how.big << 20, b"x" * 60_000
    written, commits = len(MARK), 0
    with open(file, "wb") as it:
        it.write(MARK)
        while written < size:
            written += it.write(commit(1000, f"w{commits % 100}", b'{"n":%d,"t":"%s"}' % (commits, text)))
            commits += 1
        it.write(b"\0")
    begin = time.monotonic()
    with Server(how.program, file, opens=600) as server:
        wants(server.listens(), f"it does not open: {server.errors!r}")
        took, memory = time.monotonic() - begin, server.greatest_memory()
        _, _, reply = Client(server.port).ask("GET", "/v1/stats")
        wants(json.loads(reply)["commits"] == commits, f"it has {reply!r}, of {commits} commits")
        said = server.errors.decode()
    os.remove(file)
    # The capacity is 128 MB, of which some is kept until it is dropped; the buffers of 96 workers are 35 MB.
    wants(memory < 400, f"it took {memory} MB")
    return f"{commits} commits in {took:.1f} s and {memory} MB at most: {said.strip().splitlines()[-1:]}"


def main():
    words = argparse.ArgumentParser(description="Tests that a server with a file loses nothing.")
    words.add_argument("words", nargs="*", metavar="PROGRAM or NAME")
    words.add_argument("--rounds", type=int, default=200)
    words.add_argument("--seed", type=int, default=1)
    words.add_argument("--big", type=int, default=1024, metavar="MB")
    words.add_argument("--folder", help="where the files are made")
    how = words.parse_args()
    names = [it for it in how.words if it in TESTS]
    programs = [it for it in how.words if it not in TESTS]
    how.program = os.path.realpath(programs[0] if programs else BUILT)
    wants(os.access(how.program, os.X_OK), f"there is no {how.program}")
    failed = 0
    with tempfile.TemporaryDirectory(dir=how.folder) as folder:
        how.folder = folder
        for name in names or TESTS:
            begin = time.monotonic()
            try:
                print(f"ok {name}: {TESTS[name](how)}, {time.monotonic() - begin:.0f} s", flush=True)
            except Wrong as why:
                failed += 1
                print(f"FAILED {name}: {why}", flush=True)
    print(f"{len(names or TESTS) - failed} passed, {failed} failed")
    return 1 if failed else 0


if __name__ == "__main__":
    sys.exit(main())
