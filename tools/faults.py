#!/usr/bin/env python3
"""Memory that is refused: `python3 tools/faults.py [PROGRAM] [--width N]`, or `make faults`. `PROGRAM pipe` answers
the requests of a script at a clock that stands, once for each allocation that it makes: in run N the Nth one is
refused, or so many from the Nth on, until a run meets no refusal. Each run has to end with status 0, or with 5 and
nothing written. The requests that were answered 503 are taken out, the rest is given to a run of its own to which
nothing is refused, and the other replies have to be those of that run, byte for byte: so a request that was refused
memory changed nothing. The same is tried of `PROGRAM serve`, where the statuses are compared, and the bodies in which
the matchers have no part, and where a connection has to be answered behind the one that met the refusal. A line is
printed for each run that is otherwise, and then a table of the requests that were answered 503; the status is 1 where
anything was otherwise, or nothing was answered 503. It needs a C compiler, and a program that takes its memory from
glibc."""
import argparse
import os
import subprocess
import sys
import tempfile
from collections import Counter
from concurrent.futures import ThreadPoolExecutor

import lasts
from asks import Wrong, request, wants
from faults_tcp import Served
from replies import Broken, Replies

OPTIONS = ["--clock", "100", "--bits", "12", "--ttl-low", "5", "--active", "12"]
# How many runs are tried at once.
AT_ONCE = 3
# Where nothing was answered 503: memory was refused before the first request, or without effect.
START, NOTHING = "none, but the status 5", "none, and all as ever"


def put(record, text, *fields):
    return "put", request(f"PUT /v1/d/shop/{record}", [f"Content-Length: {len(text)}", *fields], text.encode())


def chunked(record, text, size, *fields):
    pieces = [text[at : at + size].encode() for at in range(0, len(text), size)]
    body = b"".join(b"%x;a=b\r\n%s\r\n" % (len(it), it) for it in pieces) + b"0\r\nA: b\r\n\r\n"
    return "chunked put", request(f"PUT /v1/d/shop/{record}", ["Transfer-Encoding: chunked", *fields], body)


def get(name, target, *fields):
    return name, request(f"GET {target}", fields)


EXPECT = "Expect: 100-continue"
LONG = '{"t":"' + "x" * 20_000 + '"}'
MATCH = "match", request("POST /v1/match")
PAGE, PURGES = get("page", "/v1/filter"), get("purges", "/v1/purges")
NUMBERS = get("numbers", "/v1/stats")
IDS, ROWS = "/v1/q/shop?f=a%20%3C%206&o=a%20desc&n=5&k=ids", "/v1/q/shop?f=not%20(a+in+%5B1,3%5D)+and+a+%3E+0"
# Requests of all kinds, each with the name of its kind.
ALL = [
    *[put(f"p{it}", f'{{"a":{it},"name":"record {it}"}}') for it in range(8)],
    get("read", "/v1/d/shop/p1"), get("query of ids", IDS), get("query of objects", ROWS), NUMBERS,
    get("read", "/v1/d/shop/p9"), put("p1", '{"a":2}', 'If-Match: "2"'), put("p1", '{"a":3}', 'If-Match: "2"'),
    MATCH, PAGE, PURGES, get("query of ids", IDS), get("query by tags", IDS, 'If-None-Match: W/"3", "8", "9", "x"'),
    put("p9", '{"a":5,"b":[1,{"c":null}]}', "If-None-Match: *", EXPECT), get("read by tags", "/v1/d/shop/p9", 'If-None-Match: "10"'),
    ("HEAD", request("HEAD /v1/d/shop/p9")), chunked("p2", '{"a":4,"name":"chunked"}', 5, "If-Match: *", EXPECT),
    chunked("long", LONG, 3_000), get("read of 20,000 bytes", "/v1/d/shop/long"), get("query of objects", "/v1/q/shop?f=true"),
    ("delete", request("DELETE /v1/d/shop/p3")), ("delete", request("DELETE /v1/d/shop/p3", ['If-Match: "4"'])),
    MATCH, PURGES, get("query of ids", IDS), get("query of objects", ROWS), PAGE,
    get("bad filter", "/v1/q/shop?f=a%20%3D"), get("bad target", "/v1/q/shop?f=%ff"), get("no route", "/v2"),
    get("bad tag", "/v1/d/shop/p1", "If-None-Match: 1"), put("p1", "{a}"), put("p1", '{"a":0.5}'), put("p1", "[]"),
    *[get("query of ids", f"/v1/q/shop?f=a%20%3D%20{it}&k=ids") for it in range(6)],
    *[put(f"p{it}", f'{{"a":{it + 1}}}', EXPECT) for it in range(6)], MATCH, PAGE, PURGES, get("purges", "/v1/purges?from=3"),
    *[get("query of ids", f"/v1/q/shop?f=a%20%3D%20{it}&k=ids") for it in range(6)],
    *[get("read", f"/v1/d/shop/p{it}") for it in range(8)], put("long", LONG), MATCH, PAGE, PURGES, NUMBERS,
]  # fmt: skip

# So many commits that are not matched have the next write match them first.
MANY = [put(f"p{it % 5}", '{"a":1}') for it in range(1_021)]
HELPED = [put("p1", '{"a":2}'), NUMBERS, put("p2", '{"a":3}'), PURGES, put("p3", '{"a":4}'), NUMBERS, MATCH, PAGE, PURGES]
# Each script: its name, what is asked before its allocations are refused, and what is asked then.
SCRIPTS = [
    ("requests of all kinds", [], ALL),
    ("writes that match 1,024 commits", [put("p0", "{}"), get("read", "/v1/d/shop/p0"), get("query of ids", IDS), *MANY], HELPED),
]  # fmt: skip


class Runs:
    """The runs of a program over a script. Those to which nothing is refused are kept by what they were given."""

    def __init__(self, program, width, library, before, asks):
        self.program, self.width, self.library = program, width, library
        self.before, self.script = before, before + asks
        self.plain = {}

    def run(self, asks, number=0):
        """The status, what was written, and how often memory was refused."""
        with tempfile.TemporaryFile() as source, tempfile.TemporaryFile() as told:
            source.write(b"".join(text for _, text in asks))
            source.seek(0)
            refuse = {"REFUSE_FROM": number, "REFUSE_TO": number and number + self.width - 1, "REFUSE_TELL": told.fileno()}
            outside = {"LD_PRELOAD": self.library} | {name: str(it) for name, it in refuse.items()}
            words, files = [self.program, "pipe", *OPTIONS], [told.fileno()]
            done = subprocess.run(words, stdin=source, capture_output=True, env=outside, pass_fds=files, timeout=60)
            return done.returncode, done.stdout, os.fstat(told.fileno()).st_size

    def first(self):
        """The first allocation behind those of the requests before."""
        low, high = 1, 2
        while self.before and self.run(self.before, high)[2]:
            low, high = high, 2 * high
        while self.before and high - low > 1:
            middle = (low + high) // 2
            low, high = (middle, high) if self.run(self.before, middle)[2] else (low, middle)
        return high if self.before else 1

    def plainly(self, asks):
        """What these requests are answered where no memory is refused."""
        key = b"".join(text for _, text in asks)
        if key not in self.plain:
            status, written, _ = self.run(asks)
            wants(status == 0, f"a run to which nothing is refused has status {status}")
            self.plain[key] = written
        return self.plain[key]

    def judge(self, number):
        """How often memory was refused, the kinds of the requests that were answered 503, and what is wrong."""
        status, written, refused = self.run(self.script, number)
        if status == 5 and not written:
            return refused, [START], None
        kinds = []
        try:
            wants(status == 0, f"the status is {status}, and {len(written)} bytes were written")
            replies = Replies([text.startswith(b"HEAD") for _, text in self.script])
            replies.take(written)
            there = len(replies.all)
            wants(there == len(self.script) and not replies.rest, f"{there} replies to {len(self.script)} requests")
            pairs = [*zip(self.script, replies.all)]
            kinds = [ask[0] for ask, reply in pairs if reply.status == 503]
            others = b"".join(reply.text for _, reply in pairs if reply.status != 503)
            wanted = self.plainly([ask for ask, reply in pairs if reply.status != 503])
            at = len(os.path.commonprefix([others, wanted]))
            what = f"{others[max(0, at - 40) : at + 60]!r} was written, and is {wanted[max(0, at - 40) : at + 60]!r} without {kinds}"
            wants(others == wanted, what)
            wants(refused or not kinds, f"503 to {kinds}, where nothing was refused")
        except (Wrong, Broken) as why:
            return refused, kinds, str(why)
        return refused, kinds, None


def tries(name, runs, pool):
    """Refuses each allocation of a script in turn. How many were answered 503, and how many runs were wrong."""
    seen, wrong = Counter(), 0
    first = number = runs.first()
    over = False
    while not over:
        numbers = range(number, number + 20 * AT_ONCE)
        for number, (refused, kinds, why) in zip(numbers, pool.map(runs.judge, numbers)):
            if why:
                wrong += 1
                print(f"FAILED with allocation {number} refused: {why}", flush=True)
            if not refused:
                over = True
                break
            seen.update(kinds or [NOTHING])
        else:
            number += 1
    print(f"{name}: {number - first} allocations refused in turn, over {len(runs.script)} requests. Answered 503:")
    for kind, count in seen.most_common():
        print(f"{count:6} {kind}")
    return sum(count for kind, count in seen.items() if not kind.startswith("none, ")), wrong


def main():
    words = argparse.ArgumentParser(description="Refuses each allocation of a run in turn.")
    words.add_argument("program", nargs="?", default=lasts.BUILT if os.access(lasts.BUILT, os.X_OK) else "dist/quaestor")
    words.add_argument("--width", type=int, default=1, help="so many allocations in a row are refused")
    given = words.parse_args()
    with tempfile.TemporaryDirectory() as folder, ThreadPoolExecutor(AT_ONCE) as pool:
        library = os.path.join(folder, "refuse.so")
        subprocess.run(["cc", "-O1", "-shared", "-fPIC", "-o", library, "tools/refuse.c"], check=True)
        program = os.path.abspath(given.program)
        found = [tries(name, Runs(program, given.width, library, *asks), pool) for name, *asks in SCRIPTS]
        found.append(tries("requests of all kinds, over TCP", Served(program, given.width, library, ALL), pool))
    wrong = sum(count for _, count in found)
    print(f"{sum(answered for answered, _ in found)} replies 503, {wrong} failures")
    return 1 if wrong or not all(answered for answered, _ in found) else 0


if __name__ == "__main__":
    sys.exit(main())
