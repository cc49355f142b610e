#!/usr/bin/env python3
"""Tests what an operator sees of a server: `python3 tools/metrics.py [PROGRAM [NAME..]]`, or `make metrics`. Servers of
their own over the loopback interface are asked for their health and their metrics, and their access logs are read, side
by side. A line is printed for each test, `ok NAME` or `FAILED NAME: WHY`, and then `N passed, M failed`; the status is 1
where any failed. The program is what `make program` built, or else dist/quaestor. Names take those tests alone. It needs
`env` of coreutils 8.31 or later."""
import json
import math
import os
import re
import resource
import signal
import socket
import subprocess
import sys
import tempfile
import threading
import time
from concurrent.futures import ThreadPoolExecutor

os.chdir(os.path.dirname(os.path.dirname(os.path.realpath(__file__))))
BUILT = "crates/quaestor/out/quaestor"
PROGRAM = sys.argv[1] if len(sys.argv) > 1 else BUILT if os.access(BUILT, os.X_OK) else "dist/quaestor"
TESTS = []
PRINTING = threading.Lock()
NAME = re.compile(r"[a-zA-Z_:][a-zA-Z0-9_:]*")
LABEL = re.compile(r'([a-zA-Z_][a-zA-Z0-9_]*)="((?:[^"\\\n]|\\\\|\\"|\\n)*)"')
COMMON = re.compile(
    r'127\.0\.0\.1 - - \[(\d\d/[A-Z][a-z]{2}/\d{4}:\d\d:\d\d:\d\d \+0000)\] "((?:[^"\\]|\\x[0-9a-f]{2})*)" (\d{3}) (\d+) (\d+)(?: "([a-zA-Z ]+)")?'
)
# What is told wherever the numbers of the store are known.
STORE = """commits_total front horizon kept_bytes live_bytes capacity_bytes active_keys active_keys_limit invalidated_keys
purges_total page_false_positive_ratio turns_total longest_turn_seconds""".split()
# What is told always.
COUNTED = """connections_open connections_waiting connections_total requests_total not_modified_total unavailable_total
copies_issued_total matches_total matched_commits_total reply_bytes_total longest_request_seconds log_lines_total log_lines_dropped_total""".split()


def test(run):
    TESTS.append(run)
    return run


class Wrong(Exception):
    """Why a test failed."""


def wants(holds, why):
    if not holds:
        raise Wrong(why)


class Server:
    """A server of its own at free ports, which is killed at the end of a `with`."""

    def __init__(self, *options, metrics=True):
        beside = ["--metrics", "127.0.0.1:0"] if metrics else []
        words = ["env", "--block-signal=TERM", "--block-signal=INT", PROGRAM, "serve", "127.0.0.1:0", *beside, *options]
        self.said = []
        self.heard = threading.Condition()
        self.process = subprocess.Popen(
            words, stdin=subprocess.DEVNULL, stdout=subprocess.PIPE, stderr=subprocess.PIPE, text=True
        )
        self.reader = threading.Thread(target=self.listen, daemon=True)
        self.reader.start()
        found = re.fullmatch(r"listening on 127\.0\.0\.1:(\d+)\n", self.process.stdout.readline())
        wants(found, f"it did not listen: {self.said}")
        self.port = int(found[1])
        self.watched = self.metrics_port() if metrics else None

    def listen(self):
        for line in self.process.stderr:
            with self.heard:
                self.said.append(line.rstrip("\n"))
                self.heard.notify_all()

    def metrics_port(self):
        pattern = re.compile(r"quaestor: metrics at http://127\.0\.0\.1:(\d+)/v1/metrics")
        with self.heard:
            self.heard.wait_for(lambda: any(map(pattern.fullmatch, self.said)), 5)
            found = [m for m in map(pattern.fullmatch, self.said) if m]
        wants(found, f"it did not say where its metrics are: {self.said}")
        return int(found[0][1])

    def __enter__(self):
        return self

    def __exit__(self, *_):
        self.process.kill()
        self.process.wait()
        self.process.stdout.close()

    def ends(self, within):
        self.process.send_signal(signal.SIGTERM)
        try:
            self.process.wait(within)
        except subprocess.TimeoutExpired:
            raise Wrong(f"it had not ended after {within} seconds") from None
        wants(self.process.returncode == 0, f"its status is {self.process.returncode}")

    def asked(self, method, target, body=b"", fields=b"", port=None, client=None):
        """The status, the fields and the body of a reply, and the bytes of all."""
        text = b"%s %s HTTP/1.1\r\nHost: a\r\n%s" % (method, target, fields)
        if body or method in (b"PUT", b"POST"):
            text += b"Content-Length: %d\r\n" % len(body)
        it = client or self.client(port)
        it.sendall(text + b"\r\n" + body)
        came = reply(it, method == b"HEAD")
        if not client:
            it.close()
        head, _, rest = came.partition(b"\r\n\r\n")
        lines = head.decode("latin-1").split("\r\n")
        wants(lines[0].startswith("HTTP/1.1 "), f"{method} {target} got {came[:80]!r}")
        named = {name.lower(): value for name, value in (line.split(": ", 1) for line in lines[1:])}
        return int(lines[0].split(" ")[1]), named, rest, len(came)

    def watch(self, target, method=b"GET"):
        return self.asked(method, target, port=self.watched)

    def client(self, port=None):
        it = socket.create_connection(("127.0.0.1", port or self.port), 10)
        it.settimeout(10)
        return it

    def metrics(self):
        status, fields, body, _ = self.watch(b"/v1/metrics")
        wants(status == 200, f"the metrics have status {status}")
        kind = fields.get("content-type")
        wants(kind == "text/plain; version=0.0.4; charset=utf-8", f"the metrics have type {kind}")
        return parsed(body.decode())


def reply(client, is_head=False):
    """The next reply, head and body; what came where the connection ends before."""
    came = b""
    while b"\r\n\r\n" not in came:
        more = client.recv(65536)
        if not more:
            return came
        came += more
    head, _, body = came.partition(b"\r\n\r\n")
    size = re.search(rb"(?i)content-length: (\d+)", head)
    left = int(size[1]) - len(body) if size and not is_head else 0
    while left > 0:
        more = client.recv(65536)
        if not more:
            return came
        came, left = came + more, left - len(more)
    return came


def parsed(text):
    """The values of a text of metrics, by the rules of its format: each has its help and its kind ahead of it, no
    metric is told twice, and no value is told twice."""
    wants(text.endswith("\n"), "the last line has no end")
    values, helped, kinds = {}, set(), {}
    for line in text[:-1].split("\n"):
        if line.startswith("# HELP "):
            name = line.split(" ")[2]
            wants(NAME.fullmatch(name) and name not in helped, f"{line!r}")
            wants(len(line.split(" ", 3)) == 4, f"no help: {line!r}")
            helped.add(name)
        elif line.startswith("# TYPE "):
            _, _, name, kind = line.split(" ")
            wants(name in helped and name not in kinds, f"{line!r}")
            wants(kind in ("counter", "gauge"), f"{line!r}")
            wants((kind == "counter") == name.endswith("_total"), f"the kind of {name} is {kind}")
            kinds[name] = kind
        else:
            found = re.fullmatch(r"([a-zA-Z_:][a-zA-Z0-9_:]*)(?:\{([^}]*)\})? (-?[0-9.]+(?:e[+-]?[0-9]+)?)", line)
            wants(found, f"no value: {line!r}")
            name, inside, number = found.groups()
            wants(name in kinds, f"no kind ahead of {line!r}")
            pairs = LABEL.findall(inside or "")
            wants(",".join(f'{a}="{b}"' for a, b in pairs) == (inside or ""), f"labels: {line!r}")
            key = (name, tuple(sorted(pairs)))
            wants(key not in values, f"told twice: {line!r}")
            values[key] = float(number)
    return values


def one(values, name, **labels):
    return values.get(("quaestor_" + name, tuple(sorted(labels.items()))), 0)


def soon(says, why, within=5):
    until = time.monotonic() + within
    while time.monotonic() < until:
        if says():
            return
        time.sleep(0.02)
    raise Wrong(why)


def used(server):
    """Requests of many kinds over one connection: the number of each route and status, and the bytes of all replies."""
    many, size = {}, 0
    tag = None
    asks = [
        ("record", b"PUT", b"/v1/d/shop/a", b'{"n":1}', b""),
        ("record", b"PUT", b"/v1/d/shop/a", b'{"n":2}', b""),
        ("record", b"GET", b"/v1/d/shop/a", b"", b""),
        ("record", b"GET", b"/v1/d/shop/a", b"", None),
        ("record", b"GET", b"/v1/d/shop/none", b"", b""),
        ("record", b"PUT", b"/v1/d/shop/b", b"[", b""),
        ("record", b"POST", b"/v1/d/shop/b", b"", b""),
        ("query", b"GET", b"/v1/q/shop?f=true&o=&s=0&n=10&k=objects", b"", b""),
        ("filter", b"GET", b"/v1/filter", b"", b""),
        ("purges", b"GET", b"/v1/purges?from=1", b"", b""),
        ("stats", b"HEAD", b"/v1/stats", b"", b""),
        ("match", b"POST", b"/v1/match", b"", b""),
        ("horizon", b"POST", b"/v1/horizon", b"", b""),
        ("other", b"GET", b"/nothing", b"", b""),
    ]
    with server.client() as it:
        for route, method, target, body, fields in asks:
            fields = b"If-None-Match: %s\r\n" % tag.encode() if fields is None else fields
            status, named, _, count = server.asked(method, target, body, fields, client=it)
            tag = named.get("etag", tag)
            many[route, str(status)] = many.get((route, str(status)), 0) + 1
            size += count
    return many, size


@test
def the_numbers_are_those_of_what_was_sent():
    with Server() as it:
        first = it.metrics()
        wants(not [key for key in first if key[0] == "quaestor_requests_total"], "requests were counted before any came")
        many, size = used(it)
        wants(("record", "304") in many, f"no reply was 304: {many}")
        soon(lambda: one(it.metrics(), "connections_open") == 0, "the connection is still open")
        values = it.metrics()
        names = {name for name, _ in values}
        lacking = [name for name in STORE + COUNTED if "quaestor_" + name not in names]
        wants(not lacking, f"it does not tell {lacking}")
        told = {(dict(l)["route"], dict(l)["status"]): n for (name, l), n in values.items() if name == "quaestor_requests_total"}
        wants(told == many, f"it tells {told}, and {many} were sent")
        wants(one(values, "reply_bytes_total") == size, f"{one(values, 'reply_bytes_total')} bytes of {size}")
        wants(one(values, "not_modified_total") == 1, "one reply was 304")
        wants(one(values, "connections_total") == 1, "one connection came")
        wants(one(values, "turns_total") > sum(many.values()) / 2, "too few turns were taken")
        wants(0 < one(values, "longest_turn_seconds") < 2, f"the longest turn took {one(values, 'longest_turn_seconds')} seconds")
        wants(0 < one(values, "longest_request_seconds") < 2, f"a request took {one(values, 'longest_request_seconds')} seconds")
        wants(one(values, "unavailable_total", cause="memory") == 0, "a request was not served")
        wants(one(values, "unavailable_total", cause="other") == 0, "a request was not served")
        wants(one(values, "log_lines_total") == one(values, "log_lines_dropped_total") == 0, "there is no log")


def holds(server, **wanted):
    """Waits until the metrics have these values, of which the matchers bring some about."""
    values = {}

    def is_so():
        values.update(server.metrics())
        return all(one(values, name) == value for name, value in wanted.items())

    try:
        soon(is_so, "")
    except Wrong:
        found = {name: one(values, name) for name in wanted if one(values, name) != wanted[name]}
        raise Wrong(f"it tells {found} in place of {({name: wanted[name] for name in found})}") from None
    return values


@test
def the_numbers_of_the_store_are_those_of_its_rules():
    # all copies may be kept for ten minutes; five keys may have one
    options = "--ttl-low 600 --ttl-high 600 --active 5 --bytes 100000 --bits 10 --hashes 3".split()
    document = 64 + len("shop") + 1 + len('{"n":1}')
    with Server(*options) as it, it.client() as client:

        def asks(method, target, body=b"", status=200):
            got = it.asked(method, target, body, client=client)
            wants(got[0] == status, f"{method} {target} has status {got[0]}")
            return got[1].get("cache-control") != "no-store"

        holds(it, commits_total=0, front=0, horizon=0, kept_bytes=0, live_bytes=0, capacity_bytes=100_000, active_keys=0,
              active_keys_limit=5, invalidated_keys=0, purges_total=0, matches_total=0, matched_commits_total=0,
              copies_issued_total=0, page_false_positive_ratio=0)
        asks(b"PUT", b"/v1/d/shop/a", b'{"n":1}', 201)
        holds(it, commits_total=1, front=1, matches_total=1, matched_commits_total=1, kept_bytes=document, live_bytes=document)
        asks(b"PUT", b"/v1/d/shop/a", b'{"n":2}')
        holds(it, commits_total=2, front=2, matches_total=2, matched_commits_total=2, kept_bytes=2 * document, live_bytes=document)
        asks(b"PUT", b"/v1/d/shop/b", b'{"n":1}', 201)
        holds(it, commits_total=3, front=3, matches_total=3, matched_commits_total=3, kept_bytes=3 * document, live_bytes=2 * document)
        # a write that is refused is none
        asks(b"PUT", b"/v1/d/shop/b", b'[', 422)
        for target, status in ((b"d/shop/a", 200), (b"d/shop/b", 200), (b"d/shop/none", 404), (b"d/shop/a", 200), (b"q/shop?f=true&o=&s=0&n=10&k=objects", 200), (b"d/shop/last", 404)):
            wants(asks(b"GET", b"/v1/" + target, status=status), f"no copy of {target}")
        holds(it, active_keys=5, copies_issued_total=6)
        wants(not asks(b"GET", b"/v1/d/shop/more", status=404), "a sixth key has a copy")
        holds(it, active_keys=5, copies_issued_total=6, invalidated_keys=0, purges_total=0)
        # this outdates the copy of a, and that of the query, which no later commit outdates again
        asks(b"PUT", b"/v1/d/shop/a", b'{"n":3}')
        values = holds(it, front=4, matches_total=4, matched_commits_total=4, invalidated_keys=2, purges_total=2, active_keys=5)
        ratio = (1 - math.exp(-3 * 2 / 1_024)) ** 3
        wants(abs(one(values, "page_false_positive_ratio") - ratio) < 1e-11, f"{one(values, 'page_false_positive_ratio')} in place of {ratio}")
        asks(b"POST", b"/v1/horizon")
        holds(it, horizon=4, kept_bytes=2 * document, live_bytes=2 * document)
        asks(b"DELETE", b"/v1/d/shop/b")
        holds(it, commits_total=5, front=5, matches_total=5, live_bytes=document, invalidated_keys=3, purges_total=3)
        asks(b"POST", b"/v1/horizon")
        holds(it, horizon=5, kept_bytes=document, live_bytes=document)


@test
def turns_are_those_of_requests_and_of_a_matcher():
    with Server() as it:
        before, start = one(it.metrics(), "turns_total"), time.monotonic()
        time.sleep(1)
        count = one(it.metrics(), "turns_total") - before
        # a matcher rests for a millisecond behind each turn where nothing is to be matched; a reader takes one
        most = (time.monotonic() - start) * 1_000 + 20
        wants(0 < count <= most, f"{count} turns, of {most} at most")


@test
def the_longest_request_is_told():
    with Server() as it, it.client() as slow:
        # from here on turns are timed
        it.metrics()
        start = time.monotonic()
        slow.sendall(b"PUT /v1/d/shop/a HTTP/1.1\r\nHost: a\r\nContent-Length: 2\r\n\r\n{")
        time.sleep(1)
        slow.sendall(b"}")
        wants(reply(slow).startswith(b"HTTP/1.1 201 "), "it was not answered")
        most = time.monotonic() - start + 0.1
        soon(lambda: one(it.metrics(), "longest_request_seconds") > 0.9, "a second is not told")
        wants(one(it.metrics(), "longest_request_seconds") < most, f"a request took more than {most} seconds")
        wants(0 < one(it.metrics(), "longest_turn_seconds") < 0.9, "a turn took as long as the request")


@test
def requests_without_memory_are_counted():
    with Server() as it:
        body = b'{"a":"' + b"x" * 60_000 + b'"}'
        size = 0
        with open(f"/proc/{it.process.pid}/statm") as pages:
            size = int(pages.read().split()[0]) * resource.getpagesize()
        first = it.asked(b"PUT", b"/v1/d/shop/first", body)[0]
        wants(first == 201, f"the first write has status {first}")
        before = resource.prlimit(it.process.pid, resource.RLIMIT_AS, (size, resource.RLIM_INFINITY))
        refused = 0
        with it.client() as client:
            for n in range(1_000):
                refused += it.asked(b"PUT", b"/v1/d/shop/p%d" % n, body, client=client)[0] == 503
                if refused == 3:
                    break
        resource.prlimit(it.process.pid, resource.RLIMIT_AS, before)
        wants(refused == 3, "no request lacked memory")
        holds(it, not_modified_total=0)
        values = it.metrics()
        wants(one(values, "unavailable_total", cause="memory") == 3, f"{one(values, 'unavailable_total', cause='memory')} of 3")
        wants(one(values, "requests_total", route="record", status="503") == 3, "the status is counted elsewhere")


@test
def replies_to_other_hosts_and_pages_are_counted():
    with Server("--host", "a", "--allow-origin", "*") as it, it.client() as client:
        for host in (b"b", b"c"):
            client.sendall(b"GET /v1/stats HTTP/1.1\r\nHost: %s\r\n\r\n" % host)
            wants(reply(client).startswith(b"HTTP/1.1 421 "), f"{host} is served")
        status = it.asked(b"OPTIONS", b"/v1/stats", fields=b"Origin: http://b\r\nAccess-Control-Request-Method: GET\r\n", client=client)[0]
        wants(status == 204, f"OPTIONS has status {status}")
        values = it.metrics()
        wants(one(values, "requests_total", route="stats", status="421") == 2, "two were for other hosts")
        wants(one(values, "requests_total", route="stats", status="204") == 1, "one page asked")


@test
def the_numbers_never_fall():
    with Server() as it:
        before = it.metrics()
        for _ in range(5):
            used(it)
            after = it.metrics()
            fell = [key for key, n in before.items() if key[0].endswith("_total") and after.get(key, 0) < n]
            wants(not fell, f"these fell: {fell}")
            before = after


@test
def connections_are_counted_while_they_wait():
    with Server() as it:
        many = [it.client() for _ in range(7)]
        soon(lambda: one(it.metrics(), "connections_waiting") == 7, "7 connections do not wait")
        wants(one(it.metrics(), "connections_open") == 7, "7 connections are not open")
        for client in many:
            client.close()
        soon(lambda: one(it.metrics(), "connections_open") == 0, "they are still open")
        values = it.metrics()
        wants(one(values, "connections_waiting") == 0, "they still wait")
        wants(one(values, "connections_total") == 7, "7 came")


@test
def nothing_else_is_answered_there():
    with Server() as it:
        asks = [
            (b"GET", b"/v1/health", 200, b"ok\n"),
            (b"HEAD", b"/v1/health", 200, b""),
            (b"POST", b"/v1/health", 405, None),
            (b"PUT", b"/v1/metrics", 405, None),
            (b"GET", b"/v1/stats", 404, None),
            (b"GET", b"/", 404, None),
        ]
        for method, target, status, body in asks:
            got, fields, text, _ = it.watch(target, method)
            wants(got == status, f"{method} {target} has status {got}")
            wants(body is None or text == body, f"{method} {target} has body {text!r}")
            wants((status == 405) == (fields.get("allow") == "GET, HEAD"), f"{method} {target} allows {fields.get('allow')}")
        for target in (b"/v1/metrics", b"/v1/health"):
            wants(it.asked(b"GET", target)[0] == 404, f"the server itself answers {target}")
        wants(one(it.metrics(), "requests_total", route="other", status="404") == 2, "what is asked here is counted")


@test
def a_silent_client_there_keeps_the_others_for_seconds_at_most():
    with Server() as it, it.client(it.watched):
        start = time.monotonic()
        wants(it.watch(b"/v1/health")[0] == 200, "the health is not told")
        wants(time.monotonic() - start < 8, "it took 8 seconds")


@test
def health_says_that_the_server_ends():
    with Server("--grace", "4") as it, it.client() as slow:
        slow.sendall(b"PUT /v1/d/shop/a HTTP/1.1\r\nHost: a\r\nContent-Length: 2\r\n\r\n{")
        time.sleep(0.3)
        wants(it.watch(b"/v1/health")[0] == 200, "it is not well before")
        it.process.send_signal(signal.SIGTERM)
        soon(lambda: it.watch(b"/v1/health")[0] == 503, "health does not say the end", 3)
        wants(it.watch(b"/v1/health")[2] == b"ending\n", "health says something else")
        wants(one(it.metrics(), "connections_open") == 1, "the metrics are not told while it ends")
        slow.sendall(b"}")
        wants(reply(slow).startswith(b"HTTP/1.1 201 "), "the last request was not answered")
        it.process.wait(8)
        wants(it.process.returncode == 0, f"its status is {it.process.returncode}")


@test
def health_says_that_the_last_connection_came():
    with Server("--connections", "1") as it, it.client() as last:
        soon(lambda: it.watch(b"/v1/health")[0] == 503, "health does not say the end", 3)
        last.sendall(b"GET /v1/stats HTTP/1.1\r\nHost: a\r\n\r\n")
        wants(reply(last).startswith(b"HTTP/1.1 200 "), "the last connection is not served")


def logged(options, made):
    """What a server with a log has answered, and the lines of its log behind its end."""
    with tempfile.TemporaryDirectory() as folder:
        name = os.path.join(folder, "access.log")
        with Server("--log", name, *options) as it:
            result = made(it)
            it.ends(10)
        with open(name, encoding="ascii") as lines:
            return result, lines.read().split("\n")[:-1]


def all_kinds(server):
    many, size = used(server)
    server.asked(b"GET", b"/" + b"x" * 2_000)
    server.asked(b"GET", b'/%22"\\~')
    count = sum(many.values()) + 2
    holds(server, log_lines_total=count, log_lines_dropped_total=0)
    return count, size


@test
def each_request_has_a_line():
    (count, _), lines = logged([], all_kinds)
    wants(len(lines) == count, f"{len(lines)} lines of {count} requests")
    for line in lines:
        found = COMMON.fullmatch(line)
        wants(found and len(line) < 512, f"{line!r}")
        then = time.mktime(time.strptime(found[1], "%d/%b/%Y:%H:%M:%S +0000")) - time.timezone
        wants(abs(time.time() - then) < 120, f"the moment of {line!r}")
    asked = [COMMON.fullmatch(line)[2] for line in lines]
    wants("PUT /v1/d/shop/a HTTP/1.1" in asked, "the write has no line")
    reasons = [(int(found[3]), found[6]) for found in map(COMMON.fullmatch, lines)]
    wants(all(status >= 400 for status, why in reasons if why), f"a reason of what is no refusal: {reasons}")
    wants((422, "document not JSON") in reasons and (405, "method") in reasons, f"a reason is not told: {reasons}")
    wants(any(it.endswith("... HTTP/1.1") for it in asked), "no long target is cut")
    # lines of different connections may change their order
    wants(r"GET /%22\x22\x5c~ HTTP/1.1" in asked, f"no byte is escaped: {asked[-2:]!r}")


@test
def lines_are_json_where_they_are_to_be():
    (count, _), lines = logged(["--log-json"], all_kinds)
    wants(len(lines) == count, f"{len(lines)} lines of {count} requests")
    for line in lines:
        it = json.loads(line)
        wants(set(it) - {"why"} == {"ts", "client", "method", "target", "status", "bytes", "us"}, f"{line!r}")
        wants(it["client"] == "127.0.0.1" and it["bytes"] > 0 and it["us"] >= 0, f"{line!r}")
        then = time.mktime(time.strptime(it["ts"], "%Y-%m-%dT%H:%M:%SZ")) - time.timezone
        wants(abs(time.time() - then) < 120, f"the moment of {line!r}")
        wants("why" not in it or it["status"] >= 400, f"the reason of {line!r}")
    wants(any("why" in json.loads(line) for line in lines), "no reason is told")
    wants('/%22"\\~' in [json.loads(line)["target"] for line in lines], f"no byte is escaped: {lines[-2:]}")


@test
def a_log_goes_to_standard_error():
    with Server("--log", "-") as it:
        count = sum(used(it)[0].values())
        it.ends(10)
        it.reader.join(5)
        lines = [line for line in it.said if COMMON.fullmatch(line)]
        wants(len(lines) == count, f"{len(lines)} lines of {count} requests")


@test
def a_log_that_cannot_be_opened_is_said():
    words = [PROGRAM, "serve", "127.0.0.1:0", "--log", "/nowhere/at/all"]
    done = subprocess.run(words, capture_output=True, text=True, timeout=10)
    wants(done.returncode != 0, "it went on")
    wants("/nowhere/at/all" in done.stderr, f"it said {done.stderr!r}")


def times_of(server, count):
    """The longest of so many reads, one after the other, in seconds."""
    longest = 0
    with server.client() as it:
        for _ in range(count):
            start = time.monotonic()
            status = server.asked(b"GET", b"/v1/d/shop/" + b"x" * 60, client=it)[0]
            longest = max(longest, time.monotonic() - start)
            wants(status == 404, f"a read has status {status}")
    return longest


@test
def a_full_disk_delays_no_reply():
    with Server("--log", "/dev/full") as it:
        longest = times_of(it, 2_000)
        wants(longest < 2, f"a reply took {longest} seconds")
        soon(lambda: one(it.metrics(), "log_lines_dropped_total") == 2_000, "the lines are not counted")
        wants(one(it.metrics(), "log_lines_total") == 0, "lines were written")
        it.ends(10)


@test
def a_reader_that_never_reads_delays_no_reply():
    with tempfile.TemporaryDirectory() as folder:
        name = os.path.join(folder, "fifo")
        os.mkfifo(name)
        reader = os.open(name, os.O_RDONLY | os.O_NONBLOCK)
        with Server("--log", name) as it:
            for _ in range(4):
                longest = times_of(it, 4_000)
                wants(longest < 2, f"a reply took {longest} seconds")
            values = it.metrics()
            counted = one(values, "log_lines_total") + one(values, "log_lines_dropped_total")
            wants(counted < 16_000, "a reader that never reads took all lines")
            start = time.monotonic()
            it.ends(10)
            wants(time.monotonic() - start < 8, "its end waited for the reader")
        os.close(reader)


@test
def without_options_nothing_is_said():
    with Server(metrics=False) as it:
        used(it)
        it.ends(10)
        wants(it.said == [], f"it said {it.said}")


def tried(run):
    name = run.__name__
    try:
        run()
        said = f"ok {name}"
    except Wrong as why:
        said = f"FAILED {name}: {why}"
    except Exception as error:
        said = f"FAILED {name}: {type(error).__name__}: {error}"
    with PRINTING:
        print(said, flush=True)
    return said.startswith("ok ")


def main():
    names = sys.argv[2:]
    chosen = [it for it in TESTS if not names or it.__name__ in names]
    with ThreadPoolExecutor(4) as pool:
        passed = sum(pool.map(tried, chosen))
    print(f"{passed} passed, {len(chosen) - passed} failed")
    return 0 if chosen and passed == len(chosen) else 1


if __name__ == "__main__":
    sys.exit(main())
