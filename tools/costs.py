#!/usr/bin/env python3
"""Tests of what calls cost, which no clause says: `python3 tools/costs.py [PROGRAM [NAME..]]`, or `make costs`. Each
test runs `PROGRAM pipe` over requests that would be dear if a call looked again at what it knows, and over as many that
cannot be, and compares the CPU time of both: the first may take at most three times as long, a bound far above what
it takes and far below what such a call would. One limits the memory instead. A line is printed for each,
`ok NAME: WHAT` or `FAILED NAME: WHY`, and then `N passed, M failed`; the status is 1 where any failed. The program is
what `make program` built, or else dist/quaestor, of whatever sources that is. Names take those tests alone."""
import os
import re
import resource
import subprocess
import sys
import tempfile
import time
from concurrent.futures import ThreadPoolExecutor

os.chdir(os.path.dirname(os.path.dirname(os.path.realpath(__file__))))
BUILT = "crates/quaestor/out/quaestor"
PROGRAM = sys.argv[1] if len(sys.argv) > 1 else BUILT if os.access(BUILT, os.X_OK) else "dist/quaestor"
MATCH = b"POST /v1/match HTTP/1.1\r\nHost: a\r\n\r\n"
# How many times as long the dear requests may take.
MOST = 3.0
# How often each is measured; the least time counts.
TIMES = 3
TESTS = []


def test(run):
    TESTS.append(run)
    return run


class Wrong(Exception):
    """Why a test failed."""


def wants(holds, why):
    if not holds:
        raise Wrong(why)


def put(record, text, collection="shop"):
    head = f"PUT /v1/d/{collection}/{record} HTTP/1.1\r\nHost: a\r\nContent-Length: {len(text)}\r\n\r\n"
    return (head + text).encode()


def get(target, tag=None):
    condition = "" if tag is None else f'If-None-Match: "{tag}"\r\n'
    return f"GET {target} HTTP/1.1\r\nHost: a\r\n{condition}\r\n".encode()


def puts(count, number, records=None):
    """Puts documents with this number, each of another record, or of so many records in turn."""
    return [put(f"p{it % (records or count)}", f'{{"a":{number}}}') for it in range(count)]


def first(collection="shop", below=None):
    """Asks for the first ten ids of a collection, or of its documents whose number is below one."""
    condition = "true" if below is None else f"a%20%3C%20{below}"
    return f"/v1/q/{collection}?f={condition}&n=10&k=ids"


def reads_after_writes(target):
    """Writes a record, and reads what is asked for after each write."""
    return puts(100, 1) + [it for at in range(4_000) for it in (put("p1", f'{{"a":{at}}}'), get(target))]


def ended(process, requests, written, statuses=rb"20[01]|304"):
    """The CPU time of a run in seconds, where each request was answered as asked for, with one of these statuses."""
    _, status, used = os.wait4(process.pid, 0)
    process.returncode = os.waitstatus_to_exitcode(status)
    wants(process.returncode == 0, f"its status is {process.returncode}")
    written.seek(0)
    found = len(re.findall(rb"HTTP/1\.1 (?:%b) " % statuses, written.read()))
    wants(found == requests, f"{found} of {requests} requests were answered as asked for")
    return used.ru_utime + used.ru_stime


def start(source, written, options, memory=None):
    limit = (lambda: resource.setrlimit(resource.RLIMIT_AS, (memory, memory))) if memory else None
    return subprocess.Popen([PROGRAM, "pipe", *options], stdin=source, stdout=written, preexec_fn=limit)


def time_of(requests, memory=None):
    """The CPU time of a run over these requests, in seconds, at a clock that stands, within so many bytes."""
    with tempfile.TemporaryFile() as source, tempfile.TemporaryFile() as written:
        source.write(b"".join(requests))
        source.seek(0)
        return ended(start(source, written, ["--clock", "100"], memory), len(requests), written)


def least_of(one, other, at_once=1):
    """The least times of two runs, which are measured in turn, or at once; and both in words."""
    with ThreadPoolExecutor(at_once) as pool:
        times = list(pool.map(lambda run: run(), [one, other] * TIMES))
    least = min(times[::2]), min(times[1::2])
    return *least, f"{1000 * least[0]:.1f} ms beside {1000 * least[1]:.1f} ms"


def compare(dear, cheap):
    found, wanted, what = least_of(dear, cheap)
    wants(found <= MOST * wanted, f"it takes {what}")
    return what


@test
def a_step_of_an_active_query_looks_at_no_other_document():
    writes = puts(4_000, 1) + [get(first())] + puts(4_000, 2)
    others = puts(4_000, 1) + [get(first("none"))] + puts(4_000, 2)
    return compare(lambda: time_of([*writes, MATCH]), lambda: time_of([*others, MATCH]))


@test
def a_read_of_an_active_query_goes_on_from_the_one_before():
    asks, others = reads_after_writes(first()), reads_after_writes(first("none"))
    return compare(lambda: time_of(asks), lambda: time_of(others))


@test
def a_read_of_an_active_query_copies_no_commit_again():
    asks, others = reads_after_writes(first("none")), reads_after_writes("/v1/d/shop/p2")
    return compare(lambda: time_of(asks), lambda: time_of(others))


@test
def a_match_with_active_queries_goes_on_from_the_one_before():
    asks = [it for at in range(4_000) for it in (put("p1", f'{{"a":{at}}}'), MATCH)]
    return compare(lambda: time_of([get(first()), *asks]), lambda: time_of([get("/v1/stats"), *puts(8_000, 1, 100)]))


@test
def a_match_goes_on_from_the_one_before():
    asks = [it for at in range(4_000) for it in (put("p1", f'{{"a":{at}}}'), MATCH)]
    copy = [put("p2", "{}"), get("/v1/d/shop/p2")]
    return compare(lambda: time_of([*copy, *asks]), lambda: time_of([*copy, *puts(8_000, 1, 100)]))


@test
def an_older_tag_of_a_result_that_stayed_is_not_looked_up():
    before = [*puts(4_000, 1), get(first()), put("p", "{}", "none")]
    older = [*before, *[get(first(), 4_000)] * 4_000]
    newest = [*before, *[get(first(), 4_001)] * 4_000]
    return compare(lambda: time_of(older), lambda: time_of(newest))


@test
def a_step_takes_memory_for_one_commit():
    asks = [get(first(below=it)) for it in range(1, 2_001)]
    memory = 64 << 20
    time_of([*asks, put("p", '{"a":-1}'), MATCH, get(first(below=1))], memory)
    return f"2,000 queries took a step within {memory >> 20} MB"


def replies_in(written):
    # the run writes at the offset that a seek would move
    return os.pread(written.fileno(), os.fstat(written.fileno()).st_size, 0).count(b"HTTP/1.1 ")


def give(process, written, asks, replies):
    """Gives these requests to a run, and waits until it has made so many replies in all. Its CPU time so far, in seconds."""
    process.stdin.write(b"".join(asks))
    process.stdin.flush()
    for _ in range(200):
        if replies_in(written) >= replies:
            with open(f"/proc/{process.pid}/schedstat") as it:
                return int(it.read().split()[0]) / 1e9
        time.sleep(0.05)
    raise Wrong(f"{replies_in(written)} of {replies} requests were answered within ten seconds")


def expiry_of(asks):
    """The CPU time of the request behind the expiry of all copies of these requests, which were issued within a second,
    so that they expire in one order."""
    for _ in range(TIMES):
        with tempfile.TemporaryFile() as written:
            process = start(subprocess.PIPE, written, ["--ttl-low", "3", "--ttl-high", "3"])
            time.sleep(-time.time() % 1)
            before = give(process, written, asks, len(asks))
            time.sleep(3.5)
            after = give(process, written, [get("/v1/stats")], len(asks) + 1)
            process.stdin.close()
            ended(process, len(asks) + 1, written, rb"20[01]|404")
            written.seek(0)
            if len(set(re.findall(rb"Quaestor-Until: (\d+)", written.read()))) == 1:
                return after - before
    raise Wrong(f"{TIMES} times the copies were not issued within a second")


def reads_of_none(count):
    """Reads so many records that are not there."""
    return [get(f"/v1/d/shop/p{it}") for it in range(count)]


@test
def keys_whose_copies_expire_together_are_dropped_in_any_order():
    reads, changes = reads_of_none(4_900), puts(4_900, 1)
    asks, others = [*reads, *changes, MATCH], [*reads, *changes[::-1], MATCH]
    one, other, what = least_of(lambda: expiry_of(asks), lambda: expiry_of(others), 2 * TIMES)
    wants(max(one, other) <= MOST * min(one, other), f"it takes {what}")
    return what


@test
def queries_whose_copies_expire_together_are_dropped_like_records():
    asks = [get(first(below=it)) for it in range(4_900)]
    others = [*reads_of_none(4_900), *puts(4_900, 1), MATCH]
    found, wanted, what = least_of(lambda: expiry_of(asks), lambda: expiry_of(others), 2 * TIMES)
    wants(found <= MOST * wanted, f"it takes {what}")
    return what


def main():
    names = sys.argv[2:]
    chosen = [it for it in TESTS if not names or it.__name__ in names]
    passed = 0
    for run in chosen:
        try:
            said, status = run(), "ok"
            passed += 1
        except (Wrong, OSError) as why:
            said, status = why, "FAILED"
        print(f"{status} {run.__name__}: {said}", flush=True)
    print(f"{passed} passed, {len(chosen) - passed} failed")
    return 0 if chosen and passed == len(chosen) else 1


if __name__ == "__main__":
    sys.exit(main())
