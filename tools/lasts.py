#!/usr/bin/env python3
"""Tests that a server lasts: `python3 tools/lasts.py [PROGRAM [NAME..]]`, or `make lasts`. Clients that are silent,
slow or many, and ends that are asked for, are tried at servers of their own over the loopback interface, side by
side, within half a minute. A line is printed for each, `ok NAME` or `FAILED NAME: WHY`, and then `N passed, M failed`;
the status is 1 where any failed. The program is what `make program` built, or else dist/quaestor. Names take those
tests alone. It needs `env` of coreutils 8.31 or later."""
import multiprocessing
import os
import re
import resource
import signal
import socket
import subprocess
import sys
import threading
import time
from concurrent.futures import ThreadPoolExecutor

os.chdir(os.path.dirname(os.path.dirname(os.path.realpath(__file__))))
BUILT = "crates/quaestor/out/quaestor"
PROGRAM = sys.argv[1] if len(sys.argv) > 1 else BUILT if os.access(BUILT, os.X_OK) else "dist/quaestor"
GET = b"GET /v1/stats HTTP/1.1\r\nHost: a\r\n\r\n"
TESTS = []
PRINTING = threading.Lock()


def test(run):
    TESTS.append(run)
    return run


class Wrong(Exception):
    """Why a test failed."""


def wants(holds, why):
    if not holds:
        raise Wrong(why)


class Server:
    """A server of its own at a free port, which is killed at the end of a `with`."""

    def __init__(self, *options, address="127.0.0.1:0", descriptors=None):
        limit = None
        if descriptors:
            limit = lambda: resource.setrlimit(resource.RLIMIT_NOFILE, (descriptors, descriptors))
        words = ["env", "--block-signal=TERM", "--block-signal=INT", PROGRAM, "serve", address, *options]
        how = {"stdin": subprocess.DEVNULL, "stdout": subprocess.PIPE, "stderr": subprocess.STDOUT, "text": True}
        self.process = subprocess.Popen(words, preexec_fn=limit, **how)
        self.line = self.process.stdout.readline().rstrip("\n")
        found = re.fullmatch(r"listening on (.*):(\d+)", self.line)
        wants(found, f"it said {self.line!r}")
        self.host, self.port = found[1], int(found[2])

    def __enter__(self):
        return self

    def __exit__(self, *_):
        self.process.kill()
        self.process.wait()
        self.process.stdout.close()

    def client(self, timeout=10, receive_buffer=None):
        it = socket.socket()
        it.settimeout(timeout)
        if receive_buffer:
            it.setsockopt(socket.SOL_SOCKET, socket.SO_RCVBUF, receive_buffer)
        it.connect(("127.0.0.1", self.port))
        return it

    def resident(self):
        """The memory that it has now, in KB."""
        with open(f"/proc/{self.process.pid}/status") as it:
            return int(re.search(r"VmRSS:\s+(\d+)", it.read())[1])

    def tell(self, which=signal.SIGTERM):
        self.process.send_signal(which)

    def ends(self, within):
        """The last line, where it ends with status 0 within so many seconds."""
        try:
            said = self.process.communicate(timeout=within)[0]
        except subprocess.TimeoutExpired:
            raise Wrong(f"it had not ended after {within} seconds") from None
        wants(self.process.returncode == 0, f"its status is {self.process.returncode}: {said!r}")
        return said


def reply(client):
    """The next reply, head and body; what came where the connection ends before."""
    came = b""
    while b"\r\n\r\n" not in came:
        more = client.recv(65536)
        if not more:
            return came
        came += more
    head, _, body = came.partition(b"\r\n\r\n")
    size = re.search(rb"(?i)content-length: (\d+)", head)
    left = int(size[1]) - len(body) if size else 0
    while left > 0:
        more = client.recv(65536)
        if not more:
            return came
        came, left = came + more, left - len(more)
    return came


def is_whole(came):
    head, blank, body = came.partition(b"\r\n\r\n")
    size = re.search(rb"(?i)content-length: (\d+)", head)
    return bool(blank and size and len(body) == int(size[1]))


def all_of(client):
    """All that comes until the end, and after how many seconds the end came."""
    start, came = time.monotonic(), b""
    while more := client.recv(65536):
        came += more
    return came, time.monotonic() - start


def answers(server, within):
    """That a new client is answered within so many seconds."""
    start = time.monotonic()
    with server.client(timeout=within) as it:
        it.sendall(GET)
        try:
            came = reply(it)
        except TimeoutError:
            raise Wrong(f"a new client was not answered within {within} seconds") from None
    wants(came.startswith(b"HTTP/1.1 200 OK\r\n") and is_whole(came), f"a new client got {came[:80]!r}")
    return time.monotonic() - start


def put(path, size):
    body = b'{"a":"' + b"x" * (size - 8) + b'"}'
    return b"PUT %s HTTP/1.1\r\nHost: a\r\nContent-Length: %d\r\n\r\n" % (path, len(body)) + body


def fill(server, records):
    """Puts records of 60,000 bytes, and returns a request whose reply has all of them."""
    with server.client() as it:
        for n in range(records):
            it.sendall(put(b"/v1/d/shop/p%d" % n, 60_000))
            wants(reply(it).startswith(b"HTTP/1.1 201 "), "a record was not put")
    return b"GET /v1/q/shop?f=true&o=&s=0&n=1000&k=objects HTTP/1.1\r\nHost: a\r\n\r\n"


LATE = re.compile(
    rb"HTTP/1\.1 408 Request Timeout\r\nDate: \w{3}, \d\d \w{3} \d{4} \d\d:\d\d:\d\d GMT\r\nContent-Type: application/json\r\n"
    rb'Content-Length: 19\r\nCache-Control: no-store\r\nConnection: close\r\n\r\n\{"error":"timeout"\}'
)


def drips(client, text, pause, seconds):
    """Sends a text byte by byte, until the other side ends or for so many seconds. What came, and after how long."""
    client.setblocking(False)
    start, came = time.monotonic(), b""
    for byte in text:
        if time.monotonic() - start > seconds:
            break
        try:
            client.send(bytes([byte]))
        except OSError:
            pass
        until = time.monotonic() + pause
        while (left := until - time.monotonic()) > 0:
            client.settimeout(left)
            try:
                more = client.recv(65536)
            except (TimeoutError, BlockingIOError):
                break
            if not more:
                return came, time.monotonic() - start
            came += more
    return came, None


@test
def a_free_port_is_told():
    with Server() as it:
        wants(it.port > 0, f"it said {it.line!r}")
        answers(it, 5)


def asks(port, seconds):
    """How long a client that asks as soon as it is answered waited at most."""
    longest, until = 0.0, time.monotonic() + seconds
    it = socket.create_connection(("127.0.0.1", port), timeout=30)
    while (start := time.monotonic()) < until:
        it.sendall(GET)
        came = reply(it)
        wants(is_whole(came), "a reply is cut off")
        longest = max(longest, time.monotonic() - start)
        if b"\r\nConnection: close\r\n" in came:
            # a connection has 10,000 replies at most, which takes two seconds on a fast machine
            it.close()
            it = socket.create_connection(("127.0.0.1", port), timeout=30)
    it.close()
    return longest


@test
def busy_connections_take_turns():
    with Server("--workers", "2") as it, multiprocessing.get_context("fork").Pool(8) as pool:
        longest = max(pool.starmap(asks, [(it.port, 2)] * 8))
        wants(longest < 1, f"of eight busy clients, two of which are served at once, one waited {longest:.2f} s")


@test
def each_address_of_a_name_is_listened_at():
    with Server(address="localhost:0") as it:
        wants(it.host == "localhost", f"it said {it.line!r}")
        found = {at[:2] for kind, _, _, _, at in socket.getaddrinfo("localhost", it.port, type=socket.SOCK_STREAM)}
        for host, port in sorted(found):
            try:
                with socket.create_connection((host, port), timeout=5) as client:
                    client.sendall(GET)
                    wants(reply(client).startswith(b"HTTP/1.1 200 "), f"{host} was not answered")
            except OSError as error:
                if error.errno not in (97, 99):
                    raise Wrong(f"{host}: {error}") from None


@test
def silent_clients_hold_nobody_back():
    with Server("--workers", "4", "--idle", "20") as it:
        silent = [it.client() for _ in range(200)]
        took = answers(it, 3)
        for client in silent:
            client.close()
        wants(took < 2, f"a new client waited {took:.1f} seconds")


@test
def clients_between_two_requests_hold_nobody_back():
    with Server("--workers", "2", "--idle", "20") as it:
        kept = [it.client() for _ in range(50)]
        for client in kept:
            client.sendall(GET)
            wants(is_whole(reply(client)), "a client was not answered")
        answers(it, 3)
        for client in kept:
            client.sendall(GET)
            wants(is_whole(reply(client)), "a client that waited was not answered")
            client.close()


@test
def two_hundred_connections_are_taken_up_again_and_again():
    with Server("--workers", "4", "--idle", "20") as it:
        kept = [it.client() for _ in range(200)]
        for _ in range(3):
            for client in kept:
                client.sendall(GET)
            for client in kept:
                wants(is_whole(reply(client)), "a client that waited was not answered")
        for client in kept:
            client.close()


@test
def each_of_two_connections_reads_what_the_other_put():
    with Server() as it, it.client() as first, it.client() as second:
        ask = b"GET /v1/d/shop/p1 HTTP/1.1\r\nHost: a\r\n\r\n"
        for n in range(20):
            for writer, reader in (first, second), (second, first):
                writer.sendall(put(b"/v1/d/shop/p1", 10 + n))
                wants(reply(writer)[:12] in (b"HTTP/1.1 201", b"HTTP/1.1 200"), "a record was not put")
                reader.sendall(ask)
                body = reply(reader).partition(b"\r\n\r\n")[2]
                wants(len(body) == 10 + n, f"{body!r} was read, and {10 + n} bytes were put")


@test
def the_front_reaches_each_commit_by_the_matchers_alone():
    with Server() as it, it.client() as client:
        for n in range(20):
            client.sendall(put(b"/v1/d/shop/p%d" % n, 100))
            wants(reply(client).startswith(b"HTTP/1.1 201 "), "a record was not put")
        until = time.monotonic() + 2
        said = b""
        while b'"commits":20,"front":20' not in said:
            wants(time.monotonic() < until, f"after 2 seconds it said {said!r}")
            client.sendall(GET)
            said = reply(client)


def status_of(client, request):
    """The status of the reply to a request."""
    client.sendall(request)
    came = reply(client)
    wants(is_whole(came) or came.startswith(b"HTTP/1.1 304 "), f"a reply is cut off: {came[:80]!r}")
    return int(came[9:12])


def horizon_of(server):
    """The commit up to which old changes were dropped, once they were dropped up to the front."""
    with server.client() as it:
        it.sendall(b"POST /v1/horizon HTTP/1.1\r\nHost: a\r\n\r\n")
        found = re.search(rb'\{"horizon":(\d+)\}$', reply(it))
        wants(found, "the horizon was not told")
        return int(found[1])


def knows(client, tag):
    """Whether the server knows the result of a record at a commit, where it is the same as now."""
    status = status_of(client, b'GET /v1/d/shop/kept HTTP/1.1\r\nHost: a\r\nIf-None-Match: "%d"\r\n\r\n' % tag)
    wants(status in (200, 304), f"a read was answered {status}")
    return status == 304


def takes_again(client, request):
    """That a write of a store that was full is taken, where it is sent until it is."""
    until = time.monotonic() + 3
    while (status := status_of(client, request)) not in (200, 201):
        wants(status == 507 and time.monotonic() < until, f"after 3 seconds a write was answered {status}")
        time.sleep(0.01)


@test
def a_small_store_does_not_fill():
    # A connection ends after 10,000 requests.
    with Server("--bytes", "262144") as it:
        for first in (0, 10_000):
            with it.client() as client:
                for n in range(first, first + 10_000):
                    status = status_of(client, put(b"/v1/d/shop/p%d" % (n % 10), 200))
                    wants(status in (200, 201), f"write {n} was answered {status}")


@test
def a_large_document_of_a_small_store_is_replaced():
    with Server("--bytes", "65792") as it, it.client() as client:
        for _ in range(20):
            takes_again(client, put(b"/v1/d/shop/p1", 24_000))


@test
def a_store_that_was_filled_in_one_go_takes_writes_again():
    with Server("--bytes", "65792") as it, it.client() as client:
        client.sendall(put(b"/v1/d/shop/p1", 1_000) * 500)
        came = b""
        # the body of each reply has one brace at its end, and no head has one
        while came.count(b"}") < 500:
            more = client.recv(65536)
            wants(more, "it ended before all writes were answered")
            came += more
        takes_again(client, put(b"/v1/d/shop/p1", 1_000))


@test
def a_store_full_of_what_lives_has_room_behind_a_deletion():
    with Server("--bytes", "65792") as it, it.client() as client:
        many = 0
        while (status := status_of(client, put(b"/v1/d/shop/p%d" % many, 5_000))) == 201:
            many += 1
        wants(status == 507 and many == 12, f"record {many} was answered {status}")
        status = status_of(client, b"DELETE /v1/d/shop/p0 HTTP/1.1\r\nHost: a\r\n\r\n")
        wants(status == 200, f"a deletion was answered {status}")
        takes_again(client, put(b"/v1/d/shop/p0", 5_000))
        wants(status_of(client, put(b"/v1/d/shop/p1", 100)) == 200, "a smaller document was not put")
        takes_again(client, put(b"/v1/d/shop/p%d" % many, 5_000))


@test
def kept_commits_have_their_tags():
    with Server("--keep", "100") as it, it.client() as client:
        wants(status_of(client, put(b"/v1/d/shop/kept", 100)) == 201, "a record was not put")
        for n in range(199):
            status_of(client, put(b"/v1/d/shop/p%d" % (n % 10), 100))
        wants(knows(client, 100), "the 100th commit below the last one is not known")
        until = time.monotonic() + 3
        while knows(client, 99):
            wants(time.monotonic() < until, "after 3 seconds a commit below those that are kept is known")
            time.sleep(0.01)
        wants(knows(client, 100), "the 100th commit below the last one is not known any more")
        wants(horizon_of(it) == 200, "a drop that was asked for stopped below the front")
        wants(not knows(client, 199) and knows(client, 200), "it knows what was dropped, or not the last commit")


@test
def more_kept_commits_than_fit_are_dropped_where_that_is_asked():
    with Server("--keep", "1000000", "--bytes", "65792") as it, it.client() as client:
        while (status := status_of(client, put(b"/v1/d/shop/p1", 1_000))) in (200, 201):
            pass
        time.sleep(0.5)
        wants(status == 507 and status_of(client, put(b"/v1/d/shop/p1", 1_000)) == 507, "a write was taken beyond the capacity")
        wants(horizon_of(it) == 61, "not all was dropped")
        wants(status_of(client, put(b"/v1/d/shop/p1", 1_000)) == 200, "a write was not taken behind the drop")


@test
def all_commits_have_their_tags_while_the_store_is_not_full():
    with Server() as it, it.client() as client:
        wants(status_of(client, put(b"/v1/d/shop/kept", 100)) == 201, "a record was not put")
        for n in range(2_000):
            status_of(client, put(b"/v1/d/shop/p%d" % (n % 10), 100))
        time.sleep(0.5)
        wants(knows(client, 1), "the first commit is not known any more")


@test
def a_silent_client_is_told_the_end():
    with Server("--idle", "2", "--head-time", "30") as it:
        with it.client() as client:
            came, took = all_of(client)
            wants(came == b"" and 1.5 < took < 4.5, f"{came[:80]!r} after {took:.1f} seconds")
        with it.client() as client:
            client.sendall(GET)
            wants(is_whole(reply(client)), "it was not answered")
            came, took = all_of(client)
            wants(came == b"" and 1.5 < took < 4.5, f"{came[:80]!r} after {took:.1f} seconds")


@test
def a_dripping_head_is_answered_408():
    with Server("--head-time", "2", "--idle", "30") as it, it.client() as client:
        came, took = drips(client, b"GET /v1/stats HTTP/1.1\r\nHost: " + b"a" * 1000, 0.2, 8)
        wants(took is not None and 1.5 < took < 4.5, f"it ended after {took} seconds")
        wants(LATE.fullmatch(came), f"it was told {came!r}")


@test
def a_dripping_body_is_answered_408():
    with Server("--head-time", "2", "--idle", "30") as it, it.client() as client:
        client.sendall(b"PUT /v1/d/shop/p1 HTTP/1.1\r\nHost: a\r\nContent-Length: 2000\r\n\r\n")
        came, took = drips(client, b"{" * 1000, 0.2, 8)
        wants(took is not None and 1.5 < took < 4.5, f"it ended after {took} seconds")
        wants(LATE.fullmatch(came), f"it was told {came!r}")


@test
def a_cut_head_behind_a_reply_is_answered_408():
    with Server("--head-time", "2", "--idle", "30") as it, it.client() as client:
        client.sendall(GET + GET[:10])
        wants(is_whole(reply(client)), "the first request was not answered")
        came, took = all_of(client)
        wants(LATE.fullmatch(came) and took < 5, f"it was told {came!r} after {took:.1f} seconds")


@test
def a_slow_body_above_the_least_rate_is_taken():
    with Server("--head-time", "2", "--least-rate", "1000", "--idle", "30") as it, it.client() as client:
        text = put(b"/v1/d/shop/p1", 12_000)
        for at in range(0, len(text), 400):
            client.sendall(text[at : at + 400])
            time.sleep(0.2)
        wants(reply(client).startswith(b"HTTP/1.1 201 "), "it was not taken")


@test
def a_reader_of_nothing_is_cut_off():
    with Server("--workers", "1", "--reply-time", "2", "--idle", "30") as it:
        request = fill(it, 120)
        start = time.monotonic()
        with it.client(timeout=30) as client:
            client.sendall(request)
            wants(is_whole(reply(client)), "the reply was not given")
        usual = time.monotonic() - start
        with it.client(receive_buffer=4096) as client:
            client.sendall(request)
            time.sleep(0.3)
            took = answers(it, usual + 12)
            wants(took < usual + 6, f"a new client waited {took:.1f} seconds, of which the reply takes {usual:.1f}")
            wants(not is_whole(all_of(client)[0]), "the whole reply was taken by the system, so this says nothing")


@test
def readers_of_nothing_share_a_large_result():
    with Server("--reply-time", "60", "--idle", "30") as it:
        request = fill(it, 1000)
        with it.client(timeout=30) as client:
            client.sendall(request)
            wants(len(reply(client)) > 60_000_000, "the result was not given")
        before = it.resident()
        readers = [it.client(receive_buffer=4096) for _ in range(10)]
        for client in readers:
            client.sendall(request)
        time.sleep(2)
        more = it.resident() - before
        for client in readers:
            client.close()
        wants(more < 20_000, f"ten readers of a result of 60 MB take {more} KB")


@test
def a_slow_reader_above_the_least_rate_gets_all():
    with Server("--reply-time", "2", "--least-rate", "1000", "--idle", "30") as it:
        request = fill(it, 120)
        with it.client(receive_buffer=65536) as client:
            client.sendall(request)
            came = b""
            for _ in range(60):
                more = client.recv(20_000)
                came += more
                time.sleep(0.1)
            while not is_whole(came) and (more := client.recv(65536)):
                came += more
            wants(is_whole(came), f"it got {len(came)} bytes")


@test
def the_end_is_asked_for_by_a_signal():
    for which in (signal.SIGTERM, signal.SIGINT):
        with Server() as it:
            answers(it, 5)
            with it.client() as silent, it.client() as client:
                client.sendall(GET)
                wants(is_whole(reply(client)), "a client was not answered")
                it.tell(which)
                start = time.monotonic()
                said = it.ends(6)
                wants(said == "served 3\n", f"it said {said!r}")
                wants(time.monotonic() - start < 4.5, f"it took {time.monotonic() - start:.1f} seconds")
                wants(silent.recv(10) == b"" and client.recv(10) == b"", "a client was not told the end")


@test
def a_request_in_hand_is_answered_before_the_end():
    with Server("--grace", "8") as it, it.client() as client:
        client.sendall(GET[:20])
        time.sleep(0.5)
        it.tell()
        time.sleep(1.5)
        try:
            socket.create_connection(("127.0.0.1", it.port), timeout=2).close()
            raise Wrong("a new connection was taken")
        except ConnectionRefusedError:
            pass
        client.sendall(GET[20:])
        came = reply(client)
        wants(is_whole(came), "it was not answered")
        wants(b"\r\nConnection: close\r\n" in came, "it was not told that the connection ends")
        wants(it.ends(5) == "served 1\n", "it said something else")


@test
def the_grace_ends_a_request_that_does_not_come():
    with Server("--grace", "1", "--head-time", "60") as it, it.client() as client:
        client.sendall(GET[:20])
        time.sleep(0.5)
        it.tell()
        start = time.monotonic()
        it.ends(6)
        wants(0.8 < time.monotonic() - start < 4, f"it took {time.monotonic() - start:.1f} seconds")


@test
def the_other_signal_ends_at_once():
    with Server("--grace", "60", "--head-time", "60") as it, it.client() as client:
        client.sendall(GET[:20])
        time.sleep(0.5)
        it.tell(signal.SIGTERM)
        time.sleep(0.5)
        it.tell(signal.SIGINT)
        it.ends(5)


@test
def no_reply_is_cut_by_an_end_under_load():
    with Server("--grace", "8", "--workers", "8") as it:
        stop, wrong, count = threading.Event(), [], [0] * 8

        def load(n):
            while not stop.is_set():
                try:
                    with it.client(timeout=8) as client:
                        for _ in range(20):
                            client.sendall(GET)
                            came = reply(client)
                            if not came:
                                break
                            if not is_whole(came):
                                wrong.append(came[:60])
                            count[n] += 1
                except ConnectionRefusedError:
                    return
                except OSError:
                    # a request that was sent behind the end
                    pass

        clients = [threading.Thread(target=load, args=(n,)) for n in range(8)]
        for one in clients:
            one.start()
        time.sleep(1.5)
        it.tell()
        try:
            said = it.ends(9)
        finally:
            stop.set()
            for one in clients:
                one.join()
        wants(re.fullmatch(r"served \d+\n", said), f"it said {said!r}")
        wants(not wrong, f"{len(wrong)} replies were cut: {wrong[:1]}")
        wants(min(count) > 0, f"a client was never answered: {count}")


@test
def descriptors_run_out_and_come_back():
    with Server("--idle", "20", descriptors=32) as it:
        many = [it.client() for _ in range(100)]
        time.sleep(1)
        for client in many:
            client.close()
        answers(it, 4)
        it.tell()
        it.ends(6)


@test
def a_number_of_connections_ends_it():
    with Server("--connections", "2") as it:
        answers(it, 5)
        answers(it, 5)
        wants(it.ends(6) == "served 2\n", "it said something else")


def tried(run):
    name = run.__name__
    try:
        run()
        said = f"ok {name}"
    except Wrong as why:
        said = f"FAILED {name}: {why}"
    except Exception as error:
        said = f"FAILED {name}: {type(error).__name__}: {error}"
    with PRINTING:
        print(said, flush=True)
    return said.startswith("ok ")


def main():
    names = sys.argv[2:]
    chosen = [it for it in TESTS if not names or it.__name__ in names]
    with ThreadPoolExecutor(6) as pool:
        passed = sum(pool.map(tried, chosen))
    print(f"{passed} passed, {len(chosen) - passed} failed")
    return 0 if chosen and passed == len(chosen) else 1


if __name__ == "__main__":
    sys.exit(main())
