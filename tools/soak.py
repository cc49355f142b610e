#!/usr/bin/env python3
"""Writes at full speed for half an hour: `python3 tools/soak.py [SECONDS [PROGRAM [OPTION..]]]`. Eight processes with
eight connections each write documents of 200 bytes over 1,000 ids at a server of its own, by sixteen requests at a
time. Each ten seconds a line says how many writes were answered, how fast, and which memory the server has. It ends
with `ok` where each write was accepted, the memory after ten million writes is that after 100,000 within a tenth, and
that at the end is a tenth above that at most; else with what was not so and the status 1. A matcher that is kept from a
processor by other programs drops later, and the memory shows that: leave the machine to it. The options are those of
`serve`, `--keep 10000` where none is given: without it the store grows until three quarters of its capacity are full,
and is to be as large only from there on. The program is what `make program` built, or else dist/quaestor. It is started
with as many heaps as ./quaestor gives it."""
import multiprocessing
import os
import re
import socket
import subprocess
import sys
import time

os.chdir(os.path.dirname(os.path.dirname(os.path.realpath(__file__))))
BUILT = "crates/quaestor/out/quaestor"
SECONDS = int(sys.argv[1]) if len(sys.argv) > 1 else 1800
PROGRAM = sys.argv[2] if len(sys.argv) > 2 else BUILT if os.access(BUILT, os.X_OK) else "dist/quaestor"
OPTIONS = sys.argv[3:] or ["--keep", "10000"]
PROCESSES, CONNECTIONS, AT_ONCE, IDS = 8, 8, 16, 1_000
FIRST, LATER = 100_000, 10_000_000


def requests(begin):
    body = b'{"price":%d,"text":"' % begin
    body += b"x" * (198 - len(body)) + b'"}'
    head = b"PUT /v1/d/shop/p%d HTTP/1.1\r\nHost: a\r\nContent-Length: %d\r\n\r\n"
    return b"".join(head % ((begin + n) % IDS, len(body)) + body for n in range(AT_ONCE))


def connected(port):
    return socket.create_connection(("127.0.0.1", port), timeout=60)


def writes(port, own, until, done, refused):
    """Writes over connections of its own until a moment; how many writes were done and refused is counted."""
    clients = [connected(port) for _ in range(CONNECTIONS)]
    at = own * IDS // PROCESSES
    while time.time() < until:
        for client in clients:
            client.sendall(requests(at))
            at += AT_ONCE
        for place, client in enumerate(clients):
            came = b""
            # the body of each reply has one brace at its end, and no head has one
            while came.count(b"}") < AT_ONCE:
                more = client.recv(65536)
                if not more:
                    raise SystemExit("a connection ended before its last reply")
                came += more
            if b"\r\nConnection: close\r\n" in came:
                client.close()
                clients[place] = connected(port)
            accepted = came.count(b"HTTP/1.1 200 ") + came.count(b"HTTP/1.1 201 ")
            with done.get_lock():
                done.value += accepted
            if accepted < AT_ONCE:
                with refused.get_lock():
                    refused.value += AT_ONCE - accepted


def resident(process):
    with open(f"/proc/{process.pid}/status") as it:
        return int(re.search(r"VmRSS:\s+(\d+)", it.read())[1])


def main():
    heaps = {"MALLOC_ARENA_MAX": "4", **os.environ}
    how = {"stdin": subprocess.DEVNULL, "stdout": subprocess.PIPE, "text": True, "env": heaps}
    server = subprocess.Popen([PROGRAM, "serve", "127.0.0.1:0", "--workers", "64", *OPTIONS], **how)
    try:
        port = int(server.stdout.readline().rsplit(":", 1)[1])
        context = multiprocessing.get_context("fork")
        done, refused = context.Value("Q", 0), context.Value("Q", 0)
        start = time.time()
        given = [(port, own, start + SECONDS, done, refused) for own in range(PROCESSES)]
        clients = [context.Process(target=writes, args=it) for it in given]
        for client in clients:
            client.start()
        first, later, before, said = None, None, 0, start
        while any(client.is_alive() for client in clients):
            time.sleep(0.05)
            if first is None and done.value >= FIRST:
                first = resident(server)
                print(f"{first:,} KB after {done.value:,} writes", flush=True)
            if later is None and done.value >= LATER:
                later = resident(server)
                print(f"{later:,} KB after {done.value:,} writes", flush=True)
            now = time.time()
            if now - said >= 10:
                count = done.value
                rate = (count - before) / (now - said)
                print(f"{now - start:.0f} s: {count:,} writes, {rate:,.0f} a second, {resident(server):,} KB, "
                      f"{refused.value:,} refused", flush=True)
                before, said = count, now
        last, count = resident(server), done.value
        print(f"{last:,} KB after {count:,} writes, {refused.value:,} refused")
        wrong = []
        if any(client.exitcode for client in clients):
            wrong.append("a client failed")
        if refused.value:
            wrong.append(f"{refused.value:,} writes were refused")
        if first is None:
            wrong.append(f"there were less than {FIRST:,} writes")
        elif not 0.9 * first <= (later or last) <= 1.1 * first:
            wrong.append(f"the memory is {(later or last) / first:.2f} times that after {FIRST:,} writes")
        elif later is not None and last > 1.1 * later:
            wrong.append(f"the memory at the end is {last / later:.2f} times that after {LATER:,} writes")
        print("; ".join(wrong) or "ok")
        return 1 if wrong else 0
    finally:
        server.kill()
        server.wait()


if __name__ == "__main__":
    sys.exit(main())
