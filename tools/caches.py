#!/usr/bin/env python3
"""Tries `serve` and `read` against each other over the loopback interface, straight and through the shipped
configurations of nginx and Varnish: `python3 tools/caches.py [PROGRAM]`, or `make caches`. A read is kept by the cache
and given from it; after a put and a match the next read gives the new document, and so does one at each level. A cache
that is not installed is skipped with a word. A line is printed for each way, `ok WAY`, `skipped WAY: WHY` or `FAILED
WAY: WHY`; the status is 1 where any failed. The program is what `make program` built, or else dist/quaestor."""
import json
import os
import shutil
import socket
import subprocess
import sys
import tempfile
import time
import urllib.error
import urllib.request

os.chdir(os.path.dirname(os.path.dirname(os.path.realpath(__file__))))
BUILT = "crates/quaestor/out/quaestor"
PROGRAM = sys.argv[1] if len(sys.argv) > 1 else BUILT if os.access(BUILT, os.X_OK) else "dist/quaestor"
# nginx and varnishd are often outside the path of a user.
os.environ["PATH"] += ":/usr/sbin:/usr/local/sbin"
QUIET = {"stdin": subprocess.DEVNULL, "stdout": subprocess.DEVNULL, "stderr": subprocess.DEVNULL}


class Wrong(Exception):
    """Why a way failed."""


def wants(holds, why):
    if not holds:
        raise Wrong(why)


def free_port():
    with socket.socket() as it:
        it.bind(("127.0.0.1", 0))
        return it.getsockname()[1]


def waits_for(port):
    for _ in range(100):
        try:
            socket.create_connection(("127.0.0.1", port), timeout=1).close()
            return
        except OSError:
            time.sleep(0.1)
    raise Wrong(f"nothing listens at port {port}")


def ask(port, method, target, body=None):
    """The fields and the body of the reply to a request."""
    text = None if body is None else json.dumps(body).encode()
    wanted = urllib.request.Request(f"http://127.0.0.1:{port}{target}", text, method=method)
    try:
        with urllib.request.urlopen(wanted, timeout=10) as came:
            return came.headers, json.loads(came.read())
    except urllib.error.HTTPError as refused:
        raise Wrong(f"{method} {target}: {refused.code} {refused.read()!r}") from None


def read(port, level):
    """What `read` prints: the commit, the way, and then the document."""
    words = [PROGRAM, "read", f"127.0.0.1:{port}", level, "r/shop/p1"]
    came = subprocess.run(words, stdin=subprocess.DEVNULL, capture_output=True, text=True, timeout=20)
    wants(came.returncode == 0, f"read {level}: status {came.returncode}, {came.stderr.strip()}")
    return came.stdout


def copied(name, folder, changes):
    """A shipped configuration with other ports."""
    with open(f"examples/{name}") as it:
        text = it.read()
    for old, new in changes:
        wants(old in text, f"examples/{name} has no {old!r}")
        text = text.replace(old, new)
    path = f"{folder}/{name}"
    with open(path, "w") as it:
        it.write(text)
    return path


def nginx(folder, server):
    port = free_port()
    path = copied("nginx.conf", folder, [("127.0.0.1:8080", f"127.0.0.1:{server}"), ("127.0.0.1:8081", f"127.0.0.1:{port}")])
    return port, ["nginx", "-p", folder, "-c", path, "-g", "daemon off;"]


def varnish(folder, server):
    port = free_port()
    path = copied("varnish.vcl", folder, [('.port = "8080"', f'.port = "{server}"')])
    return port, ["varnishd", "-F", "-n", f"{folder}/work", "-a", f"127.0.0.1:{port}", "-f", path, "-s", "malloc,64m"]


def was_kept(fields):
    """Whether a reply came from the cache."""
    return fields.get("X-Cache") == "HIT" or int(fields.get("Age", "0")) > 0 or " " in fields.get("X-Varnish", "")


def tries(server, port, cached):
    ask(server, "PUT", "/v1/d/shop/p1", {"price": 18})
    ask(server, "POST", "/v1/match")
    first = read(port, "session")
    wants('{"price":18}' in first, f"the first read gave {first!r}")
    if cached:
        fields, body = ask(port, "GET", "/v1/d/shop/p1")
        wants(was_kept(fields), f"the read was not kept: {dict(fields)}")
        wants(body == {"price": 18}, f"the copy is {body}")
        again = read(port, "session")
        wants('{"price":18}' in again, f"the second read gave {again!r}")
    ask(port, "PUT", "/v1/d/shop/p1", {"price": 19})
    ask(server, "POST", "/v1/match")
    if cached:
        fields, body = ask(port, "GET", "/v1/d/shop/p1")
        wants(was_kept(fields) and body == {"price": 18}, f"the cache was to have the old copy still, and gave {body}")
    for level in ("session", "causal", "strong"):
        after = read(port, level)
        wants('{"price":19}' in after, f"after a put and a match a {level} read gave {after!r}")


def goes(way, cache):
    with tempfile.TemporaryDirectory(prefix="caches") as folder:
        os.chmod(folder, 0o777)
        started = []
        try:
            server = free_port()
            words = [PROGRAM, "serve", f"127.0.0.1:{server}", "--ttl-low", "60"]
            started.append(subprocess.Popen(words, **QUIET))
            waits_for(server)
            port = server
            if cache:
                port, words = cache(folder, server)
                started.append(subprocess.Popen(words, **QUIET))
                waits_for(port)
            tries(server, port, cache is not None)
        finally:
            for process in reversed(started):
                process.terminate()
            for process in started:
                process.wait()
    print(f"ok {way}")


def main():
    failed = False
    for way, cache, program in (("nothing", None, None), ("nginx", nginx, "nginx"), ("varnish", varnish, "varnishd")):
        if program and not shutil.which(program):
            print(f"skipped {way}: {program} is not installed (apt-get install {'nginx-light' if way == 'nginx' else way})")
            continue
        try:
            goes(way, cache)
        except Wrong as why:
            failed = True
            print(f"FAILED {way}: {why}")
    return failed


if __name__ == "__main__":
    sys.exit(main())
