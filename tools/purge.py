#!/usr/bin/env python3
"""Has caches drop what a server purges: `python3 tools/purge.py SERVER [--from N] [--every SECONDS] [--once]
[--varnish URL].. [--nginx FOLDER].. [--print]`. SERVER is the address of a server, as http://127.0.0.1:8080.

It asks for /v1/purges?from=N, with N first 1, or --from; has each cache drop the result of each key that is
listed; and goes on with the number after the last one that it had, at once where there are more, else after
--every seconds (1). With --once it ends where there are no more, and prints the number to go on with.

--varnish URL    sends the request PURGE to Varnish at URL, with the key's target
--nginx FOLDER   removes the file of the key's target from a folder of proxy_cache with `levels=1:2` and the key
                 $request_uri; it must run as a user who may do so
--print          prints each key with its target

Where a cache cannot be reached it says so and tries again. It ends with status 3 where the server has fewer purges
than are known, which says that it was started anew: its commits count from 1 again, so all that the caches keep of
it must go, as docs/OPERATING.md says."""
import hashlib
import json
import os
import sys
import time
import urllib.error
import urllib.parse
import urllib.request


def target_of(key):
    """The target of a key's text, in its one spelling: all clients that use it share a cache's copy of the result."""
    kind, collection, rest = key.split("/", 2)
    if kind == "r":
        return f"/v1/d/{collection}/{rest}"
    shown, _, fields = rest.partition("/")
    parts, within, escaped, at = [], False, False, 0
    # a `;` inside quotes is no end of a field, and a quote behind a backslash is no end of a text
    for place, sign in enumerate(fields):
        if within and sign == "\\" and not escaped:
            escaped = True
            continue
        if sign == '"' and not (within and escaped):
            within = not within
        elif sign == ";" and not within:
            parts.append(fields[at:place])
            at = place + 1
        escaped = False
    parts.append(fields[at:])
    f, o, s, n = (it[2:] for it in parts)
    escape = lambda text: urllib.parse.quote(text.encode(), safe="")
    return f"/v1/q/{collection}?f={escape(f)}&o={escape(o)}&s={s}&n={n}&k={shown}"


def purges(server, number):
    with urllib.request.urlopen(f"{server}/v1/purges?from={number}", timeout=60) as it:
        return json.load(it)


def drop_from_varnish(cache, target):
    request = urllib.request.Request(cache + target, method="PURGE")
    with urllib.request.urlopen(request, timeout=60):
        pass


def drop_from_nginx(folder, target):
    name = hashlib.md5(target.encode()).hexdigest()
    try:
        os.remove(f"{folder}/{name[-1]}/{name[-3:-1]}/{name}")
    except FileNotFoundError:
        pass


def main(words):
    server, number, every, once, shows, caches = None, 1, 1.0, False, False, []
    words = list(words)
    while words:
        word = words.pop(0)
        if word == "--once":
            once = True
        elif word == "--print":
            shows = True
        elif word in ("--from", "--every", "--varnish", "--nginx") and words:
            value = words.pop(0)
            if word == "--from":
                number = int(value)
            elif word == "--every":
                every = float(value)
            else:
                caches.append((drop_from_varnish if word == "--varnish" else drop_from_nginx, value.rstrip("/")))
        elif server is None and word.startswith("http://"):
            server = word.rstrip("/")
        else:
            sys.exit(__doc__)
    if server is None:
        sys.exit(__doc__)
    while True:
        try:
            found = purges(server, number)
            if found["last"] < number - 1:
                print(f"{server} has {found['last']} purges, and {number - 1} are known: it was started anew", file=sys.stderr)
                return 3
            for key in found["keys"]:
                target = target_of(key)
                if shows:
                    print(f"{number} {key} {target}", flush=True)
                for drop, cache in caches:
                    drop(cache, target)
                number += 1
            if number <= found["last"]:
                continue
        except (OSError, ValueError, KeyError) as error:
            print(f"at purge {number}: {error}", file=sys.stderr, flush=True)
            if once:
                return 1
        else:
            if once:
                print(number)
                return 0
        time.sleep(every)


if __name__ == "__main__":
    try:
        sys.exit(main(sys.argv[1:]))
    except KeyboardInterrupt:
        sys.exit(0)
