#!/usr/bin/env python3
"""Draws the panels of examples/grafana.json from a real run: `python3 tools/dashboard.py [PROGRAM [SECONDS]]` starts a
server, sends it traffic that changes, asks it for its metrics each second, works out the expressions of the panels, and
writes docs/dashboard.svg. It is no Grafana: the numbers and the titles are those of the dashboard, the drawing is its
own. The program is what `make program` built, or else dist/quaestor."""
import json
import math
import os
import random
import re
import socket
import subprocess
import sys
import threading
import time
from xml.sax.saxutils import escape

os.chdir(os.path.dirname(os.path.dirname(os.path.realpath(__file__))))
BUILT = "crates/quaestor/out/quaestor"
PROGRAM = sys.argv[1] if len(sys.argv) > 1 else BUILT if os.access(BUILT, os.X_OK) else "dist/quaestor"
SECONDS = int(sys.argv[2]) if len(sys.argv) > 2 else 120
# Over how many seconds a rate is taken, and a panel's size.
RATE = 5
WIDTH, HEIGHT = 470, 210
COLOURS = "#3274d9 #e0752d #5a9e35 #a352cc #c4162a #8f7b00 #138c8c #d683ce #6b6b6b".split()
LINE = re.compile(r"([a-z_]+)(?:\{(.*)\})? (\S+)")
LABEL = re.compile(r'([a-z]+)="([^"]*)"')


def started():
    """A server, and the ports of its requests and of its metrics."""
    words = [PROGRAM, "serve", "127.0.0.1:0", "--metrics", "127.0.0.1:0", "--log", "/dev/null", "--ttl-high", "20"]
    words += ["--bytes", "600000", "--active", "1500"]
    process = subprocess.Popen(words, stdout=subprocess.PIPE, stderr=subprocess.PIPE, text=True)
    watched = re.search(r"127\.0\.0\.1:(\d+)/", process.stderr.readline())
    port = re.search(r":(\d+)$", process.stdout.readline().strip())
    if not (watched and port):
        sys.exit(f"dashboard: {PROGRAM} does not serve")
    return process, int(port[1]), int(watched[1])


def asked(client, method, target, body=b"", fields=b""):
    """The head of a reply."""
    size = b"Content-Length: %d\r\n" % len(body) if method == b"PUT" else b""
    client.sendall(b"%s %s HTTP/1.1\r\nHost: a\r\n%s%s\r\n%s" % (method, target, fields, size, body))
    came = b""
    while b"\r\n\r\n" not in came:
        more = client.recv(65536)
        if not more:
            raise ConnectionError
        came += more
    head, _, body = came.partition(b"\r\n\r\n")
    size = re.search(rb"Content-Length: (\d+)", head)
    left = int(size[1]) - len(body) if size else 0
    while left > 0:
        left -= len(client.recv(65536))
    return head


def client(port, seed, begun):
    """Sends until the server is gone."""
    chosen, tags = random.Random(seed), {}
    try:
        while time.monotonic() < begun + SECONDS:
            with socket.create_connection(("127.0.0.1", port)) as it:
                for _ in range(2_000):
                    sends(it, chosen, tags, 1 - abs(2 * (time.monotonic() - begun) / SECONDS - 1))
    except OSError:
        pass


def sends(it, chosen, tags, part):
    """Sends a read, also one by a tag, a query or a write: busier, and more often a write, in the middle of the run."""
    busy = 0.2 + 0.8 * max(0, part)
    target = b"/v1/d/shop/p%d" % chosen.randrange(1_200)
    what = chosen.random()
    if what < 0.25 * busy:
        asked(it, b"PUT", target, b'{"n":%d,"text":"%s"}' % (chosen.randrange(50), b"x" * chosen.randrange(200)))
    elif what < 0.3:
        asked(it, b"GET", b"/v1/q/shop?f=n%%20%%3C%%20%d&o=n&s=0&n=20&k=ids" % chosen.randrange(50))
    elif what < 0.32:
        asked(it, b"GET", b"/v1/filter")
    elif what < 0.33:
        asked(it, b"GET", b"/v1/d/Shop/P")
    else:
        tag = tags.get(target)
        found = re.search(rb"ETag: (\S+)", asked(it, b"GET", target, fields=b"If-None-Match: %s\r\n" % tag if tag else b""))
        tags[target] = found[1] if found else None
    time.sleep(0.004 / busy)


def scraped(port):
    """The metrics: for each name the values by their labels."""
    with socket.create_connection(("127.0.0.1", port)) as it:
        it.sendall(b"GET /v1/metrics HTTP/1.1\r\nHost: a\r\n\r\n")
        text = b""
        while more := it.recv(65536):
            text += more
    values = {}
    for line in text.decode().partition("\r\n\r\n")[2].splitlines():
        found = LINE.fullmatch(line)
        if found:
            labels = tuple(sorted(LABEL.findall(found[2] or "")))
            values.setdefault(found[1], {})[labels] = float(found[3])
    return values


def run():
    """The metrics of each second of a run."""
    process, port, watched = started()
    begun = time.monotonic()
    threads = [threading.Thread(target=client, args=(port, seed, begun), daemon=True) for seed in range(5)]
    found = []
    try:
        for second in range(SECONDS):
            for thread in threads[: 2 + 4 * second // SECONDS] if second % 10 == 0 else []:
                if not thread.ident:
                    thread.start()
            time.sleep(max(0, begun + second - time.monotonic()))
            found.append(scraped(watched))
    finally:
        process.kill()
    return found


def series_of(expression, scrapes):
    """The values of an expression of the dashboard in each scrape, by their labels. It knows what stands there: a
    metric, its rate, the sum of rates by a label, and the difference of two metrics."""
    text = re.sub(r"\{[^}]*\}|\[[^\]]*\]", "", expression)
    total = re.fullmatch(r"sum by \(([a-z]+)\) \(rate\(([a-z_]+)\)\)", text)
    rate = re.fullmatch(r"rate\(([a-z_]+)\)", text)
    difference = re.fullmatch(r"([a-z_]+) - ([a-z_]+)", text)
    names = [total[2]] if total else [rate[1]] if rate else [*difference.groups()] if difference else [text]
    for name in names:
        if name not in scrapes[-1]:
            sys.exit(f"dashboard: the server has no {name}, of which {expression!r} speaks")
    found = {}
    for at, now in enumerate(scrapes):
        before = scrapes[max(0, at - RATE)]
        values = {}
        for labels, value in now.get(names[0], {}).items():
            if difference:
                value -= now[names[1]][labels]
            if total or rate:
                value = (value - before.get(names[0], {}).get(labels, 0)) / max(1, min(at, RATE)) if at else 0
            key = dict(labels).get(total[1], "") if total else ",".join(text for _, text in labels)
            values[key] = values.get(key, 0) + value
        for key, value in values.items():
            found.setdefault(key, [0] * len(scrapes))[at] = value
    return found


def shown(value, unit):
    """A number as it is read."""
    if unit == "percentunit":
        return f"{value:.2%}" if value >= 0.0001 or value == 0 else f"{value:.0e}"
    if unit == "s":
        return f"{value * 1_000:.3g} ms" if value < 1 else f"{value:.3g} s"
    for least, letter in ((1e9, "G"), (1e6, "M"), (1e3, "k")):
        if value >= least:
            return f"{value / least:.3g} {letter}"
    return f"{value:.3g}"


def round_above(value):
    """The next number that is read easily, also by its quarters."""
    unit = 10 ** math.floor(math.log10(value))
    return next(n * unit for n in (1, 2, 4, 8, 10) if n * unit >= value * 0.999)


def drawn(panel, scrapes, left, top):
    """A panel."""
    unit = panel["fieldConfig"]["defaults"].get("unit", "short")
    lines = []
    for target in panel["targets"]:
        for key, values in sorted(series_of(target["expr"], scrapes).items()):
            lines.append((re.sub(r"\{\{.*?\}\}", key, target["legendFormat"]), values))
    most = round_above(max((max(values) for _, values in lines), default=0) or 1)
    x0, y0, width, height = 52, 30, WIDTH - 64, HEIGHT - 76
    out = [f'<g transform="translate({left},{top})">', f'<rect width="{WIDTH - 8}" height="{HEIGHT - 8}" class="panel"/>']
    out.append(f'<text x="10" y="18" class="title">{escape(panel["title"])}</text>')
    for part in range(5):
        y = y0 + height - height * part / 4
        out.append(f'<path d="M{x0} {y:.1f}h{width}" class="grid"/>')
        out.append(f'<text x="{x0 - 5}" y="{y + 3:.1f}" class="y">{escape(shown(most * part / 4, unit))}</text>')
    for part in range(5):
        x = x0 + width * part / 4
        out.append(f'<text x="{x:.1f}" y="{y0 + height + 13}" class="x">{SECONDS * part / 4:.0f} s</text>')
    at, row = x0, y0 + height + 28
    for index, (name, values) in enumerate(lines):
        colour = COLOURS[index % len(COLOURS)]
        points = " ".join(f"{x0 + width * n / (len(values) - 1):.1f},{y0 + height - height * v / most:.1f}" for n, v in enumerate(values))
        out.append(f'<polyline points="{points}" stroke="{colour}" class="line"/>')
        text = f"{name} {shown(values[len(values) // 2], unit)}"
        if at > x0 and at + 6 * len(text) + 14 > x0 + width:
            at, row = x0, row + 12
        out.append(f'<path d="M{at} {row - 3}h8" stroke="{colour}" class="line"/><text x="{at + 11}" y="{row}" class="name">{escape(text)}</text>')
        at += 6 * len(text) + 18
    return out + ["</g>"]


def main():
    with open("examples/grafana.json", encoding="utf-8") as it:
        panels = json.load(it)["panels"]
    scrapes = run()
    rows = (len(panels) + 1) // 2
    size = f'{2 * WIDTH + 8} {rows * HEIGHT + 8}'
    out = [f'<svg xmlns="http://www.w3.org/2000/svg" viewBox="0 0 {size}" font-family="sans-serif" font-size="10">']
    out.append("<style>.panel{fill:#fff;stroke:#d0d0d8}.title{font-size:12px;font-weight:bold;fill:#222}.grid{stroke:#e8e8ee;fill:none}"
               ".y{text-anchor:end;fill:#666;font-size:9px}.x{text-anchor:middle;fill:#666;font-size:9px}.name{fill:#333}"
               ".line{fill:none;stroke-width:1.4}</style>")
    out.append('<rect width="100%" height="100%" fill="#f4f5f8"/>')
    for index, panel in enumerate(panels):
        out += drawn(panel, scrapes, 8 + WIDTH * (index % 2), 8 + HEIGHT * (index // 2))
    with open("docs/dashboard.svg", "w", encoding="utf-8") as it:
        it.write("\n".join(out) + "\n</svg>\n")


if __name__ == "__main__":
    main()
