#!/usr/bin/env python3
"""Tells which keys a page has: `python3 tools/page.py PAGE KEY..`. PAGE is a file with the bytes of the page, `-`
for standard input, or the address of a server, as http://127.0.0.1:8080, which is asked for its page. A KEY is
the text of a key, as r/shop/p1. Without one, what the head of the page says is printed.

A key is `outdated` where the bits at all its positions are set: some copy of it that may still be kept may be
outdated, so it must be asked for again. Else it is `clear`: no copy of it is outdated at the page's front. How a
page is made, and which positions a key has, is in docs/PROTOCOL.md. The status is 1 where a key is outdated, and
2 where the page is none."""
import hashlib
import sys
import urllib.request


def bytes_of(place):
    if place == "-":
        return sys.stdin.buffer.read()
    if place.startswith("http://"):
        with urllib.request.urlopen(place.rstrip("/") + "/v1/filter", timeout=60) as it:
            return it.read()
    with open(place, "rb") as it:
        return it.read()


class Page:
    def __init__(self, text):
        if len(text) < 30 or text[:4] != b"QSF1":
            raise ValueError("it does not begin with QSF1 and the head of a page")
        self.hashes, self.log2_bits = text[4], text[5]
        self.front, self.commits, self.clock = (int.from_bytes(text[at : at + 8], "big") for at in (6, 14, 22))
        self.bits = text[30:]
        if not 1 <= self.hashes <= 16 or 8 * len(self.bits) != 1 << self.log2_bits:
            raise ValueError(f"it has {self.hashes} hashes, and {len(self.bits)} bytes of 2^{self.log2_bits} bits")

    def positions(self, key):
        """The two halves of the SHA-256's first 16 bytes, as numbers, joined by double hashing."""
        found = hashlib.sha256(key.encode()).digest()
        first, second = (int.from_bytes(found[at : at + 8], "big") for at in (0, 8))
        return [(first + i * second) % 2**64 % 2**self.log2_bits for i in range(self.hashes)]

    def holds(self, key):
        return all(self.bits[it // 8] >> it % 8 & 1 for it in self.positions(key))


def main(place, *keys):
    try:
        page = Page(bytes_of(place))
    except (OSError, ValueError) as error:
        print(f"{place}: no page: {error}", file=sys.stderr)
        return 2
    if not keys:
        set_bits = sum(bin(it).count("1") for it in page.bits)
        print(f"front {page.front}, commits {page.commits}, clock {page.clock}, hashes {page.hashes}, bits {8 * len(page.bits)}, set {set_bits}")
    for key in keys:
        print(f"{'outdated' if page.holds(key) else 'clear'} {key}")
    return int(any(map(page.holds, keys)))


if __name__ == "__main__":
    if len(sys.argv) < 2:
        sys.exit(__doc__)
    sys.exit(main(*sys.argv[1:]))
