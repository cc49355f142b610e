"""Requests, each with the replies that are right for it: for tools/hostile.py. One session at a time writes a
collection of a few records, so what each request is to be answered is known, but for the numbers of commits."""
import re
import threading


IDS = ["p0", "p1", "p2", "p3"]
# The version of a record that was put, where the reply has not said it yet: above each that is known.
LATER = float("inf")


class Wrong(Exception):
    """Why a reply is not right."""


def wants(holds, why):
    if not holds:
        raise Wrong(why)


class Register:
    """How many documents there were, which write each commit is, and how much of the store all writes take."""

    def __init__(self):
        self.lock = threading.Lock()
        self.documents, self.commits, self.kept = 0, {}, 0

    def document(self, rng, size):
        """A document that no other put has."""
        with self.lock:
            self.documents += 1
            number = self.documents
        text = "".join(rng.choices("abcdefghijklmnopqrstuvwxyz ", k=max(0, size - 24)))
        return f'{{"n":{number},"t":"{text}"}}'.encode()

    def sent(self, path, size):
        """Counts a write that may be made."""
        with self.lock:
            self.kept += 64 + len(path) - len("/v1/d//") + size

    def made(self, commit, what):
        """That a commit is this write, of a path and a document, and no other one."""
        with self.lock:
            wants(self.commits.setdefault(commit, hash(what)) == hash(what), f"commit {commit} is of two writes")


class Collection:
    """What each record of a collection has, with its version; and, where replies are missing, what else it may be."""

    def __init__(self, name, register):
        self.name, self.register = name, register
        self.records, self.others, self.ready, self.known = {}, [], 0.0, 0

    def path(self, record):
        return f"/v1/d/{self.name}/{record}"

    def settle(self, found):
        """Takes what was read of each record, a document with its version or None, as what is there."""
        for records in [self.records, *self.others]:
            same = all(
                (found[it] is None) == (it not in records)
                and (found[it] is None or found[it][0] == records[it][0] and records[it][1] in (LATER, found[it][1]))
                for it in IDS
            )
            if same:
                self.records, self.others = {it: pair for it, pair in found.items() if pair}, []
                for it, (text, version) in self.records.items():
                    self.register.made(version, (self.path(it), text))
                return
        wants(False, f"{self.name} has {str(found)[:200]}, and was to have {str(self.records)[:200]}")


class Ask:
    """A request. `then` says what a right reply is; `closes` that it is the last one which is answered."""

    def __init__(self, name, text, closes=False, is_head=False, interim=False):
        self.name, self.text, self.closes, self.is_head, self.interim = name, text, closes, is_head, interim

    def apply(self, records):
        """What the records are after it."""
        return records

    def judge(self, reply, collection):
        wants(reply.interims == self.interim, f"{reply.interims} times 100 Continue before {reply}")
        wants(reply.closes == self.closes, f"Connection: close is there or not, as it should not be: {reply}")
        self.then(reply, collection)


class Refused(Ask):
    """A request that is refused, whatever the store has."""

    def __init__(self, name, text, status, body, **more):
        super().__init__(name, text, **more)
        self.status, self.body = status, body

    def then(self, reply, collection):
        wants((reply.status, reply.body) == (self.status, self.body), f"{self.name} was answered {reply}")


class Formed(Ask):
    """A request whose answer has a form, and depends on others."""

    def __init__(self, name, text, form, **more):
        super().__init__(name, text, **more)
        self.form = form

    def then(self, reply, collection):
        wants(reply.status == 200 and re.fullmatch(self.form, reply.body, re.DOTALL), f"{self.name} was answered {reply}")


class Write(Ask):
    """A put of a document, or a delete where that is None, under a condition: None, `none`, `some` or a tag's number."""

    def __init__(self, collection, record, document, condition, text, **more):
        super().__init__("put" if document else "delete", text, **more)
        self.record, self.document, self.condition, self.collection = record, document, condition, collection

    def is_made(self, records):
        there = records.get(self.record)
        if self.condition == "none":
            return there is None
        if self.condition == "some":
            return there is not None
        return self.condition is None or there is not None and there[1] <= self.condition

    def apply(self, records, version=LATER):
        if not self.is_made(records):
            return records
        others = {it: pair for it, pair in records.items() if it != self.record}
        return others if self.document is None else others | {self.record: (self.document, version)}

    def then(self, reply, collection):
        there = collection.records.get(self.record)
        if not self.is_made(collection.records):
            found = b"null" if there is None else b"%d" % there[1]
            right = reply.status == 412 and reply.body == b'{"error":"precondition","found":%s}' % found
            return wants(right, f"a write whose condition is not met by {there and there[1]} was answered {reply}")
        commit = reply.number("Quaestor-Commit")
        wants(reply.status == (201 if self.document and there is None else 200), f"a write was answered {reply}")
        wants(reply.body == b'{"commit":%d}' % commit, f"of commit {commit} the reply is {reply}")
        wants(commit > collection.known, f"a write behind commit {collection.known} is commit {commit}")
        collection.register.made(commit, (collection.path(self.record), self.document))
        collection.known, collection.records = commit, self.apply(collection.records, commit)


class Read(Ask):
    """A read of a record, which a client may know by a tag: None, `*` or a number."""

    def __init__(self, record, tag, text, **more):
        super().__init__("HEAD" if more.get("is_head") else "read", text, **more)
        self.record, self.tag = record, tag

    def then(self, reply, collection):
        there, commit = collection.records.get(self.record), reply.number("Quaestor-Commit")
        wants(commit is not None and commit >= collection.known, f"a read behind commit {collection.known} was answered {reply}")
        collection.known = commit
        if there is None:
            right = reply.status == 404 and reply.body == (b"" if self.is_head else b'{"error":"absent"}')
            return wants(right, f"a read of no document was answered {reply}")
        document, version = there
        wants(reply.number("Quaestor-Version") == version <= commit, f"version {version} was read as {reply.fields}")
        known = self.tag == "*" or isinstance(self.tag, int) and version <= self.tag <= commit
        wants(reply.status == (304 if known else 200), f"a read by the tag {self.tag} of {version} was answered {reply}")
        wants(reply.number("ETag") == (self.tag if known and self.tag != "*" else commit), f"its tag is {reply.fields}")
        wants(known or reply.body == (b"" if self.is_head else document), f"of {document[:60]!r} was read {reply}")
        wants(known or reply.number("Content-Length") == len(document), f"of {len(document)} bytes was read {reply.fields}")


class Query(Ask):
    """A read of all rows of the collection."""

    def __init__(self, kind, text, **more):
        super().__init__("query", text, **more)
        self.kind = kind

    def then(self, reply, collection):
        wants(reply.status == 200 and reply.number("Quaestor-Commit") >= collection.known, f"a query was answered {reply}")
        collection.known = reply.number("Quaestor-Commit")
        there = sorted(collection.records.items())
        if self.kind == "ids":
            rows = [it.encode().join([b'"', b'"']) for it, _ in there]
        else:
            rows = [b'{"doc":%s,"id":"%s","version":%d}' % (text, it.encode(), at) for it, (text, at) in there]
        wants(reply.body == b"[" + b",".join(rows) + b"]", f"the rows {rows} were read as {reply.body[:200]!r}")


def request(line, fields=(), body=b""):
    return b"".join([line.encode(), b" HTTP/1.1\r\nHost: a\r\n", *[it.encode() + b"\r\n" for it in fields], b"\r\n", body])


def chunks(rng, body):
    """A chunked coding of a body."""
    pieces, at = [], 0
    while at < len(body):
        size = rng.randint(1, len(body) - at)
        more = rng.choice(["", ";a=b", ' ; a="b"']) if rng.random() < 0.3 else ""
        pieces.append(b"%x%s\r\n%s\r\n" % (size, more.encode(), body[at : at + size]))
        at += size
    return b"".join(pieces) + b"0\r\n" + (b"A: b\r\n" if rng.random() < 0.3 else b"") + b"\r\n"


def last_of(closes):
    return ["Connection: close"] if closes else []


def write(rng, collection, size, closes=False):
    """A put, or a delete where the size is None."""
    record, fields, body, there = rng.choice(IDS), last_of(closes), b"", None
    document = None if size is None else collection.register.document(rng, size)
    condition = rng.choice([None, None, None, None, "none", "some", "tag", "old"])
    if condition in ("tag", "old"):
        there = collection.records.get(record)
        condition = 0 if there is None or condition == "old" else there[1]
    if condition is not None and not (condition == "none" and document is None and rng.random() < 0.5):
        tag = {"none": "None-Match: *", "some": "Match: *"}.get(condition, f'Match: "{condition}"')
        fields.append(f"If-{tag}")
    else:
        condition = None
    interim = document is not None and rng.random() < 0.2
    if interim:
        fields.append("Expect: 100-continue")
    if document is not None and rng.random() < 0.3:
        body = chunks(rng, document)
        fields.append("Transfer-Encoding: chunked")
    elif document is not None:
        body = document
        fields.append(f"Content-Length: {len(body)}")
    path = collection.path(record)
    text = request(f"{'DELETE' if document is None else 'PUT'} {path}", fields, body)
    return Write(collection, record, document, condition, text, closes=closes, interim=interim)


def read(rng, collection, closes=False):
    record, is_head, fields = rng.choice(IDS), rng.random() < 0.2, last_of(closes)
    there, tag = collection.records.get(record), None
    if rng.random() < 0.4:
        tag = rng.choice(["*", 0, there[1] if there else 1])
        fields.append("If-None-Match: *" if tag == "*" else f'If-None-Match: "{tag}"')
    text = request(f"{'HEAD' if is_head else 'GET'} {collection.path(record)}", fields)
    return Read(record, tag, text, closes=closes, is_head=is_head)


def query(rng, collection, closes=False):
    kind = rng.choice(["ids", "objects"])
    return Query(kind, request(f"GET /v1/q/{collection.name}?f=true&k={kind}", last_of(closes)), closes=closes)


FORMED = [
    ("numbers", "GET /v1/stats", rb'\{"clock":\d+,"commits":\d+,"front":\d+\}'),
    ("match", "POST /v1/match", rb'\{"front":\d+\}'),
    ("page", "GET /v1/filter", rb"QSF1.{16410}"),
    ("purges", "GET /v1/purges", rb'\{"from":1,"front":\d+,"keys":\[.*\],"last":\d+\}'),
]  # fmt: skip


def formed(rng, collection, closes=False):
    name, line, form = rng.choice(FORMED[:2] * 4 + FORMED[2:])
    return Formed(name, request(line, last_of(closes)), form, closes=closes)


def error(word):
    return b'{"error":"%s"}' % word.encode()


# Requests that are refused: the line, the fields, the body, the status and the body of the reply.
REFUSALS = [
    ("GET v1/stats", [], b"", 400, error("bad_target")), ("GET /v2", [], b"", 404, error("no_route")),
    ("POST /v1/stats", ["Content-Length: 3"], b"abc", 405, error("bad_method")),
    ("GET /v1/d/shop/P1", [], b"", 400, error("bad_target")), ("GET /v1/purges?from=0", [], b"", 400, error("bad_target")),
    ("GET /v1/stats", ["Host: b"], b"", 400, error("bad_host")), ("PUT /v1/d/shop/p1", [], b"", 411, error("no_length")),
    ("PUT /v1/d/shop/p1", ["Content-Length: 2", "Content-Encoding: br"], b"{}", 415, error("bad_encoding")),
    ("GET /v1/d/shop/p1", ["If-None-Match: 1"], b"", 400, error("bad_tag")),
    ("PUT /v1/d/shop/p1", ["Content-Length: 3"], b"{a}", 422, b'{"error":"bad_document","reason":"not_json"}'),
    ("PUT /v1/d/shop/p1", ["Content-Length: 2"], b"[]", 422, b'{"error":"bad_document","reason":"not_object"}'),
    ("PUT /v1/d/shop/p1", ["Content-Length: 9"], b'{"a":0.5}', 422, b'{"error":"bad_document","reason":"not_whole"}'),
    ("GET /v1/q/shop?f=a%20%3D", [], b"", 400, b'{"error":"bad_filter","field":"f","place":3,"reason":"syntax"}'),
]  # fmt: skip
# Those behind which nothing is answered: the bytes.
CLOSERS = [
    (b"GET /v1/stats HTTP/1.1\r\nHost : a\r\n\r\n", 400, error("bad_head")), (b"\x00\xff\r\n\r\n", 400, error("bad_head")),
    (b"GET /v1/stats HTTP/2.0\r\n\r\n", 400, error("bad_head")), (b"\r\rGET", 400, error("bad_head")),
    (b"GET /v1/stats HTTP/1.1\r\nA: " + b"a" * 16_400 + b"\r\n\r\n", 431, error("head_too_large")),
    (b"GET / HTTP/1.1\r\n" + b"A: b\r\n" * 65 + b"\r\n", 431, error("head_too_large")),
    (b"PUT / HTTP/1.1\r\nContent-Length: 1\r\nContent-Length: 1\r\n\r\na", 400, error("bad_length")),
    (b"PUT / HTTP/1.1\r\nContent-Length: +1\r\n\r\na", 400, error("bad_length")),
    (b"PUT / HTTP/1.1\r\nTransfer-Encoding: chunked\r\nContent-Length: 1\r\n\r\n0\r\n\r\n", 400, error("bad_length")),
    (b"PUT / HTTP/1.1\r\nTransfer-Encoding: chunked\r\n\r\nx\r\n", 400, error("bad_length")),
    (b"PUT / HTTP/1.1\r\nTransfer-Encoding: gzip\r\n\r\n", 501, error("bad_coding")),
    (b"PUT / HTTP/1.1\r\nContent-Length: 65537\r\n\r\n", 413, error("body_too_large")),
    (b"PUT / HTTP/1.1\r\nTransfer-Encoding: chunked\r\n\r\n10001\r\n", 413, error("body_too_large")),
]  # fmt: skip


def refused(rng, collection, closes=False):
    line, fields, body, status, answer = rng.choice(REFUSALS)
    return Refused(line, request(line, fields + last_of(closes), body), status, answer, closes=closes)


def closer(rng):
    """A request that cannot be framed."""
    text, status, body = rng.choice(CLOSERS)
    return Refused("what cannot be framed", text, status, body, closes=True)
