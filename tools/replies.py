"""Replies of the server, read as strictly as docs/PROTOCOL.md has them: for tools/hostile.py and tools/faults.py."""
import re

REASONS = {
    200: "OK", 201: "Created", 304: "Not Modified", 400: "Bad Request", 404: "Not Found", 405: "Method Not Allowed",
    408: "Request Timeout", 411: "Length Required", 412: "Precondition Failed", 413: "Payload Too Large",
    415: "Unsupported Media Type", 422: "Unprocessable Entity", 431: "Request Header Fields Too Large",
    501: "Not Implemented", 503: "Service Unavailable", 507: "Insufficient Storage",
}  # fmt: skip
# The bodies of refusals and of writes, by status.
BODIES = {
    201: rb'\{"commit":\d+\}', 304: rb"", 404: rb'\{"error":"(no_route|absent)"\}', 405: rb'\{"error":"bad_method"\}',
    400: rb'\{"error":"(bad_head|bad_length|bad_host|bad_target|bad_tag)"\}'
    rb'|\{"error":"bad_filter","field":"[fosnk]","place":\d+,"reason":"[a-z_]+"\}',
    408: rb'\{"error":"timeout"\}', 411: rb'\{"error":"no_length"\}',
    412: rb'\{"error":"precondition","found":(\d+|null)\}', 413: rb'\{"error":"body_too_large"\}',
    415: rb'\{"error":"bad_encoding"\}', 422: rb'\{"error":"bad_document","reason":"(not_(json|object|whole)|too_deep)"\}',
    431: rb'\{"error":"head_too_large"\}', 501: rb'\{"error":"bad_coding"\}', 503: rb'\{"error":"memory"\}',
    507: rb'\{"bytes":\d+,"error":"store_full"\}',
}  # fmt: skip
# The bodies of reads and matches; a document and a list begin and end with their brackets.
FOUND = re.compile(rb"\{.*\}|\[.*\]|QSF1.*", re.DOTALL)
# The fields, in their order, and their values.
FIELDS = {
    "Date": r"(Mon|Tue|Wed|Thu|Fri|Sat|Sun), \d\d [A-Z][a-z][a-z] \d{4} \d\d:\d\d:\d\d GMT",
    "Content-Type": r"application/(json|octet-stream)", "Content-Length": r"\d+", "ETag": r'"\d+"',
    "Cache-Control": r"no-store|max-age=\d+", "Allow": r"[A-Z]+(, [A-Z]+)*", "Quaestor-Commit": r"\d+",
    "Quaestor-Version": r"\d+", "Quaestor-Until": r"\d+", "Connection": r"close",
}  # fmt: skip
PLACES = {name: place for place, name in enumerate(FIELDS)}
CONTINUE = b"HTTP/1.1 100 Continue\r\n\r\n"


class Broken(Exception):
    """Bytes that begin no reply."""


class Reply:
    """One whole reply: how many 100 Continue came before it, its status, fields and body, and all its bytes."""

    def __init__(self, interims, status, fields, text, size, is_head):
        self.interims, self.status, self.fields, self.text = interims, status, fields, text
        self.size, self.is_head = size, is_head

    def __str__(self):
        return f"{self.status} {self.body[:60]!r}"

    @property
    def body(self):
        return self.text[len(self.text) - self.size :]

    @property
    def closes(self):
        return "Connection" in self.fields

    def number(self, field):
        """The number in a field, without quotes; None where there is no such field."""
        return int(self.fields[field].strip('"')) if field in self.fields else None

    def is_known(self):
        """Whether the body is one that the status may have, whatever was asked."""
        if self.is_head:
            return True
        if self.status == 200:
            return FOUND.fullmatch(self.body) is not None
        return re.fullmatch(BODIES[self.status], self.body) is not None


def head_of(head):
    lines = head.decode("latin-1").split("\r\n")
    status = lines[0][9:12]
    if not status.isdigit() or lines[0] != f"HTTP/1.1 {status} {REASONS.get(int(status))}":
        raise Broken(f"the status line {lines[0][:80]!r}")
    fields, before = {}, -1
    for line in lines[1:]:
        name, _, value = line.partition(": ")
        if PLACES.get(name, -1) <= before or not re.fullmatch(FIELDS[name], value):
            raise Broken(f"the field {line[:80]!r}")
        fields[name], before = value, PLACES[name]
    return int(status), fields


def next_reply(came, start, to_head=False):
    """The reply that begins at this offset, and the offset of its end; None where not all of it is there."""
    at, interims = start, 0
    while came.startswith(CONTINUE, at):
        at, interims = at + len(CONTINUE), interims + 1
    end = came.find(b"\r\n\r\n", at)
    if end < 0:
        beginning = bytes(came[at : at + 9])
        if not b"HTTP/1.1 ".startswith(beginning) or len(came) - at > 2_000:
            raise Broken(f"{bytes(came[at:at + 80])!r}")
        return None
    status, fields = head_of(bytes(came[at:end]))
    if ("Content-Length" in fields) != (status != 304):
        raise Broken(f"Content-Length beside the status {status}")
    size = 0 if to_head else int(fields.get("Content-Length", 0))
    behind = end + 4 + size
    if len(came) < behind:
        return None
    return Reply(interims, status, fields, bytes(came[start:behind]), size, to_head), behind


class Replies:
    """The replies of one connection, as their bytes come. Of the first requests it is known which are HEAD."""

    def __init__(self, heads=()):
        self.heads, self.came, self.at, self.all, self.statuses = heads, bytearray(), 0, [], []

    def take(self, more):
        self.came += more
        while self.at < len(self.came):
            place = len(self.statuses)
            found = next_reply(self.came, self.at, place < len(self.heads) and self.heads[place])
            if found is None:
                return
            reply, self.at = found
            self.keep(reply)

    def keep(self, reply):
        self.all.append(reply)
        self.statuses.append(reply.status)

    @property
    def rest(self):
        """What came of a reply that is not whole."""
        return bytes(self.came[self.at :])


class Seen(Replies):
    """Replies of which each has to be of a known form, and only the last is kept."""

    def keep(self, reply):
        if not reply.is_known():
            raise Broken(f"an unknown reply: {reply}")
        self.all = [reply]
        self.statuses.append(reply.status)
        del self.came[: self.at]
        self.at = 0
