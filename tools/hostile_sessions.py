"""The sessions of hostile use, which tools/hostile.py runs: each is given its kind and random numbers of its own."""
import select
import socket
import time

import asks
import lasts
import proxy
from asks import wants
from proxy import Plan
from replies import CONTINUE, Replies, Seen

# The limits of the server's times, in seconds: short ones, so that each is met often.
IDLE, HEAD_TIME, REPLY_TIME = 8, 6, 5
OPTIONS = ["--idle", str(IDLE), "--head-time", str(HEAD_TIME), "--reply-time", str(REPLY_TIME), "--workers", "16"]
# A session has to end within so many seconds.
PATIENCE = 60
# How long a collection rests on which a write may still be under way.
REST = 3.0
GET = lasts.GET


def ends_side(client):
    """Ends the client's side of the stream, if the connection is there still."""
    try:
        client.shutdown(socket.SHUT_WR)
    except OSError:
        pass


def exchange(client, texts, ending, replies, wanted):
    """Sends these texts and takes what comes: `steps` sends each behind the reply to the one before, `half` ends the
    client's side behind them, `count` leaves when so many replies came, `close` waits for the end."""
    client.setblocking(False)
    sending, left = bytearray(), list(texts)
    until = time.monotonic() + PATIENCE
    if ending != "steps":
        sending, left = bytearray(b"".join(left)), []
    is_ended = False
    while True:
        if ending == "steps" and left and not sending and len(replies.statuses) >= len(texts) - len(left):
            sending += left.pop(0)
        if ending in ("steps", "count") and not left and not sending and len(replies.statuses) >= wanted:
            return True
        if ending == "half" and not sending and not is_ended:
            is_ended = True
            ends_side(client)
        wants(time.monotonic() < until, f"no end within {PATIENCE} seconds, {len(replies.statuses)} of {wanted} replies")
        poll = select.poll()
        poll.register(client, select.POLLIN | (select.POLLOUT if sending else 0))
        for _, mask in poll.poll(1000):
            try:
                if mask & ~select.POLLOUT:
                    more = client.recv(65536)
                    if not more:
                        return False
                    replies.take(more)
                elif sending:
                    del sending[: client.send(sending)]
            except BlockingIOError:
                pass
            except OSError:
                return False


# Sessions through the proxy, whose requests are known.


def compose(rng, collection, pages, may_close):
    """Some requests; with pages and lists of purges or without, and perhaps one behind which nothing is answered."""
    makers = [asks.write] * 4 + [asks.read] * 4 + [asks.query, asks.formed, asks.refused]
    chosen = []
    for _ in range(rng.randint(1, 12)):
        make = rng.choice(makers)
        if make is asks.write:
            size = rng.choice([None, 30, 60, 200, 200, 600]) if rng.random() < 0.99 else rng.randint(5_000, 60_000)
            one = make(rng, collection, size)
            collection.register.sent(collection.path(one.record), len(one.document or b""))
        else:
            one = make(rng, collection)
        if pages or one.name not in ("page", "purges"):
            chosen.append(one)
    if may_close and rng.random() < 0.2:
        chosen.append(asks.closer(rng))
    elif may_close and rng.random() < 0.2:
        chosen.append(asks.read(rng, collection, closes=True))
    return chosen or [asks.read(rng, collection)]


def talk(run, kind, rng):
    """Requests whose replies are known, through the proxy, which meddles with them as the kind says."""
    collection = run.take()
    chosen, up, down, ending, effective = plan_of(kind, rng, collection)
    replies = Replies([it.is_head for it in effective])
    client, connection = run.proxy.client(up, down)
    with client:
        exchange(client, [it.text for it in chosen], ending, replies, len(effective))
    judge(run, kind, collection, effective, replies, connection)
    # one whose session failed is not known any more, and not used again
    run.give(collection)


def plan_of(kind, rng, collection):
    """Requests, what the proxy does in either direction, how the client ends, and the requests that the server gets, up
    to one behind which it answers none."""
    splits = kind in ("split into pieces", "delayed pieces")
    chosen = compose(rng, collection, not splits, kind != "held back")
    texts = [it.text for it in chosen]
    size = sum(map(len, texts))
    up, down, ending = Plan(), Plan(), rng.choice(["steps", "half", "count"])
    if chosen[-1].closes:
        ending = rng.choice(["half", "close"])
    effective = chosen
    documents = [len(it.document or b"") for it in chosen if it.name == "put"]
    documents += [len(text) for text, _ in collection.records.values()]
    replied = len(chosen) * (250 + sum(documents))
    if splits or rng.random() < 0.3:
        up.most = max(rng.choice([1, 2, 3, 7, 50]), size // 400)
        down.most = max(rng.choice([1, 2, 3, 7, 50]), replied // 1_000)
    if kind == "delayed pieces":
        up.most, down.most = max(up.most, size // 40), max(down.most, replied // 200)
        up.pause, down.pause = rng.uniform(0.001, 0.04), rng.uniform(0.001, 0.02)
    elif kind == "repeated requests":
        first = rng.randrange(len(texts))
        behind = rng.randint(first + 1, len(texts))
        up.repeat = sum(map(len, texts[:first])), sum(map(len, texts[:behind]))
        effective = chosen[:behind] + chosen[first:behind] + chosen[behind:]
        ending = rng.choice(["half", "count"])
    elif kind.startswith("cut, requests"):
        up.cut, up.reset = rng.randint(0, size - 1), "reset" in kind
        ending = "half" if ending == "count" else ending
    elif kind.startswith("cut, replies"):
        down.cut, down.reset = rng.randint(0, 180 * rng.randint(1, len(texts))), "reset" in kind
    elif kind == "held back":
        up.stall = rng.randint(0, size - 1), rng.uniform(0.2, 2)
        down.stall = rng.randint(0, 150 * len(texts)), rng.uniform(0.2, 2)
    last = next((at for at, it in enumerate(effective) if it.closes), len(effective))
    return chosen, up, down, ending, effective[: last + 1]


def judge(run, kind, collection, effective, replies, connection):
    """That the replies are right for the requests which the server got, and all there where nothing was cut off."""
    wants(connection.over.wait(PATIENCE), f"the server did not end within {PATIENCE} seconds")
    wants(connection.wrong is None, connection.wrong)
    passed, came = len(connection.up.passed), bytes(connection.down.came)
    wants(came.startswith(bytes(replies.came)), "the proxy is wrong: it passed something else")
    whole = Replies([it.is_head for it in effective])
    whole.take(came)
    fully = 0
    while fully < len(effective) and (passed := passed - len(effective[fully].text)) >= 0:
        fully += 1
    # on a busy machine a slow request may come too late; it is not done, and nothing behind it
    late = connection.took >= HEAD_TIME and whole.all and whole.all[-1].status == 408
    if late:
        whole.all.pop()
    begun = fully < len(effective) and effective[fully].closes
    wants(len(whole.all) <= fully + begun, f"{len(whole.all)} replies to {fully} requests")
    for ask, reply in zip(effective, whole.all):
        ask.judge(reply, collection)
    there = len(whole.all)
    if late:
        fully = there
    if connection.end == "ended":
        wants(there >= fully, f"the server ended after {there} replies to {fully} requests")
        rest = whole.rest.removeprefix(CONTINUE)
        wants(not rest, f"a reply was cut off by the server: {rest[:80]!r}")
    else:
        # what was sent behind a last reply may be answered by a reset
        wants(connection.end == "cut" or connection.up.lost, "the server reset the connection")
        run.resets += connection.end == "reset"
        unsure, records = effective[there:fully], collection.records
        for ask in unsure:
            records = ask.apply(records)
            collection.others.append(records)
        if unsure:
            collection.ready = time.monotonic() + REST
    run.count(kind, whole.statuses, connection.end == "cut" or connection.up.cut)
    if not collection.others:
        run.read_back(collection)


# Sessions whose requests are not known, or not there.


def ends(run, kind, client, within, known=None, may_reset=False):
    """That the server ends this connection within so many seconds, and its replies, each whole and of a known form."""
    replies, began = Seen(), time.monotonic()
    client.settimeout(1)
    try:
        while True:
            wants(time.monotonic() - began < within, f"no end within {within} seconds")
            try:
                more = client.recv(65536)
            except TimeoutError:
                continue
            if not more:
                break
            replies.take(more)
    except ConnectionResetError:
        wants(may_reset, "the server reset the connection")
    took = time.monotonic() - began
    rest = replies.rest.removeprefix(CONTINUE)
    wants(may_reset or not rest, f"a reply was cut off by the server: {rest[:80]!r}")
    wants(known is None or replies.statuses == known, f"the replies {replies.statuses}, and {known} were to come")
    run.count(kind, replies.statuses, bool(rest))
    return took


def silent(run, kind, rng):
    with run.straight() as client:
        took = ends(run, kind, client, IDLE + 10, [])
    wants(took > IDLE - 1, f"a silent client was ended after {took:.1f} seconds")


def silent_between(run, kind, rng):
    with run.straight() as client:
        client.sendall(GET)
        took = ends(run, kind, client, IDLE + 10, [200])
    wants(took > IDLE - 1, f"a client was ended after {took:.1f} seconds")


def silent_half(run, kind, rng):
    with run.straight() as client:
        client.shutdown(socket.SHUT_WR)
        took = ends(run, kind, client, 10, [])
    wants(took < IDLE - 2, f"a client that ended its side was ended after {took:.1f} seconds")


def unfinished(run, kind, rng):
    """A request that is begun, behind some that are whole, and neither goes on nor ends."""
    before = rng.randint(0, 3)
    text = rng.choice([GET[:-2], asks.request("PUT /v1/d/wild/p1", ["Content-Length: 9"], b'{"a":')])
    with run.straight() as client:
        client.sendall(GET * before + text[: rng.randint(1, len(text) - 1)])
        took = ends(run, kind, client, HEAD_TIME + 10, [200] * before + [408])
    wants(took > HEAD_TIME - 1, f"it was answered after {took:.1f} seconds")


def dripping(run, kind, rng):
    """A request that comes byte by byte, and would take longer than it may."""
    with run.straight() as client:
        text = asks.request("GET /v1/stats", ["A: " + "a" * 500])
        came, took = lasts.drips(client, text, 0.5, HEAD_TIME + 10)
    replies = Seen()
    replies.take(came)
    wants(replies.statuses == [408] and took is not None, f"{came[:80]!r} came, and 408 was to come")
    run.count(kind, replies.statuses)


def resets(run, kind, rng):
    """A connection that is opened, perhaps used, and reset."""
    client = run.straight()
    client.sendall(rng.choice([b"", GET, GET[:-1], GET * 20]))
    time.sleep(rng.choice([0, 0, 0.01, 0.5]))
    proxy.reset(client)


def reads_nothing(run, kind, rng):
    """A client that asks for much and reads nothing."""
    with run.straight(receive_buffer=4096) as client:
        client.setblocking(False)
        page = b"GET /v1/filter HTTP/1.1\r\nHost: a\r\n\r\n"
        try:
            client.send(page * 600)
        except OSError:
            pass
        time.sleep(rng.uniform(1, 2 * REPLY_TIME))
        ends(run, kind, client, 2 * PATIENCE, may_reset=True)


def changed(run, kind, rng):
    """Requests of which bytes are changed, left out, repeated or put in."""
    collection = asks.Collection("wild", run.register)
    # whether a reply has a body has to be known
    chosen = [it for it in compose(rng, collection, True, True) if not it.is_head] or [asks.query(rng, collection)]
    text = bytearray(b"".join(it.text for it in chosen))
    for _ in range(rng.randint(1, 8)):
        at = rng.randrange(len(text) + 1)
        behind = min(len(text), at + rng.choice([1, 1, 2, 10, 100]))
        noise = rng.choice([rng.randbytes(behind - at), b"\r\n", b"\n", b"\r", b"0", b" ", b"\r\n\r\n"])
        text[at : rng.choice([at, behind])] = rng.choice([noise, b"", text[at:behind] * 2])
    throws(run, kind, rng, bytes(text))


def noise(run, kind, rng):
    """Bytes that are no request, perhaps behind one."""
    text = rng.randbytes(rng.randint(1, 2_000))
    if rng.random() < 0.5:
        text = "".join(rng.choices("GETPU /v1d:\r\n\n %a0\"{}", k=rng.randint(1, 3_000))).encode()
    throws(run, kind, rng, GET * rng.randint(0, 2) + text)


def throws(run, kind, rng, text):
    most = max(rng.choice([1, 5, 100, 100_000]), len(text) // 300)
    client, connection = run.proxy.client(Plan(most=most), Plan())
    with client:
        try:
            client.sendall(text)
        except OSError:
            pass
        if rng.random() < 0.7:
            ends_side(client)
        ends(run, kind, client, IDLE + HEAD_TIME + 30)
    wants(connection.over.wait(PATIENCE) and connection.wrong is None, connection.wrong or "the proxy did not end")


def crowd(run, kind, rng):
    """Many connections at once, some of which are used."""
    many = [run.straight() for _ in range(150)]
    asking = rng.sample(many, 20)
    for client in asking:
        client.sendall(GET)
    for client in asking:
        replies = Seen()
        replies.take(lasts.reply(client))
        wants(replies.statuses == [200], "one of many clients was not answered")
        run.count(kind, replies.statuses)
    for client in many:
        proxy.reset(client) if rng.random() < 0.5 else client.close()


def pipeline(run, kind, rng):
    """Many requests in one piece; behind the ten thousandth the server ends the connection."""
    count = 10_050 if rng.random() < 0.1 else rng.randint(100, 1_500)
    replies = Seen([True] * count)
    with run.straight() as client:
        exchange(client, [asks.request("HEAD /v1/d/wild/p1") * count], "half", replies, count)
    wants(len(replies.statuses) == min(count, 10_000), f"{len(replies.statuses)} replies to {count} requests")
    wants(not replies.rest and {*replies.statuses} <= {200, 404}, "a reply is not right")
    wants(replies.all[-1].closes == (count > 10_000), "Connection: close is there or not, as it should not be")
    run.count(kind, replies.statuses)


# Each kind of session: its part of all, and what it does.
KINDS = {
    "passed on as it is": (4, talk), "split into pieces": (6, talk), "delayed pieces": (5, talk),
    "held back": (4, talk), "repeated requests": (6, talk), "cut, requests, by an end": (6, talk),
    "cut, requests, by a reset": (6, talk), "cut, replies, by an end": (6, talk),
    "cut, replies, by a reset": (6, talk), "changed bytes": (8, changed), "noise": (5, noise),
    "a request that stops": (2, unfinished), "a request byte by byte": (1, dripping), "silent": (1, silent),
    "silent behind a reply": (1, silent_between), "silent, and ends its side": (2, silent_half),
    "reset by the client": (4, resets), "reads nothing": (0.3, reads_nothing), "150 at once": (0.2, crowd),
    "a pipeline": (0.3, pipeline),
}  # fmt: skip
