"""Memory that is refused to a server over TCP, which tools/faults.py tries in turn."""
import os
import re
import socket
import subprocess
import tempfile

from asks import Wrong, request, wants
from replies import Broken, Replies

OPTIONS = ["--connections", "2", "--places", "4", "--workers", "2", "--bits", "12", "--ttl-low", "5", "--active", "12", "--idle", "20"]
# What a matcher has a part in: the body depends on when it came to the commits.
MATCHED = {"match", "page", "purges", "numbers"}
# What is never answered 503.
NEVER = {"page", "numbers", "no route"}
# The second connection, which is opened when the first is served.
SECOND = [request("GET /v1/stats"), request("GET /v1/d/shop/p4")]


def asked(port, texts):
    """What a connection is answered that sends these requests and ends its side."""
    came = b""
    with socket.create_connection(("127.0.0.1", port), timeout=30) as client:
        try:
            client.sendall(b"".join(texts))
            client.shutdown(socket.SHUT_WR)
            while more := client.recv(65536):
                came += more
        except TimeoutError:
            raise
        except OSError:
            # a connection for which there is no memory is dropped
            pass
    replies = Replies([text.startswith(b"HEAD") for text in texts])
    replies.take(came)
    wants(not replies.rest, f"a reply is cut off: {replies.rest[:80]!r}")
    return replies.all


class Served:
    """The runs of a server over a script."""

    def __init__(self, program, width, library, script):
        self.program, self.width, self.library, self.script = program, width, library, script
        self.plain = {}

    def run(self, asks, number=0):
        """The status, the last line, how often memory was refused, and the replies of both connections."""
        with tempfile.TemporaryFile() as told:
            refuse = {"REFUSE_FROM": number, "REFUSE_TO": number and number + self.width - 1, "REFUSE_TELL": told.fileno()}
            outside = {"LD_PRELOAD": self.library} | {name: str(it) for name, it in refuse.items()}
            words = [self.program, "serve", "127.0.0.1:0", *OPTIONS]
            how = {"stdin": subprocess.DEVNULL, "stdout": subprocess.PIPE, "stderr": subprocess.DEVNULL, "text": True}
            with subprocess.Popen(words, env=outside, pass_fds=[told.fileno()], **how) as server:
                replies, said = [[], []], ""
                try:
                    line = server.stdout.readline()
                    port = re.fullmatch(r"listening on 127.0.0.1:(\d+)\n", line)
                    if port:
                        replies = self.both(int(port[1]), [text for _, text in asks])
                    if port or not line:
                        said = server.communicate(timeout=30)[0]
                finally:
                    server.kill()
            return server.returncode, line + said, os.fstat(told.fileno()).st_size, replies

    def both(self, port, texts):
        """What two connections are answered, and where one was dropped a third one, which ends the server."""
        replies = [[], []]
        try:
            replies[0] = asked(port, texts)
            replies[1] = asked(port, SECOND)
            if not replies[0] or not replies[1]:
                asked(port, SECOND)
        except (ConnectionRefusedError, ConnectionResetError):
            # the server has ended, as its status says
            pass
        return replies

    def first(self):
        return 1

    def plainly(self, asks):
        """The statuses and bodies of these requests, where no memory is refused."""
        key = b"".join(text for _, text in asks)
        if key not in self.plain:
            status, _, _, (replies, second) = self.run(asks)
            wants(status == 0 and len(second) == len(SECOND), f"a run to which nothing is refused has status {status}")
            self.plain[key] = [(it.status, it.body) for it in replies]
        return self.plain[key]

    def judge(self, number):
        """How often memory was refused, the kinds of the requests that were answered 503, and what is wrong."""
        kinds = []
        try:
            status, said, refused, (replies, second) = self.run(self.script, number)
            if status in (5, 8) and not said:
                return refused, [f"none, but the status {status}"], None
            if status == 5:
                return refused, [f"none, but the status 5 behind {len(replies)} replies"], None
            wants(status == 0 and said.endswith("served 2\n"), f"the status is {status}, and it said {said!r}")
            if not replies or not second:
                return refused, ["none, but a connection that was dropped"], None
            found = [it.status for it in second]
            wants(found in ([200, 200], [200, 503]), f"the second connection was answered {found}")
            wants(len(replies) == len(self.script), f"{len(replies)} replies to {len(self.script)} requests")
            pairs = [*zip(self.script, replies)]
            kinds = [ask[0] for ask, reply in pairs if reply.status == 503]
            wants(not NEVER & {*kinds}, f"503 to {kinds}")
            others = [(ask, reply) for ask, reply in pairs if reply.status != 503]
            for (ask, reply), wanted in zip(others, self.plainly([ask for ask, _ in others])):
                same = reply.status == wanted[0] and (ask[0] in MATCHED or reply.body == wanted[1])
                wants(same, f"{ask[0]} was answered {reply}, and is {wanted} without {kinds}")
        except (Wrong, Broken, OSError, subprocess.TimeoutExpired) as why:
            return refused if "refused" in locals() else 1, kinds, f"{type(why).__name__}: {why}"
        return refused, kinds, None
