"""A proxy that meddles with what it passes on: for tools/hostile.py. Each connection has a plan for each direction, by
which its bytes are split into pieces, delayed, held back, repeated, or cut off by the end of the stream or by a reset."""
import dataclasses
import select
import socket
import struct
import threading
import time

# It reads no further where so many bytes wait to be passed on.
MOST_WAITING = 262_144


@dataclasses.dataclass
class Plan:
    """What happens to one direction. Offsets count the bytes that were passed on."""

    most: int = 0  # a piece has at most so many bytes; 0 is for any number
    pause: float = 0.0  # so many seconds pass between two pieces
    cut: int | None = None  # behind so many bytes it is cut off
    reset: bool = False  # by a reset of the connection, and else by an end of the stream
    stall: tuple[int, float] | None = None  # behind so many bytes it stands still for so many seconds
    repeat: tuple[int, int] | None = None  # behind the second offset, what is between them is passed once more
    buffer: int | None = None  # the size of the system's buffer for what comes


def reset(sock):
    sock.setsockopt(socket.SOL_SOCKET, socket.SO_LINGER, struct.pack("ii", 1, 0))
    sock.close()


class Direction:
    """One direction of a connection."""

    def __init__(self, source, sink, plan):
        self.source, self.sink, self.plan = source, sink, plan
        self.waiting, self.came, self.passed = bytearray(), bytearray(), bytearray()
        self.due, self.repeated, self.stalled, self.cut = 0.0, False, False, False
        self.ended, self.reset, self.is_ended, self.lost = False, False, False, False

    def reads(self, now):
        return not self.ended and len(self.waiting) < MOST_WAITING and (self.due <= now or not self.stalled)

    def read(self):
        try:
            more = self.source.recv(65536)
        except BlockingIOError:
            return
        except OSError:
            more, self.reset = b"", True
        if not more:
            self.ended = True
        self.came += more
        if not (self.cut or self.lost):
            self.waiting += more

    def stop(self):
        """How many bytes may be passed before something else happens."""
        stops = [self.plan.cut, self.plan.stall and not self.stalled and self.plan.stall[0]]
        stops.append(self.plan.repeat and not self.repeated and self.plan.repeat[1])
        left = [it - len(self.passed) for it in stops if it is not None and it is not False and it >= len(self.passed)]
        return min(left, default=MOST_WAITING)

    def pass_on(self, now):
        most = min(self.plan.most or MOST_WAITING, self.stop())
        try:
            count = self.sink.send(self.waiting[:most]) if most else 0
        except BlockingIOError:
            return
        except OSError:
            self.lost = True
            self.waiting.clear()
            return
        self.passed += self.waiting[:count]
        del self.waiting[:count]
        self.due = now + self.plan.pause
        self.turn(now)

    def turn(self, now):
        """Does what is to happen at this offset."""
        here, plan = len(self.passed), self.plan
        if plan.repeat and not self.repeated and here == plan.repeat[1]:
            self.repeated = True
            self.waiting[:0] = self.passed[plan.repeat[0] : plan.repeat[1]]
        if plan.stall and not self.stalled and here == plan.stall[0]:
            self.stalled, self.due = True, now + plan.stall[1]
        if plan.cut == here:
            self.cut = True
            self.waiting.clear()

    def tell_end(self):
        """Ends the sink where the source ended and all was passed on."""
        if (self.ended or self.cut) and not self.waiting and not self.is_ended:
            self.is_ended = True
            try:
                self.sink.shutdown(socket.SHUT_WR)
            except OSError:
                self.lost = True


class Connection:
    """One connection through the proxy, from the client to the server, and what became of it."""

    def __init__(self, up, down):
        self.plans, self.over, self.wrong = (up, down), threading.Event(), None
        # how the server's side ended: by the server, by its reset, or cut off here
        self.end = None

    def serve(self, client, address):
        server = socket.socket()
        try:
            if self.plans[1].buffer:
                server.setsockopt(socket.SOL_SOCKET, socket.SO_RCVBUF, self.plans[1].buffer)
            server.settimeout(20)
            server.connect(address)
            for it in client, server:
                it.setblocking(False)
                it.setsockopt(socket.IPPROTO_TCP, socket.TCP_NODELAY, 1)
            self.up, self.down = Direction(client, server, self.plans[0]), Direction(server, client, self.plans[1])
            self.began = time.monotonic()
            self.relay(client, server)
        except Exception as error:
            self.wrong = f"the proxy failed: {type(error).__name__}: {error}"
        finally:
            self.took = time.monotonic() - getattr(self, "began", time.monotonic())
            client.close()
            server.close()
            self.over.set()

    def relay(self, client, server):
        directions = self.up, self.down
        for direction in directions:
            direction.turn(time.monotonic())
        while self.end is None:
            now = time.monotonic()
            wanted = {}
            for direction in directions:
                if direction.reads(now):
                    wanted[direction.source] = wanted.get(direction.source, 0) | select.POLLIN
                if direction.waiting and direction.due <= now:
                    wanted[direction.sink] = wanted.get(direction.sink, 0) | select.POLLOUT
            poll = select.poll()
            for sock, mask in wanted.items():
                poll.register(sock, mask)
            dues = [direction.due - now for direction in directions if direction.due > now]
            ready = dict(poll.poll(1000 * max(0.0, min(dues, default=60)) + 1))
            now = time.monotonic()
            for direction in directions:
                if direction.reads(now) and ready.get(direction.source.fileno(), 0) & ~select.POLLOUT:
                    direction.read()
                if direction.waiting and direction.due <= now and ready.get(direction.sink.fileno(), 0) & ~select.POLLIN:
                    direction.pass_on(now)
            self.cut_off(client, server)
            if self.end is None:
                self.go_on()

    def cut_off(self, client, server):
        for direction in self.up, self.down:
            if direction.cut and direction.plan.reset:
                reset(server)
                reset(client)
                self.end = "cut"
                return
        if self.down.cut:
            self.end = "cut"

    def go_on(self):
        for direction in self.up, self.down:
            direction.tell_end()
        if self.down.reset:
            self.end = "reset"
        elif self.down.is_ended or self.down.ended and self.down.lost:
            self.end = "ended"


class Proxy:
    """The proxy, before the server of a port."""

    def __init__(self, port):
        self.address, self.connections, self.lock = ("127.0.0.1", port), {}, threading.Lock()
        self.opened = 0
        self.door = socket.create_server(("127.0.0.1", 0), backlog=512)
        threading.Thread(target=self.listen, daemon=True).start()

    def listen(self):
        while True:
            client, (_, port) = self.door.accept()
            with self.lock:
                connection = self.connections.pop(port)
                self.opened += 1
            threading.Thread(target=connection.serve, args=(client, self.address), daemon=True).start()

    def client(self, up, down):
        """A connection through the proxy by these plans."""
        sock, connection = socket.socket(), Connection(up, down)
        sock.bind(("127.0.0.1", 0))
        with self.lock:
            self.connections[sock.getsockname()[1]] = connection
        sock.settimeout(20)
        sock.connect(self.door.getsockname())
        return sock, connection
