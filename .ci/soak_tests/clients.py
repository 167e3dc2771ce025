"""Many clients in one process: keep-alive connections, each with its own requests, whose replies are kept with their times."""
import contextlib
import selectors
import socket
import time

from soak_tests.server import Wrong


def end_of_reply(received, start):
    """Returns where the reply ends that begins at `start`, or None if not all of it was received."""
    head = received.find(b"\r\n\r\n", start)
    if head < 0:
        return None
    fields = received[start:head].lower()
    end = head + 4 + int(fields.partition(b"content-length: ")[2].split(b"\r\n")[0])
    return end if end <= len(received) else None


class Line:
    """A connection, on which requests may be sent before the replies to earlier ones are read."""

    def __init__(self, port, small=False, timeout=60):
        self.received = b""
        self.socket = socket.socket()
        if small:
            self.socket.setsockopt(socket.SOL_SOCKET, socket.SO_RCVBUF, 4096)
        self.socket.settimeout(10)
        try:
            self.socket.connect(("127.0.0.1", port))
        except TimeoutError:
            raise Wrong("a client cannot connect within 10 s, since too many others wait") from None
        self.socket.settimeout(timeout)
        self.socket.setsockopt(socket.IPPROTO_TCP, socket.TCP_NODELAY, 1)

    def next_reply(self):
        """Returns the next reply of those received, or None."""
        size = end_of_reply(self.received, 0)
        if size is None:
            return None
        reply, self.received = self.received[:size], self.received[size:]
        return reply

    def receive(self):
        """Receives some bytes. Returns whether there were any."""
        data = self.socket.recv(1 << 16)
        self.received += data
        return bool(data)

    def reply(self):
        """Waits for the next reply."""
        while (found := self.next_reply()) is None:
            if not self.receive():
                raise Wrong(f"the connection is closed after {self.received[:200]}")
        return found

    def ask(self, data):
        """Sends a request. Returns its reply."""
        self.socket.sendall(data)
        return self.reply()

    def all_replies(self):
        """Returns all replies until the connection is closed."""
        pieces = [self.received]
        while data := self.socket.recv(1 << 20):
            pieces.append(data)
        received, found, at = b"".join(pieces), [], 0
        while (end := end_of_reply(received, at)) is not None:
            found.append(received[at:end])
            at = end
        self.received = received[at:]
        if self.received:
            raise Wrong(f"the connection is closed within a reply: {self.received[:200]}")
        return found

    def is_readable(self):
        """Returns whether a byte or the end has arrived."""
        try:
            self.socket.setblocking(False)
            self.socket.recv(1, socket.MSG_PEEK)
            return True
        except BlockingIOError:
            return False
        except OSError:
            return True
        finally:
            self.socket.settimeout(60)

    def close(self):
        self.socket.close()


def open_lines(port, count, **options):
    """Opens connections, and connects again if the backlog is full."""
    lines = []
    while len(lines) < count:
        with contextlib.suppress(ConnectionRefusedError):
            lines.append(Line(port, **options))
    return lines


class Plan:
    """The requests of one client, a list or a generator that is sent each reply; the replies, and the times of both.

    depth     how many requests are sent before the first reply is read
    line      its connection (default: a new one)
    new       a new connection for each request
    """

    def __init__(self, requests, depth=1, line=None, new=False):
        self.source = iter(requests) if isinstance(requests, list) else requests
        self.is_list, self.depth, self.line, self.new = isinstance(requests, list), depth, line, new
        self.requests, self.replies, self.times, self.sent = [], [], [], []
        self.is_done = False

    def following(self):
        """Returns the next request, or None."""
        try:
            if self.is_list or not self.replies:
                return next(self.source)
            return self.source.send(self.replies[-1])
        except StopIteration:
            return None


class Running:
    """Runs plans at the same time, in one loop."""

    def __init__(self, port, plans):
        self.port, self.loop, self.left = port, selectors.DefaultSelector(), len(plans)
        for plan in plans:
            if plan.line is None:
                plan.line = open_lines(port, 1)[0]
        for plan in plans:
            self.watch(plan)
            self.send(plan)

    def watch(self, plan):
        plan.line.socket.setblocking(False)
        plan.unsent = b""
        self.loop.register(plan.line.socket, selectors.EVENT_READ, plan)

    def send(self, plan):
        """Sends the requests that are due."""
        while len(plan.requests) - len(plan.replies) < plan.depth:
            data = plan.following()
            if data is None:
                break
            if plan.new and plan.requests:
                self.loop.unregister(plan.line.socket)
                plan.line.close()
                plan.line = open_lines(self.port, 1)[0]
                self.watch(plan)
            plan.requests.append(data)
            plan.sent.append(time.monotonic())
            plan.unsent += data
        if len(plan.requests) == len(plan.replies):
            self.end(plan)
            return
        with contextlib.suppress(BlockingIOError):
            plan.unsent = plan.unsent[plan.line.socket.send(plan.unsent):] if plan.unsent else b""
        wanted = selectors.EVENT_READ | (selectors.EVENT_WRITE if plan.unsent else 0)
        self.loop.modify(plan.line.socket, wanted, plan)

    def end(self, plan):
        self.loop.unregister(plan.line.socket)
        plan.line.socket.settimeout(60)
        plan.is_done = True
        self.left -= 1

    def receive(self, plan):
        """Receives replies."""
        with contextlib.suppress(BlockingIOError):
            if not plan.line.receive():
                raise Wrong(f"a connection is closed after {len(plan.replies)} of its replies")
        while (reply := plan.line.next_reply()) is not None:
            if len(plan.replies) == len(plan.requests):
                raise Wrong(f"a reply too many: {reply[-200:]}")
            plan.times.append((plan.sent[len(plan.replies)], time.monotonic()))
            plan.replies.append(reply)
            if plan.is_list is False:
                break


def run_plans(port, plans, stop=None, then=None, timeout=40):
    """Runs plans at the same time until all are done. With `stop`, calls `then` at that time, and returns when all connections ended."""
    running, end = Running(port, plans), time.monotonic() + timeout
    while running.left:
        if stop and time.monotonic() > stop:
            then()
            stop, then = None, None
            end = 0
        elif end and time.monotonic() > end:
            late = [it for it in plans if not it.is_done]
            raise Wrong(f"after {timeout} s, {len(late)} of {len(plans)} clients wait, such as one with {len(late[0].replies)} replies")
        for key, _ in running.loop.select(0.05):
            plan = key.data
            try:
                running.receive(plan)
                running.send(plan)
            except (Wrong, OSError):
                if end:
                    raise
                running.end(plan)


def latencies(port, data, count, timeout):
    """Returns the sorted times of requests, one after another on one connection."""
    line, times = Line(port, timeout=timeout or 60), []
    for _ in range(count):
        began = time.monotonic()
        try:
            line.ask(data)
        except TimeoutError:
            raise Wrong(f"no reply within {timeout} s") from None
        times.append(time.monotonic() - began)
    line.close()
    return sorted(times)


def quantile(times, part):
    """Returns a quantile of sorted times, as text."""
    return f"{times[min(len(times) - 1, int(len(times) * part))] * 1e6:.0f} us"
