"""Fuzzing: malformed and unusual requests on many connections, one after another. Within a second each is answered or its connection
closed, and memory stays flat."""
import json
import os
import random
import socket
import struct
import time
from collections import Counter

from soak_tests import malformed, server
from soak_tests.server import Wrong

# The timeout for a reply or the end of the connection, in seconds, not counting the time that both sides wait for a processor.
TIMEOUT = 1.0
# The memory that may be added after the warm-up, in kB; the largest number of requests of the warm-up; the number of large bodies at its
# start.
BOUND, WARM, LARGE = 512, 25000, 45
# The mean number of requests per connection.
EACH = 10
RESET = struct.pack("ii", 1, 0)


class Line:
    """A connection on which replies are read one after another."""

    def __init__(self, port, service):
        self.service, self.read, self.longest = service, b"", 0.0
        self.waits = self.waited()
        self.it = socket.create_connection(("127.0.0.1", port), timeout=TIMEOUT)
        self.it.setsockopt(socket.IPPROTO_TCP, socket.TCP_NODELAY, 1)

    def waited(self):
        return server.waited(self.service.pid) + server.waited(os.getpid())

    def more(self):
        """Returns the next bytes, or none at the end of the connection."""
        began = time.monotonic()
        while True:
            try:
                data = self.it.recv(1 << 16)
                elapsed = time.monotonic() - began
                if elapsed > self.longest:
                    self.longest = max(self.longest, elapsed - (self.waited() - self.waits))
                return data
            except TimeoutError:
                elapsed = time.monotonic() - began
                if elapsed - (self.waited() - self.waits) > TIMEOUT or elapsed > 60:
                    raise Wrong(f"neither a reply nor the end of the connection within {TIMEOUT} s") from None

    def send(self, data, dice):
        """Sends bytes in one call, or in chunks of various sizes."""
        if len(data) > 5000 or dice.random() < 0.7:
            return self.it.sendall(data)
        at = 0
        while at < len(data):
            size = dice.choice((1, 2, 3, 7, 64, 500, 1460))
            self.it.sendall(data[at:at + size])
            at += size
        return None

    def reply(self, is_head):
        """Returns the next reply, in short form, and whether it has Connection: close; None at the end of the connection."""
        while b"\r\n\r\n" not in self.read:
            data = self.more()
            if not data:
                if self.read:
                    raise Wrong(f"a truncated reply: {self.read[:200]}")
                return None, True
            self.read += data
        top, _, rest = self.read.partition(b"\r\n\r\n")
        line, *fields = top.decode("ascii").split("\r\n")
        fields = dict(it.split(": ") for it in fields)
        size = 0 if is_head else int(fields["Content-Length"])
        while len(rest) < size:
            data = self.more()
            if not data:
                raise Wrong(f"a truncated body: {top}")
            rest += data
        self.read = rest[size:]
        return short(line, rest[:size], is_head), fields.get("Connection") == "close"


def short(line, text, is_head):
    """Returns the short form of a reply: `200`, or the status with the number in the body."""
    status = line.removeprefix("HTTP/1.1 ")[:3]
    if status == "200":
        return status
    if is_head:
        return "400 fault 137" if status == "400" else status
    (key, number), = json.loads(text).items()
    return f"{status} {key} {number}"


def check(request, reply, has_end):
    """Checks that a reply is one of those that a request may get."""
    if reply is None:
        if not request.ends:
            raise Wrong(f"no reply to {request.data[:300]}")
    elif request.replies is not malformed.ANY and reply not in request.replies:
        raise Wrong(f"{reply}, not {' or '.join(request.replies)}, to {request.data[:300]}")
    elif reply.startswith("503"):
        raise Wrong(f"{reply} to {request.data[:300]}")
    elif has_end and not request.ends or request.ends and not request.is_cut and not has_end:
        raise Wrong(f"the connection is {'closed' if has_end else 'kept open'} after {request.data[:300]}")


def read_replies(line, requests, counts):
    for request in requests:
        reply, has_end = line.reply(request.is_head)
        check(request, reply, has_end)
        counts[reply or "an end"] += 1
        if has_end and reply is not None and request.ends:
            break


def read_rest(line, last):
    """Reads until the connection is closed. Only a truncated request may get more than one reply, if it was read as several requests."""
    while True:
        reply, _ = line.reply(False)
        if reply is None:
            return
        if not last.is_cut:
            raise Wrong(f"{reply} after the last reply, which was to {last.data[:300]}")


def shut_down(line):
    """Closes the sending side. If the connection was dropped before, the error is reported as a reset."""
    try:
        line.it.shutdown(socket.SHUT_WR)
    except OSError as error:
        raise ConnectionResetError from error


def converse(line, requests, dice, counts):
    """Sends requests on a connection, one at a time or pipelined, and reads the replies."""
    if dice.random() < 0.15:
        for request in requests:
            line.send(request.data, dice)
            if request.is_cut:
                shut_down(line)
            read_replies(line, [request], counts)
    else:
        line.send(b"".join(it.data for it in requests), dice)
        if requests[-1].is_cut or dice.random() < 0.2:
            shut_down(line)
        read_replies(line, requests, counts)
    if requests[-1].ends:
        read_rest(line, requests[-1])


def connect(port, service, requests, dice, counts):
    """Opens a connection and sends requests. Only after a request that ends it may the connection be reset, since the server does not read
    the rest."""
    line = Line(port, service)
    before = sum(counts.values())
    try:
        if dice.random() < 0.02:
            line.send(b"".join(it.data for it in requests), dice)
            line.it.setsockopt(socket.SOL_SOCKET, socket.SO_LINGER, RESET)
            counts["not read by the client"] += len(requests)
        else:
            converse(line, requests, dice, counts)
    except (ConnectionResetError, BrokenPipeError):
        if service.poll() is not None or not requests[-1].ends:
            raise Wrong(f"the connection is dropped: {[it.data[:100] for it in requests]}") from None
        counts["an end"] += len(requests) - (sum(counts.values()) - before)
    except TimeoutError:
        raise Wrong("the server reads nothing for a second") from None
    finally:
        line.it.close()
    return line.longest


def only_reads(dice, count):
    return [malformed.reads(dice) for _ in range(count)]


def send_all(service, port, requests, connections, dice):
    """Sends a number of requests on a number of connections. Returns the counts of the replies, the longest wait, and the memory after the
    warm-up, the maximum and the last value."""
    counts, longest, warm, most, looked = Counter(), 0.0, 0, 0, 0
    left, apart, warming = requests, max(1, min(2000, requests // 100)), min(WARM, requests // 4)
    for rest in range(connections, 0, -1):
        if requests - left < min(LARGE, requests // 20):
            drawn = [malformed.huge_of(requests - left)]
        elif rest > 1:
            drawn = malformed.draw(dice, min(dice.randrange(1, max(2, 2 * left // rest)), max(1, left - rest + 1)))
        else:
            drawn = only_reads(dice, left)
        # After the last connection the server exits, so its memory is read before that.
        if rest == 1 or requests - left >= looked:
            looked += apart
            now = server.resident(service.pid)
            if requests - left <= warming:
                warm = now
            most = max(most, now)
        longest = max(longest, connect(port, service, drawn, dice, counts))
        left -= len(drawn)
        if service.poll() is not None and rest > 1:
            raise Wrong(f"the server exits with {service.returncode}")
    return counts, longest, (warm, most, now)


def check_memory(memory):
    warm, most, _ = memory
    if most > warm + BOUND:
        raise Wrong(f"memory grows from {warm} kB to {most} kB")


def run(requests, seed):
    """Sends a number of requests to a new server."""
    # The text that seeds the random numbers never changes, so that a recorded run can be repeated.
    dice = random.Random(f"storm {seed}")
    connections = max(1, requests // EACH)
    with server.folder() as folder:
        file = os.path.join(folder, "fuzz.land")
        server.make(file)
        service, port = server.serve(file, connections)
        began = time.monotonic()
        try:
            counts, longest, memory = send_all(service, port, requests, connections, dice)
            server.check_exit(service, 0)
        finally:
            service.kill()
        state = server.check(file)
    replies = ", ".join(f"{key}: {counts[key]}" for key in sorted(counts))
    print(f"fuzz: {requests} requests on {connections} connections in {time.monotonic() - began:.0f} s, seed {seed}; longest wait without "
          f"that for a processor {longest:.3f} s; VmRSS {memory[0]} kB after the warm-up, {memory[1]} kB at most, {memory[2]} kB at the end; "
          f"{state}; {replies}", flush=True)
    check_memory(memory)
