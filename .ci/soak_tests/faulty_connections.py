"""Faults for the self-test of .ci/e2e-connections: a proxy in front of the program, which changes one behaviour.

    faulty_connections.py FAULT PROGRAM serve --file F --port P --connections N --at-once M

swaps             sends one reply of twenty to another client that waits for one
stale             sends an earlier list of parties
invents           replies to enrolments without forwarding them, after the first fifty
one-at-a-time     does not pass `--at-once` on (without a proxy)
spins             uses the CPU while it waits
buffers           reads from clients and from the program without a limit, also for clients that do not read
exits-at-reset    exits if a connection is reset, or if it cannot accept one
closes-early      closes a connection if its client has sent its last byte, or a reply has `Connection: close`
leaks             allocates 1 kB per connection and never frees it
refuses           closes each connection beyond the fourth
unlimited         passes ten times as many places on
exits-early       exits as soon as the last connection was accepted
exits-with-0      exits with 0 if the program exits
hides-503         replies to an enrolment as if it was executed, if the program replies with 503
exits-at-503      exits if the program replies with 503
"""
import os
import resource
import selectors
import signal
import socket
import struct
import subprocess
import sys
import time

RESET = struct.pack("ii", 1, 0)


class Pair:
    """A connection of a client, and its connection to the program."""

    def __init__(self, near, far):
        self.near, self.far = near, far
        self.to_near, self.to_far = b"", b""
        self.has_end = self.asks_list = self.enrols = False


class Proxy:
    def __init__(self, fault, call):
        self.fault, self.pairs, self.lists, self.replies, self.leaked = fault, {}, b"", 0, []
        self.accepted, self.invented = 0, 0
        self.connections = int(call[call.index("--connections") + 1])
        at_port = call.index("--port") + 1
        self.port = int(call[at_port])
        with socket.socket() as it:
            it.bind(("127.0.0.1", 0))
            self.behind = it.getsockname()[1]
        call[at_port] = str(self.behind)
        call[call.index("--connections") + 1] = "1000000"
        if fault in ("unlimited", "refuses"):
            call[call.index("--at-once") + 1] = "100"
        self.program = subprocess.Popen(call, preexec_fn=die_with_parent)
        # The limits of the test are for the program, not for the log of this proxy.
        hard = resource.getrlimit(resource.RLIMIT_NOFILE)[1]
        if fault != "exits-at-reset":
            resource.setrlimit(resource.RLIMIT_NOFILE, (hard, hard))
        self.loop = selectors.DefaultSelector()
        while True:
            try:
                socket.create_connection(("127.0.0.1", self.behind)).close()
                break
            except ConnectionRefusedError:
                if self.program.poll() is not None:
                    sys.exit(self.program.returncode)
                time.sleep(0.005)
        self.listener = socket.socket()
        self.listener.setsockopt(socket.SOL_SOCKET, socket.SO_REUSEADDR, 1)
        self.listener.bind(("127.0.0.1", self.port))
        self.listener.listen(1024)
        self.listener.setblocking(False)
        self.loop.register(self.listener, selectors.EVENT_READ)

    def serve(self):
        while True:
            if self.program.poll() is not None:
                return 0 if self.fault == "exits-with-0" else self.program.returncode
            for key, mask in self.loop.select(0 if self.fault == "spins" else 0.05):
                if key.fileobj is self.listener:
                    self.accept()
                elif key.data in self.pairs:
                    self.move(key.data, key.fileobj, mask)
            if self.accepted >= self.connections and (self.fault == "exits-early" or not self.pairs):
                return 0

    def accept(self):
        try:
            near, _ = self.listener.accept()
            far = socket.create_connection(("127.0.0.1", self.behind))
        except OSError:
            if self.fault == "exits-at-reset":
                os._exit(3)
            return
        self.accepted += 1
        if self.fault == "refuses" and len(self.pairs) >= 4:
            near.close()
            far.close()
            return
        if self.fault == "leaks":
            self.leaked.append(os.urandom(1000))
        pair = Pair(near, far)
        self.pairs[pair] = True
        for it in (near, far):
            it.setsockopt(socket.IPPROTO_TCP, socket.TCP_NODELAY, 1)
            it.setblocking(False)
            self.loop.register(it, selectors.EVENT_READ, pair)

    def move(self, pair, ready, mask):
        try:
            if mask & selectors.EVENT_READ:
                self.read(pair, ready)
            if pair in self.pairs:
                self.write(pair)
        except BlockingIOError:
            pass
        except OSError:
            if self.fault == "exits-at-reset":
                os._exit(3)
            self.drop(pair)

    def read(self, pair, ready):
        data = ready.recv(1 << 16)
        if ready is pair.near:
            pair.asks_list, pair.enrols = b"GET /parties " in data, data.startswith(b"POST /acts/enrol ")
            if data and self.invents(pair):
                return
            pair.to_far += data
            if not data:
                pair.has_end = True
                self.loop.unregister(pair.near)
                if self.fault == "closes-early":
                    self.drop(pair)
                elif not pair.to_far:
                    pair.far.shutdown(socket.SHUT_WR)
        elif data:
            self.reply(pair, data)
        else:
            self.drop(pair)

    def invents(self, pair):
        if self.fault != "invents" or not pair.enrols:
            return False
        self.invented += 1
        if self.invented < 50:
            return False
        pair.to_near += receipt(self.invented)
        return True

    def reply(self, pair, data):
        self.replies += 1
        if data.startswith(b"HTTP/1.1 503 "):
            if self.fault == "exits-at-503":
                os._exit(3)
            if self.fault == "hides-503" and pair.enrols:
                data = receipt(1000)
        if self.fault == "stale" and pair.asks_list:
            if self.replies % 3 or not self.lists:
                self.lists = data
            else:
                data = self.lists
        if self.fault == "swaps" and self.replies % 20 == 0:
            others = [it for it in self.pairs if it is not pair and not it.to_near]
            if others:
                others[0].to_near += data
                return
        pair.to_near += data
        if self.fault == "closes-early" and b"Connection: close\r\n" in data:
            pair.near.send(pair.to_near)
            pair.near.setsockopt(socket.SOL_SOCKET, socket.SO_LINGER, RESET)
            self.drop(pair)

    def write(self, pair):
        if pair.to_near:
            pair.to_near = pair.to_near[self.send(pair.near, pair.to_near):]
        if pair.to_far:
            pair.to_far = pair.to_far[self.send(pair.far, pair.to_far):]
            if pair.has_end and not pair.to_far:
                pair.far.shutdown(socket.SHUT_WR)
        # Without a limit it reads on although the other side does not take the bytes.
        for it, waiting, other in ((pair.near, pair.to_near, pair.to_far), (pair.far, pair.to_far, pair.to_near)):
            wanted = selectors.EVENT_READ if self.fault == "buffers" or not other else 0
            wanted |= selectors.EVENT_WRITE if waiting else 0
            if it is pair.near and pair.has_end:
                continue
            if it in self.loop.get_map():
                self.loop.unregister(it)
            self.loop.register(it, wanted or selectors.EVENT_WRITE, pair)

    @staticmethod
    def send(it, data):
        try:
            return it.send(data)
        except BlockingIOError:
            return 0

    def drop(self, pair):
        if self.pairs.pop(pair, None):
            for it in (pair.near, pair.far):
                if it in self.loop.get_map():
                    self.loop.unregister(it)
                it.close()


def receipt(number):
    """Returns a reply to an enrolment that was executed."""
    body = b'{"made":[%d],"number":%d,"stamp":%d}' % (number, number, number)
    return b"HTTP/1.1 200 OK\r\nContent-Type: application/json\r\nContent-Length: %d\r\n\r\n" % len(body) + body


def die_with_parent():
    """Ties the program to this process."""
    import ctypes
    ctypes.CDLL(None).prctl(1, signal.SIGKILL)


def main():
    fault, *call = sys.argv[1:]
    if fault == "one-at-a-time":
        place = call.index("--at-once") if "--at-once" in call else None
        call = call[:place] + call[place + 2:] if place else call
        os.execv(call[0], call)
    sys.exit(Proxy(fault, call).serve())


main()
