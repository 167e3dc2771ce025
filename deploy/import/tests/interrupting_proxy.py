"""A TCP proxy between the importer and the register that interrupts at a given byte: it kills the importer, kills the register, or drops
the connection. So the interruption can be within a request, within a reply, or between the two."""
import os
import select
import signal
import socket
import subprocess
import threading
import time


class Register:
    """A served register that can be killed and started again."""

    def __init__(self, program, file, port):
        self.program, self.file, self.port, self.process = program, file, port, None

    def start(self):
        self.process = subprocess.Popen([self.program, "serve", "--file", self.file, "--port", str(self.port), "--connections", "100000"],
                                        stderr=subprocess.DEVNULL)
        for _ in range(2000):
            try:
                socket.create_connection(("127.0.0.1", self.port), timeout=5).close()
                return
            except OSError:
                time.sleep(0.005)
        raise RuntimeError("the register does not listen")

    def kill(self):
        self.process.send_signal(signal.SIGKILL)
        self.process.wait()


class InterruptingProxy:
    """Forwards connections to the register. Interrupts once, after `limit` bytes in a direction (`side` 0: to the register, 1: from it)."""

    def __init__(self, register):
        self.register = register
        self.listener = socket.create_server(("127.0.0.1", 0))
        self.port = self.listener.getsockname()[1]
        self.kind = self.side = self.limit = self.importer = None
        self.fired = threading.Event()
        self.count = [0, 0]
        threading.Thread(target=self.accept, daemon=True).start()

    def arm(self, kind, side, limit, importer):
        """`kind`: importer, register or connection; `importer`: the process to kill."""
        self.count = [0, 0]
        self.fired.clear()
        self.side, self.limit, self.importer, self.kind = side, limit, importer, kind

    def accept(self):
        while True:
            client, _ = self.listener.accept()
            threading.Thread(target=self.serve, args=(client,), daemon=True).start()

    def serve(self, client):
        server = None
        try:
            for _ in range(400):
                try:
                    server = socket.create_connection(("127.0.0.1", self.register.port), timeout=60)
                    break
                except OSError:
                    time.sleep(0.01)
            if server is not None:
                self.forward(client, server)
        except OSError:
            pass
        finally:
            client.close()
            if server is not None:
                server.close()

    def forward(self, client, server):
        pairs = {client: (server, 0), server: (client, 1)}
        while True:
            for ready in select.select(list(pairs), [], [])[0]:
                data = ready.recv(16384)
                other, side = pairs[ready]
                if not data:
                    return
                if self.kind is not None and side == self.side and self.count[side] + len(data) >= self.limit:
                    other.sendall(data[:max(0, self.limit - self.count[side])])
                    self.interrupt()
                    return
                self.count[side] += len(data)
                other.sendall(data)

    def interrupt(self):
        kind, self.kind = self.kind, None
        if kind == "importer":
            self.importer.send_signal(signal.SIGKILL)
        elif kind == "register":
            self.register.kill()
            self.register.start()
        self.fired.set()

    def close(self):
        self.listener.close()


def remove_register(file):
    for name in (file, file + "-wal"):
        if os.path.exists(name):
            os.remove(name)
