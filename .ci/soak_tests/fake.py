"""Faulty programs for the self-test: calls the real program, and changes one behaviour.

    fake.py MODE PROGRAM ARGUMENT..

Modes of a server: `loses-acts` writes its file only at each tenth response; after some responses, `hangs` waits for three seconds, `silent`
sends nothing, `crashes` exits, and `wrong-fault` sends another fault number; `leaks` allocates 20 kB per response and never frees them. The
mode `always-sound` prints for each file that it is sound.
"""
import ctypes
import os
import resource
import select
import shutil
import signal
import socket
import subprocess
import sys
import time

FROM = 40  # responses before the fault


class Relay:
    """A proxy before the real server."""

    def __init__(self, mode, program, arguments):
        self.mode, self.replies, self.leaked = mode, 0, []
        self.file, self.port = arguments[arguments.index("--file") + 1], int(arguments[arguments.index("--port") + 1])
        self.other, self.connections = f"{self.file}.other", int(arguments[arguments.index("--connections") + 1])
        self.limits = resource.getrlimit(resource.RLIMIT_FSIZE)
        if mode == "loses-acts":
            resource.setrlimit(resource.RLIMIT_FSIZE, (self.limits[1], self.limits[1]))
            self.copy(self.file, self.other)
        with socket.socket() as it:
            it.bind(("127.0.0.1", 0))
            self.behind = it.getsockname()[1]
        file = self.other if mode == "loses-acts" else self.file
        call = [program, "serve", "--file", file, "--port", str(self.behind), "--connections", str(self.connections + 1)]
        self.real = subprocess.Popen(call, preexec_fn=self.prepare)
        self.connect().close()

    def prepare(self):
        """Ties the real server to this process, and gives it the original limits."""
        ctypes.CDLL(None).prctl(1, signal.SIGKILL)
        signal.signal(signal.SIGXFSZ, signal.SIG_IGN)
        resource.setrlimit(resource.RLIMIT_FSIZE, self.limits)

    def copy(self, file, other):
        for end in ("", "-wal"):
            if os.path.exists(file + end):
                shutil.copyfile(file + end, other + end)
            elif os.path.exists(other + end):
                os.unlink(other + end)

    def serve(self):
        listener = socket.socket()
        listener.setsockopt(socket.SOL_SOCKET, socket.SO_REUSEADDR, 1)
        listener.bind(("127.0.0.1", self.port))
        listener.listen(128)
        for _ in range(self.connections):
            near, _ = listener.accept()
            far = self.connect()
            try:
                self.pump(near, far)
            except OSError:
                pass
            near.close()
            far.close()
        status = self.real.wait()
        if self.mode == "loses-acts" and status == 0:
            self.copy(self.other, self.file)
        return status

    def connect(self):
        while True:
            try:
                return socket.create_connection(("127.0.0.1", self.behind))
            except ConnectionRefusedError:
                if self.real.poll() is not None:
                    sys.exit(self.real.returncode)
                time.sleep(0.005)

    def pump(self, near, far):
        watched = [near, far]
        while True:
            for it in select.select(watched, [], [])[0]:
                data = it.recv(1 << 16)
                if it is far and not data:
                    return
                if it is far:
                    near.sendall(self.reply(data))
                elif data:
                    far.sendall(data)
                else:
                    far.shutdown(socket.SHUT_WR)
                    watched = [far]

    def reply(self, data):
        """Returns the bytes to send in place of a response."""
        self.replies += 1
        if self.mode == "loses-acts" and self.replies % 10 == 0:
            self.copy(self.other, self.file)
        if self.mode == "leaks":
            self.leaked.append(os.urandom(20000))
        if self.replies < FROM:
            return data
        if self.mode == "crashes":
            os._exit(3)
        if self.mode == "hangs":
            time.sleep(3)
        if self.mode == "silent":
            return b""
        return data.replace(b'"fault":13', b'"fault":11') if self.mode == "wrong-fault" else data


def main():
    mode, program, *arguments = sys.argv[1:]
    if mode == "always-sound" and arguments[0] == "check":
        print("sound: last 0, next 2")
    elif mode == "always-sound" or arguments[0] != "serve":
        os.execv(program, [program, *arguments])
    else:
        sys.exit(Relay(mode, program, arguments).serve())


main()
