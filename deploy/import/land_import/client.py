"""One keep-alive connection to the register. Requests may be pipelined; replies come in their order."""
import json
import socket
import time

from .errors import Lost, Stop

REPLY_TIMEOUT = 120


class Connection:
    """A connection that is open. Any failure raises Lost and leaves it unusable."""

    def __init__(self, host, port):
        try:
            self.socket = socket.create_connection((host, port), timeout=REPLY_TIMEOUT)
            self.socket.setsockopt(socket.IPPROTO_TCP, socket.TCP_NODELAY, 1)
        except OSError as error:
            raise Lost(f"cannot connect to {host}:{port} ({error.strerror or error})") from None
        self.reader = self.socket.makefile("rb", 65536)
        self.is_closed_by_reply = False

    def close(self):
        self.reader.close()
        self.socket.close()

    def send(self, data):
        try:
            self.socket.sendall(data)
        except OSError as error:
            raise Lost(f"the connection failed ({error.strerror or error})") from None

    def receive(self):
        """Returns the status and the JSON of the next reply. Raises Lost if there is none, or if the store failed (503)."""
        try:
            line = self.reader.readline(200)
            if not line.startswith(b"HTTP/1.1 ") or not line.endswith(b"\n"):
                raise Lost("the connection was closed" if not line else f"the reply starts with {line[:60]!r}")
            status, length = int(line[9:12]), None
            while True:
                line = self.reader.readline(8192)
                if line in (b"\r\n", b"\n"):
                    break
                name, colon, value = line.partition(b":")
                if not colon or not line.endswith(b"\n"):
                    raise Lost("the connection was closed within a reply")
                name = name.lower()
                if name == b"content-length":
                    length = int(value)
                elif name == b"connection" and value.strip().lower() == b"close":
                    self.is_closed_by_reply = True
            body = self.reader.read(length)
            if len(body) < length:
                raise Lost("the connection was closed within a reply")
            reply = json.loads(body)
        except OSError as error:
            raise Lost(f"the connection failed ({error.strerror or error})") from None
        except (ValueError, TypeError):
            raise Lost("a reply is not one of the register's") from None
        if status == 503:
            raise Lost(f"store error {reply.get('store')}")
        return status, reply

    def view(self, target, party=1, role="stateAdministrator"):
        """Returns the status and the JSON of a GET."""
        self.send(request_of_view(target, party, role))
        return self.receive()


def request_of_view(target, party=1, role="stateAdministrator"):
    return f"GET {target} HTTP/1.1\r\nHost: register\r\nRegister-Party: {party}\r\nRegister-Role: {role}\r\n\r\n".encode("ascii")


def connect(host, port, patience, report):
    """Connects. Retries for `patience` seconds. Raises Stop if the register does not accept a connection in that time."""
    began, is_reported = time.monotonic(), False
    while True:
        try:
            return Connection(host, port)
        except Lost as reason:
            if time.monotonic() - began > patience:
                raise Stop(f"{reason}. Start the register (land serve --file FILE --port {port} --connections 1000), then run the same "
                           "command again: it continues where it ended", 3) from None
            if not is_reported and time.monotonic() - began > 2:
                report(f"{reason}; retrying for {patience:.0f} s")
                is_reported = True
            time.sleep(0.1)
