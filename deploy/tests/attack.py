"""An attack on the gateway: sends it and checks the reply and the requests that reach the register."""
import base64
import contextlib
import json
import re
import socket
import ssl
import struct
import time

ROLES = {"citizen", "conveyancer", "notary", "bank", "certifiedSurveyor", "stateAdministrator", "unknown"}
FIELDS = {"host", "register-party", "register-role", "content-length", "connection"}


def basic(name, secret=None):
    """Returns the value of an Authorization field for basic authentication."""
    return "Basic " + base64.b64encode(f"{name}:{secret or 'secret-' + name}".encode()).decode()


class Attack:
    """A request and its expected result.

    most    the maximum number of requests that may reach the register
    reply   the expected reply: a pattern for the statuses joined by commas or, if it has other characters, for statuses and bodies
    party   the only party that requests at the register may have; "" if the field must be missing
    """

    def __init__(self, name, data, most=1, reply=None, party="2", source="127.0.0.1", certificate=None):
        self.name, self.data, self.most, self.reply, self.party = name, data, most, reply, party
        self.source, self.certificate = source, certificate

    def send(self, port, etc):
        """Sends it over TLS and returns the statuses and the JSON bodies."""
        context = ssl._create_unverified_context()
        if self.certificate:
            context.load_cert_chain(f"{etc}/{self.certificate}.crt", f"{etc}/{self.certificate}.key")
        http2 = isinstance(self.data, Frames)
        context.set_alpn_protocols(["h2"] if http2 else ["http/1.1"])
        out = b""
        try:
            raw = socket.create_connection(("127.0.0.1", port), source_address=(self.source, 0))
            with context.wrap_socket(raw, server_hostname="localhost") as link:
                link.settimeout(12)
                with contextlib.suppress(OSError):
                    link.sendall(self.data.bytes if http2 else self.data.encode("latin-1"))
                while part := link.recv(65536):
                    out += part
                    link.settimeout(0.25)
        except OSError:
            pass
        statuses = Frames.statuses(out) if http2 else [m.decode() for m in re.findall(rb"(?:^|\})HTTP/1\.1 (\d+)", out, re.M)]
        bodies = re.findall(rb'\{"(?:fault|denied|refused|numbers|gateway|object|made|store)":[^}]*\}', out)
        return ",".join(statuses), " ".join(b.decode("latin-1") for b in bodies)

    def faults(self, statuses, bodies, requests):
        """Returns the differences from the expected result: an empty list if the attack failed, as it must."""
        found = []
        if len(requests) > self.most:
            found.append(f"{len(requests)} requests")
        if self.reply and not re.fullmatch(self.reply, statuses if re.fullmatch(r"[0-9,|()]*", self.reply) else f"{statuses} {bodies}"):
            found.append(f"reply {statuses} {bodies[:60]}")
        for line, fields in requests:
            names = [name for name, _ in fields]
            parties = [value for name, value in fields if name == "register-party"]
            roles = [value for name, value in fields if name == "register-role"]
            if parties != ([self.party] if self.party else []):
                found.append(f"party {parties}")
            if len(roles) > 1 or set(roles) - ROLES:
                found.append(f"role {roles}")
            if set(names) - FIELDS or len(names) > len(set(names)):
                found.append(f"fields {names}")
            if not re.fullmatch(r"[A-Za-z]+ \S+ HTTP/1\.1", line):
                found.append(f"line {line[:60]}")
        return found


class Recorded:
    """The log of the recording proxy."""

    def __init__(self, path):
        self.path, self.place = path, 0
        self.requests()

    def requests(self):
        """Returns the requests since the last call, framed as by the register: request line and header fields."""
        streams = {}
        with open(self.path, encoding="ascii") as source:
            source.seek(self.place)
            for line in source:
                number, text = json.loads(line)
                streams[number] = streams.get(number, "") + text
            self.place = source.tell()
        return [it for text in streams.values() for it in requests_of(text)]


def requests_of(stream):
    """Splits a byte stream into requests by Content-Length."""
    found = []
    while stream.strip("\r\n"):
        head, _, rest = stream.lstrip("\r\n").partition("\r\n\r\n")
        line, *more = head.split("\r\n")
        fields = [(name.lower(), value.strip()) for name, _, value in (one.partition(":") for one in more)]
        length = [int(value) for name, value in fields if name == "content-length" and value.isdigit()]
        found.append((line, fields))
        stream = rest[length[0] if length else 0:]
    return found


class Frames:
    """HTTP/2 requests, each given as fields and a body. Encoded by hand, so that fields may be malformed."""

    def __init__(self, *requests):
        self.bytes = b"PRI * HTTP/2.0\r\n\r\nSM\r\n\r\n" + self.frame(4, 0, 0, b"")
        for place, (fields, body) in enumerate(requests):
            stream = 1 + 2 * place
            block = b"".join(self.literal(name, value) for name, value in fields)
            self.bytes += self.frame(1, 4 if body is not None else 5, stream, block)
            if body is not None:
                self.bytes += self.frame(0, 1, stream, body.encode("latin-1"))

    @staticmethod
    def frame(kind, flags, stream, payload):
        return struct.pack(">I", len(payload))[1:] + bytes([kind, flags]) + struct.pack(">I", stream) + payload

    @staticmethod
    def length(n):
        """Encodes an HPACK string length without Huffman coding."""
        if n < 127:
            return bytes([n])
        out, n = b"\x7f", n - 127
        while n >= 128:
            out, n = out + bytes([n % 128 + 128]), n // 128
        return out + bytes([n])

    @classmethod
    def literal(cls, name, value):
        """Encodes a literal field without indexing."""
        name, value = name.encode("latin-1"), value.encode("latin-1")
        return b"\x00" + cls.length(len(name)) + name + cls.length(len(value)) + value

    @staticmethod
    def statuses(data):
        """Returns the statuses of the replies; RST for a reset stream, GOAWAY for a closed connection."""
        found = []
        while len(data) >= 9:
            size, kind = struct.unpack(">I", b"\0" + data[:3])[0], data[3]
            payload, data = data[9:9 + size], data[9 + size:]
            if kind == 1:
                payload = payload[1:] if payload[:1] == b"\x20" else payload
                index = payload[:1][0] & 0x7f
                found.append({8: "200", 9: "204", 10: "206", 11: "304", 12: "400", 13: "404", 14: "500"}.get(index) if payload[0] & 0x80
                             else payload[2:5].decode("latin-1"))
            elif kind == 3:
                found.append("RST")
            elif kind == 7:
                found.append("GOAWAY")
        return [it or "?" for it in found]


def run_attack(attack, port, etc, recorded):
    """Sends an attack and returns the statuses, the bodies, the requests at the register and the faults."""
    recorded.requests()
    statuses, bodies = attack.send(port, etc)
    time.sleep(0.02)
    requests = recorded.requests()
    return statuses, bodies, requests, attack.faults(statuses, bodies, requests)
