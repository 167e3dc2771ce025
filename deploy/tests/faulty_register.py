#!/usr/bin/python3
"""A server that misbehaves in place of a register: faulty_register.py MODE PORT FILE

break   reads a request and closes the connection without a reply
big     replies with 8 MB and measures the seconds until all bytes are sent

FILE gets a line of JSON for each connection: [number, the request as Latin-1] or [number, seconds]."""
import json
import socket
import sys
import time

BODY = b"x" * 8_000_000
HEAD = b"HTTP/1.1 200 OK\r\nContent-Type: text/plain\r\nContent-Length: %d\r\n\r\n" % len(BODY)


def drop_request(client):
    return client.recv(65536).decode("latin-1")


def send_big_reply(client):
    client.recv(65536)
    began = time.monotonic()
    client.sendall(HEAD + BODY)
    return time.monotonic() - began


def main(mode, port, path):
    serve = {"break": drop_request, "big": send_big_reply}[mode]
    with open(path, "a", buffering=1, encoding="ascii") as sink, socket.create_server(("127.0.0.1", port)) as server:
        number = 1_000_000
        while True:
            client, _ = server.accept()
            number += 1
            with client:
                try:
                    sink.write(json.dumps([number, serve(client)]) + "\n")
                except OSError as error:
                    sink.write(json.dumps([number, str(error)]) + "\n")


if __name__ == "__main__":
    main(sys.argv[1], int(sys.argv[2]), sys.argv[3])
