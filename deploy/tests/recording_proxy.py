#!/usr/bin/python3
"""A TCP proxy that logs the bytes sent to a register: recording_proxy.py LISTEN PORT FILE

FILE gets a line of JSON for each chunk: [connection number, bytes as Latin-1]."""
import json
import socket
import sys
import threading


def forward(source, target, log):
    """Logs and forwards all bytes from one socket to the other."""
    try:
        while data := source.recv(65536):
            log(data)
            target.sendall(data)
    except OSError:
        pass
    for it in (source, target):
        try:
            it.shutdown(socket.SHUT_RDWR)
        except OSError:
            pass


def logger(sink, lock, number):
    def log(data):
        with lock:
            sink.write(json.dumps([number, data.decode("latin-1")]) + "\n")
    return log


def main(listen, port, path):
    lock = threading.Lock()
    with open(path, "a", buffering=1, encoding="ascii") as sink, socket.create_server(("127.0.0.1", listen), backlog=128) as server:
        number = 0
        while True:
            client, _ = server.accept()
            number += 1
            try:
                register = socket.create_connection(("127.0.0.1", port))
            except OSError:
                client.close()
                continue
            threading.Thread(target=forward, args=(client, register, logger(sink, lock, number)), daemon=True).start()
            threading.Thread(target=forward, args=(register, client, lambda data: None), daemon=True).start()


if __name__ == "__main__":
    main(int(sys.argv[1]), int(sys.argv[2]), sys.argv[3])
