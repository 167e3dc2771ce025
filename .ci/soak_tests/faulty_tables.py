"""A relay in front of the program with a planted fault, for the self-test of .ci/large-tables:

    faulty_tables.py FAULT PROGRAM ARGUMENT..

A fault is a change, and after `=` a command with the value of its option --role or --at, the path of a request, or an SQL statement.
"""
import os
import re
import socket
import sqlite3
import subprocess
import sys
import time


def wrong(text):
    """Increments the first number of a text."""
    return re.sub(r"\d+", lambda it: str(int(it[0]) + 1), text, count=1)


def altered(items, change):
    """Returns the numbers of a list, or the lines of an extract, with one of them missing, or two swapped, and so on."""
    at = len(items) // 2
    one, other = items[at:at + 2]
    some = {"missing": [other], "swapped": [other, one], "repeated": [one, one, other], "wrong": [wrong(one), other]}
    return [*items[:at], *some[change], *items[at + 2:]]


def altered_reply(body, change):
    if change == "wrong":
        return wrong(body)
    return f'{{"numbers":[{",".join(altered(re.findall("[0-9]+", body), change))}]}}'


def relay_command(change, target, program, arguments, options):
    """Runs a command, and alters its output or its status."""
    ran = subprocess.run([program, *arguments], capture_output=True, text=True)
    output = ran.stdout
    is_target = target in (arguments[0], *(f"{arguments[0]} {options.get(it)}" for it in ("--role", "--at")))
    if is_target and arguments[0] == "extract":
        output = "".join(altered(output.splitlines(True), change))
    elif is_target and change == "hash":
        output = output[:-2] + ("1" if output[-2] == "0" else "0") + "\n"
    elif is_target and change != "status":
        output = wrong(output)
    sys.stdout.write(output)
    sys.stderr.write(ran.stderr)
    return ran.returncode + (is_target and change == "status")


def read_item(stream):
    """Reads a request or a reply. Returns its head and its body."""
    head = b""
    while not head.endswith(b"\r\n\r\n"):
        line = stream.readline()
        if not line:
            return "", ""
        head += line
    return head.decode(), stream.read(int(re.search(rb"Content-Length: (\d+)", head)[1])).decode()


def relay_serve(change, target, program, arguments, options):
    """Passes each request to the server, and alters the reply to the target, or the file when the server has exited."""
    with socket.create_server(("127.0.0.1", int(options["--port"]))) as listener:
        front = listener.accept()[0]
    with socket.create_server(("127.0.0.1", 0)) as it:
        port = it.getsockname()[1]
    server = subprocess.Popen([program, *arguments[:4], str(port), *arguments[5:]])
    while True:
        try:
            back = socket.create_connection(("127.0.0.1", port))
            break
        except ConnectionRefusedError:
            time.sleep(0.02)
    requests, replies, kept = front.makefile("rb"), back.makefile("rb"), []
    is_large = "small" not in options["--file"]
    while (request := read_item(requests))[0]:
        path = request[0].split()[1]
        if change == "lost" and request[1]:
            body = target
        else:
            back.sendall("".join(request).encode())
            head, body = read_item(replies)
        if path == target:
            body = altered_reply(body, change)
        if change == "leaks" and is_large:
            kept.append(os.urandom(20000))
        end = time.process_time() + 0.002
        while change == "slow" and is_large and time.process_time() < end:
            pass
        front.sendall(f"{head.split('Content-')[0]}Content-Length: {len(body)}\r\n\r\n{body}".encode())
    back.shutdown(socket.SHUT_WR)
    status = server.wait()
    if change == "sql":
        base = sqlite3.connect(options["--file"])
        base.execute(target)
        base.commit()
        base.close()
    return status + (change == "exits")


def main(plant, program, *arguments):
    change, _, target = plant.partition("=")
    relay = relay_serve if arguments[0] == "serve" else relay_command
    return relay(change, target, program, arguments, dict(zip(arguments[1::2], arguments[2::2])))


if __name__ == "__main__":
    sys.exit(main(*sys.argv[1:]))
