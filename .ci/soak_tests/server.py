"""Starts the program and its server, and checks them from outside."""
import os
import resource
import signal
import socket
import subprocess
import tempfile
import time

TOP = os.path.dirname(os.path.dirname(os.path.dirname(os.path.realpath(__file__))))


class Wrong(Exception):
    """A result that differs from docs/CLI.md."""


def find_program():
    """Returns the program that ./land runs; the call unpacks or builds it if necessary."""
    script = f"top={TOP}; {TOP}/land talk --clock 0 < /dev/null && . {TOP}/.ci/source-hash && fresh_program"
    ran = subprocess.run(["bash", "-c", script], capture_output=True, text=True)
    if ran.returncode != 0:
        raise SystemExit(f"soak: there is no program: {ran.stderr}")
    return [ran.stdout.strip()]


# The command that runs the program. The self-test replaces it with a faulty program.
command = []


def program():
    if not command:
        command.extend(find_program())
    return list(command)


def folder():
    """Returns a temporary folder: in memory if possible, where kills and a full disk have the same effect and other disk traffic does not
    delay the test."""
    return tempfile.TemporaryDirectory(dir="/dev/shm" if os.path.isdir("/dev/shm") else None)


def free_port():
    with socket.socket() as it:
        it.bind(("127.0.0.1", 0))
        return it.getsockname()[1]


def make(file):
    subprocess.run([*program(), "new", "--file", file], check=True)


def check(file):
    """Returns the output of `land check` for a file, which must be sound."""
    ran = subprocess.run([*program(), "check", "--file", file], capture_output=True, text=True)
    if ran.returncode != 0 or not ran.stdout.startswith("sound: "):
        raise Wrong(f"check: status {ran.returncode}: {ran.stdout}{ran.stderr}".rstrip())
    return ran.stdout.strip()


def limit_files(limit):
    """Limits the files of this process to a number of bytes each."""
    # A write past the limit then fails, and does not kill the process.
    signal.signal(signal.SIGXFSZ, signal.SIG_IGN)
    resource.setrlimit(resource.RLIMIT_FSIZE, (limit, resource.getrlimit(resource.RLIMIT_FSIZE)[1]))


def start(file, port, connections, limit=None):
    """Starts a server, whose files may have at most `limit` bytes each, and does not wait for it."""
    arguments = [*program(), "serve", "--file", file, "--port", str(port), "--connections", str(connections)]
    return subprocess.Popen(arguments, stderr=subprocess.PIPE, text=True, preexec_fn=None if limit is None else lambda: limit_files(limit))


def serve(file, connections, limit=None):
    """Starts a server and waits until it listens, which takes one more of its connections. Returns the process and the port."""
    port = free_port()
    service = start(file, port, connections + 1, limit)
    for _ in range(6000):
        try:
            socket.create_connection(("127.0.0.1", port)).close()
            return service, port
        except ConnectionRefusedError:
            if service.poll() is not None:
                raise Wrong(f"the server exits with {service.returncode}: {service.stderr.read()}".rstrip()) from None
            time.sleep(0.005)
    raise Wrong("the server does not listen on the port")


def check_exit(service, status, message=""):
    """Waits until a server exits, and checks its status and its standard error."""
    try:
        found = service.wait(60)
    except subprocess.TimeoutExpired:
        service.kill()
        raise Wrong("the server does not exit") from None
    error = service.stderr.read()
    if (found, error) != (status, message):
        raise Wrong(f"the server exits with {found}, not {status}: {error}".rstrip())


def waited(pid):
    """Returns the seconds that a process has waited for a processor."""
    try:
        with open(f"/proc/{pid}/schedstat", encoding="ascii") as it:
            return int(it.read().split()[1]) / 1e9
    except (OSError, IndexError):
        return 0.0


def resident(pid):
    """Returns the resident memory of a process, in kB."""
    with open(f"/proc/{pid}/status", encoding="ascii") as it:
        return next(int(line.split()[1]) for line in it if line.startswith("VmRSS:"))
