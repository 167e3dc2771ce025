"""For the tests of the mirror: PostgreSQL servers, served registers and feeds, each in a folder of the test, ended by process id."""
import contextlib
import os
import pwd
import shutil
import signal
import socket
import subprocess
import tempfile
import time

from stack import DEPLOY, Missing, create_register, free_port, program

try:
    import psycopg2
except ImportError:
    psycopg2 = None

BIN = "/usr/lib/postgresql/15/bin"
MIRROR = os.path.join(DEPLOY, "mirror", "land-mirror")
SETTINGS = """
listen_addresses = ''
shared_buffers = 256MB
max_connections = 60
max_wal_senders = 6
jit = off
fsync = off
max_parallel_workers_per_gather = 0
autovacuum_max_workers = 1
log_min_messages = warning
"""


def need():
    """Raises Missing if the tests cannot run here."""
    if os.geteuid() != 0:
        raise Missing("root: the feed has to run as a user that cannot write the register")
    if not os.access(os.path.join(BIN, "postgres"), os.X_OK):
        raise Missing("postgresql-15")
    if not os.path.exists("/usr/share/postgresql/15/extension/postgis.control"):
        raise Missing("postgresql-15-postgis-3")
    if psycopg2 is None:
        raise Missing("python3-psycopg2")


def user(name):
    """Returns a function that a new process calls to run as a user, in no other group."""
    it = pwd.getpwnam(name)

    def change():
        os.setgroups([])
        os.setgid(it.pw_gid)
        os.setuid(it.pw_uid)
        os.nice(5)
    return change


def run_as(name, words, **more):
    return subprocess.run([str(it) for it in words], preexec_fn=user(name), capture_output=True, text=True, cwd="/", **more)


class Folder:
    """A folder that every user can enter. The register's folder in it is writable only for root, who serves it."""

    def __init__(self):
        self.path = tempfile.mkdtemp(prefix="land-mirror-test-")
        os.chmod(self.path, 0o755)
        for name, owner in (("registers", None), ("postgres", "postgres"), ("scratch", "nobody")):
            os.mkdir(os.path.join(self.path, name))
            if owner:
                shutil.chown(os.path.join(self.path, name), owner)

    def __enter__(self):
        return self

    def __exit__(self, *_):
        shutil.rmtree(self.path, ignore_errors=True)

    def register(self, name):
        return os.path.join(self.path, "registers", name + ".land")

    @property
    def scratch(self):
        return os.path.join(self.path, "scratch")


class Server:
    """A PostgreSQL server that listens on a Unix socket only."""

    def __init__(self, folder, name="primary", copy_of=None):
        self.name, self.data, self.socket = name, os.path.join(folder.path, "postgres", name), os.path.join(folder.path, "postgres")
        self.port = free_port()
        self.postmaster = None
        self.create(copy_of)
        self.start()

    def create(self, copy_of=None):
        if copy_of:
            run = run_as("postgres", [f"{BIN}/pg_basebackup", "-h", copy_of.socket, "-p", copy_of.port, "-U", "postgres", "-D", self.data,
                                      "-R",
                                      "-X", "stream", "-c", "fast"])
        else:
            run = run_as("postgres", [f"{BIN}/initdb", "-D", self.data, "-A", "trust", "-E", "UTF8", "--locale=C.UTF-8", "--no-sync"])
        if run.returncode:
            raise SystemExit(f"{self.name}: {run.stderr}")
        with open(os.path.join(self.data, "postgresql.conf"), "a", encoding="utf-8") as it:
            it.write(SETTINGS + f"port = {self.port}\nunix_socket_directories = '{self.socket}'\n")

    def start(self):
        run = run_as("postgres", [f"{BIN}/pg_ctl", "-D", self.data, "-l", f"{self.data}.log", "-w", "-t", "120", "start"])
        if run.returncode:
            with open(f"{self.data}.log", encoding="utf-8") as log:
                raise SystemExit(f"{self.name}: {run.stderr} {log.read()[-2000:]}")
        with open(os.path.join(self.data, "postmaster.pid"), encoding="ascii") as it:
            self.postmaster = int(it.readline())

    def stop(self, mode="immediate"):
        run_as("postgres", [f"{BIN}/pg_ctl", "-D", self.data, "-m", mode, "-w", "stop"])

    def kill(self):
        """Kills the server at once. The next start recovers. Its children notice that the postmaster is gone, and exit."""
        os.kill(self.postmaster, signal.SIGKILL)
        for _ in range(600):
            if not alive(self.postmaster):
                break
            time.sleep(0.005)

    def restart(self):
        """Starts the server after a kill, as soon as the old processes have left its shared memory."""
        for _ in range(200):
            run = run_as("postgres", [f"{BIN}/pg_ctl", "-D", self.data, "-l", f"{self.data}.log", "-w", "-t", "120", "start"])
            if run.returncode == 0:
                with open(os.path.join(self.data, "postmaster.pid"), encoding="ascii") as it:
                    self.postmaster = int(it.readline())
                return
            time.sleep(0.02)
        raise SystemExit(f"{self.name} does not start: {run.stderr}")

    def wipe(self):
        """Starts as a new, empty server."""
        shutil.rmtree(self.data)
        self.create()
        self.start()

    def promote(self):
        run = run_as("postgres", [f"{BIN}/pg_ctl", "-D", self.data, "-w", "promote"])
        if run.returncode:
            raise SystemExit(f"{self.name}: {run.stderr}")

    def __enter__(self):
        return self

    def __exit__(self, *_):
        self.stop()

    def dsn(self, login, database):
        return f"host={self.socket} port={self.port} user={login} dbname={database}"

    @contextlib.contextmanager
    def connect(self, login, database):
        """Yields a connection in which each statement is a transaction."""
        db = psycopg2.connect(self.dsn(login, database))
        db.autocommit = True
        try:
            yield db
        finally:
            db.close()

    def install(self, database, *more):
        """Creates a mirror."""
        words = [MIRROR, "install", f"host={self.socket} port={self.port} user=postgres", database, "--replace", *more]
        run = run_as("postgres", words)
        if run.returncode:
            raise SystemExit(f"install: {run.stderr}")


def alive(pid):
    try:
        with open(f"/proc/{pid}/stat", encoding="ascii") as it:
            return it.read().rpartition(")")[2].split()[0] != "Z"
    except OSError:
        return False


@contextlib.contextmanager
def serving(file, new=True):
    """Serves a register. Yields the process and the port."""
    if new:
        create_register(file)
    service = Service(file)
    try:
        yield service
    finally:
        service.kill()


class Service:
    """A served register."""

    def __init__(self, file):
        self.file = file
        self.start()

    def start(self):
        self.port = free_port()
        self.process = subprocess.Popen([program(), "serve", "--file", self.file, "--port", str(self.port), "--connections", "1000000"],
                                        stderr=subprocess.PIPE)
        for _ in range(6000):
            try:
                socket.create_connection(("127.0.0.1", self.port)).close()
                return
            except ConnectionRefusedError:
                if self.process.poll() is not None:
                    raise SystemExit(f"the register does not start: {self.process.stderr.read()}") from None
                time.sleep(0.005)

    def kill(self):
        if self.process.poll() is None:
            self.process.kill()
        self.process.wait()
        self.process.stderr.close()


def feed_words(folder, server, name, file, *more):
    return [MIRROR, "feed", file, server.dsn("land_feed", name), "--scratch", folder.scratch, *map(str, more)]


def feed_once(folder, server, name, file, *more):
    return run_as("nobody", feed_words(folder, server, name, file, "--once", *more))


def start_feed(folder, server, name, file, *more):
    return subprocess.Popen(feed_words(folder, server, name, file, *more), preexec_fn=user("nobody"), stderr=subprocess.PIPE, text=True,
                            cwd="/")


def run_audit(folder, server, name, file):
    return run_as("nobody", [MIRROR, "audit", file, server.dsn("land_feed", name), "--scratch", folder.scratch, "--dry"])
