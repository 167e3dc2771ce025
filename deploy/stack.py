"""Runs a complete local stack (nginx, HAProxy, a register) in one folder. Used by deploy/try and by the tests.

The files of deploy/gateway are copied unchanged except for paths, the gateway's port and, if the register shares the host's network, the
register's port. On exit the stack stops its processes by process id."""
import contextlib
import functools
import http.client
import os
import shutil
import signal
import socket
import subprocess
import tempfile
import time

DEPLOY = os.path.dirname(os.path.abspath(__file__))
TOP = os.path.dirname(DEPLOY)
ROOT = os.geteuid() == 0
REGISTER_PORT = 8080
SUBJECT = ["-newkey", "ec", "-pkeyopt", "ec_paramgen_curve:prime256v1", "-nodes"]

# Users and their parties in the scenario. The password of NAME is secret-NAME.
USERS = {"office": 1, "anna": 2, "ben": 3, "bank.clerk": 4, "bank.chief": 4, "nora": 5, "sam": 6, "nobody": 999}


class Missing(Exception):
    """A required package or program is not installed."""


@functools.cache
def program():
    """Returns the program's path: $LAND, else the binary that ./land runs. Without arguments ./land only unpacks the release."""
    path = os.environ.get("LAND")
    if not path:
        subprocess.run([os.path.join(TOP, "land")], stdin=subprocess.DEVNULL, capture_output=True)
        words = ["bash", "-c", '. "$top/.ci/source-hash" && fresh_program']
        path = subprocess.run(words, env={**os.environ, "top": TOP}, stdout=subprocess.PIPE, text=True).stdout.strip()
    if not path or not os.access(path, os.X_OK):
        raise Missing(f"{path or 'a binary of these sources'}: build it with ./land --prove, or set LAND to a binary")
    return os.path.abspath(path)


def create_register(file, **options):
    """Creates a register as `land new` of the package does, with pages of 2,048 bytes."""
    words = [os.path.join(DEPLOY, "bin", "land-new"), "new", "--file", file]
    subprocess.run(words, check=True, env={**os.environ, "LAND": program()}, **options)


def page_size_of(file):
    """Returns the page size in the header of a file."""
    with open(file, "rb") as source:
        return int.from_bytes(source.read(18)[16:], "big")


def need(*commands):
    """Raises Missing if a command is not installed."""
    for command in commands:
        if shutil.which(command, path=os.environ.get("PATH", "") + ":/usr/sbin:/sbin") is None:
            raise Missing(command)


def has_networks():
    """Returns whether this user can create a network namespace."""
    words = ["unshare", *([] if ROOT else ["--user", "--map-root-user"]), "--net", "true"]
    return subprocess.run(words, capture_output=True).returncode == 0


def free_port():
    with socket.socket() as it:
        it.bind(("127.0.0.1", 0))
        return it.getsockname()[1]


class UnixConnection(http.client.HTTPConnection):
    """An HTTP connection over a Unix socket, such as the queue's."""

    def __init__(self, path, timeout=60):
        super().__init__("queue", timeout=timeout)
        self.path = path

    def connect(self):
        self.sock = socket.socket(socket.AF_UNIX)
        self.sock.settimeout(self.timeout)
        self.sock.connect(self.path)


class Stack:
    """A folder with the gateway's configuration, and the processes that use it.

    private     run the queue and the register in a network namespace (and in a user namespace if not root)
    recorder    log the bytes sent to the register in log/recorded
    edits       (file, old, new): replacements in the gateway's configuration; the tests use them for mutants
    limits      enforce the rate and connection limits
    """

    def __init__(self, folder=None, private=True, recorder=False, gateway_port=None, edits=(), limits=True):
        need("nginx", "haproxy", "openssl", "unshare", "nsenter", "ip")
        self.program = program()
        self.at_once = 64       # the connections that the register serves at the same time, as in land@.service
        self.owns_folder = folder is None
        self.folder = tempfile.mkdtemp(prefix="land-deploy-") if self.owns_folder else os.path.abspath(folder)
        self.private_network, self.recorder, self.limits = private, recorder, limits
        self.gateway_port = gateway_port or free_port()
        self.register_port = REGISTER_PORT if private else free_port()
        self.recorder_port = (REGISTER_PORT + 1 if private else free_port()) if recorder else None
        self.processes = {}
        self.write_files(edits)

    # ---- files

    def path(self, *words):
        return os.path.join(self.folder, *words)

    def write_files(self, edits=()):
        """Creates the folder, or rewrites its configuration. Keeps existing keys, users and registers."""
        for name in ("etc", "run", "log", "tmp"):
            os.makedirs(self.path(name), exist_ok=True)
        os.chmod(self.folder, 0o755)
        shutil.copytree(os.path.join(DEPLOY, "gateway"), self.path("etc"), dirs_exist_ok=True, copy_function=shutil.copyfile)
        shutil.copytree(os.path.join(DEPLOY, "page"), self.path("page"), dirs_exist_ok=True, copy_function=shutil.copyfile)
        for name in os.listdir(self.path("etc")):
            if name.endswith((".conf", ".cfg")):
                self.write_config(name, [it[1:] for it in edits if it[0] == name])
        if ROOT:    # nginx's group can read the files created here, as in /etc/land
            shutil.chown(self.path("etc"), group="www-data")
            os.chmod(self.path("etc"), 0o2755)
        self.write_keys()
        self.write_users()
        self.write_nginx_conf()

    def write_config(self, name, edits):
        """Rewrites a configuration file with the paths and ports of this folder."""
        with open(self.path("etc", name), encoding="utf-8") as source:
            text = source.read()
        for old, new in edits:
            if old not in text:
                raise SystemExit(f"{name} does not contain {old!r}")
            text = text.replace(old, new)
        for old, new in (("/etc/land/", self.path("etc") + "/"), ("/var/lib/land-digest/", self.path("digests") + "/"),
                         ("/run/land/", self.path("run") + "/"),
                         ("/var/log/land/", self.path("log") + "/"), ("/usr/share/land/page", self.path("page")),
                         ("listen 443 ", f"listen 127.0.0.1:{self.gateway_port} "),
                         (f":{REGISTER_PORT} ", f":{self.recorder_port or self.register_port} ")):
            text = text.replace(old, new)
        if not ROOT:
            text = text.replace(" group www-data", "")
        if not self.limits:
            text = "".join(line for line in text.splitlines(True) if not line.startswith(("limit_req zone", "limit_conn land")))
        with open(self.path("etc", name), "w", encoding="utf-8") as sink:
            sink.write(text)

    def openssl(self, *words):
        subprocess.run(["openssl", *words], cwd=self.path("etc"), check=True, capture_output=True)

    def write_keys(self):
        """Creates the site's certificate, the CA for clients and a foreign CA, each with two client certificates."""
        if os.path.exists(self.path("etc", "tls.key")):
            return
        names = "subjectAltName=DNS:localhost,IP:127.0.0.1"
        self.openssl("req", "-x509", *SUBJECT, "-days", "30", "-subj", "/CN=localhost", "-addext", names, "-keyout", "tls.key", "-out",
                     "tls.crt")
        for authority in ("clients-ca", "other-ca"):
            self.openssl("req", "-x509", *SUBJECT, "-days", "30", "-subj", "/CN=" + authority, "-keyout", authority + ".key", "-out",
                         authority + ".crt")
            for name in ("machine", "unlisted"):
                prefix = f"{authority}-{name}"
                self.openssl("req", *SUBJECT, "-subj", f"/O=Bank North/CN={name}", "-keyout", prefix + ".key", "-out", prefix + ".csr")
                self.openssl("x509", "-req", "-in", prefix + ".csr", "-CA", authority + ".crt", "-CAkey", authority + ".key",
                             "-CAcreateserial", "-days", "30", "-out", prefix + ".crt")

    def write_users(self):
        """Writes the list of users and runs make-users on it."""
        if not os.path.exists(self.path("users")):
            with open(self.path("users"), "w", encoding="ascii") as sink:
                for name, party in USERS.items():
                    secret = subprocess.run(["openssl", "passwd", "-apr1", "secret-" + name], check=True, capture_output=True, text=True)
                    sink.write(f"user {name} {party} {secret.stdout.strip()}\n")
                sink.write("cert 4 CN=machine,O=Bank North\noffice 127.0.0.1/32\n")
        subprocess.run([os.path.join(DEPLOY, "gateway", "make-users"), self.path("users"), self.path("etc")], check=True,
                       capture_output=True)

    def write_nginx_conf(self, *sites):
        """Writes nginx.conf, which includes the given site files (default: register.conf)."""
        folders = "".join(f"    {kind}_temp_path {self.path('tmp', kind)};\n" for kind in ("client_body", "proxy", "fastcgi", "uwsgi",
            "scgi"))
        sites = "".join(f"    include {self.path('etc', name)};\n" for name in ("callers.conf", *(sites or ["register.conf"])))
        with open(self.path("etc", "nginx.conf"), "w", encoding="utf-8") as sink:
            sink.write(f"{'user www-data;' if ROOT else ''}\nworker_processes 2;\npid {self.path('run', 'nginx.pid')};\n"
                       f"error_log {self.path('log', 'error.log')} warn;\nevents {{ worker_connections 1024; }}\n"
                       f"http {{\n    include /etc/nginx/mime.types;\n    ssl_session_cache shared:land:1m;\n{folders}{sites}}}\n")

    # ---- processes

    def start_process(self, name, words, inside=False):
        """Starts a process and stores it under `name`; `inside`: in the register's network namespace, if there is one."""
        if inside and self.private_network:
            words = [*self.namespace_command(), *words]
        with open(self.path("log", name), "a", encoding="utf-8") as log:
            self.processes[name] = subprocess.Popen(words, stdin=subprocess.DEVNULL, stdout=log, stderr=log, start_new_session=True)
        return self.processes[name]

    def stop_process(self, name, how=signal.SIGTERM):
        """Stops a process by its id and waits until it has exited."""
        it = self.processes.pop(name, None)
        if it is None:
            return
        with contextlib.suppress(ProcessLookupError):
            os.killpg(it.pid, how)
        try:
            it.wait(10)
        except subprocess.TimeoutExpired:
            os.killpg(it.pid, signal.SIGKILL)
            it.wait()

    def namespace_command(self):
        """Returns the command prefix that enters the register's network namespace."""
        if "network" not in self.processes:
            as_user = [] if ROOT else ["--user", "--map-root-user"]
            script = "ip link set lo up && echo up $$ && exec sleep infinity"
            self.start_process("network", ["unshare", *as_user, "--net", "sh", "-c", script])
            up = f"up {self.processes['network'].pid}\n"
            self.wait_for(lambda: up in self.log_text("network"), "cannot create a network namespace (see log/network)")
        as_user = [] if ROOT else ["--user", "--preserve-credentials"]
        return ["nsenter", "--target", str(self.processes["network"].pid), *as_user, "--net", "--"]

    def log_text(self, name):
        with open(self.path("log", name), encoding="utf-8", errors="replace") as log:
            return log.read()

    def wait_for(self, holds, error, seconds=60):
        end = time.monotonic() + seconds
        while not holds():
            if time.monotonic() > end:
                raise SystemExit(error)
            time.sleep(0.02)

    def file(self, name="town"):
        return self.path(name + ".land")

    def create_register(self, name="town"):
        create_register(self.file(name))

    def serve(self, name="town", port=None):
        words = [self.program, "serve", "--file", self.file(name), "--port", str(port or self.register_port), "--connections", "1000000",
                 "--at-once", str(self.at_once)]
        return self.start_process("register-" + name, words, inside=True)

    def start_recorder(self):
        """Starts a recording proxy between the queue and the register."""
        script = os.path.join(DEPLOY, "tests", "recording_proxy.py")
        words = ["/usr/bin/python3", script, str(self.recorder_port), str(self.register_port), self.path("log", "recorded")]
        self.start_process("recorder", words, inside=True)

    def start_faulty_register(self, mode):
        """Starts a misbehaving server in place of the recording proxy and the register."""
        script = os.path.join(DEPLOY, "tests", "faulty_register.py")
        words = ["/usr/bin/python3", script, mode, str(self.recorder_port), self.path("log", "recorded")]
        self.start_process("faulty-register", words, inside=True)

    def start_queue(self, config="queue.cfg", sockets=("queue.sock",)):
        self.start_process("queue", ["/usr/sbin/haproxy", "-f", self.path("etc", config)], inside=True)
        self.wait_for(lambda: all(os.path.exists(self.path("run", it)) for it in sockets), "the queue does not start (see log/queue)")

    def start_gateway(self):
        self.start_process("gateway",
                   ["/usr/sbin/nginx", "-e", self.path("log", "error.log"), "-c", self.path("etc", "nginx.conf"), "-g", "daemon off;"])
        self.wait_for(self.gateway_listens, "the gateway does not start (see log/gateway, log/error.log)")

    def gateway_listens(self):
        if self.processes["gateway"].poll() is not None:
            raise SystemExit("the gateway has exited: " + self.log_text("gateway") + self.log_text("error.log"))
        with contextlib.suppress(OSError):
            socket.create_connection(("127.0.0.1", self.gateway_port), 1).close()
            return True
        return False

    def start(self):
        """Starts everything, with one register."""
        self.serve()
        if self.recorder:
            self.start_recorder()
        self.start_queue()
        self.start_gateway()
        self.wait_until_ready()

    def wait_until_ready(self, socket_name="queue.sock"):
        """Waits until the register answers. Its port is closed while it validates its file."""
        def answers():
            if "register-town" in self.processes and self.processes["register-town"].poll() is not None:
                raise SystemExit("the register has exited: " + self.log_text("register-town"))
            with contextlib.suppress(OSError, http.client.HTTPException), contextlib.closing(self.queue_connection(socket_name)) as link:
                link.request("GET", "/")
                return link.getresponse().status == 400
            return False
        self.wait_for(answers, "the register does not answer (see log/register-town)")

    def queue_connection(self, socket_name="queue.sock"):
        """Returns a connection to the queue. It bypasses the gateway, so the register trusts the caller's fields."""
        return UnixConnection(self.path("run", socket_name))

    def stop(self):
        for name in ("gateway", "queue", "recorder", *[it for it in self.processes if it not in ("network",)], "network"):
            self.stop_process(name)

    def __enter__(self):
        return self

    def __exit__(self, *_):
        self.stop()
        if self.owns_folder:
            shutil.rmtree(self.folder, ignore_errors=True)
