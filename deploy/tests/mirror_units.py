"""The units of the mirror (systemd-analyze), and the read gateway behind nginx with a signed-in user."""
import json
import os
import shutil
import subprocess
import tempfile
import time

from harness import check, note
from mirror_cluster import MIRROR, alive, feed_once, user
from stack import DEPLOY, Stack, create_register
import scenario

UNITS = os.path.join(DEPLOY, "mirror", "unit")


def test_units():
    """The units have no fault, and expose little."""
    if shutil.which("systemd-analyze") is None:
        return note("systemd-analyze is not installed: the units are not verified")
    with tempfile.TemporaryDirectory() as folder:
        units = os.path.join(folder, "etc/systemd/system")
        shutil.copytree(UNITS, units, ignore=shutil.ignore_patterns("pg_*", "*.sysusers"))
        for name in ("land@.service", "land-alert@.service", "land-queue.service"):
            shutil.copy(os.path.join(DEPLOY, "unit", name), units)
        for name in ("usr/lib/land/mirror/land-mirror", "usr/lib/land/land", "usr/bin/logger", "usr/sbin/haproxy"):
            os.makedirs(os.path.dirname(os.path.join(folder, name)), exist_ok=True)
            shutil.copy("/bin/true", os.path.join(folder, name))
        shutil.copytree("/usr/lib/systemd/system", os.path.join(folder, "usr/lib/systemd/system"), symlinks=True)
        for name in ("land-mirror@north.service", "land-mirror-read@north.service"):
            ran = subprocess.run(["systemd-analyze", f"--root={folder}", "--man=no", "verify", name], capture_output=True, text=True)
            faults = [line for line in ran.stderr.splitlines() if "land-mirror" in line]
            check(f"{name}: verified", not faults, faults)
            ran = subprocess.run(["systemd-analyze", f"--root={folder}", "security", "--offline=true", name], capture_output=True,
                                 text=True)
            level = [line for line in ran.stdout.splitlines() if "Overall exposure" in line]
            check(f"{name}: exposure", level and float(level[0].split(":")[1].split()[0]) < 1.5, level or ran.stderr)
            note(f"{name}: {level[0].strip() if level else 'no level'}")


def test_files(folder):
    """With the umask of the drop-in, a member of the group can read file and log, and write nothing."""
    path = os.path.join(folder.path, "group")
    os.mkdir(path, 0o750)
    file = os.path.join(path, "north.land")
    create_register(file, preexec_fn=lambda: os.umask(0o027))
    check("the file can be read by its group only", oct(os.stat(file).st_mode & 0o777) == "0o640", oct(os.stat(file).st_mode))


def test_nginx(folder, server):
    """A request of a signed-in user reaches the mirror through nginx, with the caller's own party and role."""
    socket = os.path.join(folder.path, "read", "read.sock")
    snippet = os.path.join(folder.path, "mirror.conf")
    os.mkdir(os.path.dirname(socket), 0o755)
    shutil.chown(os.path.dirname(socket), "nobody")
    with open(os.path.join(DEPLOY, "mirror", "mirror.conf"), encoding="utf-8") as it:
        text = it.read().replace("/run/land-mirror-north/read.sock", socket)
    edit = ("register.conf", "    include /etc/land/server.conf;\n", f"    include /etc/land/server.conf;\n    include {snippet};\n")
    with Stack(private=False, edits=[edit]) as stack:
        with open(snippet, "w", encoding="utf-8") as it:
            it.write(text.replace("/etc/land/", stack.path("etc") + "/"))
        os.chmod(snippet, 0o644)
        stack.create_register()
        stack.start()
        scenario.fill(stack.queue_connection(), 10)
        server.install("nginx")
        copy = folder.register("nginx")
        for end in ("", "-wal"):
            shutil.copyfile(stack.file() + end, copy + end)
        loaded = feed_once(folder, server, "nginx", copy)
        check("the register of the stack is mirrored", loaded.returncode == 0, loaded.stderr)
        words = [MIRROR, "serve", "--socket", socket, "--prefix", "/mirror", server.dsn("land_gateway", "nginx")]
        reader = subprocess.Popen(words, preexec_fn=user("nobody"), cwd="/", stderr=subprocess.PIPE, text=True)
        try:
            for _ in range(500):
                if os.path.exists(socket) or not alive(reader.pid):
                    break
                time.sleep(0.02)
            time.sleep(0.2)
            ask(stack)
        finally:
            reader.kill()
            note(reader.communicate()[1].strip()[-300:] or "the gateway printed no message")


def ask(stack):
    def curl(*words):
        ran = subprocess.run(["curl", "-sik", "--http1.1", "-m", "20", *words], capture_output=True)
        head, _, body = ran.stdout.decode().partition("\r\n\r\n")
        return body, head.removeprefix("HTTP/1.1 ")
    base = f"https://localhost:{stack.gateway_port}"
    anna, office = ("-u", "anna:secret-anna"), ("-u", "office:secret-office")
    citizen, admin = ("-H", "Register-Role: citizen"), ("-H", "Register-Role: stateAdministrator")
    for target in ("/parties", "/rrrs", "/units", "/mutations"):
        same, other = curl(*anna, *citizen, base + "/mirror" + target), curl(*anna, *citizen, base + target)
        check(f"anna: {target} is the register's", json.loads(same[0]) == json.loads(other[0]) and same[1].startswith("200"), (same, other))
    body, rest = curl(*anna, *citizen, base + "/mirror/search/parties?q=ann")
    check("anna finds herself", rest.startswith("200") and "register-stamp" in rest.lower() and '"found"' in body, (body, rest))
    check("anna is not the office", curl(*anna, *admin, base + "/mirror/parties")[0] == '{"denied":2}')
    check("a field of the client is not forwarded", curl(*anna, *citizen, "-H", "Register-Party: 1", base + "/mirror/parties")[0] ==
          curl(*anna, *citizen, base + "/mirror/parties")[0])
    check("without a password: the gateway's 401", curl(*citizen, base + "/mirror/parties")[1].startswith("401"))
    check("an escaped line break stays in the path", curl(*anna, *citizen,
                                                          base + "/mirror/parties%0d%0aRegister-Party:%201")[0] == '{"fault":136}')
    body, rest = curl(*office, *admin, base + "/mirror/undecided")
    check("the office sees what is undecided", rest.startswith("200") and '"undecided"' in body, (body, rest))


def run(folder, server):
    test_units()
    test_files(folder)
    test_nginx(folder, server)
