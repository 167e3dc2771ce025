"""The messages of `land` on a terminal: provokes each failure, and compares the program's line and the hint after it. Without a terminal there
must be no hint."""
import os
import pty
import re
import shutil
import socket
import sqlite3
import subprocess
import tempfile
import time

from harness import check
from stack import DEPLOY, TOP, program

EXPLAIN = os.path.join(DEPLOY, "bin", "land-explain")
AS_NOBODY = ["setpriv", "--reuid=65534", "--regid=65534", "--clear-groups", "--"]
EXTRACT = ["--clock", "0", "--kind", "rrr"]


def on_terminal(words, **more):
    """Runs a command with standard error on a terminal. Returns its status and its lines on standard error."""
    parent, child = pty.openpty()
    process = subprocess.Popen(words, stdin=subprocess.DEVNULL, stdout=subprocess.DEVNULL, stderr=child, **more)
    os.close(child)
    text = b""
    while True:
        try:
            part = os.read(parent, 65536)
        except OSError:     # the terminal is closed
            part = b""
        if not part:
            break
        text += part
    os.close(parent)
    return process.wait(), text.decode().replace("\r\n", "\n").splitlines()


class Messages:
    """A folder with a register, and the checks of messages."""

    def __init__(self, folder):
        self.folder, self.program = folder, os.path.join(folder, "land")
        shutil.copy(program(), self.program)
        os.chmod(folder, 0o755)
        self.good = self.path("good.land")
        self.run("new", "--file", self.good)

    def path(self, name):
        return os.path.join(self.folder, name)

    def run(self, *words):
        return subprocess.run([self.program, *words], capture_output=True, text=True, stdin=subprocess.DEVNULL)

    def copy(self, name):
        """Returns the path of a copy of the register, whose log is in the file."""
        path = self.path(name)
        shutil.copy(self.good, path)
        with sqlite3.connect(path) as base:
            base.execute("PRAGMA journal_mode=DELETE")
        base.close()
        return path

    def sql(self, path, *statements):
        base = sqlite3.connect(path, isolation_level=None)
        for it in statements:
            base.execute(it)
        base.close()
        return path

    def bytes(self, path, place, data):
        with open(path, "r+b") as sink:
            sink.seek(place)
            sink.write(data)
        return path

    def expect(self, words, line, *hints, before=()):
        """The command must print the line, and on a terminal also a hint with all the given parts."""
        plain = subprocess.run([*before, self.program, *words], capture_output=True, text=True, stdin=subprocess.DEVNULL)
        status, lines = on_terminal([*before, EXPLAIN, self.program, *words])
        name = " ".join(words).replace(self.folder + "/", "")
        check(f"{name}: the program's line and status", plain.returncode == 1 == status and plain.stderr == line + "\n" and lines[:1] == [line],
              (plain, status, lines))
        check(f"{name}: the hint", len(lines) == 2 and lines[1].startswith("hint: ") and all(it in lines[1] for it in hints), (hints, lines))


def check_paths(it):
    """The path is the cause."""
    closed = "land: cannot open"
    it.expect(["check", "--file", it.path("none")], closed, it.path("none") + " does not exist", "land new --file")
    it.expect(["check", "--file=" + it.path("none")], closed, it.path("none") + " does not exist")
    it.expect(["new", "--file", it.path("no/x.land")], closed, f"the folder {it.path('no')} does not exist")
    it.expect(["check", "--file", it.folder], closed, it.folder + " is a folder")
    os.symlink(it.path("gone"), it.path("link"))
    it.expect(["check", "--file", it.path("link")], closed, "is a symbolic link to a missing file")
    private = it.copy("private.land")
    os.chmod(private, 0o600)
    it.expect(["check", "--file", private], closed, "user nobody may not read " + private, "as its owner, root", before=AS_NOBODY)
    os.chmod(private, 0o644)
    it.expect(["check", "--file", private], closed, "user nobody may not write " + private, "as its owner, root", before=AS_NOBODY)
    os.chmod(private, 0o666)
    it.expect(["check", "--file", private], closed, f"user nobody may not create {private}-wal", before=AS_NOBODY)
    it.expect(["new", "--file", it.path("y.land")], closed, f"user nobody may not create files in {it.folder}", before=AS_NOBODY)
    second = it.copy("second.land")
    os.link(second, it.path("name.land"))
    it.expect(["check", "--file", second], closed, second + " has a second name (hard link)", f"find {it.folder} -samefile {second}")


def check_locks(it):
    """Another process has the file, or its port."""
    file = it.copy("served.land")
    with socket.socket() as free:
        free.bind(("127.0.0.1", 0))
        port = str(free.getsockname()[1])
    server = subprocess.Popen([it.program, "serve", "--file", file, "--port", port, "--connections", "9"])
    try:
        for _ in range(100):
            with socket.socket() as link:
                if link.connect_ex(("127.0.0.1", int(port))) == 0:
                    break
            time.sleep(0.05)
        it.expect(["check", "--file", file], "land: cannot open", f"{file} is open in process {server.pid} (land")
        os.chmod(it.folder, 0o777)
        for path in (file, file + "-wal"):
            os.chmod(path, 0o666)
        it.expect(["check", "--file", file], "land: cannot open", f"{file} is open in a process of another user: as root", before=AS_NOBODY)
        os.chmod(it.folder, 0o755)
        it.expect(["serve", "--file", it.good, "--port", port, "--connections", "1"], "land: cannot listen",
                  f"port {port} of 127.0.0.1 is in use by process {server.pid} (land)", "--port")
    finally:
        server.kill()
        server.wait()
    other = it.copy("other.land")
    base = sqlite3.connect(other, isolation_level=None)
    base.execute("BEGIN IMMEDIATE")
    base.execute("UPDATE unit SET name = 'x'")
    it.expect(["check", "--file", other], "land: cannot open", f"{other} is open in process {os.getpid()} (")
    base.execute("ROLLBACK")
    base.close()


def check_contents(it):
    """The content is the cause."""
    closed, restore = "land: cannot open", "restore a backup of it"
    with open(it.path("garbage.land"), "wb") as sink:
        sink.write(b"no database" * 999)
    it.expect(["check", "--file", it.path("garbage.land")], closed, "garbage.land is not a SQLite database", restore)
    cut = it.copy("cut.land")
    os.truncate(cut, os.path.getsize(cut) - 8192)
    it.expect(["check", "--file", cut], closed, "cut.land is truncated", restore)
    longer = it.copy("longer.land")
    with open(longer, "ab") as sink:
        sink.write(bytes(8192))
    it.expect(["check", "--file", longer], closed, "has pages after its end", f"sqlite3 {longer} VACUUM")
    wrong = it.bytes(it.copy("wrong.land"), 4096, os.urandom(4096))
    it.expect(["check", "--file", wrong], closed, wrong + " is damaged", restore)
    wide = it.path("wide.land")
    it.sql(wide, "PRAGMA encoding = 'UTF-16le'", "CREATE TABLE edition (id INTEGER)")
    it.expect(["check", "--file", wide], closed, "has the encoding UTF-16", f"sqlite3 {wide} .dump | sqlite3 COPY")
    vacuumed = it.sql(it.copy("vacuumed.land"), "PRAGMA auto_vacuum = 1", "VACUUM")
    it.expect(["check", "--file", vacuumed], closed, "has auto_vacuum", "PRAGMA auto_vacuum = NONE; VACUUM")
    reserved = it.bytes(it.copy("reserved.land"), 20, b"\x08")
    it.expect(["check", "--file", reserved], closed, "reserves bytes in each page")
    check_journal(it)
    open(it.path("empty.land"), "wb").close()
    it.expect(["check", "--file", it.path("empty.land")], "land: fault 520", "empty.land is empty", "land new --file " + it.path("empty.land"))
    viewed = it.sql(it.copy("viewed.land"), "CREATE VIEW v AS SELECT 1")
    it.expect(["check", "--file", viewed], "land: fault 520", "has a table, column, view, trigger or index", restore)
    overlapping = it.sql(it.copy("overlapping.land"), "UPDATE party SET since = 5")
    it.expect(["check", "--file", overlapping], "land: fault 521", "was damaged or changed by another program", restore)
    unsound = it.sql(it.copy("unsound.land"), "DELETE FROM role")
    it.expect(["check", "--file", unsound], "land: fault 522", "was damaged or changed by another program", restore)
    old = it.path("old.land")
    packed = os.path.join(TOP, ".ci", "fixtures", "v1", "scenario-1.land.gz")
    with open(old, "wb") as sink:
        subprocess.run(["gzip", "-dc", packed], stdout=sink, check=True)
    it.expect(["serve", "--file", old, "--port", "1", "--connections", "1"], "land: fault 523", f"({old}-wal)", "land migrate --file " + old)
    it.expect(["migrate", "--file", it.good], "land: fault 523", "is not of schema version 1")


def check_journal(it):
    """A program of SQLite was killed in a transaction. The remedy of the hint must work."""
    file = it.copy("journal.land")
    script = "import os, sqlite3, sys\nb = sqlite3.connect(sys.argv[1], isolation_level=None)\nb.execute('PRAGMA cache_size=1')\n" \
             "b.execute('BEGIN')\nb.execute(\"UPDATE party SET name = 'killed'\")\n" \
             "b.execute(\"WITH RECURSIVE n(i) AS (SELECT 5 UNION ALL SELECT i + 1 FROM n WHERE i < 5000) " \
             "INSERT INTO moments SELECT i, 2 FROM n\")\nos.kill(os.getpid(), 9)"
    subprocess.run(["/usr/bin/python3", "-c", script, file])
    it.expect(["check", "--file", file], "land: cannot open", f"left {file}-journal", "do not delete it", f"sqlite3 {file}")
    _, lines = on_terminal([EXPLAIN, it.program, "check", "--file", file])
    remedy = re.search(r"sqlite3 \S+ '[^']+'", lines[-1])
    subprocess.run(remedy[0] if remedy else "false", shell=True, capture_output=True)
    check("the remedy for a journal", it.run("check", "--file", file).returncode == 0, it.run("check", "--file", file))


def check_commands(it):
    """The command is the cause."""
    it.expect(["new", "--file", it.good], "land: fault 502", it.good + " already has a register, which is unchanged", "land check --file")
    other = it.path("tables.land")
    it.sql(other, "CREATE TABLE t (x)")
    it.expect(["new", "--file", other], "land: fault 502", "already has tables of another program")
    it.expect(["serve", "--file", it.good, "--port", "1", "--connections", "1"], "land: cannot listen", "port 1 needs root", before=AS_NOBODY_IN(it))
    it.expect(["extract", "--file", it.good, *EXTRACT, "--party", "1", "--role", "bank"], "land: denied 2", "rule 2 of the policy", "--role")
    it.expect(["extract", "--file", it.good, *EXTRACT, "--party", "1", "--role", "stateAdministrator", "--at", "99"], "land: fault 135", "--clock")
    full = ["bash", "-c", 'exec "$0" "$@" > /dev/full']
    line, words = "land: input or output failed", [it.program, "check", "--file", it.good]
    status, lines = on_terminal([*full, EXPLAIN, *words])
    check("a full disk: the hint", status == 1 and lines[:1] == [line] and len(lines) == 2 and "disk is full" in lines[1], lines)
    limited = ["bash", "-c", 'ulimit -v 30000; exec "$0" "$@"']
    status, lines = on_terminal([*limited, EXPLAIN, *words])
    check("out of memory or success", status == 0 or (lines[:1] == ["land: fault 501"] and "out of memory" in lines[1]), (status, lines))


def AS_NOBODY_IN(it):
    os.chmod(it.folder, 0o777)
    for path in (it.good, it.good + "-wal"):
        os.chmod(path, 0o666)
    return ["setpriv", "--reuid=65534", "--regid=65534", "--clear-groups", "--inh-caps=-all", "--bounding-set=-all", "--"]


def check_passing(it):
    """Without a failure, and for wrong arguments, everything is the program's; so is the status after a signal, and a kill ends the program."""
    for words in (["check", "--file", it.good], ["bogus"], ["serve", "--help"], ["check"], []):
        plain = it.run(*words)
        status, lines = on_terminal([EXPLAIN, it.program, *words])
        check(f"{words}: unchanged", (status, lines) == (plain.returncode, plain.stderr.splitlines()), (plain, status, lines))
    ran = subprocess.run([EXPLAIN, it.program, "check", "--file", it.good], capture_output=True, text=True)
    check("standard output is the program's", ran.stdout == it.run("check", "--file", it.good).stdout, ran)
    file = it.copy("killed.land")
    process = subprocess.Popen([EXPLAIN, it.program, "serve", "--file", file, "--port", "18997", "--connections", "9"], stderr=subprocess.DEVNULL)
    time.sleep(0.7)
    check("it is served", it.run("check", "--file", file).stderr == "land: cannot open\n")
    process.kill()
    process.wait()
    time.sleep(0.3)
    check("a killed explanation kills the program", it.run("check", "--file", file).returncode == 0)


def check_script():
    """./land of the repository adds the same hint on a terminal, and nothing without one. A request for help keeps status 2."""
    words = [os.path.join(TOP, "land"), "check", "--file", "/nowhere/x.land"]
    status, lines = on_terminal(words)
    check("./land on a terminal", status == 1 and lines[0] == "land: cannot open" and lines[1] == "hint: the folder /nowhere does not exist: "
          "create it, or check the path", (status, lines))
    ran = subprocess.run(words, capture_output=True, text=True)
    check("./land without a terminal", (ran.returncode, ran.stderr) == (1, "land: cannot open\n"), ran)
    check("./land --help on a terminal", on_terminal([words[0], "--help"])[0] == 2)


def check_messages():
    with tempfile.TemporaryDirectory(prefix="land-messages-") as folder:
        it = Messages(folder)
        check_paths(it)
        check_locks(it)
        check_contents(it)
        check_commands(it)
        check_passing(it)
    check_script()
