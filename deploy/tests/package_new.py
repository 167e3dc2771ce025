"""`land new` of the package (land-new): the page size, owner and mode of a new file, and that a failure or a kill leaves no file."""
import os
import shutil
import signal
import subprocess
import tempfile
import time

from harness import check
from package_messages import AS_NOBODY, on_terminal
from stack import DEPLOY, page_size_of, program

NEW, EXPLAIN = (os.path.join(DEPLOY, "bin", it) for it in ("land-new", "land-explain"))
# Programs for LAND. $1 is the command, $REAL the tested program, $FILE the file to create.
SLOW = "sleep 30"
FULL = "echo 'land: fault 502' >&2; exit 1"
UNSOUND = "[ $1 != check ] || { echo 'land: fault 522' >&2; exit 1; }; exec $REAL \"$@\""
RACING = "[ $1 != check ] || echo 'another file' > $FILE; exec $REAL \"$@\""


class Folder:
    """A folder for one file, r.land."""

    def __init__(self, parent, name):
        self.path = os.path.join(parent, name)
        os.mkdir(self.path, 0o755)
        self.file = os.path.join(self.path, "r.land")

    def names(self):
        return sorted(os.listdir(self.path))

    def owners(self):
        """Returns the mode and the owner of each file."""
        found = {it.name: it.stat() for it in os.scandir(self.path)}
        return {name: (oct(it.st_mode & 0o7777), it.st_uid) for name, it in found.items()}


def script(parent, name, text):
    """Creates a program that replaces the tested one, and returns its path."""
    path = os.path.join(parent, name + ".sh")
    with open(path, "w", encoding="utf-8") as sink:
        sink.write(f"#!/bin/sh\n{text}\n")
    os.chmod(path, 0o755)
    return path


def new(file, land, before=()):
    """Runs land-new with a program."""
    more = {"LAND": land, "REAL": program(), "FILE": file}
    return subprocess.run([*before, NEW, "new", "--file", file], env={**os.environ, **more}, capture_output=True, text=True)


def check_created(it, land):
    """A new file must be as the program's, with other pages."""
    for words in (["--file", it.file], ["--file=" + it.file]):
        ran = subprocess.run([NEW, "new", *words], env={**os.environ, "LAND": land}, capture_output=True, text=True, umask=0o027)
        check(f"the file and its log, by {len(words)} words", ran.returncode == 0 and not ran.stdout + ran.stderr and
              it.owners() == dict.fromkeys(("r.land", "r.land-wal"), ("0o640", os.geteuid())), (ran, it.owners()))
        check("pages of 2,048 bytes", page_size_of(it.file) == 2048, page_size_of(it.file))
        for name in it.names():
            os.remove(os.path.join(it.path, name))
    os.chmod(it.path, 0o2777)
    shutil.chown(it.path, group="nogroup")
    ran = new(it.file, land, AS_NOBODY)
    found = os.stat(it.file)
    check("in a folder with a group", ran.returncode == 0 and (found.st_uid, found.st_gid) == (65534, os.stat(it.path).st_gid), (ran, found))
    ran = subprocess.run([land, "check", "--file", it.file], capture_output=True, text=True)
    check("it is a new register", ran.stdout == "sound: last 0, next 2\n", ran)
    with open(it.file, "rb") as source:
        before = source.read()
    ran = new(it.file, land)
    with open(it.file, "rb") as source:
        check("a register is not replaced", ran.returncode == 1 and ran.stderr == "land: fault 502\n" and source.read() == before, ran)


def check_failures(parent, land):
    """After a failure there must be no file, and the message must be the program's."""
    removed = "land-new: the new register is not valid, and was removed: land: fault 522\n"
    for name, text, message in (("full", FULL, "land: fault 502\n"), ("unsound", UNSOUND, removed)):
        it = Folder(parent, name)
        ran = new(it.file, script(parent, name, text))
        check(f"{name}: the message, and no file", ran.returncode == 1 and ran.stderr == message and not it.names(), (ran, it.names()))
    it = Folder(parent, "racing")
    ran = new(it.file, script(parent, "racing", RACING))
    with open(it.file, encoding="utf-8") as source:
        check("a file that appears meanwhile stays", ran.returncode == 1 and ran.stderr == "land: cannot open\n" and
              source.read() == "another file\n" and it.names() == ["r.land"], (ran, it.names()))
    it = Folder(parent, "closed")
    status, lines = on_terminal([*AS_NOBODY, EXPLAIN, NEW, "new", "--file", it.file], env={**os.environ, "LAND": land})
    check("a folder without permission: the line and the hint", status == 1 and lines[0] == "land: cannot open" and len(lines) == 2 and
          f"user nobody may not create files in {it.path}" in lines[1], lines)
    for words in ([], ["new"], ["new", "--file"], ["new", "--file", b"\xff"], ["new", "--file", "x", "--file", "y"], ["check", "--file", it.file]):
        mine, its = (subprocess.run([*call, *words], cwd=it.path, env={**os.environ, "LAND": land}, capture_output=True) for call in ([NEW], [land]))
        check(f"{words}: the program's message", mine.returncode == its.returncode and mine.stderr == its.stderr and not it.names(), (mine, its))


def check_kills(parent):
    """If it is killed while the program runs, there must be no file; after a signal that it can catch, nothing at all."""
    slow = script(parent, "slow", SLOW)
    for how in (signal.SIGTERM, signal.SIGINT, signal.SIGKILL):
        it = Folder(parent, how.name)
        process = subprocess.Popen([NEW, "new", "--file", it.file], env={**os.environ, "LAND": slow}, start_new_session=True)
        end = time.monotonic() + 30
        while not it.names() and time.monotonic() < end:
            time.sleep(0.02)
        time.sleep(0.3)
        os.killpg(process.pid, how)
        process.wait(30)
        left = it.names()
        check(f"{how.name}: no file", process.returncode != 0 and not os.path.exists(it.file) and (not left or how == signal.SIGKILL), left)


def check_new():
    land = program()
    with tempfile.TemporaryDirectory(prefix="land-new-") as folder:
        os.chmod(folder, 0o755)
        check_created(Folder(folder, "created"), land)
        check_failures(folder, land)
        check_kills(folder)
