"""For the tests of the page: the whole stack, with a mirror if PostgreSQL is installed."""
import contextlib
import os
import shutil
import subprocess
import time

import mirror_cluster
from harness import note
from stack import DEPLOY, Missing, Stack


@contextlib.contextmanager
def plain_stack():
    """Yields a stack without a mirror, and without limits on requests."""
    with Stack(limits=False) as stack:
        stack.create_register()
        stack.start()
        yield stack


def mirror_is_missing():
    """Returns the name of a missing requirement of a mirror, or None."""
    try:
        mirror_cluster.need()
    except Missing as missing:
        return str(missing)
    return None


@contextlib.contextmanager
def mirrored_stack():
    """Yields a stack whose register is mirrored: PostgreSQL, the feed and the read gateway, behind nginx at /mirror/."""
    with mirror_cluster.Folder() as folder, mirror_cluster.Server(folder) as server, contextlib.ExitStack() as ends:
        os.mkdir(os.path.join(folder.path, "read"), 0o755)
        shutil.chown(os.path.join(folder.path, "read"), "nobody")
        socket = os.path.join(folder.path, "read", "read.sock")
        snippet = os.path.join(folder.path, "mirror.conf")
        edit = ("register.conf", "    include /etc/land/server.conf;\n",
                f"    include /etc/land/server.conf;\n    include {snippet};\n")
        stack = ends.enter_context(Stack(limits=False, edits=[edit]))
        with open(os.path.join(DEPLOY, "mirror", "mirror.conf"), encoding="utf-8") as source:
            text = source.read().replace("/run/land-mirror-north/read.sock", socket)
        with open(snippet, "w", encoding="utf-8") as sink:
            sink.write(text.replace("/etc/land/", stack.path("etc") + "/"))
        os.chmod(snippet, 0o644)
        stack.create_register()
        stack.start()
        server.install("page")
        feed = mirror_cluster.start_feed(folder, server, "page", stack.file(), "--audit-every", 600)
        stack.lost = False          # whether a test stops PostgreSQL, so that the feed exits
        ends.callback(end_process, stack, feed)
        words = [mirror_cluster.MIRROR, "serve", "--socket", socket, "--prefix", "/mirror",
            server.dsn("land_gateway", "page")]
        reader = subprocess.Popen(words, preexec_fn=mirror_cluster.user("nobody"), cwd="/",
            stderr=subprocess.PIPE, text=True)
        ends.callback(end_process, stack, reader)
        stack.wait_for(lambda: os.path.exists(socket) or reader.poll() is not None,
            "the read gateway does not start")
        stack.mirror = server
        yield stack


def end_process(stack, process):
    """Ends a process, and reports its messages if it had ended before."""
    early = process.poll() is not None
    process.kill()
    printed = process.communicate()[1]
    if early and not stack.lost:
        note("ended early:", printed[-300:])


def wait_for_mirror(stack, count, seconds=60):
    """Waits until the mirror has so many parties, units, parcels, entries, sources and mutations together."""
    end = time.monotonic() + seconds
    words = " + ".join(f"(SELECT count(*) FROM reg.{kind})"
        for kind in ("party", "unit", "parcel", "rrr", "source", "mutation"))
    while time.monotonic() < end:
        with stack.mirror.connect("postgres", "page") as db, db.cursor() as cursor:
            cursor.execute("SELECT " + words)
            if cursor.fetchone()[0] >= count:
                return True
        time.sleep(0.1)
    return False
