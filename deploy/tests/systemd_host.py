"""A container with a running systemd: PID, mount, network, UTS, IPC and cgroup namespaces, with an overlay on this host's files. The host's
files do not change; the container's changes are discarded."""
import os
import shutil
import signal
import subprocess
import tempfile
import time

from stack import ROOT, TOP, Missing, need

SYSTEMD = "/lib/systemd/systemd"
# The units available at boot: all targets, and these services. The test installs the rest.
BASE = ["systemd-journald.service", "systemd-journald.socket", "systemd-journald-dev-log.socket", "nginx.service", "haproxy.service"]
# Capabilities that would affect the host, whose clock and kernel modules the container shares.
WITHOUT = ["setpriv", "--inh-caps=-sys_time,-sys_module", "--bounding-set=-sys_time,-sys_module"]
WANTED = {"sysinit.target": BASE[:1], "sockets.target": BASE[1:3], "multi-user.target": BASE[3:]}

# Creates the container's root (an overlay on the host's root) and executes systemd in it.
# $1: a folder, $2: the repository, $3: the root below the overlay.
BEGIN = """
set -eu
mount --make-rprivate /
mkdir -p "$1/layer" "$1/root"
mount -t tmpfs tmpfs "$1/layer"
mkdir "$1/layer/new" "$1/layer/work" "$1/layer/sources" "$1/layer/work-of-sources"
mount -t overlay overlay -o "lowerdir=$3,upperdir=$1/layer/new,workdir=$1/layer/work" "$1/root"
root=$1/root
mount -t proc proc "$root/proc"
mount --bind "$root/proc/sys" "$root/proc/sys"
mount -o remount,ro,bind "$root/proc/sys"
mount -t sysfs -o ro sysfs "$root/sys"
mount -t cgroup2 cgroup2 "$root/sys/fs/cgroup"
for it in run tmp dev; do mount -t tmpfs -o mode=755 tmpfs "$root/$it"; done
chmod 1777 "$root/tmp"
for it in null zero full random urandom tty; do touch "$root/dev/$it"; mount --bind "/dev/$it" "$root/dev/$it"; done
mkdir "$root/dev/shm" "$root/dev/pts" "$root/run/old" "$root/run/haproxy" "$root/srv/land"
mount -t devpts -o newinstance,ptmxmode=0666,mode=620 devpts "$root/dev/pts"
ln -s pts/ptmx "$root/dev/ptmx"
ln -s /proc/self/fd "$root/dev/fd"
mount -t overlay overlay -o "lowerdir=$2,upperdir=$1/layer/sources,workdir=$1/layer/work-of-sources" "$root/srv/land"
cp -a "$1/base" "$root/run/base"
cp "$1/land" "$root/run/land-program"
rm -rf "$root"/etc/systemd/system/*.wants "$root/etc/land" "$root/usr/share/land" "$root/usr/lib/land" "$root/var/lib/land"
cd "$root"
mount --bind run/old run/old
pivot_root . run/old
umount -l /run/old
cd /
# systemd mounts a unit's credentials in a namespace of their own, so without propagation no unit would see them. On a host of its own systemd
# does this itself.
mount --make-rshared /
export container=namespaces SYSTEMD_UNIT_PATH=/etc/systemd/system:/run/systemd/system:/run/base SYSTEMD_GENERATOR_PATH=/run/none
exec /lib/systemd/systemd --unit=multi-user.target --show-status=0
"""

# Creates a cgroup and runs the script above in it, in new namespaces. $1: a folder, $2: the repository, $3: the script, $4: the cgroup, $5: the root.
GROUP = """
set -eu
mkdir "$1/groups"
mount --make-rprivate /
mount -t cgroup2 cgroup2 "$1/groups"
mkdir "$1/groups/$4"
echo $$ > "$1/groups/$4/cgroup.procs"
umount "$1/groups"
exec setpriv --bounding-set=-sys_time,-sys_module \\
    unshare --pid --fork --kill-child --mount --net --uts --ipc --cgroup bash -c "$3" machine "$1" "$2" "$5"
"""

# Removes the cgroup and those that systemd created in it. $1: a folder, $4: the cgroup.
UNGROUP = """
mount --make-rprivate /
mount -t cgroup2 cgroup2 "$1/groups"
find "$1/groups/$4" -depth -type d -exec rmdir {} \\;
"""


class SystemdHost:
    """The container. `program` is mounted as /run/land-program, the repository as /srv/land.

    root    the folder below the overlay: this host's root, or that of another system
    units   further units that the container can see when a package installs them in /lib/systemd/system
    """

    def __init__(self, program, root="/", units=()):
        need("unshare", "nsenter", "setpriv", "nginx", "haproxy", "openssl", "curl")
        if not ROOT or not os.access(SYSTEMD, os.X_OK):
            raise Missing("root, and systemd" if not ROOT else SYSTEMD)
        self.folder = tempfile.mkdtemp(prefix="land-systemd-", dir="/var/tmp")
        self.name = os.path.basename(self.folder)
        shutil.copy(program, os.path.join(self.folder, "land"))
        self.root = root
        self.copy_units(units)
        self.log = open(os.path.join(self.folder, "log"), "w+", encoding="utf-8")
        self.outer = subprocess.Popen(self.command(GROUP, BEGIN), stdin=subprocess.DEVNULL, stdout=self.log, stderr=self.log,
                                      start_new_session=True)
        self.first = None
        self.wait_for_boot()

    def command(self, script, inner=""):
        return ["unshare", "--mount", "bash", "-c", script, "group", self.folder, TOP, inner, self.name, self.root]

    def copy_units(self, more):
        """Copies the units available at boot. The container sees no other units, except those of packages that it may install."""
        base = os.path.join(self.folder, "base")
        os.makedirs(base)
        units = "/usr/lib/systemd/system"
        for name in [it for it in os.listdir(units) if it.endswith(".target")] + BASE:
            if os.path.isfile(os.path.join(units, name)):
                shutil.copy(os.path.join(units, name), base)
        for name in more:
            os.symlink("/lib/systemd/system/" + name, os.path.join(base, name))
        for target, names in WANTED.items():
            os.makedirs(os.path.join(base, target + ".wants"))
            for name in names:
                os.symlink("../" + name, os.path.join(base, target + ".wants", name))

    def wait_for_boot(self):
        """Waits until systemd is running. Raises Missing if it cannot run here."""
        end = time.monotonic() + 60
        while time.monotonic() < end and self.outer.poll() is None:
            self.first = self.first or self.systemd_pid(self.outer.pid)
            if self.first and self.run("systemctl", "is-system-running").stdout.strip() in ("running", "degraded"):
                return
            time.sleep(0.1)
        self.log.seek(0)
        output = self.log.read()
        self.stop()
        raise Missing("a kernel that can run systemd in namespaces: " + output.strip()[-300:])

    @staticmethod
    def systemd_pid(pid):
        """Returns the id of the process's child if it is systemd, else None."""
        try:
            with open(f"/proc/{pid}/task/{pid}/children", encoding="ascii") as source:
                found = source.read().split()
            with open(f"/proc/{found[0]}/cmdline", "rb") as source:
                return int(found[0]) if source.read().startswith(SYSTEMD.encode()) else None
        except (OSError, IndexError):
            return None

    def run(self, *words, **more):
        """Runs a command in the container as root, in /srv/land."""
        entry = ["nsenter", "--target", str(self.first), "--all", "--wdns=/srv/land", "--", *WITHOUT, *words]
        return subprocess.run(entry, capture_output=True, text=True, timeout=120, **more)

    def shell(self, text):
        return self.run("bash", "-c", text)

    def stop(self):
        for pid in filter(None, (self.first, self.outer.pid)):
            try:
                os.kill(pid, signal.SIGKILL)
            except ProcessLookupError:
                pass
        self.outer.wait()
        self.log.close()
        subprocess.run(self.command(UNGROUP), capture_output=True)
        shutil.rmtree(self.folder, ignore_errors=True)

    def __enter__(self):
        return self

    def __exit__(self, *_):
        self.stop()
