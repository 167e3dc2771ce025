"""Runs the commands of docs/MIRROR.md under Installation in a container with a running systemd, and then the units."""
import json
import os
import re
import subprocess
import time

from harness import check, note
from stack import TOP, Missing, program
from systemd_host import SystemdHost

POSTGRES = ["postgresql.service", "postgresql@.service"]
PACKAGE = ["land@.service", "land-queue.service", "land-backup@.service", "land-backup@.timer", "land-alert@.service", "land-mirror@.service",
           "land-mirror-read@.service"]
# The register, as DEPLOY.md installs it, without nginx.
REGISTER = """set -e
cp deploy/unit/*.service deploy/unit/*.timer /etc/systemd/system
install -d /usr/lib/land
for it in deploy/land-backup deploy/bin/land-ready; do [ ! -f "$it" ] || install "$it" /usr/lib/land; done
install /run/land-program /usr/lib/land/land
install -d -m 2755 -g www-data /etc/land
cp -r deploy/gateway/* /etc/land
install -m 644 -D deploy/unit/land.sysusers /usr/lib/sysusers.d/land.conf
install -m 644 -D deploy/unit/land.tmpfiles /usr/lib/tmpfiles.d/land.conf
systemctl daemon-reload
systemd-sysusers land.conf
systemd-tmpfiles --create land.conf
runuser -u land -- /usr/lib/land/land new --file /var/lib/land/north.land
echo PORT=8080 > /etc/land/north.env
systemctl start land@north
systemctl start postgresql@15-main postgresql
"""
READ = "curl -s -i -m 20 --unix-socket /run/land-mirror-north/read.sock -H 'Register-Party: 1' -H 'Register-Role: stateAdministrator'"


def commands():
    """Returns the commands of the section, without `apt-get`."""
    with open(os.path.join(TOP, "docs", "MIRROR.md"), encoding="utf-8") as source:
        part = re.search(r"(?ms)^## Installation\n(.*?)^## ", source.read())[1]
    text = "\n".join(re.findall(r"(?m)^    (.*)", part)).replace("\\\n", " ")
    lines = text.split("\n")
    by_hand = next(at for at, line in enumerate(lines) if line.startswith("apt-get "))
    return lines[by_hand + 1 :]


def wait(test, seconds=30):
    end = time.monotonic() + seconds
    while time.monotonic() < end:
        found = test()
        if found:
            return found
        time.sleep(0.2)
    return None


class Host:
    def __init__(self, host, by_queue=False):
        self.host, self.by_queue = host, by_queue

    def shell(self, text):
        return self.host.run("bash", "-c", text, stdin=subprocess.DEVNULL)

    def output(self, text):
        return self.shell(text).stdout.strip()

    def act(self, name):
        """Enrols a person, by the queue or at the register from inside its network."""
        way = "curl --unix-socket /run/land/queue.sock"
        if not self.by_queue:
            way = f"nsenter --target {self.output('systemctl show -P MainPID land@north')} --net curl"
        body = json.dumps({"kind": "naturalPerson", "name": name})
        return json.loads(self.output(f"{way} -s -m 20 -H 'Register-Party: 1' -H 'Register-Role: stateAdministrator' --data '{body}' "
                                      "http://127.0.0.1:8080/acts/enrol") or "{}")

    def read(self, target):
        return self.output(f"{READ} 'http://x{target}'")


def check_units(it):
    made = it.act("Anna")
    reply = it.read(f"/mirror/search/parties?q=ann&after={made.get('stamp')}")
    check("an act arrives in the mirror", '"name": "Anna"' in reply and f"register-stamp: {made.get('stamp')}" in reply, (made, reply))
    modes = it.output("stat -c '%U:%G %a' /var/lib/land /var/lib/land/north.land /var/lib/land/north.land-wal").split("\n")
    check("only the register writes its files", modes[0] == "land:land 750" and all(it.startswith("land:land 64") for it in modes[1:]),
          modes)
    pid = it.output("systemctl show -P MainPID land-mirror@north")
    status = it.output(f"grep -E '^(Uid|CapEff|NoNewPrivs)' /proc/{pid}/status")
    check("the feed has its own user and no capability", it.output("id -u land-mirror") in status and "0000000000000000" in status, status)
    inside = it.shell(f"nsenter --target {pid} --mount -- runuser -u land-mirror -- touch /var/lib/land/x")
    check("the feed's user cannot write the folder", inside.returncode != 0)
    other = it.shell("runuser -u nobody -- curl -s -m 5 --unix-socket /run/land-mirror-north/read.sock http://x/mirror/state")
    check("only nginx's group reaches the read gateway", other.returncode != 0, other.stdout)
    login = it.shell("runuser -u nobody -- psql -h /run/postgresql -U land_feed -c 'SELECT 1' north")
    check("no other user is land_feed", login.returncode != 0, login.stdout)


def check_restarts(it):
    for unit in ("land-mirror@north", "land-mirror-read@north"):
        pid = it.output(f"systemctl show -P MainPID {unit}")
        it.shell(f"kill -KILL {pid}")
        check(f"{unit} restarts after a kill", wait(lambda: it.output(f"systemctl is-active {unit}") == "active" and
                                                    it.output(f"systemctl show -P MainPID {unit}") != pid))
    made = it.act("Ben")
    found = wait(lambda: '"name": "Ben"' in it.read(f"/mirror/search/parties?q=ben&after={made['stamp']}"))
    check("and the mirror continues", found, it.output("journalctl -u land-mirror@north -n 5 -o cat --no-pager"))
    it.shell("systemctl restart postgresql@15-main")
    made = it.act("Carla")
    found = wait(lambda: '"name": "Carla"' in it.read(f"/mirror/search/parties?q=carla&after={made['stamp']}"))
    check("also after a restart of PostgreSQL", found, it.output("journalctl -u land-mirror@north -n 5 -o cat --no-pager"))


def check_stop(it):
    """A difference stops the mirror: the unit stays down, and an alert is raised."""
    it.shell("runuser -u postgres -- psql -q -d north -c \"SET session_replication_role = replica; UPDATE reg.party SET name = 'x'\"")
    it.shell("systemctl restart land-mirror@north")
    check("a difference stops the mirror", wait(lambda: it.output("systemctl show -P ExecMainStatus land-mirror@north") == "3" and
                                                it.output("systemctl is-active land-mirror@north") == "failed"),
          it.output("systemctl status land-mirror@north --no-pager"))
    check("it answers nothing", '{"mirror":"stopped"}' in it.read("/mirror/parties"), it.read("/mirror/parties"))
    check("an alert", wait(lambda: "land-mirror@north" in it.output("journalctl --no-pager -o cat -t land-alert; "
                                                                      "journalctl --no-pager -o cat -u 'land-alert@*'")))
    it.shell("runuser -u postgres -- /usr/lib/land/mirror/land-mirror install --replace --policy /usr/lib/land/mirror/policy.sql "
             "'host=/run/postgresql user=postgres' north && systemctl reset-failed land-mirror@north && systemctl start land-mirror@north")
    check("after a rebuild it answers", wait(lambda: '"name": "Carla"' in it.read("/mirror/search/parties?q=carla")),
          it.output("journalctl -u land-mirror@north -n 5 -o cat --no-pager"))


def run_package(folder, *_):
    """Installs the package and runs land-setup --mirror, twice."""
    try:
        container = SystemdHost(program(), units=POSTGRES + PACKAGE)
    except Missing as missing:
        return note(f"not tested, missing: {missing}")
    built = subprocess.run([os.path.join(TOP, "deploy", "debian", "build"), "--output", folder.scratch], capture_output=True, text=True,
                           env=os.environ | {"LAND": program()})
    if not check("the package is built", built.returncode == 0, built.stderr):
        return
    with container as host, open(built.stdout.strip(), "rb") as source:
        it = Host(host, by_queue=True)
        subprocess.run(["nsenter", "--target", str(host.first), "--all", "--", "sh", "-c", "cat > /root/land.deb"], stdin=source, check=True)
        ran = it.shell("rm -f /usr/sbin/policy-rc.d; dpkg --install --force-depends /root/land.deb && systemctl start postgresql@15-main postgresql")
        check("installation of the package", ran.returncode == 0, ran.stdout + ran.stderr)
        ran = it.shell("mv /usr/bin/pg_lsclusters /root; ln -s /bin/true /usr/bin/pg_lsclusters; "
                       "land-setup north land.example.org --mirror --no-prompt; mv -f /root/pg_lsclusters /usr/bin")
        check("without a cluster it says what to do", "no PostgreSQL cluster" in ran.stderr and "without a mirror" in ran.stderr, ran.stderr)
        for turn in ("land-setup --mirror", "land-setup --mirror, again"):
            ran = it.shell("land-setup north land.example.org --mirror --no-prompt")
            if not check(turn, ran.returncode == 0 and "answers at /mirror/" in ran.stdout, ran.stdout + ran.stderr):
                return
        check("it names no step that is done", "--mirror" not in ran.stdout, ran.stdout)
        hba = it.output("grep -c map=land /etc/postgresql/15/main/pg_hba.conf")
        check("a repetition adds no line", hba == "1", hba)
        check_units(it)
        check_restarts(it)
        password = it.output("openssl passwd -6 secret")
        it.shell(f"sed -i 's|^user office 1 .*|user office 1 {password}|' /etc/land/users.list; land-make-users /etc/land/users.list /etc/land; "
                 "systemctl reload nginx; sleep 1")
        reply = it.output("curl -sk -m 20 --resolve land.example.org:443:127.0.0.1 -u office:secret -H 'Register-Role: stateAdministrator' "
                          "'https://land.example.org/mirror/search/parties?q=carla'")
        check("a signed-in user searches through the site", '"name": "Carla"' in reply, reply)
        ran = it.shell("dpkg --remove land; systemctl is-active land-mirror@north land-mirror-read@north land@north")
        check("a removal stops the mirror", "\nactive" not in "\n" + ran.stdout.split("Removing")[-1], ran.stdout)
        ran = it.shell("dpkg --purge land; ls /etc/land/mirror-north.conf /etc/systemd/system/land@.service.d")
        check("a purge keeps the database and removes the configuration", "kept the database north" in ran.stdout and ran.returncode != 0,
              ran.stdout + ran.stderr)


def run(*_):
    try:
        container = SystemdHost(program(), units=POSTGRES)
    except Missing as missing:
        return note(f"not tested, missing: {missing}")
    with container as host:
        it = Host(host)
        ran = it.shell(REGISTER)
        if not check("the register and PostgreSQL run", ran.returncode == 0, ran.stdout + ran.stderr):
            return
        count = 0
        for line in commands():
            ran = it.shell(line)
            if not check("command: " + line[:100], ran.returncode == 0, ran.stdout + ran.stderr):
                return
            count += 1
        note(f"{count} commands of docs/MIRROR.md")
        check("both units run", wait(lambda: it.output("systemctl is-active land-mirror@north land-mirror-read@north").split() ==
                                     ["active", "active"] and "register-stamp" in it.read("/mirror/parties")),
              it.output("journalctl -u land-mirror@north -u land-mirror-read@north -n 20 -o cat --no-pager"))
        check_units(it)
        check_restarts(it)
        check_stop(it)
