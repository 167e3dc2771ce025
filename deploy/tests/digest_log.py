"""The signed log of digests (land-digest-log), used by the test `digest`: verification, appends, repairs and
publication. Each case has its exit status; each mutant of the script's checks must change that of its case."""
import hashlib
import http.client
import json
import os
import random
import re
import shutil
import signal
import sqlite3
import ssl
import subprocess
import tempfile
import time

from harness import check, note
from stack import DEPLOY, ROOT, TOP

SCRIPT, BACKUP = os.path.join(DEPLOY, "land-digest-log"), os.path.join(DEPLOY, "land-backup")
OFFICE = {"Register-Party": "1", "Register-Role": "stateAdministrator"}
NAME = "town"


class Office:
    """A folder with the key, the list of signers, the log and the copies of one register."""

    def __init__(self, program, folder, script=SCRIPT, name=NAME):
        self.program, self.folder, self.script, self.name = program, folder, script, name
        os.makedirs(folder, exist_ok=True)
        if not os.path.exists(self.path("key")):
            ran = self.log("keygen")
            check(f"keygen in {os.path.basename(folder)}", ran[0] == 0 and "SHA256:" in ran[1], ran)

    def path(self, name):
        return os.path.join(self.folder, name)

    def words(self, command, *options):
        places = {"--log": "log", "--signers": "signers", "--key": "key", "--copies": "copies"}
        given = [it for name, file in places.items() if name not in options for it in (name, self.path(file))]
        return ["sh", self.script, command, self.name, *given, *options]

    def log(self, command, *options, **environment):
        """Runs land-digest-log and returns its status and output."""
        ran = subprocess.run(self.words(command, *options), capture_output=True, text=True,
                             env={**os.environ, "LAND": self.program, **environment})
        return ran.returncode, (ran.stdout + ran.stderr).strip()

    def backup(self, file):
        ran = subprocess.run(["sh", BACKUP, file, self.path("copies"), "1000"], capture_output=True, text=True,
                             env={**os.environ, "LAND": self.program})
        return ran.returncode, (ran.stdout + ran.stderr).strip()

    def bytes(self):
        """Returns the log, or None without one."""
        if not os.path.exists(self.path("log")):
            return None
        with open(self.path("log"), "rb") as source:
            return source.read()

    def lines(self):
        with open(self.path("log"), encoding="ascii") as source:
            return source.read().splitlines(True)

    def write(self, lines):
        with open(self.path("log"), "wb") as sink:
            sink.write("".join(lines).encode("latin-1"))

    def signed(self, fields, space="land-digest"):
        """Returns a record of the given fields, signed with the office's key."""
        ran = subprocess.run(["ssh-keygen", "-q", "-Y", "sign", "-f", self.path("key"), "-n", space],
                             input=" ".join(fields) + "\n", capture_output=True, text=True, check=True)
        return " ".join(fields) + " " + "".join(ran.stdout.splitlines()[1:-1]) + "\n"

    def chained(self, records, space="land-digest"):
        """Returns the log of records, each given by its first six fields, with new hashes and signatures."""
        lines = []
        for fields in records:
            previous = hashlib.sha256(lines[-1].encode()).hexdigest() if lines else "0" * 64
            lines.append(self.signed([*fields[:6], previous], space))
        return lines

    def clone(self, folder, script=None):
        """Returns an office with the same files in another folder."""
        shutil.copytree(self.folder, folder)
        return Office(self.program, folder, script or self.script, self.name)


def fill(stack, office):
    """Logs six digests of a served register, with an act before each. Returns the copy before the last two acts."""
    stack.serve("small")
    stack.wait_for(lambda: os.path.exists(stack.path("run", "queue.sock")), "no queue")
    link = stack.queue_connection()
    for n in range(6):
        link.request("POST", "/acts/enrol", json.dumps({"kind": "naturalPerson", "name": f"Clerk {n}"}), OFFICE)
        link.getresponse().read()
        copy, ran = office.backup(stack.file("small")), office.log("append")
        check(f"record {n + 1} is appended", copy[0] == 0 and ran[0] == 0 and f"record {n + 1}, digest: " in ran[1], (copy, ran))
        if n == 3:
            older = copy[1].split()[0]
    link.close()
    stack.stop_process("register-small")
    return older


def fields(line):
    return line.split()


def edit(line, place, value):
    """Returns a line with another value of one field, counted from 1."""
    parts = line.rstrip("\n").split(" ")
    parts[place - 1] = value(parts[place - 1]) if callable(value) else value
    return " ".join(parts) + "\n"


def flipped(text):
    return text[:-1] + ("0" if text[-1] != "0" else "1")


def renumbered(lines):
    """Returns the lines with the numbers that their places have."""
    return [edit(edit(line, 1, str(n + 1)), 2, str(n)) for n, line in enumerate(lines)]


def changed(lines, place, field, value):
    return [edit(line, field, value) if n == place else line for n, line in enumerate(lines)]


def insider(office, lines, place, field, value):
    """Returns a log in which someone with the key has changed a record, and signed it and all later ones again."""
    return office.chained([fields(it) for it in changed(lines, place, field, value)])


# Manipulations of a log of six records, and the status of `verify`.
MANIPULATIONS = {
    "none": (0, lambda office, log: log),
    "a digest": (13, lambda office, log: changed(log, 2, 6, flipped)),
    "the last digest": (13, lambda office, log: changed(log, 5, 6, flipped)),
    "the last time": (13, lambda office, log: changed(log, 5, 3, "2099-01-01T00:00:00Z")),
    "a stamp": (13, lambda office, log: changed(log, 5, 5, "4102444799999")),
    "the signature of another record": (13, lambda office, log: changed(log, 3, 8, fields(log[2])[7])),
    "a signature in another namespace": (13, lambda office, log: office.chained([fields(it) for it in log], "file")),
    "a removed record": (11, lambda office, log: log[:2] + log[3:]),
    "a removed record, renumbered": (12, lambda office, log: renumbered(log[:2] + log[3:])),
    "the first record removed": (11, lambda office, log: log[1:]),
    "two records exchanged": (11, lambda office, log: log[:2] + [log[3], log[2]] + log[4:]),
    "a repeated record": (11, lambda office, log: log + [log[5]]),
    "a repeated record, renumbered": (12, lambda office, log: renumbered(log + [log[5]])),
    "the hash of the previous record, signed again": (12, lambda office, log: [
        *log[:5], office.signed([*fields(log[5])[:6], "0" * 64])]),
    "a changed digest, signed again": (12, lambda office, log: [
        *log[:2], office.signed([*fields(log[2])[:5], "0" * 64, fields(log[2])[6]]), *log[3:]]),
    "an earlier time, signed again": (11, lambda office, log: insider(office, log, 5, 3, "2020-01-01T00:00:00Z")),
    "an earlier stamp, signed again": (11, lambda office, log: insider(office, log, 5, 5, "1")),
    "continues itself, signed again": (11, lambda office, log: insider(office, log, 5, 2, "6")),
    "continues nothing, signed again": (11, lambda office, log: insider(office, log, 5, 2, "0")),
    "another register, signed again": (10, lambda office, log: insider(office, log, 5, 4, "village")),
    "a missing field": (10, lambda office, log: log[:5] + [" ".join(fields(log[5])[:7]) + "\n"]),
    "a second space": (10, lambda office, log: log[:5] + [log[5].replace(" ", "  ", 1)]),
    "a date that is not one": (10, lambda office, log: insider(office, log, 5, 3, "yesterday")),
    "an empty line": (10, lambda office, log: log[:3] + ["\n"] + log[3:]),
    "a carriage return": (10, lambda office, log: [*log[:5], log[5].replace("\n", "\r\n")]),
    "NUL": (10, lambda office, log: [*log[:5], log[5].replace("\n", "\0\n")]),
    "another number, signed again": (11, lambda office, log: insider(office, log, 5, 1, "7")),
    "an incomplete line": (10, lambda office, log: [*log[:5], log[5][:-1]]),
    "an empty log": (10, lambda office, log: []),
    "a truncated log": (0, lambda office, log: log[:5]),
}


class Case:
    """One run of the script in a folder of its own: `prepare` changes the folder, and the status must be the expected one."""

    def __init__(self, status, command, *options, prepare=None, part="", **environment):
        self.status, self.command, self.options, self.prepare = status, command, options, prepare
        self.part, self.environment = part, environment

    def faults(self, base, script=None):
        with tempfile.TemporaryDirectory(prefix="land-digest-") as folder:
            office = base.clone(os.path.join(folder, "office"), script)
            stop = self.prepare(office) if self.prepare else None
            before = office.bytes()
            options = [it.replace("@", office.folder + "/") for it in self.options]
            ran = office.log(self.command, *options, **self.environment)
            after = office.bytes()
            if stop:
                stop()
        found = [] if ran[0] == self.status and self.part in ran[1] else [f"status {ran[0]}, not {self.status}: {ran[1]}"]
        if ran[0] and not ran[1].splitlines()[-1:][0].startswith("land-digest-log: "):
            found.append("no message of one line: " + ran[1])
        if before is not None and (self.command != "append" or ran[0]) and before != after:
            found.append("the log was changed")
        return found


def manipulated(make):
    return lambda office: office.write(make(office, office.lines()))


def with_past(office, statement):
    """Adds a copy of the register with a changed past, without a stored digest."""
    newest = office.path("copies/" + sorted(os.listdir(office.path("copies")))[-1])
    shutil.copytree(newest, office.path("copies/29991231T235959Z-0"))
    os.remove(office.path("copies/29991231T235959Z-0/copy.digest"))
    with sqlite3.connect(office.path("copies/29991231T235959Z-0/copy.land")) as link:
        link.execute(statement)
    link.close()


def hold_lock(office):
    holder = subprocess.Popen(["flock", office.path("log"), "sleep", "60"], start_new_session=True)
    time.sleep(0.3)

    def stop():
        os.killpg(holder.pid, signal.SIGKILL)
        holder.wait()
    return stop


def other_key(office):
    os.remove(office.path("key"))
    subprocess.run(["ssh-keygen", "-q", "-t", "ed25519", "-N", "", "-f", office.path("key")], check=True)


def expire(office, day):
    with open(office.path("signers"), encoding="ascii") as source:
        text = source.read()
    with open(office.path("signers"), "w", encoding="ascii") as sink:
        sink.write(text.replace("namespaces=", f'valid-before="{day}",namespaces='))


def remove(*names):
    return lambda office: [os.remove(office.path(it)) for it in names] and None


def overwrite(name, data):
    def prepare(office):
        path = office.path(name.replace("NEWEST", "copies/" + sorted(os.listdir(office.path("copies")))[-1]))
        with open(path, "wb") as sink:
            sink.write(data)
    return prepare


def restore(office):
    """Leaves only the older copies, as if the register had been restored from the fourth."""
    for name in sorted(os.listdir(office.path("copies")))[4:]:
        shutil.rmtree(office.path("copies/" + name))


def cases(older):
    """Returns the cases by name. `older` is the name of the fourth copy."""
    changed_past = "UPDATE party SET name = 'Eva' WHERE number = 2"
    found = {f"verify: {name}": Case(status, "verify", prepare=manipulated(make))
             for name, (status, make) in MANIPULATIONS.items()}
    newest = "--file", "@newest.land"
    found |= {
        "verify: another key": Case(13, "verify", prepare=lambda office: (other_key(office), office.write(office.chained(
            [fields(it) for it in office.lines()])), None)[2]),
        "verify: a key that has expired": Case(13, "verify", prepare=lambda office: expire(office, "20200101")),
        "verify: a key that expired later": Case(0, "verify", prepare=lambda office: expire(office, "20980101")),
        "verify: truncated, against an earlier log": Case(14, "verify", "--extends", "@earlier", prepare=lambda office: (
            shutil.copy(office.path("log"), office.path("earlier")), office.write(office.lines()[:5]), None)[2]),
        "verify: signed again, against an earlier log": Case(14, "verify", "--extends", "@earlier", prepare=lambda office: (
            shutil.copy(office.path("log"), office.path("earlier")),
            office.write(insider(office, office.lines(), 5, 6, flipped)), None)[2]),
        "verify: against an earlier log": Case(0, "verify", "--extends", "@earlier", prepare=lambda office: (
            shutil.copy(office.path("log"), office.path("earlier")), None)[1]),
        "verify: old": Case(16, "verify", "--max-age", "1", prepare=manipulated(lambda office, log: office.chained(
            [[*fields(it)[:2], "2026-01-01T00:00:00Z", *fields(it)[3:]] for it in log]))),
        "verify: not old": Case(0, "verify", "--max-age", "1"),
        "verify: no log": Case(3, "verify", prepare=remove("log")),
        "verify: no signers": Case(3, "verify", prepare=remove("signers")),
        "verify: the register": Case(0, "verify", *newest, part="6 of 6 records"),
        "verify: the newest records": Case(0, "verify", *newest, "--newest", "2", part="2 of 2 records"),
        "verify: a changed past": Case(15, "verify", "--file", "@changed.land", part="record 6 has"),
        "verify: a change after the third record": Case(15, "verify", "--file", "@late.land"),
        "verify: only the last record differs": Case(15, "verify", *newest, prepare=manipulated(
            lambda office, log: insider(office, log, 5, 6, flipped))),
        "verify: only the first record differs": Case(15, "verify", *newest, prepare=manipulated(
            lambda office, log: insider(office, log, 0, 6, flipped))),
        "verify: an older copy": Case(17, "verify", "--file", f"@copies/{older}/copy.land", part="record 6 "),
        "verify: an older copy, as such": Case(0, "verify", "--file", f"@copies/{older}/copy.land", "--older",
                                               part="4 of 6 records"),
        "verify: a file that is missing": Case(3, "verify", "--file", "@none"),
        "verify: a file that is not a register": Case(4, "verify", "--file", "@signers"),
        "append": Case(0, "append"),
        "append: to no log": Case(0, "append", prepare=remove("log"), part="record 1, "),
        "append: no key": Case(3, "append", prepare=remove("key")),
        "append: no signers": Case(3, "append", prepare=remove("signers")),
        "append: a key that is not in the list": Case(13, "append", prepare=other_key, part="is not in"),
        "append: no copies": Case(3, "append", "--copies", "@none"),
        "append: a damaged copy": Case(4, "append", prepare=overwrite("NEWEST/copy.land", b"SQLite")),
        "append: not the stored digest": Case(5, "append", prepare=overwrite("NEWEST/copy.digest", b"digest: 0 " + b"0" * 64)),
        "append: no folder for the log": Case(6, "append", "--log", "@none/log"),
        "append: locked": Case(7, "append", prepare=hold_lock, LOCK_SECONDS="1"),
        "append: a log of another kind": Case(10, "append", prepare=overwrite("log", b"hello\n")),
        "append: a removed record": Case(11, "append", prepare=manipulated(lambda office, log: log[:2] + log[3:])),
        "append: a manipulated last record": Case(13, "append", prepare=manipulated(
            lambda office, log: changed(log, 5, 6, flipped)), part="record 6"),
        "append: a newest record of the future": Case(11, "append", prepare=manipulated(
            lambda office, log: insider(office, log, 5, 3, "2099-01-01T00:00:00Z")), part="clock"),
        "append: a changed past": Case(15, "append", prepare=lambda office: with_past(office, changed_past),
                                       part="has changed its past"),
        "append: another register": Case(15, "append", "--restored",
                                         prepare=lambda office: with_past(office, changed_past), part="no record"),
        "append: a copy that differs": Case(15, "append", prepare=overwrite("NEWEST/copy.digest.differs", b""), part="differs"),
        "append: after a restore": Case(15, "append", prepare=restore, part="--restored"),
        "append: after a restore, stated": Case(0, "append", "--restored", prepare=restore, part="records 5 to 6 are not"),
    }
    return found


# Arguments that the script must reject with its usage.
WRONG_ARGUMENTS = ["", "bogus town", "verify", "verify ../x", "verify North", "verify town --key", "verify town --restored 1",
                   "append town --file x", "verify town --newest 0", "verify town --newest x", "verify town --max-age -1",
                   "verify town --older", "verify town more"]


def check_arguments():
    for words in WRONG_ARGUMENTS:
        ran = subprocess.run(["sh", SCRIPT, *words.split()], capture_output=True, text=True)
        is_usage = ran.returncode == 2 and "usage: land-digest-log keygen" in ran.stderr and not ran.stdout
        check(f"arguments {words!r}", is_usage, ran)


# Mutants of the script: a name, the replacement, and the case that must fail.
MUTANTS = [
    ("no check of the characters", "$8 !~ /^[A-Za-z0-9+\\/]+=*$/", "0", "verify: NUL"),
    ("no check of the last line feed", '''|| [ "$(tail -c 1 "$1" | od -An -tu1 | tr -d ' ')" = 10 ]''', "|| true",
     "verify: an incomplete line"),
    ("no check of spaces", '        $0 != $1 " " $2', '        0 && $0 != $1 " " $2', "verify: a second space"),
    ("no check of the time", "!is_time($3) ||", "", "verify: a date that is not one"),
    ("no check of the name", '$4 "" != name ""', "0", "verify: another register, signed again"),
    ("no check of the number", "$1 + 0 != NR {", "0 {", "verify: another number, signed again"),
    ("no check of continuation", "$2 + 0 >= NR ||", "", "verify: continues itself, signed again"),
    ("no check of the first record", "NR > 1 && $2 + 0 == 0 {", "0 {", "verify: continues nothing, signed again"),
    ("no check of the order of time", '$3 "" < last "" {', "0 {", "verify: an earlier time, signed again"),
    ("no check of the order of stamps", "NR > 1 && $5 + 0 < stamp[$2 + 0] {", "0 {", "verify: an earlier stamp, signed again"),
    ("no check of the chain", '[ "$previous" = "$hash" ]', "true", "verify: a changed digest, signed again"),
    ("no check of signatures", '|| has_valid_signature || signature_error\n        progress', "|| true\n        progress",
     "verify: the last digest"),
    ("any key", "ssh-keygen -Y verify -f", "ssh-keygen -Y check-novalidate -f", "verify: another key"),
    ("the key's period at the time of the check", ''' -O "verify-time=$(echo "$time" | tr -d ':T-')"''', ' -O "verify-time=20190101"',
     "verify: a key that has expired"),
    ("no comparison with the earlier log", '[ -z "$extends" ] || check_extends', ":", "verify: truncated, against an earlier log"),
    ("no check of the age", '[ -z "$max_age" ] || check_age', ":", "verify: old"),
    ("no comparison with the file", '[ -z "$file" ] || compare_file', ":", "verify: a changed past"),
    ("only the newest record is compared", 'head -n "$newest_only" >', "head -n 1 >", "verify: only the first record differs"),
    ("the newest record is not compared", 'head -n "$newest_only" >', "tail -n +2 >", "verify: only the last record differs"),
    ("a file that lacks acts", '[ -n "$older" ] ||\n', "true ||\n", "verify: an older copy"),
    ("digests up to now", "${1:+--at", "${9:+--at", "verify: the register"),
    ("no comparison with the stored digest", '[ ! -e "$copies/$newest/copy.digest" ]', "true", "append: not the stored digest"),
    ("no check of a copy that differs", '[ ! -e "$copies/$newest/copy.digest.differs" ]', "true", "append: a copy that differs"),
    ("no lock", 'flock -w "$LOCK_SECONDS" 9', "true", "append: locked"),
    ("no check of the log before an append", '    check_records "$log"\n', "", "append: a removed record"),
    ("no check of the last signature", "        has_valid_signature || signature_error\n", "",
     "append: a manipulated last record"),
    ("no check of the clock", '[ "$(printf', ': "$(printf', "append: a newest record of the future"),
    ("no comparison with the log", "        find_continued\n", "        continued=$last\n", "append: a changed past"),
    ("always after a restore", '[ -n "$restored" ] ||\n', "true ||\n", "append: after a restore"),
    ("no check of the own signature", "    has_valid_signature ||\n        fail 13", "    true ||\n        fail 13",
     "append: a key that is not in the list"),
]


def check_mutants(office, known):
    with open(SCRIPT, encoding="utf-8") as source:
        text = source.read()
    for name, old, new, case in MUTANTS:
        with tempfile.NamedTemporaryFile("w", suffix=".sh") as script:
            script.write(text.replace(old, new))
            script.flush()
            check(f"mutant of the script '{name}' is killed", old in text and known[case].faults(office, script.name), case)


def check_interruptions(office):
    """An append that was killed must leave a log that verifies or that the next append repairs, with all earlier records."""
    lines = office.lines()
    with open(SCRIPT, encoding="utf-8") as source:
        script_text = source.read()
    last, whole = lines[-1], "".join(lines)
    with tempfile.TemporaryDirectory(prefix="land-digest-") as folder:
        other, wrong = office.clone(os.path.join(folder, "office")), []
        cuts = sorted({1, 2, len(last) - 2, len(last) - 1, *range(3, len(last), 41)})
        for cut in cuts:
            other.write([*lines[:-1], last[:cut]])
            ran, found = other.log("append"), other.lines()
            kept = lines if cut == len(last) - 1 else lines[:-1]
            if ran[0] or found[:len(kept)] != kept or len(found) != len(kept) + 1 or other.log("verify")[0]:
                wrong.append((cut, ran))
        check(f"{len(cuts)} incomplete records are repaired, and only a complete one stays", not wrong, wrong)
        other.write([whole, "\0" * 50])
        ran = other.log("append")
        check("zeros after a power failure are removed", ran[0] == 0 and other.lines()[:6] == lines
              and other.log("verify")[0] == 0, ran)
        mutant = os.path.join(folder, "mutant.sh")
        with open(mutant, "w", encoding="utf-8") as sink:
            sink.write(script_text.replace("        has_valid_signature; then", "        false; then"))
        other.write([*lines[:-1], last[:-1]])
        ran = Office(other.program, other.folder, mutant).log("append")
        check("mutant of the script 'a complete record is removed' is killed", ran[0] == 0 and other.lines()[:6] != lines, ran)
        other.write(lines)
        check_kills(other)


def check_kills(office, count=40):
    began = time.monotonic()
    office.log("append")
    took, chance, wrong, torn = time.monotonic() - began, random.Random(2), [], 0
    for _ in range(count):
        with open(office.path("log"), "rb") as source:
            before = source.read()
        process = subprocess.Popen(office.words("append"), env={**os.environ, "LAND": office.program}, start_new_session=True,
                                   stdout=subprocess.DEVNULL, stderr=subprocess.DEVNULL)
        time.sleep(chance.random() * 1.3 * took)
        try:
            os.killpg(process.pid, signal.SIGKILL)
        except ProcessLookupError:
            pass
        process.wait()
        with open(office.path("log"), "rb") as source:
            after = source.read()
        torn += not after.endswith(b"\n")
        if not after.startswith(before[:before.rfind(b"\n") + 1]):
            wrong.append((before[-300:], after[-300:]))
    ran, verified = office.log("append"), office.log("verify")
    check(f"{count} killed appends lose no record", not wrong and ran[0] == 0 and verified[0] == 0, (wrong, ran, verified))
    note(f"{count} appends killed within {1.3 * took:.2f} s: {len(office.lines()) - 8} records were appended, "
         f"{torn} were incomplete")


FULL = """
mount -t tmpfs -o size=4k tmpfs "$1"
cp "$2" "$1/log"
head -c 100000 /dev/zero > "$1/filler" 2> /dev/null
sh "$3" append town --log "$1/log" --signers "$4/signers" --key "$4/key" --copies "$4/copies"
echo "full: $?"
cmp "$2" "$1/log" && echo unchanged
mount -o remount,size=64k "$1"
sh "$3" append town --log "$1/log" --signers "$4/signers" --key "$4/key" --copies "$4/copies"
echo "space: $?"
sh "$3" verify town --log "$1/log" --signers "$4/signers"
echo "verified: $?"
"""


def full_disk_output(office, script):
    """Appends to a log on a full disk, then with space. Returns the output."""
    with tempfile.TemporaryDirectory(prefix="land-digest-") as folder:
        mounted, other = os.path.join(folder, "full"), office.clone(os.path.join(folder, "office"))
        os.mkdir(mounted)
        record = len(other.lines()[-1])
        while os.path.getsize(other.path("log")) + record <= 4096:     # so that only a part of the next record fits in a page
            other.log("append")
        words = ["unshare", "--mount", "--propagation=private", "bash", "-c", FULL, "full", mounted, other.path("log"), script,
                 other.folder]
        ran = subprocess.run(words, capture_output=True, text=True, env={**os.environ, "LAND": office.program})
        return ran.stdout + ran.stderr


def check_full_disk(office):
    if not ROOT:
        note("a full disk is tested only as root")
        return
    found = full_disk_output(office, SCRIPT)
    check("an append on a full disk leaves the log unchanged", "full: 6\nunchanged\n" in found and "No space left" in found, found)
    check("the next one appends", "space: 0" in found and "verified: 0" in found, found)
    with tempfile.NamedTemporaryFile("w", suffix=".sh") as script:
        with open(SCRIPT, encoding="utf-8") as source:
            text = source.read()
        script.write(text.replace('truncate -s "$size" "$log"', ":"))
        script.flush()
        found = full_disk_output(office, script.name)
        check("mutant of the script 'a partial record stays' is killed",
              "full: 6\n" in found and "\nunchanged\n" not in found, found)


def check_at_once(office, script=SCRIPT):
    """Appends eight records at the same time."""
    with tempfile.TemporaryDirectory(prefix="land-digest-") as folder:
        other = office.clone(os.path.join(folder, "office"))
        all_at_once = [subprocess.Popen(other.words("append"), env={**os.environ, "LAND": other.program},
                                        stdout=subprocess.PIPE, stderr=subprocess.STDOUT, text=True) for _ in range(8)]
        output = [(it.communicate()[0], it.returncode) for it in all_at_once]
        verified = other.log("verify")
    check("eight appends at the same time", all(status == 0 for _, status in output) and verified[0] == 0
          and "14 records" in verified[1], (output, verified))


def check_restored(office, older_file):
    """After a restore that was stated, the register must be compared only with the records of its history."""
    with tempfile.TemporaryDirectory(prefix="land-digest-") as folder:
        other = office.clone(os.path.join(folder, "office"))
        restore(other)
        other.log("append", "--restored")
        ran = other.log("verify", "--file", os.path.join(other.folder, os.path.relpath(older_file, office.folder)))
        check("after a restore", ran[0] == 0 and "5 of 5 records" in ran[1] and "2 records are not of its history" in ran[1], ran)
        shown = other.log("show")[1].splitlines()
        check("show marks it", len(shown) == 7 and shown[6].endswith("(restored: continues record 4)")
              and "digest: " in shown[0], shown)


def commands_of(heading):
    """Returns the code blocks of a section of DEPLOY.md, without curl: the files exist."""
    with open(os.path.join(TOP, "docs", "DEPLOY.md"), encoding="utf-8") as source:
        part = re.search(rf"(?ms)^### {heading}\n(.*?)(?=^#|\Z)", source.read())[1]
    blocks = [re.findall(r"(?m)^    (.*)", it) for it in re.findall(r"(?m)(?:^    .*\n)+", part)]
    return [[it for it in block if not it.startswith("curl ")] for block in blocks]


def check_commands(office):
    """Runs DEPLOY.md's commands that compare, in a folder with the files of a citizen, a court and another office."""
    with tempfile.TemporaryDirectory(prefix="land-digest-") as folder:
        lines, newest = office.lines(), sorted(os.listdir(office.path("copies")))[-1]
        for name, count in (("north.log", 6), ("earlier.log", 4), ("truncated.log", 3)):
            with open(os.path.join(folder, name), "w", encoding="ascii") as sink:
                sink.writelines(lines[:count])
        shutil.copy(office.path("signers"), os.path.join(folder, "north.signers"))
        shutil.copytree(office.path("copies"), os.path.join(folder, "copies"))
        shutil.copytree(office.path("copies/" + newest), folder, dirs_exist_ok=True)
        os.symlink(SCRIPT, os.path.join(folder, "land-digest-log"))
        ran, statuses = None, []
        for block in commands_of("Compare"):
            text = "\n".join(block).replace(" north ", f" {NAME} ")
            ran = subprocess.run(["bash", "-e", "-c", text], capture_output=True, text=True, cwd=folder,
                                 env={**os.environ, "LAND": office.program, "PATH": folder + ":" + os.environ["PATH"]})
            statuses.append(ran.returncode)
            check("DEPLOY.md: " + block[-1], ran.returncode == 0, ran)
        check("there are five blocks of commands", len(statuses) == 5, statuses)
        shutil.copy(os.path.join(folder, "truncated.log"), os.path.join(folder, "north.log"))
        ran = subprocess.run(["bash", "-c", "\n".join(commands_of("Compare")[2])], capture_output=True, text=True, cwd=folder)
        check("without the script a truncated log is found", ran.returncode != 0 and "EOF" in ran.stderr, ran)


def ask(stack, target, method="GET"):
    """Sends a request over TLS without a password."""
    link = http.client.HTTPSConnection("127.0.0.1", stack.gateway_port, context=ssl._create_unverified_context(), timeout=40)
    link.request(method, target)
    reply = link.getresponse()
    text = reply.read()
    link.close()
    return reply.status, text, reply


def gateway_faults(stack, office):
    """Returns the faults of the published log: it is for anyone, the key for nobody."""
    found = []
    for target, name in (("/digests/town.log", "log"), ("/digests/town.signers", "signers")):
        status, text, reply = ask(stack, target)
        with open(office.path(name), "rb") as source:
            found += [] if status == 200 and text == source.read() else [(target, status, text[:80])]
        headers = {it: reply.headers.get_all(it) for it in ("Cache-Control", "X-Content-Type-Options", "Content-Type")}
        if headers != {"Cache-Control": ["no-store"], "X-Content-Type-Options": ["nosniff"], "Content-Type": ["text/plain"]}:
            found.append((target, headers))
        for method in ("POST", "PUT", "DELETE"):
            status, text, _ = ask(stack, target, method)
            found += [] if status in (403, 405) and text == b'{"gateway":"refused"}' else [(method, target, status, text)]
    for target in ("/digests/town.key", "/digests/town.signers/../town.key", "/digests/..%2fdigests%2ftown.key",
                   "/digests/town.key%00.log", "/digests/none.log", "/digests/", "/digests/town.log/",
                   "/digests/town.logs", "/digests/town.keyxlog", "/digests/.log"):
        status, text, _ = ask(stack, target)
        found += [] if status in (400, 401, 404) and b"PRIVATE" not in text else [(target, status, text[:80])]
    return found


GATEWAY_MUTANTS = [
    ("any ending", '\\.signers\\z"', '\\.[a-z]*\\z"', "digests_of.signers;", "digests_of.key;"),
    ("with a password", "auth_basic off;", "", "", ""),
    ("any method", "limit_except GET { deny all; }", "", "default_type text/plain;", "return 200 x;"),
    ("no header fields", "include /etc/land/answer-headers.conf;", "", "", ""),
    ("the type of a file name", "types { }", "", "text/plain", "application/json"),
]


def check_gateway(stack, office):
    """Publishes the log by the gateway."""
    os.makedirs(stack.path("digests"), exist_ok=True)
    os.makedirs(stack.path("etc", "digests"), exist_ok=True)
    shutil.copy(office.path("log"), stack.path("digests", "town.log"))
    shutil.copy(office.path("signers"), stack.path("etc", "digests", "town.signers"))
    shutil.copy(office.path("key"), stack.path("etc", "digests", "town.key"))
    for name in ("digests", "etc/digests"):
        os.chmod(stack.path(name), 0o755)
    os.chmod(stack.path("digests", "town.log"), 0o644)
    os.chmod(stack.path("etc", "digests", "town.signers"), 0o644)
    os.chmod(stack.path("etc", "digests", "town.key"), 0o600)
    stack.start_gateway()
    faults = gateway_faults(stack, office)
    check("the gateway publishes the log and the signers, and not the key", not faults, faults)
    for name, *pairs in GATEWAY_MUTANTS:
        stack.stop_process("gateway")
        if name == "any ending":
            os.chmod(stack.path("etc", "digests", "town.key"), 0o644)
        stack.write_files([("digests.conf", old, new) for old, new in zip(pairs[::2], pairs[1::2]) if old])
        stack.start_gateway()
        check(f"mutant of the gateway '{name}' is killed", gateway_faults(stack, office))
        os.chmod(stack.path("etc", "digests", "town.key"), 0o600)
    stack.stop_process("gateway")
    stack.write_files()


def prepare_files(office, small):
    """Creates registers that the cases compare: the newest, one with a changed past, and one with a late change."""
    for name, statement in (("newest", None), ("changed", "UPDATE party SET name = 'Eva' WHERE number = 2"),
                            ("late", "UPDATE party SET name = 'Clerk X' WHERE name = 'Clerk 3'")):
        for end in ("", "-wal"):
            if os.path.exists(small + end):
                shutil.copy(small + end, office.path(name + ".land" + end))
        if statement:
            with sqlite3.connect(office.path(name + ".land")) as link:
                link.execute(statement)
            link.close()


def check_log(stack, small):
    """Tests the log of digests, with the file of a register that is not served."""
    office = Office(stack.program, stack.path("office"))
    ran = office.log("keygen")
    check("keygen replaces no key", ran[0] == 3 and "exists" in ran[1], ran)
    check("only its owner can read the key", os.stat(office.path("key")).st_mode & 0o777 == 0o600)
    older = fill(stack, office)
    prepare_files(office, small)
    check_arguments()
    known = cases(os.path.basename(older))
    for name, case in known.items():
        faults = case.faults(office)
        check(name, not faults, faults)
    check_mutants(office, known)
    check_restored(office, os.path.join(older, "copy.land"))
    check_commands(office)
    check_interruptions(office)
    check_full_disk(office)
    check_at_once(office)
    check_gateway(stack, office)
    note(f"{len(known)} cases and {len(MUTANTS) + 2} mutants of land-digest-log, {len(GATEWAY_MUTANTS)} of the gateway")
