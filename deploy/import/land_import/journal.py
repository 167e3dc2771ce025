"""The journal: which act was executed, and which numbers it created. A text file to which one line is appended for each reply.

    {"land-import": 1, "base": 2}               the number of the first new object
    {"run": "5e0c.."}                           a run began, with this fingerprint of the source and the mapping
    ["enrol","p17",2,2,"0f3b7c21d4e5"]          phase, key, first and last new number, digest of the request
    ["enrol","p18","fault 133","0f3b7c21d4e6"]  refused, with the reply
    {"end": 3}                                  the run ended, with this next number

A line that was not written to its end is dropped. Lines that are missing at the end do no harm: the register is read instead (resume)."""
import fcntl
import json
import os

from .errors import Stop
from .plan import PHASES

VERSION = 1


class Journal:
    def __init__(self, path):
        self.path = path
        self.base, self.next = None, None
        self.source, self.is_ended = None, False        # the fingerprint of the last run, and whether that run ended
        self.numbers = {}           # (kind, key) -> number
        self.spans = {}             # (phase, key) -> (first, last) numbers that the act created
        self.refused = {}           # (phase, key) -> reply, such as "fault 133"
        self.digests = {}           # of the entries that were loaded: (phase, key) -> digest
        self.file = open(path, "ab+", buffering=0)
        try:
            fcntl.flock(self.file, fcntl.LOCK_EX | fcntl.LOCK_NB)
            self.load()
        except OSError:
            self.file.close()
            raise Stop(f"another land-import uses {path}; wait until it ends") from None
        except Stop:
            self.file.close()
            raise

    def load(self):
        self.file.seek(0)
        content = self.file.read()
        end = content.rfind(b"\n") + 1
        if end < len(content):
            os.ftruncate(self.file.fileno(), end)
        lines = content[:end].splitlines()
        if not lines:
            return
        try:
            head = json.loads(lines[0])
            if head.get("land-import") != VERSION:
                raise Stop(f"{self.path} is a journal of another version of land-import; use that version")
            self.base = self.next = head["base"]
            for line in lines[1:]:
                entry = json.loads(line)
                if isinstance(entry, dict):
                    self.source, self.is_ended = entry.get("run", self.source), "end" in entry
                elif len(entry) == 4:
                    self.refused[entry[0], entry[1]] = entry[2]
                    self.digests[entry[0], entry[1]] = entry[3]
                else:
                    self.remember(*entry[:4])
                    self.digests[entry[0], entry[1]] = entry[4]
        except (ValueError, KeyError, IndexError, TypeError, AttributeError) as error:
            raise Stop(f"{self.path} is corrupt ({error}). If the source is unchanged, remove the file and run again with --recover: "
                       "the numbers are read from the register") from None

    def remember(self, phase, key, first, last):
        if phase not in PHASES:
            raise ValueError(f"phase {phase}")
        self.spans[phase, key] = first, last
        if last >= first:
            self.next = last + 1

    def begin(self, base):
        self.base = self.next = base
        self.write({"land-import": VERSION, "base": base})

    def start(self, source):
        """Records the start of a run with this fingerprint."""
        if self.source != source or self.is_ended:
            self.write({"run": source})
        self.source, self.is_ended = source, False

    def end(self):
        """Records that all acts of the run have a reply."""
        self.write({"end": self.next})
        self.is_ended = True

    def write(self, entry):
        self.file.write(json.dumps(entry, ensure_ascii=True, separators=(",", ":")).encode("ascii") + b"\n")

    def done(self, act, digest):
        """Records an executed act, whose new numbers are the next ones."""
        first, last = self.next, self.next + act.makes - 1
        self.write([act.phase, act.key, first, last, digest])
        self.remember(act.phase, act.key, first, last)
        self.number(act)

    def number(self, act):
        """Makes the number of an executed act known under its key."""
        if act.gives:
            self.numbers[act.gives, act.record.key] = self.spans[act.phase, act.key][0] + act.about

    def reject(self, act, reply, digest):
        self.write([act.phase, act.key, reply, digest])
        self.refused[act.phase, act.key] = reply

    def has(self, act):
        place = act.phase, act.key
        return place in self.spans or place in self.refused

    def close(self):
        os.fsync(self.file.fileno())
        self.file.close()
