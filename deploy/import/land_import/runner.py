"""Executes a plan on a served register, pipelined over one connection, and compares each reply with the prediction."""
import collections
import csv
import os
import time

from . import resume
from .client import connect
from .errors import Lost, Stop
from .plan import PHASES


def words_of(prediction):
    return "accepted" if prediction is None else f"{prediction[0]} {prediction[1]}"


class Runner:
    """Sends the acts that the journal does not have.

    source     the fingerprint of the source
    refused    skip: leave out acts that the dry run predicts to be refused; send: send them too
    depth      the number of pipelined requests
    patience   seconds to retry if the register does not answer
    """

    def __init__(self, plan, journal, progress, source, host, port, depth=32, patience=60.0, refused="skip"):
        self.plan, self.journal, self.progress, self.source = plan, journal, progress, source
        self.host, self.port, self.depth, self.patience = host, port, depth, patience
        self.acts = list(self.acts_to_send(plan, refused))
        self.by_phase = collections.defaultdict(list)
        for act in self.acts:
            self.by_phase[act.phase].append(act)
        self.maybe = set()

    @staticmethod
    def acts_to_send(plan, refused):
        refused_approvals = {act.key for act in plan.acts if act.phase == "approve" and act.prediction is not None}
        for act in plan.acts:
            if refused == "send":
                if act.prediction != ("fault", 142):
                    yield act
            elif act.prediction is None and not (act.phase == "lodge" and act.key in refused_approvals):
                yield act

    def run(self, mode="new"):
        """Executes all acts. `mode`: new, append or recover, for a register without a journal. Returns when all acts have a reply."""
        if self.journal.base is not None:
            self.check_journal()
        last, since = -1, 0.0       # the number of acts with a reply at the last loss of the connection, and the time of that number
        while True:
            connection = connect(self.host, self.port, self.patience, self.progress.report)
            try:
                self.begin(connection, mode)
                for phase in PHASES:
                    self.send_phase(connection, [act for act in self.by_phase[phase] if not self.journal.has(act)])
                self.journal.end()
                return
            except Lost as reason:
                now, count = time.monotonic(), self.progress.done + self.progress.already
                if count > last:
                    last, since = count, now
                if now - since > self.patience:
                    raise Stop(f"{reason}, and no act was executed for {self.patience:.0f} s. Check the register's output; then run the "
                               "same command again: it continues where it ended", 3) from None
                self.progress.report(f"{reason}; reconnecting")
                time.sleep(0.05 if since == now else 0.5)
            finally:
                connection.close()

    def begin(self, connection, mode):
        """Prepares a new journal, or finds the executed acts that are not in it."""
        journal = self.journal
        if journal.base is None:
            following = resume.next_number(connection)
            if following > 2 and mode == "new":
                raise Stop(f"the register is not empty: its next number is {following}, and {journal.path} is a new journal. Serve a new "
                           "register; or use --append to add to this one, or --recover if this import began and its journal was lost", 2)
            journal.begin(following if mode == "append" else 2)
        resume.check_register(connection, journal)
        resume.check_source(connection, journal, self.source)
        journal.start(self.source)
        found, unknown = resume.find_executed(connection, (act for act in self.acts if not journal.has(act)), journal)
        if found:
            self.progress.skip(found)
            self.progress.report(f"{found:,} acts behind the end of the journal were executed before; they are not repeated")
        self.maybe = {id(act) for act in unknown}

    def check_journal(self):
        """Makes the numbers of the journal known. Stops if a row has changed since it was imported, or is missing now. Forgets refused acts
        whose prediction is another one now: they are sent again."""
        journal, changed = self.journal, []
        known = {(act.phase, act.key) for act in self.plan.acts}
        missing = [place for place in journal.spans if place not in known]
        if missing:
            raise Stop(f"the journal has {len(missing):,} acts of rows that the source does not have any more, for example {missing[0][0]} "
                       f"{missing[0][1]}. Restore these rows and their keys, or import into a new register with another --work folder", 2)
        for act in self.acts:
            if journal.refused.get((act.phase, act.key), words_of(act.prediction)) != words_of(act.prediction):
                del journal.refused[act.phase, act.key]
        for act in self.acts:
            if (act.phase, act.key) in journal.spans:
                if act.prediction is None and act.makes != journal.spans[act.phase, act.key][1] - journal.spans[act.phase, act.key][0] + 1:
                    changed.append(act)
                else:
                    journal.number(act)
        for act in self.acts:
            digest = journal.digests.get((act.phase, act.key))
            if digest and (act.phase, act.key) in journal.spans and act.request(journal.numbers)[1] != digest:
                changed.append(act)
        journal.digests = {}
        if changed:
            rows = ", ".join(f"{act.record.table} line {act.record.line} ({act.record.key})" for act in changed[:5])
            raise Stop(f"{len(changed)} rows were imported and have changed in the source since: {rows}. Undo the change and continue; "
                       "correct the register afterwards, or import into a new one", 2)

    def send_phase(self, connection, acts):
        waiting, following, chunk = collections.deque(), iter(acts), []
        while True:
            while len(waiting) < self.depth and (act := next(following, None)) is not None:
                data, digest = act.request(self.journal.numbers)
                waiting.append((act, digest))
                chunk.append(data)
            if chunk:
                connection.send(b"".join(chunk))
                chunk = []
            if not waiting:
                return
            for _ in range(max(1, len(waiting) // 2)):
                self.take(connection, *waiting.popleft())

    def take(self, connection, act, digest):
        """Reads the reply to an act and records it."""
        status, reply = connection.receive()
        journal = self.journal
        if status == 200:
            actual = "accepted"
            if act.prediction is not None:
                act.makes = len(reply["made"])
            if reply["made"] != list(range(journal.next, journal.next + act.makes)):
                raise Stop(f"{act.phase} {act.key} created {reply['made']}, not the numbers from {journal.next}: another client writes "
                           "into the register. Stop it, restore the copy from before the import, remove the journal, and import again", 1)
            journal.done(act, digest)
        else:
            actual = " ".join(str(it) for it in next(iter(reply.items()), ("status", status)))
            if id(act) in self.maybe and act.phase == "mandate" and actual == "refused 221" and act.prediction is None:
                actual = "accepted"     # it was executed before the interruption
                journal.done(act, digest)
            else:
                journal.reject(act, actual, digest)
        self.progress.step(act.phase, actual != "accepted")
        if connection.is_closed_by_reply:
            raise Lost("the register closed the connection")

    def all_disagreements(self):
        """Returns all acts whose reply, now or before an interruption, is not the predicted one: (act, predicted, actual)."""
        found = []
        for act in self.acts:
            place, predicted = (act.phase, act.key), words_of(act.prediction)
            actual = self.journal.refused.get(place, "accepted" if place in self.journal.spans else "not sent")
            if actual != predicted:
                found.append((act, predicted, actual))
        return found

    def write_disagreements(self, path):
        """Writes the acts with an unexpected reply to a table. Removes the table if there is none."""
        rows = self.all_disagreements()
        if not rows:
            if os.path.exists(path):
                os.remove(path)
            return rows
        with open(path, "w", encoding="utf-8", newline="") as file:
            writer = csv.writer(file, lineterminator="\n")
            writer.writerow(("act", "table", "line", "key", "predicted", "reply"))
            for act, predicted, actual in rows:
                writer.writerow((act.phase, act.record.table, act.record.line, act.record.key, predicted, actual))
        return rows
