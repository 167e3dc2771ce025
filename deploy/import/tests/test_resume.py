"""The journal, and resuming with a register in memory."""
import os
import tempfile
import unittest

from land_import import compare, resume
from land_import.errors import Stop
from land_import.journal import Journal
from land_import.plan import Act
from land_import.records import Party


class FakeRegister:
    """Answers views from a dict of objects by target."""

    def __init__(self, objects):
        self.objects, self.views = objects, []

    def view(self, target, party=1, role="stateAdministrator"):
        self.views.append(target)
        found = self.objects.get(target)
        return (200, {"object": found}) if found else (403, {"denied": 27})


def enrolments(*names):
    parties = [Party("parties", n, name, "naturalPerson", name, []) for n, name in enumerate(names)]
    return [Act("enrol", it.key, "enrol", it, 1, 0, "party") for it in parties]


def party(name, roles=("citizen",)):
    return {"kind": "naturalPerson", "members": [], "name": name, "roles": list(roles)}


class Resuming(unittest.TestCase):
    def setUp(self):
        folder = tempfile.TemporaryDirectory()
        self.addCleanup(folder.cleanup)
        self.path = os.path.join(folder.name, "journal")
        self.journal = Journal(self.path)
        self.journal.begin(2)
        self.addCleanup(lambda: self.journal.file.close())

    def reopen(self):
        self.journal.close()
        self.journal = Journal(self.path)

    def test_executed_acts_are_found(self):
        acts = enrolments("Anna", "Ben", "Cid")
        register = FakeRegister({"/parties/2": party("Anna"), "/parties/3": party("Ben")})
        self.assertEqual(resume.find_executed(register, acts, self.journal), (2, []))
        self.assertEqual([self.journal.has(act) for act in acts], [True, True, False])
        self.assertEqual((self.journal.next, self.journal.numbers), (4, {("party", "Anna"): 2, ("party", "Ben"): 3}))

    def test_nothing_was_executed(self):
        self.assertEqual(resume.find_executed(FakeRegister({}), enrolments("Anna"), self.journal), (0, []))

    def test_another_client_has_written(self):
        register = FakeRegister({"/parties/2": party("Somebody")})
        with self.assertRaisesRegex(Stop, "object 2 of the register is not the result"):
            resume.find_executed(register, enrolments("Anna", "Ben"), self.journal)

    def test_an_act_that_was_refused_against_the_prediction(self):
        acts = enrolments("Anna", "Ben")
        self.assertEqual(resume.find_executed(FakeRegister({"/parties/2": party("Ben")}), acts, self.journal), (1, []))
        self.assertEqual([self.journal.has(act) for act in acts], [False, True])

    def test_a_changed_source_after_an_interruption(self):
        self.journal.start("old")
        register = FakeRegister({"/parties/2": party("Anna")})
        resume.check_source(register, self.journal, "old")
        with self.assertRaisesRegex(Stop, "was interrupted, and the source or the mapping has changed"):
            resume.check_source(register, self.journal, "new")
        resume.check_source(FakeRegister({}), self.journal, "new")      # no act is missing in the journal
        self.journal.end()
        self.reopen()
        resume.check_source(register, self.journal, "new")

    def test_roles_are_read(self):
        acts = enrolments("Anna")
        grants = [Act("grant", f"Anna {role}", "grant", acts[0].record, extra=role) for role in ("bank", "notary")]
        register = FakeRegister({"/parties/2": party("Anna", ("citizen", "bank"))})
        self.assertEqual(resume.find_executed(register, acts + grants, self.journal), (2, []))
        self.assertEqual([self.journal.has(act) for act in grants], [True, False])

    def test_a_torn_line_is_dropped(self):
        self.journal.done(enrolments("Anna")[0], "00")
        with open(self.path, "ab") as file:
            file.write(b'["enrol","Ben",3')
        self.reopen()
        self.assertEqual((self.journal.next, list(self.journal.spans)), (3, [("enrol", "Anna")]))

    def test_a_corrupt_journal(self):
        with open(self.path, "ab") as file:
            file.write(b"[]\n")
        with self.assertRaisesRegex(Stop, "is corrupt .* run again with --recover"):
            self.reopen()

    def test_one_importer_at_a_time(self):
        with self.assertRaisesRegex(Stop, "another land-import uses"):
            Journal(self.path)

    def test_another_register(self):
        self.journal.done(enrolments("Anna")[0], "00")
        with self.assertRaisesRegex(Stop, "does not have object 2"):
            resume.check_register(FakeRegister({}), self.journal)


class Areas(unittest.TestCase):
    def test_square_metres(self):
        self.assertEqual(compare.square_metres(200_000_000), "100.0000000")
        self.assertEqual(compare.square_metres(1), "0.0000005")


if __name__ == "__main__":
    unittest.main()
