"""The generator reads the policy from the sources, and stops at any form that it does not know."""
import os
import shutil
import subprocess
import sys
import tempfile

from harness import check, note
from mirror_cluster import MIRROR
from stack import DEPLOY, TOP

sys.path.insert(0, os.path.join(DEPLOY, "mirror"))
from land_mirror.generate import generate, translate      # noqa: E402
from land_mirror.rattle import KINDS, Policy, Unexpected   # noqa: E402

CRATES = os.path.join(TOP, "crates")
JOINS, RULES = "land_select_queries/src/joins", "land_rules/src"
# (file, old, new): changes of the sources at which it has to stop.
CHANGES = [
    (f"{JOINS}/holder.rt", "SELECT unit FROM rrr", "SELECT DISTINCT unit FROM rrr"),
    (f"{JOINS}/holder.rt", "SELECT unit FROM rrr", "SELECT unit FROM rrrs"),
    (f"{JOINS}/holder.rt", "held.class = 'ownership')", "held.kind = 'ownership')"),
    (f"{JOINS}/holder.rt", "?2 < until\"", "?2 < until ORDER BY unit\""),
    (f"{JOINS}/creditor.rt", "class = 'mortgage'", "class LIKE 'mort'"),
    (f"{JOINS}/own.rt", "?2 < until", "?3 < until"),
    (f"{JOINS}/own.rt", "since <= ?2 AND ?2 < until", "number > 0"),
    (f"{JOINS}/all.rt", "FROM unit WHERE since <= ?2 AND ?2 < until", "FROM unit WHERE ?2 < until"),
    (f"{JOINS}/own.rt", "pub const ITSELF: &str =\n    \"", "pub const ITSELF: &str =\n    concat!(\""),
    (f"{JOINS}/text.rt", "Selection::Itself => own::ITSELF,", "Selection::Itself => own::ITSELF_AGAIN,"),
    (f"{JOINS}/text.rt", "Selection::Itself => own::ITSELF,", "Selection::Itself => own::GROUPS,"),
    (f"{JOINS}/text.rt", "        Selection::LodgedParties => lodger::PARTIES,\n", ""),
    ("land_select_queries/src/sights/sight.rt", "Kind::Source => &[],\n        Kind::Mutation => &[Selection::HeldMutations",
     "Kind::Mutation => &[Selection::HeldMutations"),
    ("land_select_queries/src/sights/sight.rt", "Role::Bank => by_credit(kind),", "Role::Bank => by_credit(kind, true),"),
    ("land_select_queries/src/sights/sight.rt", "Selection::CreditUnits", "Selection::Credits"),
    ("land_select_queries/src/sights/sight.rt", "        Role::Bank => by_credit(kind),\n", ""),
    (f"{JOINS}/sight.rt", "role == Role::Citizen && !sees_all(role, kind)", "role != Role::Bank && !sees_all(role, kind)"),
    (f"{RULES}/denials/sight.rt", "Kind::Rrr => 16", "Kind::Rrr => 8 + 8"),
    (f"{RULES}/denials/sight.rt", "Verdict::Denied(27)", "Verdict::Denied(26)"),
    (f"{RULES}/denials/sight.rt", "number == caller.party", "number != caller.party"),
    (f"{RULES}/rules/standing.rt", "past && sees_only_present(caller)", "sees_only_present(caller)"),
    (f"{RULES}/rules/standing.rt", "caller.role == Role::Bank\n", "caller.role != Role::Bank\n"),
    (f"{RULES}/rules/standing/act.rt", "is_mandate_act(act) && caller.role != Role::Citizen", "is_mandate_act(act) && false"),
    (f"{RULES}/rules/standing/act.rt", "mandate.principal == party || mandate.agent", "mandate.agent"),
    ("land_select_queries/src/lookups/texts.rt", "FROM mandate WHERE agent = ?1", "FROM mandate WHERE principal = ?1"),
    ("land_select_queries/src/joins/running.rt", "if at < LAST_MOMENT {", "if at < 0 {"),
    ("land_select_queries/src/joins/all.rt", "FROM parcel WHERE ?2 < until", "FROM parcel WHERE ?2 <= until"),
    ("land_select_queries/src/joins/text.rt", "Selection::UnendedUnits => all::UNENDED_UNITS", "Selection::UnendedUnits => all::UNENDED_PARCELS"),
    ("land_core/src/words.rt", 'Role::Bank => "bank"', 'Role::Bank => bank_word()'),
]


def run():
    policy = Policy(CRATES)
    check("23 statements", len(policy.texts) == 23)
    check("6 roles with 6 kinds", all(set(it) == set(KINDS) for it in policy.sight.values()) and len(policy.sight) == 6)
    text = generate(CRATES)
    check("54 views", text.count("CREATE VIEW ") == 54 and text.count("security_barrier") == 54, text.count("CREATE VIEW "))
    check("a statement is changed only in its parameters and schemas",
          translate(policy.texts["CreditEntries"], "?1", "?2").replace("reg.", "") == policy.texts["CreditEntries"])
    check("the generated text does not depend on the run", generate(CRATES) == text)
    files = sorted({file for file, _, _ in CHANGES})
    with tempfile.TemporaryDirectory() as folder:
        for file in files:
            crate = file.split("/")[0]
            if not os.path.isdir(os.path.join(folder, crate)):
                shutil.copytree(os.path.join(CRATES, crate, "src"), os.path.join(folder, crate, "src"))
        check("it reads a copy of the sources", generate(folder) == text)
        for file, old, new in CHANGES:
            path = os.path.join(folder, file)
            with open(path, encoding="utf-8") as source:
                before = source.read()
            if not check(f"{file} has `{old[:50]}`", old in before):
                continue
            with open(path, "w", encoding="utf-8") as sink:
                sink.write(before.replace(old, new))
            try:
                generate(folder)
                check(f"it stops at {file}: `{new[:60]}`", False, "no error")
            except Unexpected as error:
                check(f"it stops at {file}: `{new[:60]}`", file.rsplit("/", 1)[0] in str(error), error)
            with open(path, "w", encoding="utf-8") as sink:
                sink.write(before)
    ran = subprocess.run([MIRROR, "policy", "--crates", "/nowhere"], capture_output=True, text=True)
    check("without the sources it says so", ran.returncode == 1 and "--crates" in ran.stderr and "Traceback" not in ran.stderr, ran.stderr)
    note(f"{len(CHANGES)} changes of the sources; {len(text.splitlines())} lines of SQL")
