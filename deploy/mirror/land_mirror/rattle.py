"""Reads the policy from the sources of the program: the SQL statements of the selections, which selections a role has of a kind, and the
numbers of the denials.

A form that this module does not expect is an error: it never guesses. Functions that sql/standing.sql and generate.py repeat by hand are
pinned: if the body of one changes, the error names it, and a person has to translate the change."""
import os
import re

from land_mirror import MirrorError

KINDS = {"Party": "party", "Unit": "unit", "Parcel": "parcel", "Rrr": "rrr", "Source": "source", "Mutation": "mutation"}
STATEMENTS = 23
# Selections of the program that return the same as All(kind) at the last moment, and their statements. They are not part of the policy.
REPEATED = {
    "UnendedUnits": "SELECT number FROM unit WHERE ?2 < until",
    "UnendedParcels": "SELECT number FROM parcel WHERE ?2 < until",
}

# Where each part of the policy is: file, below the folder of the crates.
TEXTS = "land_select_queries/src/joins"
TEXT_OF = "land_select_queries/src/joins/text.rt"
RUNNING = "land_select_queries/src/joins/running.rt"
SIGHT = "land_select_queries/src/sights/sight.rt"
CIRCLE = "land_select_queries/src/joins/sight.rt"
LOOKUPS = "land_select_queries/src/lookups/texts.rt"
DENIALS = "land_rules/src/denials/sight.rt"
STANDING = "land_rules/src/rules/standing.rt"
ACTS = "land_rules/src/rules/standing/act.rt"
WORDS = "land_core/src/words.rt"

# (file, function): the body that sql/standing.sql and generate.py translate.
PINNED = {
    (CIRCLE, "has_circle"): "role == Role::Citizen && !sees_all(role, kind)",
    (RUNNING, "selection_of_all"):
        "if at < LAST_MOMENT { return Selection::All(kind); } match kind { Kind::Unit => Selection::UnendedUnits, "
        "Kind::Parcel => Selection::UnendedParcels, _ => Selection::All(kind), }",
    (DENIALS, "sees_all"): "kind == Kind::Parcel || role == Role::Notary || role == Role::StateAdministrator",
    (DENIALS, "is_unit_of_conveyancer"): "kind == Kind::Unit && role == Role::Conveyancer",
    (DENIALS, "views_itself"): "kind == Kind::Party && number == caller.party",
    (DENIALS, "view_verdict"):
        "if in_sight { Verdict::Allowed } else if is_unit_of_conveyancer(caller.role, kind) && awaited || "
        "views_itself(caller, kind, number) { Verdict::Denied(27) } else { Verdict::Denied(rule_of_role(caller.role, kind)) }",
    (STANDING, "caller_verdict"):
        "if !now.stands(Kind::Party, caller.party) { Verdict::Denied(1) } "
        "else if !now.holds(caller.party, caller.role) { Verdict::Denied(2) } "
        "else if past && sees_only_present(caller) { Verdict::Denied(3) } else { Verdict::Allowed }",
    (ACTS, "is_between_others"): "!(mandate.principal == party || mandate.agent == party)",
}
# Rule 28, which the query of the mandates repeats: (file, function): a part of the body.
PINNED_PARTS = {(ACTS, "verdict"): "else if is_mandate_act(act) && caller.role != Role::Citizen { Verdict::Denied(28) }"}
# The statements behind the circle and behind `awaited`, which sql/standing.sql repeats.
PINNED_TEXTS = {
    "MANDATES_OF_AGENT": "SELECT principal, agent, since, until FROM mandate WHERE agent = ?1 AND since <= ?2 AND ?2 < until",
    "LODGERS_ON_UNIT": "SELECT mutation.lodger FROM names JOIN mutation ON mutation.number = names.mutation WHERE names.unit = ?1 "
                       "AND mutation.state = 'lodged' AND names.since <= ?2 AND ?2 < names.until "
                       "AND mutation.since <= ?2 AND ?2 < mutation.until",
}


class Unexpected(MirrorError):
    def __init__(self, file, what):
        super().__init__(f"crates/{file}: {what}. The generator does not know this form: compare it with "
                         "deploy/mirror/land_mirror/rattle.py, translate the change, and run the comparison (deploy/tests/mirror)")


class Policy:
    """texts       SQL statement of each selection, such as `HeldUnits` or `All(Unit)`
    sight       role: kind: list of selections
    denials     role: kind: number of the rule that denies what is not visible
    present     roles that may not request the past (rule 3)
    words       word of each role on the wire"""

    def __init__(self, crates):
        self.crates = crates
        self.words = self.read_words()
        self.texts = self.read_texts()
        self.sight = self.read_sight()
        self.denials = self.read_denials()
        self.present = self.read_present()
        self.check_pinned()

    # ---- sources

    def source(self, file):
        """Returns a source without its comments."""
        try:
            with open(os.path.join(self.crates, file), encoding="utf-8") as it:
                return "\n".join(line for line in it.read().splitlines() if not line.lstrip().startswith("//"))
        except OSError as error:
            raise MirrorError(f"cannot read the policy's sources: {error}. Name the folder of the crates with --crates, or give a "
                              "generated policy with --policy") from None

    def body(self, file, name):
        """Returns the body of a function, with its white space normalized."""
        text = self.source(file)
        found = list(re.finditer(rf"^(?:pub(?:\(crate\))? )?fn {name}\b", text, re.M))
        if len(found) != 1:
            raise Unexpected(file, f"{len(found)} functions `{name}`")
        rest = text[found[0].end():]
        end = re.search(r"^\}", rest, re.M)
        head = re.search(r"^\{|\{$", rest, re.M)
        if not end or not head or head.start() > end.start():
            raise Unexpected(file, f"function `{name}` has no body")
        return " ".join(rest[head.end():end.start()].split())

    # ---- parts

    def read_words(self):
        words = dict(re.findall(r'Role::(\w+) => "(\w+)"', self.body(WORDS, "role_word")))
        if len(words) != 6:
            raise Unexpected(WORDS, f"{len(words)} words of roles, not 6")
        return words

    def read_texts(self):
        """Returns the statement of each selection."""
        constants = {}
        folder = os.path.join(self.crates, TEXTS)
        if not os.path.isdir(folder):
            raise MirrorError(f"no folder {folder}: name the folder of the crates with --crates")
        for file in sorted(os.listdir(folder)):
            text = self.source(f"{TEXTS}/{file}")
            for name, rest in re.findall(r"pub const (\w+): &str =(.*?);\n", text + "\n", re.S):
                match = re.fullmatch(r'\s*"([^"\\]*)"', rest)
                if not match:
                    raise Unexpected(f"{TEXTS}/{file}", f"constant {name} is not one plain string")
                constants[f"{file.removesuffix('.rt')}::{name}"] = match[1]
        chosen = {}
        for left, right in arms(TEXT_OF, self.body(TEXT_OF, "text_of"), "selection"):
            if left == "Selection::All(kind)" and right == "all_of(kind)":
                for kind, constant in arms(TEXT_OF, self.body(TEXT_OF, "all_of"), "kind"):
                    chosen[f"All({kind.removeprefix('Kind::')})"] = constant
            elif re.fullmatch(r"Selection::\w+", left):
                chosen[left.removeprefix("Selection::")] = right
            else:
                raise Unexpected(TEXT_OF, f"the arm `{left} => {right}`")
        unknown = set(chosen.values()) - set(constants)
        if unknown:
            raise Unexpected(TEXT_OF, f"no constant {', '.join(sorted(unknown))}")
        count = STATEMENTS + len(REPEATED)
        if len(chosen) != count or set(chosen.values()) != set(constants):
            raise Unexpected(TEXTS, f"{len(chosen)} selections and {len(constants)} statements, not {count} of each")
        texts = {selection: constants[name] for selection, name in chosen.items()}
        for selection, wanted in REPEATED.items():
            found = texts.pop(selection, None)
            if found != wanted:
                raise Unexpected(TEXTS, f"selection `{selection}` has the statement `{found}`, not `{wanted}`")
        return texts

    def read_sight(self):
        sight = {}
        for roles, call in arms(SIGHT, self.body(SIGHT, "selections"), "role"):
            match = re.fullmatch(r"(\w+)\(kind\)", call)
            if not match:
                raise Unexpected(SIGHT, f"`{call}` in `selections`")
            for role in names_of("Role", roles, SIGHT):
                sight[role] = {}
                for kinds, value in arms(SIGHT, self.body(SIGHT, match[1]), "kind"):
                    function = re.fullmatch(r"(\w+)\(\)", value)
                    value = self.body(SIGHT, function[1]) if function else value
                    for kind in names_of("Kind", kinds, SIGHT):
                        sight[role][kind] = self.selections_in(value)
        if set(sight) != set(self.words) or any(set(it) != set(KINDS) for it in sight.values()):
            raise Unexpected(SIGHT, "a role or a kind is missing")
        return sight

    def selections_in(self, value):
        match = re.fullmatch(r"&\[(.*?),?\s*\]", value)
        if not match:
            raise Unexpected(SIGHT, f"`{value}` is not a list of selections")
        found = []
        for it in match[1].split(","):
            word = re.fullmatch(r"Selection::(?:(\w+)|All\(Kind::(\w+)\))", it.strip()) if it.strip() else None
            if it.strip() and not word:
                raise Unexpected(SIGHT, f"`{it.strip()}` is not a selection")
            if word:
                found.append(word[1] or f"All({word[2]})")
        for name in found:
            if name not in self.texts:
                raise Unexpected(SIGHT, f"selection `{name}` has no statement")
        return found

    def read_denials(self):
        denials = {}
        for roles, value in arms(DENIALS, self.body(DENIALS, "rule_of_role"), "role"):
            function = re.fullmatch(r"(\w+)\(kind\)", value)
            if function:
                numbers = {kind: it for kinds, it in arms(DENIALS, self.body(DENIALS, function[1]), "kind")
                           for kind in names_of("Kind", kinds, DENIALS)}
            else:
                numbers = dict.fromkeys(KINDS, value)
            if set(numbers) != set(KINDS) or not all(it.isdecimal() for it in numbers.values()):
                raise Unexpected(DENIALS, f"the numbers of {roles}")
            for role in names_of("Role", roles, DENIALS):
                denials[role] = {kind: int(it) for kind, it in numbers.items()}
        if set(denials) != set(self.words):
            raise Unexpected(DENIALS, "a role is missing in `rule_of_role`")
        return denials

    def read_present(self):
        tests = [it.strip() for it in self.body(STANDING, "sees_only_present").split("||")]
        roles = [re.fullmatch(r"caller\.role == Role::(\w+)", it) for it in tests]
        if not all(roles):
            raise Unexpected(STANDING, "function `sees_only_present`")
        return [it[1] for it in roles]

    def check_pinned(self):
        for (file, name), wanted in PINNED.items():
            found = self.body(file, name)
            if found != wanted:
                raise Unexpected(file, f"function `{name}` is `{found}`, not `{wanted}`")
        for (file, name), wanted in PINNED_PARTS.items():
            if self.body(file, name).count(wanted) != 1:
                raise Unexpected(file, f"function `{name}` does not have `{wanted}`")
        text = self.source(LOOKUPS)
        for name, wanted in PINNED_TEXTS.items():
            found = re.findall(rf'pub const {name}: &str =\s*"([^"\\]*)";', text)
            if found != [wanted]:
                raise Unexpected(LOOKUPS, f"statement {name} is {found}, not `{wanted}`")


def arms(file, body, over):
    """Yields the arms of a body that is one `match` over a variable: pattern and value."""
    match = re.fullmatch(rf"match {over} \{{ (.*?),? \}}", body)
    if not match:
        raise Unexpected(file, f"`{body[:60]}..` is not one match over `{over}`")
    rest = match[1]
    while rest:
        arm = re.match(r"([\w:|() ]+?) => (&\[[^\]]*\]|[\w:]+(?:\([\w, ]*\))?|\"\w+\")(?:, |$)", rest)
        if not arm:
            raise Unexpected(file, f"an arm at `{rest[:60]}`")
        yield arm[1], arm[2]
        rest = rest[arm.end():]


def names_of(enum, patterns, file):
    found = [re.fullmatch(rf"{enum}::(\w+)", it.strip()) for it in patterns.split("|")]
    if not all(found):
        raise Unexpected(file, f"pattern `{patterns}`")
    return [it[1] for it in found]
