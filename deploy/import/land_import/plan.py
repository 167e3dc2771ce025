"""The acts of an import, in order, each with the reply that the register will give. This is the dry run.

The prediction follows docs/REQUEST-BODIES.md (faults, in the order of the fields), docs/POLICY.md (denials) and docs/ACTS.md (refusals, the
lowest number first). A reference to a row that was not imported is sent as a number that does not exist.
"""
import hashlib
import json
from decimal import Decimal

from . import rules, shares
from .findings import CHANGED, NOTE, REFUSED
from .mapping import read_decimal
from .outlines import advise, describe_crossing, parse
from .records import OFFICE_KEY, Party

OFFICE = 1
MISSING = rules.MOST_NUMBER         # a number that no object has, unless the register is full
NOTARY_KEY = "@notary"
PHASES = ("enrol", "grant", "group", "register", "burden", "lodge", "approve", "revoke", "mandate")
ACCEPTED = None


def encode(body):
    return json.dumps(body, ensure_ascii=False, separators=(",", ":")).encode("utf-8")


class Act:
    """One request. `body(numbers)` returns its fields; `makes` is the number of objects that it creates; `about` the position of its own
    number among these; `gives` the kind of key that this number is recorded under, or None."""

    __slots__ = ("phase", "key", "route", "record", "prediction", "makes", "about", "gives", "extra")

    def __init__(self, phase, key, route, record, makes=0, about=0, gives=None, extra=None):
        self.phase, self.key, self.route, self.record, self.prediction = phase, key, route, record, None
        self.makes, self.about, self.gives, self.extra = makes, about, gives, extra

    def caller(self, numbers):
        if self.phase == "lodge":
            return numbers.get(("party", NOTARY_KEY), MISSING), "notary"
        if self.phase == "mandate":
            return party_number(numbers, self.record.principal), "citizen"
        return OFFICE, "stateAdministrator"

    def body(self, numbers):
        return BODIES[self.phase](self, numbers)

    def is_mortgage(self, entry, numbers):
        """Returns whether an entry is the mortgage that this approval creates."""
        it = self.record
        return (entry["unit"], entry["party"], entry["amount"], entry["currency"]) == (
            numbers.get(("unit", it.unit), MISSING), party_number(numbers, it.creditor), it.amount, it.currency)

    def length(self):
        """Returns the length of the body, at most: with the longest numbers."""
        return len(encode(self.body({})))

    def request(self, numbers):
        """Returns the bytes of the request, and a digest of its path and body."""
        party, role = self.caller(numbers)
        data = encode(self.body(numbers))
        head = (f"POST /acts/{self.route} HTTP/1.1\r\nHost: register\r\nRegister-Party: {party}\r\nRegister-Role: {role}\r\n"
                f"Content-Length: {len(data)}\r\n\r\n").encode("ascii")
        return head + data, hashlib.sha256(self.route.encode() + data).hexdigest()[:12]


def party_number(numbers, key):
    return OFFICE if key == OFFICE_KEY else numbers.get(("party", key), MISSING)


def body_of_register(act, numbers):
    unit = act.record
    return {"name": unit.name, "checked": unit.checked, "document": unit.document,
            "parcels": [{"label": it.label, "outline": it.outline.text} for it in unit.parcels],
            "rights": [{"party": party_number(numbers, it.party), "type": it.type, "share": it.share} for it in unit.rights]}


def body_of_burden(act, numbers):
    it = act.record
    return {"unit": numbers.get(("unit", it.unit), MISSING), "party": party_number(numbers, it.party), "class": it.classed,
            "words": it.words, "document": it.document}


def body_of_lodge(act, numbers):
    it = act.record
    return {"reference": act.extra, "document": it.document, "unit": numbers.get(("unit", it.unit), MISSING),
            "creditor": party_number(numbers, it.creditor), "amount": it.amount, "currency": it.currency}


BODIES = {
    "enrol": lambda act, numbers: {"kind": act.record.kind, "name": act.record.name},
    "grant": lambda act, numbers: {"party": party_number(numbers, act.record.key), "role": act.extra},
    "revoke": lambda act, numbers: {"party": party_number(numbers, act.record.key), "role": act.extra},
    "group": lambda act, numbers: {"name": act.record.name, "members": [
        {"party": party_number(numbers, key), "share": share} for key, share, _ in act.record.members]},
    "register": body_of_register,
    "burden": body_of_burden,
    "lodge": body_of_lodge,
    "approve": lambda act, numbers: {"mutation": numbers.get(("mutation", act.record.key), MISSING)},
    "mandate": lambda act, numbers: {"agent": party_number(numbers, act.record.agent)},
}


def reference_of(key):
    """Returns the reference of a lodging: the old key, or a digest of it if the register does not accept it."""
    return key if rules.is_text(key, 40) else "import " + hashlib.sha256(key.encode("utf-8", "surrogatepass")).hexdigest()[:32]


class Plan:
    """The acts, and the state of the register that they will leave."""

    def __init__(self, records, findings, notary_name="Import notary"):
        self.records, self.findings = records, findings
        self.acts = []
        self.kinds = {OFFICE_KEY: "nonNaturalPerson"}       # parties and groups that will exist -> kind
        self.roles = {}                                     # single parties that will exist -> roles
        self.entries = {}                                   # units that will exist -> number of entries
        self.roles_after = {}                               # roles after the import, without temporary ones
        self.ranks = {}                                     # mortgages that will exist -> rank
        self.temporary = []                                 # (party, role) held only during the import
        self.notary = None
        self.next = 2
        self.add_parties(notary_name)
        self.add_groups()
        self.add_units()
        self.add_burdens()
        self.add_mortgages()
        self.add_mandates()

    def __len__(self):
        return len(self.acts)

    def add(self, act, problems=()):
        """Appends an act. `problems` are all reasons why the register would not accept it, in the register's order: the first one is the
        predicted reply, and each one is reported as a finding. Returns whether the act is predicted to be accepted."""
        problems = list(problems)
        if not problems and act.makes and self.next + act.makes > rules.MOST_NUMBER + 1:
            problems = [(("refused", 210), "the numbers up to 1,000,000,000 are used up", None)]
        if problems:
            act.prediction, act.makes = problems[0][0], 0
        self.next += act.makes
        self.acts.append(act)
        for prediction, detail, record in problems:
            word, number = prediction
            rule, remedy = rules.explain(prediction, detail)
            if number in (131, 132, 133) and detail:
                rule, detail = detail, ""
            record = record or act.record
            self.findings.add(REFUSED, record.table, record.line, record.key, rule, remedy, f"{word} {number}", detail)
        return not problems

    # ---- parties

    def add_parties(self, notary_name):
        mortgages = self.records.mortgages.values()
        parties = list(self.records.parties.values())
        if mortgages:
            self.notary = Party("[import]", 0, NOTARY_KEY, "naturalPerson", notary_name, ["notary"])
            parties.append(self.notary)
        for party in parties:
            if self.add(Act("enrol", party.key, "enrol", party, 1, 0, "party"), self.problems_of_party(party)):
                self.kinds[party.key], self.roles[party.key] = party.kind, {"citizen"}
        for party in self.records.parties.values():
            for position, role in enumerate(party.roles):
                self.add_grant(party, role, f"{party.key} {role} {position}")
        self.roles_after = {key: set(roles) for key, roles in self.roles.items()}
        for key in dict.fromkeys(it.creditor for it in mortgages):
            if key in self.roles and "bank" not in self.roles[key]:
                self.temporary.append((self.records.parties[key], "bank"))
        private = [party for party, _ in self.temporary]
        if NOTARY_KEY in self.roles:
            self.temporary.append((self.notary, "notary"))
        for party, role in self.temporary:
            self.add_grant(party, role, f"{party.key} {role} temporary")
        if private:
            self.findings.add(NOTE, private[0].table, private[0].line, private[0].key,
                              "creditors without the role bank hold it during the import", "add the role to roles if they are to keep it",
                              detail=f"{len(private):,} of them; discharges of their mortgages are later filed by a notary")

    @staticmethod
    def problems_of_party(party):
        if party.kind not in rules.KINDS:
            yield ("fault", 133), f"the kind is {party.kind!r}, not naturalPerson or nonNaturalPerson", None
        if not rules.is_text(party.name, 200):
            yield ("fault", 133), f"the name {rules.describe_text(party.name, 200)}", None

    def add_grant(self, party, role, key):
        problems = []
        if role not in rules.ROLES:
            problems = [(("fault", 134), role, None)]
        elif party.key not in self.roles:
            problems = [(("refused", 205), role, None)]
        elif role in self.roles[party.key]:
            problems = [(("refused", 215), role, None)]
        if self.add(Act("grant", key, "grant", party, extra=role), problems):
            self.roles[party.key].add(role)

    # ---- groups

    def add_groups(self):
        for group in self.records.groups.values():
            if self.add(Act("group", group.key, "group", group, 1, 0, "party"), self.problems_of_group(group)):
                self.kinds[group.key] = "group"

    def problems_of_group(self, group):
        if not rules.is_text(group.name, 200):
            yield ("fault", 133), f"the name {rules.describe_text(group.name, 200)}", None
        if not 2 <= len(group.members) <= rules.MOST_MEMBERS:
            yield ("fault", 131), f"the group has {len(group.members)} members; 2 to 64 are allowed", None
            return
        texts = [share for _, share, _ in group.members]
        faults = [(shares.fault_of(share), key, share) for key, share, _ in group.members]
        for fault, key, share in faults:
            if fault:
                yield ("fault", fault), f"the share {share!r} of {key}", None
        refusals = {}
        for key, _, line in group.members:
            if key != OFFICE_KEY and key not in self.roles:
                refusals.setdefault(205, f"member {key!r} in line {line}")
        if not any(fault for fault, _, _ in faults):
            for number in shares.refusals_of(texts):
                refusals[number] = "the shares are " + ", ".join(texts[:8]) + (", .." if len(texts) > 8 else "")
        seen = set()
        for key, _, line in group.members:
            if (key if key in self.kinds else MISSING) in seen:
                refusals.setdefault(219, f"member {key!r} in line {line}")
            seen.add(key if key in self.kinds else MISSING)
        for number in sorted(refusals):
            yield ("refused", number), refusals[number], None

    # ---- units

    def add_units(self):
        for unit in self.records.units.values():
            act = Act("register", unit.key, "register", unit, 2 + len(unit.parcels) + len(unit.rights), 1, "unit")
            problems = list(self.problems_of_unit(unit))
            if sum(len(it.outline.text) for it in unit.parcels) > 200_000 and act.length() > rules.LONGEST_BODY:
                problems.insert(0, (("fault", 142), "", None))
            if self.add(act, problems):
                self.entries[unit.key] = len(unit.rights)
                self.check_areas(unit)

    def problems_of_unit(self, unit):
        if not rules.is_text(unit.name, 200):
            yield ("fault", 133), f"the name {rules.describe_text(unit.name, 200)}", None
        if not isinstance(unit.checked, bool):
            yield ("fault", 131), f"checked is {unit.checked!r}, not true or false", None
        if not rules.is_text(unit.document, 200):
            yield ("fault", 133), f"the document {rules.describe_text(unit.document, 200)}", None
        if not unit.parcels:
            yield ("fault", 131), "the unit has no parcel", None
        elif len(unit.parcels) > rules.MOST_PARCELS:
            yield ("fault", 131), f"the unit has {len(unit.parcels)} parcels; 1 to 64 are allowed", None
        for parcel in unit.parcels:
            if not rules.is_text(parcel.label, 40):
                yield ("fault", 133), f"the label {rules.describe_text(parcel.label, 40)}", parcel
            if parcel.outline.fault:
                yield ("fault", parcel.outline.fault), self.describe_outline(parcel), parcel
        if not unit.rights:
            yield ("fault", 131), "the unit has no owner", None
        elif len(unit.rights) > rules.MOST_RIGHTS:
            yield ("fault", 131), f"the unit has {len(unit.rights)} rights; 1 to 64 are allowed", None
        valid = []
        for right in unit.rights:
            fault = shares.fault_of(right.share)
            if right.type not in rules.RIGHTS:
                yield ("fault", 133), f"the type is {right.type!r}, not ownership, lease or usufruct", right
            if fault:
                yield ("fault", fault), f"the share is {right.share!r}", right
            if right.type in rules.RIGHTS and not fault:
                valid.append(right)
        if unit.rights and not any(right.type == "ownership" for right in unit.rights):
            yield ("fault", 131), "the unit has no ownership", None
        yield from self.refusals_of_unit(unit, valid)

    def refusals_of_unit(self, unit, valid):
        """Yields the refusals, the lowest number first. Shares are added only if all rights of the unit are valid."""
        refusals = {}
        by_type, seen = {}, set()
        for right in unit.rights:
            party = right.party if right.party in self.kinds else MISSING
            if party == MISSING:
                refusals.setdefault(205, (f"party {right.party!r}", right))
            if (right.type, party) in seen:
                refusals.setdefault(219, (f"{right.party} has two rights of type {right.type}", right))
            seen.add((right.type, party))
            by_type.setdefault(right.type, []).append(right.share)
        for kind, texts in by_type.items() if unit.checked and len(valid) == len(unit.rights) else ():
            for number in shares.refusals_of(texts):
                some = ", ".join(texts[:8]) + (", .." if len(texts) > 8 else "")
                refusals.setdefault(number, (f"the shares of type {kind} are {some}", None))
        for number in sorted(refusals):
            yield ("refused", number), *refusals[number]

    @staticmethod
    def describe_outline(parcel):
        if parcel.outline.fault == 110:
            advice = advise(parcel.outline.text)
            return f"it is {advice[0]}; {advice[1]}" if advice else "the text is not valid well-known text"
        if parcel.outline.fault == 117:
            return f"{len(parse(parcel.outline.text).parts[0][0]) - 1} points"
        return describe_crossing(parcel.outline.text) if parcel.outline.fault == 119 else ""

    def check_areas(self, unit):
        """Notes stated areas that differ from the outline's: the register computes the area and holds no other."""
        for parcel in unit.parcels:
            if not parcel.area.strip():
                continue
            stated, computed = read_decimal(parcel.area), Decimal(parcel.outline.doubled) / 2_000_000
            if stated is None or abs(stated - computed) > Decimal(5).scaleb(stated.as_tuple().exponent - 1):
                self.findings.add(NOTE, parcel.table, parcel.line, parcel.key, "the stated area differs from the area of the outline",
                                  "the register has only the area of the outline; put the stated one into the document",
                                  detail=f"{parcel.area.strip()} m2 stated, {computed} m2 computed")

    # ---- entries

    def add_burdens(self):
        for burden in self.records.burdens.values():
            act = Act("burden", burden.key, "burden", burden, 2, 1, "entry")
            if self.add(act, self.problems_of_burden(burden)):
                self.entries[burden.unit] += 1

    def problems_of_burden(self, burden):
        if burden.classed not in rules.CLASSES:
            yield ("fault", 133), f"the class is {burden.classed!r}, not restriction or responsibility", None
        for name, text in (("text", burden.words), ("document", burden.document)):
            if not rules.is_text(text, 200):
                yield ("fault", 133), f"the {name} {rules.describe_text(text, 200)}", None
        yield from self.refusals_of_entry(burden.unit, burden.party)

    def refusals_of_entry(self, unit, party):
        if unit not in self.entries:
            yield ("refused", 202), f"unit {unit!r}", None
        if party not in self.kinds:
            yield ("refused", 205), f"party {party!r}", None
        if self.entries.get(unit, 0) >= rules.MOST_ENTRIES:
            yield ("refused", 210), f"unit {unit!r}", None

    def add_mortgages(self):
        mortgages = sorted(self.records.mortgages.values(), key=lambda it: (it.rank is None, it.rank or 0))
        lodged = []
        for mortgage in mortgages:
            reference = reference_of(mortgage.key)
            act = Act("lodge", mortgage.key, "mortgage", mortgage, 2, 1, "mutation", reference)
            if self.add(act, self.problems_of_lodging(mortgage)):
                lodged.append(mortgage)
        greatest = {}
        for mortgage in lodged:
            problems = list(self.refusals_of_entry(mortgage.unit, mortgage.creditor))
            if "bank" not in self.roles.get(mortgage.creditor, ()):
                problems.append((("refused", 211), f"creditor {mortgage.creditor!r}", None))
            if self.add(Act("approve", mortgage.key, "approve", mortgage, 1, 0, "entry"), problems):
                self.entries[mortgage.unit] += 1
                rank = greatest[mortgage.unit] = greatest.get(mortgage.unit, 0) + 1
                self.ranks[mortgage.key] = rank
                if mortgage.rank is not None and mortgage.rank != rank:
                    self.findings.add(CHANGED, mortgage.table, mortgage.line, mortgage.key, "the rank is renumbered",
                                      "accept it: ranks in a unit are 1, 2, 3, .. without gaps, and no two mortgages share one",
                                      detail=f"rank {mortgage.rank} becomes {rank}")
        for party, role in self.temporary:
            if role in self.roles.get(party.key, ()):
                self.add(Act("revoke", f"{party.key} {role}", "revoke", party, extra=role))

    @staticmethod
    def problems_of_lodging(mortgage):
        if not rules.is_text(mortgage.document, 200):
            yield ("fault", 133), f"the document {rules.describe_text(mortgage.document, 200)}", None
        if not isinstance(mortgage.amount, int):
            yield ("fault", 131), f"the amount {mortgage.amount[:40]!r} is not a whole number of minor units", None
        elif not 1 <= mortgage.amount <= rules.MOST_AMOUNT:
            yield ("fault", 132), "the amount is not from 1 to 1,000,000,000,000,000", None
        if not (len(mortgage.currency) == 3 and all("A" <= letter <= "Z" for letter in mortgage.currency)):
            yield ("fault", 133), f"the currency is {mortgage.currency!r}, not three letters from A to Z", None

    # ---- mandates

    def add_mandates(self):
        held = set()
        for mandate in self.records.mandates.values():
            if self.add(Act("mandate", mandate.key, "mandate", mandate), self.problems_of_mandate(mandate, held)):
                held.add((mandate.principal, mandate.agent))

    def problems_of_mandate(self, mandate, held):
        principal, agent = mandate.principal, mandate.agent
        if principal not in self.kinds:
            yield ("denied", 1), principal, None
        elif principal == OFFICE_KEY or self.kinds[principal] == "group":
            yield ("denied", 2), principal, None
        if agent not in self.roles and agent != OFFICE_KEY:
            yield ("refused", 205), f"agent {agent!r}", None
        elif principal == agent:
            yield ("refused", 219), principal, None
        elif (principal, agent) in held:
            yield ("refused", 221), f"{principal} to {agent}", None
