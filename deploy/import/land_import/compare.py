"""Compares a register with the source: the extracts of each kind, and views of all that no extract has (members, roles, mandates)."""
import collections
import csv
import os
import subprocess
from fractions import Fraction

from . import outlines, shares
from .client import request_of_view
from .errors import Stop
from .plan import NOTARY_KEY, OFFICE, party_number, reference_of
from .records import OFFICE_KEY

KINDS = ("party", "unit", "parcel", "rrr", "source", "mutation")
COLUMNS = {
    "party": "number,name,kind", "unit": "number,name,checked", "parcel": "number,unit,label,square_metres,outline,source",
    "rrr": "number,unit,party,name,class,share,amount,currency,rank,words,source", "source": "number,kind,title",
    "mutation": "number,lodger,reference,source,lodged,act,state",
}
ANY = object()


def square_metres(doubled):
    """Returns an area as the register prints it, from twice the area in square millimetres."""
    return f"{doubled * 5 // 10**7}.{doubled * 5 % 10**7:07}"


def extract(program, file, folder):
    """Writes the extracts of a register's file into a folder. The file must not be served."""
    os.makedirs(folder, exist_ok=True)
    for kind in KINDS:
        words = [program, "extract", "--file", file, "--clock", "0", "--party", "1", "--role", "stateAdministrator", "--kind", kind]
        try:
            with open(os.path.join(folder, kind + ".csv"), "wb") as sink:
                ran = subprocess.run(words, stdout=sink, stderr=subprocess.PIPE)
        except OSError as error:
            raise Stop(f"cannot run {program}: {error.strerror}; name the program with --program") from None
        if ran.returncode:
            message = ran.stderr.decode(errors="replace").strip()
            hint = "; stop `land serve` first, it locks the file" if "cannot open" in message else ""
            raise Stop(f"land extract failed for {file}: {message}{hint}", 1)


def read_extract(folder, kind):
    """Yields the number and the fields of each row of an extract."""
    path = os.path.join(folder, kind + ".csv")
    try:
        with open(path, encoding="utf-8", newline="") as file:
            rows = csv.reader(file)
            header = next(rows, [])
            if ",".join(header) != COLUMNS[kind]:
                raise Stop(f"{path} is not an extract of kind {kind}; its first line must be {COLUMNS[kind]}")
            for row in rows:
                yield int(row[0]), row[1:]
    except OSError as error:
        raise Stop(f"cannot read {path}: {error.strerror}") from None


def place_of(record):
    return record.table, record.line, record.key


def texts_of(fields):
    """Returns the fields of a row as an extract has them; an outline gives the area."""
    return [it if it is ANY or isinstance(it, str) else square_metres(it.doubled) if isinstance(it, outlines.Outline) else str(it)
            for it in fields]


class Expected:
    """The rows that the extracts must have, from the source and the numbers in the journal."""

    def __init__(self, records, plan, journal):
        self.records, self.plan, self.journal = records, plan, journal
        self.rows = {kind: {} for kind in KINDS}        # kind -> number -> (fields, record)
        self.missing = []                               # records that were not imported: ((table, line, key), reason)
        self.not_imported = collections.Counter()       # their objects, by kind
        self.predictions = {(act.phase, act.key): act.prediction for act in plan.acts if act.prediction}
        self.doubled = self.source_doubled = 0
        self.rounded = []
        self.shares = collections.Counter()
        self.names = {OFFICE: "Land Office"}
        self.build()

    def span(self, phase, record, **objects):
        """Returns the numbers that an act created, or None; then notes the record, and its objects by kind, as not imported."""
        found = self.journal.spans.get((phase, record.key))
        if found is None:
            place = (phase, record.key) if phase != "approve" or ("approve", record.key) in self.predictions else ("lodge", record.key)
            reason = self.journal.refused.get(place) or "not sent"
            if self.predictions.get(place):
                reason += "; predicted: {} {}".format(*self.predictions[place])
            self.missing.append((place_of(record), reason))
            self.not_imported.update(objects)
        return found

    def put(self, kind, number, fields, record):
        self.rows[kind][number] = fields, record

    def party(self, key):
        return party_number(self.journal.numbers, key)

    def build(self):
        parties = list(self.records.parties.values()) + ([self.plan.notary] if self.plan.notary else [])
        for party in parties:
            span = self.span("enrol", party, party=1)
            if span:
                self.put("party", span[0], (party.name, party.kind), party)
                self.names[span[0]] = party.name
        for group in self.records.groups.values():
            span = self.span("group", group, party=1)
            if span:
                self.put("party", span[0], (group.name, "group"), group)
                self.names[span[0]] = group.name
        for unit in self.records.units.values():
            span = self.span("register", unit, unit=1, source=1, parcel=len(unit.parcels), rrr=len(unit.rights))
            if span:
                self.put_unit(unit, span[0])
        for burden in self.records.burdens.values():
            span = self.span("burden", burden, rrr=1, source=1)
            if span:
                party = self.party(burden.party)
                self.put("source", span[0], ("administrative", burden.document), burden)
                unit = self.journal.numbers.get(("unit", burden.unit))
                name = self.names.get(party)
                self.put("rrr", span[1], (unit, party, name, burden.classed, "", "", "", "", burden.words, span[0]), burden)
        for mortgage in self.records.mortgages.values():
            self.put_mortgage(mortgage)
        for mandate in self.records.mandates.values():
            self.span("mandate", mandate)

    def put_unit(self, unit, source):
        self.put("source", source, ("administrative", unit.document), unit)
        self.put("unit", source + 1, (unit.name, "yes" if unit.checked else "no"), unit)
        number = source + 2
        for parcel in unit.parcels:
            it = parcel.outline
            self.put("parcel", number, (source + 1, parcel.label, it, it.printed, source), parcel)
            self.doubled += it.doubled
            self.source_doubled += it.doubled if it.source_doubled is None else it.source_doubled
            if it.source_doubled is not None and it.source_doubled != it.doubled:
                self.rounded.append((unit, parcel, number))
            number += 1
        for right in unit.rights:
            party = self.party(right.party)
            self.put("rrr", number, (source + 1, party, self.names.get(party), right.type, shares.lowest_terms(right.share), "", "", "", "",
                                     source), unit)
            self.shares[right.type] += Fraction(right.share)
            number += 1

    def put_mortgage(self, mortgage):
        lodged = self.journal.spans.get(("lodge", mortgage.key))
        if lodged:
            self.put("source", lodged[0], ("administrative", mortgage.document), mortgage)
            state = "approved" if ("approve", mortgage.key) in self.journal.spans else "lodged"
            lodger, reference = self.party(NOTARY_KEY), reference_of(mortgage.key)
            self.put("mutation", lodged[1], (lodger, reference, lodged[0], ANY, "mortgage", state), mortgage)
        span = self.span("approve", mortgage, rrr=1, **({} if lodged else {"source": 1, "mutation": 1}))
        if span:
            party = self.party(mortgage.creditor)
            self.put("rrr", span[0], (self.journal.numbers.get(("unit", mortgage.unit)), party, self.names.get(party), "mortgage", "",
                                      mortgage.amount, mortgage.currency, self.plan.ranks.get(mortgage.key), "", lodged[0]), mortgage)


class Comparison:
    """The result: for each kind the number of rows of both sides, and each difference."""

    HEADER = ("kind", "number", "table", "line", "key", "difference", "source", "register")

    def __init__(self, path):
        self.counts, self.differences, self.notes = {}, 0, 0
        self.file = open(path, "w", encoding="utf-8", newline="")
        self.writer = csv.writer(self.file, lineterminator="\n")
        self.writer.writerow(self.HEADER)

    def differ(self, kind, number, place, what, source, register):
        self.differences += 1
        self.writer.writerow((kind, number, *(place or ("", "", "")), what, source, register))

    def note(self, kind, number, place, what, source, register):
        self.notes += 1
        self.writer.writerow((kind, number, *(place or ("", "", "")), what, source, register))

    def close(self):
        self.file.close()


def compare_extracts(folder, expected, result):
    """Compares the extracts in a folder with the expected rows. Returns the total of twice the areas and the shares in the register."""
    base, areas, held = expected.journal.base or 2, 0, collections.Counter()
    for kind in KINDS:
        rows, names, equal, seen = expected.rows[kind], COLUMNS[kind].split(",")[1:], 0, 0
        left = dict(rows)
        for number, fields in read_extract(folder, kind):
            if number < base:
                continue
            seen += 1
            if kind == "parcel":
                areas += int(fields[2].replace(".", ""))
            if kind == "rrr" and fields[4]:
                held[fields[3]] += Fraction(fields[4])
            found = left.pop(number, None)
            if found is None:
                result.differ(kind, number, None, "not in the source", "", ",".join(fields))
                continue
            wanted = texts_of(found[0])
            is_equal = True
            for name, want, have in zip(names, wanted, fields):
                if want is not ANY and want != have:
                    result.differ(kind, number, place_of(found[1]), name, want, have)
                    is_equal = False
            equal += is_equal
        for number, (wanted, record) in left.items():
            row = ",".join("" if it is ANY else it for it in texts_of(wanted))
            result.differ(kind, number, place_of(record), "not in the register", row, "")
        result.counts[kind] = len(rows) + expected.not_imported[kind], len(rows), seen, equal
    for place, reason in expected.missing:
        result.differ("", "", place, "not imported", "", reason)
    for unit, parcel, number in expected.rounded:
        it = parcel.outline
        result.note("parcel", number, place_of(parcel), "area, by rounding",
                    f"{float(it.source_doubled / 2 / 10**6):.9f}", square_metres(it.doubled))
    return areas, held


def pipelined(connection, requests, take, depth=64):
    """Sends requests, pipelined, and calls take(reply) with each status and JSON, in order."""
    pending, following = 0, iter(requests)
    while True:
        chunk = []
        while pending < depth and (data := next(following, None)) is not None:
            chunk.append(data)
            pending += 1
        if chunk:
            connection.send(b"".join(chunk))
        if not pending:
            return
        for _ in range(max(1, pending // 2)):
            take(*connection.receive())
            pending -= 1


def compare_views(connection, records, plan, journal, result):
    """Compares all that no extract has with the source: members and their shares, roles, mandates. Returns the numbers of each."""
    numbers, counts = journal.numbers, collections.Counter()
    wanted = []
    for group in records.groups.values():
        number = numbers.get(("party", group.key))
        if number:
            members = sorted(((party_number(numbers, key), shares.lowest_terms(share)) for key, share, _ in group.members))
            wanted.append((number, "members", members, group))
    parties = list(records.parties.values()) + ([plan.notary] if plan.notary else [])
    for party in parties:
        number = numbers.get(("party", party.key))
        if number:
            wanted.append((number, "roles", sorted(plan.roles_after.get(party.key, ())), party))
    following = iter(wanted)

    def take_party(status, reply):
        number, name, want, record = next(following)
        have = reply.get("object", {}).get(name)
        have = sorted((it["party"], it["share"]) for it in have or ()) if name == "members" else sorted(have or ())
        counts[name] += 1
        if have != want:
            result.differ("party", number, place_of(record), name, want, have if status == 200 else reply)
    pipelined(connection, (request_of_view(f"/parties/{it[0]}") for it in wanted), take_party)

    given = [it for it in records.mandates.values() if ("mandate", it.key) in journal.spans and it.agent != OFFICE_KEY]   # not a citizen
    mandates = iter(given)

    def take_mandate(status, reply):
        mandate = next(mandates)
        counts["mandates"] += 1
        if status != 200:
            result.differ("mandate", "", place_of(mandate), "the agent does not see the principal", "", reply)
    pairs = ((party_number(numbers, it.principal), party_number(numbers, it.agent)) for it in given)
    targets = (request_of_view(f"/parties/{principal}", agent, "citizen") for principal, agent in pairs)
    pipelined(connection, targets, take_mandate)
    return counts
