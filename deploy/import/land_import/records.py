"""Reads the source as records of the register, and reports rows that cannot become a record."""
import re
from dataclasses import dataclass, field

from . import outlines, shares
from .errors import Stop
from .findings import CHANGED, NOTE, SOURCE

OFFICE_KEY = "@office"      # the key of party 1, the Land Office, which every register has


@dataclass(slots=True)
class Party:
    table: str
    line: int
    key: str
    kind: str
    name: str
    roles: list


@dataclass(slots=True)
class Group:
    table: str
    line: int
    key: str
    name: str
    members: list = field(default_factory=list)     # (party's key, share, line)


@dataclass(slots=True)
class Parcel:
    table: str
    line: int
    key: str
    label: str
    outline: outlines.Outline
    area: str


@dataclass(slots=True)
class Right:
    table: str
    line: int
    key: str                # of its unit
    party: str
    type: str
    share: str


@dataclass(slots=True)
class Unit:
    table: str
    line: int
    key: str
    name: str
    document: str
    checked: object         # a bool, or a text that is neither
    parcels: list = field(default_factory=list)
    rights: list = field(default_factory=list)


@dataclass(slots=True)
class Burden:
    table: str
    line: int
    key: str
    unit: str
    party: str
    classed: str
    words: str
    document: str


@dataclass(slots=True)
class Mortgage:
    table: str
    line: int
    key: str
    unit: str
    creditor: str
    amount: object          # an int, or a text that is not one
    currency: str
    document: str
    rank: int | None


@dataclass(slots=True)
class Mandate:
    table: str
    line: int
    key: str
    principal: str
    agent: str


AMOUNT = re.compile(r"[+-]?[0-9]{1,40}")
TRUE, FALSE = {"true", "yes", "1"}, {"false", "no", "0"}


class Records:
    """All records of the source, in the order of its rows."""

    def __init__(self, source, mapping, findings):
        self.source, self.mapping, self.findings = source, mapping, findings
        self.parties, self.groups, self.units, self.burdens, self.mortgages, self.mandates = {}, {}, {}, {}, {}, {}
        self.rows = {}          # kind -> number of rows
        self.unplaced_parcels = []
        used, seen_tables = {}, set()
        for table in mapping.tables:
            if table.table is not None and not source.has(table.table):
                if table.is_default:
                    continue
                raise Stop(f"mapping, [{table.kind}]: {source.path} has no table {table.table}; it has {', '.join(source.names())}")
            seen_tables.add(table.table)
            self.read(table, used)
        if not seen_tables:
            raise Stop(f"{source.path} has no table of a known name, and no mapping was given; its tables are {', '.join(source.names())}; "
                       "the known names are parties, groups, members, units, parcels, rights, burdens, mortgages, mandates")
        for table, (columns, names) in used.items():
            unused = [name for name in columns if name not in names]
            if unused:
                self.note(table, f"columns that are not imported: {', '.join(unused)}",
                          "put them into the document or the name with a template")
        for name in source.names():
            if name not in seen_tables:
                self.note(name, "this table is not imported", "map it if the register has a place for it")
        self.check_scale()

    def note(self, table, rule, remedy):
        self.findings.add(NOTE, table, "", "", rule, remedy)

    def broken(self, table, line, key, rule, remedy, detail=""):
        self.findings.add(SOURCE, table, line, key, rule, remedy, detail=detail)

    def table_rows(self, table, used):
        if table.inline is not None:
            columns = list(dict.fromkeys(column for row in table.inline for column in row))
            table.complete(columns)
            for line, row in enumerate(table.inline, 1):
                yield line, {column: str(row.get(column, "")) for column in columns}
            return
        rows = self.source.rows(table.table)
        first = next(rows, None)
        if first is None:
            raise Stop(f"table {table.table} is empty; its first line must have the names of the columns")
        columns = list(first[1])
        names = table.complete(columns)
        used.setdefault(table.table, (columns, set()))[1].update(names)
        for line, row in rows:
            if row is None:
                self.broken(table.table, line, "", "the row has another number of fields than the header",
                            "correct the row, or delimiter in [source]")
                continue
            row["#"] = str(line)
            if table.takes(row):
                yield line, row

    def read(self, table, used):
        """Reads the rows of a table with the method that is named after its kind."""
        place, add, kind = table.table or f"[{table.kind}]", getattr(self, "add_" + table.kind), table.kind
        fields = None
        for line, row in self.table_rows(table, used):
            fields = fields or list(table.fields.items())
            values = {}
            for name, it in fields:
                values[name], change = it.read(row)
                if change:
                    key = values.get("key", "")
                    self.findings.add(CHANGED, place, line, key, f"{name} is {change}", "accept it, or shorten it in the source")
            self.rows[kind] = self.rows.get(kind, 0) + 1
            add(place, line, values, table.is_distinct)

    def take_key(self, place, line, values, known, is_distinct):
        """Returns the key of a row, or None if it is missing or was used before."""
        key = values.get("key", "").strip()
        if not key:
            self.broken(place, line, "", "the key is empty", "give each row a key of its own")
            return None
        if any(key in it for it in known) or key == OFFICE_KEY:
            if not is_distinct:
                self.broken(place, line, key, "the key occurs twice",
                            "give each row a key of its own, or set distinct = true in the mapping")
            return None
        return key

    def add_parties(self, place, line, values, is_distinct):
        key = self.take_key(place, line, values, (self.parties, self.groups), is_distinct)
        if key is not None:
            roles = values.get("roles", "").split()
            self.parties[key] = Party(place, line, key, values["kind"].strip(), values["name"], roles)

    def add_groups(self, place, line, values, is_distinct):
        key = self.take_key(place, line, values, (self.parties, self.groups), is_distinct)
        if key is not None:
            self.groups[key] = Group(place, line, key, values["name"])

    def add_members(self, place, line, values, _):
        group = self.groups.get(values["group"].strip())
        if group is None:
            self.broken(place, line, values["group"], "the row is a member of a group that does not exist",
                        "add the group, or remove the row")
        else:
            group.members.append((values["party"].strip(), self.share(place, line, group.key, values["share"]), line))

    def add_units(self, place, line, values, is_distinct):
        key = self.take_key(place, line, values, (self.units,), is_distinct)
        if key is not None:
            word = values.get("checked", "true").strip().lower()
            checked = True if word in TRUE else False if word in FALSE else word
            self.units[key] = Unit(place, line, key, values["name"], values["document"], checked)

    def add_parcels(self, place, line, values, _):
        key = values.get("key", values["label"]).strip()
        unit = self.units.get(values["unit"].strip())
        if unit is None:
            self.broken(place, line, key, "the parcel is in a unit that does not exist",
                        "add the unit, or correct the reference; the register holds no parcel without a unit")
            return
        converted = outlines.convert(values["outline"], self.mapping.outlines)
        for outline in converted:
            unit.parcels.append(Parcel(place, line, key, values["label"], outline, values.get("area", "") if len(converted) == 1 else ""))
            for change in outline.changes:
                if change == "multipolygon of one part":
                    continue
                detail = "" if change != "rounded" or outline.fault else self.describe_rounding(outline)
                self.findings.add(CHANGED, place, line, key, f"the outline is changed ({change})", "", detail=detail)

    @staticmethod
    def describe_rounding(outline):
        by = (outline.doubled - outline.source_doubled) / 2 / 10**6
        return f"a corner moves by at most {float(outline.shift):.3f} mm, the area changes by {float(by):+.6f} m2"

    def add_rights(self, place, line, values, _):
        unit = self.units.get(values["unit"].strip())
        if unit is None:
            self.broken(place, line, values["unit"], "the right is in a unit that does not exist", "add the unit, or remove the row")
        else:
            share = self.share(place, line, unit.key, values["share"])
            unit.rights.append(Right(place, line, unit.key, values["party"].strip(), values["type"].strip(), share))

    def share(self, place, line, key, text):
        share = shares.convert(text)
        if share != text.strip() and "/" not in text:
            self.findings.add(NOTE, place, line, key, "the share is converted to a fraction", "", detail=f"{text.strip()} to {share}")
        return share

    def own_key(self, place, line, values, known):
        values["key"] = values.get("key", f"{place} {line}")
        return self.take_key(place, line, values, (known,), False)

    def add_burdens(self, place, line, values, _):
        key = self.own_key(place, line, values, self.burdens)
        if key is not None:
            self.burdens[key] = Burden(place, line, key, values["unit"].strip(), values["party"].strip(), values["class"].strip(),
                                       values["words"], values["document"])

    def add_mortgages(self, place, line, values, _):
        key = self.own_key(place, line, values, self.mortgages)
        if key is None:
            return
        amount, rank = values["amount"].strip(), values.get("rank", "").strip()
        if rank and not (rank.isascii() and rank.isdigit()):
            self.broken(place, line, key, "the rank is not a number", "correct the rank", detail=rank)
            return
        value = int(amount) if AMOUNT.fullmatch(amount) else amount
        self.mortgages[key] = Mortgage(place, line, key, values["unit"].strip(), values["creditor"].strip(), value,
                                       values["currency"].strip(), values["document"], int(rank[:18]) if rank else None)

    def add_mandates(self, place, line, values, _):
        principal, agent = values["principal"].strip(), values["agent"].strip()
        key = f"{principal} {agent}"
        while key in self.mandates:
            key += " again"
        self.mandates[key] = Mandate(place, line, key, principal, agent)

    def check_scale(self):
        """Notes a scale that cannot be right: fractions that metres would explain, or parcels that are too small."""
        texts = [parcel.outline for unit in self.units.values() for parcel in unit.parcels]
        fractions = [it for it in texts if it.fault == 114]
        if fractions and self.mapping.outlines.scale == 1:
            metres = outlines.Options(scale=outlines.Decimal(1000))
            whole = sum(outlines.convert(it.text, metres)[0].fault != 114 for it in fractions)
            advice = "scale = 1000 in [outlines] (or --scale 1000)"
            if whole < len(fractions):
                advice += " and round = true (or --round)"
            self.note("parcels", f"{len(fractions):,} outlines have fractions; as metres, {whole:,} of them are whole millimetres", advice)
        areas = sorted(it.doubled for it in texts if it.fault is None)
        if areas and areas[len(areas) // 2] < 2_000_000:
            self.note("parcels", "half of the parcels have less than one square metre",
                      "check scale in [outlines]: coordinates are in millimetres")
        if not self.rows.get("parcels"):
            self.note("parcels", "there are no parcels", "add or map a table of parcels: the register holds no unit without one")
