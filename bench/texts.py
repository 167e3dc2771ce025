"""The SQL statements that the program runs for each request of joins.py and mandates.py, in their order and with their parameters; and the
baseline in C, which runs them.

The statements are read from the sources by the names of their constants; those of a selection or of a table have the name of their file
before it (own/GROUPS, party/BEGIN). The steps of a request have the form that baseline.c reads: the name of a statement and its parameters,
after `each OTHER` if it is run once for each row of OTHER's last result. order.py compares all of this with the program.
"""
import os
import shutil
import subprocess

from registers import OPEN, TOP, sql_of

LAST = OPEN - 1
SELECTIONS = ("all", "own", "holder", "group", "creditor", "lodger", "named")
TABLES = ("member", "moments", "mutation", "names", "parcel", "party", "role", "rrr", "source", "unit")

STATEMENTS = sql_of("land_select_queries/src/lookups/texts.rt")
for folder, names in (("land_select_queries/src/joins", SELECTIONS), ("land_tables_schema/src/rows/tables", TABLES)):
    for file in names:
        STATEMENTS.update({f"{file}/{name}": sql for name, sql in sql_of(f"{folder}/{file}.rt").items()})


def of_circle(*names, time="now"):
    """Statements that are run for each member of a citizen's circle: its principals, then itself (running::run_union_for)."""
    others = [f"each MANDATES_OF_AGENT {name} MANDATES_OF_AGENT.principal {time}" for name in names]
    return [f"MANDATES_OF_AGENT $1 {time}", *others, *each(*names, time=time)]


def each(*names, time="now"):
    """Statements that are run for the caller."""
    return [f"{name} $1 {time}" for name in names]


def latest(*names):
    """The statements of a list for the caller. A list of the present is read at the last moment (known_roles::reading_moment)."""
    return each(*names, time=LAST)


def latest_of_circle(*names):
    """Those of a list for a citizen's circle."""
    return of_circle(*names, time=LAST)


# Parts of requests, each with the function of land_select, or of its module verdict, that runs it. $1 is the caller, $2 the number in the
# path, $3 the unit that the JSON of a mutation refers to.
GROUPS = of_circle("own/GROUPS")                                                                    # interest::read_names, of a citizen
PARTIES = ("own/ITSELF", "own/GROUPS", "holder/PARTIES", "group/PARTIES")                           # sight::SightQuery, of a citizen
UNIT = ["ENTRIES_OF_UNIT $2 now"]                                                                   # interest::read_shown_unit
OWN = ["ENTRY $2 now"]                                                                              # interest::is_found_entry_shown
ENTRY = [*OWN, "ENTRIES_OF_UNIT ENTRY.unit now"]                                                    # interest::read_shown_entry
NAMING = ["MUTATION $2 now", "ENTRIES_OF_UNIT $3 now"]                                              # mutation::read_shown_mutation
AWAITED = ["LODGERS_ON_UNIT $2 now"]                                                                # lodgers::has_pending_mutation_on
RECORD = ["UNIT $2 now"]                                                                            # view::read_unit_record
PARCELS = ["PARCELS_OF_UNIT $2 now"]                                                                # view::read_parcels
NAMES = ["PARTIES_OF_UNIT $2 now"]                                                                  # of_entries::parties

# The statements of each read by a caller whose role is known (known_roles::is_known; else ROLES_OF_PARTY comes first), and the functions
# that run them. view::is_visible or sheet::read_sheet_verdict computes the verdict first, and a denial needs no further statement; then the
# rows that are not yet cached are read. A list is sight::SightQuery: each selection of role and kind, for an agent over its circle. An
# object is object::ObjectQuery, a sheet view::UnitViewQuery; lodgers::has_lodged reads a mutation's lodger. A citizen is known to hold no
# mandate (known_roles::holds_no_mandate), an agent is a citizen that holds one: it looks up its principals at each list.
READS = {
    ("citizen", "list own units"): latest("holder/UNITS", "group/UNITS"),                     # SightQuery
    ("citizen", "list visible entries"): latest("holder/ENTRIES", "group/ENTRIES"),           # SightQuery
    ("citizen", "list visible parties"): latest(*PARTIES),                                    # SightQuery
    ("agent", "list own units"): latest_of_circle("holder/UNITS", "group/UNITS"),             # SightQuery
    ("agent", "list visible entries"): latest_of_circle("holder/ENTRIES", "group/ENTRIES"),   # SightQuery
    ("agent", "list visible parties"): latest_of_circle(*PARTIES),                            # SightQuery
    ("citizen", "view a visible party"): [                                                    # party::is_party_visible, ObjectQuery
        *GROUPS, "VIEWERS_BY_HOLDING $2 now", "PARTY $2 now", "ROLES_OF_PARTY $2 now", "MEMBERS_OF_GROUP $2 now"],
    ("citizen", "view a visible entry"): OWN,                                                 # interest::read_shown_entry
    ("citizen", "view a denied entry"): [*ENTRY, *GROUPS],                                    # interest::read_shown_entry
    ("citizen", "view a parcel"): ["PARCEL $2 now"],                                          # view::read_object
    ("citizen", "view own unit"): [*UNIT, *RECORD],                                           # interest::is_unit_shown, ObjectQuery
    ("citizen", "own title sheet"): [*UNIT, *RECORD, *PARCELS, *NAMES],                       # interest::read_shown_unit, UnitViewQuery
    ("citizen", "denied title sheet"): [*UNIT, *GROUPS],                                      # interest::read_shown_unit
    ("bank", "list visible units"): latest("creditor/UNITS"),                                 # SightQuery
    ("bank", "list visible entries"): latest("creditor/ENTRIES"),                             # SightQuery
    ("bank", "view own mortgage"): OWN,                                                       # interest::read_shown_entry
    ("bank", "view a denied entry"): ENTRY,                                                   # interest::read_shown_entry
    ("bank", "title sheet"): [*UNIT, *RECORD, *PARCELS, *NAMES],                              # interest::read_shown_unit, UnitViewQuery
    ("bank", "view an entry, mortgages on all other units"): ENTRY,                           # interest::read_shown_entry
    ("bank", "view an owner, mortgages on all other units"): [                                # party::is_party_visible, ObjectQuery
        "VIEWERS_BY_CREDITING $2 now", "PARTY $2 now", "ROLES_OF_PARTY $2 now", "MEMBERS_OF_GROUP $2 now"],
    ("citizen", "mutation of own unit"): [*NAMING, *GROUPS],                                  # mutation::read_shown_mutation
    ("citizen", "denied mutation"): [*NAMING, *GROUPS],                                       # mutation::read_shown_mutation
    ("conveyancer", "mutation, if it filed all"): ["LODGER_OF_MUTATION $2 now", "MUTATION $2 now"],  # has_lodged, ObjectQuery
    ("conveyancer", "mutation filed by another"): ["LODGER_OF_MUTATION $2 now"],              # lodgers::has_lodged
    ("conveyancer", "view a unit, all its filings decided"): AWAITED,                         # conveyancer::read_pending_unit
    ("notary", "view an entry"): ["ENTRY $2 now"],                                            # view::read_object
    ("notary", "view a missing entry"): ["ENTRY $2 now"],                                     # view::read_object
    ("notary", "title sheet"): [*RECORD, *PARCELS, "ENTRIES_OF_UNIT $2 now", *NAMES],         # view::read_object, UnitViewQuery
    ("notary", "list all units"): latest("all/UNENDED_UNITS"),                                # SightQuery, running::selection_of_all
    ("citizen", "list all parcels"): latest("all/UNENDED_PARCELS"),                           # the same; a list of parcels has no circle
}

# The statements that version 0.4.0 ran for the reads of which SPEED.md states a target. It looked up the roles of the caller each time.
CALLER = [f"ROLES_OF_PARTY $1 {LAST}"]
EARLIER = {
    ("citizen", "list own units"): [*CALLER, *of_circle("holder/UNITS", "group/UNITS")],
    ("citizen", "view a visible entry"): [*CALLER, *ENTRY, *GROUPS],
    ("citizen", "view own unit"): [*CALLER, *UNIT, *GROUPS, *RECORD],
    ("bank", "view own mortgage"): [*CALLER, *ENTRY],
    ("notary", "view an entry"): [*CALLER, "ENTRY $2 now"],
    ("notary", "list all units"): [*CALLER, "all/UNITS $1 now"],
    ("citizen", "list all parcels"): [*CALLER, "all/PARCELS $1 now"],
}


def begun(table, number, *cells):
    """The first version of a new object (land_tables_rows, change_writing::all::change)."""
    return [f"{table}/BEGIN {number} {' '.join(cells)} stamp"]


def replaced(table, number, *cells):
    """The new version of an object: the earlier one is closed, and this one is inserted."""
    return [f"{table}/CLOSE {number} stamp", *begun(table, number, *cells)]


# For each act the number of object numbers that it allocates, and its statements if the role of the caller is known
# (known_roles::is_known): slices::slice::slice_at, which reads the parts that the outcome depends on (land_acts, needed_parts), then
# change_writing::change::write_change (land_tables_rows): parties and roles, units and entries, sources and mutations, the stamp.
ACTS = {
    # $2 is the name.
    "enrol": (1, [*begun("party", "next+0", "$2", "=naturalPerson"), "role/BEGIN next+0 =citizen stamp", "moments/INSERT stamp next+1"]),
    # $2 is the name, $3 the outline, $4 the owner.
    "register": (4, [f"PARTY $4 {LAST}", *begun("unit", "next+1", "$2", "1"), *begun("parcel", "next+2", "next+1", "=1", "$3", "next+0"),
                     *begun("rrr", "next+3", "next+1", "$4", "=ownership", "1", "1", "-", "-", "-", "-", "next+0"),
                     *begun("source", "next+0", "=administrative", "=Deed"), "moments/INSERT stamp next+4"]),
    # $2 is the reference, $3 the unit, $4 the receiver, $5 the content.
    "transfer": (2, [f"MUTATION_LODGED_AS $1 {LAST} $2", *begun("source", "next+0", "=administrative", "=Deed"),
                     *begun("mutation", "next+1", "$1", "$2", "next+0", "stamp", "=transfer", "$5", "=lodged"),
                     "names/BEGIN next+1 $3 stamp", "moments/INSERT stamp next+2"]),
    # $2 is the mutation, $3 its unit, $4 the transferred right, $5 the receiver.
    "approve": (1, [f"MUTATION $2 {LAST}", f"PARTY $5 {LAST}", f"UNIT $3 {LAST}", f"ENTRIES_OF_UNIT $3 {LAST}",
                    "rrr/CLOSE $4 stamp", "rrr/BEGIN next+0 $3 $5 =ownership 1 2 - - - - MUTATION.source stamp",
                    *replaced("mutation", "$2", "MUTATION.lodger", "MUTATION.reference", "MUTATION.source", "MUTATION.lodged",
                              "MUTATION.act", "MUTATION.content", "=approved"), "moments/INSERT stamp next+1"]),
}


def definitions():
    """Returns the lines that define all statements and plans for the baseline."""
    lines = [f"sql\t{name}\t{sql}" for name, sql in STATEMENTS.items()]
    plans = [*((": ".join(read), 0, steps) for read, steps in READS.items()),
             *((earlier(*read), 0, steps) for read, steps in EARLIER.items()),
             *((act, count, steps) for act, (count, steps) in ACTS.items())]
    for name, count, steps in plans:
        lines.append(f"plan\t{name}\t{count}")
        lines += ["\t".join(([] if step.startswith("each ") else ["run"]) + step.split(" ")) for step in steps]
    return lines


def earlier(role, name):
    """Returns the name of the steps by which version 0.4.0 ran a read."""
    return f"{role}: {name}, in 0.4.0"


def plan_of(role, name, known):
    """Returns the name of the steps of a read. An agent is a caller with principals."""
    return f"{'agent' if known.get('principals') and ('agent', name) in READS else role}: {name}"


def missing():
    """Returns the reason why the baseline cannot be built, or None."""
    if not shutil.which("cc"):
        return "cc is not installed; it builds bench/baseline.c"
    ran = subprocess.run(["cc", "-E", "-include", "sqlite3.h", "-x", "c", "/dev/null"], capture_output=True)
    return "sqlite3.h (Debian's libsqlite3-dev) is not installed; bench/baseline.c needs it" if ran.returncode else None


def build(folder):
    """Builds the baseline. Returns its path."""
    program = os.path.join(folder, "baseline")
    subprocess.run(["cc", "-O2", "-Wall", "-Wextra", "-Werror", "-o", program, str(TOP / "bench" / "baseline.c"), "-lsqlite3"], check=True)
    return program


class Baseline:
    """The baseline on a file, which it writes. Values are numbers and texts."""

    def __init__(self, call):
        self.process = subprocess.Popen(call, stdin=subprocess.PIPE, stdout=subprocess.PIPE, text=True)
        self.process.stdin.write("\n".join([*definitions(), ""]))

    def send(self, *words):
        line = "\t".join(word if place < 2 else f"={word}" if isinstance(word, str) else str(word) for place, word in enumerate(words))
        self.process.stdin.write(line + "\n")
        self.process.stdin.flush()

    def reply(self):
        line = self.process.stdout.readline()
        if not line:
            raise SystemExit("the baseline has exited")
        return line.rstrip("\n").split("\t")

    def read(self, plan, seconds, *values):
        """Returns the median of the seconds that a read takes, and the number of its statements."""
        self.send("read", plan, seconds, *values)
        spent, count, _ = self.reply()
        return int(spent) / 1e9, int(count)

    def act(self, plan, *values):
        """Returns the seconds that an act takes, its CPU time, and the first new number."""
        self.send("act", plan, *values)
        spent, busy, first = map(int, self.reply())
        return spent / 1e9, busy / 1e9, first

    def steps(self, plan, *values):
        """Returns the statements that a read or an act runs, each as a list of its name and its parameters."""
        self.send("show", plan, *values)
        rows = []
        while (row := self.reply()) != [""]:
            rows.append(row)
        return rows

    def stop(self):
        self.process.stdin.close()
        if self.process.wait():
            raise SystemExit(f"the baseline exits with {self.process.returncode}")
