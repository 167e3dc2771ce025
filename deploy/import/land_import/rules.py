"""The numbers in replies of the register that an import can meet: what each means, and how to change the source."""
import re

CONTROL = re.compile(r"[\x00-\x1f\x7f]")
KINDS = ("naturalPerson", "nonNaturalPerson")
ROLES = ("citizen", "conveyancer", "notary", "bank", "certifiedSurveyor", "stateAdministrator")
RIGHTS = ("ownership", "lease", "usufruct")
CLASSES = ("restriction", "responsibility")
MOST_MEMBERS = MOST_PARCELS = MOST_RIGHTS = 64
MOST_ENTRIES = 256
MOST_AMOUNT = 1_000_000_000_000_000
MOST_NUMBER = 1_000_000_000
LONGEST_BODY = 1_048_576

# Number -> (what it means, what to do).
RULES = {
    101: ("a share is zero", "correct the share"),
    102: ("a share is above one", "correct the share"),
    103: ("a share has a denominator above 1,000,000,000 in lowest terms", "give the share as a simpler fraction"),
    110: ("an outline is not a POLYGON", "convert the geometry to polygons"),
    111: ("an outline is EMPTY", "add the outline: the register holds no parcel without one"),
    112: ("an outline has a hole", "cut the parcel through the hole into two parcels of the unit; the register holds no holes"),
    113: ("an outline has Z or M coordinates", "set drop_z = true in [outlines]"),
    114: ("a coordinate is not a whole number of millimetres", "set scale (1000 for metres) and, if needed, round = true in [outlines]"),
    115: ("a coordinate is above 10,000 km", "check scale in [outlines], or subtract an offset from all coordinates"),
    116: ("an outline has fewer than three corners", "correct the outline"),
    117: ("an outline has more than 200 points",
          "set drop_straight = true in [outlines], split the parcel, or simplify shared borders together"),
    118: ("an outline is not closed", "repeat the first point at the end"),
    119: ("an outline is not simple", "correct the outline: it must not cross or touch itself"),
    120: ("an outline has an area above 500 square kilometres", "split the parcel, or check scale in [outlines]"),
    131: ("a field or a number of rows does not have the required form", "see the row's text"),
    132: ("a number or a share is not valid",
          "shares are 1 to 18 digits, /, 1 to 18 digits; amounts are whole minor units from 1 to 10^15"),
    133: ("a text is empty, too long, has a control character, or is not a word of the register",
          "correct it, or map it with words or shorten"),
    134: ("a role does not exist", "the roles are " + ", ".join(ROLES)),
    142: ("the request is longer than 1,048,576 bytes", "simplify the outlines of the unit"),
    202: ("the unit does not exist", "correct the reference, or the unit so that it is accepted"),
    205: ("a party does not exist, or is a group where a single party is required",
          "correct the reference, or the party so that it is accepted"),
    207: ("the shares have no common denominator up to 1,000,000,000", "give the shares as simpler fractions"),
    210: ("the unit would have more than 256 entries", "move owners into a group, or combine entries"),
    211: ("the creditor does not hold the role bank", "a creditor must be a single party that is accepted"),
    213: ("the shares do not sum to one", "correct the shares; for a unit, checked = false accepts any shares"),
    215: ("the party already holds the role", "remove the repeated role; each single party is a citizen from its enrolment"),
    219: ("a party occurs twice", "join the rows of the party, or correct one of them"),
    221: ("the agent already holds a mandate of the principal", "remove the repeated row"),
}
# The beginning of a description -> the remedy, if it is more specific than that of the number.
REMEDIES = {
    "the unit has no parcel": "add an outline; for a flat, enter its owners in the unit of the building, or draw it as a parcel of its own",
    "the unit has no owner": "add an ownership; if the owner is not known, of a party such as Unknown owner",
    "the unit has no ownership": "add an ownership; if the owner is not known, of a party such as Unknown owner",
    "the group has": "split the group, or list its members as owners of their own",
    "checked is": "map the values to true and false with words",
    "it repeats the point": "set drop_repeated = true in [outlines]",
}
UNIT_HAS = re.compile(r"the unit has [0-9]+ (parcels|rights)")
DENIALS = {
    1: ("the principal is not in the register", "correct the reference, or the party so that it is accepted"),
    2: ("the principal is a group", "only single parties give mandates; use a mandate of each member"),
}


def explain(prediction, detail=""):
    """Returns the meaning and the remedy of a predicted reply, a pair such as ("fault", 133), and of a description of the row."""
    word, number = prediction
    meaning, remedy = (DENIALS if word == "denied" else RULES).get(number, (f"{word} {number}", "see docs/ACTS.md"))
    if detail.startswith("the amount"):
        return meaning, "set scale for the amount in the mapping, such as 100 from EUR to cents"
    if found := UNIT_HAS.match(detail):
        return meaning, "split the unit" if found[1] == "parcels" else "move owners into groups of up to 64 members"
    return meaning, next((it for start, it in REMEDIES.items() if detail.startswith(start)), remedy)


def is_text(text, longest):
    """Returns whether a string is a name of at most `longest` characters: not empty, without control characters."""
    return 1 <= len(text) <= longest and not CONTROL.search(text)


def describe_text(text, longest):
    """Describes why a string is not a name."""
    if not text:
        return "is empty"
    if len(text) > longest:
        return f"has {len(text)} characters, at most {longest} are allowed"
    return f"has the control character U+{ord(CONTROL.search(text)[0]):04X}"
