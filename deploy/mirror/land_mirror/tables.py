"""The tables of a register that the mirror copies: their columns, types and keys. docs/TABLES.md defines them."""
from dataclasses import dataclass

# The `until` of a row that is current.
OPEN = 4102444800000
# The schema version in the table `edition`.
VERSION = 2


@dataclass(frozen=True)
class Table:
    """A versioned table. Each row is one version of a record, valid from `since` until `until`."""
    name: str
    columns: tuple          # (name, is_text) of each column, without since and until
    key: tuple              # together with `since`, the primary key

    @property
    def names(self):
        return tuple(name for name, _ in self.columns) + ("since", "until")

    @property
    def casts(self):
        """Returns the PostgreSQL type of each column."""
        return tuple("text" if is_text else "bigint" for _, is_text in self.columns) + ("bigint", "bigint")


def _table(name, columns, key="number"):
    """A column whose name ends in ' is text; all others are integers."""
    words = columns.split()
    return Table(name, tuple((it.rstrip("'"), it.endswith("'")) for it in words), tuple(key.split()))


TABLES = (
    _table("party", "number name' kind'"),
    _table("role", "party role'", "party role"),
    _table("member", "grp party num den", "grp party"),
    _table("unit", "number name' checked"),
    _table("parcel", "number unit label' outline' source"),
    _table("rrr", "number unit party class' num den amount currency' place words' source"),
    _table("source", "number kind' title'"),
    _table("mutation", "number lodger reference' source lodged act' content' state'"),
    _table("names", "mutation unit", "mutation unit"),
    _table("mandate", "principal agent", "principal agent"),
)
# Tables whose rows have a number of the common sequence.
NUMBERED = ("party", "unit", "parcel", "rrr", "source", "mutation")
