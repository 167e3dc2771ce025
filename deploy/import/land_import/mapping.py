"""The mapping: which tables and columns of the source hold the fields of each kind of record. docs/IMPORT.md lists the keys of the file."""
import re
import tomllib
from decimal import Decimal, InvalidOperation

from .errors import Stop
from .outlines import Options

# The fields of each kind. A field in OPTIONAL may be missing.
FIELDS = {
    "parties": ("key", "name", "kind", "roles"),
    "groups": ("key", "name"),
    "members": ("group", "party", "share"),
    "units": ("key", "name", "document", "checked"),
    "parcels": ("key", "unit", "label", "outline", "area"),
    "rights": ("unit", "party", "type", "share"),
    "burdens": ("key", "unit", "party", "class", "words", "document"),
    "mortgages": ("key", "unit", "creditor", "amount", "currency", "document", "rank"),
    "mandates": ("principal", "agent"),
}
OPTIONAL = {("parties", "roles"), ("units", "checked"), ("parcels", "key"), ("parcels", "area"), ("burdens", "key"), ("mortgages", "key"),
            ("mortgages", "rank")}
SETTINGS = {"table", "rows", "where", "distinct"}
FIELD_SETTINGS = {"column", "template", "value", "words", "default", "shorten", "scale"}
GEOMETRY = "WKT"        # the column that ogr2ogr writes for the geometry of a layer
DECIMAL = re.compile(r"[+-]?[0-9]{1,20}(?:[.,][0-9]{1,20})?")
OUTLINE_SETTINGS = {"scale", "round", "drop_repeated", "drop_straight", "drop_z", "split"}


def read_decimal(text):
    """Returns the value of a number with a decimal point or comma and without thousands separators, or None."""
    return Decimal(text.strip().replace(",", ".")) if DECIMAL.fullmatch(text.strip()) else None


class Field:
    """How to compute a field from a row: from a column, a template or a constant; then code words, a default and a scale."""

    def __init__(self, place, spec):
        self.place = place
        if isinstance(spec, str):
            spec = {"template": spec} if "{" in spec else {"column": spec}
        elif not isinstance(spec, dict):
            spec = {"value": spec}
        unknown = set(spec) - FIELD_SETTINGS
        if unknown:
            raise Stop(f"mapping, {place}: unknown setting {', '.join(sorted(unknown))}; known are {', '.join(sorted(FIELD_SETTINGS))}")
        if len({"column", "template", "value"} & set(spec)) != 1:
            raise Stop(f"mapping, {place}: needs exactly one of column, template and value")
        self.column, self.template = spec.get("column"), spec.get("template")
        self.value = None if "value" not in spec else str(spec["value"]).lower() if isinstance(spec["value"], bool) else str(spec["value"])
        self.words = {str(word): str(value) for word, value in spec.get("words", {}).items()}
        self.default, self.shorten = spec.get("default"), spec.get("shorten")
        self.scale = Decimal(str(spec["scale"])) if "scale" in spec else None
        self.columns = [self.column] if self.column else re.findall(r"\{([^{}]+)\}", self.template or "")

    def read(self, row):
        """Returns the field of a row, and the conversion if it changed the source's text in a way to report."""
        if self.value is not None:
            return self.value, None
        if self.column:
            text = row[self.column]
        else:
            text = re.sub(r"\{([^{}]+)\}", lambda found: row[found[1]], self.template).strip()
        change = None
        if self.words:
            text = self.words.get(text.strip(), text)
        if not text.strip() and self.default is not None:
            text = str(self.default)
        if self.scale is not None:
            value = read_decimal(text)
            if value is not None:
                value *= self.scale
                text = str(int(value)) if value == int(value) else f"{value:f}"
        if self.shorten and len(text) > self.shorten:
            text, change = text[:self.shorten - 3] + "...", f"shortened to {self.shorten} characters"
        return text, change


class TableMapping:
    """How one table of the source yields records of one kind."""

    def __init__(self, kind, spec, is_default=False):
        self.kind, self.is_default = kind, is_default
        self.table, self.inline = spec.get("table", None if "rows" in spec else kind), spec.get("rows")
        self.where, self.is_distinct = spec.get("where", {}), bool(spec.get("distinct", False))
        unknown = set(spec) - SETTINGS - set(FIELDS[kind])
        if unknown:
            raise Stop(f"mapping, [{kind}]: unknown key {', '.join(sorted(unknown))}; its fields are {', '.join(FIELDS[kind])}")
        if not isinstance(self.where, dict):
            raise Stop(f"mapping, [{kind}]: where must be a table such as {{ column = \"value\" }}")
        self.where = {column: [str(it) for it in (value if isinstance(value, list) else [value])] for column, value in self.where.items()}
        self.fields = {name: Field(f"[{kind}] {name}", spec[name]) for name in FIELDS[kind] if name in spec}

    def complete(self, columns):
        """Adds the fields that the mapping leaves out: the columns of the same name. Stops if a column is missing."""
        place = f"table {self.table}" if self.table else f"rows of [{self.kind}]"
        for name in FIELDS[self.kind]:
            if name not in self.fields:
                if name in columns:
                    self.fields[name] = Field(f"[{self.kind}] {name}", name)
                elif name == "outline" and GEOMETRY in columns:
                    self.fields[name] = Field(f"[{self.kind}] {name}", GEOMETRY)
                elif (self.kind, name) not in OPTIONAL:
                    raise Stop(f"{place} has no column {name}; name the column in the mapping, [{self.kind}] {name} = \"COLUMN\" "
                               f"(its columns: {', '.join(columns)})")
        used = {column for field in self.fields.values() for column in field.columns} | set(self.where)
        missing = sorted(used - set(columns) - {"#"})
        if missing:
            raise Stop(f"{place} has no column {', '.join(missing)}, which the mapping refers to (its columns: {', '.join(columns)})")
        return used

    def takes(self, row):
        return all(row[column].strip() in values for column, values in self.where.items())


class Mapping:
    """A mapping file, or the default: tables and columns with the names of the fields."""

    def __init__(self, path=None):
        spec = {}
        if path:
            try:
                with open(path, "rb") as file:
                    spec = tomllib.load(file)
            except OSError as error:
                raise Stop(f"cannot read the mapping {path}: {error.strerror}") from None
            except (tomllib.TOMLDecodeError, UnicodeDecodeError) as error:
                raise Stop(f"the mapping {path} is not valid TOML: {error}") from None
        unknown = set(spec) - set(FIELDS) - {"source", "outlines", "import"}
        if unknown:
            raise Stop(f"mapping: unknown section {', '.join(sorted(unknown))}; known are source, outlines, import, {', '.join(FIELDS)}")
        self.tables = []
        for kind in FIELDS:
            parts = spec.get(kind)
            if parts is None:
                self.tables.append(TableMapping(kind, {}, is_default=True))
            else:
                for part in parts if isinstance(parts, list) else [parts]:
                    self.tables.append(TableMapping(kind, part))
        self.encoding = self.setting(spec, "source", "encoding", "utf-8", {"encoding", "delimiter"})
        self.delimiter = self.setting(spec, "source", "delimiter", ",", {"encoding", "delimiter"})
        self.notary = self.setting(spec, "import", "notary", "Import notary", {"notary"})
        if len(self.delimiter) != 1:
            raise Stop("mapping, [source]: delimiter must be one character")
        outlines = {name: self.setting(spec, "outlines", name, None, OUTLINE_SETTINGS) for name in OUTLINE_SETTINGS}
        self.outlines = Options(**{name: value for name, value in outlines.items() if value is not None})
        self.set_scale(self.outlines.scale)

    @staticmethod
    def setting(spec, section, name, default, known):
        unknown = set(spec.get(section, {})) - known
        if unknown:
            raise Stop(f"mapping, [{section}]: unknown key {', '.join(sorted(unknown))}; known are {', '.join(sorted(known))}")
        return spec.get(section, {}).get(name, default)

    def set_scale(self, scale):
        """Sets the factor from the source's unit to millimetres."""
        try:
            self.outlines.scale = Decimal(str(scale))
        except InvalidOperation:
            self.outlines.scale = Decimal(0)
        if self.outlines.scale <= 0 or not self.outlines.scale.is_finite():
            raise Stop(f"scale must be a positive number, such as 1000 for coordinates in metres; it is {scale}")
