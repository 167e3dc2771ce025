"""Generates the SQL of the policy and of the queries, for each role of the register, from the sources of the program.

A statement of the program is changed in two ways only: its parameters, and the schema in front of its tables."""
import os
import re

from land_mirror.rattle import KINDS, TEXTS, Policy, Unexpected
from land_mirror.tables import TABLES

SQL = os.path.join(os.path.dirname(os.path.dirname(os.path.abspath(__file__))), "sql")
# The schema of each role; the other roles' schemas have their names.
SCHEMAS = {"CertifiedSurveyor": "surveyor", "StateAdministrator": "office"}
COLUMNS = {table.name: set(table.names) for table in TABLES}
# The columns of the views. They leave out `since` and `until`, which no reply of the register shows.
VIEWS = {
    "party": "number, name, kind", "unit": "number, name, checked", "parcel": "number, unit, label, outline, source, doubled, geom",
    "rrr": "number, unit, party, class, num, den, amount, currency, place, words, source", "source": "number, kind, title",
    "mutation": "number, lodger, reference, source, lodged, act, content, state"}
# Views of rows that belong to an object: its kind, and the column with its number.
PARTS = {"role": ("Party", "party", "party, role"), "member": ("Party", "grp", "grp, party, num, den"),
         "names": ("Mutation", "mutation", "mutation, unit")}
KEYWORDS = {"SELECT", "FROM", "JOIN", "AS", "ON", "WHERE", "AND", "OR", "IN"}
TOKEN = re.compile(r"\s*(\w+(?:\.\w+)?|\?\d|'\w+'|<=|<>|[=<(),])")


def schema_of(role):
    return SCHEMAS.get(role, role.lower())


def translate(text, caller, moment):
    """Returns a statement of the program for PostgreSQL. Any token that it does not know is an error."""
    tokens, at = [], 0
    while at < len(text):
        match = TOKEN.match(text, at)
        if not match:
            raise Unexpected(TEXTS, f"`{text[at:at + 30]}` in `{text}`")
        tokens.append(match[1])
        at = match.end()
    aliases, out = {}, []
    for place, token in enumerate(tokens):
        if tokens[place - 1] in ("FROM", "JOIN"):
            if token not in COLUMNS:
                raise Unexpected(TEXTS, f"table `{token}` in `{text}`")
            has_alias = tokens[place + 1] == "AS"
            aliases[tokens[place + 2] if has_alias else token] = token
            out.append(f"reg.{token}" + ("" if has_alias else f" AS {token}"))
        else:
            out.append({"?1": caller, "?2": moment}.get(token, token))
    for place, token in enumerate(tokens):
        if re.fullmatch(r"\w+|\w+\.\w+", token) and token not in KEYWORDS and tokens[place - 1] not in ("FROM", "JOIN", "AS"):
            table, _, column = token.rpartition(".")
            if column not in (COLUMNS.get(aliases.get(table), ()) if table else set().union(*(COLUMNS[it] for it in aliases.values()))):
                raise Unexpected(TEXTS, f"column `{token}` in `{text}`")
        if token.startswith("?") and token not in ("?1", "?2"):
            raise Unexpected(TEXTS, f"parameter `{token}` in `{text}`")
    if tokens[0] != "SELECT" or tokens[2] != "FROM" or tokens.count("SELECT") != 1 or "?2" not in tokens:
        raise Unexpected(TEXTS, f"`{text}` is not one SELECT of one column at a moment")
    return " ".join(out).replace("( ", "(").replace(" )", ")").replace(" ,", ",")


class Sight:
    """The objects of each kind that a role sees, as conditions on a number."""

    def __init__(self, policy, role):
        self.policy, self.role = policy, role

    def sees_all(self, kind):
        chosen = self.policy.sight[self.role][kind]
        if chosen == [f"All({kind})"]:
            wanted = f"SELECT number FROM {KINDS[kind]} WHERE since <= ?2 AND ?2 < until"
            if self.policy.texts[chosen[0]] != wanted:
                raise Unexpected(TEXTS, f"the statement of All({kind}) is not `{wanted}`")
            return True
        if any(it.startswith("All(") for it in chosen):
            raise Unexpected(TEXTS, f"role {self.role} sees all of kind {kind} and more")
        return False

    def statements(self, kind, me, moment, circle):
        """Returns the statements whose union is the visible numbers. For a citizen, parameter 1 is each party of its circle."""
        texts = [self.policy.texts[it] for it in self.policy.sight[self.role][kind]]
        if self.role == "Citizen":
            return [f"SELECT s.n FROM {circle} AS c(p), LATERAL ({translate(it, 'c.p', moment)}) AS s(n)" for it in texts]
        return [translate(it, me, moment) for it in texts]

    def view_condition(self, kind, number):
        """The condition of a view, whose caller and moment are in the common table expression `ask`."""
        if self.sees_all(kind):
            return ""
        me, moment = "(SELECT p FROM ask)", "(SELECT t FROM ask)"
        circle = f"(SELECT {me} UNION ALL SELECT principal FROM reg.mandate WHERE agent = {me} AND since <= {moment} AND {moment} < until)"
        return self.among(number, self.statements(kind, me, moment, circle))

    def query_condition(self, kind, number):
        """The condition in a function with the variables me, t and circle."""
        if self.sees_all(kind):
            return ""
        statements = self.statements(kind, "me", "t", "unnest(circle)")
        if self.role != "Bank" or not statements:
            return self.among(number, statements)
        # A bank may see 100,000 objects: they are tested one by one, by index, and not collected first. OFFSET keeps the planner from it.
        tests = [f"EXISTS (SELECT 1 FROM ({it}) AS s(n) WHERE s.n = {number} OFFSET 0)" for it in statements]
        return "\n    AND (" + "\n      OR ".join(tests) + ")"

    def numbers(self, kind):
        """A statement that returns the visible numbers, each once or more often, in a function with the variables me, t and circle."""
        if self.sees_all(kind):
            return f"SELECT x.number FROM reg.{KINDS[kind]} AS x WHERE x.since <= t AND t < x.until"
        return "\n    UNION ALL ".join(self.statements(kind, "me", "t", "unnest(circle)")) or "SELECT 0::bigint WHERE false"

    @staticmethod
    def among(number, statements):
        if not statements:
            return " AND false"
        return f" AND {number} IN (\n    " + "\n    UNION ALL ".join(statements) + ")"


def views(policy, role):
    """Returns the views of a role: one for each kind, and for roles, members and names."""
    sight, schema, word = Sight(policy, role), schema_of(role), policy.words[role]
    tables = [(KINDS[kind], kind, "number", VIEWS[KINDS[kind]]) for kind in KINDS]
    tables += [(table, kind, key, columns) for table, (kind, key, columns) in PARTS.items()]
    for table, kind, key, columns in tables:
        chosen = ", ".join(f"x.{it}" for it in columns.split(", "))
        yield (f"CREATE VIEW {schema}.{table} WITH (security_barrier) AS\n"
               f"  WITH ask AS MATERIALIZED (SELECT a.p, a.t FROM policy.ask('{word}') AS a)\n"
               f"  SELECT {chosen} FROM reg.{table} AS x\n"
               f"  WHERE x.since <= (SELECT t FROM ask) AND (SELECT t FROM ask) < x.until"
               f"{sight.view_condition(kind, 'x.' + key)};")


def fill(text, policy, role):
    """Fills the placeholders of a template for a role: {{schema}}, {{role}}, {{numbers KIND}}, {{visible KIND NUMBER}}."""
    sight = Sight(policy, role)
    kinds = {table: kind for kind, table in KINDS.items()}
    text = text.replace("{{schema}}", schema_of(role)).replace("{{role}}", policy.words[role])
    text = text.replace("{{has past}}", "false" if role in policy.present else "true")
    text = text.replace(" {{plan}}", " SET plan_cache_mode = force_custom_plan" if role == "Bank" else "")
    text = re.sub(r"\{\{numbers (\w+)\}\}", lambda it: sight.numbers(kinds[it[1]]), text)
    text = re.sub(r"\s*\{\{visible (\w+) ([\w.]+)\}\}", lambda it: sight.query_condition(kinds[it[1]], it[2]), text)
    if "{{" in text:
        raise ValueError(f"a placeholder is not filled: {text[text.index('{{'):][:60]}")
    return text


def template(name):
    with open(os.path.join(SQL, name), encoding="utf-8") as source:
        return source.read()


def generate(crates, mutate=None):
    """Returns the SQL of the policy, the views and the queries. `mutate` changes the read policy; the tests use it."""
    policy = Policy(crates)
    if mutate:
        mutate(policy)
    denials = "\n".join(f"    WHEN '{policy.words[role]} {KINDS[kind]}' THEN {number}" for role, numbers in policy.denials.items()
                        for kind, number in numbers.items())
    present = ", ".join(f"'{policy.words[it]}'" for it in policy.present)
    roles = ", ".join(f"'{it}'" for it in policy.words.values())
    parts = ["-- Generated by land-mirror from the sources of the program. Do not edit.",
             template("standing.sql").replace("{{denials}}", denials).replace("{{present}}", present).replace("{{roles}}", roles)]
    queries = template("queries.sql")
    for role in policy.words:
        schema = schema_of(role)
        parts += [f"CREATE SCHEMA {schema};", *views(policy, role), fill(queries, policy, role),
                  f"REVOKE ALL ON ALL FUNCTIONS IN SCHEMA {schema} FROM PUBLIC;",
                  f"GRANT USAGE ON SCHEMA {schema} TO land_reader;\nGRANT SELECT ON ALL TABLES IN SCHEMA {schema} TO land_reader;"]
    branches = "\n".join(f"    WHEN '{policy.words[it]}' THEN SELECT a.status, a.type, a.body INTO status, type, body\n"
                         f"      FROM {schema_of(it)}.answer(party, moment, policy.circle(party, moment), what, args) a;"
                         for it in policy.words)
    parts.append(template("gate.sql").replace("{{branches}}", branches))
    return "\n".join(parts)
