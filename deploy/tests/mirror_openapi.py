"""Checks docs/mirror-openapi.yaml against the gateway: its routes and parameters, and the replies of each route in each role."""
import copy
import json
import os
import re
import sys

from harness import check, note
from mirror_acts import KINDS, ROLES
from stack import DEPLOY, TOP, Missing

try:
    import jsonschema
    import yaml
except ImportError:
    yaml = None

EXAMPLES = {"number": "9", "z": "3", "x": "4", "y": "4", "q": "an", "box": "0,0,1000000,1000", "point": "5.5,5"}


class Description:
    def __init__(self):
        if yaml is None:
            raise Missing("python3-yaml and python3-jsonschema")
        self.files = {}
        for name in ("mirror-openapi.yaml", "openapi.yaml"):
            with open(os.path.join(TOP, "docs", name), encoding="utf-8") as source:
                self.files[name] = yaml.safe_load(source)
        self.it = self.files["mirror-openapi.yaml"]
        # the register's schemas under a name of their own, so that one validator resolves both
        self.root = {"components": self.it["components"], "register": self.files["openapi.yaml"]}
        self.root = redirect(copy.deepcopy(self.root))
        self.validators = {}

    def resolve(self, ref):
        node = self.root
        for part in ref.removeprefix("#/").split("/"):
            node = node[part]
        return node

    def deref(self, node):
        node = redirect(copy.deepcopy(node))
        return self.resolve(node["$ref"]) if "$ref" in node else node

    def errors(self, schema, value):
        key = json.dumps(schema, sort_keys=True)
        if key not in self.validators:
            draft = {"$schema": "https://json-schema.org/draft/2020-12/schema", **self.root, **redirect(copy.deepcopy(schema))}
            self.validators[key] = jsonschema.Draft202012Validator(draft)
        return [it.message[:200] for it in self.validators[key].iter_errors(value)]

    def reply_errors(self, path, status, medium, body, headers):
        responses = self.it["paths"][path]["get"]["responses"]
        if str(status) not in responses:
            return [f"status {status} is not in the description"]
        response = self.deref(responses[str(status)])
        content = response["content"].get(medium.split(";")[0])
        if content is None:
            return [f"{medium} is not in the description"]
        missing = [name for name in response.get("headers", {}) if name == "Register-Stamp" and headers[name] is None]
        value = json.loads(body) if "json" in medium else ""
        return self.errors(content["schema"], value) + [f"no field {it}" for it in missing]


def redirect(node, inside=False):
    """Rewrites references to openapi.yaml as references below #/register."""
    if isinstance(node, dict):
        for key, value in node.items():
            if key == "$ref" and value.startswith("openapi.yaml#"):
                node[key] = "#/register" + value.removeprefix("openapi.yaml#")
            elif key == "$ref" and inside and not value.startswith("#/register"):
                node[key] = "#/register" + value.removeprefix("#")
            else:
                redirect(value, inside or key == "register")
    elif isinstance(node, list):
        for value in node:
            redirect(value, inside)
    return node


def check_routes(spec):
    """The routes and the parameters of the description are those of the gateway."""
    sys.path.insert(0, os.path.join(DEPLOY, "mirror"))
    from land_mirror.gateway import ROUTES
    check("the routes are those of the gateway", {it.path for it in ROUTES} == set(spec.it["paths"]),
          {it.path for it in ROUTES} ^ set(spec.it["paths"]))
    for route in ROUTES:
        found = {}
        for parameter in map(spec.deref, spec.it["paths"].get(route.path, {"get": {"parameters": []}})["get"]["parameters"]):
            found.setdefault(parameter["in"], {})[parameter["name"]] = parameter["required"]
        check(f"{route.path}: its parameters", set(found.get("path", ())) == set(route.in_path)
              and set(found["header"]) == {"Register-Role"} and
              set(found["query"]) == {"at", "after", *route.in_query} and
              {name for name, required in found["query"].items() if required} == set(route.required), found)


def check_replies(spec, gateway, ledger):
    parties = {row["role"]: row["party"] for row in ledger.current["role"]}
    numbers = {kind: [row["number"] for row in ledger.current[kind]] for kind in KINDS}
    counts = {}
    for path in spec.it["paths"]:
        kind = KINDS and next((kind for kind, word in KINDS.items() if path.startswith(f"/{word}/{{")), None)
        for role in ROLES:
            for number in (numbers[kind][-3:] if kind else ["9"]):
                for query in ("", f"at={ledger.moments[-5][0]}", "limit=2", "at=x", "when=1"):
                    target = re.sub(r"\{(\w+)\}", lambda it: str(number) if it[1] == "number" else EXAMPLES[it[1]], path)
                    wanted = [f"{name}={EXAMPLES[name]}" for name in ("q", "box", "point") if name in
                              {spec.deref(it)["name"] for it in spec.it["paths"][path]["get"]["parameters"]}]
                    target += "?" + "&".join([*wanted, *([query] if query else [])])
                    status, headers, body = gateway.get(parties.get(role, 1), role, target.rstrip("?"))
                    counts[status] = counts.get(status, 0) + 1
                    errors = spec.reply_errors(path, status, headers["Content-Type"], body, headers)
                    if errors:
                        check(f"{role} {target}: the reply is described", False, (status, errors, body[:200]))
    check("replies of each route are described", counts.get(200, 0) > 300 and counts.get(400, 0) > 100 and counts.get(403, 0) > 30, counts)
    note(f"replies validated, by status: {counts}")


def check_mutants(spec, gateway):
    """Changes of the description that the replies contradict."""
    def reply(path):
        status, headers, body = gateway.get(1, "stateAdministrator", path)
        return status, headers["Content-Type"], body, headers
    cases = [("/objects/rrrs", "PageRrr", lambda it: it["required"].append("total")),
             ("/objects/parties", "PageParty", lambda it: it["properties"]["objects"].update(maxItems=1)),
             ("/search/parties?q=an", "Found", lambda it: it["properties"].pop("kind")),
             ("/mortgages", "MortgagesReply", lambda it: it["properties"].pop("totals")),
             ("/areas", "AreasReply", lambda it: it["properties"]["holders"]["items"]["properties"]["units"].update(minimum=100)),
             ("/map/parcels?box=0,0,1000000,1000", "Features", lambda it: it["properties"]["type"].update(const="Features"))]
    for target, name, change in cases:
        mutant = copy.deepcopy(spec)
        mutant.validators = {}
        change(mutant.root["components"]["schemas"][name])
        check(f"mutant of the description killed: {name}", mutant.reply_errors(target.split("?")[0], *reply(target)) and
              not spec.reply_errors(target.split("?")[0], *reply(target)))


def run(gateway, ledger):
    spec = Description()
    used = set(re.findall(r"'#/components/(\w+/\w+)'", open(os.path.join(TOP, "docs", "mirror-openapi.yaml"), encoding="utf-8").read()))
    there = {f"{part}/{name}" for part, its in spec.it["components"].items() for name in its}
    check("every part of the description is used", used == there, used ^ there)
    for name, schema in spec.it["components"]["schemas"].items():
        jsonschema.Draft202012Validator.check_schema(schema)
    check_routes(spec)
    check_replies(spec, gateway, ledger)
    check_mutants(spec, gateway)
