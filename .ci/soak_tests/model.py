"""Random acts on the current rows of a ledger, and a client that sends them."""
import http.client
import json
import re
from collections import Counter

from soak_tests.ledger import CONTENTS, Act, NoEffect
from soak_tests.server import Wrong

LODGERS = {"transfer": "conveyancer", "mortgage": "bank", "discharge": "bank", "subdivision": "certifiedSurveyor",
           "merger": "certifiedSurveyor"}
ROLES = ("conveyancer", "notary", "bank", "certifiedSurveyor")
HIGH = 10000


def strip(west, east):
    return f"POLYGON (({west} 0, {east} 0, {east} {HIGH}, {west} {HIGH}, {west} 0))"


def sides(parcel):
    """Returns the west and the east side of a parcel."""
    found = re.match(r"POLYGON \(\((\d+) 0, (\d+) 0,", parcel["outline"])
    return int(found[1]), int(found[2])


class Scenario:
    """Draws random acts for a ledger. Most of them succeed, and some are refused."""

    def __init__(self, ledger, dice):
        self.ledger, self.dice = ledger, dice

    def numbers(self, table, **wanted):
        return [row["number"] for row in self.ledger.find(table, **wanted)]

    def single(self):
        return [row["number"] for row in self.ledger.current["party"] if row["kind"] != "group" and row["number"] != 1]

    def name(self):
        return f"{self.dice.choice(('Anna', 'Ben', 'Chloé', 'Дмитрий', '𝔼ve'))} {self.ledger.moments[-1][1]}"

    def enrol(self):
        return Act("enrol", {"kind": self.dice.choice(("naturalPerson", "nonNaturalPerson")), "name": self.name()})

    def grant(self):
        return Act("grant", {"party": self.dice.choice(self.single()), "role": self.dice.choice(ROLES)})

    def revoke(self):
        held = [row for row in self.ledger.current["role"] if row["role"] in ROLES]
        row = self.dice.choice(held)
        return Act("revoke", {"party": row["party"], "role": row["role"]})

    def mandate(self):
        principal, agent = self.dice.sample(self.single(), 2)
        return Act("mandate", {"agent": agent}, principal, "citizen")

    def withdraw(self):
        found = self.ledger.current["mandate"]
        if not found:
            return self.mandate()
        row = self.dice.choice(found)
        pair = {"principal": row["principal"], "agent": row["agent"]}
        return Act("withdraw", pair, self.dice.choice((row["principal"], row["agent"])), "citizen")

    def members(self):
        some = self.dice.sample(self.single(), self.dice.choice((2, 2, 3, 4)))
        return [{"party": party, "share": f"1/{len(some)}"} for party in some]

    def group(self):
        return Act("group", {"name": self.name(), "members": self.members()})

    def regroup(self):
        groups = self.numbers("party", kind="group")
        return Act("regroup", {"group": self.dice.choice(groups), "members": self.members()}) if groups else self.group()

    def holders(self, most):
        some = self.dice.sample([*self.single(), *self.numbers("party", kind="group")], self.dice.randrange(1, most + 1))
        return [(party, f"1/{len(some)}") for party in some]

    def register(self):
        rights = [{"party": party, "type": "ownership", "share": share} for party, share in self.holders(3)]
        if self.dice.random() < 0.4:
            (party, share), = self.holders(1)
            rights.append({"party": party, "type": self.dice.choice(("lease", "usufruct")), "share": share})
        west, count = self.dice.randrange(0, 10**9, 3 * HIGH), self.dice.randrange(1, 4)
        parcels = [{"label": f"{west}{'abc'[k]}", "outline": strip(west + HIGH * k, west + HIGH * (k + 1))} for k in range(count)]
        return Act("register", {"name": self.name(), "checked": self.dice.random() < 0.8, "document": "Deed", "parcels": parcels,
                                "rights": rights})

    def burden(self):
        body = {"unit": self.dice.choice(self.numbers("unit")), "party": self.dice.choice(self.single()),
                "class": self.dice.choice(("restriction", "responsibility")), "words": 'No well; "quiet" \\ at night', "document": "Order"}
        return Act("burden", body)

    def lift(self):
        found = [row["number"] for row in self.ledger.current["rrr"] if row["words"] is not None]
        return Act("lift", {"rrr": self.dice.choice(found)}) if found else self.burden()

    def lodge(self):
        word = self.dice.choice((*CONTENTS, "subdivision", "merger", "mortgage"))
        content = getattr(self, word)()
        if content is None:
            return self.register()
        lodger = self.dice.choice(self.ledger.find("role", role=LODGERS[word]))["party"]
        if word == "mortgage":
            content["creditor"] = lodger
        return Act(word, {"reference": f"R{self.ledger.moments[-1][1]}", "document": "Paper", **content}, lodger, LODGERS[word])

    def transfer(self):
        right = self.dice.choice([row for row in self.ledger.current["rrr"] if row["num"] is not None])
        share = f"{right['num']}/{right['den']}" if self.dice.random() < 0.5 else f"{right['num']}/{2 * right['den']}"
        if right["num"] % 2 == 0 and share.endswith(f"/{2 * right['den']}"):
            share = f"{right['num'] // 2}/{right['den']}"
        return {"unit": right["unit"], "right": right["number"], "receiver": self.dice.choice(self.single()), "share": share}

    def mortgage(self):
        return {"unit": self.dice.choice(self.numbers("unit")), "amount": self.dice.randrange(1, 10**15), "currency": "EUR"}

    def discharge(self):
        found = self.ledger.find("rrr", **{"class": "mortgage"})
        row = self.dice.choice(found) if found else None
        return row and {"unit": row["unit"], "mortgage": row["number"]}

    def subdivision(self):
        parcel = self.dice.choice(self.ledger.current["parcel"])
        west, east = sides(parcel)
        middle = self.dice.randrange(west + 1, east)
        part = {"label": f"{parcel['number']}e", "outline": strip(middle, east)}
        if self.dice.random() < 0.6:
            part["unit"] = self.name()
        first = {"label": f"{parcel['number']}w", "outline": strip(west, middle)}
        return {"unit": parcel["unit"], "parcel": parcel["number"], "first": first, "rest": [part]}

    def merger(self):
        parcels = self.ledger.current["parcel"]
        by_west = {sides(it)[0]: it for it in parcels}
        pairs = [(it, by_west[sides(it)[1]]) for it in parcels if sides(it)[1] in by_west]
        if not pairs:
            return None
        west, east = self.dice.choice(pairs)
        others = [] if west["unit"] == east["unit"] else [east["unit"]]
        return {"unit": west["unit"], "others": others, "parcels": sorted((west["number"], east["number"])), "label": f"{west['number']}m",
                "outline": strip(sides(west)[0], sides(east)[1])}

    def decide(self):
        found = self.numbers("mutation", state="lodged")
        if not found:
            return self.lodge()
        return Act("approve" if self.dice.random() < 0.85 else "refuse", {"mutation": self.dice.choice(found)})

    def draw(self):
        if len(self.single()) < 6:
            return self.enrol()
        for role in ROLES:
            if not self.ledger.find("role", role=role):
                return Act("grant", {"party": self.dice.choice(self.single()), "role": role})
        if not self.ledger.current["unit"]:
            return self.register()
        return self.dice.choice((self.enrol, self.grant, self.revoke, self.mandate, self.withdraw, self.group, self.regroup,
                                 self.register, self.burden, self.lift, self.lodge, self.lodge, self.lodge, self.decide, self.decide,
                                 self.decide))()


class Client:
    """A connection that sends acts, and applies each acknowledged act to the ledger."""

    def __init__(self, port, ledger, done):
        self.line, self.ledger, self.done = http.client.HTTPConnection("127.0.0.1", port, timeout=60), ledger, done
        self.has_end = False

    def request(self, act):
        """Sends an act. Returns the status of the reply and its body."""
        text = json.dumps(act.body, ensure_ascii=False).encode()
        self.line.request("POST", f"/acts/{act.word}", text, {"Register-Party": str(act.party), "Register-Role": act.role})
        reply = self.line.getresponse()
        self.has_end = reply.will_close
        return reply.status, json.loads(reply.read())

    def send(self, act):
        """Sends an act, and checks its reply. Returns its status."""
        status, reply = self.request(act)
        if status == 200:
            self.acknowledge(act, reply)
        elif status not in (403, 409, 503):
            raise Wrong(f"{status} {reply} to {act}")
        self.done[self.kind(act) if status == 200 else f"{status}"] += 1
        return status

    def kind(self, act):
        if act.word != "approve":
            return act.word if act.word not in CONTENTS else "lodging"
        mutation, = self.ledger.find("mutation", number=act.body["mutation"])
        return f"approved {mutation['act']}"

    def acknowledge(self, act, reply):
        wanted = self.ledger.first_reply(act)
        try:
            wanted = wanted or self.ledger.apply(act, reply["stamp"])
        except NoEffect as error:
            raise Wrong(f"{reply} to {act}: {error}") from None
        if reply != wanted:
            raise Wrong(f"{reply}, not {wanted}, to {act}")


def summary(done: Counter):
    return ", ".join(f"{key} {done[key]}" for key in sorted(done))
