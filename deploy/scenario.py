#!/usr/bin/python3
"""Fills a register with the scenario of examples/serve.sh and, optionally, a small town.

    scenario.py SOCKET [PLOTS]      SOCKET: the queue's socket, which trusts its callers; PLOTS: the number of plots (default 0)
"""
import json
import sys

OFFICE = (1, "stateAdministrator")


def rectangle(x, y, wide, high):
    """Returns the outline of a rectangle. Lengths are in millimetres."""
    return f"POLYGON (({x} {y}, {x + wide} {y}, {x + wide} {y + high}, {x} {y + high}, {x} {y}))"


def act_sender(link):
    """Returns a function that executes an act over a connection and returns the reply."""
    def act(caller, name, body):
        fields = {"Register-Party": str(caller[0]), "Register-Role": caller[1]}
        link.request("POST", "/acts/" + name, json.dumps(body), fields)
        reply = link.getresponse()
        text = reply.read()
        if reply.status != 200:
            raise SystemExit(f"{name} {json.dumps(body)}: {reply.status} {text}")
        return json.loads(text)
    return act


def scenario(act):
    """Enrols Anna, Ben, a bank, a notary and a surveyor. A garden is mortgaged, sold and subdivided."""
    def office(act_name, /, **body):
        return act(OFFICE, act_name, body)

    def lodge_and_approve(party, role, act_name, /, **body):
        office("approve", mutation=act((party, role), act_name, body)["number"])
    office("enrol", kind="naturalPerson", name="Anna")
    office("enrol", kind="naturalPerson", name="Ben")
    office("enrol", kind="nonNaturalPerson", name='Bank, "North"')
    office("grant", party=4, role="bank")
    office("enrol", kind="naturalPerson", name="Nora")
    office("grant", party=5, role="notary")
    office("enrol", kind="naturalPerson", name="Sam")
    office("grant", party=6, role="certifiedSurveyor")
    office("group", name="Anna and Ben", members=[{"party": 2, "share": "1/3"}, {"party": 3, "share": "2/3"}])
    shares = (2, "ownership", "1/4"), (7, "ownership", "3/4"), (6, "lease", "1/1")
    office("register", name="Garden", checked=True, document="Deed 1", parcels=[{"label": "12", "outline": rectangle(0, 0, 10000, 10000)}],
           rights=[{"party": party, "type": kind, "share": share} for party, kind, share in shares])
    lodge_and_approve(4, "bank", "mortgage", reference="M1", document="Loan 1", unit=9, creditor=4, amount=2500000, currency="EUR")
    lodge_and_approve(5, "notary", "transfer", reference="T1", document="Deed 2", unit=9, right=11, receiver=7, share="1/4")
    lodge_and_approve(5, "notary", "transfer", reference="T2", document="Deed 3", unit=9, right=12, receiver=3, share="1/1")
    lodge_and_approve(6, "certifiedSurveyor", "subdivision", reference="S1", document="Plan 1", unit=9, parcel=10,
           first={"label": "12a", "outline": rectangle(0, 0, 5000, 10000)},
           rest=[{"label": "12b", "outline": rectangle(5000, 0, 5000, 10000), "unit": "Orchard"}])


def town(act, plots):
    """Registers plots in rows of ten. Anna and Ben own them alternately; every fifth has a mortgage."""
    for n in range(plots):
        made = act(OFFICE, "register", {
            "name": f"Plot {n}", "checked": True, "document": f"Plan {n}",
            "parcels": [{"label": f"P{n}", "outline": rectangle(20000 * (n % 10), 20000 * (1 + n // 10), 15000, 15000)}],
            "rights": [{"party": 2 + n % 2, "type": "ownership", "share": "1/1"}]})
        if n % 5 == 0:
            body = {"reference": f"L{n}", "document": f"Loan {n}", "unit": made["number"], "creditor": 4, "amount": 100000 + n,
                    "currency": "EUR"}
            act(OFFICE, "approve", {"mutation": act((4, "bank"), "mortgage", body)["number"]})


def fill(link, plots=0):
    """Runs the scenario and registers the plots, over a connection to the queue."""
    act = act_sender(link)
    scenario(act)
    town(act, plots)
    link.close()


if __name__ == "__main__":
    from stack import UnixConnection
    fill(UnixConnection(sys.argv[1]), int(sys.argv[2]) if len(sys.argv) > 2 else 0)
