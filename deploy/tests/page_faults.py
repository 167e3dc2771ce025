"""Eight faults that the page once had, each with the check that found it."""
import time

from harness import check
from page_browser import PHONE, WIDE
import scenario

OFFICE, NORA = (1, "stateAdministrator"), (5, "notary")


def bank_history(it):
    """A bank sees no past: the page must not claim that nothing changed."""
    it.sign_in("bank.clerk")
    it.go("#/units/9?role=bank")
    text = it.text()
    return [] if "only the current state" in text and not it.has_button("Show history") and "No change" not in text else [text[-400:]]


def long_history(it, unit, stamps):
    """A history of more than fifty changes has all of them, newest first."""
    it.sign_in("office")
    it.go(f"#/units/{unit}?role=stateAdministrator")
    it.button("Show history")
    done = "return /Found by a search|changes, newest first/.test(document.getElementById('history').innerText)"
    it.settle(lambda: it.js(done), 240)
    shown = it.moments()
    return [] if shown == sorted(stamps,
        reverse=True) else [f"{len(shown)} of {len(stamps)} shown, newest {shown[:1]} of {stamps[-1:]}"]


def former_owner(it):
    """A former owner finds the period of its ownership, also without a mirror."""
    act = scenario.act_sender(it.stack.queue_connection())
    made = act(OFFICE, "register", {"name": "Sold", "checked": True, "document": "Plan S", "parcels": [
        {"label": "S", "outline": scenario.rectangle(0, -90000, 9000, 9000)}],
        "rights": [{"party": 2, "type": "ownership", "share": "1/1"}]})
    time.sleep(4)
    lodged = act(NORA, "transfer", {"reference": f"SOLD-{made['number']}", "document": "Deed", "unit": made["number"],
                                    "right": made["made"][-1], "receiver": 3, "share": "1/1"})
    sold = act(OFFICE, "approve", {"mutation": lodged["number"]})
    it.sign_in("anna")
    it.go(f"#/units/{made['number']}?role=citizen")
    it.button("Show history")
    it.settle(lambda: it.has("Found by a search"), 60)
    shown = it.moments()
    return [] if {made["stamp"], sold["stamp"]} <= set(shown) else [f"{made['stamp']} and {sold['stamp']} are not in {shown}"]


def printed_units(it):
    """Money and areas on paper have units."""
    it.sign_in("ben")
    it.go("#/units/9?role=citizen")
    it.print_media(True)
    text = it.text("main").replace("\u00a0", " ")
    it.print_media(False)
    wrong = [word for word in ("EUR 25,000.00", "50 m²", "Ben") if word not in text]
    return wrong + (["the amount in minor units"] if "2500000" in text else [])


def loans_once(it):
    """A mortgage that a subdivision copied is one loan: Loan 1 and nine of plots."""
    it.sign_in("bank.clerk")
    it.go("#/start?role=bank")
    return [] if it.has("10 loans, EUR 34,001.80") else [it.text()[:300]]


def old_request(it, number):
    """A request that waits behind many newer ones is on the office's start page and on its unit's page."""
    it.sign_in("office")
    it.go("#/start?role=stateAdministrator")
    it.settle(lambda: it.has("waiting."), 60)
    found = [] if it.has("OLD-1") and it.count("main tbody tr") >= 1 else ["start page: " + it.text()[:300]]
    it.go("#/units/9?role=stateAdministrator")
    it.settle(lambda: it.has("refers to this unit") or it.has("refer to this unit"), 60)
    return found + ([] if it.count(f"a[href*='mutations/{number}']")
        else ["the unit's page: " + it.text()[-300:]])


def decided_view(it, number):
    """After an approval the view shows the mutation as it is, without buttons."""
    it.sign_in("office")
    it.go(f"#/mutations/{number}?role=stateAdministrator")
    it.button("Approve")
    it.until(lambda: it.count("dialog[open]"))
    it.button("Yes", "dialog")
    it.until(lambda: it.count(".message"))
    it.settle(lambda: it.has("Done at"))
    text = it.text()
    found = [f"missing: {word}" for word in ("approved", "Done at") if word not in text]
    found += ["a button to decide is left"] if it.has_button("Approve") or it.has_button("Refuse") else []
    return found + it.run_check("contrast")


def first_view(it):
    """After sign-in each user sees the start page of a role that it holds."""
    found = []
    for user, heading in (("office", "The office"), ("bank.clerk", "Your loans"), ("nora", "Your lodgings"),
        ("ben", "Your land")):
        it.sign_in(user)
        it.go("")
        text = it.text()
        if not text.startswith(heading) or "Denied" in text:
            found.append(f"{user}: {text[:120]}")
        if not it.count("#sign-out"):
            found.append("no way to sign out")
    return found


def narrow_sheet(it):
    """At 360 pixels the whole title sheet is visible, and a swipe over the drawing scrolls the page."""
    it.resize(PHONE, 740, mobile=True)
    it.sign_in("ben")
    it.go("#/units/9?role=citizen")
    wide = it.js("""return [...document.querySelectorAll('.paper *:not(pre)')].filter((e) => e.checkVisibility() &&
        !e.closest('svg, pre') &&
        (e.getBoundingClientRect().right > innerWidth || e.scrollWidth > e.clientWidth + 1 && getComputedStyle(e).display !== 'inline' &&
        e.clientWidth > 0)).map((e) => e.outerHTML.slice(0, 80))""")
    found = wide + ([] if it.js("return document.querySelector('.paper').innerText.includes('Ben')")
        else ["no owner"])
    it.js("document.querySelector('svg.plan').scrollIntoView({block: 'center'})")
    before = it.js("return scrollY")
    x, y = it.js("const b = document.querySelector('svg.plan').getBoundingClientRect(); return [b.x + b.width / 2, b.y + b.height / 2]")
    if not it.swipe(x, y, -200):
        found += [] if it.js("return getComputedStyle(document.querySelector('svg.plan')).touchAction") == "pan-y" else ["touch-action"]
    elif not it.until(lambda: it.js("return scrollY") > before + 50, 5):
        found.append(f"a swipe scrolls nothing: {before} to {it.js('return scrollY')}")
    it.resize(WIDE)
    return found


def prepare(stack, newer=101, burdens=52):
    """Makes the objects of these checks: a unit with many changes, and a request with many newer ones that are decided."""
    act = scenario.act_sender(stack.queue_connection())
    made = act(OFFICE, "register", {"name": "Long meadow", "checked": True, "document": "Plan L", "parcels": [
        {"label": "L", "outline": scenario.rectangle(0, -50000, 9000, 9000)}],
            "rights": [{"party": 2, "type": "ownership", "share": "1/1"}]})
    stamps = [made["stamp"]]
    for n in range(burdens):
        stamps.append(act(OFFICE, "burden", {"unit": made["number"], "party": 1, "class": "restriction",
            "words": f"No well {n}",
                                             "document": f"Order {n}"})["stamp"])
    old = wait_behind(act, made["number"], "OLD-1", newer)
    return {"unit": made["number"], "stamps": stamps, "old": old, "newer": newer}


def wait_behind(act, unit, reference, newer):
    """Lodges a request, and newer ones that the office refuses. Returns the number of the first."""
    old = act(NORA, "transfer", {"reference": reference, "document": "Deed 9", "unit": 9, "right": 21,
        "receiver": 2, "share": "1/4"})
    for n in range(newer):
        number = act(NORA, "transfer", {"reference": f"{reference}-{n}", "document": "Deed", "unit": unit,
            "right": 1, "receiver": 3,
                                        "share": "1/2"})["number"]
        act(OFFICE, "refuse", {"mutation": number})
    return old["number"]


def lodge_another(stack, data):
    return wait_behind(scenario.act_sender(stack.queue_connection()), data["unit"], "OLD-1-again",
        data["newer"])


def run(it, data):
    """Checks that none of them is back."""
    for name, faults in (
            ("a former owner finds its period", former_owner(it)),
            ("a bank is not shown an empty history", bank_history(it)),
            ("a history of 53 changes is complete, newest first",
                long_history(it, data["unit"], data["stamps"])),
            ("the printed sheet has units of money and area", printed_units(it)),
            ("a bank's total counts a loan once", loans_once(it)),
            ("an old request is on the start page and on its unit's page", old_request(it, data["old"])),
            ("after an approval the view is the register's", decided_view(it, data["old"])),
            ("after sign-in the role is one that the user holds", first_view(it)),
            ("at 360 pixels the title sheet is whole, and a swipe scrolls", narrow_sheet(it))):
        check(f"{it.name}: {name}", not faults, faults)
