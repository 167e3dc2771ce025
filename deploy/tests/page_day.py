"""A day of an office, played through the page alone: register ten units, subdivide one, sell it, mortgage it, answer a citizen."""
import re

from harness import check
from page_acts import Register, decide, open_act, sent
from page_browser import DESK

NAMES = ["Alder", "Birch", "Cedar", "Dogwood", "Elm", "Fir", "Gorse", "Hazel", "Ivy", "Juniper"]


def register_ten(it, register):
    """The office enrols a family and registers ten plots in a row, each next to the one before, without leaving the form."""
    open_act(it, "office", "enrol", "stateAdministrator")
    for name in ("Mara Holt", "Ivo Kern"):
        it.fill("name", name)
        check(f"{it.name}: {name} is enrolled", sent(it, name), it.text())
    open_act(it, "office", "register", "stateAdministrator")
    for n, name in enumerate(NAMES):
        it.fill("name", name)
        it.fill("document", f"Survey {n + 1}")
        it.fill("label", f"D{n}")
        west = 1000 + 30 * n
        it.fill("outline", f"{west} 500; {west + 30} 500; {west + 30} 540; {west} 540")
        picked = it.pick("party", "Mara Holt")
        if not check(f"{it.name}: {name} is registered", picked and sent(it, name), it.text()[-500:]):
            break
    units = [register.object("units", n)["name"] for n in register.numbers("units")[-10:]]
    check(f"{it.name}: the register has the ten units", units == NAMES, units)


def subdivide(it, register):
    """Sam looks for the parcel, cuts it by its coordinates, and the office approves."""
    it.sign_in("sam")
    it.user_now = ("sam", "certifiedSurveyor")
    it.go("#/do/subdivision?role=certifiedSurveyor")
    check(f"{it.name}: the parcel is picked by its label", it.pick("parcel", "D4"), it.text())
    it.settle(lambda: it.count("svg.board path") >= 2)
    it.js("document.querySelector('input.points').focus()")
    it.type("1135 500; 1130 520; 1135 540")
    it.button("Cut")
    check(f"{it.name}: the coordinates cut it",
        it.settle(lambda: it.has("The parts cover exactly the old parcel.")), it.text())
    it.js("const e = [...document.querySelectorAll('[data-part=where]')].pop(); e.value = 'new'; e.dispatchEvent(new Event('change'));")
    it.type("Elm Court")
    it.fill("document", "Plan of Elm")
    check(f"{it.name}: the subdivision is lodged", sent(it, "Lodged"), it.text())
    check(f"{it.name}: and approved", approve_first(it, register, "Subdivision"), it.text())


def approve_first(it, register, act):
    """The office takes the first request of its list, by its link, and approves it."""
    it.sign_in("office")
    it.user_now = None
    it.go("#/start?role=stateAdministrator")
    it.settle(lambda: it.count("main tbody a[href*='mutations/']"), 30)
    number = int(re.search(r"mutations/(\d+)",
        it.js("return document.querySelector(\"main tbody a[href*='mutations/']\").href"))[1])
    if not it.text("main tbody a").startswith(act):
        return False
    return decide(it, register, number) == "approved"


def sell(it, register):
    """Nora finds the new unit by the search box and lodges its sale from its page."""
    it.sign_in("nora")
    it.user_now = None
    it.go("#/start?role=notary")
    it.js("document.getElementById('search').focus()")
    it.type("elm court")
    it.settle(lambda: it.count("#search-form [role=option]"))
    it.press("Down", "Enter")
    check(f"{it.name}: the new unit is found", it.settle(lambda: it.text("h1") == "Elm Court"),
        it.text()[:200])
    it.button("Transfer")
    it.settle(lambda: it.count("select[name=right] option") == 2)
    it.pick("receiver", "Ivo Kern")
    it.fill("share", "1/1")
    it.fill("document", "Sale of Elm Court")
    check(f"{it.name}: the sale is lodged", sent(it, "Lodged"), it.text())
    check(f"{it.name}: and approved", approve_first(it, register, "Transfer"), it.text())


def mortgage(it, register):
    unit = [n for n in register.numbers("units") if register.object("units", n)["name"] == "Elm Court"][0]
    open_act(it, "bank.clerk", "mortgage", "bank")
    it.fill("unit", str(unit))
    it.fill("amount", "180000")
    it.fill("document", "Loan of Ivo Kern")
    check(f"{it.name}: the mortgage is lodged", sent(it, "Lodged"), it.text())
    check(f"{it.name}: and approved", approve_first(it, register, "Mortgage"), it.text())
    it.sign_in("bank.clerk")
    it.go("#/start?role=bank")
    check(f"{it.name}: the bank has the loan", it.settle(lambda: it.has("EUR 180,000.00", "Elm Court")),
        it.text())
    return unit


def answer(it, unit):
    """A citizen asks who owned Elm Court in the morning, and who owns it now: the office finds it and prints the sheet."""
    it.sign_in("office")
    it.go("#/start?role=stateAdministrator")
    it.js("document.getElementById('search').focus()")
    it.type("Elm Court")
    it.settle(lambda: it.count("#search-form [role=option]"))
    it.press("Down", "Enter")
    it.settle(lambda: it.text("h1") == "Elm Court")
    sheet = it.text(".paper").replace("\u00a0", " ")
    check(f"{it.name}: the owner now", "Ivo Kern" in sheet and "Mara Holt" not in sheet
        and "EUR 180,000.00" in sheet, sheet)
    it.picture("day-sheet", DESK)
    it.button("Show history")
    check(f"{it.name}: the history of the day", it.settle(lambda: it.has("Mara Holt", "Sale of Elm Court"),
        60), it.text()[-600:])
    it.picture("day-history", DESK)
    it.click("ol.history > li:last-child a[href*='at=']")
    check(f"{it.name}: the owner of the morning", it.settle(lambda: "Mara Holt" in it.text(".paper")
        and "Ivo" not in it.text(".paper")), it.text())
    pdf = it.pdf()
    check(f"{it.name}: the sheet can be printed", pdf.startswith(b"%PDF"))


def run(it):
    register = Register(it.stack)
    it.user_now = None
    register_ten(it, register)
    subdivide(it, register)
    sell(it, register)
    unit = mortgage(it, register)
    answer(it, unit)
    found = it.console_errors()
    check(f"{it.name}: no errors on the console in the day", not found, found)
