"""Each of the seventeen acts by each role that may do it, through its form, and the checks of the forms before sending."""
import json

from harness import check
from page_browser import PHONE



GEOJSON = '{"type": "Polygon", "coordinates": [[[0, -200], [20, -200.0], [20, -180], [0, -180], [0, -200]]]}'


class Register:
    """Reads the register without the page, to compare."""

    def __init__(self, stack):
        self.stack = stack

    def get(self, path, party=1, role="stateAdministrator"):
        link = self.stack.queue_connection()
        link.request("GET", path, headers={"Register-Party": str(party), "Register-Role": role})
        reply = link.getresponse()
        text = reply.read().decode()
        link.close()
        return json.loads(text) if text.startswith("{") else text

    def numbers(self, kind):
        return self.get("/" + kind)["numbers"]

    def object(self, kind, number):
        return self.get(f"/{kind}/{number}").get("object")

    def last(self, kind):
        return self.object(kind, self.numbers(kind)[-1])


def sent(it, words):
    """Sends the form and returns whether the answer has these words."""
    it.send_form()
    return it.settle(lambda: words in it.text(".answer"), 15)


def open_act(it, user, act, role, prefill=""):
    if it.user_now != (user, role):
        it.sign_in(user)
        it.user_now = (user, role)
    it.go(f"#/do/{act}{prefill}?role={role}")


def parties(it, register):
    open_act(it, "office", "enrol", "stateAdministrator")
    check(f"{it.name}: an empty form is not sent", it.send_form() and it.errors() == ["Enter a value."],
        it.errors())
    it.fill("name", "Clara Kühn")
    check(f"{it.name}: enrol", sent(it, "Enrolled"), it.text())
    clara = register.last("parties")
    check(f"{it.name}: the register has the party", (clara["name"], clara["kind"]) == ("Clara Kühn",
        "naturalPerson"), clara)
    open_act(it, "office", "group", "stateAdministrator")
    it.fill("name", "Anna and Clara")
    it.pick("party", "Anna", 0)
    it.fill("share", "1/2", 0)
    it.pick("party", "Clara", 1)
    it.fill("share", "1/3", 1)
    it.send_form()
    check(f"{it.name}: shares that do not sum to one are reported",
        it.errors() == ["The shares do not sum to one."], it.errors())
    it.fill("share", "1/2", 1)
    check(f"{it.name}: group", sent(it, "Group created"), it.text())
    group = register.last("parties")
    check(f"{it.name}: its members", group["members"] == [{"party": 2, "share": "1/2"},
        {"party": clara["number"], "share": "1/2"}], group)
    open_act(it, "office", "regroup", "stateAdministrator", f"/group-{group['number']}")
    filled = "return [...document.querySelectorAll('input[name=share]')].map((e) => e.value).join()"
    check(f"{it.name}: a group's members are filled in", it.settle(lambda: it.js(filled) == "1/2,1/2"),
        it.js(filled))
    it.fill("share", "1/4", 0)
    it.fill("share", "3/4", 1)
    check(f"{it.name}: regroup", sent(it, "Group changed"), it.text())
    check(f"{it.name}: its new shares", [m["share"] for m in register.object("parties",
        group["number"])["members"]] == ["1/4", "3/4"])
    open_act(it, "office", "grant", "stateAdministrator")
    it.fill("party", "99999")
    it.send_form()
    check(f"{it.name}: a party that does not exist is reported",
        "No party with this number or name." in it.errors(), it.errors())
    it.pick("party", "Ben")
    it.settle(lambda: it.count("select[name=role] option") > 1)
    it.fill("role", "conveyancer")
    check(f"{it.name}: grant", sent(it, "Role granted"), it.text())
    check(f"{it.name}: the role is held", "conveyancer" in register.object("parties", 3)["roles"])
    return clara["number"]


def units(it, register):
    """Registers a unit with a pasted and a drawn parcel; adds and lifts a burden. Returns the unit's number."""
    open_act(it, "office", "register", "stateAdministrator")
    it.fill("name", "Mill")
    it.fill("document", "Plan 77")
    it.fill("label", "M1")
    it.fill("outline", "POLYGON ((0 -200000, 20000 -200000, 20000 -180000, 0 -180000))")
    it.pick("party", "Clara")
    it.send_form()
    check(f"{it.name}: an open outline is reported",
        "The outline does not end at its first point." in it.errors(), it.errors())
    it.fill("outline", GEOJSON)
    check(f"{it.name}: GeoJSON in metres is read", it.settle(lambda: it.has("400 m²"), 5), it.text()[-400:])
    check(f"{it.name}: parcels of a file are read", read_file(it), it.text()[-400:])
    it.fill("outline", "0 -200; 20 -200; 20 -180; 0 -180", 0)
    it.button("Add a parcel")
    it.fill("label", "M2", 1)
    it.click("main .row:nth-of-type(2) summary")
    it.until(lambda: it.count("svg.board"))
    draw_next_to_first(it)
    check(f"{it.name}: a drawn parcel has an area", it.settle(lambda: it.js(
        "return document.querySelectorAll('main textarea')[1].value.startsWith('POLYGON')"), 10),
            it.text()[-600:])
    it.picture("register")
    check(f"{it.name}: register", sent(it, "Registered"), it.text())
    unit = register.last("units")
    sheet = register.get(f"/units/{unit['number']}/sheet")
    check(f"{it.name}: the register has the unit with both parcels", unit["name"] == "Mill"
        and "Parcels 2" in sheet and "M2" in sheet, sheet)
    drawn = register.last("parcels")["outline"]
    check(f"{it.name}: the drawn parcel shares a boundary with the first", "20000 -200000" in drawn
        and "20000 -180000" in drawn, drawn)
    open_act(it, "office", "burden", "stateAdministrator", f"/unit-{unit['number']}")
    it.settle(lambda: it.has("Mill"))
    it.fill("words", "No well")
    it.pick("party", "Anna")
    it.fill("document", "Order 7")
    check(f"{it.name}: burden", sent(it, "Burden added"), it.text())
    entry = register.last("rrrs")
    check(f"{it.name}: the register has the burden", (entry["words"], entry["party"],
        entry["class"]) == ("No well", 2, "restriction"), entry)
    open_act(it, "office", "lift", "stateAdministrator", f"/rrr-{entry['number']}")
    check(f"{it.name}: the burden to lift is chosen", it.settle(lambda: it.js(
        "return document.querySelector('select[name=rrr]').value") == str(entry["number"])), it.text())
    check(f"{it.name}: lift", sent(it, "Burden lifted"), it.text())
    check(f"{it.name}: the burden has ended", register.object("rrrs", entry["number"]) is None)
    return unit["number"]


def read_file(it):
    """Reads two parcels from a file of GeoJSON into rows, and removes them again."""
    it.js("""const features = [0, 40].map((x) => ({type: 'Feature', properties: {label: 'F' + x}, geometry: {type: 'Polygon',
            coordinates: [[[x, 0], [x + 20, 0], [x + 20, 10.5], [x, 10.5], [x, 0]]]}}));
        const file = new File([JSON.stringify({type: 'FeatureCollection', features})], 'two.geojson');
        const transfer = new DataTransfer();
        transfer.items.add(file);
        const inputs = document.querySelectorAll("[data-key=parcels] input[type=file]");
        const input = inputs[inputs.length - 1];
        input.files = transfer.files;
        input.dispatchEvent(new Event('change'));""")
    values = "return [...document.querySelectorAll('[data-key=parcels] input[name=label]')].map((e) => e.value).join()"
    found = it.until(lambda: it.js(values) == "M1,F0,F40", 10) and it.has("2 parcels read")
    for _ in range(2):
        it.js("[...document.querySelectorAll('[data-key=parcels] .row > button')].pop().click()")
    return found


def draw_next_to_first(it):
    """Draws a rectangle at the right of the first parcel: its corners snap to the first parcel's."""
    it.js("document.querySelector('svg.board').scrollIntoView({block: 'center'})")
    corners = it.js("""const p = document.querySelector('svg.board path.old').getBoundingClientRect();
        return [[p.right, p.bottom], [p.right + 60, p.bottom], [p.right + 60, p.top], [p.right, p.top]];""")
    for x, y in corners:
        it.click_at(x, y)
    it.button("Close the outline")


def mandates(it):
    it.sign_in("anna")
    it.user_now = ("anna", "citizen")
    it.go("#/start?role=citizen")
    check(f"{it.name}: without a mirror mandates are not listed, and the page says so",
        it.has("Without a mirror mandates are not listed.") and not it.count("table.mandates"), it.text()[-300:])
    open_act(it, "anna", "mandate", "citizen")
    it.fill("agent", "5")
    check(f"{it.name}: mandate", sent(it, "Mandate given"), it.text())
    it.fill("agent", "5")
    check(f"{it.name}: a mandate that exists is refused in words", sent(it, "(refusal 221)"), it.text())
    open_act(it, "anna", "withdraw", "citizen")
    it.fill("other", "5")
    check(f"{it.name}: withdraw", sent(it, "Mandate withdrawn"), it.text())
    open_act(it, "anna", "mandate", "citizen")
    it.fill("agent", "3")
    check(f"{it.name}: a mandate for Ben", sent(it, "Mandate given"), it.text())
    open_act(it, "ben", "withdraw", "citizen", "/principal-2")
    check(f"{it.name}: the other party of a mandate is filled in", it.settle(lambda: it.has("Anna 2"), 10), it.text())
    check(f"{it.name}: withdraw by the agent", sent(it, "Mandate withdrawn"), it.text())


def decide(it, register, number, word="Approve"):
    it.sign_in("office")
    it.user_now = ("office", "stateAdministrator")
    it.go(f"#/mutations/{number}?role=stateAdministrator")
    it.button(word)
    it.until(lambda: it.count("dialog[open]"))
    it.button("Yes", "dialog")
    it.settle(lambda: it.has("Done at") or it.count(".answer .message"))
    return register.object("mutations", number)["state"]


def transfers(it, register, unit):
    open_act(it, "nora", "transfer", "notary", f"/unit-{unit}")
    it.settle(lambda: it.count("select[name=right] option") == 2)
    it.pick("receiver", "Clara")
    it.fill("document", "Deed 12")
    it.send_form()
    check(f"{it.name}: the holder cannot be the receiver",
        "The receiver already holds this right." in it.errors(), it.errors())
    it.pick("receiver", "Ben")
    it.fill("share", "3/2")
    it.send_form()
    check(f"{it.name}: a share above one is reported", "A share must not be above one." in it.errors(),
        it.errors())
    it.fill("share", "1/2")
    it.picture("transfer")
    it.picture("transfer-narrow", PHONE)
    check(f"{it.name}: transfer by a notary", sent(it, "Lodged"), it.text())
    mutation = register.last("mutations")
    check(f"{it.name}: its content", mutation["content"]["receiver"] == 3
        and mutation["content"]["share"] == "1/2", mutation)
    it.sign_in("office")
    it.user_now = None
    it.go(f"#/mutations/{mutation['number']}?role=stateAdministrator")
    check(f"{it.name}: its title has names", it.text("h1").startswith("Transfer of 1/2 of Mill to Ben"),
        it.text("h1"))
    check(f"{it.name}: the change is shown side by side", it.has("Now", "After", "1/1", "1/2", "nothing"),
        it.text())
    it.picture("decide")
    check(f"{it.name}: approve", decide(it, register, mutation["number"]) == "approved", it.text())
    right = [e for e in map(lambda n: register.object("rrrs", n), register.numbers("rrrs"))
        if e["unit"] == unit and e["party"] == 3][0]
    open_act(it, "ben", "transfer", "conveyancer")
    it.fill("unit", str(unit))
    it.press("Tab")
    it.settle(lambda: it.count("input[name=right]") or it.count("select[name=right] option"), 10)
    check(f"{it.name}: a number that a conveyancer may not see is marked",
        it.has("You may not see this number"), it.text())
    it.fill("right", str(right["number"]))
    it.fill("receiver", "2")
    it.fill("share", "1/4")
    it.fill("document", "Deed 13")
    check(f"{it.name}: transfer by a conveyancer", sent(it, "Lodged"), it.text())
    check(f"{it.name}: refuse", decide(it, register, register.last("mutations")["number"],
        "Refuse") == "refused", it.text())


def loans(it, register, unit):
    open_act(it, "bank.clerk", "mortgage", "bank")
    it.fill("unit", str(unit))
    it.fill("amount", "125,000.50")
    check(f"{it.name}: the amount is repeated with its currency", it.settle(lambda: it.has("EUR 125,000.50")),
        it.text())
    it.fill("document", "Loan 9")
    check(f"{it.name}: mortgage by a bank", sent(it, "Lodged"), it.text())
    mutation = register.last("mutations")
    check(f"{it.name}: its amount is in minor units", mutation["content"]["amount"] == 12500050, mutation)
    check(f"{it.name}: the mortgage is approved", decide(it, register, mutation["number"]) == "approved",
        it.text())
    entry = register.last("rrrs")
    open_act(it, "nora", "mortgage", "notary", f"/unit-{unit}")
    it.pick("creditor", "Anna")
    it.fill("amount", "10")
    it.fill("document", "Loan 10")
    it.send_form()
    check(f"{it.name}: a creditor that is not a bank is reported",
        "The creditor does not hold the role of a bank." in it.errors(), it.errors())
    it.pick("creditor", "North")
    check(f"{it.name}: mortgage by a notary", sent(it, "Lodged"), it.text())
    check(f"{it.name}: the second mortgage is refused", decide(it, register,
        register.last("mutations")["number"], "Refuse") == "refused")
    open_act(it, "bank.clerk", "discharge", "bank", f"/mortgage-{entry['number']}")
    it.settle(lambda: it.js("return document.querySelector('[name=mortgage]').value") == str(entry["number"]))
    it.fill("document", "Letter")
    check(f"{it.name}: discharge by a bank", sent(it, "Lodged"), it.text())
    check(f"{it.name}: the discharge is approved", decide(it, register,
        register.last("mutations")["number"]) == "approved")
    check(f"{it.name}: the mortgage has ended", register.object("rrrs", entry["number"]) is None)
    other = next(e for e in map(lambda n: register.object("rrrs", n), register.numbers("rrrs")) if e["class"] == "mortgage")
    open_act(it, "nora", "discharge", "notary", f"/unit-{other['unit']}")
    chosen = "const e = document.querySelector('[name=mortgage]'); return e && e.value"
    check(f"{it.name}: the only mortgage of a unit is chosen", it.settle(lambda: it.js(chosen) == str(other["number"]), 10), it.js(chosen))
    it.fill("document", "Letter 2")
    check(f"{it.name}: discharge by a notary", sent(it, "Lodged"), it.text())
    check(f"{it.name}: the second discharge is refused", decide(it, register, register.last("mutations")["number"],
        "Refuse") == "refused")


def geometry(it, register, unit):
    """A subdivision drawn over the old parcel, and a merger of its parts."""
    parcel = [p for p in map(lambda n: register.object("parcels", n), register.numbers("parcels"))
        if p["unit"] == unit][0]
    open_act(it, "sam", "subdivision", "certifiedSurveyor", f"/parcel-{parcel['number']}")
    it.until(lambda: it.count("svg.board"))
    it.settle(lambda: it.count("svg.board path") >= 2)
    it.fill("document", "Plan 9")
    it.send_form()
    check(f"{it.name}: a parcel that is not divided is reported",
        "The parcel is not divided yet." in it.errors(), it.errors())
    it.js("document.querySelector('svg.board').scrollIntoView({block: 'center'})")
    left, right, top, bottom = it.js("""const p = document.querySelector('svg.board path.old').getBoundingClientRect();
        return [p.left, p.right, p.top, p.bottom];""")
    it.click_at(left + (right - left) / 3, top)
    it.click_at(left + (right - left) / 2, (top + bottom) / 2)
    it.click_at(left + (right - left) / 3, bottom)
    check(f"{it.name}: a drawn line cuts the parcel",
        it.settle(lambda: it.has("The parts cover exactly the old parcel."), 10), it.text())
    it.js("const e = [...document.querySelectorAll('[data-part=where]')].pop(); e.value = 'new'; e.dispatchEvent(new Event('change'));")
    it.send_form()
    check(f"{it.name}: a new unit without a name is reported", "Each new unit needs a name." in it.errors(),
        it.errors())
    it.js("const e = [...document.querySelectorAll('[data-part=unit]')].pop(); e.value = 'Mill pond';"
          "e.dispatchEvent(new Event('input', {bubbles: true}));")
    it.picture("subdivision")
    check(f"{it.name}: subdivision by a surveyor", sent(it, "Lodged"), it.text())
    mutation = register.last("mutations")
    check(f"{it.name}: its parts", mutation["content"]["rest"][0]["unit"] == "Mill pond", mutation)
    check(f"{it.name}: the subdivision is approved", decide(it, register, mutation["number"]) == "approved",
        it.text())
    parts = [register.object("parcels", n) for n in register.numbers("parcels")[-2:]]
    open_act(it, "sam", "subdivision", "certifiedSurveyor", f"/parcel-{parts[0]['number']}")
    it.until(lambda: it.count("svg.board"))
    it.button("Paste outlines instead")
    it.js("const e = document.querySelector('fieldset textarea'); e.value = arguments[0];",
          "POLYGON ((0 0, 1 0, 1 1, 0 1, 0 0))\nPOLYGON ((1 0, 2 0, 2 1, 1 1, 1 0))")
    it.button("Take these")
    it.fill("document", "Plan 10")
    it.send_form()
    check(f"{it.name}: outlines that do not match are reported before lodging",
          "The new outlines do not cover exactly the ground of the old ones." in it.errors(), it.errors())
    open_act(it, "sam", "merger", "certifiedSurveyor", f"/parcel-{parts[0]['number']}")
    it.settle(lambda: it.has(parts[0]["label"]))
    it.fill("label", "M1")
    it.fill("document", "Plan 11")
    it.pick("add", "P7")
    it.send_form()
    check(f"{it.name}: parcels that do not touch are reported",
        "The parcels do not form one area without holes." in it.errors(), it.errors())
    it.js("[...document.querySelectorAll('[data-key=parcels] li')].find((e) => e.textContent.startsWith('P7'))"
          ".querySelector('button').click()")
    it.fill("add", str(parts[1]["number"]))
    it.press("Tab")
    it.settle(lambda: it.count("[data-key=parcels] li") == 2)
    it.picture("merger")
    check(f"{it.name}: merger by a surveyor", sent(it, "Lodged"), it.text())
    mutation = register.last("mutations")
    check(f"{it.name}: its units", mutation["content"]["unit"] == unit
        and len(mutation["content"]["others"]) == 1, mutation)
    check(f"{it.name}: the merger is approved", decide(it, register, mutation["number"]) == "approved",
        it.text())
    merged = register.last("parcels")
    check(f"{it.name}: the merged parcel has the area of the first", merged["doubled"] == parcel["doubled"],
        (merged, parcel))


def revoked(it, register):
    open_act(it, "office", "revoke", "stateAdministrator", "/party-3")
    it.settle(lambda: it.count("select[name=role] option") > 1)
    it.fill("role", "conveyancer")
    check(f"{it.name}: revoke", sent(it, "Role revoked"), it.text())
    check(f"{it.name}: the role is no longer held", "conveyancer" not in register.object("parties",
        3)["roles"])


def unsaved(it):
    """Leaving a form that was filled in asks first."""
    open_act(it, "office", "enrol", "stateAdministrator")
    it.fill("name", "Half")
    it.js("location.hash = '#/units?role=stateAdministrator'")
    check(f"{it.name}: leaving an unsent form asks", it.until(lambda: it.count("dialog[open]"), 5), it.text())
    it.button("Stay", "dialog")
    check(f"{it.name}: the form is still there",
        it.js("return document.querySelector('input[name=name]').value") == "Half")
    it.js("location.hash = '#/units?role=stateAdministrator'")
    it.until(lambda: it.count("dialog[open]"), 5)
    it.button("Leave", "dialog")
    check(f"{it.name}: and can be left", it.settle(lambda: it.has("Units 1 to")), it.text()[:200])


def run(it):
    register = Register(it.stack)
    it.user_now = None
    parties(it, register)
    unit = units(it, register)
    mandates(it)
    transfers(it, register, unit)
    loans(it, register, unit)
    geometry(it, register, unit)
    revoked(it, register)
    unsaved(it)
    found = it.console_errors()
    check(f"{it.name}: no errors on the console in all acts", not found, found)


