"""The page with a mirror: search, history, lists, the map; and that it works on when the mirror is lost."""
import csv
import os
import re
import time

from harness import check, note
from page_browser import DESK, PHONE
from page_stack import wait_for_mirror
import scenario

OFFICE, NORA = (1, "stateAdministrator"), (5, "notary")


def requests(it):
    """Returns the paths that the page requested since it was loaded."""
    return it.js("return performance.getEntriesByType('resource').map((e) => new URL(e.name).pathname + new URL(e.name).search)")


def search(it, words):
    it.js("const e = document.getElementById('search'); e.blur(); e.value = ''; e.focus();")
    it.type(words)
    it.settle(lambda: it.count("#search-form [role=option], #search-form .option-none"), 15)
    return it.js("return [...document.querySelectorAll('#search-form [role=option]')].map((e) => e.innerText.replace(/\\s+/g, ' '))")


def check_search(it):
    it.sign_in("office")
    it.go("#/start?role=stateAdministrator")
    found = search(it, "orch")
    check(f"{it.name}: a unit is found by a part of its name", found == ["Unit Orchard 25"], found)
    check(f"{it.name}: a party", "Party Bank, \"North\" 4" in search(it, "north"), search(it, "north"))
    check(f"{it.name}: a parcel by its label", "Parcel 12b 26" in search(it, "12b"), search(it, "12b"))
    check(f"{it.name}: a deed by the beginning of its title",
        any("Deed 2" in one for one in search(it, "Deed 2")), search(it, "Deed 2"))
    check(f"{it.name}: a number", "Unit Garden 9" in search(it, "9"), search(it, "9"))
    it.press("Down", "Enter")
    check(f"{it.name}: a result is opened", it.settle(lambda: it.has("Owners")), it.text()[:200])
    it.picture("search")
    it.sign_in("ben")
    it.go("#/start?role=citizen")
    found = search(it, "orchard")
    check(f"{it.name}: a citizen finds own land", found == ["Unit Orchard 25"], found)
    check(f"{it.name}: and nothing else", search(it, "Plot 0") == [], search(it, "Plot 0"))


def check_history(it):
    it.sign_in("office")
    it.go("#/units/9?role=stateAdministrator")
    it.button("Show history")
    check(f"{it.name}: the history is a list", it.settle(lambda: it.has("changes, newest first"), 30),
        it.text()[-500:])
    text = it.text("#history").replace("\u00a0", " ")
    for words in ("Subdivision", "approved", "Ownership: Ben, 1/1", "changed", "Deed 2",
        "Mortgage: Bank, \"North\", EUR 25,000.00", "Parcel 12a", "new"):
        check(f"{it.name}: the history has {words!r}", words in text, text)
    newest = it.moments()
    check(f"{it.name}: newest first", newest == sorted(newest, reverse=True) and len(newest) > 5, newest)
    check(f"{it.name}: in one request", sum("/units/9/history" in one for one in requests(it)) == 1,
        requests(it))
    it.button("Compare two moments")
    it.button("Compare")
    check(f"{it.name}: two moments side by side", it.settle(lambda: it.has("difference"), 20),
        it.text()[-300:])
    check(f"{it.name}: differences are marked", it.count("#history .differs") >= 2, it.text()[-300:])
    it.picture("history", DESK)
    it.sign_in("anna")
    it.go("#/units/9?role=citizen")
    check(f"{it.name}: a former owner is offered the history",
        it.has("(rule 11)", "Did you have a right in this unit?"), it.text())
    it.button("Show history")
    check(f"{it.name}: and finds the period", it.settle(lambda: it.has("Your ownership", "1/4 from"), 30),
        it.text()[-400:])
    it.sign_in("ben")
    it.go("#/units/9?role=citizen")
    it.button("Show history")
    it.settle(lambda: it.count("ol.history li"))
    it.click("ol.history > li a[href*='at=']", 1)
    check(f"{it.name}: a moment of the history is shown", it.settle(lambda: it.has("State as of")),
        it.text()[:200])
    check(f"{it.name}: the history stays open", it.settle(lambda: it.count("ol.history li")),
        it.text()[-200:])


def check_lists(it):
    it.sign_in("office")
    it.go("#/parties?role=stateAdministrator&sort=name")
    names = it.js("return [...document.querySelectorAll('tbody td:first-child bdi')].map((e) => e.innerText)")
    check(f"{it.name}: a list by name", names == sorted(names) and "Anna" in names, names)
    check(f"{it.name}: a page is one request", sum("/mirror/objects/parties" in one
        for one in requests(it)) == 1, requests(it))
    it.go("#/parties/3?role=stateAdministrator")
    check(f"{it.name}: a party has its entries", it.has("Entries of this party", "Ownership"), it.text())


def check_undecided(it):
    """A request that was lodged a moment ago is listed: the page waits for it."""
    it.sign_in("nora")
    it.go("#/do/transfer/unit-9?role=notary")
    it.settle(lambda: it.count("select[name=right] option") >= 2)
    it.fill("right", "21")
    it.pick("receiver", "Anna")
    it.fill("share", "1/2")
    it.fill("document", "Deed M")
    it.send_form()
    it.settle(lambda: "Lodged" in it.text(".answer"))
    it.button("Your lodgings", "#tabs")
    check(f"{it.name}: what was lodged a moment ago is listed",
        it.settle(lambda: it.has("Transfer of 1/2 of Garden to Anna", "waiting")), it.text())
    it.sign_in("office")
    it.go("#/start?role=stateAdministrator")
    check(f"{it.name}: the office sees it", it.settle(lambda: it.has("Transfer of 1/2 of Garden to Anna",
        "1 request is waiting")), it.text())
    it.picture("office", DESK)
    it.go("#/units/9?role=stateAdministrator")
    check(f"{it.name}: so does the unit's page", it.settle(lambda: it.has("1 request refers to this unit")),
        it.text())


def check_mandates(it):
    """A citizen's mandates, given and held, newest first; a row leads to the form that withdraws it. Others never see them."""
    act = scenario.act_sender(it.stack.queue_connection())
    act((2, "citizen"), "mandate", {"agent": 3})
    act((2, "citizen"), "mandate", {"agent": 5})
    act((6, "citizen"), "mandate", {"agent": 2})
    it.sign_in("anna")
    it.go("#/do/mandate?role=citizen")
    it.fill("agent", "6")
    it.send_form()
    it.settle(lambda: "Mandate given" in it.text(".answer"))
    rows = "return [...document.querySelectorAll('table.mandates tbody tr')].map((r) => [...r.cells].slice(0, 2).map((c) => c.innerText" \
        ".replace('\\u00a0', ' ')).join(' '))"
    it.button("Your land", "#tabs")
    it.settle(lambda: it.count("table.mandates tbody tr"))
    wanted = ["given to Sam 6", "held from Sam 6", "given to Party 5", "given to Ben 3"]
    check(f"{it.name}: mandates given and held, newest first", it.js(rows) == wanted, it.js(rows))
    it.picture("mandates")
    it.picture("mandates-narrow", PHONE)
    it.js("const e = document.querySelectorAll('section select')[0]; e.value = 'held'; e.dispatchEvent(new Event('change'))")
    check(f"{it.name}: those held", it.until(lambda: it.js(rows) == ["held from Sam 6"], 10), it.js(rows))
    it.js("const e = document.querySelectorAll('section select')[0]; e.value = ''; e.dispatchEvent(new Event('change'))")
    it.until(lambda: len(it.js(rows)) == 4, 10)
    it.click("table.mandates tbody a[href*='withdraw']", 3)
    check(f"{it.name}: a row leads to the form that withdraws the mandate", it.settle(lambda: it.has("Ben 3") and
        it.js("return document.querySelector('select[name=way]').value") == "given"), it.text())
    it.send_form()
    check(f"{it.name}: it is withdrawn", it.settle(lambda: "Mandate withdrawn" in it.text(".answer")), it.text())
    it.button("Your land", "#tabs")
    it.settle(lambda: it.count("table.mandates tbody tr"))
    check(f"{it.name}: the list has it no more", it.js(rows) == wanted[:3], it.js(rows))
    it.js("const e = document.querySelectorAll('section select')[1]; e.value = '0'; e.dispatchEvent(new Event('change'))")
    check(f"{it.name}: it is among those that ended", it.until(lambda: it.js(rows) == ["given to Ben 3"], 10), it.js(rows))
    it.js("const e = document.querySelectorAll('section select')[1]; e.value = ''; e.dispatchEvent(new Event('change'))")
    it.until(lambda: len(it.js(rows)) == 4, 10)
    it.button("Save as CSV")
    file = os.path.join(it.downloads, "mandates.csv")
    saved = it.until(lambda: os.path.exists(file) and os.path.getsize(file), 20)
    with open(file if saved else os.devnull, newline="", encoding="utf-8") as source:
        lines = list(csv.reader(source))
    check(f"{it.name}: they are saved as CSV", [line[:4] for line in lines] == [
        ["principal", "principal_name", "agent", "agent_name"], ["2", "Anna", "6", "Sam"], ["6", "Sam", "2", "Anna"],
        ["2", "Anna", "5", ""], ["2", "Anna", "3", "Ben"]], lines)
    it.sign_in("nora")
    it.go("#/start?role=citizen")
    it.settle(lambda: it.count("table.mandates tbody tr"))
    check(f"{it.name}: an agent sees its mandate, and no other", it.js(rows) == ["held from Anna 2"], it.js(rows))
    it.go("#/start?role=notary")
    check(f"{it.name}: other roles have no list", not it.count("table.mandates"), it.text())
    it.js("const e = document.getElementById('language'); e.value = 'de'; e.dispatchEvent(new Event('change'))")
    it.go("#/start?role=citizen")
    check(f"{it.name}: in German", it.settle(lambda: it.js(rows) == ["erhalten von Anna 2"]), it.js(rows))
    it.js("const e = document.getElementById('language'); e.value = 'en'; e.dispatchEvent(new Event('change'))")
    it.settle()


def canvas_colours(it):
    """Returns the number of pixels of the map that are neither paper nor white, in thousands."""
    return it.js("""const c = document.querySelector('canvas.map'); const d = c.getContext('2d').getImageData(0, 0, c.width, c.height).data;
        let n = 0; for (let i = 0; i < d.length; i += 4) if (d[i] < 245) n += 1; return Math.round(n / 1000);""")


def check_touch(it, x, y):
    """A finger moves the map, two fingers enlarge it."""
    def in_view():
        found = re.search(r"(\d+) parcels? in view", it.text())
        return int(found[1]) if found else None
    it.touch([(x + 300 - 60 * n, y) for n in range(11)])
    check(f"{it.name}: a finger moves the map", it.until(lambda: (in_view() or 47) < 47, 10), it.text()[:300])
    it.js("document.querySelector('canvas.map').focus()")
    it.press("0")
    it.settle(lambda: it.has("47 parcels in view"), 10)
    it.touch([(x - 20 - 12 * n, y) for n in range(11)], [(x + 20 + 12 * n, y) for n in range(11)])
    check(f"{it.name}: two fingers enlarge it", it.until(lambda: (in_view() or 47) < 40, 10), it.text()[:300])
    check(f"{it.name}: and open no unit", "#/map" in it.js("return location.hash"))
    it.js("document.querySelector('canvas.map').focus()")
    it.press("0")
    it.settle(lambda: it.has("47 parcels in view"), 10)


def check_map(it):
    it.sign_in("office")
    it.go("#/map?role=stateAdministrator")
    check(f"{it.name}: the map has all parcels", it.settle(lambda: it.has("47 parcels in view"), 30),
        it.text())
    check(f"{it.name}: they are drawn", it.until(lambda: canvas_colours(it) > 20, 10), canvas_colours(it))
    it.picture("map", DESK)
    it.resize(1280)
    it.js("document.querySelector('canvas.map').focus()")
    it.press("+", "+", "+")
    check(f"{it.name}: keys enlarge it", it.settle(lambda: not it.has("47 parcels in view")
        and it.has("in view"), 10), it.text())
    it.press("0")
    it.settle(lambda: it.has("47 parcels in view"), 10)
    x, y = it.js("const b = document.querySelector('canvas.map').getBoundingClientRect(); return [b.x + b.width / 2, b.y + b.height / 2]")
    check_touch(it, x, y)
    found = None
    for step in range(-60, 61, 12):
        it.click_at(x + step, y + step)
        if it.until(lambda: "#/units/" in it.js("return location.hash"), 1):
            found = it.js("return location.hash")
            break
    check(f"{it.name}: a click leads to a unit", found, (x, y))
    check(f"{it.name}: the unit is shown", it.settle(lambda: it.has("Owners")), it.text()[:200])
    it.go("#/map/24?role=stateAdministrator")
    check(f"{it.name}: the map opens at a parcel", it.settle(lambda: it.has("Parcel 12a"), 20), it.text())
    it.sign_in("ben")
    it.go("#/map?role=citizen")
    check(f"{it.name}: a citizen's map has all parcels it sees",
        it.settle(lambda: it.has("24 parcels in view") or it.has("parcels in view"), 20), it.text())
    it.resize(PHONE, 740)
    it.go("#/map?role=citizen")
    it.settle(lambda: it.has("in view"), 20)
    it.picture("map-narrow", PHONE, 900)
    it.resize(1280)


def check_loss(it):
    """If the mirror is lost, the page works with the register alone."""
    it.sign_in("office")
    it.go("#/units?role=stateAdministrator")
    it.stack.lost = True
    it.stack.mirror.stop()
    it.button("Parties", "#tabs")
    check(f"{it.name}: lists work without the mirror", it.settle(lambda: it.has("Anna", "Parties 1 to"), 30),
        it.text())
    check(f"{it.name}: so does the search", "Unit Orchard 25" in search(it, "orchard"), search(it, "orchard"))
    it.stack.mirror.start()


def run(it, lose=True):
    for part in (check_search, check_history, check_lists, check_map, check_undecided, check_mandates):
        part(it)
    found = it.console_errors()
    check(f"{it.name}: no errors on the console with a mirror", not found, found)
    if lose:
        check_loss(it)


# ---- many parcels

def fill_many(stack, count):
    """Registers parcels in blocks of 64 to a unit, in a grid of 20 metres."""
    act = scenario.act_sender(stack.queue_connection())
    wide = int(count ** 0.5) + 1
    place = 0
    began = time.monotonic()
    for unit in range((count + 63) // 64):
        parcels = []
        for _ in range(min(64, count - place)):
            x, y = place % wide * 20000 + 1000000, place // wide * 20000
            parcels.append({"label": f"{place}", "outline": scenario.rectangle(x, y, 20000, 20000)})
            place += 1
        act(OFFICE, "register", {"name": f"Estate {unit}", "checked": True, "document": f"Plan {unit}",
            "parcels": parcels,
                                 "rights": [{"party": 2, "type": "ownership", "share": "1/1"}]})
    note(f"{count} parcels registered in {time.monotonic() - began:.0f} s")


def run_many(it, count):
    """The map of many parcels: the time to the whole map, and of one frame while it is dragged."""
    wait_for_mirror(it.stack, count, 300)
    it.sign_in("office")
    began = time.monotonic()
    it.go("#/map?role=stateAdministrator")
    shown = it.settle(lambda: it.js("const n = /([\\d,]+) parcels in view/.exec(document.getElementById('main').innerText);"
                                    "return n && Number(n[1].replace(/,/g, ''))") >= count, 120)
    whole = time.monotonic() - began
    check(f"{it.name}: the map shows {count} parcels", shown, it.text()[:300])
    frame = it.js("""const c = document.querySelector('canvas.map'); const b = c.getBoundingClientRect();
        const at = (t, x) => c.dispatchEvent(new PointerEvent(t, {pointerId: 1, isPrimary: true, bubbles: true,
            clientX: b.x + x, clientY: b.y + 200}));
        c.setPointerCapture = () => null; at('pointerdown', 200);
        const times = [];
        return new Promise((done) => { let n = 0; let last = performance.now();
            const step = () => { const now = performance.now(); times.push(now - last); last = now; at('pointermove', 200 + 3 * n); n += 1;
                if (n < 20) requestAnimationFrame(step); else { at('pointercancel', 200); done(times.sort((a, b) => a - b)[10]); } };
            requestAnimationFrame(step); });""")
    note(f"{it.name}: {count} parcels on the map after {whole:.1f} s; a frame while dragging takes {frame:.0f} ms at the median")
    check(f"{it.name}: dragging the map of {count} parcels is possible", frame < 1000, frame)
    it.picture("map-many", DESK)
    search_began = time.monotonic()
    found = search(it, "Estate 77")
    check(f"{it.name}: a unit among many is found", any("Estate 77" in one for one in found), found)
    note(f"{it.name}: search while typing, shown after {time.monotonic() - search_began:.1f} s")
