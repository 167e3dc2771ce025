"""The views of each role, names that contain HTML or imitate lines, printing, an outage, frames and forms of other sites."""
import contextlib
import csv
import http.server
import os
import threading

from harness import check
from page_browser import PHONE, DESK
import scenario

EVIL = "<img src=x onerror=\"document.title='owned'\"><script>alert(1)</script>"
TURNED = "R\u202e1\u2800"
FORGED = "Zoe: 1/2\u2028        99  mortgage                 4 Bank: rank 1 EUR 1\u202ekcab"
MARKS = ("[U+2028]", "[U+202E]", "[U+FE0F]", "[U+2800]")


def register_difficult_objects(stack):
    """Registers objects that are difficult to display: names with HTML and imitated lines, irregular outlines, a parcel of 490,000 km2."""
    act = scenario.act_sender(stack.queue_connection())

    def enrol(name):
        return act(scenario.OFFICE, "enrol", {"kind": "naturalPerson", "name": name})["number"]

    def register(name, outlines, *owners):
        return act(scenario.OFFICE, "register", {
            "name": name, "checked": True, "document": "Plan <b>9</b>",
                "parcels": [{"label": it[0], "outline": it[1]} for it in outlines],
            "rights": [{"party": it, "type": "ownership", "share": f"1/{len(owners)}"}
                for it in owners]})["number"]
    west = "POLYGON ((0 0, 40000 -8000, 62000 9000, 58000 31000, 33000 22000, 12000 36000, -6000 17000, 0 0))"
    east = "POLYGON ((62000 9000, 90000 4000, 97000 28000, 58000 31000, 62000 9000))"
    odd = register("River \u202emeadow\ufe0f " + EVIL[:60], [(TURNED, west), ("R2", east)], enrol(EVIL),
        enrol(FORGED), 2)
    act(scenario.OFFICE, "burden", {"unit": odd, "party": 2, "class": "restriction",
        "words": "No well: " + FORGED, "document": "Order"})
    great = register("Forest", [("F", "POLYGON ((0 0, 700000001 0, 700000001 700000001, 0 700000001, 0 0))")],
        2)
    return odd, great


def check_citizen(it, odd):
    it.sign_in("ben")
    it.go("#/start?role=citizen")
    check(f"{it.name}: the citizen's units are listed", it.has("Garden", "Plot 1"), it.text())
    who = it.text("#who")
    check(f"{it.name}: the caller is displayed", "Ben" in who and "Party 3" in who, who)
    check(f"{it.name}: roles that the party does not hold are marked",
        "Notary (not yours)" in
          it.js("return document.getElementById('role').textContent"))
    it.go("#/units/9?role=citizen")
    check(f"{it.name}: a title sheet is displayed", it.has("Garden", "Owners", "Ben 3", "Bank, \"North\"",
        "50 m²"), it.text())
    check(f"{it.name}: its exact text is one click away", it.button("Exact text of the register") and
          it.settle(lambda: it.has("TITLE SHEET", "Unit 9 Garden")), it.text())
    check(f"{it.name}: the plan has its parcel", it.count("svg.plan path.here") == 1)
    wide, high = it.js("const b = document.querySelector('svg.plan path.here').getBBox(); return [b.width, b.height]")
    check(f"{it.name}: the plan is to scale", abs(high / wide - 2) < 0.01, (wide, high))
    it.picture("unit")
    it.picture("unit-narrow", PHONE)
    it.go(f"#/units/{odd}?role=citizen")
    text = it.text()
    check(f"{it.name}: a denied unit is explained by its rule", "Not visible" in text and "(rule 11)" in text
        and "Owners" not in text, text)
    it.go("#/units/9?role=bank")
    check(f"{it.name}: a role that the party does not hold is explained by its rule",
        it.has("Denied", "(rule 2)"), it.text())
    check(f"{it.name}: no errors on the console", not it.console_errors(), it.console_errors())


def check_moments(it):
    """The title sheet at another time, by the date picker."""
    it.sign_in("ben")
    it.go("#/units/9?role=citizen")
    it.js("const e = document.getElementById('at'); e.value = '2020-01-01T12:00'; e.dispatchEvent(new Event('change'))")
    check(f"{it.name}: before the register existed the unit is not visible",
        it.settle(lambda: it.has("(rule 11)")), it.text()[:300])
    check(f"{it.name}: the past is marked, in local time and in UTC",
        it.has("State as of", "CET", "2020-01-01 11:00:00.000 UTC"), it.text())
    it.click("#to-now")
    check(f"{it.name}: and back to now", it.settle(lambda: it.has("Owners")), it.text()[:200])
    it.go("#/units?role=citizen&at=4102444799999")
    check(f"{it.name}: a future time is a fault", it.has("(fault 135)"), it.text())
    it.js("const e = document.getElementById('at'); e.value = '1969-01-01T12:00'; e.dispatchEvent(new Event('change'))")
    check(f"{it.name}: an invalid time has a message", "Enter a date such as" in it.text("#at-wrong"),
        it.text("#at-wrong"))
    check(f"{it.name}: its field is marked invalid",
        it.js("return document.getElementById('at').getAttribute('aria-invalid')") == "true")


def check_owner(it, great):
    it.sign_in("anna")
    it.go(f"#/units/{great}?role=citizen")
    check(f"{it.name}: an area above 2^53 is exact", it.has("490,000,001,400.000001 m²"), it.text())
    it.go("#/parcels?role=citizen")
    check(f"{it.name}: parcels are listed in pages", it.has("Parcels 1 to 20 of"), it.text()[:200])
    it.button("Next")
    check(f"{it.name}: the next page", it.settle(lambda: it.has("Parcels 21 to")), it.text()[:200])
    it.go("#/parcels?role=citizen&sort=oldest")
    view = "return document.querySelector('svg.plan').getAttribute('viewBox')"
    before = it.js(view)
    it.click("button[aria-label='Zoom in']")
    check(f"{it.name}: a button enlarges the plan", it.js(view) != before, before)
    it.go("#/units?role=citizen&at=1000")
    check(f"{it.name}: before the register existed there are no units", it.has("None."), it.text())


def text_faults(it, odd):
    """HTML in names must be displayed as text, and invisible characters must be escaped: on the sheet, in lists, in search, in forms."""
    it.sign_in("anna")
    it.go(f"#/units/{odd}?role=citizen")
    it.button("Exact text of the register")
    found = [] if EVIL in it.text() else ["the name is not displayed verbatim"]
    it.picture("names")
    found += ["a name created an element"] if it.count("main img, main script, main b") else []
    title = it.js("return document.title")
    found += ["a name changed the title"] if "owned" == title else []
    found += [mark for mark in MARKS if mark not in it.text()]
    found += ["the title: " + title] if "River [U+202E]meadow[U+FE0F]" not in title else []
    found += it.run_check("unescaped") + it.console_errors()
    it.sign_in("nora")
    it.go("#/do/transfer/unit-" + str(odd) + "?role=notary")
    it.settle(lambda: it.count("select[name=right] option") == 4)
    found += it.run_check("unescaped")
    it.fill("receiver", "<img")
    it.settle(lambda: it.count("[role=option]") == 1)
    found += it.run_check("unescaped") + (["a suggestion created an element"] if it.count("img") else [])
    it.go("#/rrrs?role=notary")
    found += it.run_check("unescaped")
    it.js("document.getElementById('search').focus()")
    it.type("River")
    it.settle(lambda: it.count("#search-form [role=option]") >= 1)
    found += it.run_check("unescaped") + it.console_errors()
    return found + ([] if it.count("#search-form [role=option]") else ["no suggestion"])


def check_csv(it):
    """A list is saved as CSV; a name that a spreadsheet program would execute gets an apostrophe."""
    act = scenario.act_sender(it.stack.queue_connection())
    act(scenario.OFFICE, "enrol", {"kind": "naturalPerson", "name": "=1+1,\"x\""})
    it.sign_in("office")
    it.go("#/parties?role=stateAdministrator")
    it.button("Save as CSV")
    file = os.path.join(it.downloads, "parties.csv")
    saved = it.until(lambda: os.path.exists(file) and os.path.getsize(file), 20)
    with open(file if saved else os.devnull, newline="", encoding="utf-8") as source:
        rows = list(csv.reader(source))
    check(f"{it.name}: a list is saved as CSV", saved and rows[0] == ["number", "name", "kind", "roles"] and len(rows) > 5, rows)
    check(f"{it.name}: formulas get an apostrophe", saved and rows[1][1] == "'=1+1,\"x\"", rows[:2])


def check_bank(it):
    it.sign_in("bank.clerk")
    it.go("#/start?role=bank")
    check(f"{it.name}: the bank's loans are listed", it.has("Your loans", "EUR 25,000.00"), it.text())
    it.picture("bank", DESK)
    it.go("#/units/9?role=bank&at=1000")
    check(f"{it.name}: the past is denied to a bank", it.has("(rule 3)"), it.text())
    it.go("#/do/transfer?role=bank")
    check(f"{it.name}: a bank cannot lodge a transfer", it.has("Not allowed", "(rule 5)"), it.text())


def check_languages(it):
    """The whole page in German, and back."""
    it.sign_in("ben")
    it.go("#/units/9?role=citizen")
    it.js("const e = document.getElementById('language'); e.value = 'de'; e.dispatchEvent(new Event('change'))")
    check(f"{it.name}: in German", it.settle(lambda: it.has("GRUNDBUCHAUSZUG", "Eigentümer", "Hypotheken",
        "Verlauf zeigen")), it.text())
    check(f"{it.name}: its language is named", it.js("return document.documentElement.lang") == "de")
    it.picture("german")
    english = it.js("return ['Owners', 'Mortgages', 'Show history', 'Sign out', 'Units'].filter((word) => "
                    "document.body.innerText.includes(word))")
    check(f"{it.name}: nothing is left in English", not english, english)
    it.go("#/units/9?role=citizen")
    check(f"{it.name}: the language is kept", it.has("Eigentümer"), it.text()[:200])
    it.js("const e = document.getElementById('language'); e.value = 'en'; e.dispatchEvent(new Event('change'))")
    check(f"{it.name}: and back in English", it.settle(lambda: it.has("Owners")), it.text()[:200])


def check_outage(it):
    """Without the gateway the page must show a message, and recover when the gateway is back."""
    it.go("#/units?role=citizen")
    it.stack.stop_process("gateway")
    it.button("Parcels", "#tabs")
    check(f"{it.name}: an outage has a message", it.settle(lambda: it.has("could not be reached")), it.text())
    it.stack.start_gateway()
    it.button("Parties", "#tabs")
    check(f"{it.name}: the page recovers", it.settle(lambda: it.has("Ben")), it.text())
    it.console_errors()


def check_print(it):
    """In print there must be the title sheet, its plan and the caller, without navigation, on one page."""
    it.sign_in("ben")
    it.go("#/units/9?role=citizen")
    it.print_media(True)
    seen = [it.js(f"return document.querySelector('{one}').checkVisibility()")
        for one in (".bar", ".tabs", "footer", "#history",
        ".paper", "svg.plan", ".stamp", ".letterhead")]
    check(f"{it.name}: in print: title sheet, plan, caller", seen == [False] * 4 + [True] * 4, seen)
    it.picture("paper", 794)
    it.print_media(False)
    pdf = it.pdf()
    pages = pdf.count(b"/Type /Page\n") + pdf.count(b"/Type /Page ") + pdf.count(b"/Type/Page/") + pdf.count(b"/Type/Page\n")
    check(f"{it.name}: the print has one page", pdf.startswith(b"%PDF") and pages <= 1, pages)


# ---- other sites

@contextlib.contextmanager
def site(pages):
    """Serves another site with some pages ({path: HTML}) and yields its URL."""
    class Handler(http.server.BaseHTTPRequestHandler):
        def do_GET(self):
            body = pages.get(self.path, "").encode()
            self.send_response(200)
            self.send_header("Content-Type", "text/html")
            self.send_header("Content-Length", str(len(body)))
            self.end_headers()
            self.wfile.write(body)

        def log_message(self, *_):
            pass
    server = http.server.ThreadingHTTPServer(("127.0.0.1", 0), Handler)
    threading.Thread(target=server.serve_forever, daemon=True).start()
    yield f"http://localhost:{server.server_port}"
    server.shutdown()
    server.server_close()


@contextlib.contextmanager
def changed(stack, name, old, new):
    """Changes a file of the stack within the context. Restarts the gateway if the file is part of its configuration."""
    with open(stack.path(name), encoding="utf-8") as source:
        text = source.read()
    if old not in text:
        raise SystemExit(f"{name} does not contain {old!r}")
    for last, words in ((False, text.replace(old, new)), (True, text)):
        with open(stack.path(name), "w", encoding="utf-8") as sink:
            sink.write(words)
        if name.startswith("etc/"):
            stack.stop_process("gateway")
            stack.start_gateway()
        if not last:
            yield


def frame_faults(it):
    """Another site must not be able to frame the page, even without a password."""
    with changed(it.stack, "etc/server.conf", "auth_basic $land_realm",
                 "auth_basic off"), site({"/": f"<iframe src='{it.root}'></iframe>"}) as other:
        it.driver.get(other)        # waits until the frame is loaded
        it.driver.switch_to.frame(it.found("iframe")[0])
        it.until(lambda: it.js("return document.readyState") == "complete")
        found = ["the page is displayed in another site's frame"] if it.found("#main") else []
        it.driver.switch_to.default_content()
    return found


def form_faults(it):
    """A form on another site must have no effect, also if the browser has stored a password."""
    it.sign_in_by_password("office")
    if not it.found("#main"):
        return ["the browser has not stored the password"]
    body = '{"kind":"naturalPerson","name":"CSRF'
    form = f"""<form id=f method=post enctype=text/plain action="{it.root}acts/enrol"><input name='{body}' value='"}}'></form>"""
    with site({"/": form}) as other:
        it.driver.get(other)
        it.js("document.getElementById('f').submit()")
        it.until(lambda: it.js("return location.pathname + document.readyState") == "/acts/enrolcomplete")
        answer = it.js("return document.body.innerText")
    return [] if '"fault":131' in answer else [answer]


def run(it, odd, great):
    check_citizen(it, odd)
    check_moments(it)
    check_owner(it, great)
    faults = text_faults(it, odd)
    check(f"{it.name}: names with HTML or imitated lines", not faults, faults)
    check_csv(it)
    check_bank(it)
    check_languages(it)
    it.sign_in("ben")
    check_outage(it)
    check_print(it)
