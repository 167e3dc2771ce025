"""Mutants of the page and of the gateway's configuration, each with the check that must fail."""
from harness import check, note
from page_views import changed, form_faults, frame_faults, text_faults
import page_access
import page_faults


def access(*names):
    return lambda it, odd, pending: page_access.faults(it, names, pending, page_access.VIEWS[1:4])


def focus(it, odd, pending):
    it.sign_in("office")
    return page_access.tab_order_faults(it, "#/units/9?role=stateAdministrator")


def keys(it, odd, pending):
    return page_access.key_faults(it, pending)


def texts(it, odd, pending):
    return text_faults(it, odd)


MUTANTS = [
    ("pale texts", "page/land.css", "--soft: #56635c", "--soft: #98a49d", access("contrast")),
    ("a field without a label", "page/index.html", '<label for="role" data-t="app.role">Role</label>', "",
        access("names")),
    ("no h1", "page/land.js", 'h("h1", {}, safeText(title))', 'h("p", {}, safeText(title))', access("order")),
    ("small buttons", "page/land.css", "button.icon { min-width: 2.2rem; }",
     "button.icon { min-width: 0; min-height: 0; padding: 0; margin: -3px; }", access("targets")),
    ("wide fields", "page/forms.css", ".field .combo { width: 100%;", ".field .combo { width: 40rem;",
        access("reflow")),
    ("a header that wraps", "page/land.css",
        ".bar {\n  display: grid; grid-template-columns: auto minmax(8rem, 1fr) minmax(0, auto) auto;",
        ".bar {\n  display: flex; flex-wrap: wrap;", lambda it, odd, pending: page_access.header_faults(it, (1280,))),
    ("no focus indicator", "page/land.css", "outline: 3px solid #ffbf47;", "outline: none;", focus),
    ("a weak focus indicator in plans", "page/land.css", "{ stroke: var(--ink); stroke-width: 5; }",
        "{ stroke: #f2a900; }", focus),
    ("no focus after navigation", "page/land.js", "if (moved) main.focus();", "", keys),
    ("a dialog without the focus", "page/dialogs.js", "node.showModal();", "node.show();", keys),
    ("names inserted as HTML", "page/dom.js", "document.createTextNode(String(one))",
     'Object.assign(document.createElement("span"), { innerHTML: String(one) })', texts),
    ("no escapes in texts", "page/dom.js", "text.matchAll(INVISIBLE)", "[]", texts),
    ("no escapes in titles and options", "page/dom.js", "text.replace(INVISIBLE, codePoint)", "text", texts),
    ("an incomplete list of invisible characters", "page/dom.js", "\\p{Default_Ignorable_Code_Point}\\u2800",
        "", texts),
    ("frames on all sites", "etc/page-headers.conf", "; frame-ancestors 'none'", "",
     lambda it, odd, pending: frame_faults(it)),
    ("a default role", "etc/callers.conf", '"" "";', '"" citizen;', lambda it, odd, pending: form_faults(it)),
]

# Mutants that bring back the faults of page_faults.py.
FAULTS = [
    ("a history for banks", "page/history.js", "if (!hasPast())", "if (false)",
     lambda it, data: page_faults.bank_history(it)),
    ("a history of fifty changes", "page/changes.js", "if (before === after) return;",
        "if (before === after || found.size > 50) return;",
     lambda it, data: page_faults.long_history(it, data["unit"], data["stamps"])),
    ("amounts in minor units", "page/sheet.js", 'return money(e.amount, e.currency);',
        'return e.currency + " " + e.amount;',
     lambda it, data: page_faults.printed_units(it)),
    ("a loan for each entry", "page/loans.js", "[e.party, e.source, e.currency, e.amount]", "[e.number]",
     lambda it, data: page_faults.loans_once(it)),
    ("the newest hundred mutations", "page/undecided.js", "(numbers || []).filter",
        "(numbers || []).slice(-100).filter",
     lambda it, data: page_faults.old_request(it, data["more"])),
    ("the view of before the decision", "page/objects.js", 'window.dispatchEvent(new Event("land-render"));',
        "",
     lambda it, data: page_faults.decided_view(it, data["more"])),
    ("always a citizen", "page/land.js", "ROLES.includes(role) ? role : firstRole()",
        'ROLES.includes(role) ? role : "citizen"',
     lambda it, data: page_faults.first_view(it)),
    ("drawings that hold a swipe", "page/land.css", "touch-action: pan-y", "touch-action: none",
     lambda it, data: page_faults.narrow_sheet(it)),
    ("a sheet of fixed width", "page/land.css",
        "ul.entries > li { grid-template-columns: minmax(0, 1fr) max-content; }",
     "ul.entries > li { grid-template-columns: 20rem 20rem; }", lambda it,
         data: page_faults.narrow_sheet(it)),
]


def killed(it, mutant, faults):
    name, file, old, new, _ = mutant
    with changed(it.stack, file, old, new):
        it.driver.execute_cdp_cmd("Network.clearBrowserCache", {})
        it.console_errors()
        check(f"mutant '{name}' is killed", faults())
        it.resize(1280)
        it.print_media(False)


def run(it, odd, pending):
    for name, faults in (("a frame on another site", frame_faults(it)),
        ("a form on another site", form_faults(it))):
        check(f"{it.name}: {name}", not faults, faults)
    for mutant in MUTANTS:
        killed(it, mutant, lambda mutant=mutant: mutant[4](it, odd, pending))
    note(f"{len(MUTANTS)} mutants of the page and the gateway")


def run_faults(it, data):
    data["more"] = page_faults.lodge_another(it.stack, data)
    for mutant in FAULTS:
        killed(it, mutant, lambda mutant=mutant: mutant[4](it, data))
    note(f"{len(FAULTS)} mutants of the faults")
