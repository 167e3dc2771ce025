"""Accessibility: the criteria of WCAG 2.2 AA that a script can check, and operation by keyboard."""
from harness import check
from page_browser import NARROW, PHONE, WIDE
import scenario

VIEWS = [("nora", "#/start?role=notary"), ("nora", "#/do/transfer/unit-9?role=notary"),
    ("office", "#/units/9?role=stateAdministrator"),
         ("office", "#/mutations/{pending}?role=stateAdministrator"), ("anna", "#/parcels?role=citizen"),
             ("bank.clerk", "#/start?role=bank"),
         ("ben", "#/units/9?role=citizen&at=1000"), ("office", "#/parties/7?role=stateAdministrator"),
             ("office", "#/map?role=stateAdministrator"),
         ("office", "#/do/register?role=stateAdministrator"),
             ("office", "#/do/group?role=stateAdministrator"),
         ("sam", "#/do/subdivision/parcel-24?role=certifiedSurveyor"),
             ("sam", "#/do/merger?role=certifiedSurveyor"),
         ("office", "#/start?role=stateAdministrator")]
CHECKS = ["contrast", "names", "order", "targets", "reflow", "spacing"]


def faults(it, names, pending, views=None):
    """Runs checks of page_checks.js on views. Those of narrow screens come last, as they change the style."""
    found = []
    narrow = [name for name in names if name in ("reflow", "spacing")]
    wide = [name for name in names if name not in narrow]
    for user, place in views or VIEWS:
        it.sign_in(user)
        for width, group in ((WIDE, wide), (NARROW if it.name == "Chromium" else PHONE, narrow)):
            if group:
                it.resize(width)
                it.go(place.format(pending=pending))
            found += [f"{place} {name}: {fault}" for name in group for fault in it.run_check(name)]
    it.resize(WIDE)
    return found


def header_faults(it, widths=(PHONE, 768, 1024, 1280, 1440)):
    """The header at each width, in both languages; on a phone also with its menu open."""
    it.sign_in("office")
    found = []
    for language in ("de", "en"):
        it.go("#/start?role=stateAdministrator")
        it.js("const e = document.getElementById('language'); e.value = arguments[0]; e.dispatchEvent(new Event('change'))", language)
        it.settle(lambda: it.js("return document.documentElement.lang") == language)
        for width in widths:
            it.resize(width)
            found += [f"{language} {width}: {one}" for one in it.run_check("header")]
            if len(widths) > 1:
                it.picture(f"header-{language}-{width}", width, 400)
        it.resize(PHONE)
        it.js("document.getElementById('menu').click()")
        found += [f"{language}, menu: {one}" for one in it.run_check("header")]
        it.resize(WIDE)
    return found


# Roles of controls, images and containers that need a name.
NAMED = {"button", "link", "textbox", "searchbox", "combobox", "listbox", "option", "checkbox", "radio", "slider", "spinbutton",
    "DateTime", "DisclosureTriangle", "application", "image", "graphics-symbol", "table", "columnheader", "dialog", "navigation",
    "heading", "region"}
# Roles that may have the focus without a name: the page, its content, and a dialog's or a field's parts.
UNNAMED = {"RootWebArea", "main", "MenuListPopup"}


def tree_faults(it, place):
    """What a screen reader gets: each control has a role and a name, headings are in order, the page has its landmarks."""
    nodes = {node["nodeId"]: node for node in it.tree()}
    shown = [node for node in nodes.values() if not node["ignored"]]

    def role(node):
        return node["role"]["value"]

    def name(node):
        return str(node.get("name", {}).get("value", "")).strip()

    def value(node, key):
        return next((it["value"].get("value") for it in node.get("properties", ()) if it["name"] == key), None)
    found = [f"{role(node)} without a name" for node in shown if role(node) in NAMED and not name(node)]
    found += [f"focus on {role(node)} {name(node)!r}" for node in shown if value(node, "focusable")
              and role(node) not in NAMED | UNNAMED and not name(node)]

    def walk(node):
        yield node
        for one in node.get("childIds", ()):
            if one in nodes:
                yield from walk(nodes[one])
    root = next(node for node in nodes.values() if "parentId" not in node)
    levels = [value(node, "level") for node in walk(root) if not node["ignored"] and role(node) == "heading"]
    if levels[:1] != [1] or levels.count(1) != 1 or any(after > before + 1 for before, after in zip(levels, levels[1:])):
        found.append(f"headings {levels}")
    roles = [role(node) for node in shown]
    found += [f"not one {one}" for one in ("banner", "search", "main", "contentinfo") if roles.count(one) != 1]
    found += [] if "navigation" in roles else ["no navigation"]
    return [f"{place}: {one}" for one in sorted(set(found))]


def live_texts(it):
    """Returns the text of each live region by its element. An alert is announced when it appears, a status only if it changes."""
    nodes = {node["nodeId"]: node for node in it.tree()}

    def text(node):
        own = node.get("name", {}).get("value", "") if node["role"]["value"] == "StaticText" else ""
        return own + " ".join(text(nodes[one]) for one in node.get("childIds", ()) if one in nodes)
    return {(node["backendDOMNodeId"], node["role"]["value"]): text(node).replace("\u00a0", " ") for node in nodes.values()
        if node.get("role", {}).get("value") in ("status", "alert")}


def is_announced(it, act, words, seconds=15, before=None):
    """Does something and returns whether a screen reader announces these words."""
    before = before or live_texts(it)
    act()

    def heard():
        return any(words in text and (key in before and before[key] != text or key[1] == "alert")
                   for key, text in live_texts(it).items())
    return it.until(heard, seconds)


def announcement_faults(it):
    """Results and errors that a screen reader must announce."""
    act = scenario.act_sender(it.stack.queue_connection())
    wait = act((5, "notary"), "transfer", {"reference": "HEARD", "document": "Deed 5", "unit": 9, "right": 21, "receiver": 2,
        "share": "1/3"})["number"]
    it.sign_in("office")
    it.go("#/start?role=stateAdministrator")
    cases = [("the view", lambda: it.button("Units", "#tabs"), "Units")]

    def searched():
        it.js("document.getElementById('search').focus()")
        it.type("orchard")
    cases.append(("the results of a search", searched, "1 result"))
    found = [name for name, do, words in cases if not is_announced(it, do, words)]
    it.go("#/start?role=stateAdministrator")
    it.settle(lambda: it.has("waiting."))
    if not is_announced(it, lambda: it.js("const e = document.querySelector('main input[type=search]'); e.value = 'no such';"
                                          "e.dispatchEvent(new Event('input'));"), "0 of "):
        found.append("a filter of a work list")
    it.go("#/do/enrol?role=stateAdministrator")
    if not is_announced(it, it.send_form, "1 field needs a correction"):
        found.append("a field that is wrong")
    it.fill("name", "Heard")
    if not is_announced(it, it.send_form, "Enrolled"):
        found.append("an act that was done")
    it.go("#/do/grant/party-3?role=stateAdministrator")
    it.settle(lambda: it.count("select[name=role] option") > 1)
    it.fill("role", "notary")
    act((1, "stateAdministrator"), "grant", {"party": 3, "role": "notary"})
    if not is_announced(it, it.send_form, "refusal 215"):
        found.append("a refusal")
    it.go(f"#/mutations/{wait}?role=stateAdministrator")
    before = live_texts(it)         # while a dialog is open, the tree has nothing else
    it.button("Refuse")
    it.until(lambda: it.count("dialog[open]"))
    found += tree_faults_of_dialog(it)
    if not is_announced(it, lambda: it.button("Yes", "dialog"), "Refused", before=before):
        found.append("a decision")
    it.go("#/units/9?role=stateAdministrator")
    if not is_announced(it, lambda: it.button("Show history"), "changed at these", 60):
        found.append("a history")
    it.button("Compare two moments")
    if not is_announced(it, lambda: it.button("Compare"), "difference"):
        found.append("a comparison")
    it.go("#/units?role=citizen")
    if not any(key[1] == "alert" and "rule 2" in text for key, text in live_texts(it).items()):
        found.append("a denial")
    return found


def tree_faults_of_dialog(it):
    """An open dialog has a role and a name, and the focus."""
    found = [node for node in it.tree() if not node["ignored"] and node["role"]["value"] in ("dialog", "alertdialog")]
    named = found and found[0].get("name", {}).get("value", "").strip()
    return [] if named and it.js("return document.activeElement.closest('dialog') !== null") else ["a dialog without name or focus"]


def tab_order_faults(it, place):
    """Tabs through a view: every control must be reached, in document order, with a visible focus indicator."""
    it.go(place)
    count = it.js("""const kinds = "a[href],button,input,select,textarea,summary,canvas[tabindex],pre[tabindex]";
        const all = [...document.querySelectorAll(kinds)];
        const controls = all.filter((e) => !e.disabled && e.checkVisibility() && e.getClientRects().length > 0);
        controls.forEach((e, n) => e.setAttribute("data-order", n));
        return controls.length;""")
    found, reached = [], []
    look = it.checks + "\nreturn [document.activeElement.getAttribute('data-order'), focused()];"
    for _ in range(3 * count + 20):      # scrollable elements and the parts of a date picker may also get the focus
        it.press("Tab")
        index, seen = it.js(look)
        if index is not None and int(index) not in reached:
            reached.append(int(index))
        found += seen
        if len(reached) == count:
            break
    return sorted(set(found)) + ([] if count > 20 and reached == list(range(count))
        else [f"{place}: {count} controls, reached {reached}"])


def focus_faults(it, pending):
    """The tab order of three views."""
    it.sign_in("office")
    places = (f"#/mutations/{pending}", "#/units/9", "#/do/register")
    return [fault for place in places for fault in tab_order_faults(it, place + "?role=stateAdministrator")]


def key_faults(it, pending):
    """The page must be operable by keyboard: skip link, focus after navigation, search, dialogs, role."""
    it.sign_in("office")
    found = []
    it.go("#/start?role=stateAdministrator")
    it.press("Tab", "Enter")
    if it.js("return document.activeElement.id") != "main":
        found.append("the skip link leads to " + it.js("return document.activeElement.outerHTML.slice(0, 60)"))
    it.js("[...document.querySelectorAll('#tabs a')].find((a) => a.textContent === 'Units').focus()")
    it.press("Enter")
    it.settle(lambda: it.has("Units 1 to"))
    if it.js("return document.activeElement.id") != "main" or it.js("return document.title") != "Units - Land register":
        found.append("after navigation the focus or the title is wrong")
    it.js("document.getElementById('search').focus()")
    it.type("orchard")
    it.settle(lambda: it.count("#search-form [role=option]"))
    it.press("Down", "Enter")
    if not it.settle(lambda: it.has("Orchard") and it.js("return document.activeElement.id") == "main"):
        found.append("the search is not operable by keyboard: " + it.text()[:200])
    it.go(f"#/mutations/{pending}?role=stateAdministrator")
    it.js("[...document.querySelectorAll('main button')].find((b) => b.innerText === 'Refuse').focus()")
    it.press("Enter")
    if not it.until(lambda: it.count("dialog[open]"),
        5) or not it.js("return document.activeElement.closest('dialog') !== null"):
        found.append("the dialog does not have the focus")
    it.press("Escape")
    if not it.until(lambda: not it.count("dialog"), 5) or "waiting" not in it.text():
        found.append("Escape does not close the dialog, or decides")
    it.resize(PHONE, 740)
    it.js("document.getElementById('menu').focus()")
    it.press("Enter")
    if not it.until(lambda: it.js("return document.getElementById('role').checkVisibility()"), 5):
        found.append("the menu of a narrow screen does not open by keyboard")
    it.resize(WIDE)
    it.js("const e = document.getElementById('role'); e.value = 'citizen'; e.dispatchEvent(new Event('change'))")
    if not it.settle(lambda: "role=citizen" in it.js("return location.href")):
        found.append("changing the role does not navigate")
    return found


def run(it, pending):
    found = faults(it, CHECKS, pending)
    for name in CHECKS:
        wrong = [one for one in found if f" {name}: " in one]
        check(f"{it.name}: accessibility: {name}, on {len(VIEWS)} views", not wrong, wrong)
    if it.name == "Chromium":
        found = []
        for user, place in VIEWS:
            it.sign_in(user)
            it.go(place.format(pending=pending))
            found += tree_faults(it, place)
        check(f"{it.name}: the accessibility tree of {len(VIEWS)} views", not found, found)
        found = announcement_faults(it)
        check(f"{it.name}: what a screen reader announces", not found, found)
    found = header_faults(it)
    check(f"{it.name}: the header at five widths, in two languages", not found, found)
    found = focus_faults(it, pending) + key_faults(it, pending)
    check(f"{it.name}: keyboard operation", not found, found)
