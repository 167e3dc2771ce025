"""Signing out, the warning before a session ends, and that neither the address bar nor the log has personal data."""
import time

from harness import check
from page_browser import PHONE
from page_views import changed


def signed_out(it):
    """Returns whether the browser has no password for the site any more."""
    try:
        it.load(it.root)
        return it.count("#main") == 0
    except RuntimeError as error:       # Firefox reports its prompt for a password as an error
        return "promptUserAndPass" in str(error)


def check_sign_out(it):
    it.sign_in_by_password("ben")
    check(f"{it.name}: signed in by a password", it.settle(lambda: it.has("Your land")), it.text()[:200])
    it.click("#sign-out")
    check(f"{it.name}: after signing out there is a page that says so",
        it.until(lambda: it.has("Signed out", "Sign in again"), 20), it.text()[:200])
    it.picture("signed-out", PHONE, 500)
    check(f"{it.name}: the browser has forgotten the password", signed_out(it), it.text()[:200])
    it.sign_in_by_password("office")
    check(f"{it.name}: another user can sign in", it.settle(lambda: it.has("The office")), it.text()[:200])


def check_idle(it):
    """Without activity the page warns, and then signs out; a form that is filled in is mentioned."""
    with changed(it.stack, "page/settings.js", "idleMinutes: 30,\n  warnMinutes: 2,",
        "idleMinutes: 0.2,\n  warnMinutes: 0.1,"):
        it.forget_files()
        it.sign_in_by_password("office")
        it.load("about:blank")
        it.load(it.root + "#/do/enrol?role=stateAdministrator")
        it.settle(lambda: it.count("input[name=name]"))
        it.fill("name", "Dora")
        began = time.monotonic()
        check(f"{it.name}: a warning before the session ends", it.until(lambda: it.count("dialog[open]"), 20),
            it.text()[:200])
        words = it.text("dialog")
        check(f"{it.name}: it warns that work would be lost", "not sent and would be lost" in words, words)
        it.button("Stay signed in", "dialog")
        check(f"{it.name}: the form is kept",
            it.js("return document.querySelector('input[name=name]').value") == "Dora")
        check(f"{it.name}: without an answer the page signs out", it.until(lambda: it.has("Signed out"), 40),
            it.text()[:200])
        check(f"{it.name}: not before its time", time.monotonic() - began > 6)
    it.forget_files()


def check_addresses(it, names):
    """Neither addresses nor the gateway's log have a text that was typed or a name of the register."""
    it.sign_in("office")
    it.go("#/start?role=stateAdministrator")
    it.js("document.getElementById('search').focus()")
    it.type(names[0])
    it.settle(lambda: it.count("#search-form [role=option]"))
    it.press("Down", "Enter")
    it.settle(lambda: it.has(names[0]))
    address = it.js("return location.href + JSON.stringify(Object.entries(localStorage)) + JSON.stringify(Object.entries(sessionStorage))")
    check(f"{it.name}: no name in the address bar or in storage", not any(name in address for name in names),
        address)
    log = it.stack.log_text("gateway.log")
    found = [line for line in log.splitlines() if any(name.lower() in line.split('"asked":')[1].lower()
        for name in names if '"asked":' in line)]
    check(f"{it.name}: no name in the log of requests", log and not found, found[:2])


def run(it, names):
    check_addresses(it, names)
    check_sign_out(it)
    check_idle(it)
