"""Browsers for the tests of the page: Chromium by its driver, Firefox by its own protocol (Marionette), since Debian has no driver for it.
Both have the same methods, so that a test runs in both."""
import base64
import contextlib
import json
import os
import shutil
import socket
import subprocess
import tempfile
import time

from harness import note
from stack import Missing, free_port

try:
    from selenium import webdriver
    from selenium.common.exceptions import WebDriverException
    from selenium.webdriver import ActionChains
    from selenium.webdriver.chrome.service import Service
    from selenium.webdriver.common.by import By
    from selenium.webdriver.common.keys import Keys
except ImportError:
    webdriver = Keys = By = None

HERE = os.path.dirname(os.path.abspath(__file__))
PICTURES = os.environ.get("PICTURES")
WIDE, NARROW, PHONE, DESK = 1280, 320, 360, 1440

# Keys by their names, as code points of WebDriver.
KEYS = {"Tab": "\ue004", "Enter": "\ue007", "Escape": "\ue00c", "Down": "\ue015", "Up": "\ue013",
    "Left": "\ue012", "Right": "\ue014",
        "Shift": "\ue008", "Control": "\ue009", "Space": " "}

# Finds the control of a field by its key (data-key, name or id), the last one if a form has several rows.
FIELD = """const all = [...document.querySelectorAll(`main [data-key="${arguments[0]}"]`)];
    const place = arguments[1] === null ? all[all.length - 1] : all[arguments[1]];
    const named = place && place.querySelector(`[name="${arguments[0]}"]`);
    return named || (place && place.querySelector('input:not([hidden]), select, textarea')) || place;"""


class Page:
    """What both browsers can do, written with `js`, `press` and `click_at`."""

    checks = open(os.path.join(HERE, "page_checks.js"), encoding="utf-8").read()

    def run_check(self, name):
        return self.js(self.checks + f"\nreturn {name}();")

    def until(self, holds, seconds=30):
        """Waits until a condition holds and returns whether it does. Ignores errors while a page unloads."""
        end = time.monotonic() + seconds
        while time.monotonic() < end:
            with contextlib.suppress(Exception):
                if holds():
                    return True
            time.sleep(0.05)
        return False

    def settle(self, holds=lambda: True, seconds=30):
        """Waits until the page has rendered its view and a condition holds."""
        busy = "const s = document.getElementById('status'), m = document.getElementById('main'); return !s || !m || " \
            "m.hasAttribute('aria-busy') || s.textContent === '' || ['Loading', 'Wird geladen'].includes(s.textContent)"
        return self.until(lambda: not self.js(busy) and holds(), seconds)

    def go(self, place):
        self.load("about:blank")
        self.load(self.root + place)
        self.settle()

    def count(self, selector):
        return self.js("return document.querySelectorAll(arguments[0]).length", selector)

    def text(self, selector="main"):
        return self.js("const e = document.querySelector(arguments[0]); return e ? e.innerText : ''",
            selector) or ""         # seen once in Firefox: None instead of a text

    def has(self, *words):
        """Returns whether the view contains these texts, with plain spaces."""
        text = self.text().replace("\u00a0", " ")
        return all(word in text for word in words)

    def click(self, selector, n=0):
        """Clicks the middle of an element, or of its first line, after scrolling to it."""
        self.js("document.querySelectorAll(arguments[0])[arguments[1]].scrollIntoView({block: 'center', inline: 'nearest'})", selector, n)
        x, y = self.js("const b = document.querySelectorAll(arguments[0])[arguments[1]].getClientRects()[0];"
                       "return [b.x + b.width / 2, b.y + b.height / 2]", selector, n)
        self.click_at(x, y)

    def button(self, text, where="main"):
        """Clicks the last visible button or link with a text. Returns whether there is one."""
        found = self.js("""const kinds = ['button', 'a', 'summary'].map((one) => arguments[1] + ' ' + one).join();
            const all = [...document.querySelectorAll(kinds)];
            const e = all.filter((one) => (one.innerText || '').trim() === arguments[0] && one.checkVisibility() && !one.disabled).pop();
            if (!e) return false;
            e.scrollIntoView({block: 'center'});
            document.querySelectorAll('[data-hit]').forEach((one) => one.removeAttribute('data-hit'));
            e.setAttribute('data-hit', '');
            return true;""", text, where)
        if found:
            self.click("[data-hit]")
        return found

    def has_button(self, text):
        return self.js("return [...document.querySelectorAll('main button')].some((one) => one.innerText.trim() === arguments[0] && "
                       "one.checkVisibility() && !one.disabled)", text)

    def moments(self):
        """Returns the moments of the history that is shown."""
        return self.js("return [...document.querySelectorAll('ol.history > li a[href*=\"at=\"]')]"
                       ".map((a) => Number(/at=(\\d+)/.exec(a.href)[1]))")

    # ---- forms

    def fill(self, key, value, row=None):
        """Fills a field of a form by its key: types a text, chooses an option, or sets a check box."""
        kind = self.js(f"const e = (function () {{ {FIELD} }}).apply(null, arguments); return e && (e.type || e.tagName)", key, row)
        if kind is None:
            raise SystemExit(f"no field {key}: {self.text()[:400]}")
        focus = f"const e = (function () {{ {FIELD} }}).apply(null, arguments); e.scrollIntoView({{block: 'center'}}); e.focus();"
        if kind == "select-one":
            self.js(focus + "const o = [...e.options].find((one) => one.value === arguments[2] || one.text.includes(arguments[2]));"
                    "e.value = o ? o.value : ''; e.dispatchEvent(new Event('input', {bubbles: true}));"
                    "e.dispatchEvent(new Event('change', {bubbles: true}));", key, row, value)
        elif kind == "checkbox":
            self.js(focus + "if (e.checked !== arguments[2]) e.click();", key, row, value)
        else:
            self.js(focus + "if (e.select) e.select();", key, row)
            self.js("const e = document.activeElement; e.value = ''; e.dispatchEvent(new Event('input', {bubbles: true}));")
            self.type(value)

    def pick(self, key, words, row=None):
        """Picks an object in a field by typing a part of its name and taking the first suggestion with the keyboard."""
        self.fill(key, words, row)
        shown = "const e = document.activeElement; const l = document.getElementById(e.getAttribute('aria-controls'));" \
            "return l && !l.hidden && l.querySelector('[role=option]') !== null"
        if not self.until(lambda: self.js(shown), 15):
            return False
        self.press("Down")
        self.press("Enter")
        return self.until(lambda: self.js("const f = document.activeElement.closest('.field'); return !f || "
                                          "f.querySelector('.picked').textContent !== ''"), 15)

    def send_form(self):
        """Presses the button that sends the form, and waits for the answer or for messages at fields."""
        self.js("document.querySelectorAll('.answer').forEach((e) => e.replaceChildren())")
        self.click("main form.form button.main")
        return self.until(lambda: self.js("return document.querySelector('.answer').childElementCount > 0 || "
                                          "[...document.querySelectorAll('.field-error')].some((e) => e.textContent)"), 30)

    def errors(self):
        """Returns the messages at fields."""
        return self.js("return [...document.querySelectorAll('.field-error')].map((e) => e.textContent).filter(Boolean)")

    def picture(self, name, width=WIDE, height=None):
        if PICTURES:
            self.resize(width)
            high = self.js("return document.documentElement.scrollHeight")
            self.resize(width, min(height or 2200, max(high, 300)))
            time.sleep(0.4)
            with open(os.path.join(PICTURES, name + ".png"), "wb") as sink:
                sink.write(self.screenshot())
            self.resize(WIDE)


class Chromium(Page):
    """Headless Chromium, signed in with an Authorization field."""

    name = "Chromium"

    def __init__(self, stack):
        self.stack, self.root = stack, f"https://127.0.0.1:{stack.gateway_port}/"
        # When each page was loaded: from, to, in seconds.
        self.loads = []
        options = webdriver.ChromeOptions()
        for word in ("--headless=new", "--no-sandbox", "--disable-gpu", "--disable-dev-shm-usage",
            "--lang=en-GB",
                     f"--window-size={WIDE},1000"):
            options.add_argument(word)
        options.set_capability("acceptInsecureCerts", True)
        options.set_capability("goog:loggingPrefs", {"browser": "ALL"})
        self.downloads = tempfile.mkdtemp(prefix="land-page-")
        options.add_experimental_option("prefs", {"download.default_directory": self.downloads,
            "intl.accept_languages": "en-GB"})
        self.driver = self.started(options)
        self.driver.set_page_load_timeout(120)
        self.driver.execute_cdp_cmd("Network.enable", {})
        self.driver.execute_cdp_cmd("Page.setDownloadBehavior", {"behavior": "allow", "downloadPath": self.downloads})
        self.driver.execute_cdp_cmd("Emulation.setTimezoneOverride", {"timezoneId": "Europe/Berlin"})

    @staticmethod
    def started(options, times=4):
        """Starts the browser. Retries, since on a busy host it may take longer than its driver waits."""
        for left in reversed(range(times)):
            try:
                return webdriver.Chrome(service=Service("/usr/bin/chromedriver"), options=options)
            except WebDriverException:
                if left == 0:
                    raise

    def sign_in(self, user):
        token = base64.b64encode(f"{user}:secret-{user}".encode()).decode()
        self.driver.execute_cdp_cmd("Network.setExtraHTTPHeaders",
            {"headers": {"Authorization": "Basic " + token}})

    def sign_in_by_password(self, user):
        """Signs in as a user does: the browser keeps the password for the site."""
        self.driver.execute_cdp_cmd("Network.setExtraHTTPHeaders", {"headers": {}})
        self.load(self.root.replace("//", f"//{user}:secret-{user}@"))
        self.load(self.root)

    def forget_files(self):
        """Clears the cache, since a file of the page was changed."""
        self.driver.execute_cdp_cmd("Network.clearBrowserCache", {})

    def load(self, url):
        began = time.time()
        self.driver.get(url)
        self.loads.append((began, time.time()))

    def js(self, text, *arguments):
        return self.driver.execute_script(text, *arguments)

    def found(self, selector):
        return self.driver.find_elements(By.CSS_SELECTOR, selector)

    def click_at(self, x, y):
        chain = ActionChains(self.driver, duration=0)
        chain.w3c_actions.pointer_action.move_to_location(round(x), round(y))
        chain.w3c_actions.pointer_action.click()
        chain.perform()

    def press(self, *keys):
        for key in keys:
            ActionChains(self.driver, duration=0).send_keys(KEYS.get(key, key)).perform()

    def type(self, text):
        ActionChains(self.driver, duration=0).send_keys(text).perform()

    def console_errors(self):
        """Returns the errors and warnings on the browser's console.

        Leaves out a request that failed with ERR_FAILED, which has no status, while a page was being loaded: the browser ends the requests
        of the page before it. At any other time such a request is an error.
        """
        return [it["message"] for it in self.driver.get_log("browser")
            if it["level"] in ("SEVERE", "WARNING") and
                not any(word in it["message"] for word in ("status of 4", "willReadFrequently")) and
                not ("net::ERR_FAILED" in it["message"] and self.was_loading(it["timestamp"] / 1000))]

    def was_loading(self, moment):
        """Returns whether a page was being loaded at that time, in seconds, give or take half a second."""
        return any(began - 0.5 <= moment <= ended + 0.5 for began, ended in self.loads)

    def resize(self, width, height=1000, mobile=False):
        self.driver.execute_cdp_cmd("Emulation.setDeviceMetricsOverride",
                                    {"width": width, "height": height, "deviceScaleFactor": 1,
                                        "mobile": mobile})

    def print_media(self, on):
        """Shows the page as on paper, or again as on a screen."""
        self.driver.execute_cdp_cmd("Emulation.setEmulatedMedia", {"media": "print" if on else ""})

    def swipe(self, x, y, distance):
        """Swipes with a finger, on a screen of a phone. Returns whether this browser can."""
        def touch(kind, *points):
            self.driver.execute_cdp_cmd("Input.dispatchTouchEvent",
                {"type": kind, "touchPoints": list(points)})
        self.driver.execute_cdp_cmd("Emulation.setTouchEmulationEnabled", {"enabled": True})
        touch("touchStart", {"x": x, "y": y})
        for n in range(1, 16):
            touch("touchMove", {"x": x, "y": y + distance * n / 15})
            time.sleep(0.02)
        touch("touchEnd")
        self.driver.execute_cdp_cmd("Emulation.setTouchEmulationEnabled", {"enabled": False})
        return True

    def touch(self, *fingers):
        """Moves one or more fingers over the page at the same time. Each one is a list of points (x, y)."""
        def send(kind, place):
            points = [] if place is None else [{"x": one[place][0], "y": one[place][1], "id": n} for n, one in enumerate(fingers)]
            self.driver.execute_cdp_cmd("Input.dispatchTouchEvent", {"type": kind, "touchPoints": points})
        self.driver.execute_cdp_cmd("Emulation.setTouchEmulationEnabled", {"enabled": True})
        send("touchStart", 0)
        for place in range(1, len(fingers[0])):
            send("touchMove", place)
            time.sleep(0.02)
        send("touchEnd", None)
        self.driver.execute_cdp_cmd("Emulation.setTouchEmulationEnabled", {"enabled": False})

    def tree(self):
        """Returns the accessibility tree: what a screen reader gets."""
        return self.driver.execute_cdp_cmd("Accessibility.getFullAXTree", {})["nodes"]

    def pdf(self):
        return base64.b64decode(self.driver.execute_cdp_cmd("Page.printToPDF",
            {"preferCSSPageSize": True})["data"])

    def screenshot(self):
        return self.driver.get_screenshot_as_png()

    def close(self):
        self.driver.quit()
        shutil.rmtree(self.downloads, ignore_errors=True)


class Firefox(Page):
    """Headless Firefox, driven by Marionette: a message is its length, a colon, and a list in JSON."""

    name = "Firefox"

    def __init__(self, stack):
        self.stack, self.root = stack, f"https://127.0.0.1:{stack.gateway_port}/"
        self.profile = tempfile.mkdtemp(prefix="land-firefox-")
        self.downloads = os.path.join(self.profile, "downloads")
        os.mkdir(self.downloads)
        port = free_port()
        settings = {"marionette.port": port, "network.http.phishy-userpass-length": 255,
                    "network.auth.confirmAuth.enabled": False,
                    "intl.accept_languages": "en-GB", "datareporting.policy.dataSubmissionEnabled": False,
                    "browser.shell.checkDefaultBrowser": False, "signon.rememberSignons": False,
                    "privacy.resistFingerprinting": False,
                    "browser.download.folderList": 2, "browser.download.useDownloadDir": True,
                    "browser.download.dir": self.downloads}
        with open(os.path.join(self.profile, "user.js"), "w", encoding="utf-8") as sink:
            sink.writelines(f"user_pref({json.dumps(key)}, {json.dumps(value)});\n" for key,
                value in settings.items())
        words = ["firefox-esr", "--headless", "--marionette", "--remote-allow-system-access", "--no-remote",
            "--profile", self.profile, "--width", str(WIDE), "--height",
                 "1100"]
        environment = {**os.environ, "HOME": self.profile, "TZ": "Europe/Berlin", "MOZ_HEADLESS": "1"}
        self.process = subprocess.Popen(words, stdout=subprocess.DEVNULL, stderr=subprocess.DEVNULL,
            env=environment, cwd=self.profile)
        self.link = self.connect(port)
        self.number = 0
        self.buffer = b""
        self.receive()
        self.command("WebDriver:NewSession", {"acceptInsecureCerts": True,
            "timeouts": {"script": 60000, "pageLoad": 120000, "implicit": 0}})
        self.user = None

    def connect(self, port, seconds=90):
        end = time.monotonic() + seconds
        while time.monotonic() < end:
            with contextlib.suppress(OSError):
                return socket.create_connection(("127.0.0.1", port), 120)
            if self.process.poll() is not None:
                raise SystemExit("Firefox has exited")
            time.sleep(0.1)
        raise SystemExit("Firefox does not start")

    def receive(self):
        """Returns the next message."""
        while b":" not in self.buffer:
            self.more()
        length, _, self.buffer = self.buffer.partition(b":")
        while len(self.buffer) < int(length):
            self.more()
        message, self.buffer = self.buffer[:int(length)], self.buffer[int(length):]
        return json.loads(message)

    def more(self):
        chunk = self.link.recv(1 << 16)
        if not chunk:
            raise SystemExit("Firefox has closed the connection")
        self.buffer += chunk

    def command(self, name, parameters=None):
        self.number += 1
        message = json.dumps([0, self.number, name, parameters or {}]).encode()
        self.link.sendall(b"%d:%s" % (len(message), message))
        while True:
            _, number, error, result = self.receive()
            if number == self.number:
                break
        if error:
            raise RuntimeError(f"{name}: {error.get('error')}: {error.get('message')}")
        return result.get("value", result) if isinstance(result, dict) else result

    def sign_in(self, user):
        """Signs in by a URL with a password. Firefox keeps it for the site; another one replaces it."""
        self.user = user
        with contextlib.suppress(RuntimeError):
            self.command("WebDriver:Navigate", {"url": self.root.replace("//",
                f"//{user}:secret-{user}@") + "settings.js"})

    def sign_in_by_password(self, user):
        self.sign_in(user)
        self.load(self.root)

    def forget_files(self):
        self.command("Marionette:SetContext", {"value": "chrome"})
        self.js("Services.cache2.clear()")
        self.command("Marionette:SetContext", {"value": "content"})

    def load(self, url):
        self.command("WebDriver:Navigate", {"url": url})

    def js(self, text, *arguments):
        return self.command("WebDriver:ExecuteScript", {"script": text, "args": list(arguments),
            "newSandbox": True, "sandbox": None})

    def actions(self, *sources):
        self.command("WebDriver:PerformActions", {"actions": list(sources)})

    def click_at(self, x, y):
        self.actions({"type": "pointer", "id": "mouse", "parameters": {"pointerType": "mouse"}, "actions": [
            {"type": "pointerMove", "x": round(x), "y": round(y), "duration": 0},
                {"type": "pointerDown", "button": 0},
            {"type": "pointerUp", "button": 0}]})

    def press(self, *keys):
        for key in keys:
            self.type(KEYS.get(key, key))

    def type(self, text):
        self.actions({"type": "key", "id": "keys", "actions": [
            {"type": kind, "value": one} for one in text for kind in ("keyDown", "keyUp")]})

    def console_errors(self):
        return []

    def resize(self, width, height=1000, mobile=False):
        # a window is at least 500 pixels wide: a narrower page is shown enlarged
        zoom = 1 if width >= 500 else 500 / width
        self.command("WebDriver:SetWindowRect", {"x": 0, "y": 0, "width": round(width * zoom),
            "height": round(height * zoom) + 90})
        self.command("Marionette:SetContext", {"value": "chrome"})
        self.js("gBrowser.selectedBrowser.fullZoom = arguments[0]", zoom)
        self.command("Marionette:SetContext", {"value": "content"})

    def print_media(self, on):
        """Shows the page with the style of paper, or again as on a screen: Firefox has no command for it."""
        self.js("document.querySelector('link[href=\"print.css\"]').media = arguments[0]", "all" if on
            else "print")

    def swipe(self, *_):
        return False        # events of a finger scroll nothing here

    def touch(self, *fingers):
        """Moves one or more fingers over the page at the same time. Each one is a list of points (x, y)."""
        def move(point):
            return {"type": "pointerMove", "x": round(point[0]), "y": round(point[1]), "duration": 20}
        self.actions(*({"type": "pointer", "id": f"finger{n}", "parameters": {"pointerType": "touch"}, "actions": [
            move(one[0]), {"type": "pointerDown", "button": 0}, *map(move, one[1:]), {"type": "pointerUp", "button": 0}]}
            for n, one in enumerate(fingers)))

    def pdf(self):
        return base64.b64decode(self.command("WebDriver:Print",
            {"background": False, "page": {"width": 21, "height": 29.7}}))

    def screenshot(self):
        return base64.b64decode(self.command("WebDriver:TakeScreenshot", {"full": False, "hash": False}))

    def close(self):
        with contextlib.suppress(Exception):
            self.link.close()
        self.process.terminate()
        try:
            self.process.wait(15)
        except subprocess.TimeoutExpired:
            self.process.kill()
            self.process.wait()
        shutil.rmtree(self.profile, ignore_errors=True)


def browsers():
    """Returns the browsers that are installed. Chromium is required; without Firefox the tests say so."""
    if webdriver is None:
        raise Missing("python3-selenium")
    if shutil.which("firefox-esr") is None:
        note("not tested in Firefox: firefox-esr is not installed")
        return [Chromium]
    wanted = os.environ.get("BROWSER", "").lower()
    return [one for one in (Chromium, Firefox) if wanted in one.name.lower()]
