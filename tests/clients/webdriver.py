"""Drives a headless Chromium by WebDriver (W3C), with Python's standard library alone."""

import base64
import json
import os
import re
import select
import shutil
import subprocess
import time
import urllib.error
import urllib.request

from programs import Unable, Wrong

ELEMENT = "element-6066-11e4-a52e-4f735466cecf"
PATIENCE = 30
DRIVER = shutil.which("chromedriver")
CHROMIUM = shutil.which("chromium") or shutil.which("chromium-browser")
SWITCHES = [
    "--headless=new", "--no-first-run", "--disable-gpu", "--disable-dev-shm-usage",
    "--disable-extensions", "--disable-background-networking", "--no-proxy-server",
    "--force-device-scale-factor=1", "--disable-lcd-text", "--hide-scrollbars", "--lang=en",
    "--window-size=1280,900",
]
OPENER = urllib.request.build_opener(urllib.request.ProxyHandler({}))

# waits in the page until a condition gives something, and gives that; null where it never does
WAITING = """
const done = arguments[arguments.length - 1], words = [...arguments].slice(0, -1);
const condition = function () { %s };
const end = performance.now() + %d;
(function look() {
  const value = condition.apply(null, words);
  if (value || performance.now() > end) done(value || null);
  else setTimeout(look, 10);
})();
"""


# faults of a page; all others are the browser's
FAULTS_OF_PAGE = [
    "no such element", "element not interactable", "element click intercepted",
    "stale element reference", "invalid element state", "javascript error",
    "unexpected alert open",
]


def capabilities(room):
    """The session that is asked for."""
    root = ["--no-sandbox"] if os.geteuid() == 0 else []
    profile = "--user-data-dir=" + os.path.join(room, "profile")
    return {"capabilities": {"alwaysMatch": {
        "browserName": "chrome",
        "goog:chromeOptions": {"binary": CHROMIUM, "args": [*SWITCHES, *root, profile]},
        "goog:loggingPrefs": {"browser": "ALL"},
        "timeouts": {"script": 1000 * (PATIENCE + 10), "pageLoad": 1000 * PATIENCE},
    }}}


class Browser:
    """One window of one Chromium."""

    def __init__(self, room):
        os.makedirs(room)
        words = [DRIVER, "--port=0", "--log-path=" + os.path.join(room, "chromedriver.log")]
        self.driver = subprocess.Popen(
            words, stdin=subprocess.DEVNULL, stdout=subprocess.PIPE, stderr=subprocess.DEVNULL,
            env=dict(os.environ, HOME=room),
        )
        try:
            self.at = f"http://127.0.0.1:{self.port()}/session"
            self.at += "/" + self.call("POST", "", capabilities(room))["sessionId"]
        except (Unable, OSError):
            self.stop()
            raise

    def port(self):
        """The port that the driver says it listens on."""
        end, told = time.monotonic() + PATIENCE, b""
        while select.select([self.driver.stdout], [], [], max(0, end - time.monotonic()))[0]:
            piece = os.read(self.driver.stdout.fileno(), 4096)
            told += piece
            port = re.search(rb"started successfully on port (\d+)\.", told)
            if port:
                return int(port[1])
            if not piece:
                break
        raise Unable("chromedriver doesn't start")

    def stop(self):
        """Ends the browser and its driver."""
        if self.at_session():
            try:
                self.call("DELETE", "")
            except (Unable, OSError):
                pass
        self.driver.terminate()
        try:
            self.driver.wait(timeout=PATIENCE)
        except subprocess.TimeoutExpired:
            self.driver.kill()
            self.driver.wait()
        self.driver.stdout.close()

    def at_session(self):
        return getattr(self, "at", "").count("/") > 3

    def call(self, method, path, body=None):
        """One command of WebDriver, and its value."""
        data = None if body is None else json.dumps(body).encode()
        request = urllib.request.Request(self.at + path, data, method=method)
        request.add_header("Content-Type", "application/json")
        try:
            with OPENER.open(request, timeout=PATIENCE + 30) as answer:
                return json.load(answer)["value"]
        except ValueError:
            raise Unable("chromedriver answers what can't be read") from None
        except urllib.error.HTTPError as fault:
            told = json.load(fault)["value"]
            kind = Wrong if told["error"] in FAULTS_OF_PAGE else Unable
            raise kind(f"{told['error']}: {told['message'].splitlines()[0]}") from None

    # ---- what a person does

    def open(self, address):
        self.call("POST", "/url", {"url": address})

    def find(self, css):
        """The element that a selector names."""
        found = self.call("POST", "/element", {"using": "css selector", "value": css})
        return "/element/" + found[ELEMENT]

    def click(self, css):
        self.call("POST", self.find(css) + "/click", {})

    def type(self, css, text):
        """Types into a field that was emptied before."""
        element = self.find(css)
        self.run("document.querySelector(arguments[0]).value = ''", css)
        self.call("POST", element + "/value", {"text": text})

    def choose(self, css, path):
        """Chooses a file."""
        self.call("POST", self.find(css) + "/value", {"text": path})

    def press(self, *keys):
        """Presses keys, one after another, where the focus is."""
        strokes = [{"type": kind, "value": key} for key in keys for kind in ("keyDown", "keyUp")]
        self.call("POST", "/actions", {"actions": [{"type": "key", "id": "k", "actions": strokes}]})

    def point(self, css):
        """Moves the mouse onto an element."""
        found = self.call("POST", "/element", {"using": "css selector", "value": css})
        move = {"type": "pointerMove", "duration": 0, "origin": found, "x": 0, "y": 0}
        self.call("POST", "/actions", {"actions": [
            {"type": "pointer", "id": "mouse", "parameters": {"pointerType": "mouse"},
             "actions": [move]},
        ]})

    # ---- what is asked of the page

    def run(self, script, *words):
        return self.call("POST", "/execute/sync", {"script": script, "args": list(words)})

    def wait(self, what, condition, *words):
        """What a condition on the page gives, once it gives something."""
        script = WAITING % (condition, 1000 * PATIENCE)
        value = self.call("POST", "/execute/async", {"script": script, "args": list(words)})
        if value is None:
            raise Wrong(f"{what}: not within {PATIENCE} s")
        return value

    def devtools(self, command, **parameters):
        """A command of Chromium's own protocol."""
        body = {"cmd": command, "params": parameters}
        return self.call("POST", "/goog/cdp/execute", body)

    def not_installable(self):
        """What is wrong with the manifest of the page, or hinders its installation."""
        found = self.devtools("Page.getAppManifest")["errors"]
        return found + self.devtools("Page.getInstallabilityErrors")["installabilityErrors"]

    def complaints(self):
        """What the browser says of the page in its console."""
        entries = self.call("POST", "/se/log", {"type": "browser"})
        return [entry["message"] for entry in entries]

    def resize(self, width, height):
        self.devtools("Emulation.setDeviceMetricsOverride", width=width, height=height,
                      deviceScaleFactor=1, mobile=False)

    def darken(self, scheme):
        """Asks for a light or a dark page."""
        features = [{"name": "prefers-color-scheme", "value": scheme}]
        self.devtools("Emulation.setEmulatedMedia", media="", features=features)

    def picture(self):
        """The window as a PNG."""
        return base64.b64decode(self.call("GET", "/screenshot"))

    def saving(self, folder):
        """Lets the page save files, and returns the folder that they go to."""
        self.devtools("Browser.setDownloadBehavior", behavior="allow", downloadPath=folder)
        return folder

    def sheets(self):
        """How many sheets the page has on paper."""
        return self.printed().count(b"/Type /Page\n")

    def printed(self):
        """The page on paper, as a PDF."""
        sheets = self.devtools("Page.printToPDF", preferCSSPageSize=True, printBackground=True)
        return base64.b64decode(sheets["data"])


def browser_in(room, tries=3):
    """A browser with its files in a folder. A driver may find that another program has just taken
    the port that it chose, so it is started more than once."""
    for attempt in range(1, tries + 1):
        try:
            return Browser(os.path.join(room, f"browser-{attempt}"))
        except Unable:
            if attempt == tries:
                raise
