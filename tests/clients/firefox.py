"""Drives a headless Firefox by Marionette, its own protocol, whose commands are those of WebDriver:
Debian has no driver for it. With Python's standard library alone.
"""

import base64
import json
import os
import re
import shutil
import socket
import subprocess
import time
import zlib

from programs import Unable, Wrong
from webdriver import ELEMENT, FAULTS_OF_PAGE, PATIENCE, Browser

FIREFOX = shutil.which("firefox-esr") or shutil.which("firefox")
# How long Firefox may take to start.
START = 60
SETTINGS = {
    "marionette.port": 0, "browser.download.folderList": 2,
    "browser.download.always_ask_before_handling_new_types": False,
    "browser.download.alwaysOpenPanel": False, "browser.shell.checkDefaultBrowser": False,
    "datareporting.policy.dataSubmissionEnabled": False, "app.update.enabled": False,
}
# A command of WebDriver over HTTP, and its name here.
NAMES = {
    "/url": "Navigate", "/element": "FindElement", "/click": "ElementClick",
    "/value": "ElementSendKeys", "/actions": "PerformActions", "/execute/sync": "ExecuteScript",
    "/execute/async": "ExecuteAsyncScript", "/screenshot": "TakeScreenshot", "/print": "Print",
}


class Firefox(Browser):
    """One window of one Firefox. What it saves is in the folder `saved` of the room."""

    def __init__(self, room):
        self.room, self.count = os.path.join(room, "firefox"), 0
        self.folder = os.path.join(self.room, "saved")
        profile = os.path.join(self.room, "profile")
        os.makedirs(profile)
        os.makedirs(self.folder)
        with open(os.path.join(profile, "user.js"), "w", encoding="ascii") as file:
            for name, value in {**SETTINGS, "browser.download.dir": self.folder}.items():
                file.write(f"user_pref({json.dumps(name)}, {json.dumps(value)});\n")
        words = [FIREFOX, "--headless", "--marionette", "--no-remote", "--profile", profile]
        # as with Chromium, pages are as wide as this
        size = {"MOZ_HEADLESS_WIDTH": "1280", "MOZ_HEADLESS_HEIGHT": "900"}
        quiet = {"stdin": subprocess.DEVNULL, "stdout": subprocess.DEVNULL, "stderr": subprocess.DEVNULL}
        self.process = subprocess.Popen(words, env={**os.environ, "HOME": self.room, **size}, **quiet)
        try:
            self.line = socket.create_connection(("127.0.0.1", self.port_in(profile)), timeout=PATIENCE + 30)
            self.reader = self.line.makefile("rb")
            self.packet()
            self.send("WebDriver:NewSession", capabilities={"alwaysMatch": {}})
            self.send("WebDriver:SetTimeouts", script=1000 * (PATIENCE + 10), pageLoad=1000 * PATIENCE)
        except (Unable, OSError):
            self.stop()
            raise

    def port_in(self, profile):
        """The port that Firefox writes into its profile."""
        end, path = time.monotonic() + START, os.path.join(profile, "MarionetteActivePort")
        while time.monotonic() < end and self.process.poll() is None:
            if os.path.exists(path) and os.path.getsize(path):
                with open(path, encoding="ascii") as file:
                    return int(file.read())
            time.sleep(0.05)
        raise Unable("firefox doesn't start")

    def packet(self):
        """The next message: its length, a colon, and JSON."""
        size = b""
        while not size.endswith(b":"):
            letter = self.reader.read(1)
            if not letter:
                raise Unable("firefox ended")
            size += letter
        return json.loads(self.reader.read(int(size[:-1])))

    def send(self, name, **parameters):
        """One command, and its value."""
        self.count += 1
        message = json.dumps([0, self.count, name, parameters]).encode()
        self.line.sendall(b"%d:%b" % (len(message), message))
        _, _, fault, value = self.packet()
        if fault:
            kind = Wrong if fault["error"] in FAULTS_OF_PAGE else Unable
            raise kind(f"{fault['error']}: {fault['message'].splitlines()[0]}")
        return value["value"] if isinstance(value, dict) and list(value) == ["value"] else value

    def call(self, method, path, body=None):
        """The command of a request of WebDriver."""
        of_element = re.fullmatch(r"/element/([^/]+)(/\w+)", path)
        name = NAMES[of_element[2] if of_element else path]
        more = {"id": of_element[1]} if of_element else {}
        if path == "/screenshot":
            more["full"] = False
        return self.send(f"WebDriver:{name}", **(body or {}), **more)

    def stop(self):
        """Ends Firefox."""
        try:
            if hasattr(self, "reader"):
                self.send("Marionette:Quit", flags=["eForceQuit"])
                self.line.close()
        except (Unable, Wrong, OSError):
            self.process.terminate()
        try:
            self.process.wait(timeout=PATIENCE)
        except subprocess.TimeoutExpired:
            self.process.kill()
            self.process.wait()

    def saving(self, folder):
        """The folder of what the page saves, which is always the same."""
        return self.folder

    def not_installable(self):
        """Firefox doesn't tell."""
        return []

    def sheets(self):
        """How many sheets the page has on paper. Objects of the PDF may be compressed."""
        paper = base64.b64decode(self.send("WebDriver:Print", background=True))
        whole = paper
        for stream in re.findall(rb"stream\r?\n(.*?)endstream", paper, re.DOTALL):
            try:
                whole += zlib.decompress(stream)
            except zlib.error:
                pass
        return len(re.findall(rb"/Type ?/Page\b(?!s)", whole))
