"""Chromium and Firefox, driven with Python's standard library: the one by chromedriver, the other by its own port."""
import base64
import json
import pathlib
import shutil
import socket
import subprocess
import tempfile
import time
import urllib.request

ELEMENT = "element-6066-11e4-a52e-4f735466cecf"
LONGEST = 900  # seconds after which a browser is taken for one that hangs
TIMEOUTS = {"script": LONGEST * 1000, "pageLoad": LONGEST * 1000}
KEYS = {
    "Enter": "\ue007",
    "Tab": "\ue004",
    "ArrowDown": "\ue015",
    "ArrowUp": "\ue013",
    "ArrowRight": "\ue014",
    "ArrowLeft": "\ue012",
    "End": "\ue010",
    "Home": "\ue011",
    "Control": "\ue009",
    "Shift": "\ue008",
    "Escape": "\ue00c",
    "Backspace": "\ue003",
}


class Fault(Exception):
    """What the browser refused."""


class Late(Fault):
    """What did not come in the time that it was given."""


def free_port():
    with socket.socket() as one:
        one.bind(("127.0.0.1", 0))
        return one.getsockname()[1]


PROBED, MOST_TIMES = 0.02, 20


def slowness():
    """How many times as long as alone a piece of work takes on this machine now, from 1 to 20: what other programs take
    of the processors, seen by a little work of one's own."""
    begun, worked = time.monotonic(), time.process_time()
    while time.process_time() - worked < PROBED:
        pass
    return min(max((time.monotonic() - begun) / PROBED, 1), MOST_TIMES)


def wait_for(test, seconds, what):
    """What `test` gives as soon as that is something. On a machine that does other things the seconds are as many times
    as long as its work takes: a browser is several processes, each of which waits its turn, so twice that."""
    begun, most = time.monotonic(), seconds
    while True:
        value = test()
        if value:
            return value
        went = time.monotonic() - begun
        if went > most:
            slow = slowness()
            most = max(most, seconds * (2 * slow - 1))
            if went > most:
                raise Late(f"waited {went:.0f} s in vain for {what}, where {seconds} are given (work takes {slow:.1f} times as long)")
        time.sleep(0.05)


class Browser:
    """What both have in common. `command` sends one, by its name in both ways of driving."""

    def __init__(self):
        self.folder = pathlib.Path(tempfile.mkdtemp(prefix=f"page-{self.name}-"))
        self.process = None

    def open(self, address):
        self.command("go", {"url": address})

    def run(self, script, *args):
        """The value of a script's `return`."""
        return self.command("script", {"script": script, "args": list(args)})

    def wait(self, script, seconds=20, what=None):
        return wait_for(lambda: self.run(script), seconds, what or script)

    def element(self, selector):
        return self.command("find", {"using": "css selector", "value": selector})[ELEMENT]

    def click(self, selector):
        """Clicks on the middle of an element; where a notice lies over it, it is brought to the middle of the window first."""
        covered = "const at = arguments[0].getBoundingClientRect(), notice = document.getElementById('notice')?.getBoundingClientRect();"
        covered += "return notice && notice.height > 0 && at.bottom > notice.top && at.top < notice.bottom"
        element = {ELEMENT: self.element(selector)}
        if self.run(covered, element):
            self.run("arguments[0].scrollIntoView({ block: 'center' })", element)
        self.command("click", {"id": element[ELEMENT]})

    def press(self, *keys):
        """Presses keys one after the other; `Control+a` holds the first one."""
        actions = []
        for key in keys:
            parts = [KEYS.get(one, one) for one in (key.split("+") if len(key) > 1 and "+" in key[:-1] else [key])]
            actions += [{"type": "keyDown", "value": one} for one in parts]
            actions += [{"type": "keyUp", "value": one} for one in reversed(parts)]
        self.command("actions", {"actions": [{"type": "key", "id": "keys", "actions": actions}]})

    def type(self, text):
        self.press(*["Enter" if sign == "\n" else sign for sign in text])

    def screenshot(self, path):
        """Keeps a picture. A renderer that has had no turn for ten seconds is given up by chromedriver, and asked again here."""
        shot = wait_for(self.tried_shot, 60, "a picture")
        pathlib.Path(path).write_bytes(base64.b64decode(shot))

    def tried_shot(self):
        try:
            return self.command("shot", {})
        except Fault as fault:
            if "renderer" not in str(fault):
                raise
            return None

    def close(self):
        try:
            self.command("quit", {})
        except (Fault, OSError):
            pass
        if self.process:
            self.process.terminate()
            try:
                self.process.wait(10)
            except subprocess.TimeoutExpired:
                self.process.kill()
        shutil.rmtree(self.folder, ignore_errors=True)


class Chromium(Browser):
    """Chromium by chromedriver, over HTTP."""

    name = "chromium"
    PATHS = {
        "go": ("POST", "/url"),
        "script": ("POST", "/execute/sync"),
        "find": ("POST", "/element"),
        "actions": ("POST", "/actions"),
        "shot": ("GET", "/screenshot"),
        "quit": ("DELETE", ""),
    }

    def __init__(self, size=(1360, 900), dark=False):
        super().__init__()
        port = free_port()
        self.process = subprocess.Popen(
            ["chromedriver", f"--port={port}", "--silent"], stdout=subprocess.DEVNULL, stderr=subprocess.DEVNULL
        )
        self.address = f"http://127.0.0.1:{port}/session"
        arguments = [
            "--headless=new",
            "--no-sandbox",
            "--disable-gpu",
            f"--user-data-dir={self.folder}/profile",
            f"--window-size={size[0]},{size[1]}",
            "--force-device-scale-factor=1",
            "--disable-dev-shm-usage",
        ]
        options = {"args": arguments, "prefs": {"download.default_directory": str(self.folder)}}
        wanted = {"browserName": "chrome", "goog:chromeOptions": options, "goog:loggingPrefs": {"browser": "ALL"}, "timeouts": TIMEOUTS}
        body = {"capabilities": {"alwaysMatch": wanted}}
        made = wait_for(lambda: self.tried(body), 40, "chromedriver")
        self.address += f"/{made['sessionId']}"
        self.version = made["capabilities"]["browserVersion"]
        if dark:
            self.devtools("Emulation.setEmulatedMedia", features=[{"name": "prefers-color-scheme", "value": "dark"}])

    def tried(self, body):
        try:
            return self.ask("POST", "", body)
        except OSError:
            return None

    def ask(self, method, path, body=None):
        data = json.dumps(body).encode() if method == "POST" else None
        asked = urllib.request.Request(self.address + path, data, {"Content-Type": "application/json"}, method=method)
        try:
            with urllib.request.urlopen(asked, timeout=LONGEST) as answer:
                return json.load(answer)["value"]
        except urllib.error.HTTPError as fault:
            raise Fault(json.load(fault)["value"]["message"]) from None

    def command(self, name, body):
        if name == "click":
            return self.ask("POST", f"/element/{body['id']}/click", {})
        method, path = self.PATHS[name]
        return self.ask(method, path, body)

    def devtools(self, command, **params):
        return self.ask("POST", "/goog/cdp/execute", {"cmd": command, "params": params})

    def resize(self, wide, high):
        self.devtools("Emulation.setDeviceMetricsOverride", width=wide, height=high, deviceScaleFactor=1, mobile=False)

    def dark(self, is_dark):
        value = "dark" if is_dark else "light"
        self.devtools("Emulation.setEmulatedMedia", features=[{"name": "prefers-color-scheme", "value": value}])

    def complaints(self):
        """What the console has of errors and warnings since it was asked last."""
        return [one["message"] for one in self.ask("POST", "/se/log", {"type": "browser"}) if one["level"] != "INFO"]


class Firefox(Browser):
    """Firefox by its own port for tests (Marionette): texts of JSON, each after its length."""

    name = "firefox"
    NAMES = {
        "go": "WebDriver:Navigate",
        "script": "WebDriver:ExecuteScript",
        "find": "WebDriver:FindElement",
        "click": "WebDriver:ElementClick",
        "actions": "WebDriver:PerformActions",
        "shot": "WebDriver:TakeScreenshot",
        "quit": "Marionette:Quit",
    }

    def __init__(self, size=(1360, 900), dark=False):
        super().__init__()
        port, self.count = free_port(), 0
        profile = self.folder / "profile"
        profile.mkdir()
        settings = {
            "marionette.port": port,
            "browser.download.folderList": 2,
            "browser.download.dir": str(self.folder),
            "browser.shell.checkDefaultBrowser": False,
            "datareporting.policy.dataSubmissionEnabled": False,
            "browser.download.useDownloadDir": True,
            "ui.systemUsesDarkTheme": int(dark),
            "app.update.enabled": False,
            "layout.css.prefers-color-scheme.content-override": 0 if dark else 1,
            "network.captive-portal-service.enabled": False,
            "browser.download.always_ask_before_handling_new_types": False,
            "browser.aboutwelcome.enabled": False,
            # Else leaving a page cuts off its scripts, which the console tells as a fault of the page.
            "dom.ipc.cancel_content_js_when_navigating": False,
            # On a busy machine a script may take longer than a person would be asked to wait.
            "dom.max_script_run_time": 0,
        }
        lines = [f"user_pref({json.dumps(name)}, {json.dumps(value)});" for name, value in settings.items()]
        (profile / "user.js").write_text("\n".join(lines) + "\n")
        words = ["firefox-esr", "--headless", "--marionette", "--remote-allow-system-access", "--no-remote", "--profile", str(profile)]
        words += ["--width", str(size[0]), "--height", str(size[1])]
        self.process = subprocess.Popen(words, stdout=subprocess.DEVNULL, stderr=subprocess.DEVNULL)
        self.line = wait_for(lambda: self.tried(port), 60, "firefox")
        self.read()
        made = self.ask("WebDriver:NewSession", {"capabilities": {"alwaysMatch": {"acceptInsecureCerts": False, "timeouts": TIMEOUTS}}})
        self.version = made["capabilities"]["browserVersion"]
        self.resize(*size)

    @staticmethod
    def tried(port):
        try:
            return socket.create_connection(("127.0.0.1", port), timeout=LONGEST)
        except OSError:
            return None

    def read(self):
        length = b""
        while not length.endswith(b":"):
            one = self.line.recv(1)
            if not one:
                raise Fault("firefox has gone")
            length += one
        left, text = int(length[:-1]), b""
        while left > len(text):
            text += self.line.recv(left - len(text))
        return json.loads(text)

    def ask(self, name, body):
        self.count += 1
        text = json.dumps([0, self.count, name, body]).encode()
        self.line.sendall(b"%d:%s" % (len(text), text))
        _, _, fault, value = self.read()
        if fault:
            raise Fault(fault.get("message"))
        return value

    def command(self, name, body):
        if name == "shot":
            body = {"full": False}
        if name == "script":
            body = {**body, "newSandbox": False}
        value = self.ask(self.NAMES[name], body)
        return value["value"] if isinstance(value, dict) and set(value) == {"value"} else value

    def resize(self, wide, high):
        script = "return [innerWidth - outerWidth, innerHeight - outerHeight]"
        more_wide, more_high = self.run(script)
        self.ask("WebDriver:SetWindowRect", {"width": wide - more_wide, "height": high - more_high})

    def chrome(self, script):
        self.ask("Marionette:SetContext", {"value": "chrome"})
        try:
            return self.run(script)
        finally:
            self.ask("Marionette:SetContext", {"value": "content"})

    def dark(self, is_dark):
        value = 0 if is_dark else 1
        self.chrome(f"Services.prefs.setIntPref('layout.css.prefers-color-scheme.content-override', {value})")

    def complaints(self):
        found = self.chrome(
            "const all = Services.console.getMessageArray().map((m) => { try { const e ="
            " m.QueryInterface(Ci.nsIScriptError);"
            " return e.sourceName + ': ' + e.errorMessage + ' [' + e.category + ']'; } catch (x) { return ''; } });"
            " Services.console.reset(); return all;"
        )
        # Advice about scrolling is none of a fault: the editor's library keeps its numbers of lines in place by it. Nor is it
        # one that a script of a page that is left is cut off, as happens on a busy machine whatever is set.
        found = [one for one in found if not one.endswith("[Async Pan/Zoom]") and "Script terminated by timeout" not in one]
        return [one for one in found if one.startswith(("file:", "blob:", "http:"))]


BROWSERS = {"chromium": (Chromium, "chromedriver"), "firefox": (Firefox, "firefox-esr")}
