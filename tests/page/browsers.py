"""Chromium, Firefox and WebKit, driven over their own protocols: pages, keys, scripts and pictures.

All classes have the same methods. Keys go through the browser, as those of a user do. Chromium and Firefox have no
window, and the window of WebKit is on a screen that nobody sees.
"""
import base64
import glob
import http.client
import json
import os
import shutil
import socket
import subprocess
import tempfile
import time

SECONDS = 120
HANGS = 45  # seconds after which a browser without an answer is given up


class Failed(Exception):
    """A browser that doesn't answer, or a script that throws."""


def end(process):
    """Ends a process that this script started."""
    process.terminate()
    try:
        process.wait(10)
    except subprocess.TimeoutExpired:
        process.kill()
        process.wait()


class Browser:
    """What all have: a process, a folder for its profile, and an end."""

    def __init__(self, *words, surroundings=(), **how):
        self.folder = tempfile.mkdtemp(prefix="page-")
        words = [word.replace("FOLDER", self.folder) for word in words]
        home = {**os.environ, "HOME": self.folder, **dict(surroundings)}
        self.process = subprocess.Popen(words, env=home, stdin=subprocess.DEVNULL, stdout=subprocess.DEVNULL,
                                        stderr=subprocess.DEVNULL, **how)

    def __enter__(self):
        return self

    def __exit__(self, *_):
        end(self.process)
        shutil.rmtree(self.folder, ignore_errors=True)

    def press_all(self, *keys):
        for key in keys:
            self.press(key)

    def wait(self, condition, seconds=SECONDS):
        """Waits until an expression of JavaScript is true. A page that is being replaced may not answer yet."""
        end, error = time.monotonic() + seconds, None
        while time.monotonic() < end:
            try:
                if self.evaluate(condition):
                    return
            except Failed as failed:
                error = failed
            time.sleep(0.005)
        raise Failed(f"{condition} was not true within {seconds} seconds: {error}")


class Chromium(Browser):
    """Chromium over its pipe for debugging: texts of JSON, each of which ends in a byte 0."""

    KEYS = {"Tab": 9, "Enter": 13, "Escape": 27, " ": 32, "End": 35, "Home": 36, "ArrowLeft": 37, "ArrowUp": 38,
            "ArrowRight": 39, "ArrowDown": 40, "F8": 119, "F9": 120}

    def __init__(self):
        theirs, self.to = os.pipe()
        self.back, also_theirs = os.pipe()

        def place():
            # The protocol is on the descriptors 3 and 4.
            os.dup2(theirs, 3)
            os.dup2(also_theirs, 4)

        super().__init__("chromium", "--headless=new", "--no-sandbox", "--disable-gpu", "--disable-sync",
                         "--no-first-run", "--disable-background-networking", "--user-data-dir=FOLDER",
                         "--remote-debugging-pipe", "about:blank", preexec_fn=place, pass_fds=(3, 4))
        os.close(theirs)
        os.close(also_theirs)
        self.rest, self.number, self.session = b"", 0, None
        target = self.call("Target.createTarget", url="about:blank")["targetId"]
        self.session = self.call("Target.attachToTarget", targetId=target, flatten=True)["sessionId"]
        self.call("Page.enable")
        self.call("Page.bringToFront")

    def __exit__(self, *given):
        super().__exit__(*given)
        os.close(self.to)
        os.close(self.back)

    def call(self, method, **parameters):
        self.number += 1
        message = {"id": self.number, "method": method, "params": parameters}
        if self.session:
            message["sessionId"] = self.session
        text = json.dumps(message).encode() + b"\0"
        while text:
            text = text[os.write(self.to, text):]
        while True:
            answer = self.answer()
            if answer.get("id") == self.number:
                if "error" in answer:
                    raise Failed(f"{method}: {answer['error']}")
                return answer["result"]

    def answer(self):
        parts = [self.rest]
        while b"\0" not in parts[-1]:
            parts.append(os.read(self.back, 1 << 20))
            if not parts[-1]:
                raise Failed("chromium ended")
        text, _, self.rest = b"".join(parts).partition(b"\0")
        return json.loads(text)

    def open(self, address):
        self.call("Page.navigate", url=address)
        self.wait(f"document.readyState === 'complete' && location.href === {json.dumps(address)}")

    def evaluate(self, expression):
        found = self.call("Runtime.evaluate", expression=expression, awaitPromise=True, returnByValue=True)
        if "exceptionDetails" in found:
            raise Failed(f"{expression[:200]}: {found['exceptionDetails']}")
        return found["result"].get("value")

    def before_page(self, script):
        """Runs a script before those of each page from now on."""
        self.call("Page.addScriptToEvaluateOnNewDocument", source=script)

    def press(self, key, control=False, shift=False):
        code = self.KEYS.get(key) or ord(key.upper())
        text = {"Enter": "\r", " ": " "}.get(key, key if len(key) == 1 else "")
        named = {"key": key, "code": key if len(key) > 1 else "", "windowsVirtualKeyCode": code,
                 "modifiers": (2 if control else 0) + (8 if shift else 0)}
        self.call("Input.dispatchKeyEvent", type="keyDown", text="" if control and key != "Enter" else text, **named)
        self.call("Input.dispatchKeyEvent", type="keyUp", **named)

    def write(self, text):
        self.call("Input.insertText", text=text)

    def click(self, x, y):
        for kind in ("mousePressed", "mouseReleased"):
            self.call("Input.dispatchMouseEvent", type=kind, x=x, y=y, button="left", clickCount=1)

    def point(self, x, y):
        self.call("Input.dispatchMouseEvent", type="mouseMoved", x=x, y=y)

    def resize(self, width, height):
        self.call("Emulation.setDeviceMetricsOverride", width=width, height=height, deviceScaleFactor=1, mobile=False)

    def colours(self, scheme):
        self.call("Emulation.setEmulatedMedia", features=[{"name": "prefers-color-scheme", "value": scheme}])

    def picture(self, path):
        with open(path, "wb") as file:
            file.write(base64.b64decode(self.call("Page.captureScreenshot", format="png")["data"]))


class ByActions(Browser):
    """A browser whose keys and pointer are actions of WebDriver, which `perform` hands over."""

    KEYS = {"Tab": "\ue004", "Enter": "\ue007", "Escape": "\ue00c", "End": "\ue010", "Home": "\ue011",
            "ArrowLeft": "\ue012", "ArrowUp": "\ue013", "ArrowRight": "\ue014", "ArrowDown": "\ue015", "F8": "\ue038", "F9": "\ue039"}
    CONTROL, SHIFT = "\ue009", "\ue008"
    # The script answers by the last of its arguments.
    SCRIPT = "Promise.resolve({}).then(arguments[0], (error) => arguments[0](String(error)))"

    def perform(self, source):
        raise NotImplementedError

    def actions(self, *steps):
        self.perform({"type": "key", "id": "keys", "actions": list(steps)})

    def point(self, x, y):
        """Moves the pointer to a place of the window."""
        self.perform({"type": "pointer", "id": "mouse", "parameters": {"pointerType": "mouse"},
                      "actions": [{"type": "pointerMove", "duration": 0, "x": round(x), "y": round(y)}]})

    def press(self, key, control=False, shift=False):
        values = [self.KEYS.get(key, key), *([self.CONTROL] if control else []), *([self.SHIFT] if shift else [])]
        self.actions(*[{"type": "keyDown", "value": value} for value in reversed(values)],
                     *[{"type": "keyUp", "value": value} for value in values])

    def write(self, text):
        self.actions(*[{"type": kind, "value": self.KEYS["Enter"] if letter == "\n" else letter}
                       for letter in text for kind in ("keyDown", "keyUp")])


class Firefox(ByActions):
    """Firefox over Marionette: a socket with texts of JSON behind their lengths."""

    def __init__(self):
        super().__init__("firefox-esr", "--headless", "--marionette", "--remote-allow-system-access", "--no-remote",
                         "--profile", "FOLDER")
        with open(f"{self.folder}/user.js", "w", encoding="ascii") as file:
            file.write('user_pref("marionette.port", 0);\nuser_pref("browser.startup.page", 0);\n')
        self.socket, self.number, self.rest = self.connect(), 0, b""
        self.answer()
        self.call("WebDriver:NewSession", capabilities={})
        self.call("WebDriver:SetTimeouts", script=10_000, pageLoad=30_000)

    def __exit__(self, *given):
        super().__exit__(*given)
        self.socket.close()

    def connect(self):
        end, path = time.monotonic() + SECONDS, f"{self.folder}/MarionetteActivePort"
        while time.monotonic() < end:
            time.sleep(0.1)
            if os.path.isfile(path):
                with open(path, encoding="ascii") as file:
                    port = file.read()
                if port.strip():
                    return socket.create_connection(("127.0.0.1", int(port)), HANGS)
        raise Failed("firefox doesn't answer")

    def call(self, command, **parameters):
        self.number += 1
        text = json.dumps([0, self.number, command, parameters]).encode()
        self.socket.sendall(b"%d:%s" % (len(text), text))
        _, _, error, result = self.answer()
        if error:
            raise Failed(f"{command}: {error.get('message')}")
        return result

    def answer(self):
        while b":" not in self.rest:
            self.more()
        length, _, self.rest = self.rest.partition(b":")
        while len(self.rest) < int(length):
            self.more()
        text, self.rest = self.rest[:int(length)], self.rest[int(length):]
        return json.loads(text)

    def more(self):
        found = self.socket.recv(1 << 20)
        if not found:
            raise Failed("firefox ended")
        self.rest += found

    def open(self, address):
        self.call("WebDriver:Navigate", url=address)

    def evaluate(self, expression):
        # The script runs beside the page: it sees the document, and none of the page's own names.
        script = self.SCRIPT.format(expression)
        return self.call("WebDriver:ExecuteAsyncScript", script=script, args=[], sandbox=None)["value"]

    def perform(self, source):
        self.call("WebDriver:PerformActions", actions=[source])

    def resize(self, width, height):
        self.call("WebDriver:SetWindowRect", width=width, height=height + 85)

    def colours(self, scheme):
        self.call("Marionette:SetContext", value="chrome")
        self.call("WebDriver:ExecuteScript", args=[0 if scheme == "dark" else 1], script=(
            'Services.prefs.setIntPref("layout.css.prefers-color-scheme.content-override", arguments[0])'))
        self.call("Marionette:SetContext", value="content")

    def picture(self, path):
        with open(path, "wb") as file:
            file.write(base64.b64decode(self.call("WebDriver:TakeScreenshot", full=False)["value"]))


class WebKit(ByActions):
    """WebKit, the engine of Safari, over WebDriver: its window is on a screen that nobody sees."""

    SCREEN = "2600x1700x24"
    PHONE = 390, 844
    # The bar above the page is wider than a phone's screen otherwise.
    STYLE = "window * { font-size: 1px; min-width: 0; min-height: 0; padding: 0; margin: 0; border-width: 0; }\n"
    BROWSERS = "/usr/lib/*/webkit2gtk-4.*/MiniBrowser"

    def __init__(self, scheme="light"):
        browser = sorted(glob.glob(self.BROWSERS))
        if not browser:
            raise Failed(f"there is no {self.BROWSERS}: Debian's package webkit2gtk-driver has it")
        self.screen, display = self.new_screen()
        with socket.create_server(("127.0.0.1", 0)) as free:
            self.port = free.getsockname()[1]
        super().__init__("WebKitWebDriver", f"--port={self.port}", surroundings={
            "DISPLAY": display, "WEBKIT_DISABLE_COMPOSITING_MODE": "1",
            "WEBKIT_DISABLE_SANDBOX_THIS_IS_DANGEROUS": "1", "GTK_THEME": f"Adwaita:{scheme}"})
        os.makedirs(f"{self.folder}/.config/gtk-3.0")
        with open(f"{self.folder}/.config/gtk-3.0/gtk.css", "w", encoding="ascii") as file:
            file.write(self.STYLE)
        self.session = ""
        wanted = {"webkitgtk:browserOptions": {"binary": browser[-1], "args": ["--automation"]}}
        try:
            self.session = f"/session/{self.begin(wanted)['sessionId']}"
            self.call("POST", "/timeouts", script=30_000, pageLoad=30_000)
            self.resize(*self.PHONE)
        except (Failed, OSError):
            self.__exit__()
            raise

    def __exit__(self, *given):
        try:
            if self.session:
                self.call("DELETE", "")
        except (Failed, OSError):
            pass
        super().__exit__(*given)
        end(self.screen)

    def new_screen(self):
        back, theirs = os.pipe()
        screen = subprocess.Popen(["Xvfb", "-displayfd", str(theirs), "-screen", "0", self.SCREEN], pass_fds=(theirs,),
                                  stdin=subprocess.DEVNULL, stdout=subprocess.DEVNULL, stderr=subprocess.DEVNULL)
        os.close(theirs)
        with os.fdopen(back) as number:
            return screen, f":{number.readline().strip()}"

    def begin(self, wanted):
        """Asks for a session until the driver answers."""
        last = time.monotonic() + SECONDS
        while True:
            try:
                return self.call("POST", "/session", capabilities={"alwaysMatch": wanted})
            except OSError as error:
                if time.monotonic() > last:
                    raise Failed("WebKitWebDriver doesn't answer") from error
                time.sleep(0.1)

    def call(self, method, path, seconds=HANGS, **given):
        connection = http.client.HTTPConnection("127.0.0.1", self.port, timeout=seconds)
        try:
            body = json.dumps(given) if method == "POST" else None
            connection.request(method, self.session + path, body, {"Content-Type": "application/json"})
            answer = connection.getresponse()
            value = json.loads(answer.read())["value"]
        finally:
            connection.close()
        if answer.status != 200:
            raise Failed(f"{path}: {value.get('error')}: {value.get('message')}")
        return value

    def open(self, address):
        self.call("POST", "/url", url=address)

    def evaluate(self, expression):
        return self.call("POST", "/execute/async", script=self.SCRIPT.format(expression), args=[])

    def perform(self, source):
        self.call("POST", "/actions", actions=[source])

    def resize(self, width, height):
        """Gives the page a size. A window has a frame, so its size is corrected by what the page has of it, which may
        come late.
        """
        last, outer = time.monotonic() + SECONDS, (width, height)
        while time.monotonic() < last:
            self.call("POST", "/window/rect", width=outer[0], height=outer[1])
            time.sleep(0.2)
            wide, high = self.evaluate("[innerWidth, innerHeight]")
            if wide == width:
                return
            outer = outer[0] + width - wide, outer[1] + height - high
        raise Failed(f"the page is not {width} pixels wide within {SECONDS} seconds")

    def picture(self, path):
        """Takes a picture. WebKit doesn't answer now and then if it has just drawn the page, and is asked again."""
        for seconds in (10, 10, 10, HANGS):
            time.sleep(0.5)
            try:
                taken = self.call("GET", "/screenshot", seconds)
                break
            except TimeoutError:
                self.evaluate("scrollBy(0, 1)")
                self.evaluate("scrollBy(0, -1)")
        else:
            raise Failed("WebKit takes no picture")
        with open(path, "wb") as file:
            file.write(base64.b64decode(taken))
