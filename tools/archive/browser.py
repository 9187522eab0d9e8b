"""A headless browser for tests: Chromium, told what to do through a pair of pipes, with nothing but Python's own library."""

import base64
import json
import os
import shutil
import subprocess
import tempfile

COMMANDS = "chromium", "chromium-browser", "google-chrome"
# (its sandbox doesn't start for root, and what it opens is a file that the test has made)
OPTIONS = "--headless --no-sandbox --disable-gpu --disable-dev-shm-usage --hide-scrollbars --no-first-run --disable-background-networking --remote-debugging-pipe".split()
SECONDS = 60


def command():
    """The browser's command, or None where there is none."""
    return next((it for it in map(shutil.which, COMMANDS) if it), None)


class Browser:
    """A browser that runs; used by `with`."""

    def __enter__(self):
        self.number = 0
        # of each tab: what the browser says of it unasked
        self.events = {}
        self.room = tempfile.TemporaryDirectory(prefix="archive-browser-", ignore_cleanup_errors=True)
        told, self.tell = os.pipe()
        self.answers, answered = os.pipe()

        def connected():
            # (the browser reads from 3 and writes to 4; both are moved out of the way first, whichever numbers they have)
            high = os.dup2(told, 30), os.dup2(answered, 31)
            os.dup2(high[0], 3)
            os.dup2(high[1], 4)

        words = [command(), *OPTIONS, f"--user-data-dir={self.room.name}", "about:blank"]
        quiet = {"stdin": subprocess.DEVNULL, "stdout": subprocess.DEVNULL, "stderr": subprocess.DEVNULL}
        self.process = subprocess.Popen(words, preexec_fn=connected, pass_fds=(3, 4), start_new_session=True, **quiet)
        os.close(told)
        os.close(answered)
        self.incoming = os.fdopen(self.answers, "rb")
        return self

    def __exit__(self, *_):
        self.process.kill()
        self.process.wait()
        self.incoming.close()
        os.close(self.tell)
        self.room.cleanup()

    def hear(self):
        """The next message of the browser; an event is kept."""
        data = bytearray()
        while not data.endswith(b"\0"):
            byte = self.incoming.read(1)
            if not byte:
                raise OSError("the browser ended")
            data += byte
        message = json.loads(data[:-1])
        if "method" in message:
            self.events.setdefault(message.get("sessionId"), []).append(message)
        return message

    def ask(self, session, method, **parameters):
        self.number += 1
        asked = {"id": self.number, "method": method, "params": parameters}
        if session:
            asked["sessionId"] = session
        os.write(self.tell, json.dumps(asked).encode() + b"\0")
        while True:
            message = self.hear()
            if message.get("id") == self.number:
                if "error" in message:
                    raise OSError(f"the browser refused {method}: {message['error']['message']}")
                return message["result"]


class Tab:
    """A page that is open in a browser, each in a window of its own, at a width and in a scheme of colours."""

    def __init__(self, browser, address, width, height, scheme="light", scale=1):
        self.browser, self.address = browser, address
        target = browser.ask(None, "Target.createTarget", url="about:blank", newWindow=True)["targetId"]
        self.session = browser.ask(None, "Target.attachToTarget", targetId=target, flatten=True)["sessionId"]
        # what the browser says unasked: errors, and what it loads
        self.events = browser.events.setdefault(self.session, [])
        for domain in ("Page", "Runtime", "Log", "Network"):
            self.ask(f"{domain}.enable")
        self.resize(width, height, scale)
        self.ask("Emulation.setEmulatedMedia", features=[{"name": "prefers-color-scheme", "value": scheme}])
        self.load("Page.navigate", url=address)

    def ask(self, method, **parameters):
        return self.browser.ask(self.session, method, **parameters)

    def resize(self, width, height, scale=1):
        self.ask("Emulation.setDeviceMetricsOverride", width=width, height=height, deviceScaleFactor=scale, mobile=width < 600)

    def load(self, method, **parameters):
        """Loads the page, and waits until it is there."""
        begin = len(self.events)
        self.ask(method, **parameters)
        while not any(it["method"] == "Page.loadEventFired" for it in self.events[begin:]):
            self.browser.hear()

    def value(self, expression):
        """What an expression of JavaScript gives in the page."""
        result = self.ask("Runtime.evaluate", expression=expression, returnByValue=True)
        if "exceptionDetails" in result:
            raise OSError(f"{expression}: {result['exceptionDetails']['text']}")
        return result["result"].get("value")

    def errors(self):
        """The errors that the page has met."""
        for it in self.events:
            if it["method"] == "Runtime.exceptionThrown":
                yield it["params"]["exceptionDetails"]["text"]
            elif it["method"] == "Log.entryAdded":
                yield it["params"]["entry"]["text"]
            elif it["method"] == "Runtime.consoleAPICalled":
                yield f"console.{it['params']['type']}"

    def loaded(self):
        """The addresses that the page has asked for."""
        return [it["params"]["request"]["url"] for it in self.events if it["method"] == "Network.requestWillBeSent"]

    def picture(self, file):
        data = self.ask("Page.captureScreenshot", format="png")["data"]
        with open(file, "wb") as out:
            out.write(base64.b64decode(data))


class Page(Tab):
    """A file that is open in a browser of its own; used by `with`."""

    def __init__(self, file, width, height, scheme):
        self.opened = f"file://{os.path.realpath(file)}", width, height, scheme
        self.own = Browser()

    def __enter__(self):
        super().__init__(self.own.__enter__(), *self.opened)
        return self

    def __exit__(self, *ended):
        self.own.__exit__(*ended)
