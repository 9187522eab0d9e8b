"""Pages of the lab in a headless Chromium, and who sits before them: what lab-pages and lab-terminals share."""

import json
import re
import sys
import time

from lib import ROOT, check, wrong

sys.path.insert(0, f"{ROOT}/tools/archive")
import browser  # noqa: E402

# (a width, a height, and how many pixels of the screen are one of the page: a telephone has more)
WIDE, NARROW = (1440, 900, 1), (390, 844, 2)
# how long a page may take to show something; what must be quick is measured by tests/lab
SECONDS = 20
LINES = """it => Array.from({length: it.rows}, (_, line) => it._core.buffer.translateBufferLineToString(it._core.buffer.ybase + line, true))
    .join('\\n').trimEnd()"""
REPORTS = """window.reports = [];
document.addEventListener('securitypolicyviolation', it => reports.push(`${it.violatedDirective} ${it.blockedURI} ${it.sample}`));"""
# what the browser advises whoever writes a page, and what it says of a socket whose service is gone
ADVICE = "Canvas2D: Multiple readback operations"
GONE = re.compile(r"WebSocket connection to 'ws://[^']+' failed")
REFUSED = "responded with a status of 409 (Conflict)"
VIRTUAL = {"\r": ("Enter", 13), "\b": ("Backspace", 8)}


class Person:
    """Who sits before a page."""

    def __init__(self, program, name, address, size):
        self.name = name
        self.tab = browser.Tab(program, "about:blank", *size[:2], scale=size[2])
        self.tab.ask("Page.addScriptToEvaluateOnNewDocument", source=REPORTS)
        self.tab.load("Page.navigate", url=address)
        self.reports = []

    def value(self, expression):
        return self.tab.value(expression)

    def value_or_none(self, expression):
        """The same, or nothing where the page loads itself anew just now."""
        try:
            return self.value(expression)
        except OSError as fault:
            if "navigated" in str(fault) or "context was destroyed" in str(fault):
                return None
            raise

    def sees(self, what, expression, wanted=True, seconds=SECONDS):
        """An expression has a value at last, or a text in it."""
        end = time.monotonic() + seconds
        while time.monotonic() < end:
            found = self.value_or_none(expression)
            if wanted in found if isinstance(wanted, str) and isinstance(found, str) else found == wanted:
                return
            time.sleep(0.03)
        wrong(f"{self.name}: {what}: {str(found)[-300:]!r} has no {wanted!r}")

    def screen(self, terminal="terminal"):
        # (until the script has run, an element of the page has that name)
        return f"window.{terminal}?.terminal ? ({LINES})(window.{terminal}.terminal) : ''"

    def shows(self, text, terminal="terminal"):
        self.sees("the screen", self.screen(terminal), text)

    def keys(self, text):
        """Types by keys of the browser."""
        for it in text:
            key, code = VIRTUAL.get(it, (it, 0))
            event = {"key": key, "windowsVirtualKeyCode": code, **({} if it == "\b" else {"text": it})}
            self.tab.ask("Input.dispatchKeyEvent", type="keyDown", **event)
            self.tab.ask("Input.dispatchKeyEvent", type="keyUp", key=key, windowsVirtualKeyCode=code)

    def presses(self, key, code, modifiers=0, commands=()):
        """Presses a key by its name and its number, with Alt (1), Ctrl (2), Meta (4) and Shift (8), and what the browser does by it."""
        for kind, more in (("rawKeyDown", {"commands": list(commands)}), ("keyUp", {})):
            self.tab.ask("Input.dispatchKeyEvent", type=kind, key=key, code=key, windowsVirtualKeyCode=code, modifiers=modifiers, **more)

    def touches(self, text):
        """Types as the keyboard of a phone: each key has the number 229, and the text is changed behind it."""
        for it in text:
            for kind in ("rawKeyDown", "keyUp"):
                self.tab.ask("Input.dispatchKeyEvent", type=kind, key="Unidentified", windowsVirtualKeyCode=229)
                if kind == "rawKeyDown":
                    self.tab.ask("Input.insertText", text=it)

    def composes(self, *texts):
        """Composes a word, of which the last text is what comes of it."""
        for it in texts[:-1]:
            self.tab.ask("Input.imeSetComposition", text=it, selectionStart=len(it), selectionEnd=len(it))
        self.tab.ask("Input.insertText", text=texts[-1])

    def copies(self, text):
        """The clipboard has a text, and the page may read it."""
        self.tab.browser.ask(None, "Browser.grantPermissions", permissions=["clipboardReadWrite", "clipboardSanitizedWrite"])
        self.tab.ask("Page.bringToFront")
        self.tab.ask("Emulation.setFocusEmulationEnabled", enabled=True)
        expression = f"navigator.clipboard.writeText({json.dumps(text)})"
        self.tab.ask("Runtime.evaluate", expression=expression, awaitPromise=True, userGesture=True)

    def gives_file(self, selector, path):
        """Chooses a file for an input."""
        root = self.tab.ask("DOM.getDocument")["root"]["nodeId"]
        node = self.tab.ask("DOM.querySelector", nodeId=root, selector=selector)["nodeId"]
        self.tab.ask("DOM.setFileInputFiles", nodeId=node, files=[path])

    def chooses(self, selector, text):
        """Chooses what begins with a text in a list."""
        found = f"(it => {{ it.selectedIndex = [...it.options].findIndex(one => one.text.startsWith({json.dumps(text)})); return it.selectedIndex; }})"
        check(self.value(f"{found}(document.querySelector({selector!r}))") >= 0, f"{self.name}: {selector} has no {text}")
        self.value(f"document.querySelector({selector!r}).dispatchEvent(new Event('change'))")

    def does(self, keys, shown):
        self.keys(keys)
        self.shows(shown)

    def clicks(self, selector):
        """Clicks with the mouse in the middle of what a selector names."""
        chosen = f"document.querySelector({selector!r})"
        self.sees(f"{selector} is there", f"!!{chosen} && {chosen}.getClientRects().length > 0 && !{chosen}.disabled")
        self.value(f"{chosen}.scrollIntoView({{block: 'center'}})")
        x, y = self.value(f"(it => [it.x + it.width / 2, it.y + it.height / 2])({chosen}.getBoundingClientRect())")
        for kind in ("mousePressed", "mouseReleased"):
            self.tab.ask("Input.dispatchMouseEvent", type=kind, x=x, y=y, button="left", clickCount=1)

    def fits(self, pictures, what, sizes=(WIDE, NARROW)):
        """The page is no wider than its window, at both widths; each is a picture."""
        for width, height, scale in sizes:
            self.tab.resize(width, height, scale)
            time.sleep(0.3)
            wide = self.value("document.documentElement.scrollWidth")
            check(wide <= width, f"{self.name}: {what} is {wide} pixels wide, in a window of {width}")
            outside = self.value(OUTSIDE)
            check(not outside, f"{self.name}: {what} at {width} pixels has beyond its window: {outside}")
            if pictures:
                self.tab.picture(f"{pictures}/{what}-{width}.png")

    def is_content(self, is_gone=False, refused=0):
        """Neither errors nor reports of the policy, but for a service that was gone, and so many requests that were to be refused."""
        errors = [it for it in self.tab.errors() if not it.startswith(ADVICE) and not (is_gone and GONE.match(it))]
        check(sum(it.endswith(REFUSED) for it in errors) == refused, f"{self.name}: {errors} have not {refused:d} refusals")
        errors = [it for it in errors if not it.endswith(REFUSED)]
        reports = self.reports + self.value("reports")
        check(not errors, f"{self.name}: the page meets errors: {errors[:3]}")
        check(not reports, f"{self.name}: the policy reports {reports[:3]}")

    def loads_anew(self):
        self.reports += self.value("reports")
        self.tab.load("Page.reload")


# what can be pressed and isn't seen whole
OUTSIDE = """[...document.querySelectorAll('button, a, select, input, h1, h2, .badge')].filter(it => {
    const place = it.getBoundingClientRect();
    return place.width && !it.closest('.terminal') && (place.left < -1 || place.right > innerWidth + 1);
}).map(it => it.id || it.textContent.slice(0, 20))"""
