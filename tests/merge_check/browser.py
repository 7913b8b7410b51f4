"""A headless Chromium that has opened the page of examples/web: files are chosen and dropped as a user
would."""

import base64
import contextlib
import json
import os
import pathlib
import select
import shutil
import subprocess
import time

from tests.harness import TOP, Skipped

BROWSERS = ["chromium", "chromium-browser", "google-chrome", "google-chrome-stable"]
OPTIONS = ["--headless=new", "--no-sandbox", "--disable-gpu", "--no-first-run", "--hide-scrollbars", "--window-size=800,1000"]
SECONDS = 120
# Whether a verdict is shown.
IS_SHOWN = "document.getElementById('verdict').textContent !== ''"

# Drops so many files of these bytes.
DROP = """(() => {
    const bytes = Uint8Array.from(atob("%s"), (letter) => letter.charCodeAt(0));
    const data = new DataTransfer();
    for (let left = %d; left > 0; left -= 1) data.items.add(new File([bytes], "dropped"));
    document.getElementById("%s").dispatchEvent(new DragEvent("drop", { dataTransfer: data, bubbles: true, cancelable: true }));
})()"""


def found_browser():
    """The program of a browser. Without one the checks are skipped."""
    program = next(filter(None, map(shutil.which, BROWSERS)), None)
    if program is None:
        raise Skipped("there is no Chromium")
    return program


def build_page():
    """Builds the page, in the folder of the test. Its name."""
    page = os.path.abspath("page.html")
    subprocess.run([TOP / "examples/web/build", page], check=True, stdin=subprocess.DEVNULL, stdout=subprocess.DEVNULL)
    return page


class Browser:
    """A browser that is controlled over two pipes, by the DevTools protocol: JSON texts, each with
    a zero byte after it."""

    def __init__(self, program, folder):
        to_read, self.to_write = os.pipe()
        self.to_read, to_write = os.pipe()

        def place():
            # The browser reads from 3 and writes to 4.
            os.dup2(to_read, 10)
            os.dup2(to_write, 11)
            os.dup2(10, 3)
            os.dup2(11, 4)

        words = [program, *OPTIONS, "--remote-debugging-pipe", f"--user-data-dir={folder}"]
        how = {"stdin": subprocess.DEVNULL, "stdout": subprocess.DEVNULL, "stderr": subprocess.DEVNULL}
        self.process = subprocess.Popen(words, preexec_fn=place, close_fds=False, **how)
        os.close(to_read)
        os.close(to_write)
        self.rest, self.count, self.session = b"", 0, None

    def received(self):
        """The next text of the browser."""
        while b"\0" not in self.rest:
            # A page that crashed answers nothing.
            if not select.select([self.to_read], [], [], SECONDS)[0]:
                raise TimeoutError("the browser is silent")
            piece = os.read(self.to_read, 1 << 16)
            if not piece:
                raise EOFError("the browser has ended")
            self.rest += piece
        text, self.rest = self.rest.split(b"\0", 1)
        return json.loads(text)

    def call(self, method, **words):
        """The answer of a call."""
        self.count += 1
        call = {"id": self.count, "method": method, "params": words}
        if self.session:
            call["sessionId"] = self.session
        os.write(self.to_write, json.dumps(call).encode() + b"\0")
        while True:
            answer = self.received()
            if answer.get("id") == self.count:
                if "error" in answer:
                    raise RuntimeError(f"{method}: {answer['error']}")
                return answer["result"]

    def open(self, page):
        """Opens the page in this file anew, and waits until it is complete."""
        self.session = None
        target = self.call("Target.createTarget", url="about:blank")["targetId"]
        self.session = self.call("Target.attachToTarget", targetId=target, flatten=True)["sessionId"]
        self.call("Page.navigate", url=pathlib.Path(page).resolve().as_uri())
        self.wait_for("document.readyState === 'complete' && document.querySelectorAll('input').length === 3")

    def value(self, text):
        """The value of an expression."""
        answer = self.call("Runtime.evaluate", expression=text, returnByValue=True, awaitPromise=True)
        if "exceptionDetails" in answer:
            raise RuntimeError(answer["exceptionDetails"]["exception"].get("description", text))
        return answer["result"].get("value")

    def wait_for(self, text):
        """Waits until an expression is true."""
        end = time.monotonic() + SECONDS
        while not self.value(text):
            if time.monotonic() > end:
                raise TimeoutError(text)
            time.sleep(0.05)

    def choose(self, name, file):
        """Chooses a file in the field of this name."""
        root = self.call("DOM.getDocument")["root"]["nodeId"]
        node = self.call("DOM.querySelector", nodeId=root, selector=f"#{name} input")["nodeId"]
        self.call("DOM.setFileInputFiles", nodeId=node, files=[os.path.abspath(file)])

    def drop(self, name, file, count=1):
        """Drops a file that the page makes of the same bytes, since headless browsers have no
        desktop, or so many of them."""
        self.value(DROP % (base64.b64encode(pathlib.Path(file).read_bytes()).decode(), count, name))

    def verdict(self):
        """The verdict and the outcome beside it, once Enter is pressed on the button, as from a
        keyboard."""
        self.press()
        self.wait_for(IS_SHOWN)
        return self.shown(), self.value("document.getElementById('outcome').textContent")

    def verdict_on(self, public, message, signature):
        """The same of these files, which are chosen first."""
        for name, file in (("public", public), ("message", message), ("signature", signature)):
            self.choose(name, file)
        return self.verdict()

    def shown(self):
        """The verdict that is shown."""
        return self.value("document.getElementById('verdict').textContent")

    def press(self):
        """Presses Enter on the button."""
        self.value("document.querySelector('button').focus()")
        for kind in ("keyDown", "char", "keyUp"):
            self.call("Input.dispatchKeyEvent", type=kind, key="Enter", code="Enter", windowsVirtualKeyCode=13, text="\r")

    def note(self, name):
        """What is said of the file in the field of this name, once something is."""
        text = f"document.getElementById('{name}-note').textContent"
        self.wait_for(f"{text} !== ''")
        return self.value(text)

    def tab(self):
        """Presses the key Tab. What has the focus then: the name of the box that it is in, or of its element."""
        for kind in ("keyDown", "keyUp"):
            self.call("Input.dispatchKeyEvent", type=kind, key="Tab", code="Tab", windowsVirtualKeyCode=9)
        return self.value("document.activeElement.closest('fieldset')?.id ?? document.activeElement.localName")

    def reached(self):
        """All that the key Tab reaches, in order, from where it leaves the page to where it does again."""
        for _ in range(20):
            if self.tab() == "body":
                break
        return list(iter(self.tab, "body"))

    def show_at(self, width, height, scheme="light"):
        """Shows the page on a screen of this size, in pixels, by a light or dark scheme."""
        self.call("Emulation.setDeviceMetricsOverride", width=width, height=height, deviceScaleFactor=1, mobile=width < 600)
        self.call("Emulation.setEmulatedMedia", features=[{"name": "prefers-color-scheme", "value": scheme}])

    def picture(self, file):
        """Makes a picture of the page."""
        pathlib.Path(file).write_bytes(base64.b64decode(self.call("Page.captureScreenshot", format="png")["data"]))

    def end(self):
        """Ends the browser."""
        self.process.terminate()
        self.process.wait()


@contextlib.contextmanager
def opened(program, page):
    """A browser that has opened a page, over a folder that is removed as far as a browser that is
    ending lets it be."""
    browser = Browser(program, os.path.abspath("profile"))
    try:
        browser.open(page)
        yield browser
    finally:
        browser.end()
        shutil.rmtree("profile", ignore_errors=True)
