"""Clicks through a page of tools/view in a Chromium without a window, and says what is wrong with it.

usage: browse.py PAGE [PICTURE [COMMAND [WIDTH HEIGHT]]]

It goes through all commands by the key right and back by the key left, by the buttons, by the slider, by a click on the script and on the
chart, and looks each time whether the page shows the command that it should. Nothing may be said in the console and nothing may be
fetched but the page. With PICTURE it writes a PNG of the command that is asked for. Status: 0 where all is well, 1 where it isn't, 3
where there is no Chromium.
"""
import base64
import json
import os
import shutil
import subprocess
import sys
import tempfile

KEYS = {"ArrowRight": 39, "ArrowLeft": 37, "Home": 36, "End": 35}


class Browser:
    """A Chromium that is told what to do through a pipe, a message at a time."""

    def __init__(self, program, folder):
        ours, theirs = os.pipe(), os.pipe()
        self.process = subprocess.Popen(
            ["sh", "-c", 'read_end=$1; write_end=$2; shift 2; eval "exec \\"\\$@\\" 3<&$read_end 4>&$write_end"', "sh", str(ours[0]), str(theirs[1]), program,
             "--headless", "--no-sandbox", "--disable-gpu", "--no-first-run", "--hide-scrollbars", "--remote-debugging-pipe", f"--user-data-dir={folder}"],
            pass_fds=(ours[0], theirs[1]), stdout=subprocess.DEVNULL, stderr=subprocess.DEVNULL)
        os.close(ours[0])
        os.close(theirs[1])
        self.write, self.read = ours[1], os.fdopen(theirs[0], "rb")
        self.number, self.session, self.said, self.fetched = 0, None, [], []
        self.buffer = b""

    def message(self):
        while b"\0" not in self.buffer:
            more = os.read(self.read.fileno(), 1 << 16)
            if not more:
                raise SystemExit("the browser ended")
            self.buffer += more
        text, self.buffer = self.buffer.split(b"\0", 1)
        return json.loads(text)

    def tell(self, method, **words):
        self.number += 1
        asked = {"id": self.number, "method": method, "params": words}
        if self.session:
            asked["sessionId"] = self.session
        os.write(self.write, json.dumps(asked).encode() + b"\0")
        while True:
            found = self.message()
            if found.get("id") == self.number:
                if "error" in found:
                    raise SystemExit(f"{method}: {found['error']['message']}")
                return found["result"]
            self.note(found)

    def note(self, event):
        method, words = event.get("method"), event.get("params", {})
        if method == "Runtime.exceptionThrown":
            self.said.append(words["exceptionDetails"]["text"] + " " + words["exceptionDetails"].get("exception", {}).get("description", ""))
        elif method == "Runtime.consoleAPICalled":
            self.said.append(f"console.{words['type']}: {words['args']}")
        elif method == "Log.entryAdded":
            self.said.append(f"{words['entry']['level']}: {words['entry']['text']}")
        elif method == "Network.requestWillBeSent":
            self.fetched.append(words["request"]["url"])

    def open(self, url, width, height):
        target = self.tell("Target.createTarget", url="about:blank")["targetId"]
        self.session = self.tell("Target.attachToTarget", targetId=target, flatten=True)["sessionId"]
        for domain in ("Runtime", "Log", "Network", "Page"):
            self.tell(f"{domain}.enable")
        self.tell("Emulation.setDeviceMetricsOverride", width=width, height=height, deviceScaleFactor=1, mobile=False)
        self.tell("Page.navigate", url=url)
        for _ in range(200):
            if self.value("document.readyState") == "complete" and self.value("typeof show === 'function'"):
                return
        raise SystemExit("the page isn't there")

    def value(self, text):
        found = self.tell("Runtime.evaluate", expression=text, returnByValue=True, awaitPromise=True)
        if "exceptionDetails" in found:
            raise SystemExit(f"{text}: {found['exceptionDetails']}")
        return found["result"].get("value")

    def key(self, name):
        for kind in ("rawKeyDown", "keyUp"):
            self.tell("Input.dispatchKeyEvent", type=kind, key=name, code=name, windowsVirtualKeyCode=KEYS[name])

    def click(self, what):
        x, y = self.value(f"(() => {{ const e = {what}; e.scrollIntoView({{block: 'center'}}); const b = e.getBoundingClientRect(); return [b.x + b.width / 2, b.y + b.height / 2]; }})()")
        for kind in ("mousePressed", "mouseReleased"):
            self.tell("Input.dispatchMouseEvent", type=kind, x=x, y=y, button="left", clickCount=1)

    def picture(self, file):
        with open(file, "wb") as out:
            out.write(base64.b64decode(self.tell("Page.captureScreenshot", format="png")["data"]))

    def end(self):
        os.close(self.write)
        self.process.terminate()
        self.process.wait()


def click_through(browser):
    """What is wrong, as a list of lines."""
    wrong = []
    count = browser.value("commands.length")

    def expect(what, k):
        found = browser.value("[at, el('now').textContent.startsWith('line ' + commands[at].n + ':'), document.querySelectorAll('#script tr.now').length, "
                              "document.querySelectorAll('#memory svg').length]")
        if found != [k, True, 1, 1]:
            wrong.append(f"{what}: {found}, and not command {k}")

    expect("at the beginning", 0)
    for k in range(1, count):
        browser.key("ArrowRight")
        expect("key right", k)
    browser.key("ArrowRight")
    expect("key right at the end", count - 1)
    for k in range(count - 2, -1, -1):
        browser.key("ArrowLeft")
        expect("key left", k)
    browser.key("End")
    expect("key End", count - 1)
    browser.key("Home")
    expect("key Home", 0)
    for button, k in (("last", count - 1), ("back", max(0, count - 2)), ("first", 0), ("on", min(1, count - 1))):
        browser.click(f"document.getElementById('{button}')")
        expect(f"button {button}", k)
    browser.click(f"document.querySelector('#script tr[data-k=\"{count - 1}\"] td')")
    expect("a click on the last line of the script", count - 1)
    browser.click("document.getElementById('slider')")
    middle = browser.value("at")
    if count > 2 and not 0 < middle < count - 1:
        wrong.append(f"a click on the middle of the slider shows command {middle}")
    browser.key("ArrowRight")
    expect("key right on the slider", min(middle + 1, count - 1))
    browser.click("document.querySelector('#chart svg')")
    if count > 2 and not 0 < browser.value("at") < count - 1:
        wrong.append("a click on the middle of the chart shows an end")
    few = browser.value("document.querySelectorAll('#memory g[data-frame]').length")
    browser.click("document.getElementById('all')")
    if browser.value("document.querySelectorAll('#memory g[data-frame]').length") <= few:
        wrong.append("all pages aren't more than those that are shown at first")
    browser.click("document.getElementById('all')")
    wide = browser.value("[document.documentElement.scrollWidth, window.innerWidth]")
    if wide[0] > wide[1]:
        wrong.append(f"the page is {wide[0]} wide, and the window {wide[1]}")
    return wrong


def main():
    if len(sys.argv) < 2:
        print(__doc__.strip())
        return 2
    page, picture = os.path.abspath(sys.argv[1]), sys.argv[2] if len(sys.argv) > 2 else None
    width, height = (int(sys.argv[4]), int(sys.argv[5])) if len(sys.argv) > 5 else (1440, 1000)
    program = shutil.which("chromium") or shutil.which("chromium-browser") or shutil.which("google-chrome")
    if not program:
        print("no Chromium here: the page isn't clicked through")
        return 3
    with tempfile.TemporaryDirectory(ignore_cleanup_errors=True) if sys.version_info >= (3, 10) else tempfile.TemporaryDirectory() as folder:
        browser = Browser(program, folder)
        try:
            browser.open(f"file://{page}", width, height)
            wrong = click_through(browser)
            if picture:
                browser.value(f"window.scrollTo(0, 0); show({int(sys.argv[3]) if len(sys.argv) > 3 else 0})")
                browser.picture(picture)
            wrong += browser.said
            wrong += [f"it fetches {url}" for url in browser.fetched if url != f"file://{page}" and not url.startswith("data:")]
        finally:
            browser.end()
    for line in wrong:
        print(line)
    return 1 if wrong else 0


if __name__ == "__main__":
    sys.exit(main())
