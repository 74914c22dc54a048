"""A browser without a window, spoken to by its DevTools protocol over a pipe; and what it finds wrong with a page."""
import atexit
import base64
import fcntl
import functools
import json
import os
import select
import shutil
import signal
import subprocess
import sys
import tempfile
import time
from pathlib import Path
from typing import Any, Dict, List, Optional, Sequence, Tuple

NAMES = ("chromium", "chromium-browser", "google-chrome")
FOUND = next((path for path in map(shutil.which, NAMES) if path), None)
SECONDS = 120  # the most that an answer may take, on a machine that has much else to do
HIGH = 10  # descriptors from here on are no other's
# The pages are our own, so they need no sandbox, which not every machine has. Nobody else is asked for anything.
FLAGS = (
    "--headless=new", "--remote-debugging-pipe", "--no-sandbox", "--disable-gpu", "--no-first-run",
    "--disable-extensions", "--disable-background-networking", "--disable-component-update", "--disable-sync",
    "--disable-default-apps", "--host-resolver-rules=MAP * ~NOTFOUND",
)
# The browser reads from 3 and writes to 4.
BEGIN = """
import os, sys
os.dup2(int(sys.argv[1]), 3)
os.dup2(int(sys.argv[2]), 4)
os.execv(sys.argv[3], sys.argv[3:])
"""
SURVEY = (Path(__file__).parent / "survey.js").read_text()
# What the key Tab is to come to. Where it does come to, and whether that is shown, is noted from here on.
FOCUSED = """
survey.came = [],
document.activeElement.blur(), getSelection().removeAllRanges(), scrollTo(0, 0),
document.addEventListener('focusin', (event) => survey.came.push([survey.named(event.target), survey.showsFocus()])),
survey.focusable().map(survey.named)
"""


class Browser:
    """A browser, to be closed at the end."""

    def __init__(self) -> None:
        assert FOUND
        self.folder = tempfile.mkdtemp(prefix="liq-browser-")
        theirs_in, ours_out = _pipe()
        ours_in, theirs_out = _pipe()
        self.process = subprocess.Popen(
            [sys.executable, "-c", BEGIN, str(theirs_in), str(theirs_out), FOUND, *FLAGS,
             f"--user-data-dir={self.folder}", "about:blank"],
            pass_fds=(theirs_in, theirs_out), stdin=subprocess.DEVNULL, stdout=subprocess.DEVNULL,
            stderr=subprocess.DEVNULL, start_new_session=True)
        os.close(theirs_in)
        os.close(theirs_out)
        self.out, self.input = ours_out, ours_in
        self.left, self.number = b"", 0
        self.events: Dict[Optional[str], List[Dict[str, Any]]] = {}  # by session

    def call(self, method: str, session: Optional[str] = None, **words: Any) -> Dict[str, Any]:
        """What a method answers. What is told meanwhile is kept."""
        return self.call_all(method, session, [words])[0]

    def call_all(self, method: str, session: Optional[str], calls: Sequence[Dict[str, Any]]) -> List[Dict[str, Any]]:
        """What a method answers to calls that are sent together, behind each other."""
        first = self.number + 1
        for words in calls:
            self.number += 1
            asked: Dict[str, Any] = {"id": self.number, "method": method, "params": words}
            if session:
                asked["sessionId"] = session
            os.write(self.out, json.dumps(asked).encode() + b"\0")
        results: Dict[int, Dict[str, Any]] = {}
        while len(results) < len(calls):
            told = self.read()
            if told.get("id", 0) >= first:
                if "error" in told:
                    raise AssertionError(f"{method}: {told['error']}")
                results[told["id"]] = told["result"]
        return [results[number] for number in sorted(results)]

    def read(self) -> Dict[str, Any]:
        """The next thing that is told; one that is no answer is kept too."""
        until = time.monotonic() + SECONDS
        while b"\0" not in self.left:
            if not select.select([self.input], [], [], max(0.0, until - time.monotonic()))[0]:
                raise AssertionError(f"the browser told nothing in {SECONDS} seconds")
            data = os.read(self.input, 2**20)
            if not data:
                raise AssertionError("the browser has ended")
            self.left += data
        line, _, self.left = self.left.partition(b"\0")
        told: Dict[str, Any] = json.loads(line)
        if "id" not in told:
            self.events.setdefault(told.get("sessionId"), []).append(told)
        return told

    def close(self) -> None:
        os.close(self.out)
        os.close(self.input)
        try:
            os.killpg(self.process.pid, signal.SIGKILL)
        except ProcessLookupError:
            pass
        self.process.wait()
        shutil.rmtree(self.folder, ignore_errors=True)


@functools.lru_cache(maxsize=1)
def shared() -> "Tab":
    """One browser, and one window in it, for all cases: either takes longer to begin than most of them. It is closed
    where the process ends."""
    browser = Browser()
    atexit.register(browser.close)
    return Tab(browser)


def _pipe() -> Tuple[int, int]:
    """A pipe with descriptors that are in nobody's way."""
    low = os.pipe()
    read, write = (fcntl.fcntl(end, fcntl.F_DUPFD_CLOEXEC, HIGH) for end in low)
    for end in low:
        os.close(end)
    return read, write


class Tab:
    """A window of a browser, in which a page is opened at a width, on a light screen or a dark one."""

    def __init__(self, browser: Browser) -> None:
        self.browser = browser
        target = browser.call("Target.createTarget", url="about:blank")["targetId"]
        self.session = browser.call("Target.attachToTarget", targetId=target, flatten=True)["sessionId"]
        for part in ("Page", "Network", "Runtime", "Log"):
            self.call(f"{part}.enable")
        self.call("Emulation.setFocusEmulationEnabled", enabled=True)

    def open(self, path: Path, width: int = 1400, dark: bool = False) -> "Tab":
        """Opens a page in the place of the one before, and forgets what was told of that."""
        self.path, self.width = path, width
        self._go("about:blank")
        self.call("Emulation.setDeviceMetricsOverride", width=width, height=900, deviceScaleFactor=1, mobile=False)
        scheme = {"name": "prefers-color-scheme", "value": "dark" if dark else "light"}
        self.call("Emulation.setEmulatedMedia", features=[scheme])
        self._go(path.as_uri())
        return self

    def _go(self, url: str) -> None:
        self.browser.events.clear()
        self.call("Page.navigate", url=url)
        while not self.told("Page.loadEventFired"):
            self.browser.read()

    def call(self, method: str, **words: Any) -> Dict[str, Any]:
        return self.browser.call(method, self.session, **words)

    def told(self, method: str) -> List[Dict[str, Any]]:
        """What was told of this page."""
        return [event["params"] for event in self.browser.events.get(self.session, []) if event["method"] == method]

    def ask(self, script: str) -> Any:
        """The value of an expression in the page."""
        told = self.call("Runtime.evaluate", expression=script, returnByValue=True, awaitPromise=True)
        if "exceptionDetails" in told:
            raise AssertionError(str(told["exceptionDetails"])[:2000])
        return told["result"].get("value")

    def press(self, key: str, code: int, text: str = "", times: int = 1) -> None:
        """Presses a key, and lets it go; so many times."""
        words: Dict[str, Any] = {"key": key, "code": key, "windowsVirtualKeyCode": code}
        down = {"type": "keyDown", "text": text} if text else {"type": "rawKeyDown"}
        one = [{**words, **down}, {**words, "type": "keyUp"}]
        self.browser.call_all("Input.dispatchKeyEvent", self.session, times * one)

    def picture(self) -> bytes:
        """The whole page, as a PNG."""
        told = self.call("Page.captureScreenshot", format="png", captureBeyondViewport=True)
        return base64.b64decode(told["data"])

    # ---- what is wrong with it

    def faults(self, keys: bool = True) -> List[str]:
        """All that is found wrong with the page. It is read, walked through by the keyboard, and listened to."""
        found: List[str] = self.ask(f"({SURVEY})()")
        found += self.faults_of_keys() if keys else []
        return [*found, *self.faults_of_loads(), *self.faults_of_console()]

    def faults_of_loads(self) -> List[str]:
        """What it asked for, besides itself."""
        asked = [event["request"]["url"] for event in self.told("Network.requestWillBeSent")]
        return [f"loads: {url}" for url in asked if url != self.path.as_uri()]

    def faults_of_console(self) -> List[str]:
        """What the browser had to say."""
        said = [event["entry"]["text"] for event in self.told("Log.entryAdded")]
        said += [str(event["args"]) for event in self.told("Runtime.consoleAPICalled")]
        said += [event["exceptionDetails"]["text"] for event in self.told("Runtime.exceptionThrown")]
        return [f"console: {line}" for line in said]

    def faults_of_keys(self) -> List[str]:
        """What the key Tab does not come to in order, and where it does not show where it is; what Enter does not
        open."""
        wanted: List[str] = self.ask(FOCUSED)
        self.press("Tab", 9, times=len(wanted))
        came = self.ask("survey.came")
        found: List[str] = []
        for at, name in enumerate(wanted):
            here, is_shown = came[at] if at < len(came) else ("nothing", False)
            if here != name:
                return [*found, f"keyboard: Tab comes to {here}, and not to {name}"]
            if not is_shown:
                found.append(f"keyboard: it is not seen that {name} has the focus")
        for at in range(self.ask("document.querySelectorAll('summary').length")):
            there = f"document.querySelectorAll('summary')[{at}]"
            before = self.ask(f"{there}.focus(), {there}.parentElement.open")
            self.press("Enter", 13, "\r")
            if self.ask(f"{there}.parentElement.open") == before:
                found.append("keyboard: Enter does not open it")
        return found
