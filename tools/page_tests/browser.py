"""A headless browser, driven over its two pipes by the DevTools protocol; Python's standard library is enough."""

import json
import os
import queue
import shutil
import subprocess
import tempfile
import threading
from typing import Any, Dict, List, Optional, Sequence, Tuple, Union

from tests.harness import patient

NAMES = ("chromium", "chromium-browser", "google-chrome")
QUIET = (
    "--headless=new",
    "--no-sandbox",
    "--disable-gpu",
    "--hide-scrollbars",
    "--no-first-run",
    "--disable-background-networking",
    "--disable-component-update",
    "--disable-extensions",
    "--disable-sync",
    "--mute-audio",
    "--disable-dev-shm-usage",
    "--js-flags=--stack-size=2000",
)
# The greatest seconds for an answer of the browser, and for a condition in the page: a machine may be slow, or stand still.
SECONDS, PATIENCE = 240, 120
# A point of the page, from its left and its top.
Place = Tuple[float, float]


def found() -> Optional[str]:
    """The path of a browser, or None."""
    return next(filter(None, map(shutil.which, NAMES)), None)


class Failed(Exception):
    """An exception of the page, or a refusal of the browser."""


class Browser:
    """A browser with one page. `log` has the messages of the page and the browser, `requests` the requested addresses."""

    def __init__(self, binary: str, size: Tuple[int, int] = (1440, 900)) -> None:
        self.size = size
        self.log: List[str] = []
        self.requests: List[str] = []
        self.downloads: List[str] = []
        self.folder = tempfile.mkdtemp(prefix="pespbench-browser-")
        to_browser, self._writer = os.pipe()
        self._reader, from_browser = os.pipe()
        command = [
            binary,
            *QUIET,
            f"--window-size={size[0]},{size[1]}",
            "--remote-debugging-pipe",
            f"--user-data-dir={self.folder}/profile",
        ]

        def at_three_and_four() -> None:
            low, high = os.dup(to_browser), os.dup(from_browser)
            os.dup2(low, 3)
            os.dup2(high, 4)

        quiet = subprocess.DEVNULL
        self.process = subprocess.Popen(
            command, pass_fds=(3, 4), preexec_fn=at_three_and_four, stdin=quiet, stdout=quiet, stderr=quiet
        )
        os.close(to_browser)
        os.close(from_browser)
        self._answers: "queue.Queue[Dict[str, Any]]" = queue.Queue()
        self._session: Optional[str] = None
        self._last, self._turn = 0, threading.Lock()
        self.asked_to_stay = self.crashes = 0
        threading.Thread(target=self._read, daemon=True).start()
        target = self.call("Target.createTarget", url="about:blank")["targetId"]
        self._session = self.call("Target.attachToTarget", targetId=target, flatten=True)["sessionId"]
        for domain in ("Page", "Runtime", "Network", "Log", "Inspector"):
            self.call(f"{domain}.enable")
        self.resize(*size)

    def resize(self, width: int, height: int, scale: float = 1) -> None:
        """Sets the size of the page in its own pixels; at 200 per cent that is half of the screen's."""
        self.call(
            "Emulation.setDeviceMetricsOverride", width=width, height=height, deviceScaleFactor=scale, mobile=False
        )

    def _read(self) -> None:
        rest = b""
        while data := os.read(self._reader, 1 << 16):
            *messages, rest = (rest + data).split(b"\0")
            for message in map(json.loads, messages):
                if "id" in message:
                    self._answers.put(message)
                else:
                    self._note(message["method"], message.get("params", {}))
        self._answers.put({"id": None})

    def _note(self, method: str, params: Dict[str, Any]) -> None:
        if method == "Network.requestWillBeSent":
            self.requests.append(params["request"]["url"])
        elif method == "Page.javascriptDialogOpening":
            # The page asks before it is left.
            self.asked_to_stay += 1
            self._send("Page.handleJavaScriptDialog", {"accept": True})
        elif method == "Inspector.targetCrashed":
            self.crashes += 1
        elif method == "Log.entryAdded":
            self.log.append(params["entry"]["text"])
        elif method == "Runtime.exceptionThrown":
            details = params["exceptionDetails"]
            self.log.append(details.get("exception", {}).get("description") or details["text"])
        elif method == "Runtime.consoleAPICalled":
            self.log.append(" ".join(str(each.get("value", each.get("description"))) for each in params["args"]))

    def _send(self, method: str, params: Dict[str, Any]) -> int:
        """Sends a call, and returns its number."""
        with self._turn:
            self._last += 1
            message = {"id": self._last, "method": method, "params": params}
            if self._session:
                message["sessionId"] = self._session
            data = json.dumps(message).encode() + b"\0"
            while data:
                data = data[os.write(self._writer, data) :]
            return self._last

    def call(self, method: str, **params: Any) -> Any:
        """The result of a method of the protocol."""
        sent = self._send(method, params)
        while True:
            answer = self._answers.get(timeout=patient(SECONDS))
            if answer["id"] is None:
                # A later request fails at once, too.
                self._answers.put(answer)
                raise Failed("the browser ended")
            if answer["id"] == sent:
                break
        if "error" in answer:
            raise Failed(f"{method}: {answer['error']['message']}")
        return answer["result"]

    def open(self, address: str) -> None:
        """Opens a page, and waits until it is ready."""
        self.call("Page.navigate", url=address)
        self.until(
            "document.readyState === 'complete' && document.body.classList.contains('ready') && Page.readyAfter > 0"
        )

    def ask(self, expression: str) -> Any:
        """The value of an expression in the page, once it is settled. Raises Failed with an exception of it."""
        answer = self.call(
            "Runtime.evaluate", expression=expression, awaitPromise=True, returnByValue=True, userGesture=True
        )
        if "exceptionDetails" in answer:
            details = answer["exceptionDetails"]
            raise Failed(details.get("exception", {}).get("description") or details["text"])
        return answer["result"].get("value")

    def until(self, condition: str, seconds: int = PATIENCE) -> Any:
        """Waits until an expression is true."""
        waits = f"""new Promise((done, fail) => {{
            const end = performance.now() + {1000 * patient(seconds)};
            const look = () => {{
                let held = false;
                try {{ held = {condition}; }} catch (fault) {{ }}
                held ? done(true) : performance.now() > end ? fail(new Error('waited in vain')) : setTimeout(look, 20);
            }};
            look();
        }})"""
        for _ in range(50):
            try:
                return self.ask(waits)
            except Failed as fault:
                # A page that is being opened discards a request to the one before it.
                if "context" not in str(fault) and "navigated" not in str(fault):
                    raise Failed(f"waited in vain for {condition}") from None
        raise Failed(f"waited in vain for {condition}")

    def mouse(self, kind: str, x: float, y: float, count: int = 1, modifiers: int = 0) -> None:
        """An event of the mouse with its left button: `mousePressed`, `mouseMoved` or `mouseReleased`; modifiers as of keys."""
        self.call(
            "Input.dispatchMouseEvent",
            type=kind,
            x=x,
            y=y,
            button="left",
            buttons=int(kind != "mouseReleased"),
            clickCount=count,
            modifiers=modifiers,
        )

    def drag(self, places: Sequence[Place], is_released: bool = True, modifiers: int = 0) -> None:
        """Presses at the first of some places, and moves over the others."""
        self.mouse("mousePressed", *places[0], modifiers=modifiers)
        for place in places[1:]:
            self.mouse("mouseMoved", *place, modifiers=modifiers)
            self.frame()
        if is_released:
            self.mouse("mouseReleased", *places[-1], modifiers=modifiers)
            self.frame()

    def touch(self, places: Sequence[Place]) -> None:
        """Puts a finger down at the first of some places, and moves it over the others."""
        for kind, place in [("touchStart", places[0]), *(("touchMove", each) for each in places[1:]), ("touchEnd", None)]:
            points = [] if place is None else [{"x": place[0], "y": place[1]}]
            self.call("Input.dispatchTouchEvent", type=kind, touchPoints=points)
            self.frame()

    def click(self, x: float, y: float, count: int = 1) -> None:
        """Clicks, or clicks twice."""
        for each in range(1, count + 1):
            self.mouse("mousePressed", x, y, each)
            self.mouse("mouseReleased", x, y, each)

    def frame(self) -> None:
        """Waits until the last changes are on the screen."""
        self.ask("new Promise(done => requestAnimationFrame(() => requestAnimationFrame(() => done(true))))")

    def key(self, name: str, code: int = 0, modifiers: int = 0) -> None:
        """Presses a key by its name, as `ArrowLeft`; modifiers are 1 Alt, 2 Ctrl, 4 Meta, 8 Shift."""
        more = {"key": name, "windowsVirtualKeyCode": code, "modifiers": modifiers}
        self.call("Input.dispatchKeyEvent", type="rawKeyDown", **more)
        self.call("Input.dispatchKeyEvent", type="keyUp", **more)

    def picture(self, path: Union[str, "os.PathLike[str]"]) -> None:
        """Writes the screen as a PNG."""
        import base64

        with open(path, "wb") as file:
            file.write(base64.b64decode(self.call("Page.captureScreenshot", format="png")["data"]))

    def close(self) -> None:
        """Ends the browser, and removes its folder."""
        try:
            self._session = None
            self.call("Browser.close")
            self.process.wait(20)
        except (Failed, OSError, queue.Empty, subprocess.TimeoutExpired):
            self.process.kill()
            self.process.wait()
        shutil.rmtree(self.folder, ignore_errors=True)
