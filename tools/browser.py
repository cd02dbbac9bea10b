"""A headless Chromium, driven by its DevTools protocol: opens tabs, moves the pointer, presses keys, takes pictures.

    async with Browser() as browser:
        tab = await browser.open("http://127.0.0.1:8080/")
        await tab.click(100, 100)

What the console of a tab says as an error or a warning, and each exception that nothing caught, is kept in `tab.faults`.
"""

import asyncio
import base64
import itertools
import json
import os
import shutil
import subprocess
import tempfile
from pathlib import Path

import aiohttp

PATIENCE = 90
KEYS = {
    "Enter": ("Enter", 13, "\r"), "Escape": ("Escape", 27, ""), "Delete": ("Delete", 46, ""), "Tab": ("Tab", 9, ""), " ": ("Space", 32, " "),
    "ArrowLeft": ("ArrowLeft", 37, ""), "ArrowUp": ("ArrowUp", 38, ""), "ArrowRight": ("ArrowRight", 39, ""), "ArrowDown": ("ArrowDown", 40, ""),
    "Backspace": ("Backspace", 8, ""), "Home": ("Home", 36, ""), "End": ("End", 35, ""), "F2": ("F2", 113, ""),
}
ALT, CONTROL, SHIFT = 1, 2, 8


class Fault(Exception):
    """The browser refused a command, or a script in the page failed."""


class Left(Fault):
    """The page was left before its answer."""


LEFT = ("Inspected target navigated or closed", "Execution context was destroyed", "Cannot find context with specified id")
"""What the browser says of that."""


def words_of(folder):
    """How Chromium is started: without a window, and with the colours as they are."""
    return [
        "nice", shutil.which("chromium") or "chromium", "--headless=new", "--no-sandbox", "--remote-debugging-port=0", f"--user-data-dir={folder}",
        "--no-first-run", "--disable-gpu", "--force-color-profile=srgb", "--disable-lcd-text", "--hide-scrollbars", "--disable-extensions",
        "--disable-background-timer-throttling", "--disable-renderer-backgrounding", "--disable-backgrounding-occluded-windows",
        "--disable-dev-shm-usage", "--disable-background-networking", "--disable-component-update", "about:blank",
    ]


class Browser:
    """One run of Chromium, with a new profile."""

    def __init__(self, width=1200, height=800):
        self.size = {"width": width, "height": height}
        self._folder = tempfile.TemporaryDirectory(ignore_cleanup_errors=True)
        self._numbers = itertools.count(1)
        self._waiting = {}
        self._tabs = {}

    async def __aenter__(self):
        environment = {**os.environ, "HOME": self._folder.name}
        self._process = subprocess.Popen(words_of(self._folder.name), stdout=subprocess.DEVNULL, stderr=subprocess.DEVNULL,
                                         env=environment)
        port, path = (await self._port()).split("\n")[:2]
        self._client = aiohttp.ClientSession()
        self._socket = await self._client.ws_connect(f"ws://127.0.0.1:{port}{path}", max_msg_size=0)
        self._reader = asyncio.create_task(self._read())
        return self

    async def __aexit__(self, *_):
        self._reader.cancel()
        await self._client.close()
        self._process.terminate()
        try:
            self._process.wait(PATIENCE)
        except subprocess.TimeoutExpired:
            self._process.kill()
            self._process.wait()
        self._folder.cleanup()

    async def _port(self):
        file = Path(self._folder.name) / "DevToolsActivePort"
        for _ in range(PATIENCE * 20):
            if self._process.poll() is not None:
                raise Fault(f"chromium ended with {self._process.returncode}")
            if file.exists() and "\n" in file.read_text():
                return file.read_text()
            await asyncio.sleep(0.05)
        raise Fault("chromium does not start")

    async def _read(self):
        async for message in self._socket:
            found = message.json()
            if "id" in found:
                waiting = self._waiting.pop(found["id"])
                if not waiting.done():
                    waiting.set_result(found)
            elif found.get("sessionId") in self._tabs:
                self._tabs[found["sessionId"]].take(found["method"], found["params"])

    async def command(self, method, session=None, **values):
        """Sends a command, and gives its result."""
        number = next(self._numbers)
        self._waiting[number] = asyncio.get_running_loop().create_future()
        message = {"id": number, "method": method, "params": values, **({"sessionId": session} if session else {})}
        await self._socket.send_str(json.dumps(message))
        found = await asyncio.wait_for(self._waiting[number], PATIENCE)
        if "error" in found:
            said = found["error"]["message"]
            raise (Left if said in LEFT else Fault)(f"{method}: {said}")
        return found["result"]

    async def downloads(self, folder):
        """Puts what is downloaded into a folder from now on."""
        await self.command("Browser.setDownloadBehavior", behavior="allow", downloadPath=str(folder))

    async def open(self, address):
        """Opens a tab."""
        target = (await self.command("Target.createTarget", url="about:blank", newWindow=True))["targetId"]
        session = (await self.command("Target.attachToTarget", targetId=target, flatten=True))["sessionId"]
        tab = Tab(self, target, session)
        self._tabs[session] = tab
        for domain in ("Runtime", "Log", "Page", "Network"):
            await tab.command(f"{domain}.enable")
        await tab.command("Emulation.setDeviceMetricsOverride", deviceScaleFactor=1, mobile=False, **self.size)
        await tab.command("Page.navigate", url=address)
        await tab.until("document.readyState === 'complete'")
        return tab


class Tab:
    """A tab of the browser."""

    def __init__(self, browser, target, session):
        self._browser, self._target, self._session = browser, target, session
        self.faults = []
        self.fetched = []
        self.place = (0, 0)
        """Where the pointer is."""

    def take(self, method, values):
        """Takes an event of the tab."""
        if method == "Runtime.exceptionThrown":
            details = values["exceptionDetails"]
            self.faults.append(details.get("exception", {}).get("description", details["text"]))
        elif method == "Runtime.consoleAPICalled" and values["type"] in ("error", "warning", "assert"):
            self.faults.append(" ".join(str(it.get("value", it.get("description"))) for it in values["args"]))
        elif method == "Log.entryAdded" and values["entry"]["level"] in ("error", "warning"):
            self.faults.append(f"{values['entry']['text']} {values['entry'].get('url', '')}")
        elif method == "Network.responseReceived":
            self.fetched.append((values["response"]["url"], values["response"]["status"]))

    async def command(self, method, **values):
        return await self._browser.command(method, self._session, **values)

    async def close(self):
        await self._browser.command("Target.closeTarget", targetId=self._target)

    async def value(self, script):
        """The value of an expression in the page, when it is settled."""
        found = await self.command("Runtime.evaluate", expression=script, awaitPromise=True, returnByValue=True)
        if "exceptionDetails" in found:
            details = found["exceptionDetails"]
            raise Fault(f"{script}: {details.get('exception', {}).get('description', details['text'])}")
        return found["result"].get("value")

    async def until(self, script, seconds=PATIENCE):
        """Waits until an expression is true, asked fifty times a second; raises TimeoutError where that takes longer. The page may be left meanwhile."""
        end = asyncio.get_running_loop().time() + seconds
        while not await self._is_so(script):
            if asyncio.get_running_loop().time() > end:
                raise TimeoutError(f"not within {seconds} s: {script}")
            await asyncio.sleep(0.02)

    async def _is_so(self, script):
        try:
            return await self.value(script)
        except Left:
            return False

    # -- pointer and keys ------------------------------------------------------------------------------------------

    async def pointer(self, kind, x, y, held=True, **more):
        values = {"button": "left" if held else "none", "buttons": int(held), **more}
        self.place = (x, y)
        await self.command("Input.dispatchMouseEvent", type=kind, x=x, y=y, **values)

    async def click(self, x, y, count=1):
        """Clicks; twice, where the count is 2."""
        for number in range(1, count + 1):
            await self.drag([(x, y)], count=number)

    async def drag(self, points, modifiers=0, count=1, button="left"):
        """Presses at the first point, moves over the others, and releases at the last."""
        (x, y), *others = points
        more = {"modifiers": modifiers, "button": button, "buttons": 4 if button == "middle" else 1}
        await self.pointer("mouseMoved", x, y, held=False)
        await self.pointer("mousePressed", x, y, clickCount=count, **more)
        for x, y in others:
            await self.pointer("mouseMoved", x, y, **more)
        await self.pointer("mouseReleased", x, y, clickCount=count, **more)

    async def wheel(self, x, y, down, across=0, modifiers=0):
        await self.pointer("mouseWheel", x, y, held=False, deltaX=across, deltaY=down, modifiers=modifiers)

    async def touch(self, kind, *points):
        """Fingers: touchStart, touchMove, touchEnd."""
        await self.command("Input.dispatchTouchEvent", type=kind, touchPoints=[{"x": x, "y": y, "id": k} for k, (x, y) in enumerate(points)])

    async def tap(self, x, y):
        """Taps. A finger that stays for no time makes no click."""
        await self.touch("touchStart", (x, y))
        await asyncio.sleep(0.05)
        await self.touch("touchEnd")

    async def key(self, key, modifiers=0, **more):
        """Presses a key: a character, or a name of KEYS; `commands` names what the browser does with it, as copy or paste, and `code` its place."""
        code, number, text = KEYS.get(key, (key, ord(key[0].upper()), key))
        text = "" if modifiers & CONTROL else text
        values = {"code": code, **more, "key": key, "windowsVirtualKeyCode": number, "modifiers": modifiers}
        await self.command("Input.dispatchKeyEvent", type="keyDown" if text else "rawKeyDown", **values, **({"text": text} if text else {}))
        await self.command("Input.dispatchKeyEvent", type="keyUp", **values)

    # -- pictures --------------------------------------------------------------------------------------------------

    async def box_of(self, selector):
        """The box of an element, which is brought into view: x, y, width, height."""
        box = f"(it => (it.scrollIntoView({{block: 'nearest'}}), it.getBoundingClientRect()))(document.querySelector({json.dumps(selector)}))"
        return await self.value(f"(({{x, y, width, height}}) => [x, y, width, height])({box})")

    async def screenshot(self, box=None):
        """The PNG of the tab, or of a box of it."""
        clip = {"clip": {**dict(zip(("x", "y", "width", "height"), box)), "scale": 1}} if box else {}
        return base64.b64decode((await self.command("Page.captureScreenshot", format="png", **clip))["data"])
