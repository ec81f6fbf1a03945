"""A real browser, driven by hand: Debian's chromium without a window, spoken to over a pair of pipes (its remote debugging pipe)."""
import base64
import json
import os
import select
import shutil
import subprocess
import tempfile
import time

SECONDS = 60  # for one answer
INSTALLING = ["timeout", "--kill-after=10", "300", "sh", "-c", "apt-get update && apt-get install -y --no-install-recommends chromium"]


def program():
    """The path of the browser, or None."""
    return shutil.which("chromium") or shutil.which("chromium-browser")


def install():
    """Installs it where that can be done in five minutes. Why not, or None."""
    if program():
        return None
    if os.geteuid() != 0 or not shutil.which("apt-get"):
        return "there is no chromium, and it cannot be installed here"
    quiet = dict.fromkeys(("stdin", "stdout", "stderr"), subprocess.DEVNULL)
    subprocess.run(INSTALLING, env={**os.environ, "DEBIAN_FRONTEND": "noninteractive"}, **quiet)
    return None if program() else "there is no chromium, and it could not be installed"


def missing():
    """Why there is no browser to be had, or None."""
    why = install()
    if why:
        return why
    try:
        with Browser():
            return None
    except (RuntimeError, OSError) as fault:
        return f"chromium does not start here: {fault}"


class Browser:
    """One page at a time. Use it in a `with`."""

    def __enter__(self):
        self.folder = tempfile.TemporaryDirectory()
        ours, its = os.pipe(), os.pipe()
        flags = ["--headless", "--disable-gpu", "--no-first-run", "--disable-background-networking", "--disable-dev-shm-usage",
                 "--remote-debugging-pipe", f"--user-data-dir={self.folder.name}"] + ["--no-sandbox"] * (os.geteuid() == 0)
        command = f'exec "$0" "$@" 3<&{ours[0]} 4>&{its[1]}'
        self.process = subprocess.Popen(["sh", "-c", command, program(), *flags, "about:blank"], pass_fds=(ours[0], its[1]),
                                        stdout=subprocess.DEVNULL, stderr=subprocess.DEVNULL)
        os.close(ours[0])
        os.close(its[1])
        self.out, self.into, self.given, self.number, self.page, self.faults = ours[1], its[0], b"", 0, None, []
        try:
            self.attach()
        except (RuntimeError, OSError):
            self.__exit__()
            raise
        return self

    def __exit__(self, *_):
        os.close(self.out)
        self.process.terminate()
        try:
            self.process.wait(5)
        except subprocess.TimeoutExpired:
            self.process.kill()
            self.process.wait()
        os.close(self.into)
        shutil.rmtree(self.folder.name, ignore_errors=True)

    def message(self):
        """The next message that the browser sends; messages end with a zero byte."""
        while b"\0" not in self.given:
            ready, _, _ = select.select([self.into], [], [], SECONDS)
            given = os.read(self.into, 1 << 16) if ready else b""
            if not given:
                raise RuntimeError("the browser has gone" if ready else f"the browser has said nothing for {SECONDS} seconds")
            self.given += given
        message, _, self.given = self.given.partition(b"\0")
        return json.loads(message)

    def heard(self):
        """The next message. What goes wrong in the page is kept."""
        message = self.message()
        if message.get("method") == "Runtime.exceptionThrown":
            self.faults.append(message["params"]["exceptionDetails"].get("exception", {}).get("description", "a fault"))
        return message

    def ask(self, method, **settings):
        """What the browser answers. What it tells of itself in between is passed over."""
        self.number += 1
        call = {"id": self.number, "method": method, "params": settings, **({"sessionId": self.page} if self.page else {})}
        os.write(self.out, json.dumps(call).encode() + b"\0")
        while (answer := self.heard()).get("id") != self.number:
            pass
        if "error" in answer:
            raise RuntimeError(f"{method}: {answer['error']}")
        return answer["result"]

    def first_page(self):
        """It may not be there at once."""
        until = time.monotonic() + SECONDS
        while time.monotonic() < until:
            pages = [each["targetId"] for each in self.ask("Target.getTargets")["targetInfos"] if each["type"] == "page"]
            if pages:
                return pages[0]
            time.sleep(0.1)
        raise RuntimeError("the browser has no page")

    def attach(self):
        self.page = self.ask("Target.attachToTarget", targetId=self.first_page(), flatten=True)["sessionId"]
        self.ask("Page.enable")
        self.ask("Runtime.enable")
        self.ask("Emulation.setFocusEmulationEnabled", enabled=True)

    def open(self, path, place=""):
        self.ask("Page.navigate", url="about:blank")
        self.ask("Page.navigate", url=f"file://{path}{place}")
        while self.run("document.readyState") != "complete":
            time.sleep(0.02)

    def run(self, script):
        """The value of a script in the page."""
        answer = self.ask("Runtime.evaluate", expression=script, returnByValue=True, awaitPromise=True)
        if "exceptionDetails" in answer:
            raise RuntimeError(str(answer["exceptionDetails"].get("exception", answer["exceptionDetails"])))
        return answer["result"].get("value")

    def key(self, name, code, text=""):
        """A key pressed and let go, as by a hand."""
        about = {"key": name, "code": name if name != " " else "Space", "windowsVirtualKeyCode": code}
        self.ask("Input.dispatchKeyEvent", type="keyDown", **about, **({"text": text} if text else {}))
        self.ask("Input.dispatchKeyEvent", type="keyUp", **about)

    def size(self, width, height):
        self.ask("Emulation.setDeviceMetricsOverride", width=width, height=height, deviceScaleFactor=1, mobile=False)

    def media(self, kind="", scheme="light"):
        """kind is `print` or nothing; scheme is light or dark."""
        self.ask("Emulation.setEmulatedMedia", media=kind, features=[{"name": "prefers-color-scheme", "value": scheme}])

    def picture(self):
        return base64.b64decode(self.ask("Page.captureScreenshot", format="png")["data"])
