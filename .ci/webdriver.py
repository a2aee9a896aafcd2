"""A client of chromedriver (W3C WebDriver, over HTTP), with the standard library alone."""
import base64
import contextlib
import json
import os
import signal
import socket
import subprocess
import time
import urllib.error
import urllib.request


def free_port():
    with socket.socket() as it:
        it.bind(("127.0.0.1", 0))
        return it.getsockname()[1]


class Browser:
    """A Chromium of its own without a window, that ends with `quit` or with the block that it was made for."""

    def __init__(self, room, width=1280, height=860):
        self.port, self.base = free_port(), None
        how = {name: subprocess.DEVNULL for name in ("stdin", "stdout", "stderr")}
        how["env"] = {**os.environ, "HOME": room, "TMPDIR": room}
        # A group of its own, so that nothing of it is left.
        self.driver = subprocess.Popen(["chromedriver", f"--port={self.port}"], start_new_session=True, **how)
        try:
            self.wait_for_driver()
            self.begin(room, f"--window-size={width},{height}")
        except BaseException:
            self.quit()
            raise

    def begin(self, room, size):
        flags = "--headless=new --no-sandbox --disable-gpu --disable-dev-shm-usage --no-first-run --hide-scrollbars"
        options = {"args": [*flags.split(), size, f"--user-data-dir={room}/profile"]}
        options["prefs"] = {"download.default_directory": f"{room}/downloads"}
        wanted = {"goog:chromeOptions": options, "goog:loggingPrefs": {"browser": "ALL", "performance": "ALL"}}
        made = self.call("POST", "/session", {"capabilities": {"alwaysMatch": wanted}})
        self.base, self.version = f"/session/{made['sessionId']}", made["capabilities"]["browserVersion"]
        self.call("POST", self.base + "/timeouts", {"script": 120000, "pageLoad": 60000})

    def wait_for_driver(self):
        for _ in range(200):
            try:
                return self.call("GET", "/status")
            except OSError:
                time.sleep(0.1)
        raise RuntimeError("chromedriver does not answer")

    def call(self, method, path, body=None):
        data = json.dumps(body).encode() if body is not None else None
        request = urllib.request.Request(
            f"http://127.0.0.1:{self.port}{path}", data=data, method=method, headers={"Content-Type": "application/json"}
        )
        try:
            with urllib.request.urlopen(request, timeout=150) as answer:
                return json.load(answer)["value"]
        except urllib.error.HTTPError as error:
            raise RuntimeError(error.read().decode()[:2000]) from None

    def go(self, url):
        self.call("POST", self.base + "/url", {"url": url})

    def js(self, script, *given):
        return self.call("POST", self.base + "/execute/sync", {"script": script, "args": list(given)})

    def wait(self, script, *given):
        """Runs a script that ends by calling `done(value)`."""
        script = f"const done = arguments[arguments.length - 1]; {script}"
        return self.call("POST", self.base + "/execute/async", {"script": script, "args": list(given)})

    def command(self, name, **given):
        return self.call("POST", self.base + "/goog/cdp/execute", {"cmd": name, "params": given})

    def find(self, selector):
        return next(iter(self.call("POST", self.base + "/element", {"using": "css selector", "value": selector}).values()))

    def keys(self, selector, text):
        self.call("POST", self.base + f"/element/{self.find(selector)}/value", {"text": text})

    def click(self, selector):
        self.call("POST", self.base + f"/element/{self.find(selector)}/click", {})

    def shot(self, path):
        with open(path, "wb") as file:
            file.write(base64.b64decode(self.call("GET", self.base + "/screenshot")))

    def logs(self, kind="browser"):
        return self.call("POST", self.base + "/se/log", {"type": kind})

    def quit(self):
        try:
            if self.base:
                self.call("DELETE", self.base)
        except (OSError, RuntimeError):
            pass  # what is left is ended below
        finally:
            with contextlib.suppress(ProcessLookupError):
                os.killpg(self.driver.pid, signal.SIGKILL)
            self.driver.wait()

    def __enter__(self):
        return self

    def __exit__(self, *_):
        self.quit()
