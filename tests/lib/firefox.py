"""Debian's `firefox-esr`, for tools: kept without a window, and told what to do by its own protocol (Marionette), over a socket."""
import base64, json, os, shutil, socket, subprocess, time
from . import ports
from .waiting import Wrong, wait_for

FIREFOX = shutil.which("firefox-esr") or shutil.which("firefox")
WAIT = 300


class Firefox:
    """A browser that stays, with a profile in this folder. It reaches no network."""

    def __init__(self, folder):
        os.makedirs(folder)
        self.port = ports.free_port()
        all_ = {"marionette.port": self.port, "network.proxy.type": 1, "network.proxy.http": "127.0.0.1", "network.proxy.http_port": 9, "network.proxy.ssl": "127.0.0.1",
                "network.proxy.ssl_port": 9, "datareporting.policy.dataSubmissionEnabled": False, "browser.shell.checkDefaultBrowser": False, "app.update.enabled": False}
        with open(f"{folder}/user.js", "w", encoding="utf-8") as it:
            it.writelines(f'user_pref("{name}", {json.dumps(value)});\n' for name, value in all_.items())
        words = [FIREFOX, "--headless", "--no-remote", "--marionette", "--profile", folder]
        self.ran = subprocess.Popen(words, stdin=subprocess.DEVNULL, stdout=subprocess.DEVNULL, stderr=subprocess.DEVNULL, env={**os.environ, "HOME": folder, "MOZ_CRASHREPORTER_DISABLE": "1"})
        self.held, self.number = b"", 0
        try:
            self.to = wait_for("Firefox", self.connected, WAIT)
            self.to.settimeout(WAIT)
            self.message()
            self.version = "Firefox " + self.call("WebDriver:NewSession", capabilities={"alwaysMatch": {"unhandledPromptBehavior": "ignore"}})["capabilities"]["browserVersion"]
        except BaseException:
            self.end()
            raise

    def connected(self):
        if self.ran.poll() is not None:
            raise Wrong(f"Firefox ended with {self.ran.returncode}")
        try:
            return socket.create_connection(("127.0.0.1", self.port), 1)
        except OSError:
            time.sleep(0.2)
            return None

    def message(self):
        """What it says next: the length of a text, a colon and that text."""
        while b":" not in self.held or len(self.held.split(b":", 1)[1]) < int(self.held.split(b":", 1)[0]):
            more = self.to.recv(1 << 16)
            if not more:
                raise Wrong("Firefox has ended")
            self.held += more
        length, rest = self.held.split(b":", 1)
        self.held = rest[int(length) :]
        return json.loads(rest[: int(length)])

    def call(self, name, **values):
        self.number += 1
        text = json.dumps([0, self.number, name, values]).encode()
        self.to.sendall(b"%d:%s" % (len(text), text))
        while True:
            found = self.message()
            if found[0] == 1 and found[1] == self.number:
                if found[2]:
                    raise Wrong(f"{name}: {found[2].get('message', found[2])}")
                return found[3]

    def go(self, address):
        self.call("WebDriver:Navigate", url=address)

    def run(self, code):
        return self.call("WebDriver:ExecuteScript", script=code, args=[])["value"]

    def wait(self, code):
        wait_for(code, lambda: self.run(f"return {code}"), WAIT, lambda: self.run("return document.body.innerText.slice(0, 400)"), 0.1)

    def choose(self, id_, files):
        """Chooses files in a field, as a person would in the window that it opens."""
        found = self.call("WebDriver:FindElement", using="css selector", value=f"#{id_}")["value"]
        self.call("WebDriver:ElementSendKeys", id=next(iter(found.values())), text="\n".join(files))

    def picture(self, name, folder):
        if folder:
            data = self.call("WebDriver:TakeScreenshot", full=False)["value"]
            with open(f"{folder}/{name}.png", "wb") as it:
                it.write(base64.b64decode(data))

    def end(self):
        self.ran.kill()
        self.ran.wait()
