"""A headless Chromium, over the two pipes of its DevTools protocol, and a headless Firefox, over Marionette."""
import base64
import json
import os
import shutil
import signal
import socket
import subprocess
import tempfile
import time

from checks.parts.files import write
from checks.parts.program import SECONDS
from checks.parts.wrong import Wrong

BROWSERS = "chromium", "chromium-browser", "google-chrome"


def chromium():
    """The path of the browser that CHROMIUM names, or of one of these; None if there is none."""
    named = filter(None, [os.environ.get("CHROMIUM"), *BROWSERS])
    return next((found for found in map(shutil.which, named) if found), None)


class Browser:
    def __init__(self, path):
        self.home = tempfile.mkdtemp()
        to_browser, self.commands = os.pipe()
        self.events, from_browser = os.pipe()
        words = [path, "--headless=new", "--remote-debugging-pipe", "--user-data-dir=" + self.home, "--no-first-run",
                 "--disable-gpu", "--disable-dev-shm-usage", "--disable-extensions", "--disable-background-networking",
                 "--disable-component-update", "--disable-sync",
                 "--disable-renderer-backgrounding", "--disable-background-timer-throttling",
                 "--disable-backgrounding-occluded-windows", "--lang=en-US", "--force-device-scale-factor=1",
                 "about:blank"]
        if os.getuid() == 0:
            words.insert(1, "--no-sandbox")

        def join():
            # The protocol's descriptors are 3 and 4.
            os.dup2(os.dup(to_browser), 13)
            os.dup2(os.dup(from_browser), 14)
            os.dup2(13, 3)
            os.dup2(14, 4)
        self.process = subprocess.Popen(words, stdin=subprocess.DEVNULL, stdout=subprocess.DEVNULL,
                                        stderr=subprocess.DEVNULL,
                                        preexec_fn=join, close_fds=False, start_new_session=True)
        os.close(to_browser)
        os.close(from_browser)
        self.held = b""
        self.number = 0
        self.noted = []

    def message(self):
        while b"\0" not in self.held:
            piece = os.read(self.events, 1 << 20)
            if not piece:
                raise Wrong("the browser has ended")
            self.held += piece
        first, self.held = self.held.split(b"\0", 1)
        return json.loads(first)

    def ask(self, method, session=None, **parameters):
        self.number += 1
        asked = {"id": self.number, "method": method, "params": parameters}
        if session:
            asked["sessionId"] = session
        data = json.dumps(asked).encode() + b"\0"
        while data:
            data = data[os.write(self.commands, data):]
        while True:
            answer = self.message()
            if answer.get("id") == self.number:
                if "error" in answer:
                    raise Wrong("%s: %s" % (method, answer["error"]["message"]))
                return answer["result"]
            self.noted.append(answer)

    def close_pages(self):
        for target in self.ask("Target.getTargets")["targetInfos"]:
            if target["type"] == "page" and target["url"] != "about:blank":
                self.ask("Target.closeTarget", targetId=target["targetId"])

    def close(self):
        try:
            self.ask("Browser.close")
            self.process.wait(10)
        except (Wrong, OSError, subprocess.TimeoutExpired):
            self.process.kill()
            self.process.wait()
        shutil.rmtree(self.home, ignore_errors=True)


# Helpers in the page: dropping files as a user would, and waiting.
HELP = r"""
window.seen = id => document.getElementById(id);
window.fileOf = (base64, name) => new File([Uint8Array.from(atob(base64), letter => letter.charCodeAt())], name);
window.until = async (holds, what) => {
  const begun = performance.now();
  while (!holds()) {
    const passed = performance.now() - begun;
    if (passed > 30000) throw new Error("waited for " + what);
    // Soon at first, and then without keeping a processor from the worker.
    await new Promise(resolve => {
      if (passed > 50) return setTimeout(resolve, 50);
      const channel = new MessageChannel();
      channel.port1.onmessage = resolve;
      channel.port2.postMessage(0);
    });
  }
};
window.panels = ["export", "proof", "two"];
window.dropOn = async (panel, ...files) => {
  const transfer = new DataTransfer();
  for (const file of files) transfer.items.add(file);
  const notes = panels.map(name => seen(name + "-note"));
  for (const note of notes) note.textContent = "";
  seen(panel + "-panel").dispatchEvent(new DragEvent("drop", {dataTransfer: transfer, bubbles: true, cancelable: true}));
  await until(() => notes.some(note => note.textContent), "a drop");
  return notes.map(note => note.textContent).join("");
};
window.cells = () => [...seen("rows").rows].map(row => [...row.cells].map(cell => cell.textContent));
window.rest = () => until(() => seen("stop").disabled, "rest");
window.lineOfPanel = panel => document.querySelector(`#${panel}-line code`)?.textContent || "";
// What a panel says, with what it says at its fields.
window.saidBy = panel => ({
  verdict: panel === "two" ? seen("two-verdict").textContent : lineOfPanel(panel), headline: seen(panel + "-verdict").textContent, style: seen(panel + "-result").className.split(" ").at(-1),
  meaning: [seen(panel + "-meaning"), ...seen(panel + "-form").querySelectorAll(".error")].map(node => node.textContent).join(" "),
  inputs: Object.fromEntries([...seen(panel + "-inputs").querySelectorAll("dt")].map(term => [term.textContent, term.nextSibling.textContent])),
});
window.pressed = async panel => {
  const verdict = seen(panel + "-verdict");
  verdict.textContent = "";
  seen(panel + "-form").requestSubmit();
  await until(() => verdict.textContent, "a verdict");
  await until(() => seen("stop").disabled && (seen("events").hidden || seen("shown").textContent), "a table");
  return saidBy(panel);
};
window.verified = async (base64, key, commitment) => {
  seen("rows").textContent = seen("shown").textContent = "";
  await dropOn("export", fileOf(base64, "events.export"));
  seen("key").value = key;
  seen("commitment").value = commitment;
  const said = await pressed("export");
  return {...said, rows: seen("events").hidden ? [] : cells(), uncommitted: seen("uncommitted").checkVisibility()};
};
window.checked = async (base64, older, newer, receipt = "") => {
  await dropOn("proof", fileOf(base64, "a.proof"));
  seen("older").value = older;
  seen("newer").value = newer;
  seen("receipt").value = receipt;
  return {...await pressed("proof"), bad: document.querySelectorAll("#picture:not([hidden]) .bad").length,
    good: document.querySelectorAll("#picture:not([hidden]) .good").length, picture: !seen("picture").hidden};
};
"""


class Page:
    """A tab with a file open in it."""

    def __init__(self, browser, path, width=900, height=900, before=None):
        """`before` is a script that runs before the page's own."""
        self.browser = browser
        target = browser.ask("Target.createTarget", url="about:blank")["targetId"]
        self.session = browser.ask("Target.attachToTarget", targetId=target, flatten=True)["sessionId"]
        for domain in ("Page", "Runtime", "DOM"):
            self.ask(domain + ".enable")
        if before:
            self.ask("Page.addScriptToEvaluateOnNewDocument", source=before)
        self.resize(width, height)
        self.open(path)

    def ask(self, method, **parameters):
        return self.browser.ask(method, self.session, **parameters)

    def resize(self, width, height):
        self.ask("Emulation.setDeviceMetricsOverride", width=width, height=height, deviceScaleFactor=1, mobile=False)

    def scheme(self, value):
        self.ask("Emulation.setEmulatedMedia", features=[{"name": "prefers-color-scheme", "value": value}])

    def open(self, path):
        self.ask("Page.navigate", url="file://" + path)
        self.wait("document.readyState === 'complete' && "
                  "!document.getElementById('state')?.textContent.startsWith('This page needs')")
        self.run(HELP)

    def wait(self, holds):
        end = time.time() + SECONDS
        while not self.run(holds):
            if time.time() > end:
                raise Wrong("waited for " + holds)
            time.sleep(0.02)

    def run(self, text):
        """The value of an expression in the page, awaited."""
        done = self.ask("Runtime.evaluate", expression=text, awaitPromise=True, returnByValue=True, userGesture=True)
        if "exceptionDetails" in done:
            details = done["exceptionDetails"]
            raise Wrong("the page threw: %s" % details.get("exception", {}).get("description", details["text"]))
        return done["result"].get("value")

    def call(self, name, *words):
        return self.run("%s(%s)" % (name, ", ".join(json.dumps(word) for word in words)))

    def set_file(self, selector, path):
        root = self.ask("DOM.getDocument")["root"]["nodeId"]
        node = self.ask("DOM.querySelector", nodeId=root, selector=selector)["nodeId"]
        self.ask("DOM.setFileInputFiles", files=[path], nodeId=node)

    def press(self, key, code=None):
        codes = {"Tab": 9, "Enter": 13, "ArrowRight": 39, "ArrowLeft": 37, "Home": 36, "End": 35, " ": 32}
        extra = {"text": "\r"} if key == "Enter" else {"text": " "} if key == " " else {}
        for kind in ("keyDown", "keyUp"):
            self.ask("Input.dispatchKeyEvent", type=kind, key=key, code=code or key, windowsVirtualKeyCode=codes[key],
                     **(extra if kind == "keyDown" else {}))

    def picture(self, path, start):
        """A picture of the window, with an element at its top."""
        self.run("document.querySelector(%s).scrollIntoView()" % json.dumps(start))
        data = self.ask("Page.captureScreenshot", format="png")["data"]
        write(path, base64.b64decode(data))


class Firefox:
    """A headless Firefox with one page, over its Marionette protocol."""

    def __init__(self, path):
        self.home = tempfile.mkdtemp()
        with open(os.path.join(self.home, "user.js"), "w", encoding="ascii") as file:
            file.write('user_pref("marionette.port", 0);\nuser_pref("datareporting.policy.dataSubmissionEnabled", '
                       'false);\n')
        self.process = subprocess.Popen([path, "--headless", "--marionette", "--no-remote", "--profile", self.home],
                                        stdin=subprocess.DEVNULL,
                                        stdout=subprocess.DEVNULL, stderr=subprocess.DEVNULL, start_new_session=True,
                                        env={**os.environ, "MOZ_CRASHREPORTER_DISABLE": "1"})
        try:
            self.connect()
        except BaseException:
            self.close()
            raise

    def connect(self):
        self.stream = socket.create_connection(("127.0.0.1", self.port())).makefile("rwb")
        self.number = 0
        self.read()
        self.ask("WebDriver:NewSession", capabilities={})
        self.ask("WebDriver:SetTimeouts", script=1000 * SECONDS)

    def port(self):
        path, end = os.path.join(self.home, "MarionetteActivePort"), time.time() + SECONDS
        while time.time() < end:
            if os.path.exists(path):
                with open(path, encoding="ascii") as file:
                    digits = file.read()
                if digits:
                    return int(digits)
            time.sleep(0.1)
        raise Wrong("Firefox gives no port")

    def read(self):
        """A message: its length, a colon, and so many bytes of JSON."""
        digits = b""
        while not digits.endswith(b":"):
            digits += self.stream.read(1)
        return json.loads(self.stream.read(int(digits[:-1])))

    def ask(self, command, **parameters):
        self.number += 1
        data = json.dumps([0, self.number, command, parameters]).encode()
        self.stream.write(b"%d:%s" % (len(data), data))
        self.stream.flush()
        _, _, error, result = self.read()
        if error:
            raise Wrong("%s: %s" % (command, error["message"]))
        return result.get("value")

    def open(self, path):
        self.ask("WebDriver:Navigate", url="file://" + path)
        self.ask("WebDriver:ExecuteScript", script=HELP, args=[], newSandbox=False)
        self.run("until(() => seen('main').checkVisibility(), 'the page')")

    def run(self, text):
        return self.ask("WebDriver:ExecuteScript", script="return (async () => (%s))()" % text, args=[],
                        newSandbox=False)

    wait, call = Page.wait, Page.call

    def close(self):
        os.killpg(self.process.pid, signal.SIGKILL)
        self.process.wait()
        shutil.rmtree(self.home, ignore_errors=True)
