"""What browser.py stands on: Debian's Chromium, led by its driver; a relay between the browser and the server, which notes each request
and can be told to lie; and a listener that nobody may ask for anything."""

import base64
import http.client
import http.server
import json
import os
import struct
import sys
import tempfile
import threading
import time
import zlib

sys.path.insert(0, os.path.join(os.path.dirname(os.path.abspath(__file__)), "../tools"))

from server import ROOT, fail, wozhinnam

try:
    from selenium import webdriver
    from selenium.webdriver.chrome.options import Options
    from selenium.webdriver.chrome.service import Service
    from selenium.webdriver.common.by import By
    from selenium.webdriver.common.keys import Keys
except ImportError:
    fail("Debian's python3-selenium is needed, by Debian's own Python: /usr/bin/python3 %s" % sys.argv[0])

MIB = 1 << 20
PART = 16 * MIB
# Seconds for one thing on the page, on a machine that is busy.
PATIENCE = int(os.environ.get("PATIENCE", 300))
BROWSER = ["--headless=new", "--no-sandbox", "--disable-gpu", "--window-size=1200,900", "--disable-dev-shm-usage",
           "--disable-background-networking", "--host-resolver-rules=MAP gate.test 127.0.0.1"]


def check(holds, what):
    if not holds:
        raise AssertionError(what)


def check_same(found, wanted):
    check(found == wanted, "found %r, wanted %r" % (found, wanted))


def quoted(name):
    """A name in a URL."""
    return "".join("%%%02X" % byte for byte in name.encode())


def png(width, height):
    """A picture that isn't of one colour."""
    rows = b"".join(b"\0" + b"".join(bytes((x * 255 // width, y * 255 // height, 160)) for x in range(width)) for y in range(height))

    def chunk(kind, data):
        return struct.pack(">I", len(data)) + kind + data + struct.pack(">I", zlib.crc32(kind + data))

    head = chunk(b"IHDR", struct.pack(">IIBBBBB", width, height, 8, 2, 0, 0, 0))
    return b"\x89PNG\r\n\x1a\n" + head + chunk(b"IDAT", zlib.compress(rows)) + chunk(b"IEND", b"")


class Listener(http.server.ThreadingHTTPServer):
    """A server of threads whose answers are `answer(handler, body)`."""

    daemon_threads = True
    request_queue_size = 64

    def __init__(self, answer):
        self.answer, self.connections = answer, 0

        class Handler(http.server.BaseHTTPRequestHandler):
            protocol_version = "HTTP/1.1"

            def log_message(self, *words):
                pass

            def any(self):
                self.server.answer(self, self.rfile.read(int(self.headers.get("Content-Length", 0))))

            do_GET = do_HEAD = do_PUT = do_POST = do_DELETE = do_OPTIONS = any

        super().__init__(("127.0.0.1", 0), Handler)
        self.url = "http://127.0.0.1:%d/" % self.server_address[1]
        threading.Thread(target=self.serve_forever, daemon=True).start()

    def get_request(self):
        got = super().get_request()
        self.connections += 1
        return got

    def handle_error(self, request, address):
        pass


def reply(handler, status, fields, body):
    handler.send_response_only(status)
    for name, value in fields:
        handler.send_header(name, value)
    if status != 304:
        handler.send_header("Content-Length", str(len(body)))
    handler.end_headers()
    if handler.command != "HEAD" and status != 304:
        handler.wfile.write(body)


class Relay:
    """Passes requests on to the server. `change` makes another status and body of a reply: (method, path, status, body); `dress` other fields of
    one that has a file's bytes: (path, fields)."""

    def __init__(self, address):
        self.address, self.seen, self.statuses, self.change, self.dress = address, [], [], None, None
        self.listener = Listener(self.answer)
        self.url = self.listener.url

    def answer(self, handler, body):
        self.seen.append((handler.command, handler.path, dict(handler.headers)))
        behind = http.client.HTTPConnection(*self.address, timeout=PATIENCE)
        try:
            own = {name: value for name, value in handler.headers.items() if name.lower() in ("if-none-match", "if-range", "range")}
            behind.request(handler.command, handler.path, body=body if handler.command in ("PUT", "POST") else None, headers=own)
            got = behind.getresponse()
            fields = [each for each in got.getheaders() if each[0] not in ("Content-Length", "Connection")]
            status, text = got.status, got.read()
        finally:
            behind.close()
        change, dress = self.change, self.dress
        if change:
            status, text = change(handler.command, handler.path, status, text)
        if dress and handler.path.startswith("/uri/"):
            fields = dress(handler.path, fields)
        self.statuses.append((handler.path, status))
        reply(handler, status, fields, text)


def canary():
    """A listener that counts connections: nothing may connect."""
    return Listener(lambda handler, body: reply(handler, 200, [("Access-Control-Allow-Origin", "*")], b""))


class Bench:
    """The server, its relay, the browser, and the files that are given to it."""

    def __init__(self, program, pages=None, shots=None, woz=None):
        self.work = tempfile.TemporaryDirectory(prefix="browser-")
        self.shots, self.woz = shots, woz
        self.pages = os.path.abspath(pages or os.path.join(ROOT, "pages"))
        self.downloads, self.files = self.path("downloads"), self.path("files")
        os.makedirs(self.downloads)
        self.stores = [self.path("store%d" % place) for place in range(5)]
        stores = [word for store in self.stores for word in ("--store", "dir:%s:4000000000,disk" % store)]
        self.server = wozhinnam(program, "--no-sync", "--pages", self.pages, *stores, control=True)
        self.own_url = "http://%s:%d/" % self.server.address
        self.relay, self.canary = Relay(self.server.address), canary()
        self.url = self.relay.url
        self.open_browser()

    def path(self, *names):
        return os.path.join(self.work.name, *names)

    def ask(self, method, path, body=None):
        """What the server answers, past the browser and the relay."""
        behind = http.client.HTTPConnection(*self.server.address, timeout=PATIENCE)
        behind.request(method, path, body=body)
        got = behind.getresponse()
        text = got.read()
        behind.close()
        return got.status, text

    def put(self, body):
        status, cap = self.ask("PUT", "/uri", body)
        check_same(status, 200)
        return cap.decode()

    def folder(self, children):
        """The cap of a folder of (cap, metadata) by name."""
        body = {name: ["filenode", {"ro_uri": cap, "metadata": metadata}] for name, (cap, metadata) in children.items()}
        status, cap = self.ask("POST", "/uri?t=mkdir-immutable", json.dumps(body).encode())
        check_same(status, 200)
        return cap.decode()

    def listing(self, cap):
        return json.loads(self.ask("GET", "/uri/" + cap + "?t=json")[1])[1]

    # ---- the browser

    def open_browser(self):
        options = Options()
        for word in BROWSER:
            options.add_argument(word)
        options.set_capability("goog:loggingPrefs", {"browser": "ALL", "performance": "ALL"})
        try:
            self.driver = webdriver.Chrome(service=Service("/usr/bin/chromedriver"), options=options)
        except Exception as error:
            fail("Debian's chromium and chromium-driver are needed: %s" % error)
        self.driver.set_script_timeout(PATIENCE)
        self.command("Browser.setDownloadBehavior", behavior="allow", downloadPath=self.downloads)

    def command(self, name, **values):
        return self.driver.execute_cdp_cmd(name, values)

    def width(self, width, height=900):
        self.command("Emulation.setDeviceMetricsOverride", width=width, height=height, deviceScaleFactor=1, mobile=width < 600)

    def dark(self, dark):
        scheme = {"name": "prefers-color-scheme", "value": "dark" if dark else "light"}
        self.command("Emulation.setEmulatedMedia", features=[scheme])

    def shot(self, name):
        """A picture of the page, where they were asked for."""
        if self.shots:
            os.makedirs(self.shots, exist_ok=True)
            with open(os.path.join(self.shots, name + ".png"), "wb") as file:
                file.write(base64.b64decode(self.command("Page.captureScreenshot", captureBeyondViewport=False)["data"]))

    def js(self, text, *words):
        return self.driver.execute_script(text, *words)

    def awaited(self, text, *words):
        """What the body of an `async` function gives, whose arguments are `words`."""
        call = "const words = [...arguments], done = words.pop(); (async words => { %s })(words).then(done, fault => done('' + fault))"
        return self.driver.execute_async_script(call % text, *words)

    def find(self, selector):
        return self.driver.find_elements(By.CSS_SELECTOR, selector)

    def wait(self, that, what):
        end = time.monotonic() + PATIENCE
        while time.monotonic() < end:
            got = that()
            if got:
                return got
            time.sleep(0.05)
        raise AssertionError("waited in vain for %s; the page says: %s" % (what, self.main()))

    def wait_for(self, words):
        self.wait(lambda: words in self.main(), words)

    # ---- the page

    def home(self, url=None):
        self.driver.get("about:blank")
        self.driver.get(url or self.url)
        self.wait(lambda: self.find("#drop"), "the page's beginning")

    def go(self, address, url=None):
        self.driver.get("about:blank")
        self.driver.get((url or self.url) + address)
        self.settle()

    def settle(self):
        done = "const main = document.getElementById('main'); return !!main && !!main.firstElementChild " \
               "&& !document.querySelector('[aria-busy], #progress, main > noscript')"
        self.wait(lambda: self.js(done), "the page to settle")

    def main(self):
        return self.js("const main = document.getElementById('main'); return main ? main.innerText : '(no main)'")

    def said(self):
        return self.js("return document.getElementById('said').innerText")

    def title(self):
        return self.js("return document.getElementById('title').textContent")

    def results(self):
        """What was stored: names, caps and whether they were checked, the newest first."""
        return self.js("""return [...document.querySelectorAll('#results > li')].map(item => ({ cap: item.querySelector('code').textContent,
            name: item.querySelector('.name').textContent, tag: item.querySelector('.tag').textContent }))""")

    def rows(self):
        return self.js("""return [...document.querySelectorAll('#children tbody tr')].map(row =>
            [...row.cells].slice(0, 4).map((cell, i) => i ? cell.textContent : cell.querySelector('.name').textContent))""")

    def squares(self):
        return self.js("return ['good', 'bad', 'lost'].map(kind => document.querySelectorAll('.share.' + kind).length)")

    def text_shown(self):
        return self.js("return document.querySelector('#view pre').textContent")

    def give(self, field, *paths):
        """Gives files or a folder to a field, and waits until they are stored or refused."""
        before = len(self.results())
        self.driver.find_element(By.ID, field).send_keys("\n".join(paths))
        self.wait(lambda: not self.find("#progress") and (len(self.results()) > before or self.find("#failed")), "the end of storing")

    def drop(self, *paths):
        data = {"items": [], "files": list(paths), "dragOperationsMask": 1}
        for kind in ["dragEnter", "dragOver", "drop"]:
            self.command("Input.dispatchDragEvent", type=kind, x=400, y=150, data=data)

    def open_typed(self, text):
        """Types a cap, which is opened or refused at once."""
        field = self.driver.find_element(By.ID, "cap")
        field.clear()
        field.send_keys(text, Keys.ENTER)
        time.sleep(0.2)
        self.settle()

    def click(self, text):
        self.js("[...document.querySelectorAll('button, a')].find(each => each.textContent.trim() === arguments[0]).click()", text)

    def failures(self):
        return self.wait(lambda: self.find("#failed"), "what failed")[0].text

    def downloaded(self, name, wanted):
        path = os.path.join(self.downloads, name)

        def there():
            if not os.path.exists(path):
                return False
            with open(path, "rb") as file:
                return file.read() == wanted

        self.wait(there, "the download " + name)
        os.remove(path)

    def events(self, method):
        """What the browser noted of this kind since the notes were read last."""
        notes = [json.loads(entry["message"])["message"] for entry in self.driver.get_log("performance")]
        return [note["params"] for note in notes if note["method"] == method]

    def requests(self):
        return [note["request"] for note in self.events("Network.requestWillBeSent")]

    def fits(self):
        check(self.js("return document.documentElement.scrollWidth <= document.documentElement.clientWidth"), "wider than its window")

    def close(self):
        self.driver.quit()
        self.server.kill()
        self.work.cleanup()


def run(tests, bench, only=None):
    """Runs the tests, or those whose names have one of these words, and tells each with its time; how many failed."""
    failed = 0
    for test in tests:
        if only and not any(word in test.__name__ for word in only):
            continue
        began = time.monotonic()
        try:
            note = test(bench)
            print("%-62s ok %6.1f s%s" % (test.__name__, time.monotonic() - began, "  " + note if note else ""), flush=True)
        except Exception as error:
            failed += 1
            print("%-62s FAILED: %s: %s" % (test.__name__, type(error).__name__, error), flush=True)
            bench.shot("failed-" + test.__name__)
        bench.relay.change = bench.relay.dress = None
        bench.width(1200)
    return failed
