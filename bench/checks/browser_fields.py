"""What a browser makes of the gateway's own replies, for browser.py: files that are opened at their own addresses, with names and types that a query
asks for, and the page's link to such an address; what is kept, and what isn't; and where shares are, as the page shows it."""

import math
import os
import struct
import time

import browser_lies
from browser_kit import By, Keys, check, check_same, png, quoted
from fields import seal


def address(b, cap, name, more="", url=None):
    return (url or b.own_url) + "uri/" + cap + "?filename=" + quoted(name) + more


def new_file(b, size=1000):
    """A text that nobody has stored or read yet, and its cap."""
    b.files_made = getattr(b, "files_made", 0) + 1
    text = ("%d of the files of %d\n" % (b.files_made, os.getpid()) * size)[:size].encode()
    return text, b.put(text)


def share_files(b, cap):
    """The paths of a file's shares by number and server, as they lie in the folders (crates/folder_shelf/README.md)."""
    index, found = b.listing(cap)["verify_uri"].split(":")[2], {}
    for server, store in enumerate(b.stores):
        for top, _, names in os.walk(store):
            found.update({(int(name.split(".")[1]), server): os.path.join(top, name) for name in names if name.startswith(index + ".")})
    check_same(len(found), 10)
    return found


def wave(seconds=1):
    """A tone, in a file of its own making."""
    data = b"".join(struct.pack("<h", int(9000 * math.sin(i / 5))) for i in range(8000 * seconds))
    head = struct.pack("<4sIHHIIHH4sI", b"fmt ", 16, 1, 1, 8000, 16000, 2, 16, b"data", len(data))
    return b"RIFF" + struct.pack("<I", 4 + len(head) + len(data)) + b"WAVE" + head + data


def shown_alone(b, cap, name, until):
    """Opens a file at its own address, and waits until this holds in its document; the document's type."""
    b.driver.get("about:blank")
    b.driver.get(address(b, cap, name))
    b.wait(lambda: b.js("return Boolean(%s)" % until), name)
    return b.js("return document.contentType")


def what_browsers_show_is_shown_at_its_own_address(b):
    picture, sound = b.put(png(96, 64)), b.put(wave())
    check_same(shown_alone(b, picture, "a picture.PNG", "document.images[0] && document.images[0].naturalWidth === 96"), "image/png")
    b.shot("own-picture")
    check_same(shown_alone(b, b.text_cap, "notes.md", "document.body.innerText.startsWith('Notes on shares')"), "text/plain")
    check_same(shown_alone(b, b.put("Grüße, 文件\n".encode() * 9), "a.txt", "document.body.innerText.includes('Grüße, 文件')"), "text/plain")
    until = "document.querySelector('video, audio') && document.querySelector('video, audio').duration === 1"
    check_same(shown_alone(b, sound, "tone.wav", until), "audio/wav")
    # a script's text as a text
    script = b.put(browser_lies.hostile_html(b.canary.url))
    check_same(shown_alone(b, script, "page.txt", "document.body.innerText.startsWith('<!doctype html>')"), "text/plain")
    check_same(b.js("return [document.querySelectorAll('script, h1').length, window.owned === undefined]"), [0, True])
    check_same(b.canary.connections, 0)


def a_stored_document_runs_nothing_at_its_own_address(b):
    document = b"<!doctype html><title>stored</title><h1 id=hello>hello</h1><script>document.title = 'ran ' + origin; top.owned = 1</script>"
    texts = {"page.html": browser_lies.hostile_html(b.canary.url), "drawing.svg": browser_lies.hostile_svg(b.canary.url), "other.xhtml": document}
    for name, text in texts.items():
        b.driver.get("about:blank")
        b.driver.get(address(b, b.put(text), name))
        b.downloaded(name, text)
        check_same(b.js("return [document.URL, window.owned === undefined]"), ["about:blank", True])
    check_same(b.canary.connections, 0)
    # where a browser takes it for a document all the same, it has no scripts and no origin; without the field it would
    kept = ["Content-Security-Policy", "X-Content-Type-Options"]
    for left, title in [(kept, "stored"), (kept[1:], "ran " + b.url.rstrip("/"))]:
        b.relay.dress = lambda path, fields: [("Content-Type", "text/html")] + [each for each in fields if each[0] in left]
        b.driver.get("about:blank")
        b.driver.get(address(b, b.put(document), "page.html", url=b.url))
        b.relay.dress = None
        b.wait(lambda: b.find("#hello"), "the document")
        time.sleep(0.5)
        check_same(b.driver.title, title)
    check_same(b.js("return origin"), b.url.rstrip("/"))


def the_page_runs_nothing_that_is_stored(b):
    """On the page's own origin, whatever a query calls it."""
    cap = b.put(b"globalThis.owned = 1; export default 'ran'; // and more, so that it is stored")
    b.home(b.own_url)
    for name in ["x.js", "x.mjs", "x.html", "x.txt", "x.png", "x.mp3", "x.json", ""]:
        told = b.awaited("""const told = [];
            for (const run of [() => import(words[0]), () => navigator.serviceWorker.register(words[1])]) {
                told.push(await run().then(() => 'ran', fault => fault.name));
            }
            return [...told, globalThis.owned === undefined]""", address(b, cap, name), "/uri/" + cap + "?filename=" + name)
        check("ran" not in told and told[-1] is True, "%s: %s" % (name, told))
    check_same(b.awaited("return (await navigator.serviceWorker.getRegistrations()).length"), 0)


def a_download_lands_under_its_name(b):
    text, cap = new_file(b)
    b.driver.get("about:blank")
    for name in ["a picture.png", "gr\u00fcn & 100%.txt", "\u6587\u4ef6.bin", "page.html", "x" * 200 + ".txt"]:
        b.driver.get(address(b, cap, name, "&save=true"))
        b.downloaded(name, text)
    # what would lead out of the folder has another name in it
    before = set(os.listdir(os.path.dirname(b.downloads)))
    for name in ["../../evil.txt", "/tmp/evil.txt", "..\\evil.txt", 'a"; filename="../evil.txt', "a\r\nb.txt"]:
        b.driver.get(address(b, cap, name, "&save=true"))
        (landed,) = b.wait(lambda: [each for each in os.listdir(b.downloads) if not each.endswith(".crdownload") and not each.startswith(".")], name)
        check("/" not in landed and "\\" not in landed and '"' not in landed, landed)
        b.downloaded(landed, text)
    check_same(set(os.listdir(os.path.dirname(b.downloads))), before)


def what_is_kept_is_asked_for_by_its_tag(b):
    text, cap = new_file(b)
    tag = '"%s"' % b.listing(cap)["verify_uri"]
    url = address(b, cap, "kept.txt", url=b.url)
    for turn in range(3):
        b.relay.seen.clear()
        b.relay.statuses.clear()
        b.driver.get("about:blank")
        b.driver.get(url)
        check_same(b.js("return document.body.innerText.trim()"), text.decode().strip())
        # a browser may ask for an icon too
        (fields,) = [fields for _, path, fields in b.relay.seen if path.startswith("/uri/")]
        check_same(fields.get("If-None-Match"), tag if turn else None)
        check_same([status for path, status in b.relay.statuses if path.startswith("/uri/")], [304 if turn else 200])


def a_refusal_is_not_kept(b):
    """Browsers may keep 410 for good where nothing forbids it."""
    for name in ["a.txt", ""]:
        text, cap = new_file(b)
        url = address(b, cap, "a.txt") if name else b.own_url + "uri/" + cap
        for path in sorted(share_files(b, cap).values())[:8]:
            os.remove(path)
        b.driver.get("about:blank")
        b.driver.get(url)
        check_same(b.js("return document.body.innerText.trim()"), "not enough shares")
        # the same bytes, put again, bring the shares back
        check_same(b.put(text), cap)
        b.driver.get("about:blank")
        b.driver.get(url)
        if name:
            check_same(b.js("return document.body.innerText.trim()"), text.decode().strip())
        else:
            (landed,) = b.wait(lambda: [each for each in os.listdir(b.downloads) if not each.endswith(".crdownload") and not each.startswith(".")], "the file")
            b.downloaded(landed, text)


def a_link_to_the_file_itself_is_offered(b):
    b.command("Browser.grantPermissions", permissions=["clipboardReadWrite", "clipboardSanitizedWrite"], origin=b.url.rstrip("/"))
    picture, name = b.put(png(96, 64)), "gr\u00fcn & 100%#?.png"
    wanted = b.url + "uri/" + picture + "?filename=gr%C3%BCn%20%26%20100%25%23%3F.png"
    folder = b.folder({name: (picture, {}), "page.html": (b.text_cap, {}), "data.bin": (b.text_cap, {}), "song.flac": ("URI:LIT:my", {})})
    for place in ["#" + folder + "/" + quoted(name), "#" + picture + "?name=" + quoted(name)]:
        b.go(place)
        check_same(b.js("const link = document.getElementById('open-file'); return [link.href, link.rel, link.target]"), [wanted, "noreferrer", "_blank"])
        b.click("Copy link for others")
        b.wait(lambda: b.js("return [...document.querySelectorAll('button')].some(each => each.textContent === 'Copied')"), "the copy")
        check_same(b.awaited("return navigator.clipboard.readText()"), wanted)
    b.shot("link-for-others")
    # by the keyboard, into a tab that knows nothing of this one
    own = b.driver.current_window_handle
    b.relay.seen.clear()
    b.find("#open-file")[0].send_keys(Keys.ENTER)
    (tab,) = b.wait(lambda: [each for each in b.driver.window_handles if each != own], "the tab")
    b.driver.switch_to.window(tab)
    try:
        b.wait(lambda: b.js("return document.images[0] && document.images[0].naturalWidth === 96"), "the picture")
        check_same(b.js("return [document.referrer, window.opener, document.URL]"), ["", None, wanted])
    finally:
        b.driver.close()
        b.driver.switch_to.window(own)
    check([path for _, path, _ in b.relay.seen] and all("Referer" not in fields for _, _, fields in b.relay.seen), b.relay.seen)
    # none where a browser would only save it, and none where nothing has a name
    b.go("#" + folder + "/song.flac")
    check_same(b.js("return document.getElementById('open-file').href"), b.url + "uri/URI:LIT:my?filename=song.flac")
    for place in ["#" + folder + "/page.html", "#" + folder + "/data.bin", "#" + picture, "#" + picture + "?name=drawing.svg"]:
        b.go(place)
        check_same((place, [each for each in b.find("#open-file") if each.is_displayed()]), (place, []))
    b.go("#" + picture)
    b.driver.find_element(By.ID, "file-name").send_keys("mine.Jpeg", Keys.ENTER)
    b.wait(lambda: b.find("#open-file")[0].is_displayed(), "the link")
    check_same(b.js("return document.getElementById('open-file').href"), b.url + "uri/" + picture + "?filename=mine.Jpeg")


def shown_servers(places, bad=(), words=""):
    """The lines that the page shows of servers: the shares that stand at each, and the bad ones."""
    lines = []
    for server in range(5):
        own = [sorted(number for number, at in group if at == server) for group in (places, bad)]
        texts = [kind + ("share " if len(at) == 1 else "shares ") + ", ".join(map(str, at)) for kind, at in zip((words, "bad "), own) if at]
        if texts:
            lines.append("Server %d: %s" % (server, "; ".join(texts)))
    return lines


def shares_are_shown_where_they_are(b):
    """By the gateway's own report, and by what lies in the folders."""
    _, cap = new_file(b)
    files = share_files(b, cap)
    marks = "return [...document.querySelectorAll('.share')].map(each => each.textContent + each.className[6])"
    b.go("#" + b.listing(cap)["verify_uri"])
    b.click("Count them")
    b.wait_for("All shares are there.")
    check_same(browser_lies.servers(b), shown_servers(files))
    check_same(b.js(marks), ["%dg" % number for number in range(10)])
    # one that is lost, one of which the folder itself sees that it is rotten, and one whose rot has the folder's seal
    lost, torn, rotten = [(number, server) for number, server in sorted(files) if number in (2, 5, 7)]
    os.remove(files[lost])
    with open(files[torn], "r+b") as file:
        file.write(b"rot")
    with open(files[rotten], "rb") as file:
        text = file.read()[:-8]
    text = text[:-9] + bytes([text[-9] ^ 1]) + text[-8:]
    with open(files[rotten], "wb") as file:
        file.write(text + seal(text))
    b.click("Read and verify each")
    b.wait_for("It can be read: 7 of 10")
    stand = [place for place in files if place not in (lost, torn, rotten)]
    check_same(browser_lies.servers(b), shown_servers(stand, [rotten], "good "))
    check_same(b.js(marks), ["%d%s" % (number, {2: "l", 5: "l", 7: "b"}.get(number, "g")) for number in range(10)])
    b.width(320, 780)
    b.fits()
    b.shot("shares-by-server")


TESTS = [
    what_browsers_show_is_shown_at_its_own_address, a_stored_document_runs_nothing_at_its_own_address, the_page_runs_nothing_that_is_stored,
    a_download_lands_under_its_name, what_is_kept_is_asked_for_by_its_tag, a_refusal_is_not_kept, a_link_to_the_file_itself_is_offered,
    shares_are_shown_where_they_are,
]
