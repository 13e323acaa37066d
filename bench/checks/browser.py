#!/usr/bin/python3
"""The page of pages/, in Debian's Chromium, against `wozhinnam serve --pages`, the built server.

usage: bench/checks/browser.py PROGRAM [--woz WOZ] [--only WORD..] [--shots FOLDER] [--pages FOLDER]

Files and folders are stored, and what is stored is read, shown, saved and checked: by drops, by fields and by the keyboard alone, on
narrow and dark screens, without WebCrypto, with odd names, 1,000 files, and files in parts, whose caps are those that WOZ makes of them
where it is named. Times of 16 MiB are printed. What the page has to see through and to refuse is in browser_lies.py: gateways that lie,
refuse and are gone, documents that would run, caps that are none. What browsers make of files at their own addresses is in browser_fields.py.

It needs chromium, chromium-driver and python3-selenium, which is of Debian's own Python, and takes three minutes.
"""

import argparse
import base64
import hashlib
import os
import sys
import time

sys.path.insert(0, os.path.join(os.path.dirname(os.path.abspath(__file__)), "../../models"))

import browser_fields
import browser_lies
import browser_parts
import uploads
from browser_kit import MIB, PART, Bench, By, Keys, check, check_same, png, quoted, run
from server import checked_program

NOTES = ("Notes on shares\n" + "A line of text, and another one. " * 40 + "\n").encode()
POLICY = ("default-src 'none'; script-src 'self'; style-src 'self'; connect-src 'self'; worker-src 'self'; img-src blob: data:; "
          "media-src blob:; base-uri 'none'; form-action 'none'; frame-ancestors 'none'")
TURNED = "turned\u202egnp.txt"


def make_files(bench):
    """A tree of files with odd names, a long file, and a thousand small ones."""
    bench.tree, bench.many = os.path.join(bench.files, "album"), os.path.join(bench.files, "many")
    bench.contents = {
        "notes.txt": NOTES, "page.html": browser_lies.hostile_html(bench.canary.url), "drawing.svg": browser_lies.hostile_svg(bench.canary.url),
        "data.bin": bytes(range(256)) * 9, "short.txt": b"short", "nothing.txt": b"", "Ünïcödé näme – 2.txt": "Grüße\n".encode() * 30,
        "photos/gradient.png": png(96, 64), "photos/old/tiny.png": png(4, 4), "a10.txt": b"ten" * 50, "a9.txt": b"nine" * 50,
        TURNED: b"a name that turns what follows it " * 3, "__proto__": b"a name of the language " * 4, "constructor": b"and another " * 9,
        "q?#%25&.txt": b"a name for an address " * 4, "<img src=x onerror=alert(1)>.txt": b"a name that looks like an element " * 4,
    }
    bench.thousand = {"folder %d/file %03d.txt" % (i % 10, i): b"file %d of a thousand\n" % i * (1 + i % 9) for i in range(1000)}
    for top, files in [(bench.tree, bench.contents), (bench.many, bench.thousand)]:
        for name, text in files.items():
            path = os.path.join(top, name)
            os.makedirs(os.path.dirname(path), exist_ok=True)
            with open(path, "wb") as file:
                file.write(text)
    os.makedirs(os.path.join(bench.tree, "empty"))
    bench.long, bench.large = os.path.join(bench.files, "long.mp4"), os.path.join(bench.files, "large.bin")
    # its last part stands in its cap
    bench.long_text = hashlib.shake_128(b"long").digest(40 * MIB) + hashlib.shake_128(b"end").digest(8 * MIB + 33)
    for path, text in [(bench.long, bench.long_text), (bench.large, bench.long_text[:PART])]:
        with open(path, "wb") as file:
            file.write(text)
    bench.text_cap = bench.put(NOTES)
    bench.folder_cap, bench.dropped_cap = [tree_cap(bench, bench.tree, with_empty) for with_empty in (False, True)]


def tree_cap(bench, top, with_empty):
    """The cap of a folder, as the gateway alone gives it, past the page; a field of a browser doesn't tell of empty folders."""
    children = {}
    for name in os.listdir(top):
        path = os.path.join(top, name)
        if os.path.isfile(path):
            with open(path, "rb") as file:
                children[name] = bench.put(file.read()), {"mtime": int(os.stat(path).st_mtime)}
        elif with_empty or os.listdir(path):
            children[name] = tree_cap(bench, path, with_empty), {}
    return bench.folder(children)


# ---- the page itself

def the_page_is_served_with_its_fields(b):
    b.home()
    names, total = sorted(os.listdir(b.pages)), 0
    for name in names:
        with open(os.path.join(b.pages, name), "rb") as file:
            text = file.read()
        total += len(text)
        got = b.awaited("""const reply = await fetch(words[0]); return [reply.status, await reply.text(),
            ['Content-Security-Policy', 'X-Content-Type-Options', 'Referrer-Policy', 'Cache-Control'].map(each => reply.headers.get(each))]""",
                        b.url + ("" if name == "index.html" else name))
        check_same([got[0], got[1].encode(), got[2]], [200, text, [POLICY, "nosniff", "no-referrer", "no-cache"]])
    check(total < 100000, "the page has %d bytes" % total)
    check_same(b.ask("GET", "/nothing.js")[0], 404)
    return "%d files, %d bytes" % (len(names), total)


def the_page_loads_without_a_complaint(b):
    b.driver.get_log("browser")
    b.home()
    check_same([entry for entry in b.driver.get_log("browser") if entry["level"] == "SEVERE"], [])
    check_same(b.driver.title, "Wozhinnam")
    b.shot("home")


# ---- storing

def files_are_stored_and_checked(b):
    b.home()
    b.give("files", os.path.join(b.tree, "notes.txt"), os.path.join(b.tree, "short.txt"))
    found = {each["name"]: each for each in b.results()}
    check_same(sorted(found), ["notes.txt", "short.txt"])
    for name, each in found.items():
        check_same(each["tag"], "checked here")
        check_same(each["cap"], b.put(b.contents[name]))
    check_same(b.text_cap, found["notes.txt"]["cap"])
    b.shot("stored")
    b.click("Make one folder of all these")
    b.wait(lambda: len(b.results()) == 3, "one folder of all")
    check_same(sorted(b.listing(b.results()[0]["cap"])["children"]), ["notes.txt", "short.txt"])


def a_folder_is_stored_from_the_inside_out(b):
    b.home()
    b.give("folder", b.tree)
    (result,) = b.results()
    check_same((result["name"], result["tag"], result["cap"]), ("album", "checked here", b.folder_cap))
    children = b.listing(b.folder_cap)["children"]
    check_same(sorted(children), sorted(set(name.split("/")[0] for name in b.contents)))
    for name, text in b.contents.items():
        check_same(b.ask("GET", "/uri/%s/%s" % (b.folder_cap, "/".join(map(quoted, name.split("/"))))), (200, text))
    check_same(children["notes.txt"][1]["metadata"], {"mtime": int(os.stat(os.path.join(b.tree, "notes.txt")).st_mtime)})
    check_same(children["photos"][1]["metadata"], {})
    b.width(390, 844)
    b.fits()


def a_dropped_folder_keeps_empty_ones(b):
    b.home()
    b.drop(b.tree, os.path.join(b.tree, "short.txt"))
    b.wait(lambda: len(b.results()) == 2, "what was dropped")
    check_same({each["name"]: each["cap"] for each in b.results()}, {"album": b.dropped_cap, "short.txt": b.put(b"short")})
    children = b.listing(b.dropped_cap)["children"]
    check_same(sorted(children), sorted(set(name.split("/")[0] for name in b.contents) | {"empty"}))
    check_same(children["empty"][1]["ro_uri"], "URI:DIR2-LIT:")
    # while something else is shown
    b.go("#" + b.folder_cap)
    b.drop(os.path.join(b.tree, "short.txt"))
    b.wait(lambda: [each["name"] for each in b.results()] == ["short.txt"], "what was dropped on a folder")


def a_thousand_files_are_stored(b):
    b.home(b.own_url)
    began = time.monotonic()
    b.give("folder", b.many)
    taken = time.monotonic() - began
    (result,) = b.results()
    check_same(result["tag"], "checked here")
    children = b.listing(result["cap"])["children"]
    check_same(len(children), 10)
    for name in list(b.thousand)[::83]:
        check_same(b.ask("GET", "/uri/%s/%s" % (result["cap"], quoted(name).replace("%2F", "/"))), (200, b.thousand[name]))
    b.go("#" + result["cap"] + "/folder%203")
    check("100 files" in b.main() and len(b.rows()) == 100, b.main()[:200])
    return "1,000 files stored and checked in %.1f s" % taken


def storing_can_be_stopped(b):
    def slow(method, path, status, text):
        time.sleep(1 if method == "PUT" else 0)
        return status, text

    b.home()
    b.relay.change = slow
    b.driver.find_element(By.ID, "folder").send_keys(b.tree)
    b.wait(lambda: b.find("#progress"), "the progress")
    b.shot("storing")
    time.sleep(0.5)
    b.click("Stop")
    words = b.failures()
    b.relay.change = None
    check("Not stored: album" in words, words)
    reasons = b.js("return [...document.querySelectorAll('#failed li')].map(line => line.textContent.split(': ').pop())")
    check_same(set(reasons), {"You stopped it."})
    b.click("Try again")
    b.wait(lambda: len(b.results()) == 1, "the second try")
    check_same(b.results()[0]["cap"], b.folder_cap)


def names_that_are_spelled_alike_are_refused(b):
    folder = os.path.join(b.files, "alike")
    os.makedirs(folder)
    for name in ["caf\u00e9.txt", "cafe\u0301.txt"]:
        with open(os.path.join(folder, name), "wb") as file:
            file.write(name.encode() * 9)
    b.home()
    b.give("folder", folder)
    check("Two names in it are the same but for their spelling." in b.failures() and b.results() == [], b.main())


# ---- reading

def a_folder_is_listed_and_sorted(b):
    b.go("#" + b.dropped_cap)
    rows = b.rows()
    names = [row[0] for row in rows]
    check_same(names[:2], ["empty", "photos"])
    check(names.index("a9.txt") < names.index("a10.txt"), "a10 is before a9")
    check("turned\\u{202e}gnp.txt" in names and "__proto__" in names and "checked here" in b.main(), names)
    by_name = {row[0]: row for row in rows}
    check_same(by_name["notes.txt"][1:3], ["text", "1.3 KiB"])
    check_same(by_name["photos"][1:3], ["folder", ""])
    check_same((by_name["__proto__"][1], by_name["constructor"][1], len(by_name["notes.txt"][3])), ("file", "file", 16))
    b.shot("folder")
    largest = max((name for name in b.contents if "/" not in name), key=lambda name: len(b.contents[name]))
    for order, place in [("ascending", -1), ("descending", 0)]:
        b.click("Size")
        check_same(b.rows()[place][0], largest)
        check_same(b.js("return document.querySelector('th.size').getAttribute('aria-sort')"), order)


def metadata_are_shown_as_they_stand(b):
    metadata = '{"a":18446744073709551615,"mtime":1700000000,"z":[1,-2,{"y":"\\u0001\\"é"}]}'
    plain = '["filenode", {"ro_uri": "URI:LIT:my"}]'
    body = '{"one": ["filenode", {"ro_uri": "URI:LIT:my", "metadata": %s}], "2": %s, "10": %s}' % (metadata, plain, plain)
    status, cap = b.ask("POST", "/uri?t=mkdir-immutable", body.encode())
    check_same(status, 200)
    b.go("#" + cap.decode())
    wanted = [["2", "file", "1 byte", ""], ["10", "file", "1 byte", ""], ["one", "file", "1 byte", "2023-11-14 22:13"]]
    check_same(b.rows(), wanted)
    check_same(b.js("return [...document.querySelectorAll('td details pre')].map(each => each.textContent)"), [metadata])


def a_long_folder_is_shown_in_part(b):
    b.go("#" + b.folder({"name %05d" % i: ("URI:LIT:my", {}) for i in range(1200)}))
    check("1200 files" in b.main() and len(b.rows()) == 1000, b.main()[:200])
    b.click("Show all 1200")
    check_same(len(b.rows()), 1200)


def texts_of_no_folders_are_refused_as_by_the_gateway(b):
    """Each text is stored as a file, whose cap then is taken for a folder's: the gateway says which are folders."""
    def netstring(text):
        return b"%d:%s," % (len(text), text)

    def entry(name=b"a name that is long enough", cap=b"URI:LIT:my", write=b"", metadata=b"{}", *more):
        return netstring(b"".join(map(netstring, (name, cap, write, metadata, *more))))

    def nested(levels):
        return b'{"a":' + b"[" * (levels - 1) + b"]" * (levels - 1) + b"}"

    verify, rest = b.listing(b.text_cap)["verify_uri"].encode(), b"and bytes behind it that are enough for a share"
    right = [
        entry(), entry(b"1" * 60) + entry(b"2"), entry(cap=b.text_cap.encode()), entry(b"\xef\xbb\xbfa mark at the beginning of a name"),
        entry(metadata=nested(100)), entry(metadata=b' {"e":-9223372036854775808}'), entry(metadata=b'{"a":1,"a":"' + b"twice" * 9 + b'"}'),
        entry(metadata=b'{"a":18446744073709551615,"b":"1.5e3","c":[0,-1,null,true]}'),
    ]
    wrong = [
        # metadata
        entry(metadata=nested(101)), entry(metadata=b'{"a":18446744073709551616}'), entry(metadata=b'{"a":-9223372036854775809}'),
        entry(metadata=b'{"a":1.0}'), entry(metadata=b'{"a":1e2}'), entry(metadata=b'{"a":-0}'), entry(metadata=b'{"a":"\\ud800"}'),
        entry(metadata=b"[]"), entry(metadata=b"null"), entry(metadata=b""), entry(metadata=b"{'a':1}"),
        # names: their order, none, in another form, and no UTF-8
        entry(b"2" * 60) + entry(b"1"), entry(b"1" * 60) * 2, entry(b"", b"URI:LIT:" + b"my" * 30), entry(b"cafe\xcc\x81" * 9), entry(b"\xff" * 50),
        # caps
        entry(cap=verify), entry(cap=b"URI:LIT:a" + b"a" * 40), entry(cap=b"URI:SSK:" + b"a" * 40), entry(write=b.text_cap.encode()),
        # netstrings
        entry(b"a" * 60, b"URI:LIT:", b"", b"{}", b""), entry() + rest, b"0" + entry(), entry()[:-1] + b";", entry()[:-2], rest * 2,
        b"99999999999999999999:" + rest,
    ]
    texts = [(True, text) for text in right] + [(False, text) for text in wrong]
    b.home()
    told = b.awaited("""const { readFolder } = await import('/folders.js'), bytes = text => Uint8Array.from(atob(text), c => c.charCodeAt(0));
        const isFolder = text => { try { return Boolean(readFolder(bytes(text))); } catch (fault) { return fault.message; } };
        return words[0].map(isFolder)""", [base64.b64encode(text).decode() for _, text in texts])
    for (wanted, text), found in zip(texts, told):
        cap = b.put(text).replace("URI:", "URI:DIR2-", 1)
        status, _ = b.ask("GET", "/uri/" + cap + "?t=json")
        check_same((text[:200], status == 200), (text[:200], wanted))
        check_same((text[:200], found), (text[:200], wanted or "What this cap names is no folder: its bytes are none’s."))
    b.go("#" + cap)
    check("is no folder" in b.main(), b.main())


def names_lead_on(b):
    b.go("#" + b.folder_cap)
    b.click("photos")
    b.wait(lambda: b.title() == "photos", "the folder below")
    b.settle()
    check_same([row[0] for row in b.rows()], ["old", "gradient.png"])
    b.click("old")
    b.wait(lambda: [row[0] for row in b.rows()] == ["tiny.png"], "the folder below that")
    b.click("photos")
    b.wait(lambda: len(b.rows()) == 2, "the way back")
    b.driver.back()
    b.wait(lambda: len(b.rows()) == 1, "the browser's way back")
    open_by_name = """[...document.querySelectorAll('#children .name a')]
        .find(a => decodeURIComponent(a.hash.split('/')[1]) === arguments[0]).click()"""
    for name in ["q?#%25&.txt", "__proto__", "constructor", "Ünïcödé näme – 2.txt", TURNED, "<img src=x onerror=alert(1)>.txt"]:
        b.go("#" + b.folder_cap)
        b.js(open_by_name, name)
        b.wait(lambda: b.find("#view pre"), name)
        check_same(b.text_shown(), b.contents[name].decode())
    # as it is typed, with its blanks
    b.open_typed(b.folder_cap + "/Ünïcödé näme – 2.txt")
    check_same(b.text_shown(), b.contents["Ünïcödé näme – 2.txt"].decode())


def a_text_is_shown_and_saved_under_its_name(b):
    b.go("#" + b.folder_cap + "/notes.txt")
    check_same(b.text_shown(), NOTES.decode())
    check("checked here" in b.main(), b.main())
    b.js("document.getElementById('download').click()")
    b.downloaded("notes.txt", NOTES)
    # a file of which the cap alone is known is given a name by hand
    b.go("#" + b.text_cap)
    b.driver.find_element(By.ID, "file-name").send_keys("mine.md", Keys.ENTER)
    b.wait(lambda: b.js("return location.hash").endswith("?name=mine.md"), "the name in the address")
    b.js("document.getElementById('download').click()")
    b.downloaded("mine.md", NOTES)
    b.driver.refresh()
    b.settle()
    check_same(b.title(), "mine.md")


def an_image_is_shown(b):
    b.go("#" + b.folder_cap + "/photos/gradient.png")
    size = "const image = document.querySelector('#view img'); return image && image.complete && [image.naturalWidth, image.naturalHeight].join()"
    b.wait(lambda: b.js(size) == "96,64", "the picture")
    b.go("#" + b.folder_cap + "/data.bin")
    check("no view of such a file" in b.main(), b.main())


def sixteen_mib_come_and_go(b):
    """Past the relay, which would take its own time."""
    b.home(b.own_url)
    began = time.monotonic()
    b.give("files", b.large)
    stored = time.monotonic()
    (result,) = b.results()
    check_same(result["tag"], "checked here")
    went = time.monotonic()
    b.go("#" + result["cap"] + "?name=large.bin", b.own_url)
    read = time.monotonic()
    check("checked here" in b.main(), b.main())
    b.js("document.getElementById('download').click()")
    b.downloaded("large.bin", b.long_text[:PART])
    return "16 MiB stored and checked in %.1f s, read and checked in %.1f s" % (stored - began, read - went)


# ---- caps and shares

def other_numbers_of_shares_are_checked(b):
    """Caps of a plain model, of which the page has to find that they are of their bytes, and of no others."""
    b.home()
    for k, n, size in [(3, 10, 56), (1, 1, 56), (1, 4, 100), (2, 3, 131073), (16, 40, 1000), (255, 256, 300), (256, 256, 300)]:
        text = bytes(i % 251 for i in range(size))
        file_cap = uploads.Upload(k, n, b"a secret", text).cap
        for cap in [file_cap, file_cap.replace("CHK", "DIR2-CHK")]:
            found = b.awaited("""const [{ areBound }, { parseCap }] = await Promise.all([import('/cap_binding.js'), import('/caps.js')]);
                const cap = parseCap(words[0]), bytes = Uint8Array.from(atob(words[1]), c => c.charCodeAt(0));
                const last = bytes.slice(), more = new Uint8Array([...bytes, 0]);
                last[last.length - 1] ^= 1;
                return Promise.all([bytes, last, more, bytes.slice(1)].map(each => areBound(cap, each)))""", cap, base64.b64encode(text).decode())
            check_same((k, n, size, found), (k, n, size, [True, False, False, False]))


def the_verify_cap_is_the_gateways(b):
    b.command("Browser.grantPermissions", permissions=["clipboardReadWrite", "clipboardSanitizedWrite"], origin=b.url.rstrip("/"))
    for cap in [b.text_cap, b.folder_cap]:
        wanted = b.listing(cap)["verify_uri"]
        b.go("#" + cap)
        b.click("Copy verify cap")
        copied = "return [...document.querySelectorAll('button')].some(each => each.textContent === 'Copied')"
        b.wait(lambda: b.js(copied), "the copy")
        check_same(b.awaited("return navigator.clipboard.readText()"), wanted)
        b.go("#" + wanted)
        check("can read nothing" in b.main(), b.main())


def shares_are_counted_and_verified(b):
    for cap in [b.text_cap, b.folder_cap]:
        b.go("#" + cap)
        b.click("Count them")
        b.wait_for("All shares are there.")
        check_same(b.squares(), [10, 0, 0])
        b.click("Read and verify each")
        b.wait_for("All shares are good.")
    b.go("#URI:LIT:mzxw6ytboi")
    check("stand in the cap itself" in b.main() and "foobar" in b.main(), b.main())


def spoiled_shares_are_shown(b):
    # nobody reads it before its shares are gone: the gateway keeps what was read last
    cap = b.put(b"a file of which shares are taken away " * 100)
    verify = b.listing(cap)["verify_uri"]
    index = verify.split(":")[2]
    found = [os.path.join(top, name) for store in b.stores for top, _, names in os.walk(store) for name in names]
    shares = sorted(path for path in found if index in path)
    check_same(len(shares), 10)
    os.remove(shares[0])
    with open(shares[1], "r+b") as file:
        file.seek(300)
        file.write(b"rot")
    b.go("#" + verify)
    b.click("Read and verify each")
    b.wait_for("It can be read: 8 of 10")
    check_same(b.squares()[0], 8)
    for path in shares[2:8]:
        os.remove(path)
    b.go("#" + cap)
    check("Too few good shares" in b.main(), b.main())
    b.click("Read and verify each")
    b.wait_for("It can’t be read now: 2 of 10")
    b.shot("too-few")


# ---- ways to use it

def it_works_without_webcrypto(b):
    """Over http under a name, where browsers give pages no WebCrypto and no clipboard's interface."""
    url = b.url.replace("127.0.0.1", "gate.test")
    b.go("#" + b.text_cap, url)
    check_same(b.js("return [isSecureContext, crypto.subtle === undefined]"), [False, True])
    check("checked here" in b.main(), b.main())
    b.relay.change = lambda method, path, status, text: (status, text[:-1] + b"?") if path.startswith("/uri/") else (status, text)
    b.go("#" + b.text_cap, url)
    b.relay.change = None
    check("is not what this cap was made for" in b.main(), b.main())
    b.home(url)
    began = time.monotonic()
    b.give("files", b.large)
    taken = time.monotonic() - began
    check_same(b.results()[0]["tag"], "checked here")
    b.find("#results button")[0].click()
    b.wait(lambda: b.js("return [...document.querySelectorAll('button')].some(each => each.textContent === 'Copied')"), "the copy")
    return "16 MiB stored and checked in %.1f s" % taken


def press(b, *keys):
    b.driver.switch_to.active_element.send_keys(*keys)


def tab_to(b, wanted):
    """Presses the tab key until this is in focus."""
    for _ in range(60):
        press(b, Keys.TAB)
        if b.js("const e = document.activeElement; return e.id || e.textContent.trim()") == wanted:
            return
    raise AssertionError("no key leads to " + wanted)


def it_is_used_by_the_keyboard_alone(b):
    b.home()
    seen = []
    for _ in range(6):
        press(b, Keys.TAB)
        seen.append(b.js("const e = document.activeElement; return e.id || e.textContent.trim()"))
    check_same(seen, ["skip", "home", "cap", "Open", "pick", "pick-folder"])
    # stored
    b.command("Page.setInterceptFileChooserDialog", enabled=True)
    b.events("Page.fileChooserOpened")
    b.js("document.getElementById('pick').focus()")
    press(b, Keys.ENTER)
    (chooser,) = b.wait(lambda: b.events("Page.fileChooserOpened"), "the browser's own dialog")
    b.command("DOM.setFileInputFiles", files=[os.path.join(b.tree, "a9.txt")], backendNodeId=chooser["backendNodeId"])
    b.command("Page.setInterceptFileChooserDialog", enabled=False)
    b.wait(lambda: b.results(), "the file")
    # opened, sorted, walked, counted, saved
    b.js("document.getElementById('cap').focus()")
    press(b, b.folder_cap, Keys.ENTER)
    b.wait_for("photos")
    check_same(b.js("return document.activeElement.id"), "title")
    tab_to(b, "Size")
    press(b, Keys.SPACE)
    check_same(b.js("return document.querySelector('th.size').getAttribute('aria-sort')"), "ascending")
    tab_to(b, "photos")
    press(b, Keys.ENTER)
    b.wait_for("gradient.png")
    tab_to(b, "gradient.png")
    press(b, Keys.ENTER)
    b.wait(lambda: b.find("#download"), "the picture")
    tab_to(b, "count")
    press(b, Keys.ENTER)
    b.wait_for("All shares are there.")
    b.js("document.getElementById('title').focus()")
    tab_to(b, "download")
    press(b, Keys.ENTER)
    b.downloaded("gradient.png", b.contents["photos/gradient.png"])


def everything_has_a_name(b):
    """For those who hear the page."""
    roles = ("button", "link", "textbox", "columnheader", "image", "progressbar")
    for address in ["", "#" + b.folder_cap, "#" + b.folder_cap + "/photos/gradient.png", "#" + browser_parts.long_parts(b)]:
        b.go(address)
        b.js("const count = document.getElementById('count'); if (count) count.click()")
        nodes = [node for node in b.command("Accessibility.getFullAXTree")["nodes"] if node.get("role", {}).get("value") in roles]
        check(len(nodes) > 4, nodes)
        check_same([node for node in nodes if not node.get("ignored") and not node.get("name", {}).get("value")], [])
        counts = "return [document.documentElement.lang, document.querySelectorAll('main').length, document.querySelectorAll('h1').length]"
        check_same(b.js(counts), ["en", 1, 1])
        check_same(b.js("return [...document.querySelectorAll('input:not([hidden])')].filter(field => field.labels.length !== 1).length"), 0)


def it_fits_narrow_screens_and_dark_ones(b):
    addresses = ["", "#" + b.folder_cap, "#" + b.folder_cap + "/notes.txt", "#" + b.folder_cap + "/photos/gradient.png", "#" + b.text_cap,
                 "#" + browser_parts.long_parts(b), "#hello"]
    for width in [320, 390]:
        b.width(width, 780)
        for address in addresses:
            b.go(address)
            b.fits()
    b.dark(True)
    b.go("#" + b.folder_cap)
    b.click("Count them")
    b.wait_for("All shares are there.")
    b.fits()
    b.shot("folder-narrow-dark")
    check_same(b.js("return getComputedStyle(document.body).backgroundColor"), "rgb(19, 21, 23)")
    b.dark(False)
    check_same(b.js("return getComputedStyle(document.body).backgroundColor"), "rgb(246, 246, 243)")


TESTS = [
    the_page_is_served_with_its_fields, the_page_loads_without_a_complaint, files_are_stored_and_checked,
    a_folder_is_stored_from_the_inside_out, a_dropped_folder_keeps_empty_ones, a_thousand_files_are_stored,
    storing_can_be_stopped, names_that_are_spelled_alike_are_refused, *browser_parts.TESTS,
    a_folder_is_listed_and_sorted, metadata_are_shown_as_they_stand, a_long_folder_is_shown_in_part,
    texts_of_no_folders_are_refused_as_by_the_gateway, names_lead_on, a_text_is_shown_and_saved_under_its_name,
    an_image_is_shown, sixteen_mib_come_and_go, other_numbers_of_shares_are_checked, the_verify_cap_is_the_gateways,
    shares_are_counted_and_verified, spoiled_shares_are_shown, it_works_without_webcrypto,
    it_is_used_by_the_keyboard_alone, everything_has_a_name, it_fits_narrow_screens_and_dark_ones,
    *browser_fields.TESTS, *browser_lies.TESTS,
]


def main():
    words = argparse.ArgumentParser()
    words.add_argument("program")
    words.add_argument("--woz")
    words.add_argument("--only", nargs="*")
    words.add_argument("--shots")
    words.add_argument("--pages")
    given = words.parse_args()
    bench = Bench(checked_program(given.program), given.pages, given.shots, given.woz and checked_program(given.woz))
    try:
        make_files(bench)
        failed = run(TESTS, bench, given.only)
    finally:
        bench.close()
    print("browser.py: %d failed" % failed)
    sys.exit(1 if failed else 0)


if __name__ == "__main__":
    main()
