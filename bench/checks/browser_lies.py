"""What the page of browser.py has to see through or to refuse: gateways that lie, refuse and are gone, stored documents that would run or
load something, caps that are none; and that no cap and no request goes anywhere but to the gateway."""

import json
import os
import time

from browser_kit import By, check, check_same
from browser_parts import long_parts

DOCUMENT = """<!doctype html><title>hostile</title><meta http-equiv="refresh" content="0;url=%(c)srefresh">
<link rel="stylesheet" href="%(c)sstyle"><link rel="preconnect" href="%(c)s"><link rel="dns-prefetch" href="%(c)s">
<link rel="prefetch" href="%(c)sprefetch"><link rel="preload" as="image" href="%(c)spreload"><link rel="icon" href="%(c)sicon">
<link rel="modulepreload" href="%(c)smodule"><link rel="manifest" href="%(c)smanifest"><link rel="prerender" href="%(c)sprerender">
<style>@import url(%(c)simport); @font-face { font-family: f; src: url(%(c)sfont) } body { background: url(%(c)sback); font-family: f }</style>
<h1 id="hello">A stored page</h1><p onclick="top.owned=1">text</p>
<script>top.owned = 1; parent.document.title = 'owned'; fetch('%(c)sfetch');</script><script src="%(c)sscript"></script>
<script type="speculationrules">{"prefetch":[{"source":"list","urls":["%(c)sspeculation"]}]}</script>
<img src="%(c)simg" onerror="top.owned=1"><img src=x onerror="parent.owned=1"><iframe src="%(c)sframe"></iframe>
<form action="%(c)sform"><button autofocus>go</button></form><svg onload="top.owned=1"></svg>
<a id=out href="%(c)slink" ping="%(c)sping">out</a><a id=top target=_top href="%(c)stop">top</a><a id=new target=_blank href="%(c)snew">new</a>
<object data="%(c)sobject"></object><embed src="%(c)sembed"><video autoplay src="%(c)svideo" poster="%(c)sposter"></video>
<base href="%(c)sbase">"""

DRAWING = """<svg xmlns="http://www.w3.org/2000/svg" width="160" height="90" onload="top.owned=1">
<script>top.owned = 1; parent.document.title = 'owned'</script><script href="%(c)sscript"/><image href="%(c)simage" width="9" height="9"/>
<style>@import url(%(c)simport);</style><rect width="160" height="90" fill="teal"/>
<foreignObject><iframe xmlns="http://www.w3.org/1999/xhtml" src="%(c)sframe"/></foreignObject></svg>"""


def hostile_html(url):
    return (DOCUMENT % {"c": url}).encode()


def hostile_svg(url):
    return (DRAWING % {"c": url}).encode()


def stored_documents_run_nothing_and_load_nothing(b):
    for name, what in [("page.html", ".document"), ("drawing.svg", "img")]:
        b.go("#" + b.folder_cap + "/" + name)
        b.wait(lambda: b.find("#view " + what), what)
        b.shot(name.replace(".", "-"))
        time.sleep(2)
        check_same(b.js("return [window.owned === undefined, document.title]"), [True, name + " · Wozhinnam"])
        check_same(b.canary.connections, 0)
    check_same(b.js("return document.querySelector('#view img').naturalWidth"), 160)
    b.go("#" + b.folder_cap + "/page.html")
    check_same(b.js("return document.querySelector('#view .document').innerText.trim()"), "A stored page\n\ntext\n\ngo outtopnew")
    kinds = "return [...document.querySelectorAll('#view .document *')].map(each => each.localName + each.attributes.length)"
    check_same(b.js(kinds), ["h30", "p0"])
    b.click("Show its source")
    b.wait(lambda: b.find("#view pre"), "the source")
    check_same(b.text_shown(), b.contents["page.html"].decode())


# ---- gateways that lie

def turned(text, place=-1):
    """With one bit changed."""
    changed = bytearray(text)
    changed[place] ^= 1
    return bytes(changed)


def of_files(change):
    """What changes the replies that have files' bytes, and no others."""
    return lambda method, path, status, text: \
        (status, change(text)) if method == "GET" and path.startswith("/uri/") and status == 200 else (status, text)


def a_gateway_that_lies_is_found_out(b):
    lies = [turned, lambda text: turned(text, 0), lambda text: text[:-1], lambda text: b"", lambda text: text + b"x"]
    for address in ["#" + b.text_cap, "#" + b.folder_cap, "#" + b.folder_cap + "/notes.txt", "#" + long_parts(b)]:
        for lie in lies:
            b.relay.change = of_files(lie)
            b.go(address)
            check("is not what this cap was made for" in b.main() or "more bytes than were asked for" in b.main(), b.main())
            check("checked here" not in b.main() and not b.find("#download, #children, #view *"), b.main())
        b.shot("not-bound")
        b.relay.change = None
        b.go(address)
        check("checked here" in b.main(), b.main())


def an_upload_whose_cap_is_anothers_is_found_out(b):
    other, literal = b.put(b"quite other bytes, as many as would be in a share " * 2), b"URI:LIT:my"
    verify = b.listing(other)["verify_uri"].encode()
    b.home()
    for answer in [other.encode(), literal, verify, b.folder_cap.encode(), b"<h1>hello</h1>", b""]:
        b.relay.change = lambda method, path, status, text: (200, answer) if method == "PUT" else (status, text)
        b.give("files", os.path.join(b.tree, "notes.txt"))
        words = b.failures()
        check("cap is not of these bytes" in words or "what is no cap" in words, words)
        check_same(b.results(), [])
        if answer:
            b.click("Leave it")
    b.relay.change = None
    b.click("Try again")
    b.wait(lambda: len(b.results()) == 1, "the second try")
    # the same of a folder, and of a file that was changed on its way
    b.relay.change = lambda method, path, status, text: (200, b.dropped_cap.encode()) if method == "POST" else (status, text)
    b.home()
    b.give("folder", b.tree)
    check("cap is not of this folder" in b.failures(), b.main())


def a_part_that_is_changed_is_not_saved(b):
    long_parts(b)
    third = b.part_caps[2]
    b.relay.change = lambda method, path, status, text: (status, turned(text, 12345)) if third in path else (status, text)
    b.go("#" + long_parts(b) + "?name=lied.mp4")
    b.js("delete window.showSaveFilePicker")
    b.js("document.getElementById('download').click()")
    b.wait_for("is not what this cap was made for")
    check_same(os.listdir(b.downloads), [])
    b.js("""window.showSaveFilePicker = async ({ suggestedName }) =>
        (await navigator.storage.getDirectory()).getFileHandle(suggestedName, { create: true })""")
    b.js("document.getElementById('state').textContent = ''; document.getElementById('download').click()")
    b.wait_for("is not what this cap was made for")
    names = b.awaited("const names = []; for await (const name of (await navigator.storage.getDirectory()).keys()) names.push(name); return names")
    check("lied.mp4" not in names, names)


# ---- reports on shares

def report_of(**results):
    whole = {"count-corrupt-shares": 0, "count-shares-expected": 10, "count-shares-good": 10, "count-shares-needed": 3, "healthy": True,
             "list-corrupt-shares": [], "recoverable": True, **results}
    return json.dumps({"results": whole, "storage-index": "x"}).encode()


def told(b, report, words):
    """Has the page show a report in which these words stand then."""
    b.relay.change = lambda method, path, status, text: (200, report) if "t=check" in path else (status, text)
    if not b.find("#report"):
        b.go("#" + b.folder_cap)
    b.js("document.getElementById('report').replaceChildren()")
    b.click("Read and verify each")
    b.wait_for(words)


def servers(b):
    return b.js("return [...document.querySelectorAll('#servers li')].map(line => line.textContent)")


def bad_shares_are_shown_with_their_servers(b):
    told(b, report_of(**{"count-shares-good": 6, "list-corrupt-shares": [[1, "x", 2], [3, "x", 4], [1, "x", 7]]}), "It can be read: 6 of 10")
    check_same(b.squares(), [6, 3, 1])
    check_same(servers(b), ["Server 1: bad shares 2, 7", "Server 3: bad share 4"])
    b.shot("bad-shares")


def a_share_map_is_shown_by_server(b):
    places = {"0": [0], "1": [1], "2": [2, 4], "5": [0], "9": [10], "10": [1], "x": [1], "-1": [1]}
    told(b, report_of(**{"count-shares-good": 5, "list-corrupt-shares": [[1, "x", 6], [4, "x", 3]], "sharemap": places}), "It can be read: 5 of 10")
    check_same(b.squares(), [5, 2, 3])
    texts = "return [...document.querySelectorAll('.share')].map(each => each.textContent + each.className[6])"
    check_same(b.js(texts), ["0g", "1g", "2g", "3b", "4l", "5g", "6b", "7l", "8l", "9g"])
    check_same(servers(b), ["Server 0: good shares 0, 5", "Server 1: good share 1; bad share 6", "Server 2: good share 2",
                            "Server 4: good share 2; bad share 3", "Server 10: good share 9"])
    b.shot("share-map")
    # Tahoe-LAFS's servers have names
    told(b, report_of(sharemap={"3": ["v0-b", "v0-a"]}), "All shares are good.")
    check_same(servers(b), ["Server v0-a: good share 3", "Server v0-b: good share 3"])


def a_report_that_is_none_is_refused(b):
    numbers = [report_of(**{"count-shares-good": number}) for number in (10 ** 9, 11, -1, 2.5, "<b>", None)]
    for report in [b"", b"{}", b"[]", b"null", b'{"results":null}', *numbers]:
        told(b, report, "report can’t be read")
    # what is odd beside the number is left out
    odd = report_of(**{"count-shares-expected": 10 ** 9, "list-corrupt-shares": [None, [1, "x", 1e9], [1, "x", "<b>"], 7], "sharemap": [1]})
    told(b, odd, "All shares are good.")
    check_same((b.squares(), servers(b)), ([10, 0, 0], []))
    told(b, report_of(sharemap={"0": None, "1": 7, "2": ["<img src=x onerror=alert(1)>"]}), "All shares are good.")
    check_same(servers(b), ["Server <img src=x onerror=alert(1)>: good share 2"])


# ---- refusals

REFUSALS = {
    (413, b"body too long\n"): "It is longer than the gateway takes.", (503, b"store full\n"): "A store of the gateway is full.",
    (503, b"store down\n"): "A store of the gateway doesn’t answer.", (404, b"no such resource\n"): "There is no gateway at this address.",
    (410, b"not enough shares\n"): "Too few good shares are left of it", (400, b"bad cap\n"): "The gateway doesn’t know such a cap.",
    (502, b""): "The gateway refused: status 502.", (500, b"<h1>" + b"x" * 200): "The gateway refused: status 500.",
    (504, b"x" * 5000): "The gateway refused: status 504.", (418, b"<b>a word\n"): "The gateway refused: <b>a word.",
    (302, b"elsewhere\n"): "The gateway refused: elsewhere.",
}


def refusals_are_told_with_their_reasons(b):
    b.home()
    for (status, text), words in REFUSALS.items():
        refused = lambda method, path, was, body: (status, text) if path.startswith("/uri") else (was, body)
        b.relay.change = refused
        b.open_typed(b.text_cap)
        check(words in b.main(), "%d of a file: %s" % (status, b.main()))
        b.click("Count them")
        b.wait(lambda: words in b.js("return document.getElementById('report').innerText"), words)
        b.find("#home")[0].click()
        b.give("files", os.path.join(b.tree, "notes.txt"))
        check(words in b.failures(), "%d of an upload: %s" % (status, b.main()))
        b.click("Leave it")
    b.relay.change = None


def failures_are_told_by_name_and_can_be_tried_again(b):
    puts = []

    def full(method, path, status, text):
        if method == "PUT":
            puts.append(path)
            if len(puts) == 3:
                return 503, b"store full\n"
        return status, text

    b.home()
    b.relay.change = full
    b.give("folder", b.tree)
    words = b.failures()
    for wanted in ["Not stored: album", "A store of the gateway is full.", "album/", "A folder is made only when all in it is stored."]:
        check(wanted in words, words)
    b.shot("failed")
    b.relay.change = None
    sent = len([each for each in b.relay.seen if each[0] == "PUT"])
    b.click("Try again")
    b.wait(lambda: len(b.results()) == 1, "the second try")
    check_same(len([each for each in b.relay.seen if each[0] == "PUT"]) - sent, 1)
    check_same(b.results()[0]["cap"], b.folder_cap)


def what_fails_while_something_else_is_shown_is_told(b):
    def slow(method, path, status, text):
        time.sleep(1 if method == "PUT" else 0)
        return (503, b"store full\n") if method == "PUT" else (status, text)

    b.home()
    b.relay.change = slow
    b.driver.find_element(By.ID, "files").send_keys(os.path.join(b.tree, "notes.txt"))
    b.js("location.hash = arguments[0]", b.folder_cap)
    b.wait(lambda: "Not all was stored." in b.said(), "the word of it")
    b.relay.change = None
    b.find("#home")[0].click()
    check("A store of the gateway is full." in b.failures(), b.main())
    b.click("Try again")
    b.wait(lambda: [each["cap"] for each in b.results()] == [b.text_cap], "the second try")
    check_same(b.find("#failed"), [])


def a_part_that_fails_is_tried_again_alone(b):
    puts = []

    def full(method, path, status, text):
        if method == "PUT":
            puts.append(path)
            if len(puts) == 2:
                return 503, b"store full\n"
        return status, text

    b.home()
    b.relay.change = full
    b.give("files", b.long)
    check("A store of the gateway is full." in b.failures(), b.main())
    b.click("Try again")
    b.wait(lambda: len(b.results()) == 1, "the second try")
    check_same((b.results()[0]["cap"], len(puts)), (long_parts(b), 5))


def a_gateway_that_is_gone_is_told(b):
    b.home()
    b.command("Network.enable")
    line = {"latency": 0, "downloadThroughput": -1, "uploadThroughput": -1}
    b.command("Network.emulateNetworkConditions", offline=True, **line)
    b.open_typed(b.text_cap)
    words = b.main()
    b.command("Network.emulateNetworkConditions", offline=False, **line)
    check("can’t be reached" in words, words)
    b.open_typed(b.text_cap)
    check("checked here" in b.main(), b.main())


def bad_caps_are_refused_in_words(b):
    b.home()
    cap = b.text_cap
    for text, words in [
            ("hello", "This is no cap"), ("", "This is no cap"), ("URI:SSK:abc:def", "what can change"), ("URI:DIR2:abc:def", "what can change"),
            (cap[:60], "cut off or damaged"), (cap[:10] + "1" + cap[11:], "damaged"), (cap.replace(":3:10:", ":0:10:"), "out of its range"),
            (cap.replace(":3:10:", ":03:10:"), "out of its range"), (cap.replace(":3:10:", ":11:10:"), "out of its range"),
            (cap.replace(":3:10:", ":3:257:"), "out of its range"), (cap.rsplit(":", 1)[0] + ":18446744073709551616", "out of its range"),
            ("URI:LIT:a", "no base32"), ("URI:LIT:mz", "no base32"), ("URI:CHK:a%zz", "damaged"), ("<script>alert(1)</script>", "This is no cap"),
            ("javascript:alert(1)", "This is no cap"), ("https://example.invalid/", "This is no cap")]:
        b.requests()
        b.open_typed(text)
        check(words in b.said(), "%r: %r" % (text, b.said()))
        check_same([each["url"] for each in b.requests()], [])
    changed = cap.split(":")
    changed[2] = "aaaa" + changed[2][4:]
    for text, words in [
            (":".join(changed), "Too few good shares"), (b.folder_cap + "/missing", "has no “missing”"),
            (b.folder_cap + "/notes.txt/more", "A file is on the way"), (cap.replace("URI:CHK:", "URI:DIR2-CHK:"), "is no folder"),
            (cap.rsplit(":", 1)[0] + ":18446744073709551615", "more bytes than this page reads")]:
        b.open_typed(text)
        check(words in b.main(), b.main())
    b.go("#URI:CHK:%zz")
    check("damaged" in b.main(), b.main())
    # a link to another host, which a mail program broke: its cap alone counts
    b.home()
    b.requests()
    b.open_typed("http://example.invalid/#" + cap[:50] + " " + cap[50:] + "?name=x.txt")
    check("checked here" in b.main() and b.title() == "x.txt", b.main())
    check(all(each["url"].startswith((b.url, "blob:", "data:")) for each in b.requests()), "another host was asked")


def no_cap_goes_anywhere_but_to_the_gateway(b):
    b.driver.get("about:blank")
    b.requests()
    names = ["notes.txt", "photos/gradient.png", "page.html", "drawing.svg"]
    for address in ["", "#" + b.folder_cap, "#" + b.text_cap, "#" + long_parts(b)] + ["#" + b.folder_cap + "/" + name for name in names]:
        b.go(address)
    for each in b.requests():
        check(each["url"].startswith((b.url, "blob:", "data:", "about:")), each["url"])
        check(not each["headers"].get("Referer"), each)
        check("URI" not in each["url"] or each["url"].startswith((b.url + "uri/", "about:")) or "#" in each["url"], each["url"])
    for method, path, fields in b.relay.seen:
        check("URI" not in path or path.startswith("/uri/"), path)
        check("Referer" not in fields and "Cookie" not in fields, fields)
    check_same(b.js("return [localStorage.length, sessionStorage.length, document.cookie]"), [0, 0, ""])
    check_same(b.awaited("return [(await indexedDB.databases()).length, (await caches.keys()).length]"), [0, 0])
    check_same(b.canary.connections, 0)


TESTS = [
    stored_documents_run_nothing_and_load_nothing, a_gateway_that_lies_is_found_out, an_upload_whose_cap_is_anothers_is_found_out,
    a_part_that_is_changed_is_not_saved, bad_shares_are_shown_with_their_servers, a_share_map_is_shown_by_server, a_report_that_is_none_is_refused,
    refusals_are_told_with_their_reasons, failures_are_told_by_name_and_can_be_tried_again, a_part_that_fails_is_tried_again_alone,
    what_fails_while_something_else_is_shown_is_told,
    a_gateway_that_is_gone_is_told, bad_caps_are_refused_in_words, no_cap_goes_anywhere_but_to_the_gateway,
]
