"""Files in parts, for browser.py: what is longer than a request may be is stored as a folder of its parts (docs/FORMATS.md), and shown and
saved as one file. The caps that are expected are those that the gateway gives for the parts alone, and those of `woz` where it is named."""

import hashlib
import os
import subprocess
import time

from browser_kit import PART, check, check_same


# A cap of which nothing has to be stored.
CAP = "URI:CHK:" + "a" * 26 + ":" + "a" * 52 + ":3:10:%d"


def parts_folder(caps, size, count=None):
    """The children of the folder that a file in parts is, by docs/FORMATS.md."""
    metadata = {"wozhinnam-parts": {"count": count or len(caps), "size": size}}
    return {"%010d" % place: (cap, metadata) for place, cap in enumerate(caps)}


def long_parts(b):
    """The cap of the long file's folder of parts, whose own caps the gateway gives, past the page."""
    if not hasattr(b, "part_caps"):
        pieces = [b.long_text[at:at + PART] for at in range(0, len(b.long_text), PART)]
        check_same([len(piece) for piece in pieces], [PART, PART, PART, 33])
        b.part_caps = [b.put(piece) for piece in pieces]
        check(b.part_caps[3].startswith("URI:LIT:"), b.part_caps[3])
        b.parts_cap = b.folder(parts_folder(b.part_caps, len(b.long_text)))
    return b.parts_cap


def a_long_file_is_stored_in_parts(b):
    b.home()
    b.requests()
    began = time.monotonic()
    b.give("files", b.long)
    taken = time.monotonic() - began
    (result,) = b.results()
    check_same((result["name"], result["tag"]), ("long.mp4", "checked here"))
    check("48 MiB, in 4 parts" in b.main(), b.main())
    check_same(len([each for each in b.requests() if each["method"] == "PUT"]), 4)
    check_same(result["cap"], long_parts(b))
    words = ""
    if b.woz:
        run_woz = [b.woz, "--gateway", b.own_url.rstrip("/"), "put", b.long]
        check_same(subprocess.run(run_woz, capture_output=True, check=True).stdout.decode().strip(), b.parts_cap)
        words = ", by woz too"
    return "48 MiB stored and checked in %.1f s%s" % (taken, words)


def a_file_of_one_part_is_a_file(b):
    long_parts(b)
    b.home()
    b.give("files", b.large)
    check_same(b.results()[0]["cap"], b.part_caps[0])


def a_folder_with_a_long_file_shows_it_as_one(b):
    folder = os.path.join(b.files, "films")
    os.makedirs(os.path.join(folder, "more"))
    os.link(b.long, os.path.join(folder, "long.mp4"))
    with open(os.path.join(folder, "more", "notes.txt"), "wb") as file:
        file.write(b.contents["notes.txt"])
    b.home()
    b.give("folder", folder)
    cap = b.results()[0]["cap"]
    child = b.listing(cap)["children"]["long.mp4"]
    check_same((child[0], child[1]["ro_uri"]), ("dirnode", long_parts(b)))
    b.go("#" + cap)
    b.wait(lambda: ["long.mp4", "film", "48 MiB"] in [row[:3] for row in b.rows()], "the long file's row")
    check_same([row[:3] for row in b.rows()][0], ["more", "folder", ""])
    check("1 file, 1 folder, 48 MiB in files" in b.main(), b.main())
    b.click("long.mp4")
    b.wait_for("A file in 4 parts")
    check_same(b.title(), "long.mp4")


def a_file_in_parts_is_saved_whole(b):
    b.go("#" + long_parts(b) + "?name=long.mp4")
    check("A file in 4 parts" in b.main() and "48 MiB" in b.main(), b.main())
    b.shot("parts")
    b.js("delete window.showSaveFilePicker")
    began = time.monotonic()
    b.js("document.getElementById('download').click()")
    b.wait_for("All parts were checked here, and are saved as one file.")
    taken = time.monotonic() - began
    b.downloaded("long.mp4", b.long_text)
    # in a place of the browser's own, as headless ones ask for none
    b.go("#" + b.parts_cap + "?name=long.mp4")
    b.js("""window.showSaveFilePicker = async ({ suggestedName }) =>
        (await navigator.storage.getDirectory()).getFileHandle(suggestedName, { create: true })""")
    b.js("document.getElementById('download').click()")
    b.wait_for("All parts were checked here, and are saved as one file.")
    check_same(b.awaited("""const file = await (await (await navigator.storage.getDirectory()).getFileHandle('long.mp4')).getFile();
        const digest = await crypto.subtle.digest('SHA-256', await file.arrayBuffer());
        return Array.from(new Uint8Array(digest), byte => byte.toString(16).padStart(2, '0')).join('')"""), hashlib.sha256(b.long_text).hexdigest())
    b.click("Show it here")
    b.wait(lambda: b.find("#view video"), "the film")
    b.click("Count them")
    b.wait_for("Of its 4 pieces the one of which the least is left is")
    return "48 MiB read, checked and saved in %.1f s" % taken


def folders_that_are_no_file_in_parts_are_folders(b):
    whole, end, literal = (cap % size for cap, size in [(CAP, PART), (CAP, 99), ("URI:LIT:my%.0s", 0)])
    caps, size = [whole, whole, end], 2 * PART + 99
    right = parts_folder(caps, size)
    names = sorted(right)

    def changed(place, cap=None, metadata=None):
        name = names[place]
        return {**right, name: (cap or right[name][0], right[name][1] if metadata is None else metadata)}

    told = right[names[0]][1]["wozhinnam-parts"]
    wrong = {
        "one part": parts_folder([whole], PART), "no part": {}, "another size": parts_folder(caps, size + 1),
        "another number": parts_folder(caps, size, 2), "a part too many": {**right, "0000000003": right[names[0]]},
        "a part that is short": changed(1, cap=literal), "an empty end": changed(2, cap="URI:LIT:"),
        "a folder as part": changed(1, cap="URI:DIR2-CHK:" + whole[8:]), "another name": {**right, "notes": (literal, {})},
        "a part that is missing": {name: right[name] for name in names[1:]},
        "a name that is left out": {**{name: right[name] for name in names[:2]}, "0000000003": right[names[2]]}, "no metadata": changed(1, metadata={}),
        "more metadata": changed(1, metadata={**right[names[1]][1], "mtime": 1}),
        "metadata as a list": changed(1, metadata={"wozhinnam-parts": [3, size]}),
        "a member more": changed(0, metadata={"wozhinnam-parts": {**told, "more": 1}}),
        "numbers as texts": changed(2, metadata={"wozhinnam-parts": {"count": "3", "size": str(size)}}),
    }
    folders = {what: b.folder(children) for what, children in {"right": right, **wrong}.items()}
    b.home()
    found = b.awaited("""const modules = await Promise.all(['folders', 'parts', 'caps', 'gateway'].map(name => import('/' + name + '.js')));
        const [{ readFolder }, { partsIn }, { parseCap }, { readBlob }] = modules, sizes = [];
        for (const cap of words[0]) {
            const bytes = new Uint8Array(await (await readBlob(parseCap(cap), null, null)).arrayBuffer());
            sizes.push(partsIn(readFolder(bytes))?.size ?? null);
        }
        return sizes""", list(folders.values()))
    check_same(dict(zip(folders, found)), {what: size if what == "right" else None for what in folders})
    for what, words in [("right", "A file in 3 parts"), ("another size", "3 files")]:
        b.go("#" + folders[what])
        check(words in b.main() and len(b.rows()) == (0 if what == "right" else 3), b.main())
    # blanks in the metadata, and another order of their keys, change nothing; a fraction is no metadata of a folder
    for end, words in [(" %d" % size, "A file in 3 parts"), ("%d.0" % size, "is no folder")]:
        texts = [b'{ "wozhinnam-parts" : {"size":%s , "count":3}}' % end.encode()] * 3
        entries = [[name.encode(), right[name][0].encode(), b"", text] for name, text in zip(names, texts)]
        netstring = lambda text: b"%d:%s," % (len(text), text)
        cap = b.put(b"".join(netstring(b"".join(map(netstring, entry))) for entry in entries))
        b.go("#URI:DIR2-CHK:" + cap[8:])
        check(words in b.main(), "%s: %s" % (end, b.main()))


TESTS = [
    a_long_file_is_stored_in_parts, a_file_of_one_part_is_a_file, a_folder_with_a_long_file_shows_it_as_one, a_file_in_parts_is_saved_whole,
    folders_that_are_no_file_in_parts_are_folders,
]
