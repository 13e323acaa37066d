#!/usr/bin/python3
"""Changes the page in one place at a time, and sees that browser.py notices each: a test that would miss one lacks a line.

usage: bench/tools/page_mutants.py PROGRAM [FILE..]    all, or those of these files
"""

import os
import shutil
import subprocess
import sys
import tempfile

from server import ROOT, checked_program, fail

# Seconds after which what is waited for is taken for missing.
PATIENCE = "60"

# The file, what stands there once, what takes its place, and a word of the test that is to notice it.
CHANGES = [
    ("octets.js", "bits >= 5 || loose !== 0", "loose !== 0", "bad_caps"),
    ("octets.js", "bits >= 5 || loose !== 0", "bits >= 5", "bad_caps"),
    ("octets.js", "(0|[1-9][0-9]*)", "([0-9]+)", "no_folders"),
    ("sha256.js", "turned(e, 25)", "turned(e, 24)", "webcrypto"),
    ("sha256.js", "Math.floor(bytes.length / 536870912)", "1", "files_are_stored"),
    ("aes_ctr.js", "word >>> 8 * row | word << 32 - 8 * row", "word << 8 * row | word >>> 32 - 8 * row", "webcrypto"),
    ("aes_ctr.js", "counter: new Uint8Array(16)", "counter: new Uint8Array(16).fill(1)", "files_are_stored"),
    ("erasure.js", "POWERS[PLACES[a] + PLACES[b]]", "POWERS[(PLACES[a] + PLACES[b]) & 254]", "files_are_stored"),
    ("caps.js", "n <= 256", "n <= 257", "bad_caps"),
    ("caps.js", "cap.dir ? 'URI:DIR2-CHK-Verifier' : 'URI:CHK-Verifier'", "'URI:CHK-Verifier'", "verify_cap"),
    ("cap_binding.js", "return same(cap.ueb, await", "return true || (await", "lies"),
    ("cap_binding.js", "segments.push(await", "segments[0] = (await", "sixteen"),
    ("folders.js", "bytewise(before, child.bytes) >= 0", "false", "no_folders"),
    ("folders.js", "parts[2].length !== 0", "false", "no_folders"),
    ("folders.js", "name !== name.normalize('NFC') || ", "", "no_folders"),
    ("folders.js", " || child.cap.form === 'verify'", "", "no_folders"),
    ("folders.js", "most <= MOST_LEVELS", "true", "no_folders"),
    ("folders.js", "BigInt(number) < 1n << 64n", "true", "no_folders"),
    ("parts.js", "PART_BYTES = 16777216", "PART_BYTES = 16777215", "one_part"),
    ("parts.js", "count < 2", "count < 1", "no_file_in_parts"),
    ("parts.js", "name === nameOf(i) && ", "", "no_file_in_parts"),
    ("parts.js", "!cap.dir && ", "", "no_file_in_parts"),
    ("parts.js", " && told.size === size", "", "no_file_in_parts"),
    ("parts.js", " && told.count === count", "", "no_file_in_parts"),
    ("parts.js", "hasKeys(metadata, 'wozhinnam-parts') && ", "", "no_file_in_parts"),
    ("parts.js", "hasKeys(told, 'count', 'size') && ", "", "no_file_in_parts"),
    ("gateway.js", "if (!bound) throw", "if (false) throw", "lies"),
    ("gateway.js", "await requireBound(cap, blob);\n      await take", "await take", "part_that_is_changed"),
    ("gateway.js", "request.onabort = () => failed(new Told(STOPPED))", "request.onabort = () => failed(new Told(BROKEN))", "stopped"),
    ("gateway.js", "OPENED.test(name) ?", "true ?", "file_itself"),
    ("gateway.js", "'?filename=' + encodeURIComponent(name)", "'?filename=' + name", "file_itself"),
    ("elements.js", "name.replace(HIDDEN", "name.replace(/x^/", "listed"),
    ("addresses.js", "name !== '').map(decoded)", "name !== '')", "names_lead"),
    ("addresses.js", ".replace(/\\s+/g, '')", "", "bad_caps"),
    ("documents.js", "make(kept)", "child.cloneNode()", "documents"),
    ("documents.js", "'head script style", "'head style", "documents"),
    ("views.js", "IMAGES = { __proto__: null, png", "IMAGES = { png", "listed"),
    ("shares.js", "places.map(share => share.number)", "places.map(share => share.number + 1)", "where_they_are"),
    ("shares.js", "verified ? 'good ' : ''", "'good '", "where_they_are"),
    ("shares.js", "isNumber(share[2])", "true", "report"),
    ("shares.js", "!Number.isInteger(good) || good < 0 || good > n", "good < 0", "report"),
    ("shares.js", "there.has(number) ? 'good'", "number < there.size ? 'good'", "share_map"),
    ("nodes.js", "save(blob, nameNow() || 'file')", "save(blob, 'file')", "saved_under"),
    ("nodes.js", "rel: 'noreferrer'", "rel: 'opener'", "file_itself"),
    ("nodes.js", "    open.draw();\n", "", "file_itself"),
    ("nodes.js", "await file.abort()", "await file.close()", "part_that_is_changed"),
    ("nodes.js", "await handle.remove?.()", "0", "part_that_is_changed"),
    ("nodes.js", "column === 0 && isFolder(a)", "false && isFolder(a)", "listed"),
    ("storing.js", "if (cap.dir || checked === false)", "if (cap.dir)", "anothers"),
    ("storing.js", "if (!cap.dir || checked === false)", "if (!cap.dir)", "anothers"),
    ("storing.js", ".size < children.length", ".size < 0", "alike"),
    ("storing.js", "parts[place] ??= await", "parts[place] = await", "tried_again_alone"),
    ("storing.js", "files.filter(({ tree }) => !tree.cap)", "files", "by_name_and"),
    ("style.css", "overflow-wrap: anywhere; user-select: all;", "white-space: nowrap;", "folder_is_stored"),
    ("index.html", '<label for="cap">Open a cap</label>', "", "has_a_name"),
]


def noticed(program, pages, only):
    """The first failure that browser.py tells with these pages; None where it tells none."""
    check = os.path.join(ROOT, "bench/checks/browser.py")
    words = [sys.executable, check, program, "--pages", pages, "--only", only]
    ran = subprocess.run(words, capture_output=True, text=True, env={**os.environ, "PATIENCE": PATIENCE})
    lines = [line for line in (ran.stdout + ran.stderr).split("\n") if "FAILED" in line]
    return None if ran.returncode == 0 else (lines or ["it doesn't run: " + ran.stderr[-100:]])[0]


def main():
    if len(sys.argv) < 2:
        fail("a PROGRAM is wanted")
    program, missed = checked_program(sys.argv[1]), 0
    for name, old, new, only in CHANGES:
        if sys.argv[2:] and name not in sys.argv[2:]:
            continue
        with tempfile.TemporaryDirectory() as folder:
            pages = os.path.join(folder, "pages")
            shutil.copytree(os.path.join(ROOT, "pages"), pages)
            with open(os.path.join(pages, name)) as file:
                text = file.read()
            if text.count(old) != 1:
                fail("%s has %d times: %s" % (name, text.count(old), old))
            with open(os.path.join(pages, name), "w") as file:
                file.write(text.replace(old, new))
            line = noticed(program, pages, only)
        missed += line is None
        print("%-7s %-15s %-60s %s" % ("MISSED" if line is None else "noticed", name, old[:58].replace("\n", " "), (line or "")[:80]), flush=True)
    print("page_mutants.py: %d missed" % missed)
    sys.exit(1 if missed else 0)


if __name__ == "__main__":
    main()
