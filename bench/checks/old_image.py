#!/usr/bin/env python3
"""An image of version 1 with the largest file that there is, of 16,777,216 bytes, laid into one folder by `wozhinnam restore`, the built program: at 3
of 10, where all ten shares stand on one store, and at 1 of 1, where the share is longer than the file. The file is given whole and in ranges, its
shares are good, an upload gives its cap, and what is written then is the image of version 2. An image that lacks its last byte, or says one byte more,
is refused and lays nothing. The image and the cap are made here. It needs openssl and python3, and takes half a minute.

usage: bench/checks/old_image.py [PROGRAM]
"""

import os
import subprocess
import tempfile

from script_kit import built, fail, file_checked, image, large_upload
from server import wozhinnam

LARGEST = 16_777_216
BAD_IMAGE = 26


def text_of(size):
    return bytes(at % 251 for at in range(251 * 1000)) * (size // 251_000) + bytes(at % 241 for at in range(size % 251_000))


def asked(server, method, target, fields=None):
    """The status, the body and the range that is given."""
    connection = server.client.connection
    connection.request(method, target, headers=fields or {})
    given = connection.getresponse()
    return given.status, given.read(), given.getheader("Content-Range")


def read(program, file, folder, kind):
    """All that a server over this folder tells of the file."""
    server = wozhinnam(program, "--shares", "%d,%d" % (file.k, file.n), "--store", "dir:%s%s" % (folder, kind), control=True)
    if server.ask("GET", "/uri/" + file.cap) != file.text:
        fail("other bytes from %s%s" % (folder, kind))
    for first, last in ((0, 0), (131_071, 131_072), (LARGEST - 131_073, LARGEST - 1)):
        given = asked(server, "GET", "/uri/" + file.cap, {"Range": "bytes=%d-%d" % (first, last)})
        if given != (206, file.text[first:last + 1], "bytes %d-%d/%d" % (first, last, LARGEST)):
            fail("the bytes from %d to %d are given %d, %r" % (first, last, given[0], given[2]))
    for verify in ("", "&verify=true"):
        told = server.ask("POST", "/uri/%s?t=check&output=JSON%s" % (file.verify_cap, verify))
        if told != file_checked(file, 1).split(b"\r\n\r\n", 1)[1]:
            fail("a check is answered %r" % told)
    if server.ask("PUT", "/uri", file.text) != file.cap.encode():
        fail("an upload is given another cap")
    server.stop()


def restored(program, file, data, top, name):
    """The status of a restore of these bytes into a new folder, and the folder."""
    path, folder = os.path.join(top, "image"), os.path.join(top, name)
    with open(path, "wb") as output:
        output.write(data)
    ran = subprocess.run([program, "restore", "--shares", "%d,%d" % (file.k, file.n), path, folder], capture_output=True, timeout=300)
    return ran.returncode, folder


def tried(program, file, top):
    stand = file.placed(1)
    old = image(stand, 1, 1)
    for name, data in (("cut", old[:-1]), ("longer", old + b"\0")):
        status, folder = restored(program, file, data, top, name)
        if status != BAD_IMAGE or os.path.exists(folder):
            fail("%d of %d: the image that is %s: status %d" % (file.k, file.n, name, status))
    status, folder = restored(program, file, old, top, "grid%d" % file.k)
    if status:
        fail("%d of %d: a restore ends with %d" % (file.k, file.n, status))
    for kind in ("", ":1000000000,disk"):
        read(program, file, folder, kind)
    with open(os.path.join(top, "written"), "w+b") as output:
        if subprocess.run([program, "image", folder], stdout=output, stderr=subprocess.DEVNULL, timeout=300).returncode:
            fail("no image is written")
        output.seek(0)
        if output.read() != image(stand, 1, 2):
            fail("another image is written")
    print("%d of %d: %d shares of %d bytes in an image of version 1 of %d bytes: read, and the file given" % (
        file.k, file.n, file.n, len(file.shares[0]), len(old)), flush=True)


def main():
    program = built("wozhinnam")
    for k, n in ((3, 10), (1, 1)):
        with tempfile.TemporaryDirectory() as top:
            tried(program, large_upload(k, n, b"", text_of(LARGEST)), top)


main()
