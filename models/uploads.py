"""A plain model of uploads and images, from which the scripts of bench/ have what they expect: the cap of some bytes, their shares, where these
are placed, and the image of what stands. It stands on Python's hashlib, on `shares.py` and on the cipher of `apart.py`. Run by itself it compares
caps and images with those that another program made, and with the bytes of docs/FORMATS.md."""

import base64
import struct
import sys

import apart
import shares

LIMIT = 55
LETTERS = "URI:CHK:xciehu7wkhrkdhseyznarsl6n4:ro65en3n4zxwl3gfinnekkeqado3jxpde7tfaj3sr7als57h4qoa:3:10:56"


def base32(text):
    return base64.b32encode(text).decode().lower().rstrip("=")


def tagged16(tag, value):
    return shares.tagged(tag, value)[:16]


class Upload:
    """Bytes of which any k of n shares give them back, stored under a secret."""

    def __init__(self, k, n, secret, text, kind=""):
        self.k, self.n, self.text, self.kind, self.shares = k, n, text, kind, []
        if len(text) <= LIMIT:
            self.cap = "URI:%sLIT:%s" % (kind, base32(text))
            return
        segment_size = -(-min(131072, len(text)) // k) * k
        tag = b"webgate_content_to_key_v1+" + shares.netstring(secret) + shares.netstring(b"%d,%d,%d" % (k, n, segment_size))
        self.key = tagged16(tag, text)
        self.index = tagged16(b"webgate_key_to_storage_index_v1", self.key)
        self.shares, self.extension_hash = shares.encode(k, n, apart.crypt(self.key, text))
        self.cap = self.cap_of(self.extension_hash)
        self.verify_cap = "URI:%sCHK-Verifier:%s:%s:%d:%d:%d" % (kind, base32(self.index), base32(self.extension_hash), k, n, len(text))

    def cap_of(self, extension_hash):
        """Its read cap with this hash."""
        return "URI:%sCHK:%s:%s:%d:%d:%d" % (self.kind, base32(self.key), base32(extension_hash), self.k, self.n, len(self.text))

    def placed(self, servers):
        """Its shares, by server, storage index and number."""
        return {((self.index[-1] + i) % servers, self.index, i): share for i, share in enumerate(self.shares)}


def image(stand, servers, version=2):
    """What stands, by server, storage index and number, as an image."""
    count, length = (">Q", ">Q") if version == 2 else (">I", ">I")
    parts = [b"TGRIDIM%d" % version, struct.pack(">I", servers), struct.pack(count, len(stand))]
    for (server, index, number), share in sorted(stand.items()):
        parts += [struct.pack(">I", server), index, struct.pack(">I", number), struct.pack(length, len(share)), share]
    return b"".join(parts)


def main():
    letters = Upload(3, 10, b"", b"a" * 56)
    assert letters.cap == LETTERS, letters.cap
    assert Upload(3, 10, b"", b"foobar").cap == "URI:LIT:mzxw6ytboi"
    assert image({}, 5).hex() == "5447524944494d32000000050000000000000000"
    print("the caps and the image are those of other programs")
    sys.exit(0)


if __name__ == "__main__":
    main()
