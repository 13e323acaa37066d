"""The strings that docs/PROMISES.md's premise `apart` speaks of, for a run of three callers at 3 of 10: caller 2 uploads a file of 56
letters and a directory over it, caller 3 another file, the operator spoils a share, and caller 1 walks into the directory, reads the file
and checks its verify cap. Prints how many strings are hashed in caller 1's part and in that of all callers, and ends with status 1 where two
of them that differ have one hash. It stands on Python's hashlib alone; the file's cap is compared with one that another program made."""

import base64
import sys

import shares

K, N = 3, 10
LETTERS = b"URI:CHK:xciehu7wkhrkdhseyznarsl6n4:ro65en3n4zxwl3gfinnekkeqado3jxpde7tfaj3sr7als57h4qoa:3:10:56"


class Uses(set):
    """Strings that are hashed, each with how many bytes of its hash are taken."""

    def __enter__(self):
        self.hash = shares.double
        shares.double = self.double
        return self

    def __exit__(self, *_):
        shares.double = self.hash

    def double(self, text):
        self.add((text, 32))
        return self.hash(text)

    def tagged16(self, tag, value):
        text = shares.netstring(tag) + value
        self.add((text, 16))
        return self.hash(text)[:16]

    def collisions(self):
        found = {}
        for text, size in self:
            found.setdefault(shares.double(text)[:size], set()).add(text)
        return [texts for texts in found.values() if len(texts) > 1]


# AES-128 in counter mode (FIPS 197; SP 800-38A, section 6.5)

def times(a, b):
    total = 0
    for bit in range(8):
        total ^= (a << bit) * (b >> bit & 1)
    for bit in range(14, 7, -1):
        total ^= (0x11B << bit - 8) * (total >> bit & 1)
    return total


def s_box(x):
    inverse = next((y for y in range(256) if times(x, y) == 1), 0)
    turned = inverse | inverse << 8
    return (inverse ^ turned >> 7 ^ turned >> 6 ^ turned >> 5 ^ turned >> 4) & 255 ^ 0x63


S_BOX = bytes(map(s_box, range(256)))


def round_keys(key):
    words = [key[i:i + 4] for i in range(0, 16, 4)]
    power = 1
    for i in range(4, 44):
        word = words[-1]
        if i % 4 == 0:
            word = (word[1:] + word[:1]).translate(S_BOX)
            word = bytes([word[0] ^ power]) + word[1:]
            power = times(power, 2)
        words.append(bytes(a ^ b for a, b in zip(word, words[i - 4])))
    return [b"".join(words[i:i + 4]) for i in range(0, 44, 4)]


def encrypt(keys, block):
    state = bytes(a ^ b for a, b in zip(block, keys[0]))
    for number in range(1, 11):
        state = bytes(state.translate(S_BOX)[(5 * i) % 16] for i in range(16))
        if number < 10:
            mixed = []
            for column in (state[i:i + 4] for i in range(0, 16, 4)):
                mixed += [times(2, column[i]) ^ times(3, column[(i + 1) % 4]) ^ column[(i + 2) % 4] ^ column[(i + 3) % 4] for i in range(4)]
            state = bytes(mixed)
        state = bytes(a ^ b for a, b in zip(state, keys[number]))
    return state


def crypt(key, text):
    keys = round_keys(key)
    stream = b"".join(encrypt(keys, i.to_bytes(16, "big")) for i in range(-(-len(text) // 16)))
    return bytes(a ^ b for a, b in zip(text, stream))


# uploads, and what stands

def segment_size(size):
    return -(-min(131072, size) // K) * K


def index_of(uses, key):
    return uses.tagged16(b"webgate_key_to_storage_index_v1", key)


def upload(uses, text):
    """The fields of the cap of some bytes, and their shares."""
    numbers = b"%d,%d,%d" % (K, N, segment_size(len(text)))
    tag = b"webgate_content_to_key_v1+" + shares.netstring(b"") + shares.netstring(numbers)
    key = uses.tagged16(tag, text)
    index_of(uses, key)
    made, extension_hash = shares.encode(K, N, crypt(key, text))
    return key, extension_hash, len(text), made


def cap_text(kind, key, extension_hash, size):
    letters = [base64.b32encode(part).decode().lower().rstrip("=") for part in (key, extension_hash)]
    return ("URI:%s:%s:%s:%d:%d:%d" % (kind, *letters, K, N, size)).encode()


def texts_of(share):
    texts, at = [], 0
    while at < len(share):
        colon = share.index(b":", at)
        end = colon + 1 + int(share[at:colon])
        texts.append(share[colon + 1:end])
        at = end + 1
    return texts


def verify(number, size, share):
    """Hashes what verifying a share hashes."""
    _, _, extension, hashes, chain, joined = texts_of(share)
    shares.tagged(b"webgate_uri_extension_v1", extension)
    shares.root([hashes[i:i + 32] for i in range(0, len(hashes), 32)])
    part = segment_size(size) // K
    leaf = shares.root([shares.tagged(b"webgate_block_v1", joined[i:i + part]) for i in range(0, len(joined), part)])
    for i in range(0, len(chain), 32):
        beside = chain[i:i + 32]
        leaf = shares.pair(beside, leaf) if number % 2 else shares.pair(leaf, beside)
        number //= 2


def directory_text(name, cap):
    entry = b"".join(map(shares.netstring, (name, cap, b"", b"{}")))
    return shares.netstring(entry)


def meet(uses, key, size, stand):
    """What is hashed for the storage index of a read cap, and to verify what stands under it."""
    index_of(uses, key)
    for number, share in enumerate(stand):
        verify(number, size, share)


def main():
    with Uses() as part:
        key, extension_hash, size, made = upload(part, b"a" * 56)
        cap = cap_text("CHK", key, extension_hash, size)
        assert cap == LETTERS, cap
        folder_key, _, folder_size, folder = upload(part, directory_text(b"a", cap))
        spoiled = list(made)
        # The lowest bit of the last byte of share 4's blocks.
        spoiled[4] = made[4][:-2] + bytes([made[4][-2] ^ 1]) + made[4][-1:]
        # GET /uri/FOLDER/a meets both, and a check the file once more.
        meet(part, folder_key, folder_size, folder)
        meet(part, key, size, spoiled)
    with Uses(part) as everyone:
        upload(everyone, bytes(i % 251 for i in range(1000)))
    print("caller 1's part: %d strings; all callers': %d" % (len(part), len(everyone)))
    collide = part.collisions() + everyone.collisions()
    print("collisions: %d" % len(collide))
    sys.exit(1 if collide else 0)


if __name__ == "__main__":
    main()
