"""A plain model of file encoding, from which the tests of share_codec have values: `shares.py K N SIZE` encodes SIZE bytes of
crypttext, byte i being i mod 251, and prints the hash of the URI extension block, the shares' length, and the tagged hash
(tag `shares`) of all shares joined. It stands on Python's hashlib alone."""

import hashlib
import sys


def netstring(text):
    return b"%d:%s," % (len(text), text)


def double(text):
    return hashlib.sha256(hashlib.sha256(text).digest()).digest()


def tagged(tag, value):
    return double(netstring(tag) + value)


def pair(left, right):
    return double(netstring(b"webgate_tree_node_v1") + netstring(left) + netstring(right))


def levels(leaves):
    """The levels of a hash tree, the padded leaves first."""
    padded, count = list(leaves), 1
    while count < len(leaves):
        count *= 2
    for index in range(len(leaves), count):
        padded.append(tagged(b"webgate_tree_empty_leaf_v1", b"%d" % index))
    tree = [padded]
    while len(tree[-1]) > 1:
        below = tree[-1]
        tree.append([pair(below[i], below[i + 1]) for i in range(0, len(below), 2)])
    return tree


def root(leaves):
    return levels(leaves)[-1][0]


def siblings(leaves, place):
    found = []
    for level in levels(leaves)[:-1]:
        found.append(level[place ^ 1])
        place //= 2
    return found


def product(a, b):
    """In GF(256) modulo x^8 + x^4 + x^3 + x^2 + 1."""
    total = 0
    while b:
        if b & 1:
            total ^= a
        a, b = a << 1, b >> 1
        if a & 256:
            a ^= 0x11D
    return total


def inverse(a):
    return next(b for b in range(256) if product(a, b) == 1)


def place_of(number):
    place = 1
    for _ in range(number - 1):
        place = product(place, 2)
    return place if number else 0


def weight(places, j, x):
    above, below = 1, 1
    for m, place in enumerate(places):
        if m != j:
            above = product(above, x ^ place)
            below = product(below, places[j] ^ place)
    return product(above, inverse(below))


def block(primary, number):
    if number < len(primary):
        return primary[number]
    places = [place_of(j) for j in range(len(primary))]
    total = 0
    for j, part in enumerate(primary):
        factor = weight(places, j, place_of(number))
        table = bytes(product(factor, byte) for byte in range(256))
        total ^= int.from_bytes(part.translate(table), "big")
    return total.to_bytes(len(primary[0]), "big")


def encode(k, n, crypttext):
    size = len(crypttext)
    segment_size = -(-min(131072, size) // k) * k
    segments = [crypttext[at:at + segment_size] for at in range(0, size, segment_size)]
    blocks = [[] for _ in range(n)]
    for segment in segments:
        part = -(-len(segment) // k)
        padded = segment.ljust(part * k, b"\0")
        primary = [padded[j * part:(j + 1) * part] for j in range(k)]
        for number in range(n):
            blocks[number].append(block(primary, number))
    hashes = [tagged(b"webgate_crypttext_segment_v1", segment) for segment in segments]
    leaves = [root([tagged(b"webgate_block_v1", b) for b in share]) for share in blocks]
    entries = {
        b"crypttext_root_hash": root(hashes),
        b"needed_shares": b"%d" % k,
        b"num_segments": b"%d" % len(segments),
        b"segment_size": b"%d" % segment_size,
        b"share_root_hash": root(leaves),
        b"size": b"%d" % size,
        b"total_shares": b"%d" % n,
    }
    extension = b"".join(key + b":" + netstring(value) for key, value in sorted(entries.items()))
    shares = []
    for number in range(n):
        parts = [b"1", b"%d" % number, extension, b"".join(hashes), b"".join(siblings(leaves, number)), b"".join(blocks[number])]
        shares.append(b"".join(map(netstring, parts)))
    return shares, tagged(b"webgate_uri_extension_v1", extension)


def main():
    k, n, size = map(int, sys.argv[1:])
    shares, extension_hash = encode(k, n, bytes(i % 251 for i in range(size)))
    print("extension hash", extension_hash.hex())
    print("length of share 0", len(shares[0]))
    print("hash of all shares", tagged(b"shares", b"".join(shares)).hex())


if __name__ == "__main__":
    main()
