"""Puts and gets a body of 4 MiB at 3 of 10 as another program would: Python over zfec, OpenSSL's AES (by cryptography) and
hashlib, with the formats of docs/FORMATS.md, in one thread. `peer_files.py TURNS` prints the least microseconds of so many
turns: `put`, from the body to the ten shares and the cap's fields; `get` and `get_secondary`, from the first and from the last
three shares to the body; `hash_put` and `hash_get`, the hashing in them alone. `peer_files.py --check` compares the shares of 200,000 bytes
with those of models/shares.py, which uses none of these libraries but hashlib."""

import hashlib
import pathlib
import sys
import time

import zfec
from cryptography.hazmat.primitives.ciphers import Cipher, algorithms, modes

K, N, BODY, SEGMENT = 3, 10, 4_194_304, 131_072


def netstring(text):
    return b"%d:%s," % (len(text), text)


def double(tag, *values):
    first = hashlib.sha256(netstring(tag))
    for value in values:
        first.update(value)
    return hashlib.sha256(first.digest()).digest()


def pair(left, right):
    return double(b"webgate_tree_node_v1", netstring(left), netstring(right))


def levels(leaves):
    padded, count = list(leaves), 1
    while count < len(leaves):
        count *= 2
    padded += [double(b"webgate_tree_empty_leaf_v1", b"%d" % i) for i in range(len(leaves), count)]
    tree = [padded]
    while len(tree[-1]) > 1:
        below = tree[-1]
        tree.append([pair(below[i], below[i + 1]) for i in range(0, len(below), 2)])
    return tree


def siblings(tree, place):
    found = []
    for level in tree[:-1]:
        found.append(level[place ^ 1])
        place //= 2
    return found


def segment_size(size):
    return -(-min(SEGMENT, size) // K) * K


def key_of(secret, body):
    numbers = b"%d,%d,%d" % (K, N, segment_size(len(body)))
    return double(b"webgate_content_to_key_v1+" + netstring(secret) + netstring(numbers), body)[:16]


def crypt(key, body):
    cipher = Cipher(algorithms.AES(key), modes.CTR(bytes(16))).encryptor()
    return cipher.update(body) + cipher.finalize()


def cut(crypttext):
    size = segment_size(len(crypttext))
    view = memoryview(crypttext)
    return [view[at:at + size] for at in range(0, len(crypttext), size)]


def extension_of(size, crypttext_root, share_root):
    entries = {
        b"crypttext_root_hash": crypttext_root,
        b"needed_shares": b"%d" % K,
        b"num_segments": b"%d" % -(-size // segment_size(size)),
        b"segment_size": b"%d" % segment_size(size),
        b"share_root_hash": share_root,
        b"size": b"%d" % size,
        b"total_shares": b"%d" % N,
    }
    return b"".join(name + b":" + netstring(value) for name, value in sorted(entries.items()))


def encode(crypttext):
    encoder = zfec.Encoder(K, N)
    blocks, hashes = [[] for _ in range(N)], []
    for segment in cut(crypttext):
        hashes.append(double(b"webgate_crypttext_segment_v1", segment))
        part = -(-len(segment) // K)
        if len(segment) < part * K:
            segment = bytes(segment).ljust(part * K, b"\0")
        primary = [bytes(segment[j * part:(j + 1) * part]) for j in range(K)]
        for number, block in enumerate(encoder.encode(primary, list(range(N)))):
            blocks[number].append(block)
    leaves = [levels([double(b"webgate_block_v1", b) for b in share])[-1][0] for share in blocks]
    tree = levels(leaves)
    extension = extension_of(len(crypttext), levels(hashes)[-1][0], tree[-1][0])
    shares = []
    for number in range(N):
        parts = (b"1", b"%d" % number, extension, b"".join(hashes), b"".join(siblings(tree, number)), b"".join(blocks[number]))
        shares.append(b"".join(map(netstring, parts)))
    return shares, double(b"webgate_uri_extension_v1", extension)


def put(secret, body):
    key = key_of(secret, body)
    shares, ueb = encode(crypt(key, body))
    return key, ueb, shares


def texts_of(share):
    texts, at = [], 0
    while at < len(share):
        colon = share.index(b":", at, at + 20)
        end = colon + 1 + int(share[at:colon])
        assert share[end:end + 1] == b","
        texts.append(memoryview(share)[colon + 1:end])
        at = end + 1
    return texts


def verified(share, number, size, ueb):
    """The blocks of a good share."""
    version, name, extension, hashes, chain, joined = texts_of(share)
    assert version == b"1" and name == b"%d" % number
    assert double(b"webgate_uri_extension_v1", extension) == ueb
    leaves = [bytes(hashes[i:i + 32]) for i in range(0, len(hashes), 32)]
    part = segment_size(size) // K
    blocks = [joined[at:at + part] for at in range(0, len(joined), part)]
    top = levels([double(b"webgate_block_v1", b) for b in blocks])[-1][0]
    place = number
    for i in range(0, len(chain), 32):
        beside = bytes(chain[i:i + 32])
        top = pair(beside, top) if place % 2 else pair(top, beside)
        place //= 2
    root = levels(leaves)[-1][0]
    assert extension == extension_of(size, root, top)
    return blocks, root


def get(key, ueb, size, shares):
    """The body, from three numbered shares."""
    numbers = [number for number, _ in shares]
    read = [verified(share, number, size, ueb) for number, share in shares]
    decoder = zfec.Decoder(K, N)
    full = segment_size(size)
    segments, hashes = [], []
    for at in range(-(-size // full)):
        given = [bytes(blocks[at]) for blocks, _ in read]
        segment = b"".join(decoder.decode(given, numbers))[:min(full, size - at * full)]
        hashes.append(double(b"webgate_crypttext_segment_v1", segment))
        segments.append(segment)
    assert levels(hashes)[-1][0] == read[0][1]
    return crypt(key, b"".join(segments))


def hashing(body, shares):
    """The hashing of a put, and of a get, over strings of the same lengths."""
    part = segment_size(BODY) // K
    blocks = [memoryview(share)[len(share) - BODY // K:] for share in shares]

    def of_blocks(chosen):
        for share in chosen:
            for at in range(0, len(share), part):
                double(b"webgate_block_v1", share[at:at + part])

    def of_segments():
        for segment in cut(body):
            double(b"webgate_crypttext_segment_v1", segment)

    def of_put():
        double(b"webgate_content_to_key_v1+", body)
        of_segments()
        of_blocks(blocks)

    def of_get():
        of_segments()
        of_blocks(blocks[:K])

    return of_put, of_get


def microseconds(call):
    before = time.perf_counter_ns()
    value = call()
    return (time.perf_counter_ns() - before) // 1000, value


def bench(turns):
    body = bytes([turns % 251]) * BODY
    least = {}

    def keep(name, took):
        least[name] = min(least.get(name, took), took)

    for _ in range(turns):
        took, (key, ueb, shares) = microseconds(lambda: put(b"", body))
        keep("put", took)
        numbered = list(enumerate(shares))
        took, read = microseconds(lambda: get(key, ueb, BODY, numbered[:K]))
        keep("get", took)
        assert read == body
        took, read = microseconds(lambda: get(key, ueb, BODY, numbered[-K:]))
        keep("get_secondary", took)
        assert read == body
        of_put, of_get = hashing(body, shares)
        keep("hash_put", microseconds(of_put)[0])
        keep("hash_get", microseconds(of_get)[0])
    for name, took in least.items():
        print(name, took)


def check():
    sys.path.insert(0, str(pathlib.Path(__file__).resolve().parents[2] / "models"))
    import shares as model

    crypttext = bytes(i % 251 for i in range(200_000))
    assert encode(crypttext) == model.encode(K, N, crypttext)
    print("the same shares")


if __name__ == "__main__":
    check() if sys.argv[1] == "--check" else bench(int(sys.argv[1]))
