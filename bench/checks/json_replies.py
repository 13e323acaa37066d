"""What `clients.sh` needs of JSON: children to make a directory of, and replies compared with what they are to be.

Caps, storage indexes and texts are made here anew, by hashlib and Python's json. A comparison names the first field that
differs and exits with 1. Usage:

    json_replies.py verify CAP                    prints the verify cap of a read cap
    json_replies.py escape NAME                   prints a name as it stands in a path
    json_replies.py children NAME=CAP..           prints children, each with the metadata {"n": its place}
    json_replies.py directory_size NAME=CAP..     prints how many bytes the text of that directory has
    json_replies.py file REPLY CAP                compares the reply to t=json of a file
    json_replies.py directory REPLY CAP NAME=CAP..    the same of a directory of these children
    json_replies.py check REPLY CAP [SERVERS]     compares the reply to a check whose shares are all good and, where the
                                                  number of servers is said, that browsers are told where each stands
"""
import base64
import hashlib
import json
import sys
import unicodedata
import urllib.parse


def netstring(data):
    return b"%d:%s," % (len(data), data)


def storage_index(key):
    padded = key.upper() + "=" * (-len(key) % 8)
    tag = netstring(b"webgate_key_to_storage_index_v1")
    hashed = hashlib.sha256(hashlib.sha256(tag + base64.b32decode(padded)).digest()).digest()
    return base64.b32encode(hashed[:16]).decode().lower().rstrip("=")


def kind_of(cap):
    return cap.split(":")[1]


def verify_cap(cap):
    """The cap that verifies what a cap names, or None where that stands in the cap."""
    scheme, kind, *fields = cap.split(":")
    if kind in ("LIT", "DIR2-LIT"):
        return None
    if not kind.endswith("-Verifier"):
        kind, fields[0] = kind + "-Verifier", storage_index(fields[0])
    return ":".join([scheme, kind, *fields])


def size_of(cap):
    last = cap.split(":")[-1]
    return len(last) * 5 // 8 if kind_of(cap) == "LIT" else int(last)


def node(cap, more):
    """A node's pair: its kind and its fields beside these."""
    is_directory = kind_of(cap).startswith("DIR2")
    fields = {"mutable": False, "ro_uri": cap, **more}
    if not is_directory:
        fields["size"] = size_of(cap)
    if verify_cap(cap) is not None:
        fields["verify_uri"] = verify_cap(cap)
    return ["dirnode" if is_directory else "filenode", fields]


def named(words):
    """The names in NFC, with their caps and metadata."""
    pairs = [word.split("=", 1) for word in words]
    return {
        unicodedata.normalize("NFC", name): (cap, {"n": place})
        for place, (name, cap) in enumerate(pairs)
    }


def children(words):
    """As a client sends them: names as they are given, blanks, fields that count for nothing."""
    members = {}
    for place, word in enumerate(words):
        name, cap = word.split("=", 1)
        members[name] = ["filenode", {"ro_uri": cap, "rw_uri": None, "metadata": {"n": place}, "x": 0.5}]
    return json.dumps(members)


def directory_size(words):
    text = b""
    for name, (cap, metadata) in sorted(named(words).items(), key=lambda entry: entry[0].encode()):
        parts = (name.encode(), cap.encode(), b"", json.dumps(metadata, separators=(",", ":")).encode())
        text += netstring(b"".join(netstring(part) for part in parts))
    return len(text)


def directory(cap, words):
    listed = {name: node(child, {"metadata": metadata}) for name, (child, metadata) in named(words).items()}
    return node(cap, {"children": listed})


def sharemap(index, shares, servers):
    """Share i stands at the server (last byte of the storage index + i) modulo the number of servers."""
    last = base64.b32decode(index.upper() + "=" * (-len(index) % 8))[-1]
    return {str(number): [(last + number) % servers] for number in range(shares)}


def check(cap, servers):
    verify = verify_cap(cap)
    if verify is None:
        return {"results": {"healthy": True}, "storage-index": ""}
    index, _, needed, shares, _ = verify.split(":")[2:]
    beside = {} if servers is None else {"sharemap": sharemap(index, int(shares), servers)}
    return {
        "results": {
            "count-corrupt-shares": 0,
            "count-shares-expected": int(shares),
            "count-shares-good": int(shares),
            "count-shares-needed": int(needed),
            "healthy": True,
            "list-corrupt-shares": [],
            "recoverable": True,
            **beside,
        },
        "storage-index": index,
    }


def once(pairs):
    """An object whose keys rise, so that none stands twice."""
    keys = [key.encode() for key, _ in pairs]
    if any(one >= next_one for one, next_one in zip(keys, keys[1:])):
        sys.exit(f"json_replies.py: keys that don't rise: {keys}")
    return dict(pairs)


def compare(place, given, wanted):
    """Exits at the first field of another kind or value."""
    if type(given) is not type(wanted):
        sys.exit(f"json_replies.py: at {place}: {given!r} and not {wanted!r}")
    if isinstance(wanted, dict):
        if given.keys() != wanted.keys():
            sys.exit(f"json_replies.py: at {place}: the keys {list(given)} and not {sorted(wanted)}")
        for key, value in wanted.items():
            compare(f"{place}.{key}", given[key], value)
    elif isinstance(wanted, list):
        if len(given) != len(wanted):
            sys.exit(f"json_replies.py: at {place}: {len(given)} items and not {len(wanted)}")
        for at, value in enumerate(wanted):
            compare(f"{place}[{at}]", given[at], value)
    elif given != wanted:
        sys.exit(f"json_replies.py: at {place}: {given!r} and not {wanted!r}")


def compare_reply(path, wanted):
    with open(path, "rb") as reply:
        text = reply.read().decode()
    compare("reply", json.loads(text, object_pairs_hook=once), wanted)
    if text != json.dumps(wanted, ensure_ascii=False, separators=(",", ":"), sort_keys=True):
        sys.exit(f"json_replies.py: the text isn't compact: {text}")


def main(words):
    match words:
        case ["verify", cap]:
            print(verify_cap(cap))
        case ["escape", name]:
            print(urllib.parse.quote(name, safe=""))
        case ["children", *entries]:
            print(children(entries))
        case ["directory_size", *entries]:
            print(directory_size(entries))
        case ["file", reply, cap]:
            compare_reply(reply, node(cap, {}))
        case ["directory", reply, cap, *entries]:
            compare_reply(reply, directory(cap, entries))
        case ["check", reply, cap, *servers]:
            compare_reply(reply, check(cap, int(servers[0]) if servers else None))
        case _:
            sys.exit(__doc__)


main(sys.argv[1:])
