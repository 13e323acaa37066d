"""Texts of directories (docs/FORMATS.md)."""


def netstring(text):
    return b"%d:%s," % (len(text), text)


def entry(name, metadata=b"{}", cap=b"URI:LIT:mzxw6"):
    return netstring(netstring(name) + netstring(cap) + netstring(b"") + netstring(metadata))


def children(count):
    """So many children, which are named by their numbers."""
    return b"".join(entry(b"%08d" % at) for at in range(count))
