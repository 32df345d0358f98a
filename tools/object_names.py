#!/usr/bin/env python3
"""The names of the objects in looks.cases, checkouts.cases and prunes.cases of crates/case_runner/data, reckoned from OSTree's formats alone."""
import hashlib
import struct


def name_of(data):
    return hashlib.sha256(data).digest()


def with_ends(data, ends):
    """A GVariant container of less than 256 bytes: its data, and behind it where its parts end."""
    assert len(data) + len(ends) < 256
    return data + bytes(ends)


def tuple_of(data, ends):
    return with_ends(data, ends[::-1])


def array_of(parts):
    ends, data = [], b""
    for part in parts:
        data += part
        ends.append(len(data))
    return with_ends(data, ends)


def stream(uid, gid, mode, target):
    """The header of a file's or a link's content stream, without extended attributes."""
    data = struct.pack(">IIII", uid, gid, mode, 0) + target + b"\0"
    header = tuple_of(data, [len(data)])
    return struct.pack(">II", len(header), 0) + header


def file(uid, gid, mode, content):
    return name_of(stream(uid, gid, 0o100000 + mode, b"") + content)


def link(uid, gid, target):
    return name_of(stream(uid, gid, 0o120777, target))


def dirmeta(uid, gid, mode):
    return name_of(struct.pack(">III", uid, gid, 0o40000 + mode))


def dirtree(files, folders):
    """Files and links as names and sums, folders as names and two sums, each in the order of the names."""
    items = [tuple_of(name + b"\0" + sum, [len(name) + 1]) for name, sum in files]
    below = [tuple_of(name + b"\0" + tree + meta, [len(name) + 1, len(name) + 33]) for name, tree, meta in folders]
    front = array_of(items)
    return name_of(tuple_of(front + array_of(below), [len(front)]))


def commit(root, parent, subject, body, time):
    data = parent
    ends = [0, len(data), len(data)]
    for text in (subject, body):
        data += text + b"\0"
        ends.append(len(data))
    data += bytes(-len(data) % 8) + struct.pack(">Q", time)
    for sum in root:
        data += sum
        ends.append(len(data))
    return name_of(tuple_of(data, ends[:-1]))


PLAIN = dirmeta(0, 0, 0o755)


def readme():
    """The first commit of README.md."""
    motd = file(0, 0, 0o644, b"hello\n")
    beside = link(0, 0, b"etc/motd")
    root = dirtree([(b"motd", beside)], [(b"etc", dirtree([(b"motd", motd)], []), PLAIN)])
    return [motd, beside, commit((root, PLAIN), b"", b"first", b"", 1700000000)]


def odd():
    """Three commits of a tree with odd names, permissions and contents and of one with a root alone."""
    files = [
        (b"a b", file(0, 0, 0o644, b"")),
        (b"a%", file(3, 4, 0o4755, b"~")),
        (b"c", file(0, 0, 0o644, b"\0\n%\xff ")),
    ]
    below = link(7, 8, b"../a")
    root = dirtree(files, [(b"d", dirtree([(b"l", below)], []), dirmeta(5, 6, 0))])
    empty = dirtree([], [])
    first = commit((root, dirmeta(1, 2, 0o1777)), b"", b"", b"", 0)
    second = commit((empty, PLAIN), first, b"~", b"", 2**64 - 1)
    third = commit((empty, PLAIN), second, "\u00c4 b".encode(), b"x", 5)
    return [sum for _, sum in files] + [below, first, second, third]


def twice():
    """A commit of a tree that has one of these files twice, and no other text."""
    content = file(0, 0, 0o644, b"\0\n%\xff ")
    files = [(b"a b", file(0, 0, 0o644, b"")), (b"c", content)]
    below = dirtree([(b"c", content), (b"l", link(7, 8, b"../a"))], [])
    return [commit((dirtree(files, [(b"d", below, dirmeta(5, 6, 0))]), dirmeta(1, 2, 0o1777)), b"", b"", b"", 0)]


def place():
    """A commit of a tree whose names are those that a file system over the host keeps at its top."""
    inside = dirtree([(b".ost-new", file(0, 0, 0o644, b"a"))], [])
    beside = dirtree([(b".ost-new", link(0, 0, b"a"))], [])
    root = dirtree([], [(b".ost-new", inside, PLAIN), (b"d", beside, dirmeta(0, 0, 0o700))])
    return [file(0, 0, 0o644, b"a"), commit((root, PLAIN), b"", b"", b"", 0)]


def three():
    """Three commits of one tree, each the parent of the next."""
    root = dirtree([], [(b"d", dirtree([], []), PLAIN)])
    names = [b""]
    for number, subject in enumerate((b"first", b"second", b"third")):
        names.append(commit((root, PLAIN), names[-1], subject, b"", 1700000000 + number))
    return names[1:]


def shared():
    """Two commits of trees that share all but one file, and then one more of the first tree. What the first one has alone comes first."""
    one, two, below = (file(0, 0, 0o644, content) for content in (b"one", b"two", b"b"))
    folder = (b"d", dirtree([(b"b", below)], []), PLAIN)
    first, second = (dirtree([(b"a", sum)], [folder]) for sum in (one, two))
    commits = [
        commit((first, PLAIN), b"", b"first", b"", 1700000000),
        commit((second, PLAIN), b"", b"second", b"", 1700000001),
        commit((first, PLAIN), b"", b"third", b"", 1700000002),
    ]
    return [one, first, commits[0], two, second, commits[1], below, folder[1], PLAIN, commits[2]]


for sum in readme() + odd() + twice() + place() + three() + shared():
    print(sum.hex())
