#!/usr/bin/env python3
"""Prints a folder of this machine as a tree for a script of ostree_cli: each node with its owner, group, permissions and extended
attributes, and its content or target.

    tools/tree_script.py FOLDER [--script BRANCH SUBJECT]

FOLDER itself is the root. Without --script the section `tree 0` is printed, with --script a whole script with it and a lane that commits
it to the branch. The commit's time is SOURCE_DATE_EPOCH, or now. As the usual ostree has them, attributes stand ascending by their names,
and each name has a zero behind it: so the commit has the name that `ostree commit --no-bindings` gives, but where an attribute has no
value, which that leaves out. Attributes that only root may see need root.

What can't stand in a script is left out, with all below it, and told on the standard error: devices, FIFOs and sockets, names that aren't
UTF-8, paths of more than 64 names or 1,024 bytes, files of more than 268,435,456 bytes, and what can't be read. A hard link is told, too:
each of its names becomes a node of its own.

Status: 0 where all was taken, 3 where the tree was printed but for what was left out, 1 where nothing is printed, as for a script of more
than 4,194,304 bytes, 2 where the words are wrong.
"""
import argparse
import errno
import os
import re
import stat
import sys
import time

SCRIPT_LIMIT = 4_194_304
CONTENT_LIMIT = 268_435_456
NAME_LIMIT = 255
NAMES_LIMIT = 64
PATH_LIMIT = 1024
CHUNK = 1 << 20
FIRST_LINE = b"ostree-script 1\n"
# The name that the program keeps for itself in each folder of the host.
RESERVED = b".ost-folder"
PLAIN = bytes(byte for byte in range(0x21, 0x7F) if byte != ord("%"))
SPELLED = [bytes([byte]) if byte in PLAIN else b"%%%02x" % byte for byte in range(256)]
PART = rb"[A-Za-z0-9_-][A-Za-z0-9_.-]*"
BRANCH = re.compile(rb"(?![0-9a-f]{64}\Z)" + PART + rb"(?:/" + PART + rb"){0,11}\Z")
KINDS = {
    stat.S_IFBLK: "a block device",
    stat.S_IFCHR: "a character device",
    stat.S_IFIFO: "a FIFO",
    stat.S_IFSOCK: "a socket",
}


def spelled(text):
    """The bytes with those escaped that can't stand in a field for themselves."""
    return b"".join(SPELLED[byte] for byte in text)


def spelled_length(text):
    return len(text) + 2 * len(text.translate(None, PLAIN))


def field(text):
    """The field of a text."""
    return {b"": b"~", b"~": b"%7e"}.get(text) or spelled(text)


def is_text(text):
    try:
        text.decode()
    except UnicodeDecodeError:
        return False
    return b"\0" not in text


class Text:
    """A text that is counted to its end, and kept as long as it is no longer than a script may be."""

    def __init__(self):
        self.length = 0
        self.pieces = []

    def add(self, piece):
        self.take(len(piece), [piece])

    def add_escaped(self, bytes_):
        if self.length <= SCRIPT_LIMIT:
            self.add(spelled(bytes_))
        else:
            self.length += spelled_length(bytes_)

    def add_text(self, other):
        self.take(other.length, other.pieces)

    def take(self, length, pieces):
        self.length += length
        if self.length <= SCRIPT_LIMIT:
            self.pieces += pieces
        else:
            self.pieces.clear()


class Unreadable(Exception):
    """Why a node isn't taken."""


class Walk:
    """Goes over a folder, and adds its nodes to a script."""

    def __init__(self, script):
        self.script = script
        self.first_names = {}
        self.left_out = 0

    def tell(self, path, what):
        print(f"{spelled(path).decode()}: {what}", file=sys.stderr)

    def leave_out(self, path, why):
        if path == b"/":
            sys.exit(f"/: {why}")
        self.left_out += 1
        self.tell(path, f"left out: {why}")

    def take(self, place, names):
        """Adds the node at a place of the machine whose path in the tree has these names, and all below it."""
        path = b"/" + b"/".join(names)
        try:
            why = refusal(names, path)
            if why:
                raise Unreadable(why)
            below = self.add_node(place, path)
        except Unreadable as error:
            return self.leave_out(path, error)
        except OSError as error:
            return self.leave_out(path, error.strerror)
        if names and names[-1] == RESERVED:
            self.tell(path, "taken, but ostree_cli checks no tree out that has this name, which it keeps for itself")
        for name in below:
            self.take(os.path.join(place, name), names + [name])

    def add_node(self, place, path):
        """Adds the node, and gives the names in it, ascending."""
        # The root is the folder that was named, by a link too.
        status = os.lstat(place) if path != b"/" else os.stat(place)
        kind = stat.S_IFMT(status.st_mode)
        if kind == stat.S_IFDIR:
            return self.add_folder(place, path, status)
        if kind == stat.S_IFLNK:
            self.add_link(place, path, status)
        elif kind == stat.S_IFREG:
            self.add_file(place, path, status)
        else:
            raise Unreadable(KINDS.get(kind, "of an unknown kind"))
        self.tell_hard_link(path, status)
        return []

    def add_folder(self, place, path, status):
        below = sorted(os.listdir(place))
        self.script.add(b"folder %s %s\n" % (spelled(path), attributes(place, status, follow=(path == b"/"))))
        return below

    def add_link(self, place, path, status):
        target = os.readlink(place)
        if not is_text(target):
            raise Unreadable("a link whose target isn't UTF-8")
        owner = b"%d %d %s" % (status.st_uid, status.st_gid, xattrs(place, follow=False))
        self.script.add(b"link %s %s %s\n" % (spelled(path), owner, field(target)))

    def add_file(self, place, path, status):
        if status.st_size > CONTENT_LIMIT:
            raise Unreadable(f"a file of {status.st_size:,} bytes, and a file has at most {CONTENT_LIMIT:,}")
        words = b"file %s %s " % (spelled(path), attributes(place, status, follow=False))
        with os.fdopen(os.open(place, os.O_RDONLY | os.O_NOFOLLOW | os.O_NONBLOCK), "rb") as file:
            content = content_of(file)
        self.script.add(words)
        self.script.add_text(content)
        self.script.add(b"\n")

    def tell_hard_link(self, path, status):
        if status.st_nlink > 1:
            first = self.first_names.setdefault((status.st_dev, status.st_ino), path)
            if first != path:
                self.tell(path, f"a hard link to {spelled(first).decode()}, becomes a node of its own")


def refusal(names, path):
    """Why no node may stand at a path, or None. Those above it may."""
    if names and not (is_text(names[-1]) and len(names[-1]) <= NAME_LIMIT):
        return f"the name isn't UTF-8 of at most {NAME_LIMIT} bytes"
    if len(names) > NAMES_LIMIT or len(path) > PATH_LIMIT:
        return f"a path has at most {NAMES_LIMIT} names and {PATH_LIMIT:,} bytes"
    return None


def content_of(file):
    """The field of what a file holds."""
    text = Text()
    one = one_byte(file)
    if one:
        text.add(filled(*one))
        return text
    text.add(b"=")
    file.seek(0)
    for chunk in chunks(file):
        text.add_escaped(chunk)
    return text


def chunks(file):
    return iter(lambda: file.read(CHUNK), b"")


def one_byte(file):
    """How many bytes a file has and their value, where all of them are the same and it has some, or None."""
    length, first = 0, b""
    for chunk in chunks(file):
        first = first or chunk[:1]
        if chunk.count(first) != len(chunk):
            return None
        length += len(chunk)
    return (length, first[0]) if first else None


def filled(length, byte):
    """The shorter field of so many bytes of a value."""
    counted = b"*%d:%02x" % (length, byte)
    if length < len(counted):
        return min(b"=" + SPELLED[byte] * length, counted, key=len)
    return counted


def attributes(place, status, follow):
    return b"%d %d %o %s" % (status.st_uid, status.st_gid, stat.S_IMODE(status.st_mode), xattrs(place, follow))


def xattrs(place, follow):
    """The extended attributes of a node as a field."""
    pairs = []
    for name in sorted(map(os.fsencode, xattr_names(place, follow))):
        value = os.getxattr(place, name, follow_symlinks=follow)
        pairs.append(f"{name.hex()}00:{value.hex()}")
    return ",".join(pairs).encode() or b"~"


def xattr_names(place, follow):
    try:
        return os.listxattr(place, follow_symlinks=follow)
    except OSError as error:
        if error.errno == errno.ENOTSUP:
            return []
        raise


def commit_time():
    given = os.environ.get("SOURCE_DATE_EPOCH") or str(int(time.time()))
    if not (given.isdecimal() and int(given) < 1 << 64):
        sys.exit(f"SOURCE_DATE_EPOCH: {given}: no number of seconds")
    return int(given)


def commit_line(branch, subject):
    """The line of a commit of tree 0."""
    if len(branch) > 255 or not BRANCH.match(branch):
        sys.exit(f"{spelled(branch).decode()}: no name of a ref")
    if not is_text(subject):
        sys.exit("the subject isn't UTF-8")
    return b"commit %s 0 %s ~ %d\n" % (branch, field(subject), commit_time())


def words():
    about, _, behind = __doc__.partition("\n\n")
    parser = argparse.ArgumentParser(description=about, epilog=behind, formatter_class=argparse.RawDescriptionHelpFormatter)
    parser.add_argument("folder", metavar="FOLDER")
    parser.add_argument("--script", nargs=2, metavar=("BRANCH", "SUBJECT"))
    return parser.parse_args()


def main():
    asked = words()
    folder = os.fsencode(asked.folder)
    if not os.path.isdir(folder):
        sys.exit(f"{asked.folder}: no folder")
    last_lines = b"end\n"
    if asked.script:
        last_lines += b"lane\n" + commit_line(*map(os.fsencode, asked.script)) + b"end\n"
    text = Text()
    text.add(FIRST_LINE)
    text.add(b"tree 0\n")
    walk = Walk(text)
    walk.take(folder, [])
    text.add(last_lines)
    if text.length > SCRIPT_LIMIT:
        over = text.length - SCRIPT_LIMIT
        sys.exit(f"the script would have {text.length:,} bytes, {over:,} more than the {SCRIPT_LIMIT:,} that it may have")
    # The first line is counted where the tree alone is printed, too.
    sys.stdout.buffer.write(b"".join(text.pieces if asked.script else text.pieces[1:]))
    sys.stdout.flush()
    sys.exit(3 if walk.left_out else 0)


main()
