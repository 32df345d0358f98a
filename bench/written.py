"""Objects of a bare repository, written from OSTree's formats (OSTree manual, "Anatomy of an OSTree repository"; GVariant specification)."""
import hashlib
import os
import struct
import subprocess

TIME = 1700000000
FILE_HEADER = struct.pack(">IIII", 0, 0, 0o100644, 0) + b"\0"


def container(data, ends):
    """A GVariant container: its data, and where its parts end, each number as wide as the whole needs."""
    for width in (1, 2, 4, 8):
        if len(data) + width * len(ends) < 1 << 8 * width:
            return data + b"".join(end.to_bytes(width, "little") for end in ends)
    raise ValueError("too long")


def array(parts):
    ends, at = [], 0
    for part in parts:
        at += len(part)
        ends.append(at)
    return container(b"".join(parts), ends)


def put(repo, name, kind, parts):
    path = f"{repo}/objects/{name[:2]}/{name[2:]}.{kind}"
    os.makedirs(os.path.dirname(path), exist_ok=True)
    with open(path, "wb") as it:
        for part in parts:
            it.write(part)
    os.chmod(path, 0o644)
    os.utime(path, (0, 0))


def stored(repo, kind, data):
    name = hashlib.sha256(data).hexdigest()
    put(repo, name, kind, [data])
    return bytes.fromhex(name)


def stored_file(repo, pieces):
    """A file of root, mode 0644, with these pieces of bytes."""
    header = container(FILE_HEADER, [17])
    name = hashlib.sha256(struct.pack(">II", len(header), 0) + header)
    for piece in pieces:
        name.update(piece)
    put(repo, name.hexdigest(), "file", pieces)
    return name.digest()


def stored_meta(repo):
    """The attributes of a folder of root, mode 0755."""
    return stored(repo, "dirmeta", struct.pack(">III", 0, 0, 0o40755))


def stored_tree(repo, files, folders=()):
    """The entries of a folder: files with their sums, folders with those of their entries and attributes, each by its name."""
    named = array([container(name.encode() + b"\0" + file, [len(name) + 1]) for name, file in files])
    inner = array([container(name.encode() + b"\0" + tree + meta, [len(name) + 33, len(name) + 1]) for name, tree, meta in folders])
    return stored(repo, "dirtree", container(named + inner, [len(named)]))


def stored_commit(repo, branch, tree, meta):
    """A commit without a parent, and a ref that names it."""
    data = b"first\0\0"
    ends = [0, 0, 0, 6, 7]
    data += bytes(-len(data) % 8) + struct.pack(">Q", TIME)
    ends += [len(data) + 32]
    data += tree + meta
    commit = stored(repo, "commit", container(data, ends[::-1]))
    with open(f"{repo}/refs/heads/{branch}", "w", encoding="ascii") as it:
        it.write(commit.hex() + "\n")


def new_repository(top):
    repo = f"{top}/ostree/repo"
    os.makedirs(f"{top}/ostree")
    subprocess.run(["ostree", f"--repo={repo}", "init", "--mode=bare"], check=True)
    return repo
