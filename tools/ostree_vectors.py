#!/usr/bin/python3
"""Prints objects that ostree (the Debian package) makes, a row each for the sheet crates/forms_runner/data/objects.rows.

The sheet holds what it printed. Run it as root in an empty folder of a file system with extended attributes. ostree keeps a
file of a bare repository as a file, so its content stream is laid out here from the file's attributes; that its SHA-256 is the name ostree gave it is asserted.
"""
import hashlib, os, struct, subprocess, sys

def run(*words):
    return subprocess.run(words, check=True, capture_output=True, text=True).stdout.strip()

def array(elements):
    """a(ayay): each element with its offset."""
    body, ends = b"", []
    for name, value in elements:
        body += name + value + bytes([len(name)])
        ends.append(len(body))
    return body + bytes(ends)

def stream(path):
    stat = os.lstat(path)
    is_link = os.path.islink(path)
    target = os.readlink(path).encode() if is_link else b""
    content = b"" if is_link else open(path, "rb").read()
    names = sorted(os.listxattr(path, follow_symlinks=False))
    xattrs = array([(n.encode() + b"\0", os.getxattr(path, n, follow_symlinks=False)) for n in names])
    header = struct.pack(">IIII", stat.st_uid, stat.st_gid, stat.st_mode, 0) + target + b"\0"
    header += xattrs + bytes([len(header)])
    return struct.pack(">II", len(header), 0) + header + content

def write(path, content=b"", mode=0o644, owner=(0, 0), xattrs=()):
    with open(path, "wb") as f:
        f.write(content)
    os.chown(path, *owner)
    os.chmod(path, mode)
    for name, value in xattrs:
        os.setxattr(path, name, value)

def folder(path, mode=0o755, owner=(0, 0), xattrs=()):
    os.mkdir(path)
    os.chown(path, *owner)
    os.chmod(path, mode)
    for name, value in xattrs:
        os.setxattr(path, name, value)

folder("tree")
write("tree/hello", b"hello\n")
write("tree/empty", mode=0o4755)
for i, mode in enumerate([0o000, 0o400, 0o600, 0o755, 0o1644, 0o2755, 0o6711, 0o7777]):
    write(f"tree/mode{i}", bytes([i]) * i, mode)
write("tree/owned", b"x", owner=(1000, 100))
write("tree/far", b"y", owner=(4294967294, 65536))
write("tree/zeros", b"\0" * 40)
write("tree/a", b"one", xattrs=[("user.a", b"x")])
write("tree/ab", b"two", xattrs=[("user.a", b""), ("user.b", b"\0\1\2")])
os.symlink("usr/bin", "tree/link")
os.symlink("/", "tree/root")
os.symlink("t" * 200, "tree/long")
os.symlink("\u00e4\u00f6", "tree/\u00fc")
folder("tree/d")
folder("tree/d/e", 0o700, (5, 6))
folder("tree/d/f", 0o1777)
folder("tree/d/g", 0o2750, xattrs=[("user.a", b"x")])
write("tree/d/g/one")
folder("tree/d/h", xattrs=[("user.first", b"1"), ("user.second", b"22")])
folder("wide")
write("wide/" + "a" * 219)
folder("wider")
write("wider/" + "a" * 220)
run("ostree", "--repo=repo", "init", "--mode=bare")

def commit(*words):
    return run("ostree", "--repo=repo", "commit", "--no-bindings", *words)

first = commit("-b", "main", "--timestamp=@1700000000", "-s", "first", "tree")
second = commit("-b", "main", "--timestamp=@1700000001", "-s", "second", "-m", "a body\nof two lines", "wide")
commit("-b", "main", "--timestamp=@0", "-s", "", "wider")
commit("-b", "other", "--timestamp=@4102444800", "-s", "\u00fcber", "--parent=" + first, "--no-xattrs", "tree")
commit("-b", "keys", "--timestamp=@9", "-s", "keys", "--add-metadata-string=version=1", "--add-metadata-string=a=b", "wide")
commit("-b", "typed", "--timestamp=@10", "-s", "typed", "--add-metadata=n=uint64 7", "--add-metadata=l=[('a', <true>), ('b', <@mx nothing>)]", "wide")
commit("-b", "long", "--timestamp=@11", "-s", "s" * 120, "-m", "b" * 160, "--parent=" + second, "wide")

rows = []
for root, folders, files in os.walk("repo/objects"):
    for file in files:
        stem, kind = file.split(".")
        path = os.path.join(root, file)
        data = stream(path) if kind == "file" else open(path, "rb").read()
        name = root[-2:] + stem
        assert hashlib.sha256(data).hexdigest() == name, path
        rows.append((kind, name, data.hex()))
print("[as ostree makes them]")
for kind, name, data in sorted(rows):
    print("object %s %s %%{%s} = ok" % (kind, name, data))

# Folders of 1,560 empty files round 65,535 bytes: f00000 to f01558, and a last name of so many letters g. A row each:
# the letters, the files' name, how many bytes the entries have, and their name.
EMPTY = "cc700d46f407c6c5ab2d5dde474366a928b7398277e61162e7f8ec06f469f07e"
print()
print("[folders of 1560 files]")
for letters in (19, 20, 21, 22):
    folder(f"many{letters}")
    for i in range(1559):
        write(f"many{letters}/f{i:05}")
    write(f"many{letters}/" + "g" * letters)
    last = commit("-b", f"many{letters}", "--timestamp=@12", "-s", "many", f"many{letters}")
    tree = run("ostree", "--repo=repo", "ls", "-dC", last, "/").split()[4]
    size = os.path.getsize(f"repo/objects/{tree[:2]}/{tree[2:]}.dirtree")
    print("many_files", letters, EMPTY, size, tree, "= ok")
