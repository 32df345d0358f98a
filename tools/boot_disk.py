#!/usr/bin/env python3
"""Prints disks that the usual ostree deployed, for a book of cases: docs/cases.md.

    tools/boot_disk.py

It commits two small trees, deploys one in the stateroot `demo`, and the other, eight times, in the stateroot `other`, of which the last stays.
`deployed` is what stands there all the time, `boots` boots the first deployment, and `two` boots both. What ostree makes beside the objects, the
deployments' folders and what boots them is left out, so no ref names their commits. It needs root and `ostree`.
"""
import os
import re
import shutil
import stat
import subprocess
import sys
import tempfile

FIRST, SECOND = 1700000000, 1700000001
PLACES = ["boot", "ostree", "ostree/deploy", "ostree/repo", "ostree/repo/config"]
BELOW = ["boot/loader", "boot/ostree", "ostree/boot.", "ostree/repo/objects"]
OBJECTS = "ostree/repo/objects/"


def ran(folder, *words):
    return subprocess.run(words, cwd=folder, check=True, capture_output=True, text=True).stdout


def admin(folder, *words):
    return ran(folder, "ostree", "admin", words[0], "--sysroot=.", *words[1:])


def ostree(folder, *words):
    return ran(folder, "ostree", "--repo=ostree/repo", *words)


def write(path, text):
    os.makedirs(os.path.dirname(path), exist_ok=True)
    with open(path, "w", encoding="utf-8") as it:
        it.write(text)


def make_tree(top):
    """Defaults, a kernel and what it first mounts, a file without bytes, a link, and a folder with an owner and a mode of its own."""
    write(f"{top}/usr/etc/hostname", "first\n")
    write(f"{top}/usr/lib/modules/5.0/vmlinuz", "kernel")
    write(f"{top}/usr/lib/modules/5.0/initramfs.img", "initramfs")
    write(f"{top}/usr/lib/os-release", "ID=demo\n")
    write(f"{top}/usr/empty", "")
    os.symlink("usr/lib", f"{top}/lib")
    os.mkdir(f"{top}/usr/local")
    os.chown(f"{top}/usr/local", 0, 50)
    os.chmod(f"{top}/usr/local", 0o2775)


def commit(folder, branch, time):
    ostree(folder, "commit", "--no-xattrs", "--no-bindings", "-b", branch, "-s", branch, f"--timestamp=@{time}", "source")


def make(folder):
    """What stands there with one deployment, and with both."""
    admin(folder, "init-fs", ".")
    for stateroot in ("demo", "other"):
        admin(folder, "os-init", stateroot)
    make_tree(f"{folder}/source")
    commit(folder, "first", FIRST)
    admin(folder, "deploy", "--os=demo", "--karg=ro", "first")
    one = taken(folder)
    write(f"{folder}/source/usr/etc/hostname", "second\n")
    commit(folder, "second", SECOND)
    for _ in range(8):
        admin(folder, "deploy", "--os=other", "--karg=quiet", "second")
    while admin(folder, "status").count("other ") > 1:
        admin(folder, "undeploy", "1")
    return one, taken(folder)


def is_taken(path):
    if path in PLACES or path.startswith(tuple(BELOW)):
        return True
    return re.match(r"ostree/deploy/(demo|other)(/deploy(/[0-9a-f]{64}\.[0-9]+(/.*)?)?)?$", path) is not None


def taken(folder):
    """Each path that is taken, in the order of paths, with its line; or with the object that it is a name of."""
    paths = sorted((it for it in paths_in(folder) if is_taken(it)), key=lambda it: it.split("/"))
    objects = {os.lstat(f"{folder}/{it}").st_ino: it for it in paths if it.startswith(OBJECTS) and it.endswith(".file")}
    nodes = {}
    for path in paths:
        it = os.lstat(f"{folder}/{path}")
        name_of = objects.get(it.st_ino, path)
        is_name = stat.S_ISREG(it.st_mode) and name_of != path
        nodes[path] = (name_of, None) if is_name else (None, line_of(folder, path, it))
    return nodes


def paths_in(folder):
    for at, folders, files in os.walk(folder):
        for name in folders + files:
            yield os.path.relpath(os.path.join(at, name), folder)


def line_of(folder, path, it):
    head, mode = f"/{path} {it.st_uid} {it.st_gid}", f"{stat.S_IMODE(it.st_mode):o}"
    if stat.S_ISDIR(it.st_mode):
        return f"folder {head} {mode} ~"
    if stat.S_ISLNK(it.st_mode):
        return f"link {head} ~ {os.readlink(f'{folder}/{path}')}"
    with open(f"{folder}/{path}", "rb") as opened:
        return f"file {head} {mode} ~ ={spelled(opened.read())}"


def spelled(data):
    """Bytes as a field."""
    return "".join(chr(byte) if 0x21 <= byte < 0x7F and byte != 0x25 else f"%{byte:02x}" for byte in data)


def print_disk(name, nodes):
    print(f"disk {name}")
    for _, line in nodes.values():
        if line:
            print(f"|{line}")
    names = [f"|/{name_of} /{path}" for path, (name_of, _) in nodes.items() if name_of]
    if names:
        print("names", *names, sep="\n")
    print()


def main():
    if sys.argv[1:] or os.geteuid() != 0 or not shutil.which("ostree"):
        sys.exit(__doc__)
    os.umask(0o022)
    folder = tempfile.mkdtemp(prefix="boot-disk-")
    one, two = make(folder)
    subprocess.run(["chattr", "-R", "-f", "-i", folder], check=False)
    shutil.rmtree(folder)
    both = {path: node for path, node in one.items() if two.get(path) == node}
    print_disk("deployed", both)
    print_disk("boots of deployed", {path: node for path, node in one.items() if path not in both})
    print_disk("two of deployed", {path: node for path, node in two.items() if path not in both})


main()
