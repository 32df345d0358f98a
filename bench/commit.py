"""Commits trees by the program of commit.main.in and by ostree, each to an empty repository in the current folder.

commit.py PROGRAM [--each-synced] [SHAPE FOLDERS FILES]..

A tree of the shape spread has so many folders beside each other, one of the shape deep so many in each other, with so many files in
each folder. With --each-synced ostree syncs each object too, as the program does, where it else syncs all at once.
"""
import os
import shutil
import subprocess
import sys
import time

SHAPES = [("spread", 1000, 99), ("deep", 1, 100000), ("deep", 60, 500)]

OSTREE = ["ostree", "--repo=repo"]

COMMIT = OSTREE + ["commit", "--orphan", "--no-bindings", "--no-xattrs", "--owner-uid=0", "--owner-gid=0"]

MESSAGE = ["--subject=first", "--timestamp=@1700000000", "--tree=dir=../tree"]


def add_files(top, at, files):
    """Adds files to a folder, each of which holds its own path."""
    for i in range(files):
        path = f"{at}/f{i:06}"
        with open(top + path, "w") as file:
            file.write(path)


def make_tree(top, shape, folders, files):
    os.mkdir(top)
    at = ""
    for i in range(folders):
        at = f"/d{i:06}" if shape == "spread" else at + "/d"
        os.mkdir(top + at)
        add_files(top, at, files)


def measured(words, folder):
    """The lines that a program prints in a folder, its seconds, those of the processor, and its most memory in MB."""
    os.sync()
    start = time.monotonic()
    child = subprocess.Popen(words, cwd=folder, stdout=subprocess.PIPE, text=True)
    lines = child.stdout.read().split("\n")
    _, status, used = os.wait4(child.pid, 0)
    child.returncode = status
    if status:
        sys.exit(f"{words[0]} ended with {status}")
    return lines, time.monotonic() - start, used.ru_utime, used.ru_stime, used.ru_maxrss / 1024


def ostree_run(each_synced):
    os.mkdir("theirs")
    subprocess.run(OSTREE + ["init", "--mode=bare"], cwd="theirs", check=True)
    synced = "true" if each_synced else "false"
    subprocess.run(OSTREE + ["config", "set", "core.per-object-fsync", synced], cwd="theirs", check=True)
    return measured(COMMIT + MESSAGE, "theirs")


def own_run(program, words):
    os.mkdir("ours")
    return measured([program] + words, "ours")


def count(folder, suffixes):
    return sum(name.endswith(suffixes) for _, _, names in os.walk(folder) for name in names)


def compare(program, shape, folders, files, each_synced):
    make_tree("tree", shape, folders, files)
    theirs = ostree_run(each_synced)
    ours = own_run(program, [shape, str(folders), str(files)])
    if theirs[0][0] != ours[0][0]:
        sys.exit(f"other commits: {theirs[0][0]} {ours[0][0]}")
    suffixes = (".file", ".dirtree", ".dirmeta", ".commit")
    print(f"{shape} {folders} {files}: commit {ours[0][0]}, {count('ours', suffixes)} objects, of ostree {count('theirs', suffixes)}")
    for name, (_, wall, user, system, memory) in (("ostree", theirs), ("the program", ours)):
        print(f"  {name}: {wall:.1f} s, of the processor {user:.2f} s and in the kernel {system:.2f} s, {memory:.0f} MB")
    ratios = [mine / its for mine, its in zip(ours[1:], theirs[1:])]
    cpu = (ours[2] + ours[3]) / (theirs[2] + theirs[3])
    print(f"  ratio: {ratios[0]:.1f} of time, {cpu:.1f} of processor and kernel, {ratios[3]:.1f} of memory")
    for line in ours[0][1:]:
        print(f"  {line}")
    for folder in ("tree", "theirs", "ours"):
        shutil.rmtree(folder)


def main(words):
    os.umask(0o022)
    program, words = os.path.abspath(words[0]), words[1:]
    each_synced = "--each-synced" in words
    words = [word for word in words if word != "--each-synced"]
    shapes = [(words[i], int(words[i + 1]), int(words[i + 2])) for i in range(0, len(words), 3)]
    for shape, folders, files in shapes or SHAPES:
        compare(program, shape, folders, files, each_synced)


main(sys.argv[1:])
