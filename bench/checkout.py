#!/usr/bin/env python3
"""Checks the same trees out with ostree_cli, by a script, and with the Debian package's `ostree checkout -H`, where each regular file is a
hard link to its object, and prints the times, the peaks of memory and their ratios, for more and more files. `ostree_cli init` beside it is
the opening alone, with which each run begins, and which `ostree` doesn't make. Needs what run.py needs.

    bench/checkout.py [FOLDER]
"""
import os
import shutil
import sys
import tempfile

from opening import files
from run import PROGRAM, apart, committed, large_files, measured, ratios, report, small_files

SCRIPT = b"ostree-script 1\nlane\ncheckout main there\nend\n"
# The attributes of a folder stand in a file of this name on the host.
RESERVED = ".ost-folder"


def paths(top):
    """The folders, and the files each with the number of its names."""
    folders, leaves = [], []
    for at, below, names in os.walk(top):
        folders += [os.path.relpath(os.path.join(at, name), top) for name in below]
        for name in names:
            if name != RESERVED:
                path = os.path.join(at, name)
                leaves.append((os.path.relpath(path, top), os.lstat(path).st_nlink))
    return sorted(folders), sorted(leaves)


def check_same(place):
    """Ends with a fault unless both folders have the same paths, and each file has a second name."""
    theirs, ours = paths(f"{place}/theirs"), paths(f"{place}/ours/checkout/there")
    same = theirs[0] == ours[0] and [path for path, _ in theirs[1]] == [path for path, _ in ours[1]]
    if not same or any(names < 2 for _, names in theirs[1] + ours[1]):
        os._exit(1)


def compare(name, tree, folder):
    place = tempfile.mkdtemp(dir=folder)
    try:
        committed(tree, place)
        with open(f"{place}/checkout", "wb") as it:
            it.write(SCRIPT)
        opening = measured([PROGRAM, "init"], f"{place}/ours")
        theirs = measured(["ostree", "--repo=R", "checkout", "-H", "main", "theirs"], place)
        ours = measured([PROGRAM, "run"], f"{place}/ours", f"{place}/checkout")
        if ours[0] != "0 0 ok\n":
            sys.exit(f"{name}: {ours[0]}")
        apart(lambda: check_same(place), f"{name}: the folders differ, or a file was copied")
        print(name)
        report((("ostree checkout -H", theirs), ("ostree_cli run", ours), ("ostree_cli init", opening)))
        ratios("run / checkout", ours, theirs)
        beyond = ours[1] - opening[1]
        print(f"  run beyond init: {beyond:.2f} s, {beyond / theirs[1]:.1f} of ostree's", flush=True)
    finally:
        shutil.rmtree(place)


def main():
    folder = sys.argv[1] if len(sys.argv) > 1 else "."
    compare("20,000 small files in 200 folders", small_files(), folder)
    compare("200 files of 1 MiB", large_files(), folder)
    for number in (1000, 10000, 100000):
        compare(f"{number:,} small files, a hundred in a folder", files(number), folder)


if __name__ == "__main__":
    main()
