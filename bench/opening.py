#!/usr/bin/env python3
"""Opens repositories of the same trees with ostree_cli, which checks all that they hold, and checks them with the Debian package's
`ostree fsck`, and prints the times, the peaks of memory and their ratios, for more and more objects. Needs what run.py needs.

    bench/opening.py [FOLDER]
"""
import shutil
import sys
import tempfile

from run import PROGRAM, committed, large_files, measured, ratios, report


def files(number):
    """So many files of a few bytes, a hundred in a folder."""
    for folder in range(number // 100):
        yield f"/d{folder:04}", None
        for place in range(100):
            path = f"/d{folder:04}/f{place:02}"
            yield path, path.encode()


def compare(name, tree, folder):
    place = tempfile.mkdtemp(dir=folder)
    try:
        committed(tree, place)
        theirs = measured(["ostree", "--repo=R", "fsck", "-q"], place)
        ours = measured([PROGRAM, "init"], f"{place}/ours")
        print(name)
        report((("ostree fsck", theirs), ("ostree_cli init", ours)))
        ratios("init / fsck", ours, theirs)
    finally:
        shutil.rmtree(place)


def main():
    folder = sys.argv[1] if len(sys.argv) > 1 else "."
    for number in (1000, 10000, 20000, 100000):
        compare(f"{number:,} small files", files(number), folder)
    compare("200 files of 1 MiB", large_files(), folder)


if __name__ == "__main__":
    main()
