#!/usr/bin/env python3
"""Opens a sysroot of two deployments, which `ostree admin deploy` made, with ostree_native, and the same without what boots: so what the
check of deployments costs, beside `ostree fsck` of the repository. Needs root, build/ostree_native (make native) and ostree.

    bench/deployments.py [FOLDER]
"""
import os
import shutil
import subprocess
import sys
import tempfile

from opening import files
from run import HERE, laid_out, measured, ratios, report

PROGRAM = os.path.join(HERE, "..", "build", "ostree_native")
COMMIT = ["ostree", "--repo=ostree/repo", "commit", "--no-bindings", "--no-xattrs", "--branch=main", "--subject=s"]


def ran(place, *words):
    subprocess.run(words, cwd=place, check=True, capture_output=True)


def write(path, text):
    os.makedirs(os.path.dirname(path), exist_ok=True)
    with open(path, "w", encoding="utf-8") as it:
        it.write(text)


def tree(number):
    """So many files below /usr."""
    yield "/usr", None
    for path, content in files(number):
        yield f"/usr{path}", content


def deployed(number, place):
    """Two commits of so many files, which differ in one, each deployed."""
    ran(place, "ostree", "admin", "init-fs", ".")
    ran(place, "ostree", "admin", "os-init", "--sysroot=.", "demo")
    laid_out(tree(number), f"{place}/source")
    write(f"{place}/source/usr/lib/modules/6.1/vmlinuz", "kernel")
    for version in ("1", "2"):
        for folder in ("etc", "lib"):
            write(f"{place}/source/usr/{folder}/os-release", f"ID=demo\nVERSION_ID={version}\n")
        ran(place, *COMMIT, "source")
        ran(place, "ostree", "admin", "deploy", "--sysroot=.", "--os=demo", "main")


def compare(number, folder):
    place = tempfile.mkdtemp(dir=folder)
    try:
        deployed(number, place)
        ran(place, PROGRAM, "init")  # which syncs what others wrote, once
        theirs = measured(["ostree", "--repo=ostree/repo", "fsck", "-q"], place)
        booted = measured([PROGRAM, "init"], place)
        os.remove(f"{place}/boot/loader")
        alone = measured([PROGRAM, "init"], place)
        print(f"two deployments of {number:,} files")
        report((("ostree fsck", theirs), ("ostree_native init", booted), ("the same, where nothing boots", alone)))
        ratios("init / fsck", booted, theirs)
    finally:
        subprocess.run(["chattr", "-R", "-f", "-i", place], capture_output=True, check=False)
        shutil.rmtree(place)


def main():
    folder = sys.argv[1] if len(sys.argv) > 1 else "."
    for number in (20000, 100000, 300000):
        compare(number, folder)


if __name__ == "__main__":
    main()
