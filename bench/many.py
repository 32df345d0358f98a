#!/usr/bin/env python3
"""Opens and prunes a repository of many objects with ostree_native, beside `ostree fsck` and `ostree prune`: the time, the most memory, and how
many bytes of it an object takes beyond what the program takes of an empty repository. Half of the objects are reachable from each of two refs.
Needs root, build/ostree_native (make native) and `ostree`.

    bench/many.py [FOLDER] [OBJECTS]        1,000,000 objects where no number is given
"""
import os
import shutil
import sys
import tempfile

from run import HERE, measured
from written import new_repository, stored_commit, stored_file, stored_meta, stored_tree

PROGRAM = os.path.join(HERE, "..", "build", "ostree_native")
A_FOLDER = 100


def written(repo, branch, files):
    """A commit of so many files of a few bytes, no two of them the same, a hundred in a folder."""
    meta, folders = stored_meta(repo), []
    for folder in range(files // A_FOLDER):
        its = [(f"f{place:02}", stored_file(repo, [f"{branch} {folder} {place}".encode()])) for place in range(A_FOLDER)]
        folders.append((f"d{folder:05}", stored_tree(repo, its), meta))
    stored_commit(repo, branch, stored_tree(repo, [], folders), meta)


def tell(words, run, empty, objects):
    output, clock, used, memory = run
    print(f"{' '.join(words)}: {clock:.1f} s, {used:.1f} s of the processor, {memory:.0f} MiB, {(memory - empty) * 1048576 / objects:.0f} bytes an object", flush=True)
    if output.strip():
        print(f"    {output.strip()[:200]}")


def main(folder, objects):
    top = tempfile.mkdtemp(dir=folder)
    try:
        repo = new_repository(top)
        empty = measured([PROGRAM, "init"], top)[3]
        for branch in ("one", "other"):
            written(repo, branch, objects // 2)
        for words in (["init"], ["prune", "0"], ["drop", "other"], ["prune", "0"]):
            tell(words, measured([PROGRAM, *words], top), empty, objects)
        for words in (["fsck", "--quiet"], ["prune", "--refs-only", "--depth=0"]):
            tell(["ostree", *words], measured(["ostree", f"--repo={repo}", *words], top), 0, objects)
    finally:
        shutil.rmtree(top)


main(sys.argv[1] if len(sys.argv) > 1 else None, int(sys.argv[2]) if len(sys.argv) > 2 else 1_000_000)
