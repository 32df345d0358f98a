#!/usr/bin/env python3
"""Lists a tree in which one file of 64 MiB has 10,000 names, with ostree_native, beside the opening alone. The tree is written object by object,
since a commit would hash the file once for each name. Needs root, build/ostree_native (make native), and `ostree` to check what was written.

    bench/names.py [FOLDER]
"""
import os
import shutil
import subprocess
import sys
import tempfile

from run import HERE, measured
from written import new_repository, stored_commit, stored_file, stored_meta, stored_tree

PROGRAM = os.path.join(HERE, "..", "build", "ostree_native")
NAMES, SIZE = 10_000, 64 << 20


def written(top):
    repo = new_repository(top)
    file = stored_file(repo, [bytes(1 << 20)] * (SIZE >> 20))
    tree = stored_tree(repo, [(f"n{number:05}", file) for number in range(NAMES)])
    stored_commit(repo, "main", tree, stored_meta(repo))
    subprocess.run(["ostree", f"--repo={repo}", "fsck", "--quiet"], check=True)


def main(folder):
    top = tempfile.mkdtemp(dir=folder)
    try:
        written(top)
        for words in (["init"], ["ls", "main", "/"], ["checkout", "main", "out"]):
            runs = []
            for _ in range(3):
                shutil.rmtree(f"{top}/checkout", ignore_errors=True)
                runs.append(measured([PROGRAM, *words], top))
            if words[0] != "init" and not runs[0][0].startswith("0 0 ok"):
                sys.exit(f"{words[0]}: {runs[0][0][:80]}")
            _, clock, used, memory = (min(column) for column in zip(*runs))
            print(f"{' '.join(words)}: {clock:.2f} s, {used:.2f} s of the processor, {memory:.0f} MiB", flush=True)
    finally:
        shutil.rmtree(top)


main(sys.argv[1] if len(sys.argv) > 1 else None)
