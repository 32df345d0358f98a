#!/usr/bin/env python3
"""Counts the calls of the machine that ostree_cli makes for one small file more: in a commit, at an opening and in a checkout, by `strace -c`
over two trees of different size. Needs root, build/ostree_cli (make) and strace. The folders are made below the one that is named.

    bench/calls.py [FOLDER]
"""
import collections
import os
import shutil
import subprocess
import sys
import tempfile

from run import PROGRAM, apart, prepare

CHECKOUT = b"ostree-script 1\nlane\ncheckout main there\nend\n"
FEW, MANY = 500, 1500


def files(number):
    """So many files of a few bytes, in one folder."""
    yield "/d", None
    for at in range(number):
        path = f"/d/f{at:05}"
        yield path, path.encode()


def counted(words, folder, script):
    """How often each call of the machine was made."""
    table = os.path.join(folder, "..", "counts")
    with open(script, "rb") as it:
        subprocess.run(["strace", "-f", "-c", "-o", table, PROGRAM] + words, cwd=folder, stdin=it, stdout=subprocess.DEVNULL, check=True)
    counts = collections.Counter()
    with open(table, encoding="ascii") as it:
        for line in it:
            fields = line.split()
            if len(fields) >= 5 and fields[3].isdigit() and fields[-1] != "total":
                counts[fields[-1]] += int(fields[3])
    return counts


def runs(number, folder):
    """The counts of a commit, of an opening behind it, and of a checkout behind that."""
    place = tempfile.mkdtemp(dir=folder)
    apart(lambda: prepare(files(number), place))
    with open(f"{place}/checkout", "wb") as it:
        it.write(CHECKOUT)
    os.mkdir(f"{place}/ours")
    found = [counted(words, f"{place}/ours", script) for words, script in ((["run"], f"{place}/script"), (["init"], os.devnull), (["run"], f"{place}/checkout"))]
    shutil.rmtree(place)
    return found


def tell(what, few, many):
    each = {call: (many[call] - few[call]) / (MANY - FEW) for call in many}
    shown = ", ".join(f"{call} {each[call]:.2f}" for call in sorted(each, key=lambda call: -each[call]) if each[call] >= 0.01)
    print(f"{what}: {sum(each.values()):.1f} calls of the machine: {shown}")


def main():
    folder = sys.argv[1] if len(sys.argv) > 1 else "."
    few, many = runs(FEW, folder), runs(MANY, folder)
    tell("one file more in a commit", few[0], many[0])
    tell("one object more at an opening", few[1], many[1])
    opened = [collections.Counter({call: run[2][call] - run[1][call] for call in run[2]}) for run in (few, many)]
    tell("one file more in a checkout, beyond its opening", *opened)


if __name__ == "__main__":
    main()
