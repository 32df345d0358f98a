#!/usr/bin/env python3
"""Measures what is aimed at beside the Debian package's `ostree`, in turns: of each program the least time of several rounds, since others may
use the machine. Needs root, build/ostree_cli (make) and ostree. The folders are made below those that are named: one on a disk, one in memory.

    bench/aims.py DISK MEMORY [ROUNDS] [commit] [init] [refs]

Prints a line for each aim: the seconds on the clock and of the processor, of ostree_cli and of ostree, their ratios, and the load.
"""
import os
import shutil
import subprocess
import sys
import tempfile

from opening import files
from refs import HEADER, SCRIPT, write_refs
from run import PROGRAM, TIME, apart, committed, measured, prepare, small_files

COMMIT = ["ostree", "--repo=R", "commit", "--no-bindings", "--no-xattrs", f"--timestamp=@{TIME}", "--branch=main", "--subject=first", "--tree=dir=tree"]
INIT = ["ostree", "--repo=R", "init", "--mode=bare"]


def least(runs):
    """The least of the seconds on the clock, and of those of the processor."""
    return min(run[1] for run in runs), min(run[2] for run in runs)


def tell(what, ours, theirs):
    (seconds, busy), (their_seconds, their_busy) = ours, theirs
    ratios = f"{seconds / their_seconds:.2f} of the time, {busy / their_busy:.2f} of the processor"
    load = os.getloadavg()[0]
    print(f"{what}: {seconds:.2f} s ({busy:.2f}), ostree {their_seconds:.2f} s ({their_busy:.2f}): {ratios}; load {load:.1f}", flush=True)


def in_turns(rounds, *works):
    """What each work measured, round by round."""
    found = [[] for _ in works]
    for _ in range(rounds):
        for work, runs in zip(works, found):
            runs.append(work())
    return [least(runs) for runs in found]


def ostree_commit(place):
    shutil.rmtree(f"{place}/R", ignore_errors=True)
    subprocess.run(INIT, cwd=place, check=True)
    return measured(COMMIT, place)


def own_commit(place):
    shutil.rmtree(f"{place}/ours", ignore_errors=True)
    os.mkdir(f"{place}/ours")
    return measured([PROGRAM, "run"], f"{place}/ours", f"{place}/script")


def commits(where, folder, rounds):
    place = tempfile.mkdtemp(dir=folder)
    apart(lambda: prepare(small_files(), place))
    works = [lambda: ostree_commit(place), lambda: own_commit(place), lambda: measured(["ostree", "--repo=R", "fsck", "-q"], place)]
    theirs, ours, fsck = in_turns(rounds, *works)
    tell(f"commit of 20,000 small files {where}, beside ostree commit", ours, theirs)
    both = theirs[0] + fsck[0], theirs[1] + fsck[1]
    tell(f"the same beside ostree commit and ostree fsck, {where}", ours, both)
    shutil.rmtree(place)


def openings(folder, rounds):
    place = tempfile.mkdtemp(dir=folder)
    committed(files(100000), place)
    theirs, ours = in_turns(rounds, lambda: measured(["ostree", "--repo=R", "fsck", "-q"], place), lambda: measured([PROGRAM, "init"], f"{place}/ours"))
    tell("init over 100,000 files in memory, beside ostree fsck", ours, theirs)
    shutil.rmtree(place)


def refs(folder, rounds):
    place = tempfile.mkdtemp(dir=folder)
    os.mkdir(f"{place}/ours")
    ran = subprocess.run([PROGRAM, "run"], cwd=f"{place}/ours", input=SCRIPT, check=True, capture_output=True, text=True)
    commit = ran.stdout.split()[3]
    write_refs(f"{place}/ours/ostree/repo/refs/heads", 100000, commit, HEADER)
    subprocess.run(INIT, cwd=place, check=True)
    write_refs(f"{place}/R/refs/heads", 100000, commit, b"")
    theirs, ours = in_turns(rounds, lambda: measured(["ostree", "--repo=R", "refs"], place), lambda: measured([PROGRAM, "refs"], f"{place}/ours"))
    tell("100,000 refs listed in memory, beside ostree refs", ours, theirs)
    shutil.rmtree(place)


def main():
    disk, memory = sys.argv[1:3]
    rounds = next((int(word) for word in sys.argv[3:] if word.isdigit()), 3)
    words = [word for word in sys.argv[3:] if not word.isdigit()] or ["commit", "init", "refs"]
    if "commit" in words:
        commits("in memory", memory, rounds)
        commits("on disk", disk, rounds)
    if "init" in words:
        openings(memory, rounds)
    if "refs" in words:
        refs(memory, rounds)


main()
