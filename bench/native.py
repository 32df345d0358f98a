#!/usr/bin/env python3
"""Measures ostree_cli, ostree_native and the Debian package's `ostree` at the same work, in turns: of each the least time of several rounds,
since others may use the machine. Needs root, build/ostree_cli, build/ostree_native (make, make native) and ostree. The folders are made below
those that are named: one on a disk, one in memory.

    bench/native.py DISK MEMORY [ROUNDS] [commit] [init] [prune]

`commit` also measures a checkout of what was committed. Prints rows of a table: the work, where, the seconds on the clock of each program, and
those of the first two over those of `ostree`; behind each row the load.
"""
import os
import shutil
import subprocess
import sys
import tempfile

from opening import files
from run import HERE, TIME, apart, large_files, laid_out, measured, small_files, written

PROGRAMS = {name: os.path.join(HERE, "..", "build", name) for name in ("ostree_cli", "ostree_native")}
REPO = "--repo=ostree/repo"
CHECKOUT = b"ostree-script 1\nlane\ncheckout main there\nend\n"


def commit_words(top, branch):
    return ["ostree", REPO, "commit", "--no-bindings", "--no-xattrs", f"--timestamp=@{TIME}", f"--branch={branch}", "--subject=first", f"--tree=dir={top}"]


class Place:
    """Where trees, scripts and repositories stand, a folder for each program."""

    def __init__(self, folder):
        self.top = tempfile.mkdtemp(dir=folder)

    def at(self, name):
        return f"{self.top}/{name}"

    def prepare(self, tree, branch="main"):
        """Writes a tree and its script."""
        nodes = sorted(tree, key=lambda node: node[0].split("/"))
        laid_out(nodes, self.at(f"tree-{branch}"))
        with open(self.at(f"script-{branch}"), "wb") as it:
            it.write(written(nodes).replace(b"\ncommit main ", f"\ncommit {branch} ".encode()))

    def renew(self, program):
        """An empty folder for a program."""
        shutil.rmtree(self.at(program), ignore_errors=True)
        os.makedirs(self.at(program))
        if program == "ostree":
            os.mkdir(self.at("ostree/ostree"))
            subprocess.run(["ostree", REPO, "init", "--mode=bare"], cwd=self.at(program), check=True)

    def commit(self, program, branch="main"):
        """What it costs to commit the tree."""
        if program == "ostree":
            return measured(commit_words(self.at(f"tree-{branch}"), branch), self.at(program))
        return measured([PROGRAMS[program], "run"], self.at(program), self.at(f"script-{branch}"))

    def drop(self, program, branch):
        words = [PROGRAMS[program], "drop", branch] if program in PROGRAMS else ["ostree", REPO, "refs", "--delete", branch]
        measured(words, self.at(program))

    def copied(self, program):
        """Puts the program's folder back as it was kept."""
        shutil.rmtree(self.at(program), ignore_errors=True)
        subprocess.run(["cp", "-a", self.at(f"kept-{program}"), self.at(program)], check=True)


def seconds(*runs):
    return sum(run[1] for run in runs)


def row(what, where, work, rounds):
    """Has all programs do this in turns, and prints the least time of each."""
    found = {program: [] for program in ("ostree", *PROGRAMS)}
    for _ in range(rounds):
        for program, times in found.items():
            times.append(work(program))
    theirs = min(found["ostree"])
    told = " | ".join(f"{min(found[program]):.2f} s, {min(found[program]) / theirs:.2f}" for program in PROGRAMS)
    print(f"| {what} | {where} | {told} | {theirs:.2f} s | <!-- load {os.getloadavg()[0]:.1f} -->", flush=True)


def commits(where, folder, rounds):
    place = Place(folder)
    apart(lambda: place.prepare(small_files()))

    def work(program):
        place.renew(program)
        return seconds(place.commit(program))

    row("commit of 20,000 small files", where, work, rounds)
    checkouts(where, place, rounds)
    shutil.rmtree(place.top)


def checkouts(where, place, rounds):
    """Of what was committed there last."""
    with open(place.at("checkout"), "wb") as it:
        it.write(CHECKOUT)

    def work(program):
        folder = place.at(program)
        if program == "ostree":
            shutil.rmtree(f"{folder}/there", ignore_errors=True)
            return seconds(measured(["ostree", REPO, "checkout", "-H", "main", "there"], folder))
        shutil.rmtree(f"{folder}/checkout", ignore_errors=True)
        return seconds(measured([PROGRAMS[program], "run"], folder, place.at("checkout")))

    row("checkout of 20,000 small files", where, work, rounds)


def opening(program, place):
    words = ["ostree", REPO, "fsck", "-q"] if program == "ostree" else [PROGRAMS[program], "init"]
    return seconds(measured(words, place.at(program)))


def openings(where, folder, rounds):
    trees = {"20,000 small files": files(20000), "100,000 small files": files(100000), "200 files of 1 MiB": large_files()}
    for what, tree in trees.items():
        place = Place(folder)
        apart(lambda tree=tree, place=place: place.prepare(tree))
        for program in ("ostree", *PROGRAMS):
            place.renew(program)
            place.commit(program)
        row(f"`init` beside `ostree fsck`, {what}", where, lambda program, place=place: opening(program, place), rounds)
        shutil.rmtree(place.top)


def removal(program, place):
    """One prune, of a copy that the last one hasn't touched; of ostree with the fsck that ours makes first."""
    place.copied(program)
    if program == "ostree":
        words = [["prune", "--refs-only", "--depth=0"], ["fsck", "-q"]]
        return seconds(*(measured(["ostree", REPO, *them], place.at(program)) for them in words))
    return seconds(measured([PROGRAMS[program], "prune", "0"], place.at(program)))


def prune(what, where, folder, rounds, trees, gone):
    place = Place(folder)
    for branch, tree in trees.items():
        apart(lambda tree=tree, branch=branch: place.prepare(tree, branch))
    for program in ("ostree", *PROGRAMS):
        place.renew(program)
        for branch in trees:
            place.commit(program, branch)
        place.drop(program, gone)
        os.rename(place.at(program), place.at(f"kept-{program}"))
    row(f"`prune 0` beside `ostree prune` and `fsck`, {what}", where, lambda program: removal(program, place), rounds)
    shutil.rmtree(place.top)


def other_files(number):
    """So many files, none of which is one of the others."""
    for path, content in files(number):
        yield path, content and b"other" + content


def prunes(where, folder, rounds):
    prune("20,000 small files, all go", where, folder, rounds, {"main": small_files()}, "main")
    trees = {"main": files(99000), "gone": other_files(1000)}
    prune("100,000 small files, 1,000 go", where, folder, rounds, trees, "gone")


WORKS = {"commit": commits, "init": openings, "prune": prunes}


def main():
    disk, memory = sys.argv[1:3]
    rounds = next((int(word) for word in sys.argv[3:] if word.isdigit()), 3)
    words = [word for word in sys.argv[3:] if not word.isdigit()] or list(WORKS)
    print("| Work | Where | `ostree_cli` | `ostree_native` | `ostree` |\n|---|---|---|---|---|")
    for word in words:
        for where, folder in (("in memory", memory), ("on disk", disk)):
            WORKS[word](where, folder, rounds)


main()
