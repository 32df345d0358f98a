#!/usr/bin/env python3
"""Cuts the power of a disk on which ostree_cli ran, and opens the folder on what the disk had then.

Usage: tools/power_cut.py [ROUNDS] [KIND ..]      from the top of the repository, after `make`, as root

The disk is a file that is mounted by a loop device, with a file system of a kind: ext4, ext4-nojournal, xfs, btrfs; with no kind,
each whose tools are installed. A round starts a change of a ref or the commit of a new tree and mostly kills it after a random time.
Then one of three things is done: nothing; the ref is asked for (a value that is told must outlive the cut); or the same change is
made again (one that is answered must). Then the disk's file is copied while it is mounted, which is what a loss of power leaves, the
copy is mounted, and asked for the ref, which checks each object and each commit. The last line of each kind tells the rounds, how
many were killed in the middle, and how many changes were lost; any loss or damage ends the run with status 1.
"""
import os
import random
import shutil
import subprocess
import sys
import time

PROGRAM = os.path.join(os.getcwd(), "build", "ostree_cli")
WORK = os.path.join(os.getcwd(), "build", "power_cut")
DISK, COPY = os.path.join(WORK, "disk"), os.path.join(WORK, "copy")
AT, AGAIN = os.path.join(WORK, "at"), os.path.join(WORK, "again")
MAKE = {
    "ext4": ["mkfs.ext4", "-q"],
    "ext4-nojournal": ["mkfs.ext4", "-q", "-O", "^has_journal"],
    "xfs": ["mkfs.xfs", "-q"],
    "btrfs": ["mkfs.btrfs", "-q"],
}
SIZE = 320 << 20
# Two commits of a tree.
SCRIPT = """ostree-script 1
tree 0
folder / 0 0 755 ~
end
lane
commit os/main 0 first ~ 1700000000
commit os/main 0 second ~ 1700000060
end
"""


def call(*words):
    subprocess.run(words, check=True, stdout=subprocess.DEVNULL, stderr=subprocess.DEVNULL)


def unmount(folder):
    subprocess.run(["umount", folder], stderr=subprocess.DEVNULL, check=False)


def lay_out(kind):
    """A fresh disk of the kind, mounted, with the two commits; gives their names."""
    unmount(AT)
    unmount(AGAIN)
    shutil.rmtree(WORK, ignore_errors=True)
    os.makedirs(AT)
    os.makedirs(AGAIN)
    with open(DISK, "wb") as disk:
        disk.truncate(SIZE)
    call(*MAKE[kind], DISK)
    call("mount", "-o", "loop", DISK, AT)
    return commits_of(ask(AT, ["run"], SCRIPT))


def ask(folder, words, text=""):
    return subprocess.run([PROGRAM] + words, cwd=folder, input=text, capture_output=True, text=True, check=False)


def commits_of(ran):
    if ran.returncode != 0:
        sys.exit(f"the script failed: status {ran.returncode}, {ran.stdout!r}")
    return [line.split()[3] for line in ran.stdout.splitlines()]


def value(folder):
    """The commit that the ref names, or None; or what is wrong."""
    asked = ask(folder, ["rev-parse", "os/main"])
    if asked.returncode == 1 and asked.stdout == "0 0 refused NoRef\n":
        return None
    words = asked.stdout.split()
    if asked.returncode != 0 or words[:3] != ["0", "0", "ok"]:
        return f"damage: status {asked.returncode}, {asked.stdout!r}"
    return words[3]


def change(commits, old, number):
    """Words that change the ref, their input, and the value that they give, None where only the program can say it."""
    if random.random() < 0.5:
        new = random.choice([c for c in commits + [None] if c != old])
        return (["drop", "os/main"] if new is None else ["reset", "os/main", new]), "", [new]
    files = [f"file /f{i} 0 0 644 ~ ={number}.{i}%0a" for i in range(random.randint(1, 40))]
    commit = f"commit os/main 0 round-{number} ~ {1700000100 + number}"
    lines = ["ostree-script 1", "tree 0", "folder / 0 0 755 ~"] + files + ["end", "lane", commit, "end", ""]
    return ["run"], "\n".join(lines), []


def start_and_kill(words, text, limit):
    """Whether the change was answered with status 0 before it was killed, and what it printed."""
    with subprocess.Popen([PROGRAM] + words, cwd=AT, stdin=subprocess.PIPE, stdout=subprocess.PIPE, text=True) as process:
        process.stdin.write(text)
        process.stdin.close()
        time.sleep(random.uniform(0, limit))
        process.kill()
        printed = process.stdout.read()
        return process.wait() == 0, printed


def after_the_cut(kind):
    """What the ref names on what the disk had."""
    shutil.rmtree(COPY, ignore_errors=True)
    call("cp", "--sparse=always", DISK, COPY)
    if kind == "ext4-nojournal":
        subprocess.run(["e2fsck", "-fy", COPY], stdout=subprocess.DEVNULL, stderr=subprocess.DEVNULL, check=False)
    call("mount", "-o", "loop,nouuid" if kind == "xfs" else "loop", COPY, AGAIN)
    found = value(AGAIN)
    unmount(AGAIN)
    os.remove(COPY)
    return found


def one_round(kind, commits, old, number):
    """What the ref names then, whether the change was killed in the middle, and whether anything was lost."""
    words, text, new = change(commits, old, number)
    done, printed = start_and_kill(words, text, 0.05 if words[0] != "run" else 0.3)
    may = None
    if done:
        new = new or [printed.split()[3]]
        may = new
    then = random.choice(["nothing", "ask", "again"])
    if then == "ask" and not done:
        may = [value(AT)]
    if then == "again":
        again = ask(AT, words, text)
        if again.returncode == 0:
            # (a commit that is made again has the one before it as its parent)
            may = [again.stdout.split()[3]] if words[0] == "run" else new
    found = after_the_cut(kind)
    now = value(AT)
    allowed = may if may is not None else [old, now] + new
    lost = found not in allowed or (isinstance(found, str) and found.startswith("damage"))
    if lost:
        print(f"{kind}, round {number}: {words} {then}: found {found}, and not one of {allowed}")
    return now, not done, lost


def run(kind, rounds):
    commits = lay_out(kind)
    old, killed, losses = commits[1], 0, 0
    for number in range(rounds):
        old, middle, lost = one_round(kind, commits, old, number)
        killed, losses = killed + middle, losses + lost
        if number % 100 == 99:
            commits = lay_out(kind)
            old = commits[1]
    unmount(AT)
    print(f"{kind}: {rounds} rounds, {killed} killed in the middle, {losses} lost")
    return losses


def main():
    rounds = int(sys.argv[1]) if len(sys.argv) > 1 else 100
    kinds = sys.argv[2:] or [kind for kind in MAKE if shutil.which(MAKE[kind][0])]
    losses = sum(run(kind, rounds) for kind in kinds)
    sys.exit(1 if losses else 0)


main()
