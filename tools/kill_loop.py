#!/usr/bin/env python3
"""Cuts a running ostree_cli by SIGKILL at random moments, and opens the folder again each time.

Usage: tools/kill_loop.py [ROUNDS]      from the top of the repository, after `make`

Each round starts a change of a ref (to one commit, to another, or its removal) or the commit of a new tree, kills the program
after a random time, and asks for the ref by a new one, which checks each object and each commit before it answers. The ref must
be as it was or as it was to become; and as it was to become where the program had ended with status 0 before it was killed. The
last line tells the rounds, how many were killed in the middle, and how many of those found the new value, of changes of a ref
and of commits.
"""
import os
import random
import shutil
import signal
import subprocess
import sys
import time

PROGRAM = os.path.join(os.getcwd(), "build", "ostree_cli")
FOLDER = os.path.join("build", "kill_loop")
COPY = os.path.join("build", "kill_loop_copy")
# Two commits of a tree.
SCRIPT = """ostree-script 1
tree 0
folder / 0 0 755 ~
end
lane
commit os/main 0 first ~ 1700000000
commit os/main 0 second ~ 1700000060
end
"""


def commits_of(script, folder):
    """Runs the script, and gives the names of the commits that it makes."""
    ran = subprocess.run([PROGRAM, "run"], cwd=folder, input=script, check=True, capture_output=True, text=True)
    return [line.split()[3] for line in ran.stdout.splitlines()]


def lay_out():
    """Makes the two commits in a fresh folder, and gives their names."""
    shutil.rmtree(FOLDER, ignore_errors=True)
    os.makedirs(FOLDER)
    return commits_of(SCRIPT, FOLDER)


def value():
    """The commit that the ref names, or None."""
    asked = subprocess.run([PROGRAM, "rev-parse", "os/main"], cwd=FOLDER, capture_output=True, text=True)
    if asked.returncode == 1 and asked.stdout == "0 0 refused NoRef\n":
        return None
    words = asked.stdout.split()
    if asked.returncode != 0 or words[:3] != ["0", "0", "ok"]:
        sys.exit(f"the folder doesn't open again: status {asked.returncode}, {asked.stdout!r}")
    return words[3]


def ref_change(commits, old):
    """Words that change the ref, their input, what they print, and the value that they give."""
    new = random.choice([c for c in commits + [None] if c != old])
    return (["drop", "os/main"] if new is None else ["reset", "os/main", new]), "", "0 0 ok\n", new


def commit_change(number):
    """The same of the commit of a tree that is new in this round, and how long it takes. Both are learnt in a copy of the folder."""
    files = [f"file /f{i} 0 0 644 ~ ={number}.{i}%0a" for i in range(random.randint(1, 9))]
    commit = f"commit os/main 0 round-{number} ~ {1700000100 + number}"
    script = "\n".join(["ostree-script 1", "tree 0", "folder / 0 0 755 ~"] + files + ["end", "lane", commit, "end", ""])
    shutil.rmtree(COPY, ignore_errors=True)
    shutil.copytree(FOLDER, COPY, symlinks=True)
    began = time.monotonic()
    new = commits_of(script, COPY)[0]
    return (["run"], script, f"0 0 ok {new}\n", new), time.monotonic() - began


def seconds_of(words, folder):
    """How long the program takes, in seconds."""
    began = time.monotonic()
    subprocess.run([PROGRAM] + words, cwd=folder, check=True, stdout=subprocess.DEVNULL)
    return time.monotonic() - began


def main():
    rounds = int(sys.argv[1]) if len(sys.argv) > 1 else 500
    commits = lay_out()
    killed = {"ref": 0, "commit": 0}
    changed = {"ref": 0, "commit": 0}
    old = value()
    reset = seconds_of(["reset", "os/main", commits[0]], FOLDER)
    old = value()
    for number in range(rounds):
        kind = random.choice(["ref", "commit"])
        change, seconds = commit_change(number) if kind == "commit" else (ref_change(commits, old), reset)
        words, text, says, new = change
        child = subprocess.Popen([PROGRAM] + words, cwd=FOLDER, stdin=subprocess.PIPE, stdout=subprocess.PIPE, text=True)
        child.stdin.write(text)
        child.stdin.close()
        time.sleep(random.uniform(0, 1.2 * seconds))
        child.send_signal(signal.SIGKILL)
        said = child.stdout.read()
        child.wait()
        done = child.returncode == 0 or said == says
        found = value()
        if found != new and (done or found != old):
            sys.exit(f"round {number}: {words} from {old}: said {said!r}, and then the ref was {found}")
        if child.returncode == -signal.SIGKILL:
            killed[kind] += 1
            changed[kind] += found == new
        old = found
    print(
        f"{rounds} rounds, {killed['ref']} changes of the ref killed in the middle, {changed['ref']} of them found the new value; "
        f"{killed['commit']} commits, {changed['commit']} of them found the new value"
    )


main()
