#!/usr/bin/env python3
"""Proves and builds the program, and says how far it is, crate by crate. What the checks say stands in build/log.

usage: tools/build.py [NAME]

NAME is another program of the repository, such as merge_runner. The kit proves the crates one after another, each with a second job where
that helps, and keeps each in its folder `out`: so a build that was stopped goes on where it was.
"""
import os
import shutil
import subprocess
import sys
import time

TOP = os.path.dirname(os.path.dirname(os.path.abspath(__file__)))


def crates_below(name):
    """The crates of the repository that this one stands on."""
    below = {}
    with open(f"{TOP}/crates.txt", encoding="utf-8") as it:
        for line in it:
            if ":" in line and not line.startswith("#"):
                crate, _, others = line.partition(":")
                below[crate.split()[0]] = others.split()
    if name not in below:
        sys.exit(f"crates.txt has no crate {name}")
    found, waiting = set(), list(below[name])
    while waiting:
        crate = waiting.pop()
        if crate in below and crate not in found:
            found.add(crate)
            waiting += below[crate]
    return found


def stamp_of(crate):
    """When the crate was proved here; None where it never was, or is being proved again."""
    try:
        return os.stat(f"{TOP}/crates/{crate}/out/rlib/stamp").st_mtime_ns
    except FileNotFoundError:
        return None


def tell_new(libraries, told):
    """Tells each library that was proved since it was looked at last."""
    for crate in sorted(libraries):
        at = stamp_of(crate)
        if at and at != told.get(crate):
            done = sum(stamp_of(it) is not None for it in libraries)
            print(f"{done} of {len(libraries)} crates are proved: now {crate}", flush=True)
        told[crate] = at or told.get(crate)


def run(program, libraries):
    """Has the program proved, built and run once, and tells each crate that is done."""
    told = {it: stamp_of(it) for it in libraries}
    with open(f"{TOP}/build/log", "w", encoding="utf-8") as log:
        words = ["rt", "run", "--", *["--version"] * (program == "ostree_cli")]
        ran = subprocess.Popen(words, cwd=f"{TOP}/crates/{program}", stdout=log, stderr=subprocess.STDOUT)
        while ran.poll() is None:
            time.sleep(1)
            tell_new(libraries, told)
    tell_new(libraries, told)
    return ran.returncode


def main(words):
    program = words[0] if words else "ostree_cli"
    libraries = crates_below(program)
    new = sum(stamp_of(it) is None for it in libraries)
    print(f"Proves {program} and the {len(libraries)} crates below it, and builds it.", flush=True)
    if new and program == "ostree_cli":
        print(f"{new} of them were never proved here. From nothing all take some 105 processor minutes: more than an hour, since most have to wait for those")
        print("below them. What is proved is kept: later only what changed is proved again, with what stands on it. The last step, which makes")
        print("the program of all that was proved, takes some seven minutes.", flush=True)
    os.makedirs(f"{TOP}/build", exist_ok=True)
    status = run(program, libraries)
    if status:
        with open(f"{TOP}/build/log", encoding="utf-8") as log:
            sys.exit("".join(log.readlines()[-40:]) + "The whole log is build/log.")
    shutil.copy(f"{TOP}/crates/{program}/out/{program}", f"{TOP}/build/{program}")


if __name__ == "__main__":
    main(sys.argv[1:])
