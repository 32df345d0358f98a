#!/usr/bin/env python3
"""Times how the refs of a repository are listed, with 1,000, 10,000 and 100,000 of them.

Usage: bench/refs.py     from the top of the repository, after `make`

Each round makes one commit in a folder, writes that many refs to it in 100 folders, and runs `ostree_cli refs`, which opens
the repository (all is synced, and all that is there is read and checked) and lists them. What is printed must be all refs,
in order of their bytes. Where the program `ostree` is on the path, `ostree refs` lists as many refs beside it; it reads no
ref's file. Prints for each number the seconds, the microseconds a ref, and the peak memory.
"""
import os
import shutil
import subprocess
import sys
import time

PROGRAM = os.path.join(os.getcwd(), "build", "ostree_cli")
FOLDER = os.path.join("build", "refs_bench")
# One commit, whose own ref goes again.
SCRIPT = """ostree-script 1
tree 0
folder / 0 0 755 ~
end
lane
commit main 0 first ~ 1700000000
drop main
end
"""
# A regular file with owner 0, group 0 and mode 0100644 is kept on the host behind this header.
HEADER = bytes.fromhex("0000001200000000" "00000000" "00000000" "000081a4" "00000000" "00" "11")


def names(count):
    return sorted(f"os/part{number % 100:02}/branch{number:06}" for number in range(count))


def write_refs(heads, count, commit, header):
    for name in names(count):
        at = os.path.join(heads, name)
        os.makedirs(os.path.dirname(at), exist_ok=True)
        with open(at, "wb") as file:
            file.write(header + commit.encode() + b"\n")


def timed(words, folder):
    """The seconds and the peak memory in MiB of a run, and what it printed."""
    out = os.path.join(FOLDER, "printed")
    began = time.monotonic()
    with open(out, "wb") as file:
        child = subprocess.Popen(words, cwd=folder, stdout=file)
        _, status, usage = os.wait4(child.pid, 0)
    seconds = time.monotonic() - began
    if status:
        sys.exit(f"{words}: status {status}")
    with open(out, encoding="ascii") as file:
        return seconds, usage.ru_maxrss / 1024, file.read()


def tell(program, count, seconds, memory):
    print(f"{program:>10} {count:>8} refs {seconds:>8.2f} s {1e6 * seconds / count:>8.1f} µs a ref {memory:>8.1f} MiB")


def ours(count):
    place = os.path.join(FOLDER, "ours")
    os.makedirs(place)
    ran = subprocess.run([PROGRAM, "run"], cwd=place, input=SCRIPT, check=True, capture_output=True, text=True)
    commit = ran.stdout.split()[3]
    write_refs(os.path.join(place, "ostree/repo/refs/heads"), count, commit, HEADER)
    seconds, memory, printed = timed([PROGRAM, "refs"], place)
    wanted = f"0 0 ok {count}\n" + "".join(f" {name} {commit}\n" for name in names(count))
    if printed != wanted:
        sys.exit(f"{count} refs: not all were listed, or not in order")
    tell("ostree_cli", count, seconds, memory)
    return commit


def peer(count, commit):
    place = os.path.join(FOLDER, "peer")
    subprocess.run(["ostree", f"--repo={place}", "init", "--mode=bare"], check=True)
    write_refs(os.path.join(place, "refs/heads"), count, commit, b"")
    seconds, memory, printed = timed(["ostree", f"--repo={place}", "refs"], ".")
    if len(printed.split()) != count:
        sys.exit("the peer lists another number of refs")
    tell("ostree", count, seconds, memory)


def main():
    for count in (1_000, 10_000, 100_000):
        shutil.rmtree(FOLDER, ignore_errors=True)
        os.makedirs(FOLDER)
        commit = ours(count)
        if shutil.which("ostree"):
            peer(count, commit)
    shutil.rmtree(FOLDER, ignore_errors=True)


if __name__ == "__main__":
    main()
