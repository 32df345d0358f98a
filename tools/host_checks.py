#!/usr/bin/env python3
"""Tries what the machine does to ostree_cli's folder: two processes at once, odd files, limits, modes.

Usage: tools/host_checks.py [pairs [N]] [fifo] [long] [limit] [modes] [sync] [threads]

From the top of the repository, after `make`; with no word all. `sync` and `threads` need strace.

pairs   N times (300) two processes commit in one folder at once: at most one ends with a fault, and the folder opens then
fifo    a FIFO where objects are staged: a fault that is told, and nothing waits for it
long    a file of 1 TiB at an object's path, as the configuration and as a ref: a refusal that takes no memory
limit   a limit of file sizes, whose signal is ignored: a fault that is told, and the folder opens without it
modes   with no umask: files are 0600 and folders 0700
sync    one of the threads fails to sync its young file: no change is told or shown, and the folder opens without it
threads no thread can be made: an opening tells the same on one, of a folder that is whole, and of one with two damaged objects the first

Each check prints a line; any that fails ends the run with status 1.
"""
import os
import resource
import shutil
import stat
import subprocess
import sys

PROGRAM = os.path.join(os.getcwd(), "build", "ostree_cli")
FOLDER = os.path.join(os.getcwd(), "build", "host_checks")
REPOSITORY = os.path.join(FOLDER, "ostree", "repo")
SECONDS = 60
MEMORY = 256 << 20
# Of the first commit: a file, a tree, its attributes, and the commit.
OBJECTS = 4


def script(number, content="a"):
    lines = ["ostree-script 1", "tree 0", "folder / 0 0 755 ~", f"file /f 0 0 600 ~ ={content}{number}", "end"]
    return "\n".join(lines + ["lane", f"commit os/main{number} 0 c{number} ~ {1700000000 + number}", "end", ""])


def fresh():
    shutil.rmtree(FOLDER, ignore_errors=True)
    os.makedirs(FOLDER)


def start(words, **more):
    return subprocess.Popen([PROGRAM] + words, cwd=FOLDER, stdin=subprocess.PIPE, stdout=subprocess.PIPE, stderr=subprocess.PIPE, text=True, **more)


def ask(words, text="", **more):
    """The status and what was printed."""
    with start(words, **more) as process:
        printed, _ = process.communicate(text, timeout=SECONDS)
        return process.returncode, printed


def opens():
    status, printed = ask(["refs"])
    return None if status == 0 else f"the folder doesn't open: status {status}, {printed!r}"


def pairs(count=300):
    faults = 0
    for number in range(count):
        if number % 50 == 0:
            fresh()
        both = [start(["run"]), start(["run"])]
        for at, process in enumerate(both):
            process.stdin.write(script(2 * number + at))
            process.stdin.close()
        statuses = []
        for process in both:
            printed = process.stdout.read()
            statuses.append(process.wait(timeout=SECONDS))
            if statuses[-1] != 0 and printed != "fault open Disk\n":
                return f"pair {number}: status {statuses[-1]}, {printed!r}"
        failed = sum(status != 0 for status in statuses)
        faults += failed
        if failed > 1:
            return f"pair {number}: both ended with a fault"
        for at, status in enumerate(statuses):
            if status == 0 and ask(["rev-parse", f"os/main{2 * number + at}"])[0] != 0:
                return f"pair {number}: an acknowledged commit is gone"
        wrong = opens()
        if wrong:
            return f"pair {number}: {wrong}"
    return f"{count} pairs, {faults} faults", True


def fifo():
    fresh()
    ask(["run"], script(0))
    os.mkfifo(os.path.join(REPOSITORY, "tmp", "actor-0"))
    status, printed = ask(["run"], script(1))
    told = status != 0 and printed.startswith("fault")
    os.remove(os.path.join(REPOSITORY, "tmp", "actor-0"))
    wrong = opens()
    return wrong or (f"status {status}, {printed!r}", told)


def paths_that_are_read():
    """An object, the configuration, and a ref."""
    objects = os.path.join(REPOSITORY, "objects")
    for at, _, names in sorted(os.walk(objects)):
        for name in sorted(names):
            if name.endswith(".commit"):
                yield os.path.join(at, name)
    yield os.path.join(REPOSITORY, "config")
    yield os.path.join(REPOSITORY, "refs", "heads", "os", "main0")


def long():
    said = []
    fresh()
    ask(["run"], script(0))
    kept = os.path.join(os.path.dirname(FOLDER), "host_checks_kept")
    for path in list(paths_that_are_read()):
        shutil.copyfile(path, kept)
        os.truncate(path, 1 << 40)
        limits = lambda: resource.setrlimit(resource.RLIMIT_AS, (MEMORY, MEMORY))
        status, printed = ask(["refs"], preexec_fn=limits)
        said.append(f"{os.path.basename(path)[-8:]}: {status} {printed.strip()!r}")
        if status == 0 or "NoMemory" in printed:
            return "; ".join(said)
        shutil.copyfile(kept, path)
    os.remove(kept)
    return opens() or ("; ".join(said), True)


def limit():
    fresh()
    ask(["run"], script(0))
    limits = lambda: resource.setrlimit(resource.RLIMIT_FSIZE, (1 << 16, 1 << 16))
    # Python ignores SIGXFSZ, and so does what it starts where it doesn't restore that.
    status, printed = ask(["run"], script(1, "a" * (1 << 20)), preexec_fn=limits, restore_signals=False)
    if status <= 0 or not printed:
        return f"status {status}, {printed!r}"
    return opens() or (f"status {status}, {printed.strip()!r}", True)


def modes():
    fresh()
    ask(["run"], script(0), preexec_fn=lambda: os.umask(0))
    for at, folders, files in os.walk(FOLDER):
        for name, wanted in [(it, 0o700) for it in folders] + [(it, 0o600) for it in files]:
            found = stat.S_IMODE(os.lstat(os.path.join(at, name)).st_mode)
            if found != wanted:
                return f"{os.path.join(at, name)} has mode {found:o}"
    return "0600 and 0700", True


def sync():
    fresh()
    ask(["run"], script(0))
    lost = os.path.join(FOLDER, ".ost-new", "0001")
    traced = ["strace", "-f", "-qq", "-P", lost, "-e", "inject=fsync:error=EIO", "-o", os.path.join(FOLDER, "syncs"), PROGRAM, "run"]
    it = subprocess.run(traced, cwd=FOLDER, input=script(1), capture_output=True, text=True, timeout=SECONDS)
    with open(os.path.join(FOLDER, "syncs"), encoding="ascii", errors="replace") as said:
        injected = sum("INJECTED" in line for line in said)
    if injected != 1:
        return f"{injected} syncs failed, and not one"
    shown = [name for _, _, names in os.walk(os.path.join(REPOSITORY, "objects")) for name in names]
    if it.returncode == 0 or len(shown) != OBJECTS or ask(["rev-parse", "os/main1"])[0] == 0:
        return f"status {it.returncode}, {it.stdout!r}, {len(shown)} objects"
    return opens() or (f"status {it.returncode}, {it.stdout.strip()!r}", True)


def alone(words):
    """The same where no thread can be made, and how many could not."""
    said = os.path.join(FOLDER, "threads")
    traced = ["strace", "-f", "-qq", "-e", "trace=clone,clone3", "-e", "inject=clone,clone3:error=EAGAIN", "-o", said, PROGRAM] + words
    it = subprocess.run(traced, cwd=FOLDER, capture_output=True, text=True, timeout=SECONDS)
    with open(said, encoding="ascii", errors="replace") as lines:
        return (it.returncode, it.stdout), sum("INJECTED" in line for line in lines)


def threads():
    fresh()
    # More than are hashed by one thread.
    for number in range(8):
        ask(["run"], script(number, "a" * (1 << 16)))
    told = []
    for damaged in (False, True):
        files = sorted(os.path.join(at, name) for at, _, names in os.walk(os.path.join(REPOSITORY, "objects")) for name in names if name.endswith(".file"))
        for path in (files[0], files[-1]) if damaged else ():
            with open(path, "r+b") as it:
                it.seek(-1, os.SEEK_END)
                it.write(b"!")
        by_threads, (by_one, refused) = ask(["refs"]), alone(["refs"])
        if by_threads != by_one or (by_one[0] == 0) == damaged or refused == 0:
            return f"{by_threads!r} by threads, and where {refused} could not be made {by_one!r}"
        if damaged and os.path.relpath(files[0], FOLDER) not in by_one[1]:
            return f"{by_one[1]!r}, and the first is {files[0]}"
        told.append(refused)
    return f"{told[0]} and {told[1]} threads could not be made", True


def main():
    checks = {"pairs": pairs, "fifo": fifo, "long": long, "limit": limit, "modes": modes, "sync": sync, "threads": threads}
    words = [word for word in sys.argv[1:] if not word.isdigit()] or list(checks)
    counts = [int(word) for word in sys.argv[1:] if word.isdigit()]
    failed = 0
    for word in words:
        found = checks[word](*(counts if word == "pairs" else []))
        good = isinstance(found, tuple) and found[1]
        failed += not good
        print(f"{word}: {'ok' if good else 'WRONG'}: {found[0] if isinstance(found, tuple) else found}")
    shutil.rmtree(FOLDER, ignore_errors=True)
    sys.exit(1 if failed else 0)


main()
