#!/usr/bin/env python3
"""Commits the same trees with ostree_cli, by a script, and with the Debian package's ostree, and prints the times, the peaks of memory and
their ratios. Needs root, build/ostree_cli (make) and ostree. The folders are made below the one that is named, or below the current one.

    bench/run.py [FOLDER]
"""
import os
import shutil
import subprocess
import sys
import tempfile
import time

HERE = os.path.dirname(os.path.abspath(__file__))
PROGRAM = os.path.join(HERE, "..", "build", "ostree_cli")
TIME = 1700000000


def small_files():
    """20,000 files of a few bytes, in 200 folders."""
    for folder in range(200):
        yield f"/d{folder:03}", None
        for number in range(100):
            path = f"/d{folder:03}/f{number:02}"
            yield path, path.encode()


def large_files():
    """200 files of 1 MiB, no two of them the same."""
    for number in range(200):
        yield f"/f{number:03}", bytes([number]) * (1 << 20)


def written(tree):
    """The script that commits the tree."""
    lines = ["ostree-script 1", "tree 0", "folder / 0 0 755 ~"]
    for path, content in tree:
        if content is None:
            lines.append(f"folder {path} 0 0 755 ~")
        elif len(content) < 100:
            lines.append(f"file {path} 0 0 644 ~ ={content.decode()}")
        else:
            lines.append(f"file {path} 0 0 644 ~ *{len(content)}:{content[0]:02x}")
    lines += ["end", "lane", f"commit main 0 first ~ {TIME}", "end", ""]
    return "\n".join(lines).encode()


def laid_out(tree, top):
    """The tree as files below a folder."""
    os.mkdir(top, 0o755)
    os.chmod(top, 0o755)
    for path, content in tree:
        if content is None:
            os.mkdir(top + path)
            os.chmod(top + path, 0o755)
        else:
            with open(top + path, "wb") as it:
                it.write(content)
            os.chmod(top + path, 0o644)


def apart(work, fault="the trees weren't made"):
    """Does this in a process of its own: the most memory of a program is at least what its parent has had."""
    child = os.fork()
    if child == 0:
        work()
        os._exit(0)
    if os.waitpid(child, 0)[1]:
        sys.exit(fault)


def prepare(tree, place):
    nodes = sorted(tree, key=lambda node: node[0].split("/"))
    laid_out(nodes, f"{place}/tree")
    with open(f"{place}/script", "wb") as it:
        it.write(written(nodes))


def measured(words, folder, script=os.devnull):
    """Runs it: its output, the seconds on the clock, those of the processor, and the most memory in MiB."""
    os.sync()
    start = time.monotonic()
    with open(script, "rb") as it:
        ran = subprocess.Popen(words, cwd=folder, stdin=it, stdout=subprocess.PIPE)
    output = ran.stdout.read().decode()
    _, status, used = os.wait4(ran.pid, 0)
    seconds = time.monotonic() - start
    if status:
        sys.exit(f"{words[0]} ended with {status}: {output}")
    return output, seconds, used.ru_utime + used.ru_stime, used.ru_maxrss / 1024


def committed(tree, place):
    """Makes the tree and its script there, and commits it with both: what each commit came to."""
    apart(lambda: prepare(tree, place))
    subprocess.run(["ostree", "--repo=R", "init", "--mode=bare"], cwd=place, check=True)
    theirs = measured(
        ["ostree", "--repo=R", "commit", "--no-bindings", "--no-xattrs", f"--timestamp=@{TIME}", "--branch=main", "--subject=first", "--tree=dir=tree"],
        place,
    )
    os.mkdir(f"{place}/ours")
    return theirs, measured([PROGRAM, "run"], f"{place}/ours", f"{place}/script")


def report(runs):
    """Prints what each run cost."""
    for who, (_, seconds, busy, memory) in runs:
        print(f"  {who}: {seconds:.2f} s, {busy:.2f} s of the processor, {memory:.0f} MiB")


def ratios(what, ours, theirs):
    """Prints our run's cost over theirs."""
    print(f"  {what}: time {ours[1] / theirs[1]:.1f}, processor {ours[2] / theirs[2]:.1f}, memory {ours[3] / theirs[3]:.1f}", flush=True)


def compare(name, tree, folder):
    place = tempfile.mkdtemp(dir=folder)
    try:
        theirs, ours = committed(tree, place)
        again = measured([PROGRAM, "refs"], f"{place}/ours")
        if ours[0].split()[-1] != theirs[0].strip():
            sys.exit(f"{name}: the commits differ: {ours[0]}{theirs[0]}")
        print(f"{name}: the same commit, {theirs[0].strip()}")
        report((("ostree commit", theirs), ("ostree_cli run", ours), ("ostree_cli refs, behind it", again)))
        ratios("run / commit", ours, theirs)
    finally:
        shutil.rmtree(place)


def main():
    folder = sys.argv[1] if len(sys.argv) > 1 else "."
    compare("20,000 small files in 200 folders", small_files(), folder)
    compare("200 files of 1 MiB", large_files(), folder)


if __name__ == "__main__":
    main()
