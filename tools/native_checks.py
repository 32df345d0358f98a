#!/usr/bin/env python3
"""Has ostree_native and the usual ostree work on one repository, and compares what they say and what they leave.

    tools/native_checks.py [WORD]...

The words choose from: reads, writes, odd, rounds, prunes, killed, deployments, lists, unlisted, system, lock. Without words all are done. It needs root, `ostree`, and the
program at build/ostree_native (tools/build.py ostree_native), or at the path that OSTREE_NATIVE names. All is done in a fresh folder below
TMPDIR, where /usr/share has to have room. `system` takes a tree of Debian's packages where `debootstrap` is there and its packages are
within reach, and else one of this machine's own programs. Status: 0 where all comparisons hold, else 1.
"""
import calendar
import fcntl
import hashlib
import os
import platform
import random
import re
import shutil
import signal
import stat
import subprocess
import sys
import tempfile
import time

PROGRAM = os.environ.get("OSTREE_NATIVE") or os.path.join(os.getcwd(), "build", "ostree_native")
COMMIT = ["commit", "--no-xattrs", "--no-bindings"]


class Fault(Exception):
    pass


def holds(is_so, what):
    if not is_so:
        raise Fault(what)


def ran(words, folder, text=None, status=0):
    """What a command prints, as bytes."""
    it = subprocess.run(words, cwd=folder, input=text, capture_output=True, check=False)
    holds(it.returncode == status, f"{' '.join(words)}: status {it.returncode}: {it.stdout[-300:]!r} {it.stderr[-300:]!r}")
    return it.stdout


def ours(folder, *words, text=None, status=0):
    return ran([PROGRAM, *words], folder, text, status).decode()


def theirs(folder, *words, status=0):
    return ran(["ostree", "--repo=ostree/repo", *words], folder, None, status).decode()


def new_folder(room, name):
    folder = os.path.join(room, name)
    os.mkdir(folder)
    return folder


def sum_of(path):
    """The SHA-256 of a file's bytes."""
    it = hashlib.sha256()
    with open(path, "rb") as opened:
        while part := opened.read(1 << 20):
            it.update(part)
    return it.hexdigest()


def nodes_in(top):
    """Each node below a folder, with what makes it: kind, owner, group, permissions, the sum of its bytes, or its target."""
    found = {}
    for at, folders, files in os.walk(top):
        for name in [""] + files + [it for it in folders if os.path.islink(os.path.join(at, it))]:
            path = os.path.join(at, name) if name else at
            it = os.lstat(path)
            held = ""
            if stat.S_ISLNK(it.st_mode):
                held = os.readlink(path)
            elif stat.S_ISREG(it.st_mode):
                held = sum_of(path)
            found[os.path.relpath(path, top)] = (it.st_mode, it.st_uid, it.st_gid, held)
    return found


def same_trees(one, two, what):
    left, right = nodes_in(one), nodes_in(two)
    for path in sorted(left.keys() | right.keys()):
        holds(left.get(path) == right.get(path), f"{what}: {path} differs: {left.get(path)} {right.get(path)}"[:600])


def odd_tree(folder):
    """A tree of nodes that are easily lost."""
    os.mkdir(folder)
    os.mkdir(f"{folder}/sticky")
    os.mkdir(f"{folder}/group")
    for name, mode, owner in (("set-id", 0o6755, (0, 0)), ("set-user", 0o4755, (0, 0)), ("none", 0, (0, 0)), ("other", 0o640, (1234, 4321)), ("n" * 255, 0o644, (0, 0)), ("empty", 0o4711, (7, 8))):
        with open(f"{folder}/{name}", "w", encoding="utf-8") as it:
            it.write("" if name == "empty" else f"what {name} holds\n")
        os.chown(f"{folder}/{name}", *owner)
        os.chmod(f"{folder}/{name}", mode)
    os.symlink("to/nowhere", f"{folder}/link")
    os.lchown(f"{folder}/link", 3, 4)
    os.chown(f"{folder}/group", 5, 6)
    os.chmod(f"{folder}/group", 0o2750)
    os.chmod(f"{folder}/sticky", 0o1777)
    os.chmod(folder, 0o755)


def init(folder):
    os.mkdir(f"{folder}/ostree")
    theirs(folder, "init", "--mode=bare")


def bytes_of(field):
    """What a field of a reply says."""
    return b"" if field == "~" else re.sub(rb"%(..)", lambda it: bytes.fromhex(it[1].decode()), field.encode())


def rows_of(reply):
    """The lines of a reply that lists, each as its fields."""
    first, *rows = reply.splitlines()
    holds(first == f"0 0 ok {len(rows)}", f"a list: {first}")
    return [row.split() for row in rows]


def own_log(folder, rev):
    """Each commit's sum, time and subject."""
    return [(sum_, int(time_), bytes_of(subject).decode()) for sum_, time_, subject in rows_of(ours(folder, "log", rev))]


def their_log(folder, rev):
    """The same as `ostree` tells it."""
    told = []
    for text in re.split("^commit ", theirs(folder, "log", rev), flags=re.MULTILINE)[1:]:
        head, _, body = text.partition("\n\n")
        date = re.search(r"^Date: +(.*) \+0000$", head, re.MULTILINE)[1]
        subject = "" if "(no subject)" in head else body.splitlines()[0].strip()
        told.append((head.split()[0], calendar.timegm(time.strptime(date, "%Y-%m-%d %H:%M:%S")), subject))
    return told


def own_nodes(folder, rev):
    """Each path of a commit: a folder's owner, group and mode, and a leaf's sum."""
    nodes = {}
    for kind, *words in rows_of(ours(folder, "ls", rev, "/")):
        nodes[bytes_of(words[-1])] = tuple(words[:-1]) if kind == "folder" else words[0]
    return nodes


def their_nodes(folder, rev):
    """The same as `ostree` tells it."""
    nodes = {}
    for line in ran(["ostree", "--repo=ostree/repo", "ls", "-R", "-C", rev], folder).split(b"\n")[:-1]:
        mode, owner, group, _, rest = line.split(None, 4)
        if mode[:1] == b"d":
            path = rest.split(b" ", 2)[2]
            nodes[path] = (owner.decode(), group.decode(), f"{int(mode[1:], 8):o}")
        else:
            sum_, path = rest.split(b" ", 1)
            nodes[path.split(b" -> ")[0] if mode[:1] == b"l" else path] = sum_.decode()
    return nodes


def same_bytes(folder, rev, top):
    """Compares some files by `cat`, all of ours in one run."""
    files = sorted(path for path, node in nodes_in(top).items() if stat.S_ISREG(node[0]) and os.path.getsize(f"{top}/{path}") < 1 << 20)
    paths = files[:: max(1, len(files) // 20)][:64]
    lane = [f"cat {rev} /{spelled(path)}" for path in paths]
    said = ours(folder, "run", text="\n".join(["ostree-script 1", "lane", *lane, "end", ""]).encode()).splitlines()
    holds(len(said) == len(paths), "cat")
    for number, path in enumerate(paths):
        first, content = said[number].rsplit(" ", 1)
        holds(first == f"0 {number} ok", f"cat of {path}: {first}")
        holds(bytes_of(content) == ran(["ostree", "--repo=ostree/repo", "cat", rev, "/" + path], folder), f"cat of {path}")


def spelled(text):
    """A text as a field."""
    return "".join(chr(byte) if 0x21 <= byte < 0x7F and byte != 0x25 else f"%{byte:02x}" for byte in os.fsencode(text))


def check_reads(room):
    """What ostree commits is read by ours."""
    folder = new_folder(room, "reads")
    init(folder)
    for count, source in enumerate(("/etc", "/usr/share")):
        words = ["-b", "os/main", "-s", f"commit {count}", "-m", "body", f"--timestamp=@{1700000000 + count}", source]
        sum_ = theirs(folder, *COMMIT, *words).strip()
        holds(ours(folder, "init") == "", "init")
        holds(ours(folder, "rev-parse", "os/main") == f"0 0 ok {sum_}\n", "rev-parse")
        log = own_log(folder, "os/main")
        holds(log == their_log(folder, "os/main") and len(log) == count + 1, "log")
        nodes = own_nodes(folder, "os/main")
        holds(nodes == their_nodes(folder, "os/main"), "ls")
        ours(folder, "checkout", "os/main", f"ours{count}")
        theirs(folder, "checkout", "-H", "os/main", f"theirs{count}")
        same_trees(f"{folder}/checkout/ours{count}", f"{folder}/theirs{count}", f"checkout of {source}")
        same_bytes(folder, "os/main", f"{folder}/theirs{count}")
        print(f"reads: of {source}, {len(nodes):,} nodes: init, rev-parse, log, ls, cat and checkout are as ostree has them")
    theirs(folder, "fsck")
    shutil.rmtree(folder)


def check_writes(room):
    """What ours commits is read by ostree."""
    folder = new_folder(room, "writes")
    script = b"""ostree-script 1
tree 0
folder / 0 0 755 ~
folder /bin 1 2 2755 ~
file /bin/su 0 0 4755 ~ =the%20program
folder /etc 0 0 755 ~
file /etc/shadow 0 42 640 ~ =secret%0a
file /etc/void 9 9 0 ~ =
link /lib 3 4 ~ usr/lib
folder /tmp 0 0 1777 ~
end
lane
commit os/main 0 first body 1700000000
end
"""
    sum_ = ours(folder, "run", text=script).split()[3]
    holds(theirs(folder, "rev-parse", "os/main").strip() == sum_, "rev-parse")
    theirs(folder, "fsck")
    shown = theirs(folder, "show", "os/main")
    holds("first" in shown and "body" in shown, "show")
    theirs(folder, "checkout", "-H", "os/main", "theirs")
    ours(folder, "checkout", "os/main", "ours")
    same_trees(f"{folder}/checkout/ours", f"{folder}/theirs", "checkout of a script's tree")
    again = theirs(folder, *COMMIT, "-b", "os/again", "--timestamp=@1700000000", "-s", "first", "-m", "body", "theirs").strip()
    holds(theirs(folder, "diff", "os/main", "os/again") == "", "diff")
    changed = script.replace(b"=secret%0a", b"=another").replace(b"file /etc/void 9 9 0 ~ =\n", b"file /etc/zero 9 9 0 ~ =\n")
    ours(folder, "run", text=changed)
    said = sorted(line.split() for line in theirs(folder, "diff", "os/main^", "os/main").splitlines())
    holds(said == [["A", "/etc/zero"], ["D", "/etc/void"], ["M", "/etc/shadow"]], f"diff of two trees of ours: {said}")
    holds(theirs(folder, "rev-parse", "os/again").strip() == again, "rev-parse of the other")
    for path, mode in (("bin/su", 0o104755), ("etc/void", 0o100000), ("tmp", 0o041777), ("bin", 0o042755)):
        holds(os.lstat(f"{folder}/checkout/ours/{path}").st_mode == mode, f"mode of {path}")
    holds(os.stat(f"{folder}/checkout/ours/bin/su").st_mtime == 0, "the time of a file")
    theirs(folder, "prune")
    theirs(folder, "fsck")
    print("writes: ostree shows, checks out, compares, prunes and checks what ours wrote")


def check_odd(room):
    """Nodes that are easily lost, through both tools and back."""
    folder = new_folder(room, "odd")
    init(folder)
    odd_tree(f"{folder}/source")
    theirs(folder, *COMMIT, "-b", "odd", "source")
    ours(folder, "checkout", "odd", "out")
    same_trees(f"{folder}/checkout/out", f"{folder}/source", "odd nodes")
    holds(os.lstat(f"{folder}/checkout/out/set-user").st_mode == 0o104755, "mode 4755")
    holds(ours(folder, "cat", "odd", "/other") == "0 0 ok what%20other%20holds%0a\n", "cat")
    print("odd: set-id bits, mode 0, owners, links to nowhere and long names go through both")


def check_rounds(room, rounds=20):
    """Both tools commit to one branch in turn."""
    folder = new_folder(room, "rounds")
    init(folder)
    os.mkdir(f"{folder}/source")
    sums = []
    for count in range(rounds):
        with open(f"{folder}/source/file", "w", encoding="utf-8") as it:
            it.write(f"round {count}\n")
        if count % 2 == 0:
            sums.append(theirs(folder, *COMMIT, "-b", "main", "-s", f"r{count}", "source").strip())
        else:
            lines = f"ostree-script 1\ntree 0\nfolder / 0 0 755 ~\nfile /file 0 0 644 ~ =round%20{count}%0a\nend\nlane\ncommit main 0 r{count} ~ {1700000000 + count}\nend\n"
            sums.append(ours(folder, "run", text=lines.encode()).split()[3])
        holds(theirs(folder, "rev-parse", "main").strip() == sums[-1], f"round {count}: rev-parse of ostree")
        holds(ours(folder, "rev-parse", "main") == f"0 0 ok {sums[-1]}\n", f"round {count}: rev-parse of ours")
    log = [line.split()[0] for line in ours(folder, "log", "main").splitlines()[1:]]
    holds(log == sums[::-1], "log")
    theirs(folder, "fsck")
    print(f"rounds: {rounds} commits by both in turn, each the parent of the next")


def script_of(files, *commits):
    """A script with one tree of files, and commits of it."""
    nodes = [f"file /{name} 0 0 644 ~ ={text}" for name, text in sorted(files.items())]
    return "\n".join(["ostree-script 1", "tree 0", "folder / 0 0 755 ~", *nodes, "end", "lane", *commits, "end", ""]).encode()


def objects_in(folder):
    """The names of the objects that stand there."""
    found = set()
    for at, _, names in os.walk(f"{folder}/ostree/repo/objects"):
        found.update(f"{os.path.basename(at)}{name}" for name in names)
    return found


def check_prunes(room):
    """Ours and ostree leave the same objects of copies of one repository."""
    folder = new_folder(room, "prunes")
    init(folder)
    os.mkdir(f"{folder}/source")
    for count in range(12):
        branch = ("main", "side/other", "gone")[count % 3]
        if count < 6:
            files = {f"f{number}": f"{number % 5}.{count}" for number in range(20)}
            ours(folder, "run", text=script_of(files, f"commit {branch} 0 c{count} ~ {1700000000 + count}"))
        else:
            for number in range(20):
                with open(f"{folder}/source/f{number}", "w", encoding="utf-8") as it:
                    it.write(f"{number % 7}.{count}")
            theirs(folder, *COMMIT, "-b", branch, "source")
    ours(folder, "drop", "gone")
    before = objects_in(folder)
    for depth in (0, 1, 2, 9):
        one, two = f"{folder}/ours{depth}", f"{folder}/theirs{depth}"
        for place in (one, two):
            os.mkdir(place)
            ran(["cp", "-a", f"{folder}/ostree", place], folder)
        said = ours(one, "prune", str(depth)).split()
        theirs(two, "prune", "--refs-only", f"--depth={depth}")
        left = objects_in(one)
        holds(left == objects_in(two), f"prune {depth}: what is left: {sorted(left ^ objects_in(two))[:4]}")
        holds(said == ["0", "0", "ok", str(len(left)), str(len(before) - len(left))], f"prune {depth}: {said}")
        holds(len(left) < len(before), f"prune {depth}: nothing went")
        for place in (one, two):
            theirs(place, "fsck")
            ours(place, "init")
    print(f"prunes: of {len(before)} objects, ours leaves those that ostree leaves, at each of four depths, and fsck finds nothing")


def mixed(chance, folder, count):
    """A command, by its name, words and input."""
    branch = chance.choice(["main", "other", "side/one"])
    name = chance.choice(["commit", "commit", "commit", "reset", "drop", "checkout", "prune", "log", "ls"])
    if name == "commit":
        files = {f"f{number}": f"{chance.randrange(50)}.{number}" for number in range(chance.randrange(1, 40))}
        return name, ["run"], script_of(files, f"commit {branch} 0 c{count} ~ {1700000000 + count}")
    if name == "reset":
        commits = [it[:-7] for it in objects_in(folder) if it.endswith(".commit")] or ["0" * 64]
        return name, ["reset", branch, chance.choice(sorted(commits))], None
    words = {"drop": [branch], "checkout": [branch, f"c{count}"], "prune": [str(chance.randrange(3))], "log": [branch], "ls": [branch, "/"]}
    return name, [name, *words[name]], None


def run_or_kill(words, folder, text, moment):
    """Runs a command, and kills it at a moment, if one is given: its status."""
    child = subprocess.Popen([PROGRAM, *words], cwd=folder, stdin=subprocess.PIPE, stdout=subprocess.PIPE, stderr=subprocess.PIPE)
    if moment is None:
        said, _ = child.communicate(text)
        holds(child.returncode in (0, 1), f"{words}: status {child.returncode}: {said[-200:]!r}")
        return child.returncode
    try:
        child.stdin.write(text or b"")
        child.stdin.close()
    except BrokenPipeError:
        pass
    time.sleep(moment)
    child.send_signal(signal.SIGKILL)
    child.stdout.read()
    child.stderr.read()
    return child.wait()


def check_killed(room, count=1000, every=100):
    """Mixed commands, half of which are killed at random times: ostree finds nothing wrong."""
    folder = new_folder(room, "killed")
    init(folder)
    chance, seconds, statuses = random.Random(1), {}, {}
    for number in range(count):
        name, words, text = mixed(chance, folder, number)
        moment = chance.uniform(0, 1.2 * seconds[name]) if name in seconds and chance.random() < 0.5 else None
        begun = time.monotonic()
        status = run_or_kill(words, folder, text, moment)
        if status == 0 and moment is None:
            seconds[name] = time.monotonic() - begun
        statuses[status] = statuses.get(status, 0) + 1
        if number % every == every - 1:
            holds(ours(folder, "init") == "", "init")
            theirs(folder, "fsck")
            shown = {line.split()[0]: line.split()[1] for line in ours(folder, "refs").splitlines()[1:]}
            holds(shown == {name: theirs(folder, "rev-parse", name).strip() for name in theirs(folder, "refs").split()}, "refs")
            shutil.rmtree(f"{folder}/checkout", ignore_errors=True)
    killed, refused = statuses.get(-signal.SIGKILL, 0), statuses.get(1, 0)
    print(f"killed: of {count:,} commands {killed} were killed and {refused} refused; each {every} fsck found nothing, and both list the same refs")


def admin(folder, *words):
    return ran(["ostree", "admin", words[0], "--sysroot=.", *words[1:]], folder).decode()


def write(path, text):
    os.makedirs(os.path.dirname(path), exist_ok=True)
    with open(path, "w", encoding="utf-8") as it:
        it.write(text)


def bootable(top, count, kernel):
    """Makes a folder a tree that ostree deploys: a system's name, a kernel, and what that mounts first."""
    for path in ("usr/etc/os-release", "usr/lib/os-release"):
        write(f"{top}/{path}", f'ID=test\nVERSION_ID={count}\nPRETTY_NAME="Test {count}"\n')
    write(f"{top}/usr/lib/modules/6.1.0/vmlinuz", f"kernel {kernel}")
    write(f"{top}/usr/lib/modules/6.1.0/initramfs.img", f"initramfs {kernel}")


def new_sysroot(room, name):
    """A sysroot with two stateroots, and a tree of its own beside what ostree makes."""
    folder = new_folder(room, name)
    admin(folder, "init-fs", ".")
    for stateroot in ("one", "two"):
        admin(folder, "os-init", stateroot)
    os.mkdir(f"{folder}/source")
    return folder


def deploy(folder, count, kernel):
    """Commits a tree and deploys it in one of the two stateroots, in turn."""
    bootable(f"{folder}/source", count, kernel)
    theirs(folder, *COMMIT, "-b", "main", "source")
    admin(folder, "deploy", f"--os={('one', 'two')[count % 2]}", "--retain", f"--karg=count={count}", "main")


def take(folder):
    """Removes a folder with deployments in it, which ostree keeps from changes."""
    subprocess.run(["chattr", "-R", "-f", "-i", folder], capture_output=True, check=False)
    shutil.rmtree(folder)


def booted(folder):
    """All that stands where a boot loader and a deployment's start look."""
    told = {"status": admin(folder, "status")}
    for place in ("boot", "ostree/deploy", *sorted(it for it in os.listdir(f"{folder}/ostree") if it.startswith("boot."))):
        path = f"{folder}/{place}" if place == "boot" else f"{folder}/ostree/{place.removeprefix('ostree/')}"
        told[place] = os.readlink(path) if os.path.islink(path) else nodes_in(path)
    return told


def lists_alike(folder, what):
    """Ours lists the deployments that ostree lists, in the same order."""
    rows = re.findall(r"(?m)^[ *]*(one|two) ([0-9a-f]{64}\.[0-9]+)", admin(folder, "status"))
    listed = "".join(f"\n {place} {stateroot} {deployment} -" for place, (stateroot, deployment) in enumerate(rows))
    holds(ours(folder, "status") == f"0 0 ok {len(rows)}{listed}\n", f"status: {what}")


def check_deployments(room):
    """Ours opens what ostree deploys, lists it, and leaves all of it as it is."""
    folder = new_sysroot(room, "deployments")
    holds(ours(folder, "init") == "", "a sysroot without deployments")
    lists_alike(folder, "no deployments")
    for count in range(8):
        deploy(folder, count, count // 3)
        before = booted(folder)
        holds(ours(folder, "init") == "", f"{count + 1} deployments")
        lists_alike(folder, f"{count + 1} deployments")
        ours(folder, "run", text=script_of({"file": f"{count}"}, f"commit own 0 c{count} ~ {1700000000 + count}"))
        ours(folder, "checkout", "own", f"c{count}")
        ours(folder, "prune", "0")
        holds(booted(folder) == before, f"{count + 1} deployments: something of them was changed")
        theirs(folder, "fsck")
    deploy(folder, 8, 3)
    holds(ours(folder, "refs", status=8).startswith("fault open Damaged /boot/loader.") and admin(folder, "status"), "nine deployments")
    for count in range(9, 1, -1):
        admin(folder, "undeploy", str((count * 5) % count))
        lists_alike(folder, f"{count - 1} deployments after an undeploy")
    admin(folder, "cleanup")
    theirs(folder, "refs", "--delete", "main")
    ours(folder, "prune", "0")
    theirs(folder, "fsck")
    left = re.search("[0-9a-f]{64}", admin(folder, "status"))[0]
    theirs(folder, "checkout", "-U", left, "checked")
    take(folder)
    print("deployments: of lists of none to eight deployments ours opens each, lists it as ostree does, and changes nothing; a ninth is told; after a prune the last is whole")


def check_lists(room):
    """What is wrong in a list of deployments that ostree made, or in one of them, is told at its path."""
    folder = new_sysroot(room, "lists")
    for count in range(2):
        deploy(folder, count, 0)
    version = os.readlink(f"{folder}/boot/loader").removeprefix("loader.")
    entries = f"boot/loader.{version}/entries"
    first, second = sorted(os.listdir(f"{folder}/{entries}"))
    with open(f"{folder}/{entries}/{first}", encoding="utf-8") as it:
        link = re.search("ostree=/(.*)", it.read())[1]
    link = link.replace(f"boot.{version}", os.readlink(f"{folder}/ostree/boot.{version}"))
    deployment = os.path.normpath(os.path.join(os.path.dirname(link), os.readlink(f"{folder}/{link}")))
    with open(f"{folder}/{entries}/{first}", encoding="utf-8") as it:
        kernel = "boot" + re.search("(?m)^linux (.*)", it.read())[1].removeprefix("/boot")
    # so many folders of this name fit into the 2,048 bytes of a path
    name = "n" * 200
    fits, fits_here = ((2048 - len(f"/{at}")) // (len(name) + 1) for at in (f"{deployment}/etc", entries))
    rows = [
        ("ln -sfn loader.7 boot/loader", "/boot/loader BadLink"),
        ("rm boot/loader && touch boot/loader", "/boot/loader BadLink"),
        (f"rm ostree/boot.{version}", f"/ostree/boot.{version} BadLink"),
        (f"ln -sfn boot.{version}.7 ostree/boot.{version}", f"/ostree/boot.{version} BadLink"),
        (f"for n in 1 2 3 4 5 6 7; do cp {entries}/{first} {entries}/$n.conf; done", f"/{entries} TooMany 9"),
        (f"echo version 2 >>{entries}/{second}", f"/{entries}/{second} BadEntry BadLine 6"),
        (f"echo version 2 >>{entries}/{second} && echo title >{entries}/{first}", f"/{entries}/{first} BadEntry BadLine 1"),
        (f"echo title none >{entries}/{first}", f"/{entries}/{first} BadEntry NoOptions"),
        (f"echo options quiet >{entries}/{first}", f"/{entries}/{first} BadEntry NoOstree"),
        (f"ln -sfn elsewhere {link}", f"/{link} BadLink"),
        (f"rm {link}", f"/{entries}/{first} NoDeployment"),
        (f"chattr -f -i {deployment}; mv {deployment} gone", f"/{entries}/{first} NoDeployment"),
        (f"cp {entries}/{first} {entries}/z.conf", f"/{entries}/{first} NoDeployment"),
        (f"rm {deployment}/usr/lib/os-release", f"/{deployment}/usr/lib/os-release NotCheckout"),
        (f"cp -p {deployment}/usr/lib/os-release new && mv new {deployment}/usr/lib/os-release", f"/{deployment}/usr/lib/os-release NotCheckout"),
        (f"touch {deployment}/usr/new", f"/{deployment}/usr/new NotCheckout"),
        (f"chmod 700 {deployment}/usr/lib", f"/{deployment}/usr/lib NotCheckout"),
        (f"rm -r {deployment}/etc && touch {deployment}/etc", f"/{deployment}/etc WrongKind"),
        (f"cd {deployment}/etc && for i in $(seq {fits + 1}); do mkdir {name} && cd {name} || exit; done", f"/{deployment}/etc{('/' + name) * fits} WrongKind"),
        (f"cd {entries} && for i in $(seq {fits_here + 1}); do mkdir {name} && cd {name} || exit; done", f"/{entries}{('/' + name) * fits_here} WrongKind"),
        (f"cp -p {kernel} new && echo >>new && mv new {kernel}", f"/{kernel} KernelCopy"),
        (f"rm {kernel}", f"/{kernel} KernelCopy"),
    ]
    for change, fault in rows:
        place = f"{folder}/changed"
        os.mkdir(place)
        ran(["cp", "-a", f"{folder}/boot", f"{folder}/ostree", place], folder)
        ran(["sh", "-c", change], place)
        said = ours(place, "refs", status=8)
        holds(said == f"fault open Damaged {fault}\n", f"{change}: {said}")
        take(place)
    take(folder)
    print(f"lists: each of {len(rows)} faults in a list that ostree made, or in a deployment of it, is told at its path")


def check_unlisted(room):
    """Ours removes a deployment that the list doesn't name, but not while there is no list, or one is staged."""
    folder = new_sysroot(room, "unlisted")
    deploy(folder, 0, 0)
    deploy(folder, 1, 0)
    before = booted(folder)
    place = next(os.path.join(folder, "ostree/deploy", it, "deploy") for it in sorted(os.listdir(f"{folder}/ostree/deploy")))
    one = next(it for it in sorted(os.listdir(place)) if not it.endswith(".origin"))
    left = os.path.join(place, one.partition(".")[0] + ".77")
    shutil.copytree(os.path.join(place, one), left, symlinks=True)
    write(left + ".origin", "[origin]\n")
    record = f"{folder}/run/ostree/staged-deployment"
    write(record, "")
    holds(ours(folder, "refs", status=4) == "fault open Disk\n" and os.path.isdir(left), "one is staged")
    os.remove(record)
    loader = f"{folder}/boot/loader"
    os.rename(loader, loader + ".away")
    holds(ours(folder, "cleanup") == "0 0 ok\n", "a cleanup without a list")
    holds(os.path.isdir(left) and os.path.isdir(os.path.join(place, one)), "nothing selects a list")
    os.rename(loader + ".away", loader)
    holds(ours(folder, "cleanup") == "0 0 ok\n", "a cleanup")
    holds(not os.path.lexists(left) and not os.path.lexists(left + ".origin"), "it is left")
    holds(booted(folder) == before, "something of the listed ones was changed")
    take(folder)
    print("unlisted: ours removes a deployment that the list doesn't name and leaves the others; it removes none without a list, nor while one is staged")


def this_machine(top):
    """A tree of this machine's programs and libraries."""
    for name in ("bin", "sbin", "lib", "lib32", "lib64", "libx32"):
        if os.path.islink(f"/{name}"):
            os.symlink(os.readlink(f"/{name}"), f"{top}/{name}")
        elif os.path.isdir(f"/{name}"):
            ran(["cp", "-a", f"/{name}", top], "/")
    for name in ("usr/bin", "usr/sbin", "usr/lib64", "usr/lib/x86_64-linux-gnu"):
        if os.path.isdir(f"/{name}"):
            os.makedirs(os.path.dirname(f"{top}/{name}"), exist_ok=True)
            ran(["cp", "-a", f"/{name}", f"{top}/{name}"], "/")
    os.mkdir(f"{top}/etc")


def bootstrapped(top):
    """Debian's packages in a folder, or what this machine has: which of them."""
    if shutil.which("debootstrap"):
        suite = platform.freedesktop_os_release().get("VERSION_CODENAME", "stable")
        made = subprocess.run(["debootstrap", "--variant=minbase", suite, top], capture_output=True, check=False)
        if made.returncode == 0:
            return f"Debian's packages ({suite})"
        shutil.rmtree(top, ignore_errors=True)
    os.makedirs(top)
    this_machine(top)
    return "this machine's programs"


def check_system(room):
    """Programs run in a checkout of a whole system."""
    folder = new_folder(room, "system")
    init(folder)
    what = bootstrapped(f"{folder}/source")
    # ostree has no devices, FIFOs and sockets.
    ran(["find", "source", "!", "-type", "f", "!", "-type", "d", "!", "-type", "l", "-delete"], folder)
    theirs(folder, *COMMIT, "-b", "debian", "source")
    ours(folder, "checkout", "debian", "root")
    same_trees(f"{folder}/checkout/root", f"{folder}/source", "the system")
    ran(["chroot", "checkout/root", "/bin/true"], folder)
    holds(ran(["chroot", "checkout/root", "/bin/sh", "-c", "echo $((6 * 7))"], folder) == b"42\n", "chroot to a shell")
    print(f"system: /bin/true and /bin/sh run in a checkout of {what}, {len(nodes_in(folder + '/source')):,} nodes")
    shutil.rmtree(folder)


def check_lock(room):
    """Where another holds the repository's lock, ours is refused, and makes that lock itself where there is none."""
    folder = new_folder(room, "lock")
    init(folder)
    lock = f"{folder}/ostree/repo/.lock"
    holds(ours(folder, "refs") == "0 0 ok 0\n", "refs")
    with open(lock, "r+b") as it:
        fcntl.flock(it, fcntl.LOCK_EX)
        holds(ours(folder, "refs", status=4) == "fault open Disk\n", "refs under the lock")
    os.remove(lock)
    holds(ours(folder, "refs") == "0 0 ok 0\n", "refs after it")
    holds(stat.S_ISREG(os.lstat(lock).st_mode), "the lock is there again")
    os.remove(lock)
    os.symlink("elsewhere", lock)
    holds(ours(folder, "refs", status=4) == "fault open Disk\n", "refs where the lock is a link")
    holds(not os.path.lexists(f"{folder}/ostree/repo/elsewhere"), "nothing behind the link")
    print("lock: ours is refused while another holds the lock, and follows no link to it")


CHECKS = {
    "reads": check_reads,
    "writes": check_writes,
    "odd": check_odd,
    "rounds": check_rounds,
    "prunes": check_prunes,
    "killed": check_killed,
    "deployments": check_deployments,
    "lists": check_lists,
    "unlisted": check_unlisted,
    "system": check_system,
    "lock": check_lock,
}


def main():
    words = sys.argv[1:] or list(CHECKS)
    if not set(words) <= CHECKS.keys():
        sys.exit(__doc__)
    if os.geteuid() != 0 or not shutil.which("ostree") or not os.path.exists(PROGRAM):
        sys.exit("It needs root, ostree, and the program.")
    room = tempfile.mkdtemp(prefix="native-")
    wrong = 0
    for word in words:
        try:
            CHECKS[word](room)
        except Fault as fault:
            wrong += 1
            print(f"{word}: {fault}")
    if not wrong:
        shutil.rmtree(room)
    sys.exit(1 if wrong else 0)


main()
