#!/usr/bin/env python3
"""Checks the sheets of crates/boot_runner by their rules, written here a second time: what a boot entry may be, how lists are numbered and kernels found, and what a swap leaves, over a dictionary of paths.

usage: boot_rows.py               prints each row that these rules answer otherwise, and ends with status 1 where there is one
       boot_rows.py --stdout      prints what a run is to print that finds each answer, for crates/boot_runner/stdout
       boot_rows.py --draw COUNT  prints drawn swaps, for crates/boot_runner/data/drawn.rows
"""
import hashlib
import os
import random
import re
import sys

DATA = f"{os.path.dirname(os.path.dirname(os.path.abspath(__file__)))}/crates/boot_runner/data"
SHEETS = [("entries", "entries"), ("deployments", "deployments"), ("swaps", "swaps"), ("drawn", "swaps"), ("lists", "swaps")]
FOLDER = ("folder",)


def bytes_of(text):
    """What a field or an answer stands for: `%hh`, `%{hhhh}`, `%{9:hhhh}`, and all else as it is."""
    def of(match):
        count, _, digits = (match[1] or "").rpartition(":")
        return bytes.fromhex(match[2] or digits).decode("latin-1") * int(count or 1)

    return re.sub(r"%(?:\{([^}]*)\}|([0-9a-f]{2}))", of, text.encode().decode("latin-1")).encode("latin-1")


def shown(data):
    return "".join(chr(it) if 32 <= it < 127 and it != 37 else f"%{it:02x}" for it in data)


# ---- boot entries

KEYS = (b"title", b"version", b"options", b"linux", b"initrd")


def is_text(value):
    try:
        return b"\0" not in value and value.decode("utf-8") is not None
    except UnicodeDecodeError:
        return False


def is_version(value):
    return re.fullmatch(rb"0|[1-9][0-9]*", value) is not None and int(value) < 2**32


def words_of(options):
    return [it for it in re.split(rb"[ \t]", options) if it]


def fits(key, value):
    return is_version(value) if key == b"version" else is_text(value)


def read_entry(data):
    """The values of the five keys, or the word of a fault."""
    *lines, rest = data.split(b"\n")
    found = {}
    for number, line in enumerate(lines, 1):
        if line == b"" or line.startswith(b"#"):
            continue
        setting = re.fullmatch(rb"([^ \t]+)[ \t]+([^ \t].*)", line, re.S)
        if not setting:
            return f"line {number}"
        key, value = setting.groups()
        if key in KEYS and (key in found or not fits(key, value)):
            return f"line {number}"
        if key in KEYS:
            found[key] = value
    if rest:
        return f"line {len(lines) + 1}"
    if b"options" not in found:
        return "no_options"
    return found if len(named(found)) == 1 else "no_ostree"


def named(found):
    return [it[7:] for it in words_of(found[b"options"]) if it.startswith(b"ostree=")]


def version_of(found):
    return int(found.get(b"version", b"0"))


def told_entry(found):
    parts = [found.get(b"title", b""), found[b"options"], found.get(b"linux", b""), found.get(b"initrd", b"none")]
    return b"|".join([b"%d" % version_of(found), *parts])


def written(found):
    if b"title" not in found or b"linux" not in found:
        return b"none"
    return b"".join(key + b" " + value + b"\n" for key, value in ((it, {b"version": b"0", **found}.get(it)) for it in KEYS) if value is not None)


def of_entry(name, fields):
    if name == "entry":
        loader, index, members = fields.split(" ")
        return entry_text(int(loader), items_of(members), int(index))
    if name == "place":
        index, members = fields.split(" ")
        return b"%d" % number_of(items_of(members), int(index))
    found = read_entry(bytes_of(fields))
    if isinstance(found, str):
        return found.encode()
    return {"reads": b"ok", "read": told_entry(found), "written": written(found), "leads": named(found)[0]}[name]


# ---- lists

class Item:
    def __init__(self, member):
        self.stateroot, named, self.version, files, *self.words = member.split(":")
        self.short, self.serial = named.split(".")
        self.folder = f"/ostree/deploy/{self.stateroot}/deploy/{self.short * 32}.{self.serial}"
        kernel, plus, initramfs = files.partition("+")
        self.has_initramfs = plus == "+"
        self.sum = kernel_sum(kernel.encode(), initramfs.encode())

    def told(self):
        return ":".join([self.stateroot, f"{self.short}.{self.serial}", *self.words])


def kernel_sum(kernel, initramfs):
    return hashlib.sha256(len(kernel).to_bytes(8, "big") + kernel + initramfs).hexdigest()


def items_of(members):
    return [] if members == "-" else [Item(it) for it in members.split(",")]


def number_of(items, index):
    one = items[index]
    return sum((it.stateroot, it.sum) == (one.stateroot, one.sum) for it in items[:index])


def entry_text(loader, items, index):
    one = items[index]
    kernels = f"/ostree/{one.stateroot}-{one.sum}"
    options = [*one.words, f"ostree=/ostree/boot.{loader}/{one.stateroot}/{one.sum}/{number_of(items, index)}"]
    lines = [f"title {one.stateroot} (ostree:{index})", f"version {len(items) - index}", f"options {' '.join(options)}", f"linux {kernels}/vmlinuz-{one.version}"]
    if one.has_initramfs:
        lines.append(f"initrd {kernels}/initramfs-{one.version}.img")
    return "".join(it + "\n" for it in lines).encode()


# ---- deployments

def kernel_of(paths):
    paths = [bytes_of(it).decode() for it in paths.split(" ")]
    leaves = [it for it in paths if not it.endswith("/")]
    if "/etc" in leaves or "/etc/" in paths:
        return "etc_in_tree"
    if "/usr/etc/" not in paths:
        return "no_defaults"
    kernels = [it[1] for it in (re.fullmatch(r"/usr/lib/modules/([A-Za-z0-9_.+~-]{1,241})/vmlinuz", it) for it in leaves) if it]
    return kernels[0] if len(kernels) == 1 else "two_kernels" if kernels else "no_kernel"


def ids_of(members):
    return [] if members == "-" else [tuple(re.split("[:.]", it)) for it in members.split(",")]


def serial_for(members, stateroot, commit):
    taken = {int(it[2]) for it in ids_of(members) if it[:2] == (stateroot, commit)}
    return next(it for it in range(len(taken) + 1) if it not in taken)


def places_kept(members, stateroot, used):
    ids = ids_of(members)
    source = next((at for at, it in enumerate(ids) if it[0] == stateroot), None)
    return [at for at, it in enumerate(ids) if it[0] != stateroot or it in ids_of(used) or at == source]


def of_deployments(name, fields):
    if name == "kernel":
        return kernel_of(fields).encode()
    fields = fields.split(" ")
    if name == "serial":
        return b"%d" % serial_for(*fields)
    if name == "kept":
        return b" ".join([b"places", *(b"%d" % it for it in places_kept(*fields))])
    return kernel_sum(*map(bytes_of, fields)).encode()


# ---- swaps

class Disk:
    """What stands at each path: a folder, a file with its bytes, or a link with its target."""

    def __init__(self):
        self.nodes = {it: FOLDER for it in ("/boot", "/boot/ostree", "/ostree", "/ostree/deploy")}

    def names(self, folder):
        return sorted(it.rpartition("/")[2] for it in self.nodes if it.rpartition("/")[0] == folder)

    def clear(self, path):
        self.nodes = {it: node for it, node in self.nodes.items() if it != path and not it.startswith(path + "/")}

    def link(self, path):
        kind, *rest = self.nodes.get(path, ("none",))
        return rest[0] if kind == "link" else None

    def make(self, path, *node):
        above = path.rpartition("/")[0]
        if above:
            self.nodes.setdefault(above, FOLDER)
        self.nodes[path] = node

    def entries(self, loader):
        folder = f"/boot/loader.{loader}/entries"
        nodes = {it: self.nodes[f"{folder}/{it}"] for it in self.names(folder) if it.endswith(".conf")}
        return [node[1] for node in nodes.values() if node[0] == "file"]

    def deploy(self, items):
        for it in items:
            self.make(f"/ostree/deploy/{it.stateroot}", *FOLDER)
            self.make(it.folder, *FOLDER)

    def swap(self, items):
        """Which version the boot loader's link selects, and which sub-version the link of that version names."""
        selected = self.link("/boot/loader")
        now = None if selected is None else int(selected[-1])
        is_sub = now is not None and sorted(self.entries(now)) == sorted(entry_text(now, items, at) for at in range(len(items)))
        version = now if is_sub else 0 if now is None else 1 - now
        if not is_sub:
            self.fill_entries(version, items)
        sub = 1 if self.link(f"/ostree/boot.{version}") == f"boot.{version}.0" else 0
        self.fill_links(f"/ostree/boot.{version}.{sub}", items)
        self.clear("/ostree/boot.tmp")
        self.make(f"/ostree/boot.{version}", "link", f"boot.{version}.{sub}")
        if not is_sub:
            self.clear("/boot/loader.tmp")
            self.make("/boot/loader", "link", f"loader.{version}")

    def fill_entries(self, version, items):
        self.clear(f"/boot/loader.{version}")
        self.make(f"/boot/loader.{version}/entries", *FOLDER)
        for at in range(len(items)):
            self.make(f"/boot/loader.{version}/entries/ostree-{len(items) - at}.conf", "file", entry_text(version, items, at))

    def fill_links(self, folder, items):
        self.clear(folder)
        self.make(folder, *FOLDER)
        for at, it in enumerate(items):
            self.make(f"{folder}/{it.stateroot}", *FOLDER)
            self.make(f"{folder}/{it.stateroot}/{it.sum}/{number_of(items, at)}", "link", f"../../..{it.folder[7:]}")

    def member(self, loader, found):
        """The deployment that an entry leads to, or None."""
        told = re.fullmatch(rb"/ostree/boot\.%d/([^/]+/[0-9a-f]{64}/\d+)" % loader, named(found)[0])
        sub = self.link(f"/ostree/boot.{loader}")
        target = told and sub and self.link(f"/ostree/{sub}/{told[1].decode()}")
        if not target or self.nodes.get(f"/ostree{target[8:]}") != FOLDER:
            return None
        stateroot, _, name = target[len("../../../deploy/") :].split("/")
        words = [it.decode() for it in words_of(found[b"options"]) if not it.startswith(b"ostree=")]
        return ":".join([stateroot, f"{name[:2]}.{name[65:]}", *words])

    def list(self):
        selected = self.link("/boot/loader")
        if selected is None:
            return "-"
        rows = []
        for text in self.entries(int(selected[-1])):
            found = read_entry(text)
            member = None if isinstance(found, str) else self.member(int(selected[-1]), found)
            if member is None:
                return "broken"
            rows.append((version_of(found), member))
        return ",".join(member for _, member in sorted(rows, reverse=True)) or "-"

    def read(self):
        """The rows of the list, or the first rule that doesn't hold, and where."""
        if "/boot/loader" not in self.nodes:
            return "-"
        loader = {"loader.0": 0, "loader.1": 1}.get(self.link("/boot/loader"))
        if loader is None:
            return "bad_link /boot/loader"
        sub = {f"boot.{loader}.{it}": it for it in (0, 1)}.get(self.link(f"/ostree/boot.{loader}"))
        if sub is None:
            return f"bad_link /ostree/boot.{loader}"
        folder = f"/boot/loader.{loader}/entries"
        nodes = {f"{folder}/{it}": self.nodes[f"{folder}/{it}"] for it in self.names(folder) if it.endswith(".conf")}
        files = {path: node[1] for path, node in nodes.items() if node[0] == "file"}
        if len(files) > 8:
            return f"too_many {folder}"
        texts = {}
        for path, data in files.items():
            if len(data) > 2**20:
                return f"too_long {path}"
            texts[path] = read_entry(data)
            if isinstance(texts[path], str):
                return f"unread {path} {texts[path]}"
        links = {path: link_of(loader, named(found)[0]) for path, found in texts.items()}
        led = {path: link and self.led(f"/ostree/boot.{loader}.{sub}/{'/'.join(link)}", link[0]) for path, link in links.items()}
        for path, member in led.items():
            if isinstance(member, str):
                return member
        rows = [(path, texts[path], links[path], led[path]) for path in led]
        for row in rows:
            if not self.is_own(row, [it for it in rows if it is not row]):
                return f"no_deployment {row[0]}"
        return ",".join(told_row(it) for it in sorted(rows, key=lambda it: -version_of(it[1]))) or "-"

    def led(self, path, stateroot):
        """The deployment of this stateroot that a link leads to, None where nothing stands there, or the word that something else does."""
        if path not in self.nodes:
            return None
        target = re.fullmatch(r"\.\./\.\./\.\./deploy/(.*)/deploy/([0-9a-f]{64})\.(0|[1-9][0-9]*)", self.link(path) or "")
        is_led = target is not None and target[1] == stateroot and int(target[3]) < 2**32
        return target.groups() if is_led else f"bad_link {path}"

    def is_own(self, row, others):
        _, found, _, member = row
        if member is None or self.nodes.get("/ostree/deploy/{}/deploy/{}.{}".format(*member)) != FOLDER:
            return False
        return all(it[3] != member and version_of(it[1]) != version_of(found) for it in others)

    def look(self, path):
        kind, *rest = self.nodes.get(path, ("none",))
        if kind == "folder":
            return " ".join(["names", *self.names(path)]).encode()
        return rest[0] if kind == "file" else f"to {rest[0]}".encode() if kind == "link" else b"none"

    def answer(self, name, fields):
        if name == "list":
            return self.list().encode()
        if name == "look":
            return self.look(fields)
        if name == "read":
            return self.read().encode()
        if name == "read_failing":
            return b"%d failed" % self.count_of_reads()
        if name in ("swap", "unsynced", "crashes", "failures"):
            return self.swapped(name, items_of(fields))
        self.change(name, *fields.split(" "))
        return b"ok"

    def swapped(self, name, items):
        """Each crash leaves the old list or the new one; after the last sync, the new one."""
        old, new = self.list(), ",".join(it.told() for it in items) or "-"
        self.deploy(items)
        if name != "failures":
            self.swap(items)
        if name == "swap":
            return b"ok"
        return f"{old} or {new}".encode() if name == "unsynced" else b"old new, new" if old != new else b"old, old"

    def count_of_reads(self):
        """Where the list is read: two links and the folder are looked at, and of each member the entry, the link and the deployment."""
        return 3 + 3 * len(self.entries(int(self.link("/boot/loader")[-1])))

    def change(self, name, path, *rest):
        if name == "new":
            self.__init__()
        elif name == "remove":
            del self.nodes[path]
        else:
            node = {"make_folder": lambda: FOLDER, "make_file": lambda data: ("file", data), "make_link": lambda data: ("link", data.decode())}[name]
            self.make(path, *node(*map(bytes_of, rest)))


def link_of(loader, word):
    """The stateroot, the sum and the number of the link that a word names through this version, if it names one."""
    name = rb"([A-Za-z0-9_-][A-Za-z0-9._-]{0,63})"
    told = re.fullmatch(rb"/ostree/boot\.%d/" % loader + name + rb"/([0-9a-f]{64})/(0|[1-9][0-9]*)", word)
    return tuple(it.decode() for it in told.groups()) if told and int(told[3]) < 2**32 else None


def told_row(row):
    path, found, (_, kernel, number), (stateroot, commit, serial) = row
    words = [it.decode() for it in words_of(found[b"options"]) if not it.startswith(b"ostree=")]
    return "|".join([path.rpartition("/")[2], str(version_of(found)), ":".join([stateroot, f"{commit[:2]}.{serial}", *words]), f"{kernel}/{number}"])


# ---- sheets

def answerer(kind):
    disk = Disk()
    return {"entries": of_entry, "deployments": of_deployments, "swaps": lambda name, fields: disk.answer(name, fields or "-")}[kind]


def lines_of(sheet):
    with open(f"{DATA}/{sheet}.rows", encoding="utf-8") as it:
        return [(number, line) for number, line in enumerate(it.read().splitlines(), 1) if line and not line.startswith("#")]


def calls_of(line):
    """The names and fields of a row's calls, and the answer of each."""
    calls, _, wanted = line.partition(" = ")
    for call in calls.split(";"):
        names, _, fields = call.removeprefix(" ").partition(" ")
        for name in names.split(","):
            yield name, fields, wanted


def differing(sheet, kind):
    answer = answerer(kind)
    for number, line in lines_of(sheet):
        if line.startswith("["):
            continue
        for name, fields, wanted in calls_of(line):
            found = answer(name, fields)
            if found != bytes_of(wanted):
                yield f"{sheet}.rows:{number}: {name}: by the rules {shown(found)}"


def printed(sheet, kind):
    """The sheet, and each of its parts with the number of its calls."""
    yield f"{sheet}.rows of {kind}"
    part, count = None, 0
    for _, line in [*lines_of(sheet), (0, "[]")]:
        if not line.startswith("["):
            count += len([*calls_of(line)])
            continue
        if part:
            yield f"{part}: {count}"
        part, count = line[1:-1], 0


def drawn_member(draw):
    files, words = draw.choice(["ab+c", "ab+c", "ab+c", "ab", "abc+c"]), draw.choice(["", ":rw", ":root=LABEL=r:rw"])
    return f"{draw.choice('xxy')}:{draw.choice(['11', '22'])}.{draw.randint(0, 3)}:{draw.choice(['6.1', '6.1', '6.2'])}:{files}{words}"


def drawn_list(draw, before):
    """Often the members before with other deployments, so that their entries stay."""
    count = draw.choice([0, 1, 1, 2, 2, 3, 3, 4, 8])
    members = [drawn_member(draw) for _ in range(count)]
    if before and draw.random() < 0.5:
        members = [re.sub(r":(\d\d)\.\d", lambda it: f":{draw.choice(['11', '22'])}.{draw.randint(0, 7)}", it, count=1) for it in before]
    ids = {tuple(it.split(":")[:2]) for it in members}
    return members if len(ids) == len(members) else drawn_list(draw, before)


def drawn(count):
    draw, disk, before = random.Random(28), Disk(), []
    print("# Swaps drawn by tools/boot_rows.py, which has their rules a second time.\n\n[drawn]\nnew = ok")
    for _ in range(count):
        before = drawn_list(draw, before)
        told = ",".join(before) or "-"
        disk.swapped("swap", items_of(told))
        version = disk.link("/boot/loader")[-1]
        print(f"swap {told} = ok")
        for path in [*paths_of(disk, items_of(told), version)]:
            print(f"look {path} = {shown(disk.look(path))}")
        print(f"list = {disk.list()}")
        print(f"read = {disk.read()}")


def paths_of(disk, items, version):
    """The links and folders of a version, and the entry and the link of the last member."""
    yield from ("/boot/loader", f"/ostree/boot.{version}", f"/boot/loader.{version}/entries")
    if items:
        at, last = len(items) - 1, items[-1]
        yield f"/boot/loader.{version}/entries/ostree-1.conf"
        yield f"/ostree/{disk.link(f'/ostree/boot.{version}')}/{last.stateroot}/{last.sum}/{number_of(items, at)}"


def main(words):
    if words[:1] == ["--draw"]:
        drawn(int(words[1]))
        return 0
    if words == ["--stdout"]:
        print("\n".join(line for sheet, kind in SHEETS for line in printed(sheet, kind)))
        return 0
    found = [it for sheet, kind in SHEETS for it in differing(sheet, kind)]
    print("\n".join(found) or "each row is by the rules")
    return 1 if found else 0


sys.exit(main(sys.argv[1:]))
