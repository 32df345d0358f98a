#!/usr/bin/env python3
"""Tells what the gate costs: processor minutes of each crate's proofs, tests, edits and programs.

usage: tools/gate_times.py                   runs the gate from nothing in a fresh clone, and writes docs/gate.md
       tools/gate_times.py --part MINUTES    goes on with the gate's own steps, one after another, in build/gate, and begins none after that time
       tools/gate_times.py --watch MINUTES   runs nothing: counts the steps of the gate that others run on this machine
       tools/gate_times.py --table           writes docs/gate.md from what --part and --watch have kept

The first takes hours. --part takes as many calls as it needs: each goes on where the last one ended, at the commit at which the first began.
Only whole steps count, so a proof that was cut off is made anew. What they keep lies in build/gate; remove it to begin again. It needs Linux.
"""
import argparse
import collections
import importlib.machinery
import importlib.util
import json
import os
import re
import shutil
import subprocess
import sys
import tempfile
import time

TICKS = os.sysconf("SC_CLK_TCK")
KINDS = ("proofs", "tests", "edits", "programs")
TOP = os.path.dirname(os.path.dirname(os.path.abspath(__file__)))
ROOM = f"{TOP}/build/gate"
PAGE = f"{TOP}/docs/gate.md"
BEGIN, END = "<!-- by tools/gate_times.py -->\n", "<!-- end -->\n"


class Process:
    """A step of the gate: the crate, the kind of work, who began it, and the processor time that it and all that it began had taken when it was last seen."""

    def __init__(self, crate, kind, parent):
        self.crate, self.kind, self.parent, self.seconds = crate, kind, parent, 0.0


def read(path):
    with open(path, "rb") as it:
        return it.read()


def kind_of(words, folder):
    """Which step of the gate a command of the prover is; None where it is none, as a check over kept work."""
    if "/rt-edit-" in folder:
        return "edits"
    if "--test" in words:
        return "tests" if "build" in words[:3] and "--backend" in words else None
    if "--crate-checked" in words:
        return "programs"
    is_program = any("/rt-proved-" in word for word in words)
    return "proofs" if "--statements" in words or is_program else None


def look(pid, parent):
    """The process as a step of the gate, or None where it is none."""
    words = read(f"/proc/{pid}/cmdline").decode("utf-8", "replace").split("\0")
    names = [words[at + 1] for at, word in enumerate(words[:-1]) if word == "--crate-name"]
    if not names or not any(os.path.basename(word) == "rattle" for word in words[:8]):
        return None
    kind = kind_of(words, os.readlink(f"/proc/{pid}/cwd"))
    return Process(names[0], kind, parent) if kind else None


def stat(pid):
    """The parent of a process, its start, and the processor time of it and of its children that have ended."""
    fields = read(f"/proc/{pid}/stat").decode("utf-8", "replace").rpartition(")")[2].split()
    return fields[1], fields[19], sum(map(int, fields[11:15])) / TICKS


class Watch:
    """Adds up the processor time of all steps of the gate that are seen."""

    def __init__(self):
        self.known, self.running = {}, set()

    def step(self):
        alive = {}
        for pid in filter(str.isdigit, os.listdir("/proc")):
            try:
                alive[pid] = stat(pid)
                key = (pid, alive[pid][1])
                if key not in self.known:
                    self.known[key] = look(pid, alive[pid][0])
            except (FileNotFoundError, ProcessLookupError, PermissionError):
                continue
        taken = collections.Counter()
        for pid, (_, _, seconds) in alive.items():
            taken[self.began(pid, alive)] += seconds
        for key, seconds in taken.items():
            if key:
                self.known[key].seconds = max(seconds, self.known[key].seconds)
        self.running = {(self.known[key].crate, self.known[key].kind) for key in taken if key}

    def began(self, pid, alive):
        """The step of the gate to which a process belongs: the topmost one above it."""
        found = None
        while pid in alive:
            parent, started, _ = alive[pid]
            if self.known.get((pid, started)):
                found = (pid, started)
            pid = parent
        return found

    def seen(self):
        return [it for it in self.known.values() if it and it.seconds]


def longest(processes):
    """Processor minutes by crate and kind: of the tries of a step the longest one, since those that failed are shorter; all edits of one run."""
    runs = collections.Counter()
    for it in processes:
        runs[it.crate, it.kind, it.parent if it.kind == "edits" else id(it)] += it.seconds / 60
    found = {}
    for (crate, kind, _), minutes in runs.items():
        found[crate, kind] = max(minutes, found.get((crate, kind), 0.0))
    return found


def table(costs):
    """The rows of all crates, the dearest first, and their sum."""
    sums = collections.defaultdict(lambda: dict.fromkeys(KINDS, 0.0))
    for (crate, kind), minutes in costs.items():
        sums[crate][kind] += minutes
    rows = ["| Crate | " + " | ".join(KINDS) + " | all |", "|---|" + "---:|" * (len(KINDS) + 1)]
    for crate, its in sorted(sums.items(), key=lambda it: -sum(it[1].values())):
        rows.append(f"| `{crate}` | " + " | ".join(f"{its[kind]:.1f}" if its[kind] else "" for kind in KINDS) + f" | {sum(its.values()):.1f} |")
    whole = [sum(its[kind] for its in sums.values()) for kind in KINDS]
    rows.append("| all | " + " | ".join(f"{it:.0f}" for it in whole) + f" | {sum(whole):.0f} |")
    return "\n".join(rows) + "\n"


def machine():
    model = re.search(r"model name\s*: (.*)", read("/proc/cpuinfo").decode())
    memory = int(re.search(r"MemTotal: *(\d+)", read("/proc/meminfo").decode())[1]) // 1048576
    return f"{os.cpu_count()} processors ({model[1] if model else 'unknown'}), {memory} GiB, {output('rt', 'version')}"


def output(*words, folder=TOP):
    return subprocess.run(words, cwd=folder, check=True, capture_output=True, text=True).stdout.strip()


def write_page(head, costs):
    """Puts the table between the marks of docs/gate.md."""
    with open(PAGE, encoding="utf-8") as it:
        before, _, rest = it.read().partition(BEGIN)
    after = rest.partition(END)[2]
    with open(PAGE, "w", encoding="utf-8") as it:
        it.write(f"{before}{BEGIN}{head}\n\n{table(costs)}{END}{after}")


def whole_gate():
    """Runs the gate in a fresh clone: what it cost, its last line, and the minutes that it took."""
    watch = Watch()
    with tempfile.TemporaryDirectory(prefix="gate-") as room:
        subprocess.run(["git", "clone", "--quiet", TOP, f"{room}/clone"], check=True)
        begun = time.monotonic()
        with open(f"{room}/log", "w+", encoding="utf-8") as log:
            ran = subprocess.Popen(["rt", "ci"], cwd=f"{room}/clone", stdout=log, stderr=subprocess.STDOUT)
            while ran.poll() is None:
                watch.step()
                time.sleep(1)
            log.seek(0)
            last = ([""] + log.read().splitlines())[-1]
    return longest(watch.seen()), last, (time.monotonic() - begun) / 60


def keep(kept):
    """Adds records to what is kept."""
    os.makedirs(ROOM, exist_ok=True)
    with open(f"{ROOM}/times", "a", encoding="utf-8") as it:
        for record in kept:
            it.write(json.dumps(record) + "\n")


def kept():
    if not os.path.exists(f"{ROOM}/times"):
        return []
    with open(f"{ROOM}/times", encoding="utf-8") as it:
        return [json.loads(line) for line in it]


def watch_others(minutes):
    """Keeps, each minute, what was seen so far of each step that has ended."""
    watch, run = Watch(), f"{os.getpid()}-{int(time.time())}"
    end = time.monotonic() + 60 * minutes
    others = [it for it in kept() if it["run"] != run]
    while time.monotonic() < end:
        minute = min(end, time.monotonic() + 60)
        while time.monotonic() < minute:
            watch.step()
            time.sleep(2)
        os.makedirs(ROOM, exist_ok=True)
        ended = {key: cost for key, cost in longest(watch.seen()).items() if key not in watch.running}
        found = [{"run": run, "crate": crate, "kind": kind, "minutes": round(cost, 3)} for (crate, kind), cost in ended.items()]
        with open(f"{ROOM}/times.new", "w", encoding="utf-8") as it:
            it.writelines(json.dumps(record) + "\n" for record in others + found)
        os.replace(f"{ROOM}/times.new", f"{ROOM}/times")


def kit():
    """The command rt as a module: its steps are the gate's."""
    path = os.path.realpath(shutil.which("rt"))
    sys.dont_write_bytecode = True
    loader = importlib.machinery.SourceFileLoader("rt_command", path)
    made = importlib.util.module_from_spec(importlib.util.spec_from_loader("rt_command", loader))
    sys.modules["rt_command"] = made
    loader.exec_module(made)
    for name in (made.rtlib.ALLOW_C, made.rtlib.BACKEND, "RT_SECONDS"):
        os.environ.pop(name, None)
    made.rtlib.stop = made.stop
    made.rtlib.Crate = made.Crate
    made.Crate.cuts_libraries = True
    made.rtlib.guarded()
    return made


def steps_of(rt, crate):
    """The gate's steps for a crate, each a call that tells whether all is well."""

    def proof(tests):
        with open(f"{ROOM}/log", "a", errors="replace") as crate.out:
            os.makedirs(f"{crate.folder}/out", exist_ok=True)
            is_laid_out = tests or not rt.rtlib.fmt(crate.folder, "--check", crate.out)
            return is_laid_out and crate.ci(["--jobs", "1"], tests) == 0

    def runs():
        kinds = [False] * crate.is_program + [True] * bool(crate.has_tests())
        made = [(tests, end) for tests in kinds for end in rt.BACKENDS.values()]
        at = f"{crate.folder}/out/{crate.name}"
        return all(rt.run(crate, tests, end) for tests, end in made if os.path.isfile(f"{at}{'_tests' * tests}{end}"))

    good, bad = rt.edits_of(crate)
    steps = {"proofs": lambda: proof(False)}
    if crate.has_tests():
        steps["tests"] = lambda: proof(True)
    if good or bad:
        steps["edits"] = lambda: not bad and all(well for well, _ in rt.must_fail_all(crate, good, ["--jobs", "1"]))
    if crate.is_program or crate.has_tests():
        steps["programs"] = runs
    return steps


def measured(step):
    """Whether the step was well, and its processor minutes with those of all that it began: it runs in a process of its own."""
    sys.stdout.flush()
    pid = os.fork()
    if pid == 0:
        status = 1
        try:
            status = 0 if step() else 1
        except SystemExit:
            pass
        finally:
            sys.stdout.flush()
            os._exit(status)
    _, status, used = os.wait4(pid, 0)
    return status == 0, (used.ru_utime + used.ru_stime) / 60


def crates_of_clone():
    """The kit and the crates of the clone in build/gate, lowest first; the clone is made where there is none."""
    clone = f"{ROOM}/clone"
    if not os.path.isdir(clone):
        os.makedirs(ROOM, exist_ok=True)
        subprocess.run(["git", "clone", "--quiet", TOP, clone], check=True)
    os.chdir(clone)
    rt = kit()
    rt.Crate.allowed = rt.handles_of(clone)
    return rt, sorted(rt.rtlib.crates_below(clone), key=lambda it: len(it.below()))


def part(minutes):
    """Goes on with the gate in the clone, and tells how much is left."""
    end = time.monotonic() + 60 * minutes
    rt, crates = crates_of_clone()
    done = {(it["crate"], it["kind"]): it["well"] for it in kept() if it["run"] == "part"}
    left = 0
    for crate in crates:
        for kind, step in steps_of(rt, crate).items():
            needs = [(it.name, "proofs") for it in crate.below()]
            needs += [(crate.name, "proofs")] * (kind != "proofs")
            if (crate.name, kind) in done:
                continue
            if time.monotonic() >= end or not all(done.get(it) for it in needs):
                left += 1
                continue
            well, cost = measured(step)
            done[crate.name, kind] = well
            keep([{"run": "part", "crate": crate.name, "kind": kind, "minutes": round(cost, 3), "well": well}])
            print(f"{crate.name} {kind}: {cost:.1f} minutes{'' if well else ', and NOT as it must be: see build/gate/log'}", flush=True)
    print(f"{left} steps are left")


def crates_listed():
    with open(f"{TOP}/crates.txt", encoding="utf-8") as it:
        return {line.split(":")[0].split()[0] for line in it if ":" in line and not line.startswith("#")}


def write_table():
    """Of a step that --part has made, its record; of another one the dearest that --watch has seen."""
    seen, made, listed = {}, {}, crates_listed()
    for it in kept():
        key = it["crate"], it["kind"]
        if it["crate"] not in listed:
            continue
        if it["run"] == "part":
            made[key] = it["minutes"]
        else:
            seen[key] = max(it["minutes"], seen.get(key, 0.0))
    costs = {**seen, **made}
    lacking = sorted(listed - {crate for crate, kind in costs if kind == "proofs"})
    write_page(f"By parts, on {machine()}. Not measured: {', '.join(f'`{it}`' for it in lacking) or 'nothing'}.", costs)


def main():
    options = argparse.ArgumentParser(usage=__doc__.partition("\n\n")[2])
    options.add_argument("--part", type=float)
    options.add_argument("--watch", type=float)
    options.add_argument("--table", action="store_true")
    asked = options.parse_args()
    if asked.part is not None:
        part(asked.part)
    elif asked.watch is not None:
        watch_others(asked.watch)
    elif asked.table:
        write_table()
    else:
        costs, last, minutes = whole_gate()
        commit = output("git", "rev-parse", "--short", "HEAD")
        write_page(f"At {commit}, on {machine()}: {minutes:.0f} minutes, and the last line `{last}`.", costs)
        print(last)


if __name__ == "__main__":
    main()
