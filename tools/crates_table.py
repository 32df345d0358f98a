#!/usr/bin/env python3
"""Writes the table of all crates in docs/crates.md: what each is, from the first sentence of its root file; what it stands on, from crates.txt; its page.

usage: tools/crates_table.py [--check]

--check writes nothing, and ends with status 1 where the table isn't the one that it would write.
"""
import os
import re
import sys

TOP = os.path.dirname(os.path.dirname(os.path.abspath(__file__)))
PAGE = f"{TOP}/docs/crates.md"
BEGIN, END = "<!-- by tools/crates_table.py -->\n", "<!-- end -->\n"


def text_of(path):
    with open(path, encoding="utf-8") as it:
        return it.read()


def crates():
    """Each crate with all that crates.txt lists for it, in its order."""
    lines = [line for line in text_of(f"{TOP}/crates.txt").splitlines() if ":" in line and not line.startswith("#")]
    return {line.split(":")[0].split()[0]: line.split(":")[1].split() for line in lines}


def below(name, known):
    """All crates that this one reaches, but for itself."""
    found, waiting = set(), list(known.get(name, []))
    while waiting:
        crate = waiting.pop()
        if crate not in found:
            found.add(crate)
            waiting += known.get(crate, [])
    return found


def stands_on(name, known):
    """Those that it lists and that no other one of them stands on."""
    listed = known[name]
    return [it for it in listed if not any(it in below(other, known) for other in listed if other != it)]


def first_sentence(name):
    root = next(path for path in (f"{TOP}/crates/{name}/src/lib.rt", f"{TOP}/crates/{name}/src/main.rt") if os.path.exists(path))
    lines = re.match(r"(?://!.*\n)*", text_of(root))[0].splitlines()
    words = " ".join(line[3:].strip() for line in lines)
    return re.split(r"(?<=\.)\s", words)[0].rstrip(".")


def page_of(name):
    """The page of the crate, or the one that has a heading with its name."""
    if os.path.exists(f"{TOP}/docs/proofs/{name}.md"):
        return f"{name}.md"
    if name.endswith("_check"):
        return "checks.md"
    for page in sorted(os.listdir(f"{TOP}/docs/proofs")):
        if re.search(rf"^#+ .*\b{name}\b", text_of(f"{TOP}/docs/proofs/{page}"), re.M):
            return page
    return None


def levels(known):
    """Lowest first: a crate stands behind all that it stands on."""
    return sorted(known, key=lambda it: (len(below(it, known)), it))


def table():
    known = crates()
    rows = ["| Crate | What it is | Stands on | Proved |", "|---|---|---|---|"]
    for name in levels(known):
        page = page_of(name)
        proved = f"[{page[:-3]}](proofs/{page})" if page else ""
        rows.append(f"| `{name}` | {first_sentence(name)} | {', '.join(f'`{it}`' for it in stands_on(name, known))} | {proved} |")
    return "\n".join(rows) + "\n"


def main(words):
    page = text_of(PAGE)
    front, _, rest = page.partition(BEGIN)
    _, _, behind = rest.partition(END)
    new = front + BEGIN + table() + END + behind
    if words == ["--check"]:
        sys.exit(new != page)
    with open(PAGE, "w", encoding="utf-8") as it:
        it.write(new)


main(sys.argv[1:])
