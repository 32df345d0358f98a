#!/usr/bin/env python3
"""Prints rows for crates/merge_runner: three trees of a few paths drawn by a fixed seed, and their merge by the rule of four cases, written here a second time and path by path.

usage: merge_rows.py [COUNT] > crates/merge_runner/data/drawn.rows
"""
import random
import sys

PATHS = ["/a", "/a/b", "/a/b/c", "/a/d", "/e", "/e/f", "/g"]


def parent(path):
    return path[: path.rindex("/")] or "/"


def above(path):
    while path != "/":
        path = parent(path)
        yield path


def drawn(draw):
    tree = {"/": draw.choice("FFFG")}
    for path in draw.sample(PATHS, draw.randint(0, 4)):
        for folder in reversed(list(above(path))):
            tree.setdefault(folder, draw.choice("FFG"))
        tree.setdefault(path, draw.choice("FGxyz"))
    return {path: node for path, node in tree.items() if all(tree.get(it, "") in "FG" and it in tree for it in above(path))}


def is_folder(node):
    return node in ("F", "G")


def merged(base, current, new):
    every = sorted(set(base) | set(current) | set(new), key=lambda it: it.split("/") if it != "/" else [""])
    kept = {it for it in every if it in current and current[it] != base.get(it)}

    def keeps_below(path):
        return any(path in above(it) for it in kept)

    def is_removed(path):
        return any(it in base and it not in current for it in [path, *above(path)])

    result = {}
    for path in every:
        if path in kept:
            if path in new and is_folder(current[path]) != is_folder(new[path]):
                return path
        elif keeps_below(path) and path in new and not is_folder(new[path]):
            return path
        if path in kept:
            result[path] = current[path]
        elif is_removed(path):
            pass
        elif path not in new and keeps_below(path):
            result[path] = current[path]
        elif path in new:
            result[path] = new[path]
    return result


def shown(tree):
    return ",".join(f"{path}:{tree[path]}" for path in sorted(tree, key=lambda it: it.split("/") if it != "/" else [""]))


def main(count):
    draw = random.Random(14)
    rows = set()
    while len(rows) < count:
        base, current, new = drawn(draw), drawn(draw), drawn(draw)
        if draw.random() < 0.5:
            current = {**base, **{it: node for it, node in current.items() if draw.random() < 0.5}}
            current = {it: node for it, node in current.items() if all(current.get(folder) in ("F", "G") for folder in above(it))}
        result = merged(base, current, new)
        if isinstance(result, str):
            rows.add(f"merge {shown(base)} {shown(current)} {shown(new)} = conflict {result}")
            rows.add(f"conflict {shown(base)} {shown(current)} {shown(new)} = conflict {result}")
        else:
            rows.add(f"merge {shown(base)} {shown(current)} {shown(new)} = {shown(result)}")
            rows.add(f"conflict {shown(base)} {shown(current)} {shown(new)} = none")
    print("# Trees drawn by tools/merge_rows.py, which has the rule a second time.\n\n[drawn]")
    print("\n".join(sorted(rows)))


main(int(sys.argv[1]) if len(sys.argv) > 1 else 400)
