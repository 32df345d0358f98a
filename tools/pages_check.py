#!/usr/bin/env python3
"""Checks the pages of docs/proofs against the crates, and the links of all pages.

usage: tools/pages_check.py

Prints a line for each of these, and ends with status 1 where there is one: a link or an anchor that leads nowhere; a sentence of more than 40
words on a page of docs/proofs; an edit that must fail and isn't on its crate's page, or the other way round, where those that the gate doesn't
try are told behind a line of their own; a name in backquotes of a page's tables that no source file, definition or proof of the repository
has; a file of the table in docs/crates.md that isn't there.
"""
import glob
import os
import re
import sys

TOP = os.path.dirname(os.path.dirname(os.path.abspath(__file__)))
PROOFS = f"{TOP}/docs/proofs"
EDITS = "## Edits that must fail"
# Behind this line a page tells edits that were refused once, and are none of the gate.
UNTRIED = "not tried by each gate"
MOST_WORDS = 40


def text_of(path):
    with open(path, encoding="utf-8") as it:
        return it.read()


def lines_of(path):
    return list(enumerate(text_of(path).splitlines(), 1))


def pages():
    return [f"{TOP}/README.md"] + sorted(glob.glob(f"{TOP}/docs/**/*.md", recursive=True))


def anchors_of(path):
    heads = re.findall(r"^#+ (.*)$", text_of(path), re.M)
    return {re.sub(r"[^\w\- ]", "", head.strip().lower()).replace(" ", "-") for head in heads}


def dead_links(page):
    for number, line in lines_of(page):
        for link in re.findall(r"\]\(([^)\s]+)\)", line):
            path, _, anchor = link.partition("#")
            there = os.path.normpath(os.path.join(os.path.dirname(page), path)) if path else page
            if link.startswith("http"):
                continue
            if not os.path.exists(there):
                yield number, f"no such file: {link}"
            elif anchor and there.endswith(".md") and anchor not in anchors_of(there):
                yield number, f"no such heading: {link}"


def sentences_of(line):
    """The sentences of a line, or of each cell of a table's row; what stands in backquotes counts as a word."""
    for cell in re.split(r"(?<!\\)\|", line) if line.startswith("|") else [line]:
        plain = re.sub(r"\]\([^)]*\)", "]", re.sub(r"`[^`]*`", "X", cell))
        yield from re.split(r"(?<=[.:?!])\s+", plain)


def long_sentences(page):
    for number, line in lines_of(page):
        for sentence in sentences_of(line):
            if len(sentence.split()) > MOST_WORDS:
                yield number, f"{len(sentence.split())} words: {sentence.strip()[:60]} .."


def sources():
    for kind in ("src/**/*.rt", "specs/*.antt", "proofs/*.antt", "must-fail/*.edit"):
        yield from glob.glob(f"{TOP}/crates/*/{kind}", recursive=True)


def known_names():
    names = set(os.listdir(f"{TOP}/crates"))
    for path in sources():
        names.add(os.path.basename(path).rsplit(".", 1)[0])
        names.update(re.findall(r"[A-Za-z_]\w*", text_of(path)))
    return names


def unknown_names(page, known):
    for number, line in lines_of(page):
        if not line.startswith("|"):
            continue
        for name in re.findall(r"`([A-Za-z_][\w:]*)`", line):
            for part in name.split("::"):
                if part and part not in known:
                    yield number, f"no such name: {part}"


def wrong_edits(crate):
    there = {os.path.basename(path)[:-5] for path in glob.glob(f"{TOP}/crates/{crate}/must-fail/*.edit")}
    _, _, behind = text_of(f"{PROOFS}/{crate}.md").partition(EDITS)
    tried, _, untried = behind.partition(UNTRIED)
    told = edits_in(tried)
    for edit in sorted(there ^ told):
        yield 0, f"an edit that isn't {'told' if edit in there else 'there'}: {edit}"
    for edit in sorted((there | told) & edits_in(untried)):
        yield 0, f"an edit that is tried, and told as untried: {edit}"


def edits_in(text):
    return set(re.findall(r"^- `([\w-]+)`:", text, re.M))


def missing_files():
    page = f"{TOP}/docs/crates.md"
    for number, line in lines_of(page):
        crate = re.match(r"\| `(\w+)` \|", line)
        for path in re.findall(r"`((?:src|specs|proofs|data)/[^`]+)`", line) if crate else []:
            if not os.path.exists(f"{TOP}/crates/{crate[1]}/{path}"):
                yield page, number, f"no such file: {crate[1]}/{path}"


def findings():
    known = known_names()
    yield from missing_files()
    for page in pages():
        yield from ((page, *found) for found in dead_links(page))
    for page in sorted(glob.glob(f"{PROOFS}/*.md")):
        crate = os.path.basename(page)[:-3]
        yield from ((page, *found) for found in long_sentences(page))
        yield from ((page, *found) for found in unknown_names(page, known))
        if os.path.isdir(f"{TOP}/crates/{crate}"):
            yield from ((page, *found) for found in wrong_edits(crate))


def main():
    found = list(findings())
    for page, number, what in found:
        print(f"{os.path.relpath(page, TOP)}:{number}: {what}")
    sys.exit(1 if found else 0)


main()
