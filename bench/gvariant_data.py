#!/usr/bin/python3
"""Writes the files that bench/gvariant.sh reads."""


def width(n, m):
    return next(s for s in (1, 2, 4, 8) if n + m * s < 256**s)


def array(items):
    body = b"".join(items)
    s = width(len(body), len(items))
    at, ends = 0, []
    for item in items:
        at += len(item)
        ends.append(at.to_bytes(s, "little"))
    return body + b"".join(ends)


def pair(first, second):
    body = first + second
    s = width(len(body), 1)
    return body + len(first).to_bytes(s, "little")


rows = [pair(b"file-%08d\0" % i, bytes(32)) for i in range(100000)]
open("dirtree", "wb").write(pair(array(rows), b""))
open("strings", "wb").write(array([b"string %d\0" % i for i in range(1000000)]))
open("empty", "wb").write(array([b"\0"] * 1000000))
