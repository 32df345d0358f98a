#!/usr/bin/python3
"""Makes the sheet crates/forms_runner/data/gvariant.rows with GLib, and compares GLib's verdict on damaged bytes with the sheet's.

Needs GLib's Python binding (Debian: python3-gi). Run: /usr/bin/python3 tools/gvariant_vectors.py > crates/forms_runner/data/gvariant.rows

Each row has a type string, bytes, and the value; or `ok` where the value isn't written out.
"""
import sys
from gi.repository import GLib


def rows(data):
    groups, i = [""], 0
    while i < len(data):
        j = i
        while j < len(data) and data[j] == data[i]:
            j += 1
        if j - i > 12:
            groups += ["%d:%02x" % (j - i, data[i]), ""]
        else:
            groups[-1] += "%02x" % data[i] * (j - i)
        i = j
    return "".join("%%{%s}" % g for g in groups if g) or "%{}"


def show(v):
    t = v.get_type_string()
    c = t[0]
    if c == "y":
        return "y%d" % v.get_byte()
    if c == "b":
        return "b%d" % v.get_boolean()
    if c in "nqiuxth":
        get = {"n": v.get_int16, "q": v.get_uint16, "i": v.get_int32, "u": v.get_uint32, "x": v.get_int64, "t": v.get_uint64, "h": v.get_handle}
        return "%s%d" % (c, get[c]())
    if c == "d":
        return "d" + (v.get_data_as_bytes().get_data() or b"").hex()
    if c in "sog":
        return "'%s'" % v.get_string()
    kids = [show(v.get_child_value(i)) for i in range(v.n_children())]
    if c == "a":
        return "[" + ",".join(kids) + "]"
    if c == "(":
        return "(" + ",".join(kids) + ")"
    if c == "{":
        return "{" + ":".join(kids) + "}"
    if c == "m":
        return "+" + kids[0] if kids else "-"
    if c == "v":
        return "<%s %s>" % (v.get_variant().get_type_string(), kids[0])
    raise ValueError(t)


def made(kind, text):
    v = GLib.Variant.parse(GLib.VariantType.new(kind), text, None, None)
    return v, bytes(v.get_data_as_bytes().get_data() or b"")


def normal(kind, data):
    # A copy at an address that is a multiple of 8, as the type may ask.
    v = GLib.Variant.new_from_bytes(GLib.VariantType.new(kind), GLib.Bytes.new(data), False)
    return v.is_normal_form()


GOOD = [
    ("y", "5"), ("b", "true"), ("b", "false"), ("n", "-2"), ("q", "513"), ("i", "-70000"), ("u", "4294967295"), ("x", "-5"),
    ("t", "18446744073709551615"), ("h", "7"), ("d", "1.5"), ("s", "'hi'"), ("s", "''"), ("s", "'\u00e9\u20ac'"), ("o", "'/a/b'"), ("g", "'a{sv}'"),
    ("ay", "[]"), ("ay", "[1,2,3]"), ("as", "[]"), ("as", "['a','','bcd']"), ("at", "[1,2]"), ("a()", "[(),()]"), ("aay", "[[1],[],[2,3]]"),
    ("a(yt)", "[(1,2),(3,4)]"), ("a(ys)", "[(1,'a'),(2,'')]"), ("aas", "[[],['x'],[]]"), ("av", "[<byte 1>,<'z'>]"),
    ("()", "()"), ("(yu)", "(1,2)"), ("(uy)", "(1,2)"), ("(ysu)", "(1,'abc',7)"), ("(sus)", "('a',1,'bc')"), ("(ayt)", "([1],2)"), ("(yv)", "(1,<uint64 2>)"),
    ("(sss)", "('a','b','c')"), ("((ys)y)", "((1,'q'),2)"), ("(s(ut))", "('n',(1,2))"), ("(asay)", "([],[])"),
    ("ms", "nothing"), ("ms", "just 'a'"), ("ms", "just ''"), ("my", "just 7"), ("mmy", "just nothing"), ("mmmy", "just just just 1"), ("mas", "just []"), ("m()", "just ()"),
    ("ams", "[nothing, just 'a', nothing]"), ("(msy)", "(nothing, 1)"),
    ("v", "<byte 5>"), ("v", "<'s'>"), ("v", "<<<uint32 1>>>"), ("v", "<()>"), ("v", "<@as []>"), ("v", "<{'k': <true>}>"),
    ("{sv}", "{'k', <true>}"), ("{yt}", "{1, 2}"), ("{ty}", "{1, 2}"), ("a{sv}", "{}"), ("a{sv}", "{'a': <'x'>, 'bb': <uint32 7>}"), ("a{us}", "{1: 'a', 2: ''}"),
    ("(a(say)a(sayay))", "([],[])"), ("(a(say)a(sayay))", "([('a',[1,2])],[('b',[3],[4])])"), ("(uuua(ayay))", "(1,2,3,[([1,2],[3])])"),
    ("(a{sv}aya(say)sstayay)", "({}, [], [], 'subj', 'body', 5, [1], [2])"), ("(a{sv}aya(say)sstayay)", "({'k': <'v'>}, [9], [('r',[8])], 's', 'b', 5, [1], [2])"),
]


def letters(kind, n):
    return kind, "'%s'" % ("a" * n) if kind == "s" else "['%s']" % ("a" * n)


SIZED = [("s", 254), ("s", 255), ("as", 253), ("as", 254), ("as", 65532), ("as", 65533), ("as", 65534)]

# Bytes, and whether they are a normal form by the table.
BYTES = [
    ("b", "02", False), ("y", "-", False), ("y", "0000", False), ("u", "000000", False), ("s", "-", False), ("s", "61", False), ("s", "610062", False),
    ("s", "61006200", False), ("s", "ff00", False), ("s", "c3a900", True), ("s", "eda08000", False),
    ("ay", "-", True), ("at", "0100", False), ("ab", "0102", False),
    ("as", "6100", False), ("as", "610002", True), ("as", "61000200", False), ("as", "6100620004", False), ("as", "61006200020402", False), ("as", "610062000402", False),
    ("as", "61000003", False), ("as", "610003", False), ("as", "61000200", False), ("as", "6100 0200".replace(" ", ""), False), ("as", "00", False),
    ("ms", "6100", False), ("ms", "610000", True), ("ms", "610001", False), ("my", "0700", False), ("mmy", "00", True), ("mmy", "0000", True), ("mmy", "000000", False),
    ("()", "-", False), ("()", "00", True), ("()", "01", False), ("()", "0000", False),
    ("(yu)", "0100000002000000", True), ("(yu)", "0100010002000000", False), ("(uy)", "0100000002000000", True), ("(uy)", "0100000002000001", False), ("(uy)", "0100000002", False),
    ("(sus)", "610000000100000062630002", True), ("(sus)", "610000000100000062630003", False), ("(sss)", "6100620063000402", True), ("(sss)", "6100620063000204", False),
    ("(sy)", "61000102", True), ("(sy)", "6100010200", False), ("(ys)", "016100", True), ("(ys)", "01610000", False),
    ("v", "050079", True), ("v", "0579", False), ("v", "050001", False), ("v", "0500", False), ("v", "05007979", False), ("v", "050000", False), ("v", "0079", False), ("v", "000076", False), ("v", "-", False),
    ("{ys}", "016100", True), ("{sy}", "61000502", True), ("{sy}", "61000503", False),
    ("(a(say)a(sayay))", "01", False), ("(a(say)a(sayay))", "00", True),
]

# GLib refuses these: the text isn't a path, or isn't a type string. Here each is a text like any other.
TEXTS = [("o", "6100", "'a'"), ("g", "7b00", "'{'")]

print("# Values and bytes that GLib made; tools/gvariant_vectors.py writes this sheet.")
print()
print("[as GLib does]")
for kind, text in GOOD:
    v, data = made(kind, text)
    assert v.is_normal_form()
    print("value %s %s = %s" % (kind, rows(data), show(v)))
for kind, n in SIZED:
    v, data = made(*letters(kind, n))
    assert v.is_normal_form()
    print("reads %s %s = ok" % (kind, rows(data)))
for kind, digits, good in BYTES:
    data = b"" if digits == "-" else bytes.fromhex(digits)
    if normal(kind, data) != good:
        print("GLib differs: %s %s: %s" % (kind, digits, normal(kind, data)), file=sys.stderr)
    shown = "not_normal"
    if good:
        v = GLib.Variant.new_from_bytes(GLib.VariantType.new(kind), GLib.Bytes.new(data), False)
        shown = show(v)
    print("value %s %s = %s" % (kind, rows(data), shown))
for kind, digits, shown in TEXTS:
    data = bytes.fromhex(digits)
    assert not normal(kind, data)
    print("value %s %s = %s" % (kind, rows(data), shown))
