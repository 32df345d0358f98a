#!/bin/sh
# Times gv_core and GLib on the same bytes: a dirtree of 100,000 files, a million strings, a million empty ones.
# Needs rt, python3, cc and GLib (Debian: libglib2.0-dev). Works in a temporary folder.
set -e
here=$(cd "$(dirname "$0")" && pwd)
work=$(mktemp -d)
mkdir "$work/crates"
cp -r "$here/../crates/gv_core" "$work/crates/"
cd "$work"
: > crates.txt
rt new crates/gvariant_bench start_io > /dev/null
printf 'gv_core: thiserror\ngvariant_bench: gv_core\n' > crates.txt
cd crates/gvariant_bench
rm -rf proofs specs stdin stdout src/*
cp "$here/gvariant.main.in" src/main.rt
python3 "$here/gvariant_data.py"
cc -O2 -o "$work/gvariant_glib" "$here/gvariant_glib.c" $(pkg-config --cflags --libs glib-2.0)
rt run
"$work/gvariant_glib" '(a(say)a(sayay))' dirtree
"$work/gvariant_glib" as strings
"$work/gvariant_glib" as empty
rm -rf "$work"
