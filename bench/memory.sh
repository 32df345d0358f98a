#!/bin/sh
# Times fs_memory: some 1,000, 10,000 and 100,000 changing calls, and 20 images of each run's moments; then an image of each
# moment of the runs of 1,000 and of 10,000.
# Needs rt. Works in a temporary folder; nothing is proved there of the program that measures.
set -e
here=$(cd "$(dirname "$0")" && pwd)
work=$(mktemp -d)
mkdir "$work/crates"
for crate in ost_types fs_trait places memory_table memory_record fs_memory; do
    cp -r "$here/../crates/$crate" "$work/crates/"
done
cd "$work"
: > crates.txt
rt new crates/memory_bench start_io > /dev/null
grep -E '^(ost_types|fs_trait|places|memory_table|memory_record|fs_memory):' "$here/../crates.txt" > crates.txt
echo 'memory_bench: ost_types fs_trait fs_memory' >> crates.txt
cd crates/memory_bench
rm -rf BUILD.bazel proofs specs stdin stdout src/*
cp "$here/memory.main.in" src/main.rt
rt run
rm -rf "$work"
