#!/bin/sh
# Commits trees of many paths to a repository on the host, beside `ostree commit` of the same trees to one of its own: that both
# name the commit the same, and the time and the most memory of both, with their ratio.
# Needs rt, python3 and ostree (the Debian package). Works in a temporary folder (set TMPDIR for one on another disk); nothing is
# proved there of the program that measures. Words are given to commit.py.
set -e
here=$(cd "$(dirname "$0")" && pwd)
work=$(mktemp -d)
mkdir "$work/crates"
crates='ost_types gv_core ost_forms ost_objects fs_trait keyfile repo_layout repo_model staging obj_store tree_build commit_build host_files fs_host'
for crate in $crates; do
    cp -r "$here/../crates/$crate" "$work/crates/"
done
cd "$work"
: > crates.txt
rt new crates/commit_bench start_io > /dev/null
for crate in $crates; do
    grep "^$crate:" "$here/../crates.txt"
done > crates.txt
echo 'commit_bench: ost_types ost_forms fs_trait repo_layout tree_build commit_build fs_host hex' >> crates.txt
cd crates/commit_bench
rm -rf BUILD.bazel proofs specs stdin stdout src/*
cp "$here/commit.main.in" src/main.rt
rt run > /dev/null
python3 "$here/commit.py" "$work/crates/commit_bench/out/commit_bench" "$@"
rm -rf "$work"
