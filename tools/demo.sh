#!/bin/sh
# Runs the program in a fresh folder: two trees are committed under one ref and looked into, one is checked out, refs are set, listed and
# removed, and the objects of the first commit are pruned.
set -eu
cd "$(dirname "$0")/.."
program=$PWD/build/ostree_cli
rm -rf build/demo
mkdir -p build/demo
cd build/demo

ask() {
	echo "\$ ostree_cli $*"
	status=0
	"$program" "$@" || status=$?
	echo "(status $status)"
}
show() {
	echo "\$ $*"
	"$@"
}
ask init
cat >script <<'EOF'
ostree-script 1
tree 0
folder / 0 0 755 ~
folder /etc 0 0 755 ~
file /etc/motd 0 0 644 ~ =hello%0a
link /motd 0 0 ~ etc/motd
end
tree 1
folder / 0 0 755 ~
folder /etc 0 0 755 ~
file /etc/motd 0 0 644 ~ =hello%20again%0a
link /motd 0 0 ~ etc/motd
end
lane
commit os/stable 0 first ~ 1700000000
commit os/stable 1 second ~ 1700000060
rev-parse os/stable
end
EOF
cat script
ask run <script
ask refs
ask log os/stable
ask ls os/stable /
ask cat os/stable /etc/motd
ask cat os/stable /motd
ask checkout os/stable stable
ask checkout os/stable stable
show ls -lR checkout
show cat -v checkout/stable/etc/motd
commit=$("$program" rev-parse os/stable)
ask reset main "${commit##* }"
ask reset main/next "${commit##* }"
ask refs
ask drop main
ask prune 1
ask prune 0
ask log os/stable
ask rev-parse main
ask rev-parse
