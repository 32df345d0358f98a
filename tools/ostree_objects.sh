#!/bin/sh
# Prints the objects that ostree (the Debian package) makes of a small tree: their names, and the bytes of its folders
# and their attributes. The sheets of forms_runner hold what it printed. Run it as root, in an empty folder.
set -e
mkdir -p tree/d
printf 'hello\n' > tree/hello
chmod 644 tree/hello
: > tree/empty
chmod 4755 tree/empty
ln -s usr/bin tree/link
chmod 755 tree tree/d
ostree --repo=repo init --mode=bare
ostree --repo=repo commit -b main --no-bindings --no-xattrs --owner-uid=0 --owner-gid=0 --timestamp=@1700000000 -s first tree
ostree --repo=repo ls -RC main
for object in repo/objects/*/*.dirtree repo/objects/*/*.dirmeta repo/objects/*/*.commit; do
    echo "$object"
    od -An -v -tx1 "$object" | tr -d ' \n'
    echo
done
