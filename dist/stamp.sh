#!/bin/sh
# dist/stamp.sh PROGRAM COPY DIGEST: copies a program that was built, and puts the digest of its sources where `--version` prints it. The
# program has room for it: a text of 64 characters.
room='no digest: this program was built without dist/stamp.sh ........'
[ ${#3} -eq 64 ] || { echo "stamp: $3 is no digest" >&2; exit 2; }
LC_ALL=C grep -qF "$room" "$1" || { echo "stamp: $1 has no room for a digest" >&2; exit 1; }
LC_ALL=C sed "s|$room|$3|" "$1" > "$2" && chmod +x "$2"
