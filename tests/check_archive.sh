#!/bin/sh
# The archive for C needs no name from outside, so that it links into a program without a C library too. Prints those that it needs.
set -eu
archive=$1
nm=${NM:-nm}
case $("$nm" -A "$archive") in # of what is no object nm says nothing, with status 0
*' T ali_read'*) ;;
*)
    echo "$archive: there is no ali_read in it"
    exit 1
    ;;
esac
listed=$("$nm" -u -A "$archive") # by -A a line begins with the archive's name, and none is a heading
[ -z "$listed" ] || { printf '%s\n' "$listed"; exit 1; }
