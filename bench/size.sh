#!/bin/sh
# The code size of an archive in bytes: its .text and .rodata sections, in all and by function.
# Usage: size.sh ARCHIVE
set -eu
archive=${1:?usage: size.sh ARCHIVE}

size -A "$archive" | awk '
    $1 ~ /^\.text/ { text += $2 }
    $1 ~ /^\.rodata/ { data += $2 }
    END {
        print "| Section | Bytes |"
        print "|---|---|"
        print "| code (.text) | " text " |"
        print "| constants (.rodata) | " data " |"
        print "| both | " text + data " |"
    }'
echo
size -A "$archive" | sort -k2,2nr | awk '
    BEGIN { print "| Function | Bytes |"; print "|---|---|" }
    $1 ~ /^\.text\./ { print "| " substr($1, 7) " | " $2 " |" }'
