#!/bin/sh
# The crates of these names and all that they stand on, a line each: what a program of bench/ has to be built beside.
#   below.sh CRATE...
set -eu
top=$(cd -P -- "$(dirname -- "$0")/.." && pwd -P)
awk -F: -v names="$*" '/^[a-z]/ { below[$1] = $2 }
    END {
        count = split(names, queue, " ")
        for (i = 1; i <= count; i++) {
            if (queue[i] in seen || !(queue[i] in below)) continue
            seen[queue[i]] = 1
            print queue[i]
            more = split(below[queue[i]], next_names, " ")
            for (j = 1; j <= more; j++) queue[++count] = next_names[j]
        }
    }' "$top/crates.txt"
