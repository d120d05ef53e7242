#!/bin/sh
# Runs the program without optimisation with these words, and prints what it printed; but where the optimised one is made
# before it has ended, that runs in its place. So the first answer need not wait for the optimiser, nor a hard question for
# the slower program.
#   MW_FIRST=PROGRAM MW_FAST=PROGRAM first_run.sh WORD...
# The exit status is the program's.
set -u

work=$(mktemp -d) || exit 72
trap 'rm -rf "$work"' EXIT
if [ ! -x "$MW_FAST" ]; then
    "$MW_FIRST" "$@" >"$work/printed" 2>"$work/said" &
    runner=$!
    trap 'kill "$runner" 2>/dev/null; exit 130' INT HUP TERM
    while kill -0 "$runner" 2>/dev/null && [ ! -x "$MW_FAST" ]; do sleep 0.1; done
    if ! kill "$runner" 2>/dev/null; then
        wait "$runner"
        status=$?
        if [ "$status" -ne 127 ]; then
            cat "$work/said" >&2
            cat "$work/printed" || status=6
            exit "$status"
        fi
    fi
    wait "$runner" 2>/dev/null
fi
rm -rf "$work"
exec "$MW_FAST" "$@"
