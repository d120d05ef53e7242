#!/bin/sh
# Runs a crate's program without proof, optimised, in the folder that this is called in, with these words; standard input
# and output and the exit status are the program's. The build is kept in the crate's out/ until a source of the
# checkout or the kit is newer. So a measurement or a random test of a crate wants no proof.
#   bench/optimised_try.sh CRATE_FOLDER [WORD...]
set -u
unset CDPATH
[ $# -ge 1 ] || { echo "usage: optimised_try.sh CRATE_FOLDER [WORD...]" >&2; exit 64; }
here=$(cd -P -- "$(dirname -- "$0")" && pwd -P) || exit 66
crate=$(cd -P -- "$1" && pwd -P) || exit 66
shift
program=$crate/out/optimised/$(basename "$crate")
mkdir -p "$crate/out/optimised" || exit 72
if [ ! -x "$program" ] || [ -n "$(find "$crate/.." -path '*/out' -prune -o -name '*.rt' -newer "$program" -print | head -n 1)" ]; then
    MW_NAME=optimised_try "$here/../tools/optimised_build.sh" "$crate" "$program" || exit
fi
exec "$program" "$@"
