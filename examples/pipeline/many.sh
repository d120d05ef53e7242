#!/bin/sh
# Answers many files of questions about one folder of configurations side by side, on this machine or on several.
#   MW=/path/to/mw many.sh FOLDER QUESTIONS...
#   many.sh --summary QUESTIONS...   prints the lines alone, after others have written the verdicts, as array.sh does
# The verdicts of each file stand beside it in QUESTIONS.verdicts; one line for each, in the order of the words, is
# printed. Ends with 0 where every verdict of every file is holds, and else with 1.
# JOBS: how many at a time on a machine. MACHINES: a file of logins for GNU parallel; each machine has the same folders
# at the same paths, and the program. Where GNU parallel is not there, xargs runs them on this machine alone.
set -u
mw=${MW:-$(dirname -- "$0")/../../mw}
if [ -z "${MW-}" ] && [ ! -x "$mw" ]; then mw=mw; fi
if [ "${1-}" = --one ]; then
    questions=$3
    "$mw" verify "$questions" "$2" >"$questions.verdicts" 2>"$questions.said"
    echo "$?" >"$questions.status"
    exit 0
fi
# A line for each file of questions; ends with 1 where not every verdict is holds.
summarise() {
    failed=0
    for questions in "$@"; do
        status=$(cat "$questions.status" 2>/dev/null) || status='of no run'
        case $status in
        0) said="every question holds" ;;
        1) said="a question is broken" ;;
        2) said="a question is not answered" ;;
        4) said=$(head -n 1 "$questions.verdicts") ;;
        *) said="no verdict, status $status" ;;
        esac
        echo "$questions: $said"
        if [ "$status" != 0 ]; then failed=1; fi
    done
    exit "$failed"
}

if [ "${1-}" = --summary ]; then
    shift
    summarise "$@"
fi
if [ $# -lt 2 ]; then
    echo "usage: many.sh FOLDER QUESTIONS..." >&2
    exit 64
fi
folder=$1
shift
for questions in "$@"; do rm -f "$questions.status"; done

export MW="$mw" MW_EXPLAIN=1
if parallel --version 2>/dev/null | grep -q '^GNU parallel'; then
    printf '%s\0' "$@" | parallel --null --quote ${JOBS:+--jobs "$JOBS"} \
        ${MACHINES:+--sshloginfile "$MACHINES" --workdir "$PWD" --env MW --env MW_EXPLAIN} "$0" --one "$folder"
elif [ -n "${MACHINES-}" ]; then
    echo "many: GNU parallel is not on the path" >&2
    exit 69
else
    printf '%s\0' "$@" | xargs -0 -n 1 -P "${JOBS:-4}" "$0" --one "$folder"
fi

summarise "$@"
