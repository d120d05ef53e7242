#!/bin/sh
# The step of a job that checks a change: the questions beside a folder of configurations, in one run. The job fails
# where a question is broken or unknown, where a file is refused, and where anything else goes wrong.
#   MW=/path/to/mw check.sh QUESTIONS FOLDER
# With JUNIT=FILE the verdicts stand in that file too, in the form that CI shows as tests.
set -u
mw=${MW:-$(dirname -- "$0")/../../mw}
if [ -z "${MW-}" ] && [ ! -x "$mw" ]; then mw=mw; fi
if [ $# -ne 2 ]; then
    echo "usage: check.sh QUESTIONS FOLDER" >&2
    exit 64
fi
questions=$1
folder=$2
set -- "$folder"/*.cfg
if [ ! -e "$1" ]; then
    echo "check: $folder holds no configuration (*.cfg)" >&2
    exit 64
fi

MW_EXPLAIN=1 "$mw" ${JUNIT:+--junit "$JUNIT"} verify "$questions" "$folder"
status=$?
case $status in
0) said="every question holds" ;;
1) said="a question is broken: the counterexample stands below its name" ;;
2) said="no question is broken, but one is not answered" ;;
3) said="the words are no command: a name may begin with '-'" ;;
4) said="a file is refused, so nothing is said about this network" ;;
5) said="a file cannot be read, or was written to meanwhile" ;;
6) said="the verdicts cannot be written" ;;
7) said="memory is wanting" ;;
*) said="no verdict: mw ended with status $status" ;;
esac
echo "check: $said" >&2
exit "$status"
