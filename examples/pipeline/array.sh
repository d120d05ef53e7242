#!/bin/sh
# A task of a Slurm array, which answers files of questions about one folder of configurations. Where there are as many
# tasks as files each has one; with fewer, a task takes every N-th.
#   MW=/path/to/mw sbatch --array=1-N array.sh FOLDER QUESTIONS...
# The verdicts of each file stand beside it in QUESTIONS.verdicts, as those of many.sh, which prints one line for each
# file afterwards: many.sh --summary QUESTIONS... A task fails where not every verdict of its files is holds.
#SBATCH --ntasks=1
#SBATCH --mem=1G
#SBATCH --time=01:00:00
set -u
if [ $# -lt 2 ] || [ -z "${SLURM_ARRAY_TASK_ID-}" ]; then
    echo "usage: sbatch --array=1-N array.sh FOLDER QUESTIONS..." >&2
    exit 64
fi
# Slurm runs a copy of this file, so the program is not found beside it.
mw=${MW:-mw}
first=${SLURM_ARRAY_TASK_MIN:-1}
tasks=${SLURM_ARRAY_TASK_COUNT:-1}
turn=$(((SLURM_ARRAY_TASK_ID - first) / ${SLURM_ARRAY_TASK_STEP:-1}))
folder=$1
shift

export MW_EXPLAIN=1
failed=0
place=0
for questions in "$@"; do
    if [ $((place % tasks)) -eq "$turn" ]; then
        rm -f "$questions.status"
        "$mw" verify "$questions" "$folder" >"$questions.verdicts" 2>"$questions.said"
        status=$?
        echo "$status" >"$questions.status"
        if [ "$status" -ne 0 ]; then failed=1; fi
    fi
    place=$((place + 1))
done
exit "$failed"
