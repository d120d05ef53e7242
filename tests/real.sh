#!/bin/sh
# Runs `lint` and `prepare` over the configurations of examples/real with the built programs, and holds what they print
# against lint.expected and prepare.expected there; each line that `prepare` writes against the line of the file; what
# `verify` answers about the two that are of the profile once they are made ready; and docs/OUTSIDE.md against the table
# of the program. The programs are the proved ones that `rt ci` leaves, or those in the folder that PROGRAMS names.
set -u
top=$(cd -P -- "$(dirname -- "$0")/.." && pwd -P)
work=$(mktemp -d)
trap 'rm -rf "$work"' EXIT
failed=0

place() {
    if [ -n "${PROGRAMS-}" ]; then echo "$PROGRAMS/$1"; else echo "$top/crates/$1/out/$1"; fi
}
cli=$(place mw_cli)
lint=$(place mw_lint)
prepare=$(place mw_prepare)
for program in "$cli" "$lint" "$prepare"; do
    [ -x "$program" ] || { echo "there is no program at $program" >&2; exit 1; }
done

# same WHAT EXPECTED FOUND: the two files are the same.
same() {
    if cmp -s "$2" "$3"; then
        echo "ok: $1"
    else
        diff "$2" "$3" | head -n 20
        echo "FAILED: $1"
        failed=1
    fi
}

cd "$top/examples/real" || exit 1
{
    "$lint" ./*.cfg
    echo "status $?"
} >"$work/lint"
same "every refused line" lint.expected "$work/lint"

mkdir "$work/ready"
for file in *.cfg; do
    echo "$file"
    "$prepare" "$file" "$work/ready/$file"
    echo "status $?"
done >"$work/prepare"
same "how many lines are left out" prepare.expected "$work/prepare"

for file in *.cfg; do
    awk 'NR == FNR { line[FNR] = $0; count = FNR; next }
        $0 != line[FNR] && $0 != "! left out: " line[FNR] { print FILENAME ":" FNR }
        END { if (FNR != count) print FILENAME " has another number of lines" }' "$file" "$work/ready/$file"
done >"$work/changed"
same "each line is the line or its comment" /dev/null "$work/changed"

for file in "$top"/examples/*/*.cfg; do
    case $file in "$top"/examples/real/*) continue ;; esac
    "$prepare" "$file" "$work/other" >/dev/null
    cmp -s "$file" "$work/other" || echo "$file"
done >"$work/others"
same "what the profile takes stays as it is" /dev/null "$work/others"

for name in edge-bgp old-ebgp; do
    "$lint" "$work/ready/$name.cfg"
    "$cli" verify "$name.questions.txt" "$work/ready/$name.cfg" | grep -v '^{'
done >"$work/verdicts"
same "verdicts about what was made ready" verdicts.expected "$work/verdicts"

"$prepare" --table >"$work/table"
sed -n '/^| Place |/,$p' "$top/docs/OUTSIDE.md" | sed 1,2d >"$work/documented"
same "docs/OUTSIDE.md has the table" "$work/documented" "$work/table"
exit "$failed"
