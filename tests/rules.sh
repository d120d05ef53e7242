#!/bin/sh
# Holds docs/RULES.md true: at each line that it names stands the definition, each function is one of the crates', and
# each test is a line of a script. With --write it puts the right line numbers in, where a definition has moved.
set -eu
top=$(cd -P -- "$(dirname -- "$0")/.." && pwd -P)
cd "$top"
rules=docs/RULES.md
work=$(mktemp -d)
trap 'rm -rf "$work"' EXIT

# The functions of the crates, and the names of the scripts' lines.
cat crates/*/src/*.rt crates/*/src/*/*.rt 2>/dev/null | sed -n 's/^.*fn \([a-z_0-9]*\).*$/\1/p' | sort -u >"$work/functions"
sed -n 's/^%[a-z]* \(.*\)$/\1/p' crates/examples_*/stdin | sed 's/: .*$//; s/ = .*$//' | sort -u >"$work/tests"

# place FILE NAME: the number of the line at which the definition begins.
place() {
    awk -v name="$2" '{
        line = $0
        sub(/^(abbrev pub|unfoldable pub|pub record|pub data|abbrev|pub) /, "", line)
        if (index(line, name " ") == 1 || line == name) { print NR; exit }
    }' "crates/$1"
}

wrong=0
say() {
    echo "wrong: $*"
    wrong=$((wrong + 1))
}

count=0
grep '^| .* `.*:[0-9]* | ' "$rules" >"$work/rows"
cp "$rules" "$work/new"
while IFS= read -r row; do
    count=$((count + 1))
    word=$(printf '%s' "$row" | awk -F ' [|] ' '{ print substr($1, 3) }')
    cell=$(printf '%s' "$row" | awk -F ' [|] ' '{ print $3 }')
    function=$(printf '%s' "$row" | awk -F ' [|] ' '{ print $4 }' | tr -d '`')
    tried=$(printf '%s' "$row" | awk -F ' [|] ' '{ print $5 }')
    name=$(printf '%s' "$cell" | cut -d '`' -f 2)
    file=$(printf '%s' "$cell" | sed 's/^.*` //; s/:[0-9]*$//')
    stands=$(place "$file" "$name")
    if [ "$stands" != "${cell##*:}" ]; then
        if [ "${1-}" = --write ] && [ -n "$stands" ]; then
            awk -v old="\`$name\` $file:${cell##*:} |" -v new="\`$name\` $file:$stands |" '{
                at = index($0, old)
                if (at) $0 = substr($0, 1, at - 1) new substr($0, at + length(old))
                print
            }' "$work/new" >"$work/newer" && mv "$work/newer" "$work/new"
        else
            say "$word: $name is at line ${stands:-none} of $file"
        fi
    fi
    if ! grep -qx "${function##*::}" "$work/functions"; then say "$word: no function $function"; fi
    if [ "$tried" != "in its clause" ] && ! grep -qxF -- "$tried" "$work/tests"; then say "$word: no test $tried"; fi
done <"$work/rows"
if [ "${1-}" = --write ]; then cp "$work/new" "$rules"; fi
if [ "$count" -lt 80 ]; then say "only $count rules"; fi
if [ "$wrong" -gt 0 ]; then exit 1; fi
echo "ok $count rules"
