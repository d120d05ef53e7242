#!/bin/sh
# Suggests questions for the networks of examples/, and has the built `mw_show` read each file that comes of it: with an
# output that has no counterexample it reads the configurations and the questions, and says no more. The program is the
# proved one that `rt ci` leaves, or that in the folder that PROGRAMS names.
set -u
top=$(cd -P -- "$(dirname -- "$0")/.." && pwd -P)
work=$(mktemp -d)
trap 'rm -rf "$work"' EXIT
failed=0
if [ -n "${PROGRAMS-}" ]; then show=$PROGRAMS/mw_show; else show=$top/crates/mw_show/out/mw_show; fi
[ -x "$show" ] || { echo "there is no program at $show" >&2; exit 1; }
echo "holds q1" >"$work/holds"

# suggested NAME COUNT FILE..: so many questions come of the network of these files, and each is read; filled in, so is
# each line for an external peer.
suggested() {
    name=$1
    count=$2
    shift 2
    mkdir -p "$work/$name"
    cp "$@" "$work/$name"
    "$top/tools/suggest.sh" "$work/$name" >"$work/said" || failed=1
    found=$(cat "$work/$name"/suggested-*.txt | grep -vc '^!')
    sum=$(awk '{ sum += $(NF - 1) } END { print sum }' "$work/said")
    good=yes
    for questions in "$work/$name"/suggested-*.txt; do
        sed 's/^! \(out.*\)PREFIX/\1198.18.0.0\/15/' "$questions" >"$work/filled"
        if [ "$(grep -vc '^!' "$work/filled")" -gt 64 ]; then grep -v '^[^!]*reach' "$work/filled" >"$work/few" && mv "$work/few" "$work/filled"; fi
        for file in "$questions" "$work/filled"; do
            printed=$("$show" "$work/holds" "$file" "$work/$name"/*.cfg)
            if [ "$printed" != "nothing is broken" ]; then
                good=
                echo "$printed"
            fi
        done
    done
    if [ -n "$good" ] && [ "$found" = "$count" ] && [ "$sum" = "$count" ]; then
        echo "ok: $count questions about $name are read"
    else
        echo "FAILED: $found questions about $name, of $count"
        failed=1
    fi
}

cd "$top/examples" || exit 1
suggested two-routers 10 two-routers/n1.cfg two-routers/n2.cfg
suggested access-list 10 access-list/*.cfg
suggested office 92 office/*.cfg
suggested ospf-triangle 21 ospf-triangle/*.cfg
suggested ring-of-four 56 ring-of-four/*.cfg
suggested ospf-bgp 16 ospf-bgp/*.cfg
suggested dual-homed 4 dual-homed/open.cfg
suggested customer-leak 24 customer-leak/filtered.cfg customer-leak/east.cfg customer-leak/west.cfg
suggested internal-core 76 internal-core/west.cfg internal-core/east.cfg internal-core/rr1.cfg internal-core/rr2.cfg
suggested backup-link 21 backup-link/prepend.cfg backup-link/main.cfg backup-link/backup.cfg
suggested two-way-redistribution 6 two-way-redistribution/*.cfg
suggested two-orders 21 two-orders/*.cfg
suggested short-prefix 10 short-prefix/*.cfg
suggested no-stable-routing 40 no-stable-routing/*.cfg
exit "$failed"
