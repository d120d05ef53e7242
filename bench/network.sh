#!/bin/sh
# Times the proved program on networks of 16, 32 and 64 routers with 64 interfaces each, in a ring, and on 8, 16 and 32
# routers with 512 entries of lists each: a question about a router that is not there, which is refused once the network is
# built, and one that is answered. Needs the proved program (.ci/run or ./mw --proved), Python 3 and GNU time.
set -eu
top=$(cd -P -- "$(dirname -- "$0")/.." && pwd -P)
program=${PROGRAM:-$top/crates/mw_cli/out/mw_cli}
[ -x "$program" ] || { echo "prove the program first: ./mw --proved" >&2; exit 1; }
dir=$(mktemp -d)
trap 'rm -rf "$dir"' EXIT
python3 - "$dir" <<'END'
import os
import sys

top = sys.argv[1]

def put(name, lines):
    with open(os.path.join(top, name), "w") as file:
        file.write("\n".join(lines) + "\n")

def ring(count):
    """Routers in a ring, each with two links and 62 stub subnets."""
    for r in range(count):
        lines = [f"hostname R{r}"]
        for at in range(64):
            lines.append(f"interface GigabitEthernet0/{at}")
            if at < 2:
                link = (r + at) % count
                lines.append(f" ip address 10.200.{link}.{2 - at} 255.255.255.252")
            else:
                lines.append(f" ip address 10.{r}.{at}.1 255.255.255.0")
        put(f"ring{count}-{r}.cfg", lines)

def policies(count):
    """Routers with 512 entries of lists and maps, one community or AS number in eight lines a new one."""
    for r in range(count):
        lines = [f"hostname R{r}", "interface GigabitEthernet0/0", f" ip address 10.{r}.0.1 255.255.255.0"]
        for at in range(128):
            lines.append(f"ip prefix-list P seq {at + 1} permit 10.{at}.0.0/16 le 24")
            lines.append(f"ip community-list 1 permit 65000:{at // 4}")
            lines.append(f"ip as-path access-list 1 permit _{64512 + at // 2}_")
            lines.append(f"access-list 101 permit tcp any any eq {at + 1}")
        put(f"lists{count}-{r}.cfg", lines)

for count in (16, 32, 64):
    ring(count)
for count in (8, 16, 32):
    policies(count)
put("q.txt", ["q1 reach from R0 to router R0 packets icmp 10.0.0.1/32 any 10.0.0.1/32 any failures 0"])
put("none.txt", ["q1 reach from R0 to router Nobody packets icmp 10.0.0.1/32 any 10.0.0.1/32 any failures 0"])
END
# run FILE SET: the questions of that file over that network, ten times one after another.
run() {
    files=$(cd "$dir" && ls "$2"-*.cfg | sort -V)
    echo "for _ in 1 2 3 4 5 6 7 8 9 10; do $program verify $1" $files ">/dev/null; done" >"$dir/ten"
    (cd "$dir" && /usr/bin/time -f "%U s of processor, %e s by the clock, %M KB" sh ./ten) 2>&1 | tail -1
}
for set in ring16 ring32 ring64 lists8 lists16 lists32; do
    echo "$set, a question that is refused once the network is built, ten times: $(run none.txt "$set")"
done
for set in ring16 ring32 ring64; do
    echo "$set, one verdict, ten times: $(run q.txt "$set")"
done
