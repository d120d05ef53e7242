#!/bin/sh
# Questions that say less than they seem to, a line each: those with no packet, with a start at an interface by which no
# packet comes in, and with a subnet as target that no interface has.
#   warnings.sh QUESTIONS CONFIG...
set -u
LC_ALL=C
export LC_ALL
questions=$1
shift
[ -f "$questions" ] && [ -r "$questions" ] || exit 0
{
    "$(dirname -- "$0")/facts.sh" "$@"
    echo "= questions"
    tr -d '\r' <"$questions"
} | awk '
    function number(a,    part) { split(a, part, "."); return ((part[1] * 256 + part[2]) * 256 + part[3]) * 256 + part[4] }
    # A prefix without the bits past its length.
    function cleared(prefix,    part, size) {
        split(prefix, part, "/")
        size = 2 ^ (32 - part[2])
        return int(number(part[1]) / size) * size "/" part[2] + 0
    }
    function has_ports(protocol) { return protocol ~ /^(ip|tcp|udp|0*6|0*17)$/ }
    # Whether ports have the number 0, which packets without ports have.
    function has_zero(ports) { return ports == "any" || ports ~ /^0+(-|$)/ }
    $0 == "= questions" { asked = 1; next }
    !asked && $1 == "subnet" { there[cleared($4)] = 1 }
    !asked && $1 == "closed" { closed[$2 " " $3] = 1 }
    !asked { next }
    /^[ \t]*(!|$)/ { next }
    {
        for (at = 3; at <= NF; at++) {
            word = tolower($at)
            if (word == "in" && tolower($(at - 2)) == "from" && ($(at - 1) " " $(at + 1)) in closed)
                print $1 ": no packet comes in at " $(at + 1) " of " $(at - 1) ", which is shut down or has no address"
            if (word == "subnet" && tolower($(at - 1)) == "to" && !(cleared($(at + 1)) in there))
                print $1 ": no interface that is up has the subnet " $(at + 1) ", so no packet ends there"
            if (word == "packets") {
                if (!has_ports(tolower($(at + 1))) && !(has_zero(tolower($(at + 3))) && has_zero(tolower($(at + 5)))))
                    print $1 ": no packet of protocol " $(at + 1) " has these ports, so the question holds of none"
                break
            }
        }
    }'
