#!/bin/sh
# Questions for a network: in files of at most 64, each of which `verify` takes as it is.
#   suggest.sh FOLDER [INTO]
# FOLDER has the configurations, *.cfg; the files suggested-1.txt and so on are written into INTO, or else into FOLDER.
# They ask whether packets from every router to every subnet arrive, and with one failed link to every subnet that is no
# link, loopbacks among them; whether packets loop, and whether they are lost; and have a line for each external peer as a
# comment, which is filled in by hand. Ends with 0, 5 where FOLDER has no *.cfg, 64 where the words are wrong, and 73 where
# a file cannot be written.
set -u
LC_ALL=C
export LC_ALL
folder=${1-}
into=${2-$folder}
if [ $# -lt 1 ] || [ $# -gt 2 ] || [ -z "$folder" ] || [ -z "$into" ]; then
    echo "mw: suggest takes the folder of the configurations, and one for the files of questions" >&2
    exit 64
fi
case $folder in /*) ;; *) folder=./${folder#./} ;; esac
case $into in /*) ;; *) into=./${into#./} ;; esac
set -- "${folder%/}"/*.cfg
if [ ! -e "$1" ]; then
    echo "mw: $folder holds no *.cfg" >&2
    exit 5
fi
mkdir -p "$into" 2>/dev/null && [ -w "$into" ] || { echo "mw: $into cannot be written" >&2; exit 73; }
rm -f "${into%/}"/suggested-*.txt

# The questions, one a line, after the comments that go with them.
ask() {
    awk '
        $1 == "router" { routers[++count] = $2 }
        $1 == "subnet" { held[$5] = 1; if (!($4 in size)) order[++subnets] = $4; size[$4]++ }
        $1 == "peer" { peers[++peer_count] = $2 " " $3 }
        function number(a,    part) { split(a, part, "."); return ((part[1] * 256 + part[2]) * 256 + part[3]) * 256 + part[4] }
        function is_on(a, subnet,    part, block) {
            split(subnet, part, "/")
            block = 2 ^ (32 - part[2])
            return int(number(a) / block) == int(number(part[1]) / block)
        }
        function question(words) { print "q" (++asked) " " words }
        function reach(subnet, failures,    r) {
            for (r = 1; r <= count; r++)
                question("reach from " routers[r] " to subnet " subnet " packets ip any any " subnet " any failures " failures)
        }
        END {
            for (p = 1; p <= peer_count; p++) {
                split(peers[p], peer, " ")
                if (peer[2] in held) continue
                outside[++outsiders] = peers[p]
                for (s = 1; s <= subnets; s++) if (is_on(peer[2], order[s])) size[order[s]] = 2
            }
            for (s = 1; s <= subnets; s++) {
                print "! packets to " order[s] " arrive"
                reach(order[s], 0)
                if (size[order[s]] == 1) {
                    print "! and with one failed link"
                    reach(order[s], 1)
                }
            }
            print "! no packet loops, also with one failed link"
            for (r = 1; r <= count; r++) question("noloop from " routers[r] " packets ip any any any any failures 1")
            print "! no packet is lost: broken where a router has no default route"
            for (r = 1; r <= count; r++) question("noblackhole from " routers[r] " packets ip any any any any failures 0")
            for (p = 1; p <= outsiders; p++) {
                split(outside[p], peer, " ")
                print "! fill in PREFIX, and the start: nothing to it leaves by this peer"
                print "! out" p " isolate from " peer[1] " to peer " peer[1] " " peer[2] " packets ip any any PREFIX any failures 0"
            }
        }'
}

"$(dirname -- "$0")/facts.sh" "$@" | ask | awk -v into="${into%/}" '
    function begin() {
        file = into "/suggested-" (++files) ".txt"
        count = 0
    }
    BEGIN { begin() }
    /^!/ { held = held $0 "\n"; next }
    {
        if (count == 64) { close(file); print file ": " count " questions"; begin() }
        printf "%s%s\n", held, $0 >file
        held = ""
        count++
    }
    END {
        if (held != "" || count == 0) printf "%s", held >file
        close(file)
        print file ": " count " questions"
    }' || exit 73
