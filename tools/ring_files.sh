#!/bin/sh
# The files of the network that `gen COUNT` makes in memory, byte for byte: g1.cfg to gCOUNT.cfg and questions.txt, in a
# folder that is made where it is not there. The order of the configurations is that of their numbers, so that is how they
# are named: with as many digits as the greatest.
#   ring_files.sh COUNT FOLDER
# Ends with 0, 64 where the words are wrong, and 73 where a file cannot be written.
set -u
count=${1-}
folder=${2-}
case $count in '' | *[!0-9]* | ???*) count=0 ;; esac
if [ $# -ne 2 ] || [ -z "$folder" ] || [ "$count" -lt 3 ] || [ "$count" -gt 64 ]; then
    echo "mw: gen-files takes a number from 3 to 64 and a folder" >&2
    exit 64
fi
case $folder in /*) ;; *) folder=./$folder ;; esac
mkdir -p "$folder" || exit 73

# interface SIDE LINK
interface() {
    printf 'interface GigabitEthernet0/%d\n ip address 10.100.%d.%d 255.255.255.252\n ip access-group 101 in\n' "$1" "$2" "$1"
}

# router NUMBER
router() {
    if [ "$1" -eq 1 ]; then before=$count; else before=$(($1 - 1)); fi
    printf 'hostname G%d\n' "$1"
    interface 1 "$1"
    interface 2 "$before"
    printf 'interface Loopback0\n ip address 10.200.%d.1 255.255.255.255\n' "$1"
    printf 'router ospf 1\n network 10.0.0.0 0.255.255.255 area 0\n'
    port=0
    while [ "$port" -lt 100 ]; do
        port=$((port + 1))
        echo "access-list 101 deny udp any any eq $port"
    done
    echo 'access-list 101 permit ip any any'
}

number=0
while [ "$number" -lt "$count" ]; do
    number=$((number + 1))
    router "$number" >"$folder/$(printf 'g%0*d.cfg' "${#count}" "$number")" || exit 73
done
printf 'g1 reach from G1 to router G%d packets icmp 10.200.1.1/32 any 10.200.%d.1/32 any failures 1\n' "$count" "$count" \
    >"$folder/questions.txt" || exit 73
