#!/bin/sh
# What configurations say that questions speak of, a line each: `router NAME`; `subnet NAME IF A/L A` of an interface with an
# address that is not shut down; `closed NAME IF` of one that is, or that has no address; `peer NAME A` of a neighbour.
#   facts.sh CONFIG...
# Lines that are no line of the profile say nothing here.
set -u
LC_ALL=C
export LC_ALL
for file in "$@"; do
    if [ -f "$file" ] && [ -r "$file" ]; then
        echo "= file"
        tr -d '\r' <"$file"
        echo
    fi
done | awk '
    function number(a,    part) { split(a, part, "."); return ((part[1] * 256 + part[2]) * 256 + part[3]) * 256 + part[4] }
    function dotted(n) { return int(n / 16777216) "." int(n / 65536) % 256 "." int(n / 256) % 256 "." n % 256 }
    # The length of a mask, by how many addresses lie under it.
    function mask_length(mask,    size, bits_of) {
        size = 4294967296 - number(mask)
        for (bits_of = 32; size > 1; bits_of--) size /= 2
        return bits_of
    }
    function end_interface(    size) {
        if (interface == "") return
        if (address != "" && !shut) {
            size = 2 ^ (32 - bits)
            print "subnet", router, interface, dotted(int(number(address) / size) * size) "/" bits, address
        } else print "closed", router, interface
        interface = ""
    }
    $0 == "= file" { end_interface(); router = ""; block = ""; next }
    /^[ \t]*(!|$)/ { next }
    !/^[ \t]/ { end_interface(); block = tolower($1) }
    block == "hostname" { router = $2; print "router", router; next }
    block == "interface" && !/^[ \t]/ { interface = $2 $3; address = ""; shut = 0; next }
    block == "interface" && tolower($1) == "shutdown" { shut = 1 }
    block == "interface" && tolower($1) == "no" && tolower($2) == "shutdown" { shut = 0 }
    block == "interface" && tolower($1) == "ip" && tolower($2) == "address" && NF == 4 { address = $3; bits = mask_length($4) }
    block == "interface" && tolower($1) == "no" && tolower($2) == "ip" && tolower($3) == "address" { address = "" }
    block == "router" && tolower($1) == "neighbor" && tolower($3) == "remote-as" { print "peer", router, $2 }
    END { end_interface() }'
