#!/bin/sh
# What helps with a refused line beside the sentence on its cause: a caret below the word, what may stand there by the table
# of questions in docs/FORMATS.md, the names that the configurations have, and what is likely meant.
#   MW_HEAD=HEAD MW_LINE=LINE hints.sh FORMATS ROLE CAUSE WORD CONFIG...
# LINE is printed after HEAD. ROLE is questions, configuration or told, CAUSE the number of the cause, WORD the number of the
# word or 0. Prints one line or more, or none.
set -u
LC_ALL=C
export LC_ALL
formats=$1
role=$2
cause=$3
word=$4
shift 4
for file in "$@"; do
    if [ -r "$file" ] && [ -f "$file" ]; then tr -d '\r' <"$file" | sed 's/^/= /'; fi
done | awk -v role="$role" -v cause="$cause" -v bad="$word" -v formats="$formats" '
    # The words of the line, and where each begins.
    function read_line(    rest, skipped) {
        rest = line
        while (match(rest, /[^ \t]+/)) {
            begins[++count] = skipped + RSTART
            word[count] = substr(rest, RSTART, RLENGTH)
            skipped += RSTART + RLENGTH - 1
            rest = substr(rest, RSTART + RLENGTH)
        }
    }
    function read_table(    row, cell) {
        while ((getline row <formats) > 0) {
            if (row !~ /^\| [0-9]+ \| [^|]+ \| [0-9]+ \|$/) continue
            split(row, cell, / *\| */)
            from[++edges] = cell[2]
            what[edges] = cell[3]
            to[edges] = cell[4]
            if (cell[2] >= 10 && cell[2] < 20) {
                kind = substr(cell[3], 2, length(cell[3]) - 2)
                kinds = kinds (kinds == "" ? "" : ", ") kind
                after[kind] = cell[4]
            }
        }
    }
    function fits(e, text,    range) {
        if (what[e] ~ /^`/) return "`" tolower(text) "`" == what[e]
        if (what[e] ~ /\.\./) {
            split(what[e], range, /\.\./)
            return text ~ /^[0-9]+$/ && text + 0 >= range[1] && text + 0 <= range[2]
        }
        if (what[e] == "A/L") return text ~ /\//
        return what[e] != "the end of the line"
    }
    # Walks the words up to one, and leaves the state before it, the last router, and where each kind of word stood.
    function walk(upto,    at, e) {
        state = after[tolower(word[2])]
        for (at = 3; at < upto; at++) {
            for (e = 1; e <= edges; e++) if (from[e] == state && fits(e, word[at])) break
            if (e > edges) return
            if (what[e] == "R") {
                if (!(word[at] in is_router) && !stranger) stranger = at
                last_router = word[at]
            }
            if (what[e] == "IF") interface_at = at
            if (what[e] == "A") address_at = at
            state = to[e]
        }
    }
    function choices(    e, list) {
        for (e = 1; e <= edges; e++) {
            if (from[e] != state) continue
            list = list (list == "" ? "" : ", ") what[e]
            stands[what[e]] = 1
        }
        return list
    }
    function caret(    column, size, pad) {
        column = bad <= count ? begins[bad] : length(line) + 2
        size = bad <= count ? length(word[bad]) : 1
        pad = sprintf("%" (length(head) + column - 1) "s", "")
        text = sprintf("%" size "s", "")
        gsub(/ /, "^", text)
        print pad text
    }
    function tell_names() {
        if ("R" in stands) print "R is one of the routers: " routers
        if ("IF" in stands) print "IF is one of the interfaces of " last_router ": " interfaces[last_router]
        if ("A" in stands && last_router != "") print "A is one of the neighbours of " last_router ": " neighbours[last_router]
        if ("A/L" in stands && word[bad] ~ /^[0-9.]+$/) print "A/L is an address with its length, as " word[bad] "/32"
        if ("PORTS" in stands) print "PORTS are any, a number 0..65535, LO-HI, or a name of a port as in access lists; https is 443"
        if (state == 73 || state == 75) delete stands["PORTS"]
    }
    function tell_list(name, list) {
        if (list == "") print last_router " has no " name
        else print "the " name "s of " last_router " are " list
    }
    function is_kind(text) { return tolower(text) in after }
    function with_end(list, item) { return list (list == "" ? "" : ", ") item }
    $1 == "=" { sub(/^= /, "") }
    $1 == "hostname" { router = $2; routers = with_end(routers, router); is_router[router] = 1 }
    /^interface / { interfaces[router] = with_end(interfaces[router], $2 $3) }
    tolower($1) == "neighbor" && tolower($3) == "remote-as" { neighbours[router] = with_end(neighbours[router], $2) }
    END {
        line = ENVIRON["MW_LINE"]
        head = ENVIRON["MW_HEAD"]
        read_line()
        read_table()
        if (role == "told") {
            if (cause == 18 && line ~ /^(holds|broken|unknown) /)
                print "this is what `verify` printed: `explain` takes it whole, `replay` its line that begins with {"
            exit
        }
        if (count == 0) exit
        if (role == "configuration") {
            if (cause == 1) bad = 1
            if (cause == 1 && is_kind(word[2])) { caret(); print "this is a question: QUESTIONS stand before the configurations" }
            else if (bad > 0) caret()
            exit
        }
        if (cause == 1 && is_kind(word[1])) {
            bad = 1
            caret()
            print "a question begins with its name: q1 " word[1] " ..."
        } else if (cause == 1 && word[1] ~ /^#/) {
            bad = 1
            caret()
            print "a comment begins with !"
        } else if (cause == 1 && word[1] ~ /^(hostname|version|interface|service|Building|router|ip)$/) {
            bad = 1
            caret()
            print "this is a configuration: QUESTIONS stand before the configurations"
        } else if (cause == 1) {
            bad = 2
            caret()
            print "the second word is the kind of the question: " kinds
        } else if (cause == 2 && bad == 1) {
            caret()
            print "the first word is NAME, 1 to 64 printable bytes"
        } else if (cause == 2) {
            walk(bad)
            caret()
            print (bad <= count ? "here may stand " : "here the line goes on with ") choices()
            tell_names()
        } else if (cause == 15) {
            walk(count + 1)
            bad = stranger
            if (bad) caret()
            print "the routers are " routers
        } else if (cause == 7) {
            walk(count + 1)
            bad = interface_at
            if (bad) caret()
            walk(bad)
            tell_list("interface", interfaces[last_router])
        } else if (cause == 16) {
            walk(count + 1)
            bad = address_at
            if (bad) caret()
            tell_list("neighbour", neighbours[last_router])
        } else if (cause == 4) {
            bad = 1
            caret()
        }
    }'
