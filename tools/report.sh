# shellcheck shell=sh
# shellcheck disable=SC2154
# Part of ./mw, which reads this file and sets `json`, `junit` and `work`: verdicts as lines of JSON, and as JUnit's XML.
# docs/FORMATS.md gives the forms. It reads what the program prints, so each verdict is passed on when it comes.

# escaped json|xml TEXT: the text as part of a string of JSON, or of an attribute of XML. Bytes that are no UTF-8 become
# U+FFFD, and so do characters that XML cannot hold. The text is ended by a dot, so that no line feed is lost.
escaped() {
    printf '%s.' "$2" | awk -v form="$1" '
        function at(n) { return code[substr(text, n, 1)] }
        function goes_on(n, from, to) { return at(n) >= from && at(n) <= to }
        function width(n,    lead) {
            lead = at(n)
            if (lead < 128) return 1
            if (lead >= 194 && lead <= 223) return goes_on(n + 1, 128, 191) ? 2 : 0
            if (!goes_on(n + 2, 128, 191)) return 0
            if (lead >= 224 && lead <= 239)
                return goes_on(n + 1, lead == 224 ? 160 : 128, lead == 237 ? 159 : 191) ? 3 : 0
            if (lead < 240 || lead > 244 || !goes_on(n + 3, 128, 191)) return 0
            return goes_on(n + 1, lead == 240 ? 144 : 128, lead == 244 ? 143 : 191) ? 4 : 0
        }
        function in_json(char, number) {
            if (char == "\"" || char == "\\") return "\\" char
            return number < 32 || number == 127 ? sprintf("\\u%04x", number) : char
        }
        function in_xml(char, number) {
            if (char in entity) return entity[char]
            if (number == 9 || number == 10 || number == 13) return "&#" number ";"
            return number < 32 || char in unheld ? replaced : char
        }
        function put(char,    number) {
            number = code[substr(char, 1, 1)]
            printf "%s", form == "xml" ? in_xml(char, number) : in_json(char, number)
        }
        function put_all(    n, size) {
            for (n = 1; n <= length(text); n += size ? size : 1) {
                size = width(n)
                put(size ? substr(text, n, size) : replaced)
            }
        }
        BEGIN {
            for (n = 1; n < 256; n++) code[sprintf("%c", n)] = n
            entity["&"] = "&amp;"; entity["<"] = "&lt;"; entity[">"] = "&gt;"; entity["\""] = "&quot;"
            replaced = "\357\277\275"; unheld["\357\277\276"]; unheld["\357\277\277"]
        }
        NR > 1 { put_all(); put("\n") }
        { text = $0 }
        END { text = substr(text, 1, length(text) - 1); put_all() }'
}

# Sets `now` to the milliseconds of the clock, to whole seconds where date knows no parts of them.
read_clock() {
    now=$(date +%s.%N)
    part=${now#*.}
    case $part in
    [0-9][0-9][0-9]*) now=${now%%.*}${part%"${part#???}"} ;;
    *) now=${now%%.*}000 ;;
    esac
}

in_seconds() { printf '%d.%03d' $(($1 / 1000)) $(($1 % 1000)); }

# Sets `seconds` to the time since the last verdict, or since the program was started.
take_time() {
    read_clock
    spent=$((now - before))
    if [ "$spent" -lt 0 ]; then spent=0; fi
    total=$((total + spent))
    before=$now
    seconds=$(in_seconds "$spent")
}

# Prints a line; where nobody reads any more, the program is to see that too.
put_line() {
    if [ "$watching" = 1 ] && [ -t 1 ]; then set -- "$cleared$1"; fi
    printf '%s\n' "$1" 2>/dev/null || { gone=yes && exec </dev/null; }
}

plain() { if [ -z "$json" ]; then put_line "$1"; fi; }

object() { if [ -n "$json" ]; then put_line "$1"; fi; }

# A line that the program made, which is printable ASCII and may be long, as text of XML.
in_text() { printf '%s\n' "$1" | sed 's/&/\&amp;/g; s/</\&lt;/g; s/>/\&gt;/g'; }

# add_case NAME [ELEMENT TYPE MESSAGE TEXT]: a case of the XML, which has passed where no element is named.
add_case() {
    cases=$((cases + 1))
    [ -n "$junit" ] || return
    {
        printf '    <testcase classname="%s" name="%s" time="%s"' "$suite" "$(escaped xml "$1")" "$seconds"
        if [ $# -eq 1 ]; then
            printf '/>\n'
        else
            printf '>\n      <%s type="%s" message="%s">' "$2" "$3" "$(escaped xml "$4")"
            if [ "$2" = error ]; then escaped xml "$5"; else in_text "$5"; fi
            printf '</%s>\n    </testcase>\n' "$2"
        fi
    } 2>/dev/null >>"$work/cases"
}

report_holds() {
    take_time
    object "{\"name\":\"$(escaped json "$1")\",\"verdict\":\"holds\",\"seconds\":$seconds}"
    add_case "$1"
}

# A broken question: its counterexample is the next line, and is JSON as it stands.
report_broken() {
    take_time
    IFS= read -r text || text=
    plain "$text"
    object "{\"name\":\"$(escaped json "$1")\",\"verdict\":\"broken\",\"seconds\":$seconds${text:+,\"counterexample\":$text}}"
    failures=$((failures + 1))
    add_case "$1" failure broken "the question is broken" "$text"
}

report_unknown() {
    name=${1%% *}
    count=${1#* after }
    take_time
    object "{\"name\":\"$(escaped json "$name")\",\"verdict\":\"unknown\",\"seconds\":$seconds,\"conflicts\":${count%% *}}"
    errors=$((errors + 1))
    add_case "$name" error unknown "unknown after $count" ""
}

# What `replay` or `check` says.
report_answer() {
    take_time
    object "{\"answer\":\"$(escaped json "$1")\",\"seconds\":$seconds}"
    case $asking in check) denied="the log does not show it" ;; *) denied="the counterexample is not true" ;; esac
    if [ "$1" = yes ]; then
        add_case "$asking"
    else
        failures=$((failures + 1))
        add_case "$asking" failure no "$denied" "$1"
    fi
}

# What `simulate` says: the tables are the next line, and are JSON as they stand.
report_state() {
    take_time
    IFS= read -r text || text=
    plain "$text"
    object "{\"answer\":\"$1\",\"seconds\":$seconds${text:+,\"tables\":$text}}"
    if [ "$1" = quiet ]; then
        add_case "$asking"
    else
        failures=$((failures + 1))
        add_case "$asking" failure busy "a message is on its way, or a decision is due" "$text"
    fi
}

# How large the ring of `gen` is.
report_size() {
    count=${1%% *}
    object "{\"routers\":$count,\"links\":$count}"
}

# The first line of what is printed for a refused file; its name may hold line feeds.
read_refusal() {
    refusal=$1
    while IFS= read -r more; do
        refusal="$refusal
$more"
    done
    plain "$refusal"
}

report_line() {
    case $1 in
    'refused '*) read_refusal "$1" && return ;;
    'usage: '*) plain "$1" && return ;;
    esac
    plain "$1"
    case $1 in
    'holds '*) report_holds "${1#holds }" ;;
    'broken '*) report_broken "${1#broken }" ;;
    'unknown '*) report_unknown "${1#unknown }" ;;
    'routers '*) report_size "${1#routers }" ;;
    quiet | busy) report_state "$1" ;;
    *) report_answer "$1" ;;
    esac
}

# What a run that ended without its verdicts is told as: an object and a case of its own.
report_end() {
    case $1 in
    0 | 1 | 2) return ;;
    3) said="the words are no command" ;;
    4) said="a file is refused" ;;
    5) said="a file cannot be read" ;;
    6) said="the output cannot be written" ;;
    7) said="memory is wanting" ;;
    *) said="the program ended with status $1" ;;
    esac
    take_time
    where=
    if [ "$1" -eq 4 ] && parse_refusal "$refusal"; then
        where=",\"file\":\"$(escaped json "$file")\",\"line\":$at,\"cause\":\"$(escaped json "$cause")\""
    fi
    object "{\"error\":\"$said\",\"status\":$1$where}"
    errors=$((errors + 1))
    add_case mw error "status $1" "$said" "$refusal"
}

write_junit() {
    {
        printf '<?xml version="1.0" encoding="UTF-8"?>\n<testsuites>\n'
        printf '  <testsuite name="%s" tests="%d" failures="%d" errors="%d" time="%s">\n' \
            "$suite" "$cases" "$failures" "$errors" "$(in_seconds "$total")"
        cat "$work/cases" && printf '  </testsuite>\n</testsuites>\n'
    } 2>/dev/null >"$junit"
}

# report WORDS: reads what the program prints for these words, and then its status from a pipe; ends with that.
report() {
    if [ "${1-}" = --log ] && [ $# -ge 2 ]; then shift 2; fi
    asking=${1-}
    case $asking in
    replay | check) suite=${3-} ;;
    gen) suite=gen ;;
    *) if [ "${2-}" = --conflicts ]; then suite=${4-}; else suite=${2-}; fi ;;
    esac
    suite=$(escaped xml "$suite")
    cleared=$(printf '\r\033[K')
    total=0 cases=0 failures=0 errors=0 gone='' refusal=''
    : >"$work/cases"
    read_clock
    before=$now
    while [ -z "$gone" ] && IFS= read -r line; do report_line "$line"; done
    exec </dev/null
    read -r status <"$work/status"
    if [ -n "$gone" ]; then status=6; fi
    report_end "$status"
    if [ -n "$junit" ] && ! write_junit; then
        say "$(quoted "$junit") cannot be written"
        return 73
    fi
    return "$status"
}

# A refused line that `lint` prints, as an object: its file, line and cause, and the kind of its group, where it is in one.
report_refused() {
    parse_refusal "$1" || return
    if [ "$file" != "$last_file" ]; then
        last_file=$file
        in_json=$(escaped json "$file")
    fi
    object "{\"file\":\"$in_json\",\"line\":$at,\"cause\":\"$cause\"$kind}"
}

# report_lines WORDS: reads what `lint` prints for these words, and then its status from a pipe; ends with that.
report_lines() {
    last_file='' in_json='' kind='' gone='' refusal=''
    while [ -z "$gone" ] && IFS= read -r line; do
        case $line in
        'refused lines: '*) ;;
        'refused '*) report_refused "$line" ;;
        [0-9]*' of '*) kind=",\"kind\":\"$(escaped json "${line#* of }")\"" ;;
        esac
    done
    exec </dev/null
    read -r status <"$work/status"
    if [ -n "$gone" ]; then status=6; fi
    case $status in 0 | 4) return "$status" ;; esac
    total=0 cases=0 errors=0 suite=''
    read_clock
    before=$now
    report_end "$status"
    return "$status"
}
