#!/bin/sh
# Audits one file: sh tools/audit.sh FILE. BRIEF=1 and EXPLAIN=1 ask for the brief report and for the explained one, CHECK names the
# level, and MAX_EVENTS and MAX_BYTES are the limits of the history, where they are given.
# The status is 0 where there is a report or a refusal line.
: "${CHECK:=serializable}"

fail() {
    printf 'make run: %s\n' "$(sh tools/shown.sh "$1")" >&2
    exit 2
}

# option NAME VALUE OPTION: the option, where the value of the variable means yes.
option() {
    case $2 in
        1 | y | yes | true | on) echo "$3" ;;
        '' | 0 | n | no | false | off) ;;
        *) fail "$1 is 1 or 0, and not $2" ;;
    esac
}

if [ -z "$1" ]; then
    fail "no file is named; say, for example, make run HISTORY=examples/write_skew.history"
elif [ -d "$1" ]; then
    fail "$1 is a directory, and no history"
elif [ ! -e "$1" ]; then
    fail "there is no file $1"
elif [ ! -r "$1" ]; then
    fail "$1 may not be read"
fi
case $CHECK in
    serializable)
        kept="isolation was kept, and the history is serializable"
        broken="isolation was broken, or the history isn't serializable; the report says which"
        ;;
    ssi)
        kept="the history passes the test of serializable snapshot isolation"
        broken="the history fails the test of serializable snapshot isolation"
        ;;
    si)
        kept="isolation was kept"
        broken="isolation was broken"
        ;;
    gsi)
        kept="for each transaction there is a snapshot that fits, taken before its first read or write"
        broken="for some transaction there is no snapshot that fits, taken before its first read or write; EXPLAIN=1 says why"
        ;;
    *) fail "CHECK is serializable, ssi, si or gsi, and not $CHECK" ;;
esac
brief=$(option BRIEF "$BRIEF" --brief) || exit 2
explain=$(option EXPLAIN "$EXPLAIN" --explain) || exit 2
program=$(sh tools/program.sh) || exit 2
"$program" ${brief:+"$brief"} ${explain:+"$explain"} --check "$CHECK" \
    ${MAX_EVENTS:+--max-events "$MAX_EVENTS"} ${MAX_BYTES:+--max-bytes "$MAX_BYTES"} <"$1"
status=$?
case $status in
    0) echo "status 0: $kept" >&2 ;;
    1) echo "status 1: $broken" >&2 ;;
    2)
        echo "status 2: the program refused its arguments" >&2
        exit 2
        ;;
    3) echo "status 3: the text is no history, and was refused" >&2 ;;
    4)
        echo "status 4: a device or the memory failed" >&2
        exit 4
        ;;
    *)
        echo "status $status: the program was stopped" >&2
        exit "$status"
        ;;
esac
