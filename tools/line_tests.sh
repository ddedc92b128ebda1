#!/bin/sh
# Runs the program on command lines, and with devices that fail or close early. Each test compares its status and what
# it wrote on standard error with what docs/USAGE.md says. The last line is 'N passed, M failed'.
: "${PROGRAM:=crates/si_audit/out/si_audit}"
mkdir -p out
history=examples/clean.history
passed=0
failed=0

# told NAME STATUS WANTED SAID: the last command ended with WANTED, and out/said holds the one line SAID, or nothing.
told() {
    why=
    if [ -n "$4" ]; then
        echo "$4" >out/wanted
    else
        : >out/wanted
    fi
    if [ "$2" != "$3" ]; then
        why="its status is $2 and not $3"
    elif ! cmp -s out/wanted out/said; then
        why="standard error isn't '$4'"
    fi
    count "$1" "$why"
}

# count NAME WHY: the test passed where there is no WHY.
count() {
    if [ -z "$2" ]; then
        passed=$((passed + 1))
    else
        failed=$((failed + 1))
        echo "$1: $2:"
        cat out/said
    fi
}

# same NAME REPORT ARGUMENTS..: the report with these arguments is REPORT, with status 0.
same() {
    name=$1
    report=$2
    shift 2
    "$PROGRAM" "$@" <"$history" >out/report 2>out/said
    told "$name" $? 0 ""
    count "$name: its report" "$(cmp "$report" out/report 2>&1)"
}

# explained EXAMPLE STATUS ARGUMENTS..: the report of the example with these arguments is its explained one, with this status.
explained() {
    example=$1
    ending=$2
    shift 2
    "$PROGRAM" "$@" <"examples/$example.history" >out/report 2>out/said
    told "$example $*" $? "$ending" ""
    count "$example $*: its report" "$(cmp "examples/$example.explained" out/report 2>&1)"
}

# refused NAME LINE ARGUMENTS..: the history is refused with this line, and status 3.
refused() {
    name=$1
    line=$2
    shift 2
    "$PROGRAM" "$@" <"$history" >out/report 2>out/said
    told "$name" $? 3 ""
    count "$name: its line" "$([ "$(cat out/report)" = "$line" ] || echo "it isn't '$line'")"
}

# usage NAME TEXT ARGUMENTS..: the arguments are refused with status 2, and the first error on standard error is TEXT.
usage() {
    name=$1
    text="error: $2"
    shift 2
    "$PROGRAM" "$@" <"$history" >out/report 2>out/said
    status=$?
    why=
    if [ "$status" != 2 ]; then
        why="its status is $status and not 2"
    elif [ "$(grep -m 1 '^error: ' out/said)" != "$text" ]; then
        why="standard error doesn't say '$text'"
    elif [ -s out/report ]; then
        why="it wrote on standard output"
    fi
    count "$name" "$why"
}

# help NAME ARGUMENTS..: the help is printed with status 0.
help() {
    name=$1
    shift
    "$PROGRAM" "$@" <"$history" >out/report 2>out/said
    told "$name" $? 0 ""
    why=
    for text in "Usage: si_audit [OPTIONS] [CUT]..." "--workers <N>" "[default: 4]" "--max-events <N>" "--max-bytes <N>" --brief --explain "Exit status:" "Examples:"; do
        grep -qF -- "$text" out/report || why="the help has no '$text'"
    done
    count "$name: its text" "$why"
}

# hint NAME ARGUMENTS..: the arguments are refused, and the first line on standard error says where a history comes from.
hint() {
    name=$1
    shift
    "$PROGRAM" "$@" <"$history" >out/report 2>out/said
    told=$(head -n 1 out/said)
    wanted="A history is read from standard input: si_audit <FILE"
    count "$name: the hint" "$([ "$told" = "$wanted" ] || echo "standard error doesn't begin with '$wanted'")"
}

# version NAME ARGUMENTS..: the version is printed with status 0, and it is the one that the sources name.
version() {
    name=$1
    shift
    "$PROGRAM" "$@" <"$history" >out/report 2>out/said
    told "$name" $? 0 ""
    named=$(sed -n 's/^const VERSION: &str = "\(.*\)";$/si_audit \1/p' crates/si_audit/src/words.rt)
    count "$name: its text" "$([ "$(cat out/report)" = "$named" ] || echo "it isn't '$named'")"
}

# A history with many bad reads, whose report is longer than a pipe holds.
long_history() {
    awk 'BEGIN { printf "w1[1] c1 b2"; for (i = 0; i < 20000; i++) printf " r2[1:0]"; print "" }'
}

same "no arguments" examples/clean.report
same "workers and a cut" examples/clean.report --workers 64 14
same "a cut first" examples/clean.report 14 --workers=1
same "the greatest key" examples/clean.report 18446744073709551615 0 0
same "the most cuts" examples/clean.report $(seq 0 1023) 7
same "the level ssi" examples/clean.report --check ssi
same "the level si" examples/clean.report --check=si
same "the level gsi" examples/clean.report --check gsi 5
explained clean 0 --explain
explained clean 0 --explain --workers 64 14
explained lost_update 1 --explain --explain
explained lost_update 1 --brief --explain
explained aborted_read 1 --explain --brief --brief 0 1 2 3
explained stale_read 1 1 --explain 18446744073709551615 --workers=3
explained read_only_anomaly 1 --explain --check ssi 2 1
explained refused 3 --explain --check=si
explained refused 3 --explain --check gsi
explained stale_read 0 --explain --check gsi 1
explained stale_read 1 --check si --explain
explained read_skew 1 --explain --check=gsi --workers 1
explained lost_update 1 --brief --check gsi --explain
explained refused_name 3 --explain --brief --workers 2 7
events=$(wc -w <"$history")
bytes=$(wc -c <"$history")
same "just as many events and bytes as may be" examples/clean.report --max-events "$((events))" --max-bytes="$((bytes))"
same "the greatest limits" examples/clean.report --max-events=500000000 --max-bytes 17179869184
refused "an event too many" "refused: token $((events)): too many events" --max-events "$((events - 1))"
refused "a byte too many" "refused: text too long" --max-bytes "$((bytes - 1))"
usage "no event" "invalid value '0' for '--max-events <N>': 0 is not in 1..=500000000" --max-events 0
usage "too many events" "invalid value '500000001' for '--max-events <N>': 500000001 is not in 1..=500000000" --max-events 500000001
usage "no byte" "invalid value '0' for '--max-bytes <N>': 0 is not in 1..=17179869184" --max-bytes=0
usage "too many bytes" "invalid value '17179869185' for '--max-bytes <N>': 17179869185 is not in 1..=17179869184" --max-bytes 17179869185
usage "a limit that is no number" "invalid value '1e6' for '--max-events <N>': invalid digit found in string" --max-events 1e6
usage "a limit twice" "the argument '--max-bytes <N>' cannot be used multiple times" --max-bytes 4 --max-bytes 4
usage "65 workers" "invalid value '65' for '--workers <N>': 65 is not in 1..=64" --workers 65
usage "no worker" "invalid value '0' for '--workers <N>': 0 is not in 1..=64" --workers 0
usage "workers twice" "the argument '--workers <N>' cannot be used multiple times" --workers 4 --workers 4
usage "a cut that is no number" "invalid value 'x' for '[CUT]...': invalid digit found in string" 14 x
usage "a control character" "invalid value '\\x1b[31mX' for '[CUT]...': invalid digit found in string" "$(printf '\033[31mX')"
count "a control character: standard error" "$(grep "$(printf '\033')" out/said)"
usage "--brief with a value" "unexpected value '1' for '--brief...' found; no more were expected" --brief=1
usage "--explain with a value" "unexpected value '1' for '--explain...' found; no more were expected" --explain=1
usage "a level that is none" "invalid value for '--check <LEVEL>'" --check SI
usage "an unknown option" "unexpected argument '--parts' found" --parts 4
hint "a cut that is a file's name" "$history"
hint "a cut that is a file's name, behind others" --workers 4 14 "$history"
version "--version" --version
version "-V" -V
help "--help" --help
help "-h after others" --workers 64 14 -h

"$PROGRAM" $(seq 1 1024) <"$history" >out/report 2>out/said
told "too many cuts" $? 2 "si_audit: too many cuts"
for example in stale_read:0 read_skew:1; do
    name=${example%:*}
    "$PROGRAM" --check gsi <"examples/$name.history" >out/report 2>out/said
    told "$name, held against gsi" $? "${example#*:}" ""
    count "$name, held against gsi: its report" "$(cmp "examples/$name.report" out/report 2>&1)"
    "$PROGRAM" --check gsi --brief <"examples/$name.history" >out/report 2>out/said
    told "$name in brief, held against gsi" $? "${example#*:}" ""
    count "$name in brief, held against gsi: its report" "$(grep -v -e '^edge' -e '^pivot' "examples/$name.report" | cmp - out/report 2>&1)"
done
for level in serializable:1 ssi:1 si:0 gsi:0; do
    "$PROGRAM" --brief --check "${level%:*}" <examples/write_skew.history >out/report 2>out/said
    told "write skew, held against ${level%:*}" $? "${level#*:}" ""
    count "write skew in brief: its report" "$(grep -v -e '^edge' -e '^pivot' examples/write_skew.report | cmp - out/report 2>&1)"
    explained write_skew "${level#*:}" --explain --check "${level%:*}"
done
"$PROGRAM" "$(printf '\377')" <"$history" >out/report 2>out/said
told "an argument that is not UTF-8" $? 2 "si_audit: an argument is not UTF-8"

"$PROGRAM" <examples >out/report 2>out/said
told "a directory as input" $? 4 "si_audit: read failed"
"$PROGRAM" <&- >out/report 2>out/said
told "no standard input" $? 4 "si_audit: read failed"
"$PROGRAM" <"$history" 2>out/said >&-
told "no standard output" $? 4 "si_audit: write failed"
"$PROGRAM" --help 2>out/said >&-
told "no standard output for the help" $? 4 "si_audit: write failed"
"$PROGRAM" --version 2>out/said >&-
told "no standard output for the version" $? 4 "si_audit: write failed"
"$PROGRAM" <"$history" >out/report 2>&-
status=$?
: >out/said
told "no standard error" $status 0 ""
"$PROGRAM" --workers 65 <"$history" >out/report 2>&-
status=$?
: >out/said
told "no standard error for the usage" $status 2 ""
"$PROGRAM" 2>&- <examples >out/report
status=$?
: >out/said
told "no standard error for a fault" $status 4 ""
if [ -c /dev/full ]; then
    "$PROGRAM" <"$history" >/dev/full 2>out/said
    told "a full device" $? 4 "si_audit: write failed"
    "$PROGRAM" --help >/dev/full 2>out/said
    told "a full device for the help" $? 4 "si_audit: write failed"
fi

# The stack that docs/USAGE.md says is enough.
for words in "" "--brief" "--explain" "--workers 64 14"; do
    # shellcheck disable=SC2086,SC3045 # the words are words, and the shells that are used know -s
    (ulimit -s 128 && "$PROGRAM" $words <"$history" >out/report 2>out/said)
    told "a stack of 128 KB, $words" $? 0 ""
done

# Pipes whose reader ends early. The report of the long history is longer than a pipe holds.
long_history >out/long.history
{
    "$PROGRAM" <out/long.history 2>out/said
    echo $? >out/status
} | head -n 1 >out/report
told "a reader that ends early" "$(cat out/status)" 4 "si_audit: write failed"
count "a reader that ends early: its line" "$(grep -v '^events 20003 committed 1 aborted 0 open 1$' out/report)"
{
    sleep 1
    "$PROGRAM" --help 2>out/said
    echo $? >out/status
} | exec true
told "a reader of the help that ends early" "$(cat out/status)" 4 "si_audit: write failed"

echo "$passed passed, $failed failed"
[ "$failed" = 0 ]
