#!/bin/sh
# Runs the program on each NAME.history of examples/, examples/databases/ and examples/logs/, and compares what it writes with
# NAME.report, and with --explain with NAME.explained, and its status with the one in NAME.status, or 0; and in the same way on
# the stored run of its crate. The last line is 'N passed, M failed'.
: "${PROGRAM:=crates/si_audit/out/si_audit}"
room=out/examples
mkdir -p "$room"
passed=0
failed=0

# compare TEXT REPORT STATUS WORDS..: the program's report on the text, with these words, is this one, with this status.
compare() {
    text=$1
    wanted=$2
    ending=$3
    shift 3
    "$PROGRAM" "$@" <"$text" >"$room/report" 2>"$room/said"
    status=$?
    why=
    if [ ! -f "$wanted" ]; then
        why="there is no $wanted"
    elif ! cmp -s "$wanted" "$room/report"; then
        why="it isn't $wanted"
    elif [ -s "$room/said" ]; then
        why="it wrote on standard error"
    elif [ "$status" != "$ending" ]; then
        why="its status is $status and not $ending"
    fi
    if [ -z "$why" ]; then
        passed=$((passed + 1))
    else
        failed=$((failed + 1))
        echo "$text: $why:"
        cat "$room/report" "$room/said"
    fi
}

for history in examples/*.history examples/databases/*.history examples/logs/*.history; do
    name=${history%.history}
    meets=0
    if [ -f "$name.status" ]; then
        meets=$(cat "$name.status")
    fi
    compare "$history" "$name.report" "$meets"
    compare "$history" "$name.explained" "$meets" --explain
done
compare crates/si_audit/stdin crates/si_audit/stdout 0
echo "$passed passed, $failed failed"
[ "$failed" = 0 ]
