#!/bin/sh
# Tests the targets of the Makefile that are for users: help, run and databases; tools/kept_tests.sh and tools/install_tests.sh test
# which program is taken, and how it is installed. The last line is 'N passed, M failed'.
. tools/counting.sh
# What make test was told is not for the makes of this test.
unset MAKEFLAGS MFLAGS MAKELEVEL PROGRAM
out=out/make_tests

# runs NAME REPORT SAID ARGUMENTS..: make with these arguments writes REPORT, and SAID on standard error, beside which program
# it takes.
runs() {
    name=$1
    report=$2
    echo "$3" >"$out/wanted"
    shift 3
    make "$@" >"$out/report" 2>"$out/said"
    count "$name: its status" "$([ $? = 0 ] || echo "it is not 0")"
    count "$name: its report" "$(cmp "$report" "$out/report" 2>&1)"
    count "$name: what it says" "$(grep -v "^make: .*taking release/" "$out/said" | diff "$out/wanted" -)"
}

rm -rf "$out"
mkdir -p "$out"
sh tools/program.sh >"$out/program" || exit 1
make help >"$out/help" 2>&1
for target in $(sed -n 's/^\.PHONY: all//p' Makefile); do
    count "make help: $target" "$(grep -q "^make $target  *" "$out/help" || echo "it isn't listed")"
done
count "make help: each line" "$(grep -v '^make ' "$out/help")"

kept="status 0: isolation was kept, and the history is serializable"
broken="status 1: isolation was broken, or the history isn't serializable; the report says which"
runs "make run" examples/write_skew.report "$broken" run
runs "make run HISTORY=.." examples/lost_update.report "$broken" run HISTORY=examples/lost_update.history
runs "make run of a clean history" examples/clean.report "$kept" run HISTORY=examples/clean.history
grep -v -e '^edge' -e '^pivot' examples/write_skew.report >"$out/brief"
runs "make run BRIEF=1" "$out/brief" "$broken" run BRIEF=1
runs "make run BRIEF=0" examples/write_skew.report "$broken" run BRIEF=0
runs "make run EXPLAIN=no" "$out/brief" "$broken" run BRIEF=yes EXPLAIN=no
runs "make run EXPLAIN=1" examples/write_skew.explained "$broken" run EXPLAIN=1
runs "make run EXPLAIN=1 BRIEF=1" examples/write_skew.explained "$broken" run EXPLAIN=1 BRIEF=1
runs "make run CHECK=si" examples/write_skew.report "status 0: isolation was kept" run CHECK=si
fits="status 0: for each transaction there is a snapshot that fits, taken before its first read or write"
runs "make run CHECK=gsi" examples/stale_read.report "$fits" run CHECK=gsi HISTORY=examples/stale_read.history
broken="status 1: for some transaction there is no snapshot that fits, taken before its first read or write; EXPLAIN=1 says why"
runs "make run CHECK=gsi EXPLAIN=1" examples/read_skew.explained "$broken" run CHECK=gsi EXPLAIN=1 HISTORY=examples/read_skew.history
broken="status 1: the history fails the test of serializable snapshot isolation"
runs "make run CHECK=ssi" examples/write_skew.report "$broken" run CHECK=ssi
refused="status 3: the text is no history, and was refused"
runs "make run of a text that is no history" examples/refused.report "$refused" run HISTORY=examples/refused.history
echo "refused: token 8: too many events" >"$out/few"
runs "make run MAX_EVENTS=7" "$out/few" "$refused" run MAX_EVENTS=7
echo "refused: text too long" >"$out/short"
runs "make run MAX_BYTES=9" "$out/short" "$refused" run MAX_BYTES=9
broken="status 1: isolation was broken, or the history isn't serializable; the report says which"
runs "make run with limits that are enough" examples/write_skew.report "$broken" run MAX_EVENTS=8 MAX_BYTES=500000

# failing NAME SAID ARGUMENTS..: make with these arguments fails, and says SAID first.
failing() {
    name=$1
    echo "$2" >"$out/wanted"
    shift 2
    make "$@" >"$out/report" 2>"$out/said"
    count "$name: its status" "$([ $? != 0 ] || echo "it is 0")"
    count "$name: what it says" "$(grep -v "^make: .*taking release/" "$out/said" | head -n 1 | diff "$out/wanted" -)"
}

failing "make run BRIEF=2" "make run: BRIEF is 1 or 0, and not 2" run BRIEF=2
failing "make run CHECK=rc" "make run: CHECK is serializable, ssi, si or gsi, and not rc" run CHECK=rc
said="error: invalid value '0' for '--max-events <N>': 0 is not in 1..=500000000"
failing "make run MAX_EVENTS=0" "$said" run MAX_EVENTS=0
failing "make run EXPLAIN=all" "make run: EXPLAIN is 1 or 0, and not all" run EXPLAIN=all

# Names reach the shell as they are, and what can't be printed is shown.
odd="$out/it's \"odd\" \$(touch $out/ran) \`touch $out/ran\` \$HOME \$\$ #; touch $out/ran.history"
mkdir -p "$(dirname "$odd")"
cp examples/clean.history "$odd"
runs "make run of an odd name" examples/clean.report "$kept" run HISTORY="$odd"
failing "make run of an odd name that isn't there" "make run: there is no file \$(touch $out/ran)" run HISTORY="\$(touch $out/ran)"
failing "make run of a name with control characters" 'make run: there is no file \x1b[31m\x0a\x5cn\xc3\xa9' \
    run HISTORY="$(printf '\033[31m\n\\n\303\251')"
# A Python with no databases to record.
cat >"$out/python" <<'PYTHON'
#!/bin/sh
case $1 in -m) exit 0 ;; esac
exec python3 -B "$@"
PYTHON
chmod 755 "$out/python"
failing "make databases of no number" "usage: databases.py PROGRAM [RUNS [EVENTS]] [--only STORE].. [--keep DIR]" \
    databases PYTHON="$out/python" \
    RUNS="\"; touch $out/ran; echo \"\$(touch $out/ran)"
count "odd names" "$([ ! -e "$out/ran" ] || echo "something ran")"

for name in DESTDIR PREFIX; do
    env "$name=$PWD/a root" make -pn help >"$out/said" 2>&1
    count "make with $name in the environment" "$(grep -qxF "$name := $PWD/a root" "$out/said" || echo "it isn't taken")"
done

rm -rf "$out"
finish
