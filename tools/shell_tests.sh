#!/bin/sh
# Tests the scripts themselves: what shellcheck warns of, where it is installed; how names are shown; and what
# tools/install_databases.sh leaves behind. The last line is 'N passed, M failed'.
. tools/counting.sh
out=$PWD/out/shell_tests
rm -rf "$out"
mkdir -p "$out/kit"

if command -v shellcheck >/dev/null 2>&1; then
    for script in .ci/run tools/*.sh; do
        count "shellcheck $script" "$(shellcheck -x -S warning "$script")"
    done
else
    echo "left out: there is no shellcheck"
fi

# shows TEXT WANTED: the text is shown as WANTED.
shows() {
    shown=$(sh tools/shown.sh "$1")
    count "shown as $2" "$([ "$shown" = "$2" ] || printf "it is '%s'" "$shown")"
}

shows "examples/clean.history" "examples/clean.history"
shows "" ""
shows "-n" "-n"
shows "it's 100%s \$HOME" "it's 100%s \$HOME"
shows "$(printf 'a\033[31m\tb\nc\177')" 'a\x1b[31m\x09b\x0ac\x7f'
shows "$(printf '\303\251\377\\n')" '\xc3\xa9\xff\x5cn'

# install_databases.sh with a file of this test in the place of policy-rc.d, as root, beside an apt-get that does what $1 says.
policy=$out/policy-rc.d
sed "s|^policy=.*|policy='$policy'|" tools/install_databases.sh >"$out/install_databases.sh"
count "install_databases: the file of this test" "$(grep -qxF "policy='$policy'" "$out/install_databases.sh" || echo "it isn't taken")"
printf '#!/bin/sh\necho 0\n' >"$out/kit/id"
for command in dpkg-query dpkg-deb install systemctl; do
    printf '#!/bin/sh\n' >"$out/kit/$command"
done
# What a shell runs in the background ignores interrupts, and so does all that it starts, but for this.
heeding='import os, signal, sys; signal.signal(signal.SIGINT, signal.SIG_DFL); os.execvp(sys.argv[1], sys.argv[1:])'
installs() {
    printf '#!/bin/sh\n[ -x "%s" ] && echo >>"%s/asked"\n%s\n' "$policy" "$out" "$1" >"$out/kit/apt-get"
    chmod 755 "$out"/kit/*
    rm -f "$out/asked"
    PATH=$out/kit:$PATH python3 -c "$heeding" sh "$out/install_databases.sh" >"$out/report" 2>"$out/said"
    status=$?
    count "install_databases, $1: its status" "$([ "$status" = "$2" ] || echo "it is $status and not $2: $(cat "$out/said")")"
    count "install_databases, $1: policy-rc.d while it installs" "$([ -s "$out/asked" ] || echo "there is none")"
}

for end in "exit 0:0" "exit 7:1" 'kill -HUP $PPID; sleep 1:129' 'kill -INT $PPID; sleep 1:130' 'kill -TERM $PPID; sleep 1:143'; do
    installs "${end%:*}" "${end##*:}"
    count "install_databases, ${end%:*}: policy-rc.d" "$([ ! -e "$policy" ] || echo "it stays")"
    rm -f "$policy"
done
echo "of another" >"$policy"
chmod 755 "$policy"
installs 'kill -TERM $PPID; sleep 1' 143
count "install_databases: policy-rc.d of another" "$([ "$(cat "$policy")" = "of another" ] || echo "it is gone")"

rm -rf "$out"
finish
