#!/bin/sh
# Tests make install and make uninstall: what they put and remove, and that they destroy nothing, whatever the disk, the umask and
# others do. The last line is 'N passed, M failed'.
. tools/counting.sh
# What make test was told is not for the makes of this test.
unset MAKEFLAGS MFLAGS MAKELEVEL PROGRAM
out=$PWD/out/install_tests
root=$out/a\ root
opt=$root/opt

# listed FILE: the files and links under the root, and the folder of the program's own, written to FILE.
listed() {
    (cd "$root" && find . ! -type d -print && find . -type d -path '*share/si_audit*' -print) | sort >"$1"
}

# installs NAME PREFIX: after two makes of install and two of uninstall all is as it was.
installs() {
    listed "$out/before"
    for target in install install uninstall uninstall; do
        make "$target" DESTDIR="$root" PREFIX="$2" >"$out/said" 2>&1
        count "$1: make $target" "$([ $? = 0 ] || echo "its status is not 0: $(cat "$out/said")")"
        if [ "$target" = install ]; then
            printf 'c2 c1' | "$root$2/bin/si_audit" >"$out/report" 2>"$out/said"
            count "$1: the program" "$(cmp examples/commit_order.report "$out/report" 2>&1)"
            "$root$2/bin/si-history" --version >"$out/report" 2>"$out/said"
            count "$1: si-history" "$(grep -q "^si-history " "$out/report" || echo "it doesn't tell its version: $(cat "$out/said")")"
            for page in si_audit.1 si-history.1; do
                count "$1: $page" "$(cmp "docs/$page" "$root$2/share/man/man1/$page" 2>&1)"
            done
            for file in bash-completion/completions/si_audit bash-completion/completions/si-history zsh/site-functions/_si-history; do
                count "$1: $file" "$([ -s "$root$2/share/$file" ] || echo "it isn't there")"
            done
        else
            count "$1: what make uninstall says" \
                "$(grep -q -e "removed the 3 files of si_audit from" -e "nothing is removed" "$out/said" || cat "$out/said")"
        fi
    done
    listed "$out/after"
    count "$1: what is left" "$(diff "$out/before" "$out/after")"
}

# under_opt TARGET WANTED: the status of make with this target, under PREFIX=/opt, is WANTED.
under_opt() {
    make "$1" DESTDIR="$root" PREFIX=/opt >"$out/said" 2>&1
    status=$?
    count "$test: make $1" "$([ "$status" = "$2" ] || echo "its status is $status and not $2: $(cat "$out/said")")"
}

# all FILE: each file under PREFIX=/opt with what it holds and may be used for, written to FILE.
all() {
    (cd "$opt" && find . ! -type d -exec ls -ld {} + -exec sha256sum {} + 2>/dev/null) >"$1"
}

# stays: all under PREFIX=/opt is as it was when `all` wrote the file `before`.
stays() {
    all "$out/after"
    count "$test: all is as it was" "$(diff "$out/before" "$out/after")"
}

# begin_test NAME: with an empty PREFIX=/opt.
begin_test() {
    test=$1
    rm -rf "$root"
    mkdir -p "$opt/bin"
}

rm -rf "$out"
mkdir -p "$root"
sh tools/program.sh >"$out/program" || exit 1
installs "an empty root" /usr/local
for folder in bin share/si_audit share/man/man1; do
    mkdir -p "$root/opt/$folder"
    echo "of another" >"$root/opt/$folder/other"
done
installs "a root with files of others" /opt
count "files of others" "$(cat "$root"/opt/*/other "$root"/opt/share/*/other "$root"/opt/share/man/man1/other | grep -v "of another")"


for place in bin/si_audit bin/si-history share/man/man1/si-history.1 share/si_audit/si_history/cli.py; do
    for kind in file link folder; do
        begin_test "a $kind of another's at $place"
        mkdir -p "$(dirname "$opt/$place")"
        case $kind in
            file) echo "of another" >"$opt/$place" ;;
            link) ln -s /of/another "$opt/$place" ;;
            folder) mkdir "$opt/$place" && echo "of another" >"$opt/$place/file" ;;
        esac
        all "$out/before"
        under_opt install 2
        count "$test: what it says" "$(grep -q "/$place is there, and no make install has put it there" "$out/said" || cat "$out/said")"
        under_opt uninstall 0
        stays
    done
done

begin_test "a file that was changed since"
under_opt install 0
echo "of another" >"$opt/bin/si-history"
all "$out/before"
make install DESTDIR="$root" PREFIX=/opt >"$out/said" 2>&1
count "$test: make install" "$([ "$(cat "$opt/bin/si-history")" = "of another" ] || echo "it is gone")"
under_opt uninstall 0
count "$test: what is left" "$(cd "$root" && find . ! -type d | grep -vx ./opt/bin/si-history)"
count "$test: it" "$([ "$(cat "$opt/bin/si-history")" = "of another" ] || echo "it is gone")"

for mask in 077 000; do
    begin_test "the umask $mask"
    (umask $mask && make install DESTDIR="$root" PREFIX=/opt) >"$out/said" 2>&1
    count "$test: programs" "$(find "$opt/bin" -type f ! -perm 755)"
    count "$test: files" "$(find "$opt/share" -type f ! -perm 644)"
    count "$test: folders" "$(find "$opt/share" -type d ! -perm 755)"
done

# A file may grow no longer than this, so that the program, whose size is some megabytes, can't be written whole.
begin_test "a limit of file size"
under_opt install 0
all "$out/before"
(ulimit -f 100 && make install DESTDIR="$root" PREFIX=/opt) >"$out/said" 2>&1
count "$test: make install" "$([ $? != 0 ] || echo "its status is 0")"
stays

# An interrupt: the third chmod sends one to the shell that called it.
begin_test "an interrupt"
under_opt install 0
all "$out/before"
mkdir "$out/kit"
cat >"$out/kit/chmod" <<CHMOD
#!/bin/sh
echo >>"$out/chmods"
[ "\$(wc -l <"$out/chmods")" -lt 3 ] || kill -TERM \$PPID
exec "$(command -v chmod)" "\$@"
CHMOD
chmod 755 "$out/kit/chmod"
PATH=$out/kit:$PATH make install DESTDIR="$root" PREFIX=/opt >"$out/said" 2>&1
count "$test: make install" "$([ $? != 0 ] || echo "its status is 0")"
under_opt uninstall 0
count "$test: what is left" "$(find "$root" ! -type d)"

# What an older version had, and a newer one hasn't, goes when the newer one is installed.
begin_test "another version"
mkdir -p "$out/tree"
cp -R tools companion docs "$out/tree"
echo "pass" >"$out/tree/companion/si_history/older.py"
for version in older newer; do
    (cd "$out/tree" && DESTDIR=$root PREFIX=/opt sh tools/install_companion.sh) >"$out/said" 2>&1
    count "$test: the $version one" "$([ $? = 0 ] || cat "$out/said")"
    "$opt/bin/si-history" --version >"$out/said" 2>&1
    rm -f "$out/tree/companion/si_history/older.py"
done
count "$test: its module" "$(find "$opt" -name 'older*')"
under_opt uninstall 0
count "$test: what is left" "$(find "$root" ! -type d)"

begin_test "a manifest of an attacker"
mkdir -p "$opt/share/si_audit"
echo "of another" >"$root/kept"
printf '%s  ../kept\n' "$(sha256sum <"$root/kept" | cut -d ' ' -f 1)" >"$opt/share/si_audit/si_audit.manifest"
make uninstall DESTDIR="$root" PREFIX=/opt >"$out/said" 2>&1
count "$test: what it names" "$([ -f "$root/kept" ] || echo "it is gone")"

rm -rf "$out"
finish
