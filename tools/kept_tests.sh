#!/bin/sh
# Tests which program is taken: the kept one and the built one where they were made from the sources at hand, and no other. It
# does so in a repository of one source, with a kit that builds a script. The last line is 'N passed, M failed'.
. tools/counting.sh
# What make test was told is not for the makes of this test.
unset MAKEFLAGS MFLAGS MAKELEVEL PROGRAM
out=$PWD/out/kept_tests
tree=$out/tree
kept=release/si_audit-x86_64-linux
built=crates/si_audit/out/si_audit

# A kit that notes each build, on a machine that can run the kept program.
make_kit() {
    rm -rf "$out"
    mkdir -p "$out/kit" "$out/few"
    cat >"$out/kit/rt" <<'KIT'
#!/bin/sh
[ "$1" = version ] && echo a kit && exit
echo "$*" >>../../asked
mkdir -p out
{
    printf '#!/bin/sh\n[ "$1" = --version ] || echo the report\nexit 0\n'
    find src -type f -exec sed 's/^/# /' {} +
} >out/si_audit
chmod 755 out/si_audit
KIT
    printf '#!/bin/sh\necho Linux x86_64\n' >"$out/kit/uname"
    printf '#!/bin/sh\necho of another >>"%s/ran"\n' "$out" >"$out/other"
    chmod 755 "$out/kit/rt" "$out/kit/uname" "$out/other"
    # All that the tools use, but for what tells a hash.
    for command in awk basename cat chmod cmp cp cut dirname env find grep head mkdir mktemp mv od printf rm sed sh sort tail tr xargs; do
        ln -s "$(command -v "$command")" "$out/few/$command"
    done
}

# A repository of one source.
make_tree() {
    rm -rf "$tree" "$out/ran"
    mkdir -p "$tree/crates/si_audit/src"
    cp -r tools Makefile docs "$tree"
    echo fn main >"$tree/crates/si_audit/src/main.rt"
    echo si_audit >"$tree/crates.txt"
    : >"$tree/HANDLES"
    echo b1 >"$tree/history"
}

# tool SCRIPT ARGUMENTS..: a script of tools/, in the tree, with the commands of `commands`.
commands=$PATH
tool() {
    script=$1
    shift
    (cd "$tree" && PATH=$out/kit:$commands sh "tools/$script" "$@" 2>"$out/said")
}

# prints NAME WANTED ARGUMENTS..: a script of tools/ with these arguments prints WANTED.
prints() {
    name=$1
    wanted=$2
    shift 2
    told=$(tool "$@")
    count "$name" "$([ "$told" = "$wanted" ] || echo "it prints '$told' and not '$wanted': $(cat "$out/said")")"
}

# A tree whose sources are those of the kept program, which has been built too.
fresh() {
    make_tree
    tool release.sh renew >/dev/null
    rm -f "$tree/asked"
}

# refused NAME WHY: the kept program is not taken, standard error says WHY, and the kit is asked.
refused() {
    rm -rf "$tree/out" "$tree/crates/si_audit/out"
    prints "$1" "$built" program.sh
    count "$1: what it says" "$(grep -q "not taking $kept: $2" "$out/said" || echo "it is '$(cat "$out/said")'")"
    count "$1: the kit" "$([ -s "$tree/asked" ] || echo "it is not asked")"
}

# built_anew NAME: the program that was built before is not taken as it is, and the kit is asked.
built_anew() {
    rm -rf "$tree/release"
    prints "$1" "$built" program.sh
    count "$1: the kit" "$([ -s "$tree/asked" ] || echo "it is not asked")"
}

make_kit
make_tree
prints "no kept program" "" release.sh program
prints "a program that is built" "$built" program.sh
prints "make release" "make release: $kept" release.sh renew
prints "a kept program" "$kept" release.sh program
prints "a kept program is taken" "$kept" program.sh
prints "the program built here" "$kept is the program that was built here, byte for byte" release.sh compare
echo "# changed" >>"$tree/$built"
prints "another program built here" "$kept isn't the program that was built here from the same sources" release.sh compare
echo fn other >>"$tree/crates/si_audit/src/main.rt"
prints "another source" "" release.sh program
prints "another source is built" "$built" program.sh
prints "nothing to compare" "release/ has no program of these sources" release.sh compare

fresh
echo "# evil" >>"$tree/$kept"
prints "a changed program is not compared" "$kept can't be compared: its hash isn't the one that release/MADE_FROM says" release.sh compare
refused "a kept program that was changed" "its hash isn't the one that release/MADE_FROM says"
fresh
rm "$tree/release/MADE_FROM"
refused "no MADE_FROM" "release/MADE_FROM doesn't say"
fresh
sed -i.before /^program/d "$tree/release/MADE_FROM"
refused "no hash of the program" "release/MADE_FROM doesn't say"
fresh
sed -i.before 's/^\(sources\|program\).*/\1 /' "$tree/release/MADE_FROM"
refused "no hashes" "release/MADE_FROM doesn't say"
fresh
rm "$tree/crates.txt"
refused "a source is missing" "the hash of the sources can't be told"
fresh
ln -s /etc/passwd "$tree/crates/si_audit/src/linked.rt"
refused "a link among the sources" "the hash of the sources can't be told"
count "a link among the sources: its name" "$(grep -q 'crates/si_audit/src/linked.rt$' "$out/said" || cat "$out/said")"
fresh
mv "$tree/crates.txt" "$tree/other.txt" && ln -s other.txt "$tree/crates.txt"
refused "a source that is a link" "the hash of the sources can't be told"
fresh
mkdir "$tree/crates/si_audit/src/out"
echo fn out >"$tree/crates/si_audit/src/out/more.rt"
refused "a source in a folder named out" "it was made from other sources"
for made_from in kept missing; do
    fresh
    [ $made_from = kept ] || rm "$tree/release/MADE_FROM"
    commands=$out/few
    refused "nothing that tells a hash, and MADE_FROM $made_from" "the hash of the sources can't be told\|release/MADE_FROM doesn't say"
    commands=$PATH
done

fresh
rm -f "$tree/asked"
rm -rf "$tree/release"
prints "a built program is taken" "$built" program.sh
count "a built program is taken: the kit" "$([ ! -e "$tree/asked" ] || echo "it is asked")"
PATH=$out/kit:$PATH make -C "$tree" build >/dev/null 2>&1
count "make build, with nothing new" "$([ -s "$tree/asked" ] || echo "the kit is not asked")"
fresh
echo fn other >>"$tree/crates/si_audit/src/main.rt"
touch -t 200001010000 "$tree/crates/si_audit/src/main.rt"
built_anew "a source that was changed, with an old date"
fresh
echo "# evil" >>"$tree/$built"
built_anew "a built program that was changed"
fresh
mkdir "$tree/crates/si_audit/src/out"
echo fn out >"$tree/crates/si_audit/src/out/more.rt"
touch "$tree/$built"
built_anew "a built program, and a source in a folder named out"

# A variable PROGRAM that the environment has names no program that the targets take.
fresh
for program in kept built; do
    [ $program = kept ] || rm -rf "$tree/release"
    (cd "$tree" && PROGRAM=$out/other PATH=$out/kit:$PATH make run HISTORY=history) >"$out/report" 2>"$out/said"
    count "make run beside a variable PROGRAM, $program" "$(echo the report | diff - "$out/report")"
done
fresh
(cd "$tree" && PROGRAM=$out/other PATH=$out/kit:$PATH make release) >"$out/report" 2>"$out/said"
count "make release beside a variable PROGRAM" "$(cmp "$tree/$built" "$tree/$kept" 2>&1)"
count "the program of a variable PROGRAM" "$([ ! -e "$out/ran" ] || echo "it ran")"

rm -rf "$out"
finish
