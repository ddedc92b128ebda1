#!/bin/sh
# The proved program that is kept in release/, so that a first report takes seconds, and what it was made from.
#   sh tools/release.sh sources   prints the hash of all that the program is made from
#   sh tools/release.sh program   prints the path of the kept program, where it and the sources at hand are those that MADE_FROM
#                                 names, and it runs here; else it says on standard error why it isn't taken
#   sh tools/release.sh renew     keeps the program that was proved and built last
#   sh tools/release.sh compare   fails where the program built here differs from one that was kept of the same sources, and
#                                 where the kept one can't be checked, or isn't the one that was kept
built=crates/si_audit/out/si_audit
kept=release/si_audit-x86_64-linux
made_from=release/MADE_FROM

# What stands among the sources and has type $1, as find has it, or hasn't, where $1 is `!`. Only the folder out of a crate
# itself is none of the sources.
among() {
    find crates crates.txt HANDLES -path 'crates/*/out' ! -path 'crates/*/*/out' -prune -o "$@"
}

# The hash of the sources, whose names and bytes count and whose dates don't. It fails where that can't be told.
sources() {
    odd=$(among ! -type f ! -type d -print) || return 1
    if [ -n "$odd" ]; then
        printf 'make: among the sources there is a link, or another thing that is no file: %s\n' "$odd" >&2
        return 1
    fi
    hashes=$(among -type f -exec sh tools/sha256.sh {} +) || return 1
    printf '%s\n' "$hashes" | LC_ALL=C sort -k 1.67 | hash_of
}

# hash_of [FILE]: the hash of a file, or of standard input, alone.
hash_of() {
    line=$(sh tools/sha256.sh "$@") || return 1
    echo "${line%% *}"
}

# said WORD: what stands behind the word in MADE_FROM.
said() {
    sed -n "s/^$1 //p" "$made_from"
}

# Whether the kept program was made from the sources at hand. Where it wasn't, `why` says so, and the status is 1 where the
# sources are others, and 2 where the kept program can't be checked or isn't the one that was kept.
fits() {
    why=
    if [ ! -f "$kept" ]; then
        why="there is none"
        return 1
    elif [ ! -r "$made_from" ] || [ -z "$(said sources)" ] || [ -z "$(said program)" ]; then
        why="$made_from doesn't say of what sources it was made, or what its hash is"
    elif ! here=$(sources); then
        why="the hash of the sources can't be told"
    elif [ "$(said sources)" != "$here" ]; then
        why="it was made from other sources"
        return 1
    elif ! here=$(hash_of "$kept"); then
        why="its hash can't be told"
    elif [ "$(said program)" != "$here" ]; then
        why="its hash isn't the one that $made_from says"
    fi
    [ -z "$why" ] || return 2
}

# Keeps the built program. What was kept before stays until all is there.
renew() {
    before=$(sources) || return 1
    sh tools/build.sh always || return 1
    if [ "$(sources)" != "$before" ]; then
        echo "make release: a source was changed meanwhile" >&2
        return 1
    fi
    mkdir -p release && cp "$built" "$kept.new" && chmod 755 "$kept.new" || return 1
    hash=$(hash_of "$kept.new") || return 1
    printf 'sources %s\nprogram %s\nkit %s\n' "$before" "$hash" "$(rt version)" >"$made_from.new" || return 1
    mv -f "$kept.new" "$kept" && mv -f "$made_from.new" "$made_from" || return 1
    echo "make release: $kept"
}

case $1 in
    sources) sources ;;
    program)
        if [ "$(uname -s -m)" != "Linux x86_64" ]; then
            why="it is one for Linux on x86_64"
        elif fits && ! "$kept" --version >/dev/null 2>&1; then
            why="it doesn't run here"
        fi
        if [ -n "$why" ]; then
            echo "make: not taking $kept: $why" >&2
        else
            echo "$kept"
        fi
        ;;
    renew)
        trap 'rm -f "$kept.new" "$made_from.new"' EXIT
        renew
        ;;
    compare)
        fits
        case $? in
            0)
                if cmp "$kept" "$built"; then
                    echo "$kept is the program that was built here, byte for byte"
                else
                    echo "$kept isn't the program that was built here from the same sources"
                    exit 1
                fi
                ;;
            1) echo "release/ has no program of these sources" ;;
            *)
                echo "$kept can't be compared: $why"
                exit 1
                ;;
        esac
        ;;
    *)
        echo "release.sh: say sources, program, renew or compare" >&2
        exit 2
        ;;
esac
