#!/bin/sh
# How files come under DESTDIR and PREFIX, and go again: tools/install.sh, tools/install_companion.sh and tools/uninstall.sh read
# this file with `.`. Each thing that is installed, $1 below, has a manifest share/si_audit/$1.manifest: a line for each of its
# files, with its SHA-256 and its path under PREFIX. A file that no manifest names with this hash is somebody else's.
: "${PREFIX:=/usr/local}"
prefix=$DESTDIR$PREFIX
share=$prefix/share/si_audit
staged=
partial=
# What is installed is for all, whatever the umask.
umask 022

# fail WHY: nothing more is done.
fail() {
    printf 'make install: %s\n' "$1" >&2
    exit 1
}

# hash_of FILE: its SHA-256.
hash_of() {
    line=$(sh tools/sha256.sh <"$1") || return 1
    echo "${line%% *}"
}

# The lines of the manifest, if there is one.
named() {
    [ ! -f "$manifest" ] || cat "$manifest"
}

# is_named PATH: the file at the path is one that the manifest names.
is_named() {
    [ -f "$prefix/$1" ] && [ ! -L "$prefix/$1" ] && hash=$(hash_of "$prefix/$1") && named | grep -qxF "$hash  $1"
}

# beside PATH: where a file stands before it is renamed to its place.
beside() {
    printf '%s\n' "$prefix/$(dirname "$1")/.$(basename "$1").${staged##*.}"
}

# without_cache PATH: removes what Python keeps of a module that is replaced or removed.
without_cache() {
    case $1 in
        *.py) rm -f "$prefix/$(dirname "$1")/__pycache__/$(basename "$1" .py)".*.pyc ;;
    esac
}

# Removes what stands beside its place. Where all is in its place there is nothing.
clean_up() {
    [ -z "$partial" ] || rm -f "$partial"
    if [ -n "$staged" ] && [ -f "$staged" ]; then
        while read -r _ path; do
            rm -f "$(beside "$path")"
        done <"$staged"
        rm -f "$staged"
    fi
}

# begin NAME: what is staged from here on is the thing of this name.
begin() {
    manifest=$share/$1.manifest
    mkdir -p "$share" || fail "$share can't be made"
    trap clean_up EXIT
    trap 'exit 129' HUP
    trap 'exit 130' INT
    trap 'exit 143' TERM
    staged=$(mktemp "$share/.manifest.XXXXXX") || fail "nothing can be written in $share"
}

# stage FILE PATH MODE: writes the file beside its place under PREFIX.
stage() {
    place=$prefix/$2
    if { [ -e "$place" ] || [ -L "$place" ]; } && ! is_named "$2"; then
        fail "$place is there, and no make install has put it there as it is: move it away"
    fi
    mkdir -p "$(dirname "$place")" || fail "$(dirname "$place") can't be made"
    partial=$(beside "$2")
    if ! { (set -C && cat "$1" >"$partial") && chmod "$3" "$partial" && hash=$(hash_of "$partial") &&
        printf '%s  %s\n' "$hash" "$2" >>"$staged"; }; then
        fail "$place can't be written"
    fi
    partial=
}

# Puts all that is staged in its place, and removes what was installed before and is no more. Till that is done the manifest names
# what was there and what comes.
place_all() {
    partial=$staged.both
    if ! { chmod 644 "$staged" && named >"$partial" && cat "$staged" >>"$partial" && mv -f "$partial" "$manifest"; }; then
        fail "$manifest can't be written"
    fi
    partial=
    while read -r _ path; do
        mv -f "$(beside "$path")" "$prefix/$path" || fail "$prefix/$path can't be written"
        without_cache "$path"
    done <"$staged"
    named | while read -r _ path; do
        if ! sed 's/^[^ ]*  //' "$staged" | grep -qxF "$path" && is_named "$path"; then
            rm -f "$prefix/$path" && without_cache "$path"
        fi
    done
    mv -f "$staged" "$manifest" || fail "$manifest can't be written"
    staged=
}
