#!/bin/sh
# Prints a text on one line, so that nothing in it can upset a terminal: sh tools/shown.sh TEXT. As in the report's explained
# refusal, every byte that is no printable ASCII, and the backslash, is \x and its two hexadecimal digits; but a space is one.
printf '%s' "$1" | LC_ALL=C od -An -v -tx1 | tr -s ' ' '\n' | LC_ALL=C awk '
    BEGIN { for (i = 0; i < 16; i++) digit[substr("0123456789abcdef", i + 1, 1)] = i }
    /./ {
        code = 16 * digit[substr($0, 1, 1)] + digit[substr($0, 2, 1)]
        if (code >= 32 && code < 127 && code != 92) printf "%c", code
        else printf "\\x%s", $0
    }
    END { print "" }'
