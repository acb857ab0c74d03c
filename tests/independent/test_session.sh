#!/bin/sh
# Runs a session program ($1) on the session in full and on lines that it must
# skip or refuse, and compares what it prints.
set -eu
program=$1
same() {
    if [ "$2" != "$3" ]; then
        printf 'session: %s: expected\n%s\nbut got\n%s\n' "$1" "$2" "$3" >&2
        exit 1
    fi
}

session='W 0 10\nW 1 11\nW 0 12\nW 2 13\nW 1 14\nR 0\nR 0\nW 0 15'
expected='0 0 1 0
0 1 2 0
0 2 2 0
0 1 2 0
0 2 3 1
0 3 1 1 12
0 1 0 0 12
0 2 3 1'
same 'the session' "$expected" "$(printf "$session\n" | "$program")"
same 'no last newline' "$expected" "$(printf "$session" | "$program")"

skipped='\n \nW\nR\nW \nR \nW 0\nW 0 \nR 0 \nR  0\n R 0\nW 0  1\nW 0 1 \nW 0 1 2\nR 0 0\nR 0\r\n'
skipped=$skipped'r 0\nw 0 1\nR +0\nR -0\nR 0x0\nR 4294967296\nW 0 4294967296\nRR 0\nR\t0\nR0\n'
skipped=$skipped'R 99999999999999999999999999\nR 18446744073709551616\nW 0 1\0\nX 0\nR 0,\nR a\n'
same 'skipped lines' '' "$(printf "$skipped" | "$program")"
same 'skipped lines before the session' "$expected" "$(printf "$skipped$session" | "$program")"
same 'a skipped last line' '' "$(printf 'R 0 x' | "$program")"
same 'no input' '' "$("$program" </dev/null)"

same 'refused and unwritten lines' '6 0 0 0
6 0 0 0
1 0 0 0
0 0 1 0
0 1 0 0 4294967295' \
    "$(printf 'R 3\nW 4294967295 1\nR 2\nW 0000000000000000000000002 04294967295\nR 02\n' |
        "$program")"
echo "session program: all cases agree"
