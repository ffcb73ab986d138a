#!/usr/bin/env bash
# Builds the host in C against the library, and runs it on texts whose cause is known.
# CC names another compiler than gcc or cc.
set -eu
cd "$(dirname "${BASH_SOURCE[0]}")/.."

library=crates/host/out/libhost.a
out=target/host
host=$out/vangprune-host

if [ -z "${CC:-}" ]; then
    CC=$(command -v gcc || command -v cc) || { echo "host: no C compiler" >&2; exit 2; }
fi
[ -f "$library" ] || (cd crates/host && rt lib)
mkdir -p "$out"
"$CC" -std=c99 -O2 -Wall -Wextra -Wpedantic -Werror -Iinclude -o "$host" host/main.c "$library"

passed=0
failed=0

# What is tried, the exit status and the output due, then the words for the host; its standard input is ours.
try() {
    local what=$1 status_due=$2 output_due=$3 output status=0
    shift 3
    output=$("$host" "$@" 2>"$out/stderr") || status=$?
    if [ "$output" = "$output_due" ] && [ "$status" -eq "$status_due" ]; then
        passed=$((passed + 1))
    else
        failed=$((failed + 1))
        echo "host: $what: '$output', exit $status; due '$output_due', exit $status_due"
    fi
}

worked=examples/worked.txt
# Edits of the worked example, and a text that is too long.
sed '10s/.*/-5 20/' "$worked" >"$out/push-20.txt"
sed '10s/.*/-5 21/' "$worked" >"$out/push-21.txt"
printf %s "$(cat "$worked")" >"$out/cut.txt"
tr 4 '\000' <"$worked" >"$out/damaged.txt"
head -c 60001 /dev/zero | tr '\000' 9 >"$out/long.txt"

try "worked example" 0 "cause 0" "$worked" </dev/null
try "worked example, standard input" 0 "cause 0" - <"$worked"
try "worked example, no argument" 0 "cause 0" <"$worked"
try "push-high 20" 0 "cause 0" "$out/push-20.txt" </dev/null
try "push-high 21" 1 "cause 16" "$out/push-21.txt" </dev/null
try "empty input" 1 "cause 1" </dev/null
try "last line feed left out" 1 "cause 2" "$out/cut.txt" </dev/null
try "NUL for each 4" 1 "cause 3" "$out/damaged.txt" </dev/null
try "60,001 bytes" 1 "cause 1" "$out/long.txt" </dev/null
try "no such file" 2 "" "$out/none.txt" </dev/null

echo "host: $passed passed, $failed failed"
[ "$failed" -eq 0 ]
