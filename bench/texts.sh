#!/usr/bin/env bash
# How long the program takes over the longest texts: lexemes, brackets, long chains, many declarations.
set -u
top=$(cd -- "$(dirname -- "${BASH_SOURCE[0]}")/.." && pwd)
room=$(mktemp -d)
trap 'rm -rf -- "$room"' EXIT
cd -- "$room" || exit 1
# The program is built where it is not there yet.
"$top/sledkit" dis "$top/examples/first.sled" "$top/examples/first.match" 0 </dev/null || exit 1

repeat() {
    yes "$1" | head -n "$2" | paste -sd "$3"
}

cp -- "$top/examples/first.sled" spec
repeat a 524288 ' ' >one_letter_words
{ printf 'match case '; repeat '(' 1048500 ' ' | tr -d ' \n'; } >brackets
{ printf 'match case '; repeat 'v = 1 ' 100000 '&'; printf ' => "x"'; } >conjunction
{ printf 'match case '; repeat 'op ' 200000 '|'; printf ' => "x"'; } >alternatives
{ cat spec; awk 'BEGIN { for (i = 0; i < 40000; i++) printf "fields of c%d (32)\n", i }'; } >declarations
{ cat spec; awk 'BEGIN { print "patterns"; for (i = 0; i < 34000; i++) printf "p%d is op = %d & v < %d\n", i, i % 256, i }'; } >definitions
{ cat spec; awk 'BEGIN { printf "patterns g ["; for (i = 0; i < 65536; i++) printf " m%d", i; print " ] is op = {0 to 255} & v = {0 to 255}" }'; } >group
{ printf 'fields of b (8) x 0:7\n'; } >byte
{ printf 'match case x != 0 ; x != 0 ; x != 0 ; x != 0 => "x"\n'; } >wide_arm

TIMEFORMAT='%3R s'
measure() {
    printf '%s (%s bytes): ' "$1" "$(stat -c %s -- "$1")"
    time "$top/sledkit" dis "$2" "$3" 0 </dev/null >/dev/null 2>said
    printf '    %s\n' "$(cat said)"
}

measure one_letter_words one_letter_words spec
measure brackets spec brackets
measure conjunction spec conjunction
measure alternatives spec alternatives
measure declarations declarations spec
measure definitions definitions spec
measure group group spec
measure wide_arm byte wide_arm
