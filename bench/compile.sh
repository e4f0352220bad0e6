#!/usr/bin/env bash
# How long the program takes to read a whole description and to make `match all` of it ready, and how much memory: it lists no bytes.
# usage: compile.sh [SPEC ..]
set -eu
top=$(cd -- "$(dirname -- "${BASH_SOURCE[0]}")/.." && pwd)
[ $# -gt 0 ] || set -- "$top"/examples/sparc.sled "$top"/examples/mips.sled "$top"/examples/i486.sled
room=$(mktemp -d)
trap 'rm -rf -- "$room"' EXIT
echo "match all" >"$room/all.match"

# The program is built where it is not there yet.
"$top/sledkit" dis "$top/examples/first.sled" "$top/examples/first.match" 0 </dev/null >/dev/null
program=$top/crates/sledkit/out/sledkit

# processor seconds and peak memory in kB of one run, the better of three
measure() {
    for _ in 1 2 3; do
        /usr/bin/time -f '%U %S %M' -o "$room/time" "$program" dis "$1" "$room/all.match" 0 </dev/null >/dev/null
        awk '{ print $1 + $2, $3 }' "$room/time"
    done | sort -n | head -n 1
}

for spec; do
    read -r seconds memory < <(measure "$spec")
    awk -v name="$(basename "$spec")" -v s="$seconds" -v kb="$memory" 'BEGIN { printf "%s: match all ready in %.2f processor seconds, %.1f MB\n", name, s, kb / 1e3 }'
done
