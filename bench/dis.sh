#!/usr/bin/env bash
# How fast the program lists an image of 16 MiB, made by repeating a small one, and how much memory it takes.
# usage: dis.sh [SPEC MATCH IMAGE]
# Where objdump is there, it lists the same image in the same run, as bytes of an i386. Both write to nowhere.
set -eu
top=$(cd -- "$(dirname -- "${BASH_SOURCE[0]}")/.." && pwd)
spec=${1:-$top/examples/sparc.sled}
match=${2:-$top/examples/sparc.match}
small=${3:-$top/examples/sparc.bin}
room=$(mktemp -d)
trap 'rm -rf -- "$room"' EXIT

# The program is built where it is not there yet.
"$top/sledkit" dis "$spec" "$match" 0 </dev/null >/dev/null
program=$top/crates/sledkit/out/sledkit

# whole copies of the small image, at least 16 MiB together
size=$(stat -c %s -- "$small")
copies=$(((16777216 + size - 1) / size))
python3 - "$small" "$copies" >"$room/image" <<'P'
import sys
with open(sys.argv[1], "rb") as small:
    sys.stdout.buffer.write(small.read() * int(sys.argv[2]))
P
bytes=$(stat -c %s -- "$room/image")

# processor seconds and peak memory in kB of one run, the better of three
measure() {
    for _ in 1 2 3; do
        /usr/bin/time -f '%U %S %M' -o "$room/time" "$@" <"$room/image" >/dev/null
        awk '{ print $1 + $2, $3 }' "$room/time"
    done | sort -n | head -n 1
}

read -r ours memory < <(measure "$program" dis "$spec" "$match" 0)
awk -v bytes="$bytes" -v s="$ours" -v kb="$memory" 'BEGIN { printf "sledkit: %.1f MB in %.2f processor seconds, %.1f MB a second; peak memory %.1f MB\n", bytes / 1e6, s, bytes / 1e6 / s, kb / 1e3 }'
if command -v objdump >/dev/null; then
    read -r theirs memory < <(measure objdump -D -b binary -m i386 "$room/image")
    awk -v bytes="$bytes" -v s="$theirs" -v kb="$memory" -v ours="$ours" 'BEGIN { printf "objdump: %.1f MB in %.2f processor seconds, %.1f MB a second; peak memory %.1f MB\nratio %.1f\n", bytes / 1e6, s, bytes / 1e6 / s, kb / 1e3, s / ours }'
else
    echo "no objdump here"
fi
