#!/usr/bin/env bash
# How long the program takes to list an image of 4,000,000 bytes, a line for each 4 of them.
set -u
top=$(cd -- "$(dirname -- "${BASH_SOURCE[0]}")/.." && pwd)
room=$(mktemp -d)
trap 'rm -rf -- "$room"' EXIT
image=$room/image
yes "$(printf '\001\002\003\005')" | tr -d '\n' | head -c 4000000 >"$image"

TIMEFORMAT='%3R s'
time "$top/sledkit" dis "$top/examples/first.sled" "$top/examples/first.match" 0 <"$image" >"$room/listing"
wc -lc <"$room/listing"
