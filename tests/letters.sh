#!/usr/bin/env bash
# Every string of up to four bytes from 128 up as an attribute's field, by the newer edition and the new rule of letters (two bytes under an
# emulator): the proved reader, from C, and the second one answer each with the same number at the same place.
set -eu
cd "$(dirname "$0")/.."
emulator=$(host/build --emulator)
made=$PWD/target/host
host/build tests/letters.c "$made/letters"
second=$(second/build)
room=$(mktemp -d)
trap 'rm -rf "$room"' EXIT

longest=${emulator:+2}
longest=${longest:-4}
${emulator:+"$emulator"} "$made/letters" "$longest" 1 >"$room/first" &
first=$!
${emulator:+"$emulator"} "$made/letters" "$longest" 2 >"$room/rest" &
rest=$!
"$second" letters "$longest" --letters new >"$room/second"
wait "$first"
wait "$rest"
sort -n -k 2,2 -k 3,3 "$room/first" "$room/rest" >"$room/proved"
echo "letters: $(awk -F '\t' '{ all += $4; good += $5 } END { print all " strings of up to " $2 " bytes, " good " of them letters" }' "$room/proved")"
if ! cmp -s "$room/proved" "$room/second"; then
    echo "letters: the readers differ"
    diff "$room/proved" "$room/second"
    exit 1
fi
