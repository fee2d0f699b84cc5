#!/usr/bin/env bash
# The cases of the repository's own, tests/own: what the sample host and the second reader answer to each question of `answers` is what
# stands below it. Every number that a file and a question can get is among the answers, so that a clone alone tries each of them.
set -eu
cd "$(dirname "$0")/.."
made=$PWD/target/host
emulator=$(host/build --emulator)
host/build host/imager.c "$made/imager"
second=$(second/build)
room=$(mktemp -d)
trap 'rm -rf "$room"' EXIT
imager() { ${emulator:+"$emulator"} "$made/imager" "$@" 2>/dev/null; }
own=tests/own
faults=0

# All questions again, each with this reader's answer.
answered() { # PROGRAM
    local mark name words
    grep '^? ' "$own/answers" | while read -r mark name words; do
        read -r -a words <<<"$words"
        echo "$mark $name ${words[*]}"
        "$@" "${words[@]}" <"$own/$name.gbr"
    done
}
answered imager >"$room/imager"
answered "$second" >"$room/second"
for reader in imager second; do
    cmp -s "$room/$reader" "$own/answers" && continue
    echo "own: $reader answers otherwise:"
    diff "$room/$reader" "$own/answers" | head -n 10
    faults=$((faults + 1))
done
for number in {2..20} 22 23 24 25 29 30 31 32 33; do # 1, 21 and 101 in tests/refusals.sh
    grep -q "^refused	$number\($\|	\)" "$own/answers" || { echo "own: no question gets $number"; faults=$((faults + 1)); }
done
echo "own: $(grep -c '^? ' "$own/answers") questions about $(ls "$own"/*.gbr | wc -l) files, every number among the answers; $faults faults"
[ "$faults" -eq 0 ]
