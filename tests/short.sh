#!/usr/bin/env bash
# Every string of up to three bytes as a file (two under an emulator), by both editions: the proved reader, from C, and the second one
# answer each with the same number at the same place.
set -eu
cd "$(dirname "$0")/.."
emulator=$(host/build --emulator)
made=$PWD/target/host
host/build tests/short.c "$made/short"
second=$(second/build)

longest=${emulator:+2}
longest=${longest:-3}
for edition in new old; do
    proved=$(${emulator:+"$emulator"} "$made/short" "$longest" --edition "$edition")
    other=$("$second" short "$longest" --edition "$edition")
    echo "short: $(printf '%s' "$proved" | cut -f 3) strings, edition $edition"
    if [ "$proved" != "$other" ]; then
        echo "short: the readers differ: $proved, $other"
        exit 1
    fi
done
