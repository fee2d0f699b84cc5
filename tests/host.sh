#!/usr/bin/env bash
# The calls for a host, from C: tests/host.c, also under AddressSanitizer where it runs; the header from C++, where there is a C++
# compiler; the sample host against the second reader, on generated files with and without room, by both editions, and on the layers that
# stand beside the repository, where they do; and its answer to words that name no edition or no rule of letters.
set -eu
cd "$(dirname "$0")/.."
made=$PWD/target/host
emulator=$(host/build --emulator)
room=$(mktemp -d)
trap 'rm -rf "$room"' EXIT

host/build tests/host.c "$made/host"
${emulator:+"$emulator"} "$made/host"
if [ -z "$emulator" ] && host/build tests/host.c "$made/host-asan" -fsanitize=address -g 2>/dev/null; then
    "$made/host-asan"
    echo "host: the same under AddressSanitizer"
else
    echo "SKIPPED: AddressSanitizer does not run here"
fi
if command -v g++ >/dev/null; then
    printf '#include "sheet.h"\nint main() { struct sheet_item t = {}; return (int)t.kind + (int)sheet_entries_for(0); }\n' >"$room/plus.cc"
    g++ -std=c++11 -Wall -Wextra -Werror -fsyntax-only -I host "$room/plus.cc"
else
    echo "SKIPPED: no g++, so the header is not tried from C++"
fi

# What the short call reads has changed (document 02, [10]): nothing of ours calls it but its own test.
if grep -lE '(^|[^a-z_])sheet_read\(' host/*.[ch] bench/*.[ch] tests/*.c | grep -vx -e host/sheet.h -e tests/host.c; then
    echo "host: these call sheet_read, and name no edition"
    exit 1
fi

imager() { ${emulator:+"$emulator"} "$made/imager" "$@"; }
host/build host/imager.c "$made/imager"
second=$(second/build)

# The same list of files by both: every line must be the same.
agree() { # LIST [WORDS]
    local list=$1
    shift
    imager batch "$@" <"$list" >"$room/one"
    "$second" batch "$@" <"$list" >"$room/other"
    "$second" compare "$room/one" "$room/other" >"$room/told" || true
    echo "host: $(basename "$list") $*: $(tail -n 1 "$room/told")"
    cmp -s "$room/one" "$room/other" || { head -n 6 "$room/told"; exit 1; }
}

mkdir "$room/made"
"$second" make 8 600 "$room/made"
find "$room/made" -type f | sort >"$room/generated"
agree "$room/generated"
agree "$room/generated" --room 20,6,2,20
agree "$room/generated" --edition new --letters old
mkdir "$room/old"
"$second" make 8 600 "$room/old" --edition old
find "$room/old" -type f | sort >"$room/films"
agree "$room/films" --edition old
agree "$room/films" --room 20,6,2,20 --edition old

# Words that name nothing end with the usage and status 2, in every mode.
for mode in list sheet "items 0 1" "address 0" "number 0 1" numbers "attribute TA 0 a" verify mend mends "cuts 1" summary batch; do
    for words in --edition "--edition older" "--edition 2" "--letters OLD" --letters; do
        read -r -a asked <<<"$mode $words"
        status=0
        imager "${asked[@]}" </dev/null >"$room/one" 2>"$room/told" || status=$?
        if [ "$status" -ne 2 ] || [ -s "$room/one" ] || ! grep -q usage "$room/told"; then
            echo "host: \`${asked[*]}\` ends with $status"
            exit 1
        fi
    done
done

if [ -f ../shared/corpus/kicad-layers.tgz ]; then
    mkdir "$room/layers"
    tar xzf ../shared/corpus/kicad-layers.tgz -C "$room/layers"
    find "$room/layers" -type f -size -200k | sort >"$room/kicad"
    agree "$room/kicad"
else
    echo "SKIPPED: no ../shared/corpus/kicad-layers.tgz beside the repository, so no real layer"
fi
