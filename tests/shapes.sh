#!/usr/bin/env bash
# The shapes and labels of layers by a host that knows the headers alone (tests/shapes.c), against what was worked out by hand; also under
# AddressSanitizer where it runs. `imager apertures` and `imager label` against the second reader: on generated files, on the cases' and
# the layers that stand beside the repository, where they do. A number as its one word is how many files are generated, 150 without it.
set -eu
cd "$(dirname "$0")/.."
made=$PWD/target/host
emulator=$(host/build --emulator)
room=$(mktemp -d)
trap 'rm -rf "$room"' EXIT
count=${1:-150}

host/build tests/shapes.c "$made/shapes"
programs=("$made/shapes")
if [ -z "$emulator" ] && host/build tests/shapes.c "$made/shapes-asan" -fsanitize=address -g 2>/dev/null; then
    programs+=("$made/shapes-asan")
fi
cp tests/shapes/*.gbr examples/strip.gbr "$room"
for program in "${programs[@]}"; do
    for expected in tests/shapes/*.expected; do
        name=$(basename "$expected" .expected)
        ${emulator:+"$emulator"} "$program" <"$room/$name.gbr" | diff - "$expected" || { echo "shapes: $name by $(basename "$program")"; exit 1; }
    done
done
echo "shapes: as worked out by hand"

host/build host/imager.c "$made/imager"
second=$(second/build)

# Both answers about each file named on standard input.
agree() { # WHAT [TERMS]
    local what=$1 file word agree=0
    shift
    while read -r file; do
        for word in apertures label; do
            if ! cmp -s <(${emulator:+"$emulator"} "$made/imager" "$word" "$@" <"$file" 2>/dev/null) <("$second" "$word" "$@" <"$file"); then
                echo "shapes: $word $* of $(basename "$file") is not what the second reader answers"
                cp "$file" "$made/differs.gbr"
                exit 1
            fi
            agree=$((agree + 1))
        done
    done
    echo "shapes: $what${*:+, $*}: $agree agree, 0 differ"
}

find tests/shapes examples -name '*.gbr' | sort | agree "examples"
for terms in "" "--letters new" "--edition old"; do
    read -r -a terms <<<"$terms"
    rm -rf "$room/made"
    "$second" make 24 "$count" "$room/made" "${terms[@]}"
    find "$room/made" -name '*.gbr' | sort | agree "generated" "${terms[@]}"
done
if [ -f ../shared/corpus/kicad-layers.tgz ]; then
    mkdir "$room/layers"
    tar xzf ../shared/corpus/kicad-layers.tgz -C "$room/layers"
    find "$room/layers" -type f | sort | agree "layers"
fi
