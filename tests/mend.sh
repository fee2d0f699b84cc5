#!/usr/bin/env bash
# Mending: the call from C (tests/mending.c), also under AddressSanitizer where it runs; the program mend, its output, its words and its exit
# status; the sample host against the second reader on broken files that are made for it, with room for all and in small rooms, under both
# editions and both rules of letters; and on cuts of real layers and films that stand beside the repository, where they do: up to ten of each, at
# each of their last 150 bytes, or as many as are asked for.
#   tests/mend.sh [CUTS [FILES [SEED]]]
set -eu
cd "$(dirname "$0")/.."
cuts=${1:-150}
files=${2:-3000}
seed=${3:-13}
made=$PWD/target/host
emulator=$(host/build --emulator)
host/build host/imager.c "$made/imager"
host/build host/mend.c "$made/mend"
second=$(second/build)
room=$(mktemp -d)
trap 'rm -rf "$room"' EXIT
host/build tests/mending.c "$made/mending"
${emulator:+"$emulator"} "$made/mending"
if [ -z "$emulator" ] && host/build tests/mending.c "$made/mending-asan" -fsanitize=address -g 2>/dev/null; then
    "$made/mending-asan" >/dev/null
    echo "mend: the same under AddressSanitizer"
else
    echo "SKIPPED: AddressSanitizer does not run here"
fi
imager() { ${emulator:+"$emulator"} "$made/imager" "$@"; }
mend() { ${emulator:+"$emulator"} "$made/mend" "$@"; }

# The program: what it writes, what it says, how it ends.
tried() { # FILE MENDED STATUS SAYING WORDS
    local status=0
    printf '%b' "$1" | mend "${@:5}" >"$room/out" 2>"$room/said" || status=$?
    printf '%b' "$2" >"$room/want"
    if ! cmp -s "$room/out" "$room/want" || [ "$status" -ne "$3" ] || ! grep -q -- "$4" "$room/said"; then
        echo "mend: of '$1' it says '$(cat "$room/said")' and ends with $status"
        exit 1
    fi
}
layer='%FSLAX36Y36*%%MOMM*%%ADD10C,0.5*%D10*G01*X0Y0D03*'
tried "${layer}M02*\n" "${layer}M02*\n" 0 'nothing to mend'
tried "${layer}\n%ADD11C,0." "${layer}M02*" 0 'at byte 49: the file stops without its end'
tried "${layer}\n%ADD11C,0." "${layer}M02*" 0 'at byte 49: .* 11 bytes are taken off'
tried "${layer}%MOMM*%M02*" "${layer}M02*" 0 'at byte 49: MO stands there once more'
tried "${layer}M02*-- \nSent\n" "${layer}M02*" 0 'at byte 53: more follows'
tried "${layer}%MOIN*%M02*" "" 1 'not mended (33)'
tried "${layer}G04 \0303\0251*\n" "" 1 'not mended (33)'
tried "${layer}G04 \0303\0251*\n" "${layer}G04 \0303\0251*M02*" 0 'at byte 56: the file stops' --letters new
tried "" "" 2 'usage' --letters
tried "" "" 2 'usage' --edition
tried "" "" 2 'usage' --edition older
tried "" "" 2 'usage' --edition old --letters new layer
film='%FSTIX23Y23*%G70*%ADD10R,.1X.1*%G54D10*G1X1Y1D3*'
tried "${film}M2*\n" "${film}M2*\n" 0 'nothing to mend' --edition old
tried "${film}M2*-- \nSent\n" "${film}M2*" 0 'at byte 51: more follows' --letters old --edition old
tried "${film}G4 \0303\0251*\nG54" "${film}G4 \0303\0251*M02*" 0 'at byte 54: the file stops' --edition old --letters new
tried "${film}%IPPOS*%M2*" "" 1 'not mended (33)' --edition old
tried "${film}M2*" "" 1 'not mended (33)' --edition new
head -c 16777217 /dev/zero >"$room/long"
if mend <"$room/long" >"$room/out" 2>"$room/said" || [ -s "$room/out" ] || ! grep -q 'not mended (1)' "$room/said"; then
    echo "mend: of a file that is too long it says '$(cat "$room/said")'"
    exit 1
fi
echo "mend: the program writes, says and ends as it should"

# What both answer, line by line.
agree() { # WHAT
    if ! cmp -s "$room/one" "$room/other"; then
        "$second" compare "$room/one" "$room/other" | head -n 10
        echo "mend: $1: they differ"
        exit 1
    fi
    awk -F '[\t ]' -v what="$1" '
        $2 == "refused" { refused[$3]++; next } $2 == "unchanged" { same++; next } { mended++ }
        END { printf "mend: %s: %d agree, %d mended, %d unchanged", what, NR, mended, same; for (n in refused) printf ", %d refused with %d", refused[n], n; print "" }' "$room/one"
}

for terms in "" "--letters new" "--edition old" "--edition old --letters new"; do
    read -r -a terms <<<"$terms"
    rm -rf "$room/made"
    "$second" make "$seed" "$files" "$room/made" --for mend "${terms[@]}"
    find "$room/made" -name '*.gbr' | sort >"$room/names"
    for lent in "" 2,2,1,4; do
        words=(mends ${lent:+--room "$lent"} "${terms[@]}")
        imager "${words[@]}" <"$room/names" >"$room/one"
        "$second" "${words[@]}" <"$room/names" >"$room/other"
        agree "made files${terms[*]:+, ${terms[*]}}${lent:+, room $lent}"
    done
done

# Ten layers, every third of those from 3,000 bytes on, up to some 90,000, each cut at its last bytes.
cut_layers() { # LAYERS [TERMS]
    local layers=$1 archive=../shared/corpus/$1.tgz layer
    shift
    if [ ! -f "$archive" ]; then
        echo "SKIPPED: no $archive beside the repository, so no real layer is cut"
        return 0
    fi
    mkdir "$room/$layers"
    tar xzf "$archive" -C "$room/$layers"
    find "$room/$layers" -name '*.gbr' -size +2999c -size -90000c -printf '%s %p\n' | sort -n | awk 'NR % 3 == 1 { print $2 }' | head -n 10 >"$room/ten"
    : >"$room/one"
    : >"$room/other"
    while read -r layer; do
        imager cuts "$cuts" --room 8000,800,100,8000 "$@" <"$layer" >>"$room/one"
        "$second" cuts "$cuts" --room 8000,800,100,8000 "$@" <"$layer" >>"$room/other"
    done <"$room/ten"
    agree "$(wc -l <"$room/ten") of $layers cut at each of their last $cuts bytes${*:+, $*}"
}
cut_layers kicad-layers
cut_layers old-layers --edition old
