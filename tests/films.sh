#!/usr/bin/env bash
# Films made by hand, read by the old edition: what tests/films/answers says of each of its lines, and the listings that stand beside the
# other films of tests/films, gone through against request [9] of document 02. The sample host and the second reader must both answer so; by
# the newer edition they must answer these films alike.
set -eu
cd "$(dirname "$0")/.."
mapfile -t imager < <(./run --say imager)
[ ${#imager[@]} -gt 0 ] || exit 1
second=$(second/build)
room=$(mktemp -d)
trap 'rm -rf "$room"' EXIT
faults=0

# Each line's film as a file, named for the line; and what is wanted of it, as a batch says it.
awk -v room="$room" '
    /^#/ || NF == 0 { next }
    $1 == "head" { head = substr($0, 6); next }
    {
        film = head substr($0, length($1) + 2)
        want = "sheet " $1
        if ($1 ~ /^[0-9]+$/) {
            want = "refused " $1 " " (index(film, "|") - 1)
            sub(/\|/, "", film)
        }
        name = room "/" NR ".gbr"
        printf "%s", film >name
        close(name)
        print name "\t" want
    }' tests/films/answers >"$room/want"
cut -f 1 "$room/want" >"$room/names"
echo "films: $(wc -l <"$room/names") films of one line"

# A reader's answers to those: the wanted words, and after those of an accepted film its counts.
answered() { # READER PROGRAM
    local reader=$1
    shift
    "$@" batch --edition old <"$room/names" | paste "$room/want" - | awk -F '\t' -v reader="$reader" '
        $1 != $3 || index($4 " ", $2 " ") != 1 { sub(/.*\//, "", $1); print "films: line " $1 + 0 " is \"" $2 "\", and the " reader " says \"" $4 "\""; n++ }
        END { exit n != 0 }' || faults=$((faults + 1))
}
answered "sample host" "${imager[@]}"
answered "second reader" "$second"

# Its listings of the others.
listed() { # READER PROGRAM
    local reader=$1 file
    shift
    for file in tests/films/*.gbr; do
        "$@" list --edition old <"$file" | cmp -s - "${file%.gbr}.expected" && continue
        echo "films: the $reader lists $file otherwise"
        faults=$((faults + 1))
    done
}
listed "sample host" "${imager[@]}"
listed "second reader" "$second"
printf '%s\n' tests/films/*.gbr >>"$room/names"

# All answers alike, counts and hashes too, by either edition.
for edition in old new; do
    "${imager[@]}" batch --edition "$edition" <"$room/names" >"$room/one"
    "$second" batch --edition "$edition" <"$room/names" >"$room/other"
    "$second" compare "$room/one" "$room/other" >"$room/told"
    echo "films: edition $edition: $(tail -n 1 "$room/told")"
    cmp -s "$room/one" "$room/other" || { head -n 6 "$room/told"; faults=$((faults + 1)); }
done
[ "$faults" -eq 0 ]
