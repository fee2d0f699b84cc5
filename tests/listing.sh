#!/usr/bin/env bash
# The listing of every file under tests/listing is what stands beside it, written by the second reader (`second list`); and so are those of
# files made here: both sides of the listing's limit and of its room for numbers, and files of as many entries as fit.
set -u
cd "$(dirname "$0")/.." || exit 2
mapfile -t listing < <(./run --say listing)
[ ${#listing[@]} -gt 0 ] || exit 1
room=$(mktemp -d)
trap 'rm -rf "$room"' EXIT
tried=0
faults=0

# The listing of FILE must be what WANT holds.
expect() { # NAME FILE WANT
    tried=$((tried + 1))
    "${listing[@]}" <"$2" >"$room/listed"
    cmp -s "$room/listed" "$3" && return
    faults=$((faults + 1))
    echo "listing: $1:"
    diff "$room/listed" "$3" | head -n 6
}

# The same where it is one line, its fields parted by spaces here.
expect_line() { # NAME FILE LINE
    printf '%s\n' "$3" | tr ' ' '\t' >"$room/want"
    expect "$1" "$2" "$room/want"
}

for file in tests/listing/*.gbr; do
    expect "$file" "$file" "${file%.gbr}.expected"
done
expect "document 01's file" examples/strip.gbr crates/listing/stdout

# 65,536 bytes are read, one more is 1.
cp examples/strip.gbr "$room/file"
yes '' | head -c $((65536 - $(wc -c <"$room/file"))) >>"$room/file"
expect "65,536 bytes" "$room/file" crates/listing/stdout
echo >>"$room/file"
expect_line "65,537 bytes" "$room/file" "refused 1 0"

# There is room for 131,072 numbers: a macro of 2,048 primitives of 8 numbers each fills it in eight AD, and one number more is 17.
{
    printf '%%FSLAX36Y36*%%%%MOMM*%%%%AMM'
    yes '*20,1,1,0,0,0,0,0' | head -n 2048 | tr -d '\n'
    printf '*%%'
    for n in 10 11 12 13 14 15 16 17; do printf '%%ADD%dM*%%' "$n"; done
} >"$room/full"
{ cat "$room/full"; printf 'M02*'; } >"$room/file"
expect_line "131,072 numbers" "$room/file" "items 0"
{ cat "$room/full"; printf '%%ADD18C,1*%%M02*'; } >"$room/file"
expect_line "131,073 numbers" "$room/file" "refused 17 $(wc -c <"$room/full")"

# No command that leaves an entry is shorter than four bytes: as many flashes as fit, and as many contours of one edge, are all listed.
line() { # K KIND APERTURE COUNT PLACE
    printf '%d\t%s\t%d\tdark\t0\t0\t1000000\t0\t0\t0\t0\t0\t0\t%d\t%d\t%d\n' "$@" "$5"
}
printf '%%FSLAX36Y36*%%%%MOMM*%%%%ADD10C,0*%%D10*X0Y0D02*' >"$room/file"
at=$(wc -c <"$room/file")
most=$(((65536 - at) / 4 - 1))
yes 'D03*' | head -n "$most" | tr -d '\n' >>"$room/file"
printf 'M02*' >>"$room/file"
{
    printf 'items\t%d\n' "$most"
    for ((k = 0; k < most; k++)); do line "$k" flash 10 0 $((at + 4 * k)); done
} >"$room/want"
expect "$most flashes" "$room/file" "$room/want"

printf '%%FSLAX36Y36*%%%%MOMM*%%G01*G36*X0Y0D02*' >"$room/file"
at=$(wc -c <"$room/file")
most=$(((65536 - at) / 8 - 1))
yes 'D01*D02*' | head -n "$most" | tr -d '\n' >>"$room/file"
printf 'G37*M02*' >>"$room/file"
{
    printf 'items\t%d\n' $((2 * most))
    for ((k = 0; k < most; k++)); do
        line $((2 * k)) contour 0 1 $((at + 8 * k))
        line $((2 * k + 1)) edge-line 0 0 $((at + 8 * k))
    done
} >"$room/want"
expect "$most contours" "$room/file" "$room/want"

echo "listing: $tried files, $faults differ"
[ "$faults" -eq 0 ]
