#!/usr/bin/env bash
# What README.md shows is true: the listing of its first minute, the refusal of the cut file with its sentence, and the lines on a night's
# mail, which are run as they stand over the files of tests/own.
set -eu
cd "$(dirname "$0")/.."
mapfile -t listing < <(./run --say listing)
mapfile -t imager < <(./run --say imager)
[ ${#listing[@]} -gt 0 ] && [ ${#imager[@]} -gt 0 ] || exit 1
room=$(mktemp -d)
trap 'rm -rf "$room"' EXIT
faults=0

fault() {
    echo "readme: $*"
    faults=$((faults + 1))
}

# The block of README.md that holds a text.
block() { # TEXT
    awk -v text="$1" '
        /^```/ { if (inside && index(held, text)) { printf "%s", held; exit } inside = !inside; held = ""; next }
        inside { held = held $0 "\n" }' README.md
}

"${listing[@]}" <examples/strip.gbr | cmp -s - <(block "items	4") || fault "the listing is not the one shown"
{
    echo '$ head -c 100 examples/strip.gbr | ./run imager list'
    head -c 100 examples/strip.gbr | "${imager[@]}" list 2>"$room/said"
    cat "$room/said"
} | cmp -s - <(block "refused	3	100") || fault "the refusal is not the one shown"

mkdir "$room/mail" "$room/bin"
cp tests/own/*.gbr "$room/mail"
printf '#!/usr/bin/env bash\nexec %s "$@"\n' "$(printf '%q ' "${imager[@]}")" >"$room/bin/imager"
chmod +x "$room/bin/imager"
block 'find mail' >"$room/night"
(cd "$room" && PATH="$room/bin:$PATH" bash -eu night) >"$room/told"
files=$(ls "$room/mail" | wc -l)
counted=$(awk '$2 == "accepted" || ($2 == "refused" && $3 == "with") { n += $1 } END { print n + 0 }' "$room/told")
refused=$(grep -c '^mail/.*: refused ' "$room/told")
[ "$counted" -eq "$files" ] && [ "$(wc -l <"$room/night.tsv")" -eq "$files" ] || fault "of $files files a night's mail counts $counted"
[ "$refused" -eq "$(awk -F '\t' '$2 ~ /^refused/' "$room/night.tsv" | wc -l)" ] || fault "a night's mail shows $refused refused files"
echo "readme: the listing, the refusal and a night's mail of $files files are as shown; $faults faults"
[ "$faults" -eq 0 ]
