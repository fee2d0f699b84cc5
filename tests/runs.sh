#!/usr/bin/env bash
# The items that the program `gate_lists` takes in lists, by two runs of eight slots, are those of the listing of tests/runs.gbr, which draws
# the same panel: all fields but the two places, since the store of `gate_lists` is written by hand.
set -u
cd "$(dirname "$0")/.." || exit 2
mapfile -t listing < <(./run --say listing)
mapfile -t lists < <(./run --say gate_lists)
[ ${#listing[@]} -gt 0 ] && [ ${#lists[@]} -gt 0 ] || exit 1

listed=$("${listing[@]}" <tests/runs.gbr | awk -F '\t' -v OFS=' ' '
    BEGIN { n = split("line cw ccw flash contour edge-line edge-cw edge-ccw", names, " "); for (i = 1; i <= n; i++) kind[names[i]] = i }
    NR > 1 { print kind[$2], $3, $4 == "clear", $5, $6, $7, $8, $9, $10, $11, $12, $13, $14 }')
taken=$("${lists[@]}" </dev/null | awk '/^from/ { lists++; next } lists <= 2 && $1 != 0 { NF -= 2; print }')
echo "runs: $(printf '%s\n' "$taken" | wc -l) items in lists"
[ -n "$taken" ] && [ "$taken" = "$listed" ] || { echo "runs: the lists are not the listing"; diff <(echo "$taken") <(echo "$listed") | head -n 6; exit 1; }
