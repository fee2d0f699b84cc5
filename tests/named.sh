#!/usr/bin/env bash
# Proofs read facts at named places. A line with six `.before` in a row, or more, picks its fact by position: there may be no more such lines
# than the limit, which whoever names some of them lowers.
set -u
cd "$(dirname "$0")/.." || exit 2
limit=0
chain='(\.before){6}\b'

found=$(grep -rhE "$chain" crates/*/proofs | wc -l)
echo "named: $found lines with six .before in a row or more; the limit is $limit"
[ "$found" -le "$limit" ] && exit 0
grep -rcE "$chain" crates/*/proofs | grep -v ':0$'
exit 1
