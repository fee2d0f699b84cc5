#!/usr/bin/env bash
# The stored answers of the program `gate_attribute` are the second reader's, at every place of its file.
set -eu
cd "$(dirname "$0")/.."
second=$(second/build)

file=crates/gate_attribute/stdin
size=$(wc -c <"$file")
room=$(mktemp -d)
trap 'rm -rf "$room"' EXIT

# What the second reader answers to the questions of crates/gate_attribute/src/main.rt, in their order.
for name in a .N a,b; do
    for ((place = 0; place < size; place++)); do
        for kind in TA TO; do
            told=$("$second" attribute "$kind" "$place" "$name" <"$file")
            [ "$told" = $'refused\t22' ] || printf '%s\t%d\t%s\t%s\n' "$kind" "$place" "$name" "$told"
        done
    done
done >"$room/second"
diff "$room/second" crates/gate_attribute/stdout
echo "asked: $(wc -l <"$room/second") answers agree"
