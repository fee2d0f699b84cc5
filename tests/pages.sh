#!/usr/bin/env bash
# What the pages name is there: their links, the definitions of docs/COVERAGE.md, the wrong programs of docs/CONTRACTS.md, the decisions
# that pages and definitions cite, and a row of docs/ARCHITECTURE.md for every crate.
set -u
cd "$(dirname "$0")/.." || exit 2
faults=0

fault() {
    echo "pages: $*"
    faults=$((faults + 1))
}

for page in README.md docs/*.md docs/landings/*.md; do
    while IFS= read -r link; do
        [ -e "$(dirname "$page")/$link" ] || fault "$page links to $link, which is not there"
    done < <(grep -o '](\([^)#:]*\))' "$page" | sed 's/^](//; s/)$//')
done

# The second column names `crate/File`, or `File` of the crate named before, each followed by definitions in backquotes.
while read -r crate file name; do
    definitions=crates/$crate/specs/$file.antt
    if [ ! -f "$definitions" ]; then
        fault "docs/COVERAGE.md names $definitions, which is not there"
    elif [ "$name" != - ] && ! grep -qE "(^|[[:space:]])$name([[:space:]]|$)" "$definitions"; then
        fault "docs/COVERAGE.md names $name of $definitions, which is not there"
    fi
done < <(awk -F'|' '/^\|/ && NF >= 4 {
    crate = ""; file = ""
    n = split($3, parts, ";")
    for (i = 1; i <= n; i++) {
        part = parts[i]
        gsub(/[a-z0-9_]+\/proofs\/[A-Za-z.]+/, "", part)
        if (match(part, /[a-z0-9_]+\/[A-Z][A-Za-z]+/)) {
            split(substr(part, RSTART, RLENGTH), at, "/"); crate = at[1]; file = at[2]
            part = substr(part, RSTART + RLENGTH)
            print crate, file, "-"
        } else if (match(part, /^ *[A-Z][A-Za-z]+:/)) {
            file = substr(part, RSTART, RLENGTH - 1); gsub(/ /, "", file)
            part = substr(part, RSTART + RLENGTH)
        } else continue
        if (part !~ /^:/ && part !~ /^ *`/) continue
        sub(/^: */, "", part)
        while (match(part, /^[ ,]*(and )?`[A-Za-z_-]+`/)) {
            name = substr(part, RSTART, RLENGTH); gsub(/[ ,`]|and /, "", name)
            print crate, file, name
            part = substr(part, RSTART + RLENGTH)
        }
    }
}' docs/COVERAGE.md)

while IFS=/ read -r crate name; do
    [ -d "crates/$crate" ] || continue
    [ -e "crates/$crate/must-fail/$name.edit" ] || [ -e "wrong/$crate/$name.edit" ] || fault "docs/CONTRACTS.md names the wrong program $crate/$name, which is not there"
done < <(grep -oE '(^|[ ,(])[a-z0-9_]+/[a-z0-9]+(_[a-z0-9]+)+' docs/CONTRACTS.md | tr -d ' ,(' | sort -u)

while IFS= read -r number; do
    grep -q "^| $number[ *]" docs/DECISIONS.md || fault "decision $number is cited, and is not there"
done < <(grep -rohE 'decisions? [0-9]+' docs README.md crates/*/specs crates/*/src tests wrong | grep -oE '[0-9]+' | sort -un)

while IFS= read -r crate; do
    grep -qE "^\|[^|]*\b$crate\b[^|]*\|" docs/ARCHITECTURE.md || fault "docs/ARCHITECTURE.md has no row for $crate"
done < <(sed 's/#.*//' crates.txt | grep -oE '^[a-z0-9_]+')

[ "$faults" -eq 0 ]
