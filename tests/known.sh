#!/usr/bin/env bash
# crates.txt lists for each crate those that it names: where its src/, specs/ or proofs/ say `Rattle.NAME`, `NAME::` or `use NAME`, comments
# apart. What these need in turn the prover finds by itself, but for types: a function that goes into a value of a declared type, or makes
# one around it, asks for that type's crate. So a crate may be listed, too, that declares a type within those that the code handles; where it
# is needed, the prover says so. The kit's libraries are listed likewise, but for std, which is always linked and never listed.
# tests/known.sh --write  makes the lists so; lines, comments and the order of what stays are kept.
set -u
cd "$(dirname "$0")/.." || exit 2
[ $# -eq 0 ] || [ "$*" = --write ] || { echo "usage: tests/known.sh [--write]" >&2; exit 2; }
room=$(mktemp -d)
trap 'rm -rf "$room"' EXIT

# What the sources say, once each: `names CRATE NAME`; of the code, `handles CRATE WORD`, and `holds WORD TYPE` where the declaration of a
# type or the head of a function mentions another type. Words and types are written CRATE::NAME.
find crates -name out -prune -o -type f \( -path '*/src/*.rt' -o -path '*/specs/*.antt' -o -path '*/proofs/*.antt' \) -exec awk '
    function say(what) { if (!said[what]++) print what }
    function crate_of(word) { sub(/::.*/, "", word); return word }
    FNR == 1 { split(FILENAME, path, "/"); crate = path[2]; code = FILENAME ~ /\.rt$/; split("", imported); within = ""; split("", of_std) }
    # a module of std by its own name
    code && /^use std::[a-z0-9_]+;/ { word = $0; gsub(/^use std::|;.*/, "", word); of_std[word] = 1; next }
    # several names of one crate, brought in together
    code && /^(pub )?use [a-z0-9_]+::\{/ {
        group = $0
        while (group !~ /\}/ && (getline more) > 0) group = group more
        sub(/^(pub )?use /, "", group)
        from = group
        sub(/::.*/, "", from)
        sub(/^[^{]*\{/, "", group)
        sub(/\}.*/, "", group)
        say("names " crate " " from)
        n = split(group, brought, /[ ,]+/)
        if (from == "std") for (i = 1; i <= n; i++) of_std[brought[i]] = 1
        for (i = 1; i <= n; i++) if (brought[i] ~ /^[A-Za-z]/) {
            say("handles " crate " " from "::" brought[i])
            if (brought[i] ~ /^[A-Z]/) imported[brought[i]] = from "::" brought[i]
        }
        next
    }
    {
        at = index($0, code ? "//" : "--")
        line = at ? substr($0, 1, at - 1) : $0
        for (rest = line; match(rest, /Rattle\.[a-z0-9_]+|[A-Za-z0-9_]+::[A-Za-z0-9_]*/); rest = substr(rest, RSTART + RLENGTH)) {
            word = substr(rest, RSTART, RLENGTH)
            if (sub(/^Rattle\./, "", word)) say("names " crate " " word)
            else if (!(crate_of(word) in of_std)) { say("names " crate " " crate_of(word)); if (code) say("handles " crate " " word) }
        }
        if (match(line, /(^|[^A-Za-z0-9_])use [a-z0-9_]+/)) { word = substr(line, RSTART, RLENGTH); sub(/.*use /, "", word); say("names " crate " " word) }
    }
    !code { next }
    line ~ /^use [a-z0-9_]+::[A-Z]/ { word = line; gsub(/^use |;.*/, "", word); type = word; sub(/.*::/, "", type); imported[type] = word; next }
    line ~ /^ *(pub )?(extern "C" )?(fn|struct|enum) / {
        word = line
        sub(/^.*(fn|struct|enum) /, "", word)
        sub(/[^A-Za-z0-9_].*/, "", word)
        within = crate "::" word
        say("handles " crate " " within)
        sub(/^.*(fn|struct|enum) [A-Za-z0-9_]+/, "", line)
    }
    line ~ /^ *(requires|ensures) / { within = "" }
    within != "" {
        for (rest = line; match(rest, /([a-z0-9_]+::)?[A-Z][A-Za-z0-9_]*/); rest = substr(rest, RSTART + RLENGTH)) {
            type = substr(rest, RSTART, RLENGTH)
            if (type in imported) type = imported[type]
            say("holds " within " " (type ~ /::/ ? type : crate "::" type))
        }
    }
    $0 ~ /^}|^ *{ *$|; *$|fn .*{ *$/ { within = "" }
    ' {} + >"$room/said"

# crates.txt as it should be; the faults go to standard error. It is read twice, first for the crates that there are.
awk '
    BEGIN { n = split("check io", kit, " "); for (i = 1; i <= n; i++) known[kit[i]] = 1 }
    FNR == 1 { pass++ }
    pass == 1 { told[$1, $2] = told[$1, $2] " " $3; next }
    { text = $0; sub(/#.*/, "", text); colon = index(text, ":"); crate = substr(text, 1, colon - 1); kind = crate ~ /staticlib/ ? " staticlib" : ""; sub(/ staticlib/, "", crate); gsub(/[ \t]/, "", crate) }
    pass == 2 { known[crate] = 1; next }
    crate == "" { print; next }
    {
        split("", named); split("", listed); split("", reached)
        line = crate kind ":"
        idle = missing = ""
        names = split(told["names", crate], name, " ")
        for (i = 1; i <= names; i++) if ((name[i] in known) && name[i] != crate) named[name[i]] = 1
        # the types within those that the code handles
        todo = split(told["handles", crate], word, " ")
        while (todo > 0) {
            n = split(told["holds", word[todo--]], types, " ")
            for (i = 1; i <= n; i++) if (!((types[i]) in reached)) {
                reached[types[i]] = 1
                word[++todo] = types[i]
                owner = types[i]
                sub(/::.*/, "", owner)
                reached[owner] = 1
            }
        }
        n = split(substr(text, colon + 1), list, " ")
        for (i = 1; i <= n; i++) {
            listed[list[i]] = 1
            if ((list[i] in named) || (list[i] in reached)) line = line " " list[i]
            else idle = idle " " list[i]
        }
        for (i = 1; i <= names; i++) if ((name[i] in named) && !(name[i] in listed)) missing = missing " " name[i]
        if (idle != "") print "known: " crate " lists and names nowhere:" idle >"/dev/stderr"
        if (missing != "") print "known: " crate " names and does not list:" missing >"/dev/stderr"
        print line missing (text == $0 ? "" : " " substr($0, length(text) + 1))
    }' "$room/said" crates.txt crates.txt >"$room/crates.txt"

cmp -s "$room/crates.txt" crates.txt && exit 0
[ "$*" = --write ] || exit 1
cp "$room/crates.txt" crates.txt
