#!/usr/bin/env bash
# What the prover does not ask for: every public function says what it ensures, the calls of docs/CONTRACTS.md require nothing, every
# library has a wrong program that is refused and one with a call for hosts two (decision 214), every crate's files are where the layout has them, and the repository names no
# path of a machine.
set -u
cd "$(dirname "$0")/.." || exit 2
faults=0

fault() {
    echo "contracts: $*"
    faults=$((faults + 1))
}

# A head runs from `pub fn` to the line `{` that opens the body.
lacking() { # SOURCE PATTERN UNWANTED: the public functions whose head has none of the pattern, or, with 1, that have it
    awk -v pattern="$2" -v unwanted="$3" '
        /^ *pub (unsafe )?(extern "C" )?fn / { name = $0; sub(/^.*fn /, "", name); sub(/\(.*/, "", name); head = ""; inside = 1 }
        inside { head = head $0 }
        inside && /\{ *$/ { if ((head ~ pattern) == unwanted) print name; inside = 0
        }' "$1"
}
for source in crates/*/src/*.rt; do
    for name in $(lacking "$source" ensures 0); do fault "$source: $name ensures nothing"; done
done

# The calls: all that these crates make public, of descend those for a sheet, and of lines the line of an item.
for crate in reader mend_call descend lists address summary attribute_call labels shapes signature intake digest hexadecimal state_call lines placement_call numbered host; do
    [ -f "crates/$crate/src/lib.rt" ] || { fault "there is no crate $crate, which is said to make calls"; continue; }
    for name in $(lacking "crates/$crate/src/lib.rt" requires 1); do
        case $crate:$name in descend:find | descend:item_at | lines:add | lines:add_signed) ;; *) fault "$crate: $name is a call, and requires something" ;; esac
    done
done

while IFS= read -r line; do
    name=$(printf '%s' "${line%%#*}" | cut -d: -f1 | sed 's/ staticlib//' | tr -d ' ')
    [ -n "$name" ] || continue
    [ -d "crates/$name" ] || { fault "crates.txt lists $name, which is not there"; continue; }
    [ -f "crates/$name/src/lib.rt" ] || continue
    grep -q '^ *pub fn\|^ *fn\|extern "C" fn' "crates/$name/src/lib.rt" || continue
    edits=$(find "crates/$name/must-fail" "wrong/$name" -name '*.edit' 2>/dev/null | wc -l)
    case " attribute_call labels shapes signature digest descend reader summary mend_call lists state_call address placement_call host " in *" $name "*) least=2 ;; *) least=1 ;; esac
    [ "$edits" -ge "$least" ] || fault "$name has $edits must-fail edits, and $least at least are asked"
done <crates.txt

# What specs/ says rests on specs/ alone; and a crate's name says whether it has code: law_ for definitions and laws alone, gate_ for a
# program that only the gate runs.
while IFS= read -r file; do
    fault "$file cites proofs"
done < <(grep -lE '^use Rattle\.[a-z0-9_]+\.proofs\.' crates/*/specs/*.antt | xargs -r grep -lE "^use Rattle\.($(sed 's/#.*//' crates.txt | grep -oE '^[a-z0-9_]+' | paste -sd '|'))\.proofs\.")
for source in crates/*/src/lib.rt; do
    crate=${source#crates/}
    crate=${crate%%/*}
    if grep -qE '^ *(pub )?(extern "C" )?fn ' "$source"; then code=1; else code=; fi
    case $crate in law_*) [ -z "$code" ] || fault "$crate has code, and is named as laws" ;; *) [ -n "$code" ] || fault "$crate has no code, and is not named law_" ;; esac
done
for source in crates/*/src/main.rt; do
    crate=${source#crates/}
    case ${crate%%/*} in listing | verify | placement | gate_*) ;; *) fault "${crate%%/*} is a program of the gate, and is not named gate_" ;; esac
done

while IFS= read -r file; do
    fault "$file names a path of a machine"
done < <(git ls-files -z | xargs -0 grep -lE '(^|[^A-Za-z0-9_.])/(work|opt|home|root|tmp)/[A-Za-z]' 2>/dev/null)

[ "$faults" -eq 0 ]
