#!/usr/bin/env bash
# The proved reader against the second one. Through the listing: the cases and the real layers that stand beside the repository, where they
# do, and generated files. Through the C host's batch: all of these whatever their size, more generated files, and small rooms. Through its
# other modes, and the program verify: questions about some generated files. Then generated files again under the other rule of letters and
# the old edition, and under the old edition all of the above and the films that stand beside the repository, where they do. Then files that
# are made for one mode.
set -u
cd "$(dirname "$0")/.." || exit 2
second=$(second/build) || exit 1
mapfile -t listing < <(./run --say listing)
mapfile -t imager < <(./run --say imager)
mapfile -t verify < <(./run --say verify)
[ ${#listing[@]} -gt 0 ] && [ ${#imager[@]} -gt 0 ] && [ ${#verify[@]} -gt 0 ] || exit 1
room=$(mktemp -d)
trap 'rm -rf "$room"' EXIT
mkdir "$room/generated"
faults=0

# Counts a part whose last line, or only one, must say that none differ.
tell() { # WHAT LAST-LINE
    echo "compare: $1: $2"
    case $2 in *", 0 differ") ;; *) faults=$((faults + 1)) ;; esac
}

# The listing of each file named on standard input, against FILE.expected, or else the second reader's.
by_listing() { # WHAT
    local file want agree=0 differ=0
    while read -r file; do
        want=${file%.gbr}.expected
        if [ ! -f "$want" ]; then
            want=$room/want
            "$second" list <"$file" >"$want"
        fi
        if "${listing[@]}" <"$file" | cmp -s - "$want"; then
            agree=$((agree + 1))
        else
            differ=$((differ + 1))
            echo "compare: the listing of $(basename "$file") is not what $(basename "$want") has"
        fi
    done
    tell "$1, listed" "$agree agree, $differ differ"
}

# Both batches of the files named in LIST.
by_batch() { # WHAT LIST [--room E,A,M,N] [TERMS]
    local what=$1 list=$2
    shift 2
    "${imager[@]}" batch "$@" <"$list" >"$room/imager"
    "$second" batch "$@" <"$list" >"$room/second"
    "$second" compare "$room/imager" "$room/second" >"$room/told"
    cut -f 2 "$room/imager" >>"$room/answers"
    head -n -1 "$room/told" | head -n 10
    tell "$what${*:+, $*}" "$(tail -n 1 "$room/told")"
}

# What the second reader asks about each file named on standard input, answered by both; the sample host ends with 2 where it does not know
# the question.
by_question() { # WHAT [TERMS]
    local what=$1 file words program status agree=0 differ=0 unknown=0
    shift
    while read -r file; do
        while read -r -a words; do
            program=("${imager[@]}" "${words[@]}")
            [ "${words[*]}" != verify ] || program=("${verify[@]}")
            "$second" "${words[@]}" <"$file" >"$room/want"
            status=0
            "${program[@]}" <"$file" >"$room/given" 2>/dev/null || status=$?
            if [ "$status" -eq 2 ]; then
                unknown=$((unknown + 1))
            elif cmp -s "$room/given" "$room/want"; then
                agree=$((agree + 1))
            else
                differ=$((differ + 1))
                echo "compare: ${words[*]} of $(basename "$file") is not what the second reader answers"
            fi
        done < <("$second" questions 7 "$@" <"$file")
    done
    [ "$unknown" -eq 0 ] || echo "compare: $what: $unknown questions are of requests that have not landed"
    tell "$what${*:+, $*}, asked" "$agree agree, $differ differ"
}

# What the newer edition accepts of the files named in LIST, the old one accepts with the same sheet: both by the sample host.
by_both_editions() { # WHAT LIST
    "${imager[@]}" batch <"$2" | awk -F '\t' '$2 ~ /^sheet /' >"$room/newer"
    cut -f 1 "$room/newer" | "${imager[@]}" batch --edition old >"$room/older"
    "$second" compare "$room/newer" "$room/older" >"$room/told"
    head -n -1 "$room/told" | head -n 10
    tell "$1, by both editions" "$(tail -n 1 "$room/told")"
}

# Whether the sample host takes these words.
knows() { # WORDS
    local status=0
    "${imager[@]}" "$@" </dev/null >/dev/null 2>&1 || status=$?
    [ "$status" -ne 2 ] || echo "compare: the sample host does not know \`$*\` yet"
    [ "$status" -ne 2 ]
}

# Files made FOR a mode, and what both answer to WORDS about each.
by_mode() { # FOR COUNT WORDS
    local for=$1 count=$2 file agree=0 differ=0
    shift 2
    knows "$@" || return 0
    rm -rf "$room/made"
    "$second" make 7 "$count" "$room/made" --for "$for"
    for file in "$room"/made/*.gbr; do
        if cmp -s <("${imager[@]}" "$@" <"$file" 2>/dev/null) <("$second" "$@" <"$file"); then
            agree=$((agree + 1))
        else
            differ=$((differ + 1))
            echo "compare: $* of $(basename "$file") is not what the second reader answers"
        fi
    done
    tell "made for $for: $*" "$agree agree, $differ differ"
}

tell "tests/listing, by the second reader" "$("$second" check-cases tests/listing | tail -n 1)"

# What stands beside the repository goes into the room, where it is there.
tests/unpack "$room" || exit 1
for layers in kicad-layers old-layers; do
    archive=../shared/corpus/$layers.tgz
    mkdir "$room/$layers"
    if [ -f "$archive" ]; then
        tar xzf "$archive" -C "$room/$layers" || exit 1
    else
        echo "SKIPPED: no $archive beside the repository, so no real layer"
    fi
done
find "$room/cases" "$room/cases-02" -name '*.gbr' | sort >"$room/all_cases"
find "$room/kicad-layers" -name '*.gbr' | sort >"$room/all_layers"
find "$room/old-layers" -name '*.gbr' | sort >"$room/all_old_layers"
"$second" make 7 4000 "$room/generated"
find "$room/generated" -name '*.gbr' | sort >"$room/all_generated"

# Every real layer keeps the rules.
tell "layers, by the second reader" "$("$second" batch <"$room/all_layers" | awk -F '[\t ]' '$2 == "sheet" { n++ } END { print n + 0 " accepted, " NR - n " differ" }')"
# Every one of the old manner but one keeps the rules of the old edition; that one has a number that is too long.
old_layers() { # PROGRAM
    "$@" batch --edition old <"$room/all_old_layers" | awk -F '[\t ]' '
        $2 == "sheet" { n++ } $2 == "refused" && $3 == 5 { m++ }
        END { print n + 0 " accepted, " m + 0 " refused with 5, " NR - n - (m == 1) " differ" }'
}
tell "old layers, by the second reader" "$(old_layers "$second")"
tell "old layers, by the sample host" "$(old_layers "${imager[@]}")"

# A case without an expected listing is one of questions; most of those have more items than a listing could print.
for file in "$room"/cases/*.gbr; do [ ! -f "${file%.gbr}.expected" ] || echo "$file"; done | by_listing "cases"
find "$room/kicad-layers" -name '*.gbr' -size -65537c | sort | by_listing "layers"
# Generated files of up to 2,000 items.
head -n 1000 "$room/all_generated" | "$second" batch | awk -F '[\t ]' '$2 == "refused" || $4 <= 2000 { print $1 }' | by_listing "generated"

by_batch "cases" "$room/all_cases"
by_batch "layers" "$room/all_layers"
by_batch "generated" "$room/all_generated"
by_batch "generated" "$room/all_generated" --room 3,2,1,4
by_batch "generated" "$room/all_generated" --room 8,3,1,10
awk 'NR % 80 == 0' "$room/all_generated" | by_question "generated"
by_batch "cases" "$room/all_cases" --edition old
by_batch "layers" "$room/all_layers" --edition old
by_batch "generated for the newer edition" "$room/all_generated" --edition old
by_both_editions "cases" "$room/all_cases"
by_both_editions "layers" "$room/all_layers"
by_both_editions "generated" "$room/all_generated"
for terms in "--letters new" "--edition old" "--edition old --letters new"; do
    read -r -a terms <<<"$terms"
    rm -r "$room/generated"
    "$second" make 7 4000 "$room/generated" "${terms[@]}"
    find "$room/generated" -name '*.gbr' | sort >"$room/all_generated"
    by_batch "generated" "$room/all_generated" "${terms[@]}"
    by_batch "generated" "$room/all_generated" --room 3,2,1,4 "${terms[@]}"
    awk 'NR % 80 == 0' "$room/all_generated" | by_question "generated" "${terms[@]}"
    [[ ${terms[*]} != *"--edition old"* ]] || by_batch "old layers" "$room/all_old_layers" "${terms[@]}"
done
by_mode mend 100 mend --raw # what was changed, in tests/mend.sh
by_mode placement 600 placement
by_mode placement 100 placement --out 60
# Files of 16,777,217 bytes are tried elsewhere (1).
for number in {2..19} 29 30 31; do
    grep -q "^refused $number " "$room/answers" || tell "refused with $number" "no file, 1 differ"
done
[ "$faults" -eq 0 ]
