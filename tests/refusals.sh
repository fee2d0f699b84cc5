#!/usr/bin/env bash
# docs/REFUSALS.md: every number has its section there, with the small file of tests/refusals that gets it, byte for byte. Both the sample
# host and the second reader answer each of these files with its number at its place, the sample host with a sentence on standard error
# too; and with any one command left out they answer something else, so that nothing in the file is idle. So do they answer what designers
# usually did, tests/refusals/usual. 1, 21 and 101, which no small
# file gets, are tried here and in tests/refusals.c.
set -eu
cd "$(dirname "$0")/.."
made=$PWD/target/host
emulator=$(host/build --emulator)
host/build host/imager.c "$made/imager"
host/build tests/refusals.c "$made/refusals"
second=$(second/build)
room=$(mktemp -d)
trap 'rm -rf "$room"' EXIT
imager() { ${emulator:+"$emulator"} "$made/imager" "$@"; }
tried=0
usual=0
left_out=0
faults=0

fault() {
    echo "refusals: $*"
    faults=$((faults + 1))
}

# What a reader answers about a file, fields parted by spaces.
answers() { # FILE WORDS
    local file=$1
    shift
    given=$(imager "$@" <"$file" 2>"$room/said" | tr '\t' ' ')
    other=$("$second" "$@" <"$file" | tr '\t' ' ')
}

# The block of the page under a number's heading.
shown() { # NUMBER
    awk -v heading="## $1:" '
        index($0, "## ") == 1 { here = index($0, heading) == 1 }
        here && /^```/ { if (inside) exit; inside = 1; next }
        here && inside { print }' docs/REFUSALS.md
}

while read -r number place words; do
    [[ $number != \#* ]] || continue
    read -r -a words <<<"$words"
    file=tests/refusals/$number.gbr
    wanted="refused $number"
    [ "$place" = - ] || wanted="$wanted $place"
    tried=$((tried + 1))
    answers "$file" "${words[@]}"
    [ "$given" = "$wanted" ] || fault "${words[*]} of $file: the sample host answers '$given', not '$wanted'"
    [ "$other" = "$wanted" ] || fault "${words[*]} of $file: the second reader answers '$other', not '$wanted'"
    grep -q "^imager: refused with $number: " "$room/said" || fault "of $file no sentence stands on standard error"
    shown "$number" | cmp -s - "$file" || fault "docs/REFUSALS.md does not show $file"
    for ((line = 1; line <= $(wc -l <"$file"); line++)); do
        sed "${line}d" "$file" >"$room/less"
        answers "$room/less" "${words[@]}"
        left_out=$((left_out + 1))
        [[ "$given " != "refused $number "* ]] || fault "$file is $number without its line $line too"
        [ "$given" = "$other" ] || fault "of $file without its line $line the readers answer '$given' and '$other'"
    done
done <tests/refusals/answers

# What designers usually did.
head=
while IFS= read -r line; do
    case $line in '' | \#*) continue ;; head*) head=${line#head}; head=${head# }; continue ;; esac
    words=(list)
    [[ $line != old\ * ]] || words=(list --edition old)
    line=${line#old }
    printf '%b' "$(printf '%s' "$head${line#* }" | sed 's/\\\([0-7][0-7][0-7]\)/\\0\1/g')" >"$room/usual"
    usual=$((usual + 1))
    answers "$room/usual" "${words[@]}"
    [[ "$given " == "refused ${line%% *} "* ]] || fault "usual, '$line': the sample host answers '$given'"
    [ "$given" = "$other" ] || fault "usual, '$line': the readers answer '$given' and '$other'"
done <tests/refusals/usual

# Every number has its section, and those that a file gets their file.
for number in {1..34} 100 101; do
    grep -q "^## $number: " docs/REFUSALS.md || fault "docs/REFUSALS.md has no section for $number"
    case $number in 1 | 21 | 100 | 101) continue ;; esac
    grep -q "^$number " tests/refusals/answers || fault "no file gets $number"
done
head -c 16777217 /dev/zero >"$room/long"
answers "$room/long" sheet
[ "$given" = "refused 1 0" ] && [ "$other" = "refused 1 0" ] || fault "of 16,777,217 bytes the readers answer '$given' and '$other'"
${emulator:+"$emulator"} "$made/refusals" <examples/strip.gbr || faults=$((faults + 1))

echo "refusals: $tried files, each also with each of its $left_out commands left out; $usual usual mistakes; $faults faults"
[ "$faults" -eq 0 ]
