#!/usr/bin/env bash
# The program verify on the examples and on files made here: line ends, capital digits, each refusal, and both sides of the reading
# limit, which the signature does not have. Signatures are made by md5sum; the second reader, where it was built, must say the same.
set -u
cd "$(dirname "$0")/.." || exit 2
second=$PWD/target/second/release/second
mapfile -t verify < <(./run --say verify)
[ ${#verify[@]} -gt 0 ] || exit 1
room=$(mktemp -d)
trap 'rm -rf "$room"' EXIT
faults=0

# verify must write WANT, tab-parted, for FILE
expect() { # NAME FILE WANT
    local got
    got=$("${verify[@]}" <"$2" | tr '\t' ' ')
    [ "$got" = "$3" ] || { echo "verify: $1: '$got', not '$3'"; faults=$((faults + 1)); }
    if [ -x "$second" ]; then
        got=$("$second" verify <"$2" | tr '	' ' ')
        [ "$got" = "$3" ] || { echo "verify: $1: the second reader says '$got'"; faults=$((faults + 1)); }
    fi
}

# The digest that a text is signed with.
digest() { tr -d '\r\n' | md5sum | cut -c 1-32; }

# A file signed with DIGITS: the text, the signature, M02.
signed() { # TEXT DIGITS
    printf '%b%%TF.MD5,%s*%%\nM02*\n' "$1" "$2"
}

text='G04 a text*\r\n%%MOMM*%%\r\n'
sum=$(printf '%b' "$text" | digest)
place=$(($(signed "$text" "$sum" | wc -c) - 5))
example=$(sed '/^%TF.MD5/,$d' examples/signed.gbr | digest)

expect "the example" examples/signed.gbr "signed $example"
expect "one byte changed" examples/flipped.gbr "refused 24 $(grep -abo 'M02' examples/flipped.gbr | cut -d: -f1)"

signed "$text" "$sum" >"$room/file"
expect "CR and LF" "$room/file" "signed $sum"
signed "$text" "$(printf %s "$sum" | tr a-f A-F)" >"$room/file"
expect "capital digits" "$room/file" "signed $sum"
printf '%b%%TF.MD5,%s*\r\n\n%%M02*x\001' "$text" "$sum" >"$room/file"
expect "line ends in the signature, bytes after M02" "$room/file" "signed $sum"

signed "$text" "${sum#?}" >"$room/file"
expect "31 digits" "$room/file" "refused 25 $((place - 1))"
printf 'G04 none*\nM02*\n' >"$room/file"
expect "no signature" "$room/file" "refused 25 10"
printf '%%TF.MD5,%s*%%G04 between*M02*' "$sum" >"$room/file"
expect "a comment between" "$room/file" "refused 25 54"
printf 'G04 a\tb*M02*' >"$room/file"
expect "a tab" "$room/file" "refused 2 5"
printf 'M02*\n\001' >"$room/file"
expect "a bad byte after M02" "$room/file" "refused 2 5"
: >"$room/file"
expect "nothing" "$room/file" "refused 3 0"
signed "$text" "$sum" | head -c 60 >"$room/file"
expect "cut off" "$room/file" "refused 3 60"

# A file of 16,777,216 bytes, a macro with many breaks across the blocks in it, and one of a byte more.
{ printf '%%AMm*\n'; yes $'1,1,\n1,\n\r0,0*' | head -c 8000000; printf '*%%\n'; } >"$room/text"
yes 'G04 a line of text*' | head -c $((16777216 - $(wc -c <"$room/text") - 50)) >>"$room/text"
printf '*' >>"$room/text"
long=$(digest <"$room/text")
{ cat "$room/text"; printf '%%TF.MD5,%s*%%\nM02*' "$long"; } >"$room/file"
while [ "$(wc -c <"$room/file")" -lt 16777216 ]; do echo >>"$room/file"; done
expect "16,777,216 bytes" "$room/file" "signed $long"
echo >>"$room/file"
expect "one byte more" "$room/file" "signed $long"
printf '\001' >>"$room/file"
expect "a bad byte after that" "$room/file" "refused 2 16777217"

[ "$faults" -eq 0 ]
