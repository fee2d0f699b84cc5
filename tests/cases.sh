#!/usr/bin/env bash
# Every question of the cases that stand beside the repository, where they do, asked of the sample host by the edition and the letters that
# it names, and of the program verify what it answers, which is by the newer edition and the old letters: the answers are the expected ones.
set -eu
cd "$(dirname "$0")/.."
mapfile -t imager < <(./run --say imager)
mapfile -t verify < <(./run --say verify)
[ ${#imager[@]} -gt 0 ] && [ ${#verify[@]} -gt 0 ] || exit 1
room=$(mktemp -d)
trap 'rm -rf "$room"' EXIT
tests/unpack "$room"

# The answer to a question about the file on standard input.
answer() { # WORDS
    if [ "$*" = verify ]; then
        "${verify[@]}"
    else
        "${imager[@]}" "$@"
    fi
}

agree=0
differ=0
old=0
for expected in "$room"/cases/*.expected "$room"/cases-02/*.expected; do
    [ -f "$expected" ] || continue
    name=${expected##*/}
    file=${expected%/*}/${name%%.*}.gbr
    words=(list)
    if [ -f "${expected%.expected}.args" ]; then
        read -r -a words <"${expected%.expected}.args"
    elif [ "$(wc -c <"$file")" -gt 65536 ]; then
        continue # the listing program stops there (tests/compare.sh), the sample host does not
    fi
    [[ ${words[*]} != *"--edition old"* ]] || old=$((old + 1))
    if answer "${words[@]}" <"$file" >"$room/given" 2>/dev/null && cmp -s "$room/given" "$expected"; then
        agree=$((agree + 1))
    else
        differ=$((differ + 1))
        echo "cases: ${name%.expected}: ${words[*]}"
        diff "$room/given" "$expected" | head -n 6
    fi
done
echo "cases: $agree agree, $differ differ; $old of them by the old edition"
[ "$differ" -eq 0 ]
