#!/usr/bin/env bash
# `./run install PREFIX` puts everything where it belongs, and what it puts there is enough: the programs answer, the manual pages are
# well-formed where there is a formatter, and a C program is built against the installed files alone.
set -eu
cd "$(dirname "$0")/.."
room=$(mktemp -d)
trap 'rm -rf "$room"' EXIT
prefix=$room/prefix
./run install "$prefix" 2>"$room/said" || { cat "$room/said"; exit 1; }
faults=0

fault() {
    echo "install: $*"
    faults=$((faults + 1))
}

for name in listing verify placement mend imager; do
    [ -x "$prefix/bin/$name" ] || fault "no bin/$name"
    [ -f "$prefix/share/man/man1/$name.1" ] || fault "no manual page of $name"
done
command -v groff >/dev/null || echo "SKIPPED: no groff, so the form of the manual pages is not tried"
for page in "$prefix"/share/man/man1/*.1; do
    [ -x "$prefix/bin/$(basename "$page" .1)" ] || fault "$(basename "$page") is of no program"
    ! command -v groff >/dev/null || [ -z "$(groff -man -ww -z "$page" 2>&1)" ] || fault "$(basename "$page") is not well-formed"
done
cp examples/*.gbr "$room"
cp tests/install.c tests/shapes.c tests/shapes/strip.expected "$room"
cp crates/listing/stdout "$room/want"
cp crates/placement/stdin "$room/parts.gbr"
cp crates/placement/stdout "$room/parts"

# From here on nothing of the repository is used.
emulator=$(host/build --emulator)
cd "$room"
"$prefix/bin/listing" <strip.gbr | cmp -s - want || fault "listing answers otherwise"
"$prefix/bin/imager" list <strip.gbr | cmp -s - want || fault "imager answers otherwise"
[[ $("$prefix/bin/verify" <signed.gbr) == signed* ]] || fault "verify answers otherwise"
"$prefix/bin/placement" <parts.gbr | cmp -s - parts || fault "placement answers otherwise"
"$prefix/bin/mend" <strip.gbr 2>/dev/null | cmp -s - strip.gbr || fault "mend answers otherwise"

export PKG_CONFIG_PATH=$prefix/lib/pkgconfig
if command -v pkg-config >/dev/null; then
    flags=$(pkg-config --cflags frinzavoe)
    libraries=$(pkg-config --libs frinzavoe)
else
    echo "SKIPPED: no pkg-config, so frinzavoe.pc is not tried"
    flags=-I$prefix/include/frinzavoe
    libraries="-L$prefix/lib -lfrinzavoe"
fi
static=
[ -z "$emulator" ] || static=-static
# shellcheck disable=SC2086
x86_64-linux-gnu-gcc -std=c11 -Wall -Wextra -Werror $static $flags install.c -o host $libraries
told=$(${emulator:+"$emulator"} ./host <strip.gbr)
[ "$told" = "4 items, the last at 3008000000 5000000" ] || fault "a host built against the installed files says '$told'"
told=$(${emulator:+"$emulator"} ./host </dev/null || true)
[[ $told == "3 at 0: the file stops"* ]] || fault "of an empty file it says '$told'"
# shellcheck disable=SC2086
x86_64-linux-gnu-gcc -std=c11 -Wall -Wextra -Werror $static $flags shapes.c -o shapes $libraries
${emulator:+"$emulator"} ./shapes <strip.gbr | cmp -s - strip.expected || fault "a host that opens layers by the installed store.h answers otherwise"
echo "install: $(find "$prefix" -type f | wc -l) files, and a host built against them; $faults faults"
[ "$faults" -eq 0 ]
