#!/usr/bin/env bash
# ./run answers a name that is not there, and no name, with what there is, and status 2; and a proof tells how far it is.
set -u
cd "$(dirname "$0")/.." || exit 2
status=0

out=$(./run 2>&1 </dev/null)
[ $? -eq 2 ] || { echo "run: no name must end with status 2"; status=1; }
case $out in *usage*) ;; *) echo "run: no name must print the usage"; status=1 ;; esac

out=$(./run no_such_program 2>&1 </dev/null)
[ $? -eq 2 ] || { echo "run: an unknown name must end with status 2"; status=1; }
case $out in *no_such_program*) ;; *) echo "run: an unknown name must be named"; status=1 ;; esac

# What host/prove tells of a proof, with a stand-in for rt that proves nothing: how far it is, and all that was said where it fails.
room=$(mktemp -d)
trap 'rm -rf "$room"' EXIT
cat >"$room/rt" <<'END'
#!/bin/sh
echo "crate base: modules loaded=0 checked=3"
echo "logic=proved functions=13"
[ -z "$REFUSED" ] || { echo "fn listing::main: not proved"; echo "logic=not-proved"; exit 1; }
echo "crate listing: modules loaded=3 checked=5"
echo "logic=proved functions=9"
echo "rt: running out/listing; to give it other input, run that file yourself"
END
chmod +x "$room/rt"
out=$(PATH="$room:$PATH" REFUSED='' host/prove listing 2>&1 >"$room/out")
[ $? -eq 0 ] && [ ! -s "$room/out" ] || { echo "run: a proof must end with status 0, and write nothing"; status=1; }
case $out in *"proved 1 of "*": base, "*"proved 2 of "*": listing, "*) ;; *) echo "run: a proof must tell how far it is: $out"; status=1 ;; esac
out=$(PATH="$room:$PATH" REFUSED=1 host/prove listing 2>&1)
[ $? -eq 1 ] || { echo "run: a refused proof must end with status 1"; status=1; }
case $out in *"listing::main: not proved"*) ;; *) echo "run: a refused proof must say what is refused"; status=1 ;; esac

exit "$status"
