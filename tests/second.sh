#!/usr/bin/env bash
# The second reader: its own tests, and all the cases that stand beside the repository, where they do.
set -eu
cd "$(dirname "$0")/.."
second=$(second/build)
CARGO_NET_OFFLINE=true cargo test --release --quiet --manifest-path second/Cargo.toml --target-dir target/second

room=$(mktemp -d)
trap 'rm -rf "$room"' EXIT
tests/unpack --all "$room"
for folder in cases cases-02; do
    told=$("$second" check-cases "$room/$folder")
    echo "second: $folder: $told"
    case $told in *", 0 differ") ;; *) exit 1 ;; esac
done
