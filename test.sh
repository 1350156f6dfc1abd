#!/bin/sh
# Tests everything: docs/CLAIMS.md names what is there, and docs/TABLE.md has the fields that run_fields prints; rt ci proves every crate,
# tries the must-fail edits, runs the programs and compares; then the independent implementation still gives the committed answers and agrees
# with pack and unpack on many texts and with an archive on every packet count, the suppliers' archives link and run, and the front command
# does what it says. What rt ci passed on this machine before, with all that it read the same, it does not prove again.
# Where all of it passed, the last line is rt ci's last line again, 'N passed, 0 failed'.
set -eu
unset CDPATH
cd -- "$(dirname -- "$0")"
export LC_ALL=C PATH="$PATH:${HOME:-/root}/.cargo/bin"

if ! command -v cargo >/dev/null; then
    apt-get update -qq && apt-get install -y -qq cargo
fi

tools/claims
tools/table

# Shown as it goes and kept; a pipe's status is that of its end, so rt's own goes to a file.
kept=$(mktemp -d)
trap 'rm -rf -- "$kept"' EXIT
noted=$(./avulgjesh stamp)
{
    status=0
    rt ci 2>&1 || status=$?
    echo "$status" >"$kept/status"
} | tee "$kept/said"
status=$(cat "$kept/status")
[ "$status" = 0 ] || exit "$status"
# An edit that cannot be applied or read passes rt ci, which only counts it, and says nothing of a contract.
if ! grep '^rt: ok;' "$kept/said" >"$kept/ok" || grep -Eq ' [1-9][0-9]* bad([,;]|$)' "$kept/ok"; then
    echo "test.sh: a must-fail edit is bad, or rt ci does not say how many are: see its line 'rt: ok'" >&2
    exit 1
fi
./avulgjesh stamp "$noted"

export CARGO_TARGET_DIR="$PWD/target/held/build"
cargo build --release --offline --quiet --manifest-path tests/held/Cargo.toml
held=$CARGO_TARGET_DIR/release/held
"$held" check
"$held" simulate 1 500
{ "$held" wrap examples/*.tbl && "$held" items 1 1500; } | cmp - crates/run_items/stdin
"$held" answers <crates/run_items/stdin | cmp - crates/run_items/stdout
examples/check "$held" rows
tests/held/texts 400 1
tests/held/packets
examples/supplier/run
tests/command/run

tail -n 1 "$kept/said"
