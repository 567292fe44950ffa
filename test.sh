#!/usr/bin/env bash
# The tests: the trace's blocks and names, the rules that are cited (each is one of docs/RULES.md, and each of those is cited in specs/ or marked as one
# that nothing computes), the names and the lines of the tree, the table of crates, then every crate's layout and proof, every must-fail edit refused,
# every program run and held to what it must write, and last the static library from outside, beside a second engine.
# A must-fail edit that cannot be applied or read fails the tests too. The last line is rt's own count, said again.
set -euo pipefail
cd "$(dirname "$0")"
bash trace.sh
bash rules.sh
bash names.sh
sh rooms.sh
said=$(mktemp)
trap 'rm -f "$said"' EXIT
rt ci | tee "$said"
if grep -qE '^rt: ok.*[1-9][0-9]* bad' "$said"; then
    echo "test: a must-fail edit is bad: it shows nothing" >&2
    exit 1
fi
# What is linked was proved above, so it is built here without being proved again.
bash bench/run.sh
tail -n 1 "$said"
