#!/usr/bin/env bash
# The output of a program for each file named. What it is made of is proved first where it has not been: rt says on standard error what it does.
set -euo pipefail
program=${1:?a program, as tra}
shift
: "${1:?a file, as samples/long.sheet}"
files=()
for file in "$@"; do
    files+=("$(realpath "$file")")
done
cd "$(dirname "$0")/crates/$program"
# rt builds a program by running it, here on no input.
rt run < /dev/null 2>&1 > /dev/null | { grep --line-buffered -E '^rt: |: error: ' || true; } >&2
for file in "${files[@]}"; do
    "out/$program" < "$file"
done
