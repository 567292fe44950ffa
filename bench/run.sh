#!/usr/bin/env bash
# The tests from outside: the static library linked into programs in C and Rust, and held to the samples, to the cases and to a second engine on
# random sheets and journals. A number of seconds may be given, for how long the two engines are compared: bash bench/run.sh 3600.
# Needs cc and cargo, as Debian's packages gcc and cargo have them, and installs nothing.
set -euo pipefail
cd "$(dirname "$0")/.."
seconds=${1:-10}
for tool in cc cargo; do
    command -v "$tool" > /dev/null || { echo "outside: there is no $tool (Debian's packages gcc and cargo have cc and cargo)" >&2; exit 1; }
done
(cd crates/tra_engine && rt lib 2>&1 | tail -n 1)

# The header, by programs in C.
mkdir -p target/c
for program in sheet journal; do
    cc -std=c99 -O2 -Wall -Wextra -Werror -o "target/c/$program" "bindings/c/$program.c" crates/tra_engine/out/libtra_engine.a
done
for sample in short long; do
    target/c/sheet < "samples/$sample.sheet" | cmp - "samples/$sample.award"
done
target/c/journal < samples/year.journal | cmp - <(grep -vE '^# (book|path|bidder|entry) ' samples/year.answers)
echo "outside: the programs in C write the samples' outputs"

# The wrapper in Rust, the second engine, and both engines side by side.
for package in bindings/rust bench; do
    said=$(cd "$package" && cargo test --release --offline 2>&1) || { printf '%s\n' "$said"; exit 1; }
    echo "outside: $package, $(grep -c '^test .* ok$' <<< "$said") tests in Rust"
done
cd bench
cargo run --quiet --release --offline --bin compare -- "$seconds"
