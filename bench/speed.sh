#!/usr/bin/env bash
# Measures the speed of both engines and of glpsol, as tables: bash bench/speed.sh [REPETITIONS]. docs/PERFORMANCE.md has a run of it.
# Needs cc, cargo and glpsol; the last is installed from Debian's package glpk-utils where it is not there.
set -euo pipefail
cd "$(dirname "$0")/.."
repetitions=${1:-1000}
command -v glpsol > /dev/null || { apt-get update && apt-get install -y --no-install-recommends glpk-utils; } > /dev/null
(cd crates/tra_engine && rt lib 2>&1 | tail -n 1 >&2)
cd bench
cargo build --quiet --release --offline --bins
grep -m 1 'model name' /proc/cpuinfo | sed 's/.*: //'
../target/bench/release/speed "$repetitions"
../target/bench/release/lp ../target/bench/lp 100
