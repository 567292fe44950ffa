#!/usr/bin/env bash
# Times an earlier build of the static library beside this one: bash bench/before.sh FOLDER [RUNS], where FOLDER has the earlier libtra_engine.a.
# The two take turns, a run of every row each time, and a row has the least of its medians: the machine's pace differs more from one run to the
# next than two builds do.
set -euo pipefail
earlier=$(realpath "${1:?a folder with an earlier libtra_engine.a}")
runs=${2:-7}
cd "$(dirname "$0")/.."
(cd crates/tra_engine && rt lib 2>&1 | tail -n 1 >&2)
now=$PWD/crates/tra_engine/out
cd bench
build() { # SIDE FOLDER
    TRA_LIBRARY_DIR=$2 cargo build --quiet --release --offline --bin speed --target-dir "../target/bench_$1"
}
build before "$earlier"
build after "$now"
rows=$(mktemp)
trap 'rm -f "$rows"' EXIT
for _ in $(seq "$runs"); do
    for side in before after; do
        "../target/bench_$side/release/speed" 300 | sed "1,2d;s/^/$side/" >> "$rows"
    done
done
# Two rows have one name, so a row goes by its place in a run.
awk -F ' *[|] *' '
    $1 != side { side = $1; row = 0 }
    { row += 1; name[row] = $2; if (!((row, side) in least) || $3 + 0 < least[row, side]) least[row, side] = $3 + 0 }
    END {
        print "| Work | Before, µs | After, µs | After / before |"
        print "|---|---|---|---|"
        for (i = 1; i <= row; i++) {
            b = least[i, "before"]; a = least[i, "after"]
            printf "| %s | %.1f | %.1f | %.2f |\n", name[i], b, a, a / b
        }
    }' "$rows"
