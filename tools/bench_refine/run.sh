#!/bin/sh
# Builds the benchmark in a copy of the repository, and runs it: tools/bench_refine/run.sh [FOLDER FOR THE COPY]
set -eu
here=$(cd "$(dirname "$0")" && pwd)
top=$(cd "$here/../.." && pwd)
copy=${1:-$(mktemp -d)}
mkdir -p "$copy/crates"
cp "$top/HANDLES" "$copy/"
for crate in dwz_model dwz_nodes dwz_core dwz_table dwz_gate dwz_rounds; do
    (cd "$top/crates" && tar cf - --exclude=out "$crate") | tar xf - -C "$copy/crates"
    grep "^$crate[ :]" "$top/crates.txt"
done > "$copy/crates.txt"
bench=$copy/crates/bench_refine
mkdir -p "$bench/src" "$bench/specs" "$bench/proofs/is_closed"
cp "$here/main.rt.txt" "$bench/src/main.rt"
cp "$here/is_closed_Invariants.antt.txt" "$bench/proofs/is_closed/Invariants.antt"
echo "bench_refine: dwz_model dwz_nodes dwz_table dwz_gate dwz_rounds" >> "$copy/crates.txt"
cd "$copy"
[ -d .git ] || git init -q
cd crates/bench_refine
rt run
