#!/bin/sh
# Builds the benchmark in a copy of the repository, and runs it: tools/bench_plan/run.sh [FOLDER FOR THE COPY]
set -eu
here=$(cd "$(dirname "$0")" && pwd)
top=$(cd "$here/../.." && pwd)
copy=${1:-$(mktemp -d)}
mkdir -p "$copy/crates"
cp "$top/HANDLES" "$copy/"
for crate in dwz_model dwz_bytes dwz_codes dwz_def_reading dwz_def_tops dwz_def_plan dwz_def_images dwz_def_taken dwz_groups dwz_plan; do
    rm -rf "$copy/crates/$crate/src" "$copy/crates/$crate/specs" "$copy/crates/$crate/proofs"
    (cd "$top/crates" && tar cf - --exclude=out "$crate") | tar xf - -C "$copy/crates"
    grep "^$crate[ :]" "$top/crates.txt"
done > "$copy/crates.txt"
bench=$copy/crates/bench_plan
mkdir -p "$bench/src" "$bench/specs" "$bench/proofs/are_inside"
cp "$here/main.rt.txt" "$bench/src/main.rt"
cp "$here/are_inside_Invariants.antt.txt" "$bench/proofs/are_inside/Invariants.antt"
cp "$here/are_inside_Answers.antt.txt" "$bench/proofs/are_inside/Answers.antt"
echo "bench_plan: dwz_model dwz_groups dwz_plan" >> "$copy/crates.txt"
cd "$copy"
[ -d .git ] || git init -q
cd crates/bench_plan
rt run
