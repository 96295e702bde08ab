#!/bin/sh
# Builds the benchmark in a copy of the repository, and runs it: tools/bench_units/run.sh [FOLDER FOR THE COPY]
set -eu
here=$(cd "$(dirname "$0")" && pwd)
top=$(cd "$here/../.." && pwd)
copy=${1:-$(mktemp -d)}
mkdir -p "$copy/crates"
cp "$top/HANDLES" "$copy/"
for crate in dwz_model dwz_bytes dwz_codes dwz_def_reading dwz_forms dwz_abbrev dwz_unit; do
    (cd "$top/crates" && tar cf - --exclude=out "$crate") | tar xf - -C "$copy/crates"
    grep "^$crate[ :]" "$top/crates.txt"
done > "$copy/crates.txt"
bench=$copy/crates/bench_units
mkdir -p "$bench/src"
cp "$here/main.rt.txt" "$bench/src/main.rt"
echo "bench_units: dwz_model dwz_unit" >> "$copy/crates.txt"
python3 "$here/make.py" 1000000 "$bench"
cd "$copy"
[ -d .git ] || git init -q
cd crates/bench_units
rt run
