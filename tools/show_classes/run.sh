#!/bin/sh
# Builds the program in a copy of the crates: tools/show_classes/run.sh FOLDER, where the copy goes. The program is FOLDER/crates/show_classes/out/show_classes.
set -eu
here=$(cd "$(dirname "$0")" && pwd)
top=$(cd "$here/../.." && pwd)
copy=${1:?the folder for the copy}
mkdir -p "$copy/crates"
cp "$top/HANDLES" "$copy/"
(cd "$top/crates" && tar cf - --exclude=out --exclude=must-fail --exclude='dwz_test_*' .) | tar xf - -C "$copy/crates"
grep -v '^dwz_test_' "$top/crates.txt" > "$copy/crates.txt"
echo "show_classes: dwz_model dwz_def_reading dwz_def_tops dwz_label dwz_gate dwz_groups dwz_graph dwz_move_files dwz_label_files dwz_plan dwz_layout_input anyhow" >> "$copy/crates.txt"
show=$copy/crates/show_classes
mkdir -p "$show/src" "$show/specs" "$show/proofs/looking/look"
for file in main looking showing; do
    cp "$here/$file.rt.txt" "$show/src/$file.rt"
done
echo "pub mod Lines" > "$show/specs/Lib.antt"
cp "$here/Lines.antt.txt" "$show/specs/Lines.antt"
: > "$show/proofs/Lib.antt"
cp "$here/look_Answers.antt.txt" "$show/proofs/looking/look/Answers.antt"
cd "$copy"
[ -d .git ] || git init -q
cd crates/show_classes
rt run
