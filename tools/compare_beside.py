#!/usr/bin/env python3
"""Compares how the program dwz_show_entries reads files beside a common one with a model of the tool that was written independently.

    tools/compare_beside.py MODEL [--sets N] [--changes K] [--first N] [PROGRAM]

MODEL is the folder of the model: it has bin/dwzref (making a common file), dwzref/ (reading) and tests/random_files.py (making files). Of N
sets of random files a common file is made, and what imports from it. All of these are read as they are, and K times more after some bytes
of the common file or of the other one were changed, in half of the cases with the checksum made anew: as files that are to import from the
common file, as files that may import from it, and as files that may, without it. Of each the program's line has to say what the model says:
how many units and entries there are, or the first fault, with file, section and place. The last line counts; the status is 1 where a line
differs.

It belongs to no gate. Where the model isn't there, it says so and ends with status 0.
"""

import argparse
import os
import random
import subprocess
import sys
import tempfile

from compare_walk import REASONS, changed

REASONS = {**REASONS, 35: "BadSup", 36: "Checksum", 40: "SupMissing"}


def line_of(tables, read):
    """What the line of a file has to say behind its name, where it is read so."""
    try:
        file = read()
    except tables.Refusal as fault:
        reason = REASONS[fault.reason]
        reason = reason % fault.number if "%" in reason else reason
        return "%ssection %d at %d: %s" % ("common file, " if fault.file else "", fault.section, fault.at, reason)
    entries = sum(1 for unit in file.units for _ in unit.root.preorder())
    return "%d units, %d entries" % (len(file.units), entries)


def with_sum(sup, elf, common, other):
    """Both files, where the checksum of the common file is that of its bytes."""
    try:
        read = elf.Elf(common, True)
        old = sup.read_debug_sup(read.section(9))[2]
        new = sup.checksum_of({code: read.section(code) for code in (1, 2, 3)})
    except Exception:
        return common, other
    return common.replace(old, new), other.replace(old, new)


def make_set(model, folder, files):
    """The common file of these files, and the files behind it; None where nothing is common."""
    names = []
    for number, data in enumerate(files):
        names.append(os.path.join(folder, "in%d" % number))
        with open(names[-1], "wb") as file:
            file.write(data)
    common = os.path.join(folder, "common")
    if os.path.exists(common):
        os.remove(common)
    command = [sys.executable, os.path.join(model, "bin", "dwzref"), "-q", "-M", "common", "-m", common] + names
    done = subprocess.run(command, capture_output=True)
    if done.returncode or not os.path.exists(common):
        return None
    with open(common, "rb") as file:
        common = file.read()
    after = []
    for name in names:
        with open(name, "rb") as file:
            after.append(file.read())
    return common, after


def pairs_of(rng, sup, elf, common, files, changes):
    """Common files and files beside them."""
    for data in files:
        yield common, data
    for _ in range(changes):
        data = rng.choice(files)
        pair = (changed(rng, common), data) if rng.random() < 0.5 else (common, changed(rng, data))
        yield with_sum(sup, elf, *pair) if rng.random() < 0.5 else pair


def main():
    parser = argparse.ArgumentParser(description=__doc__, formatter_class=argparse.RawDescriptionHelpFormatter)
    parser.add_argument("model")
    parser.add_argument("program", nargs="?", default="crates/dwz_show_entries/out/dwz_show_entries")
    parser.add_argument("--sets", type=int, default=400)
    parser.add_argument("--changes", type=int, default=10)
    parser.add_argument("--first", type=int, default=0)
    options = parser.parse_intermixed_args()
    if not os.path.isdir(os.path.join(options.model, "dwzref")):
        print("no model in %s: nothing was compared" % options.model)
        return 0
    sys.path[:0] = [options.model, os.path.join(options.model, "tests")]
    sys.dont_write_bytecode = True
    from random_files import random_files
    from dwzref import elf, expand, reuse, sup, tables
    counts = {"sets": 0, "read": 0, "refused": 0, "wrong": 0}
    reasons = {}
    with tempfile.TemporaryDirectory() as folder:
        for seed in range(options.first, options.first + options.sets):
            rng = random.Random(seed)
            files = random_files(seed, 3)
            made = make_set(options.model, folder, files)
            if made is None:
                continue
            counts["sets"] += 1
            common, after = made
            ways = {"beside": [], "back": ["--back"], "alone": ["--back"]}
            wants = {"beside": [], "back": [], "alone": []}
            every = list(pairs_of(rng, sup, elf, common, after + files, options.changes))
            for number, (one, other) in enumerate(every):
                first, second = (os.path.join(folder, "%s%d" % (kind, number)) for kind in ("common", "file"))
                for name, data in ((first, one), (second, other)):
                    with open(name, "wb") as file:
                        file.write(data)
                for way in ("beside", "back"):
                    ways[way] += ["--common", first, second]
                ways["alone"] += [second]
                wants["beside"].append(line_of(tables, lambda: reuse.read_with_common(one, [other], 1)[0][0]))
                wants["back"].append(line_of(tables, lambda: expand.read_finished(one, [other], 1)[0][0]))
                wants["alone"].append(line_of(tables, lambda: expand.read_finished(None, [other], 1)[0][0]))
            for way, words in ways.items():
                got = subprocess.run([options.program] + words, capture_output=True, text=True, check=True).stdout.splitlines()
                for number, (line, want) in enumerate(zip(got, wants[way], strict=True)):
                    said = line.split(": ", 1)[1]
                    kind = ("read" if " units, " in said else "refused") if said == want else "wrong"
                    counts[kind] += 1
                    if kind == "refused":
                        reason = said.split(": ")[1].split(" ")[0]
                        reasons[reason] = reasons.get(reason, 0) + 1
                    if kind == "wrong":
                        print("set %d, %s, pair %d: %r, not %r" % (seed, way, number, said, want))
    print(", ".join("%s %d" % pair for pair in sorted(reasons.items())))
    print(", ".join("%s %d" % pair for pair in counts.items()))
    return 1 if counts["wrong"] else 0


if __name__ == "__main__":
    sys.exit(main())
