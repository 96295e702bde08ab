#!/usr/bin/env python3
"""Compares the program show_classes with a model of the tool that was written independently.

    tools/compare_looks.py MODEL PROGRAM [--sets N] [--changes K] [--first N]

PROGRAM is what tools/show_classes/run.sh builds. MODEL is the folder of the model: it has dwzref/ (reading files, which tops are alike, and the plan) and
tests/random_files.py (making them). N sets of one to three random files are read, together and each file by itself, as they
are and K times more after some bytes of one of them were changed. Where a set is refused, the line has to name the fault. Of each
top the program's line has to say what the model says: where it stands, its unit, what it weighs (64 or more is one), whether
it may move, whether a ULEB128 operand names an entry of it, the least top alike to it and the tops that its references go
into, if it may move, where it goes, and what stands for it after. Of each partial unit it has to say its file, its users and
its tops. The last line counts the tops, those whose least alike top is another one, those that move, those of
them into the common file, the partial units, and the outcomes; the status is 1 where one is wrong.

It belongs to no gate. Where the model isn't there, it says so and ends with status 0.
"""

import argparse
import os
import random
import subprocess
import sys
import tempfile

from compare_walk import REASONS, changed


def looks_of(model, contents):
    """The files, their tops, and the least top alike to each; or the line of the first fault."""
    reading, looks, run, tables = model
    try:
        files = reading.read_files(contents)
    except tables.Refusal as fault:
        reason = REASONS[fault.reason]
        reason = reason % fault.number if "%" in reason else reason
        return None, "file %d: section %d at %d: %s" % (fault.file, fault.section, fault.at, reason)
    run.number_units(files)
    tops = looks.collect_tops(files, True)
    looks.mark_movable(files, tops)
    return (files, tops, looks.alike_classes(tops)), None


def lines_of(plan, known, together):
    """What the program has to print of these files."""
    files, tops, least = known
    made = plan.make_plan(files, tops, least, together, plan.SPACES_STAGE)
    number = {top: n for n, top in enumerate(tops)}
    units = {unit: n for n, unit in enumerate(unit for file in files for unit in file.units)}
    parts = {part: n for n, part in enumerate(made.partials)}
    said = []
    for n, top in enumerate(tops):
        line = "%d: file %d at %d, unit %d, weight %d, %s%s" % (
            n, top.unit.file, top.entry.at, units[top.unit], min(plan.weight(top), 64),
            "may move" if top.movable else "may not move", ", pinned" if top.pinned else "")
        if top.movable:
            line += ", least %d, into %s" % (number[least[top]], [number[t] for t in top.targets])
        part = made.home.get(top)
        goes = "stays" if part is None else "goes into %s%d" % ("the common " if part.file is None else "", parts[part])
        said.append("%s: %s, %d stands for it" % (line, goes, number[made.rep.get(top, top)]))
    for n, part in enumerate(made.partials):
        said.append("partial unit %d: file %d, for %s, holds %s" % (
            n, len(files) if part.file is None else part.file, [units[u] for u in part.users], [number[t] for t in part.tops]))
    return said


def sets_of(random_files, options):
    """The sets, each with its number: as it is, and with one of its files changed."""
    for seed in range(options.first, options.first + options.sets):
        contents = random_files(seed, 1 + seed % 3)
        yield seed, contents
        rng = random.Random(seed)
        for _ in range(options.changes):
            number = rng.randrange(len(contents))
            yield seed, contents[:number] + [changed(rng, contents[number])] + contents[number + 1:]


def main():
    parser = argparse.ArgumentParser(description=__doc__, formatter_class=argparse.RawDescriptionHelpFormatter)
    parser.add_argument("model")
    parser.add_argument("program")
    parser.add_argument("--sets", type=int, default=4000)
    parser.add_argument("--changes", type=int, default=1)
    parser.add_argument("--first", type=int, default=0)
    options = parser.parse_intermixed_args()
    if not os.path.isdir(os.path.join(options.model, "dwzref")):
        print("no model in %s: nothing was compared" % options.model)
        return 0
    sys.path[:0] = [options.model, os.path.join(options.model, "tests")]
    sys.dont_write_bytecode = True
    from random_files import random_files
    from dwzref import looks, plan, reading, run, tables
    model = reading, looks, run, tables
    counts = {"tops": 0, "alike": 0, "moving": 0, "common": 0, "parts": 0, "refused": 0, "right": 0, "wrong": 0}
    with tempfile.TemporaryDirectory() as folder:
        for seed, contents in sets_of(random_files, options):
            names = []
            for n, data in enumerate(contents):
                names.append(os.path.join(folder, str(n)))
                with open(names[-1], "wb") as file:
                    file.write(data)
            known, fault = looks_of(model, contents)
            for words in [], ["--apart"]:
                got = subprocess.run([options.program] + words + names, capture_output=True, text=True, check=True).stdout.splitlines()
                want = [fault] if fault else lines_of(plan, known, not words)
                if got != want:
                    counts["wrong"] += 1
                    for a, b in zip(got + [""] * len(want), want + [""] * len(got)):
                        if a != b:
                            print("set %d%s: %r, not %r" % (seed, "".join(" " + w for w in words), a, b))
                            break
                    continue
                counts["right"] += 1
                if fault:
                    counts["refused"] += 1
                    continue
                least = known[2]
                tops = [line for line in want if "stands for it" in line]
                counts["tops"] += len(tops)
                counts["alike"] += sum(1 for top in known[1] if least.get(top, top) is not top)
                counts["moving"] += sum(1 for line in tops if "goes into" in line)
                counts["common"] += sum(1 for line in tops if "goes into the common" in line)
                counts["parts"] += len(want) - len(tops)
    print(", ".join("%s %d" % pair for pair in counts.items()))
    return 1 if counts["wrong"] else 0


if __name__ == "__main__":
    sys.exit(main())
