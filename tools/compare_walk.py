#!/usr/bin/env python3
"""Compares the program dwz_show_entries with a model of the tool that was written independently.

    tools/compare_walk.py MODEL [--files N] [--changes K] [--first N] [PROGRAM]

MODEL is the folder of the model: it has dwzref/ (reading files) and tests/random_files.py (making them). N random files
are read as they are, and each K times more after some of its bytes were changed. Of each the program's line has to say what
the model says: how many units and entries there are, or the first fault of the file, with section and place. The last line
counts; the status is 1 where a line differs.

It belongs to no gate. Where the model isn't there, it says so and ends with status 0.
"""

import argparse
import os
import random
import subprocess
import sys
import tempfile

REASONS = {
    1: "NotElf", 2: "FileType", 3: "SectionTable", 4: "Compressed", 5: "NoDebugInfo", 6: "Index", 9: "BadAbbrev",
    10: "UnsupportedForm { form: %d }", 11: "Truncated", 12: "BadNumber", 13: "BadString", 14: "BadLineTable", 15: "BadFile",
    16: "BadExpr", 17: "UnsupportedOp { op: %d }", 18: "BadList", 19: "SharedList", 20: "BadAranges", 21: "DwarfFormat",
    22: "Version", 23: "UnitType", 24: "AddressSize", 25: "NoSuchCode", 26: "BadRoot", 27: "TooDeep", 28: "TooMany",
    29: "BadReference", 30: "BadOperand", 31: "Machine", 33: "FileSize",
}


def changed(rng, data):
    """The file with some bytes changed, or cut."""
    bad = bytearray(data)
    kind = rng.random()
    if kind < 0.1:
        return bytes(bad[:rng.randrange(len(bad))])
    # Most changes are behind the file header, where sections are.
    for _ in range(rng.choice([1, 1, 2, 3])):
        first = 0 if kind < 0.2 else 64
        at = rng.randrange(first, len(bad))
        bad[at] = rng.choice([rng.randrange(256), bad[at] ^ 1 << rng.randrange(8), 0, 0x80, 0xff])
    return bytes(bad)


def expected(model, data):
    """What the line of a file has to say behind its name."""
    reading, tables = model
    try:
        file = reading.read_files([data])[0]
    except tables.Refusal as fault:
        reason = REASONS[fault.reason]
        return "section %d at %d: %s" % (fault.section, fault.at, reason % fault.number if "%" in reason else reason)
    entries = sum(1 for unit in file.units for _ in unit.root.preorder())
    return "%d units, %d entries" % (len(file.units), entries)


def main():
    parser = argparse.ArgumentParser(description=__doc__, formatter_class=argparse.RawDescriptionHelpFormatter)
    parser.add_argument("model")
    parser.add_argument("program", nargs="?", default=os.path.join(os.path.dirname(__file__), "../crates/dwz_show_entries/out/dwz_show_entries"))
    parser.add_argument("--files", type=int, default=4000)
    parser.add_argument("--changes", type=int, default=5)
    parser.add_argument("--first", type=int, default=0)
    options = parser.parse_intermixed_args()
    if not os.path.isdir(os.path.join(options.model, "dwzref")):
        print("no model in %s: nothing was compared" % options.model)
        return 0
    sys.path[:0] = [options.model, os.path.join(options.model, "tests")]
    sys.dont_write_bytecode = True
    from random_files import random_files
    from dwzref import reading, tables
    counts = {"read": 0, "refused": 0, "wrong": 0}
    reasons = {}
    with tempfile.TemporaryDirectory() as folder:
        for start in range(options.first, options.first + options.files, 50):
            block = []
            for seed in range(start, min(start + 50, options.first + options.files)):
                data = random_files(seed, 1)[0]
                block.append(data)
                rng = random.Random(seed)
                block += [changed(rng, data) for _ in range(options.changes)]
            names = []
            for number, data in enumerate(block):
                names.append(os.path.join(folder, "%d_%d" % (start, number)))
                with open(names[-1], "wb") as file:
                    file.write(data)
            got = subprocess.run([options.program] + names, capture_output=True, text=True, check=True).stdout.splitlines()
            for name, data, line in zip(names, block, got, strict=True):
                want = expected((reading, tables), data)
                said = line[len(name) + 2:]
                kind = ("read" if " units, " in said else "refused") if said == want else "wrong"
                counts[kind] += 1
                if kind == "refused":
                    reason = said.split(": ")[1].split(" ")[0]
                    reasons[reason] = reasons.get(reason, 0) + 1
                if kind == "wrong":
                    print("file %s: %r, not %r" % (os.path.basename(name), said, want))
                os.remove(name)
    print(", ".join("%s %d" % pair for pair in sorted(reasons.items())))
    print(", ".join("%s %d" % pair for pair in counts.items()))
    return 1 if counts["wrong"] else 0


if __name__ == "__main__":
    sys.exit(main())
