#!/usr/bin/env python3
"""Writes real files over a finished common file (--reuse), and asks debuggers what they read.

    tools/reuse_real.py [--program PROGRAM] [--jobs N,N..] [--keep FOLDER] FILE...

Of every other FILE the program makes a common file (-m). The files between are written over it, all together, once for each number of workers
(-j, of --jobs): status, text and bytes have to be the same each time, and the common file has to keep its bytes. The program itself has to say
(--check) that each new file is the same as the old one. Then each reader that is at hand (gdb, readelf, eu-readelf, llvm-dwarfdump) has to say
of each new file what it said of the old one: `debug_readers.py` tells what is asked, and what may differ. These readers don't follow references
into a common file by DWARF 5 (7.5.4), so they are asked of what tools/gnu_forms.py makes of the files.

The last line counts, with the bytes of the files before and after; the status is 1 where something differs. It belongs to no gate.
"""

import argparse
import os
import sys
import tempfile

from compare_real import check_files, read_files
from compare_runs import COMMON, numbers, run_program
from debug_readers import at_hand


def held_in(paths):
    """Files by their names, which have to differ."""
    held = {}
    for path in paths:
        with open(path, "rb") as file:
            held[os.fsencode(os.path.basename(path))] = file.read()
    if len(held) != len(paths):
        sys.exit("two FILEs have one name")
    return held


def common_of(program, held):
    """The common file that the program makes of these."""
    with tempfile.TemporaryDirectory() as place:
        status, text, after = run_program(program, [b"-m", COMMON] + sorted(held), held, place)
    if status != 0 or COMMON not in after:
        sys.exit("no common file: status %d, %s" % (status, text.decode(errors="replace").strip()))
    return after[COMMON]


def main():
    parser = argparse.ArgumentParser(description=__doc__, formatter_class=argparse.RawDescriptionHelpFormatter)
    parser.add_argument("files", nargs="+")
    parser.add_argument("--program", default=os.path.join(os.path.dirname(__file__), "../crates/dwz/out/dwz"))
    parser.add_argument("--jobs", type=numbers, default=[1, 3, 7, 64])
    parser.add_argument("--keep", help="a folder that keeps the files")
    options = parser.parse_args()
    program = os.path.abspath(options.program)
    common = common_of(program, held_in(options.files[::2]))
    held = held_in(options.files[1::2])
    counts = dict.fromkeys(["differ", "checked", "not the same", "asked", "not asked", "read less"], 0)
    first = None
    for job in options.jobs:
        with tempfile.TemporaryDirectory() as place:
            words = [b"-j", b"%d" % job, b"--reuse", COMMON] + sorted(held)
            got = run_program(program, words, {**held, COMMON: common}, place)
        first = first or got
        counts["differ"] += got != first or got[2][COMMON] != common
    status, text, after = first
    print(text.decode(errors="replace"), end="")
    if status != 0:
        sys.exit("status %d" % status)
    with tempfile.TemporaryDirectory() as temporary:
        check_files("over", program, held, after, counts)
        read_files("over", at_hand(), options.keep or temporary, held, after, counts)
    sizes = [sum(len(files[name]) for name in held) for files in (held, after)]
    print("files %d, bytes %d -> %d, common %d, " % (len(held), *sizes, len(common)) + ", ".join("%s %d" % pair for pair in counts.items()))
    return 1 if counts["differ"] or counts["not the same"] or counts["read less"] else 0


if __name__ == "__main__":
    sys.exit(main())
