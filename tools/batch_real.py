#!/usr/bin/env python3
"""Writes many real files at once over a finished common file (--batch), and asks debuggers what they read.

    tools/batch_real.py [--program PROGRAM] [--jobs N,N..] [--gdb N] [--keep FOLDER] COMMON FILE...

COMMON is a common file that the program made before (-m). FILEs may be any: each is written by itself too (--reuse), and where that refuses it,
the batch has to leave it, and to say the same of it; where that writes it, the batch has to give the same bytes, and to say the same; and
where nothing of it moves, to leave it. So it has to be once for each number of workers (-j, of --jobs), and COMMON has to keep its bytes. Of each
FILE that was written the program has to say (--check) that it means what it meant. Then readelf, eu-readelf and llvm-dwarfdump, where they are at
hand, have to say of each such FILE what they said of the old one, and gdb of the first N: `debug_readers.py` tells what is asked, and what may
differ. These readers don't follow references into a common file by DWARF 5 (7.5.4), so they are asked of what tools/gnu_forms.py makes of the files.

The last line counts, with the bytes of the files before and after; the status is 1 where something differs. It belongs to no gate.
"""

import argparse
import os
import sys
import tempfile

from compare_real import check_files, read_files
from compare_runs import COMMON, numbers, run_program
from debug_readers import at_hand
from reuse_real import held_in

DONE, REFUSED, PARTLY = 0, 1, 7


def alone(program, common, held):
    """What comes of each FILE by itself: status, what is said, and its bytes."""
    came = {}
    for name in held:
        with tempfile.TemporaryDirectory() as place:
            status, text, after = run_program(program, [b"-j", b"1", b"--reuse", COMMON, name], {name: held[name], COMMON: common}, place)
        if status not in (DONE, REFUSED):
            sys.exit("%s: status %d" % (os.fsdecode(name), status))
        came[name] = status, text, after[name]
    return came


def wrong_with(got, common, came):
    """What of a batch isn't what comes of each FILE by itself."""
    status, text, after = got
    wanted = PARTLY if any(one[0] == REFUSED for one in came.values()) else DONE
    wrong = [] if status == wanted else ["status %d, not %d" % (status, wanted)]
    if text != b"".join(one[1] for one in came.values()):
        wrong.append("another text")
    wrong += ["%s has other bytes" % os.fsdecode(name) for name, one in came.items() if after[name] != one[2]]
    return wrong + (["the common file has other bytes"] if after[COMMON] != common else [])


def main():
    parser = argparse.ArgumentParser(description=__doc__, formatter_class=argparse.RawDescriptionHelpFormatter)
    parser.add_argument("common")
    parser.add_argument("files", nargs="+")
    parser.add_argument("--program", default=os.path.join(os.path.dirname(__file__), "../crates/dwz/out/dwz"))
    parser.add_argument("--jobs", type=numbers, default=[1, 3, 7, 64])
    parser.add_argument("--gdb", type=int, default=3, help="of how many files gdb is asked")
    parser.add_argument("--keep", help="a folder that keeps the files")
    options = parser.parse_args()
    program = os.path.abspath(options.program)
    held = held_in(options.files)
    with open(options.common, "rb") as file:
        common = file.read()
    came = alone(program, common, held)
    counts = dict.fromkeys(["wrong", "checked", "not the same", "asked", "not asked", "read less"], 0)
    for job in options.jobs:
        with tempfile.TemporaryDirectory() as place:
            got = run_program(program, [b"-j", b"%d" % job, b"--batch", COMMON] + list(held), {**held, COMMON: common}, place)
        for one in wrong_with(got, common, came):
            counts["wrong"] += 1
            print("-j %d: %s" % (job, one), flush=True)
    print(got[1].decode(errors="replace"), end="", flush=True)
    written = {name: data for name, data in held.items() if came[name][2] != data}
    after = {**{name: came[name][2] for name in written}, COMMON: common}
    with tempfile.TemporaryDirectory() as temporary:
        check_files("over", program, written, after, counts)
        place, some = options.keep or temporary, dict(list(written.items())[:options.gdb])
        dumps = [reader for reader in at_hand() if reader.name != "gdb"]
        read_files("over", dumps, place, written, after, counts)
        read_files("over", [reader for reader in at_hand() if reader.name == "gdb"], place, some, after, counts)
    refused = sum(one[0] == REFUSED for one in came.values())
    sizes = [sum(len(files[name]) for name in written) for files in (held, after)]
    print("files %d, written %d, refused %d, bytes %d -> %d, common %d, " % (len(held), len(written), refused, *sizes, len(common)) + ", ".join("%s %d" % pair for pair in counts.items()))
    return 1 if counts["wrong"] or counts["not the same"] or counts["read less"] else 0


if __name__ == "__main__":
    sys.exit(main())
