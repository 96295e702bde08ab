#!/usr/bin/env python3
"""Compares the program with an independent model over files that compilers make, and asks debuggers what they read.

    tools/compare_real.py MODEL [--keep FOLDER] [--ways WAYS] [--jobs N,N..] [--only WORDS] [PROGRAM]

The files are those of `small_programs.py`. The program writes each anew with `-o` (the way `alone`), and three that share headers with
`-m` (the way `common`), of one compiler and one variant, and of all compilers of a language; once for each number of workers (of
--jobs). Status, text and bytes have to be those of the model, the common file's too. Where something of a file moved, each reader that
is at hand (gdb, readelf, eu-readelf, llvm-dwarfdump) has to say of the new file what it said of the old one: `debug_readers.py` tells
what is asked, and what may differ. In the way `alone` they are asked too of the file that the dwz of a distribution writes, where it is
at hand and takes the file: how much differs there is shown beside. The program itself has to say (--check) that each new file is the same as
the old one; where it doesn't find two files of a set to differ, a line says so; and of the new file and an old one in whose `.debug_info` a bit
was changed it has to say what the model says: that they differ, at which unit, or why it can't be read. And it takes the partial units out of each (--expand): again
status, text and bytes have to be the model's, and the readers have to say of what comes of it what they said of the old file. gdb 13, readelf 2.40, eu-readelf 0.188 and llvm-dwarfdump 14 don't
follow references into a common file by DWARF 5 (7.5.4); so of files with one they are asked of what tools/gnu_forms.py makes of them.
With --only just the sets are taken whose names have one of these words.

What isn't at hand is left out, with a line that says so, and so is a reader that crashes on a file as the compiler made it. The last line
counts; the status is 1 where something differs. It belongs to no gate.
"""

import argparse
import os
import random
import shutil
import struct
import sys
import tempfile

from compare_runs import ALL_WORDS, COMMON, WAYS, differences, numbers, run_model, run_program
from debug_readers import Crash, at_hand
from gnu_forms import rewritten
from small_programs import quiet, sets_of


def write_all(folder, held):
    os.makedirs(folder, exist_ok=True)
    for name, data in held.items():
        with open(os.path.join(folder, os.fsdecode(name)), "wb") as file:
            file.write(data)


def by_dwz(path, folder):
    """The file as the dwz of a distribution writes it, in that folder, or None where there is none, or where it refuses the file."""
    if shutil.which("dwz") is None:
        return None
    os.makedirs(folder, exist_ok=True)
    out = os.path.join(folder, os.path.basename(path))
    done = quiet(["dwz", "-l", "none", "-L", "none", "-o", out, path])
    return out if done.returncode == 0 and os.path.exists(out) else None


def read_again(name, asked, old, new, other, counts):
    """Asks the readers of a file before and after, and of that which dwz wrote, if there is one."""
    for reader in asked:
        try:
            before = reader.says(old, old)
        except Crash as crash:
            print("%s: %s %s, on the compiler's own file: it isn't asked" % (name, reader.name, crash))
            counts["not asked"] += 1
            continue
        try:
            lost = reader.lost(before, reader.says(new, old))
        except Crash as crash:
            lost = [str(crash)]
        try:
            beside = "" if other is None else ", of dwz's file %d" % len(reader.lost(before, reader.says(other, old)))
        except Crash as crash:
            beside = ", on dwz's file it %s" % crash
        print("%s: %s: %s; %d differ%s" % (name, reader.name, reader.about(before), len(lost), beside), flush=True)
        for one in lost:
            print("    " + one)
        counts["asked"] += 1
        counts["read less"] += bool(lost)


def new_files(after):
    """The files of a set after a run. `out` is written in place of `one`."""
    new = {file: data for file, data in after.items() if file != b"out"}
    if b"out" in after:
        new[b"one"] = after[b"out"]
    return new


def read_files(name, asked, folder, before, after, counts):
    """Asks them of each file of a set of which something moved."""
    new = new_files(after)
    places = {kind: os.path.join(folder, kind) for kind in ("before", "after", "dwz")}
    write_all(places["before"], before)
    write_all(places["after"], {file: rewritten(data) for file, data in new.items()})
    for file, data in before.items():
        if new[file] != data:
            old, made = (os.path.join(places[kind], os.fsdecode(file)) for kind in ("before", "after"))
            other = None if COMMON in new else by_dwz(old, places["dwz"])
            read_again("%s, %s" % (name, os.fsdecode(file)), asked, old, made, other, counts)


def check_files(name, program, before, after, counts):
    """Asks the program itself (--check) of each file of a set whether it means what it meant, and of each pair of two whether it sees that these differ."""
    new = new_files(after)
    sup = [b"--sup", COMMON] if COMMON in new else []
    held = {**{b"old-" + file: data for file, data in before.items()}, **new}
    for file in before:
        with tempfile.TemporaryDirectory() as place:
            status, text, _ = run_program(program, [b"--check", b"old-" + file, file] + sup, held, place)
        counts["checked"] += 1
        if (status, text) != (0, b"same\n"):
            counts["not the same"] += 1
            print("%s, %s: --check says %d, %s" % (name, os.fsdecode(file), status, text.decode(errors="replace")), flush=True)
    names = sorted(before)
    for one, other in zip(names, names[1:]):
        with tempfile.TemporaryDirectory() as place:
            status, text, _ = run_program(program, [b"--check", b"old-" + one, other] + sup, held, place)
        if status != 8 and before[one] != before[other]:
            print("%s, %s and %s: --check says %d, %s" % (name, os.fsdecode(one), os.fsdecode(other), status, text.decode(errors="replace")), flush=True)


def info_of(data):
    """Where `.debug_info` stands in a file, and how many bytes it has."""
    table, = struct.unpack_from("<Q", data, 0x28)
    size, count, names = struct.unpack_from("<HHH", data, 0x3a)
    rows = [struct.unpack_from("<IIQQQQ", data, table + n * size) for n in range(count)]
    for row in rows:
        at = rows[names][4] + row[0]
        if data[at:data.index(0, at)] == b".debug_info":
            return row[4], row[5]
    raise ValueError("no .debug_info")


def edited(rng, data):
    """The file with one bit of an entry changed, or of what stands before entries."""
    first, size = info_of(data)
    bad = bytearray(data)
    bad[first + rng.randrange(size)] ^= 1 << rng.randrange(8)
    return bytes(bad)


def check_edits(name, program, model, edits, before, after, counts):
    """What the program says (--check) of each new file beside so many old ones that were edited, which has to be what the model says."""
    new = new_files(after)
    sup = [b"--sup", COMMON] if COMMON in new else []
    for file, data in before.items():
        rng = random.Random("%s, %s" % (name, os.fsdecode(file)))
        for _ in range(edits):
            words = [b"--check", b"old-" + file, file] + sup
            held = {b"old-" + file: edited(rng, data), **new}
            with tempfile.TemporaryDirectory() as place:
                got = run_program(program, words, held, place)
            found = differences(got, run_model(model, words, dict(held), ALL_WORDS))
            counts["differ"] += bool(found)
            counts["edited"] += 1
            counts["seen to differ"] += got[0] == 8
            for one in found:
                print("%s, %s, edited: %s" % (name, os.fsdecode(file), one), flush=True)


def expand_file(name, program, model, held, words, job, counts):
    """What the program writes without partial units, once it was compared; None where it is refused."""
    with tempfile.TemporaryDirectory() as place:
        got = run_program(program, [b"-j", b"%d" % job] + words, held, place)
    found = differences(got, run_model(model, words, dict(held), ALL_WORDS)) if model else []
    if found:
        counts["differ"] += 1
        print("%s: -j %d %s: %s" % (name, job, b" ".join(words).decode(), "; ".join(found)))
    counts["expanded" if got[0] == 0 else "not expanded"] += 1
    print("%s: status %d, %s" % (name, got[0], got[1].decode(errors="replace").strip()), flush=True)
    return got[2].get(b"back")


def expand_files(name, asked, folder, program, model, job, before, after, counts):
    """Takes the partial units out of each file of a set of which something moved, and asks the readers of what comes of it."""
    new = new_files(after)
    common = {COMMON: new[COMMON]} if COMMON in new else {}
    for file, data in before.items():
        if new[file] == data:
            continue
        words = [b"--expand", file] + [word for one in common for word in (b"--sup", one)] + [b"-o", b"back"]
        back = expand_file("%s, %s" % (name, os.fsdecode(file)), program, model, {file: new[file], **common}, words, job, counts)
        if back is not None:
            old, made = (os.path.join(folder, kind) for kind in ("before", "expanded"))
            write_all(old, {file: data})
            write_all(made, {file: back})
            read_again("%s, %s, expanded" % (name, os.fsdecode(file)), asked, *(os.path.join(one, os.fsdecode(file)) for one in (old, made)), None, counts)


def compare_set(name, words, held, jobs, program, model, counts):
    """The status and the files after a run, once it was compared, for each number of workers."""
    counts["sets"] += 1
    want = run_model(model, words, dict(held)) if model else None
    for job in jobs:
        with tempfile.TemporaryDirectory() as place:
            got = run_program(program, [b"-j", b"%d" % job] + words, held, place)
        found = differences(got, want) if want else []
        if found:
            counts["differ"] += 1
            print("%s: -j %d: %s" % (name, job, "; ".join(found)))
    counts["written" if got[0] == 0 else "refused"] += 1
    counts["with a common file"] += COMMON in got[2]
    print("%s: status %d, %s" % (name, got[0], "; ".join(got[1].decode(errors="replace").splitlines())), flush=True)
    return got[0], got[2]


def main():
    parser = argparse.ArgumentParser(description=__doc__, formatter_class=argparse.RawDescriptionHelpFormatter)
    parser.add_argument("model")
    parser.add_argument("program", nargs="?", default=os.path.join(os.path.dirname(__file__), "../crates/dwz/out/dwz"))
    parser.add_argument("--keep", help="a folder that keeps the files")
    parser.add_argument("--ways", type=lambda text: text.split(","), default=WAYS, help="alone,common")
    parser.add_argument("--jobs", type=numbers, default=[1, 7])
    parser.add_argument("--edits", type=int, default=2, help="how often each old file is edited")
    parser.add_argument("--only", default="", help="words, with commas between them")
    options = parser.parse_intermixed_args()
    if not set(options.ways) <= set(WAYS):
        parser.error("ways are %s" % ", ".join(WAYS))
    program = os.path.abspath(options.program)
    model = None
    if os.path.isdir(os.path.join(options.model, "dwzref")):
        sys.path[:0] = [options.model]
        sys.dont_write_bytecode = True
        from dwzref import outside, run
        model = (outside, run)
    else:
        print("no model in %s: status, text and bytes aren't compared" % options.model)
    asked = at_hand()
    counted = ["sets", "written", "with a common file", "refused", "differ", "checked", "not the same", "edited", "seen to differ", "expanded", "not expanded", "asked", "not asked", "read less"]
    counts = dict.fromkeys(counted, 0)
    with tempfile.TemporaryDirectory() as temporary:
        folder = options.keep or temporary
        for name, words, held in sets_of(os.path.join(folder, "built"), options.ways):
            if any(word in name for word in options.only.split(",")):
                status, after = compare_set(name, words, held, options.jobs, program, model, counts)
                if status == 0:
                    check_files(name, program, held, after, counts)
                    if model:
                        check_edits(name, program, model, options.edits, held, after, counts)
                    place = os.path.join(folder, "read", name)
                    read_files(name, asked, place, held, after, counts)
                    expand_files(name, asked, place, program, model, options.jobs[-1], held, after, counts)
    print(", ".join("%s %d" % pair for pair in counts.items()))
    return 1 if counts["differ"] or counts["not the same"] or counts["not expanded"] or counts["read less"] else 0


if __name__ == "__main__":
    sys.exit(main())
