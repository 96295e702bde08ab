#!/usr/bin/env python3
"""Compares what the program makes of files over a finished common file (--reuse) with a model of the tool that was written independently.

    tools/compare_reuse.py MODEL [--sets N] [--changed N] [--first N] [--jobs N,N..] [--workers N] [PROGRAM]

MODEL is the folder of the model: it has dwzref/ (the whole tool) and tests/random_files.py (making files). Each of N sets has two to six random
files that share shapes. Of the first of them the program makes a common file (`-m`); where none comes of it, one of other files is taken, or
one of the files itself. The others, and sometimes those of which it was made, are written over it, alone or together, in place or with `-o`.
Sometimes the common file is doubled before: it has each unit and each text twice then. As many sets as --changed says are written after a change
of one file or of the common file: of some bytes, or of a value that leads elsewhere then (an import, a reference, a line table); the common
file mostly gets the right checksum again. Of the program it is asked by each number of workers (`-j`, of --jobs). Status, text and each file
afterwards have to be the model's, byte for byte.

Of each file that was written the program has to say (--check) that it is the same as before, where nothing was changed, but for files in
which a namespace has more than its name, since a copy has the name alone.

The last lines count how runs ended, and what is wrong; the status is 1 where something is. It belongs to no gate. Where the model isn't there,
it says so and ends with status 0.
"""

import argparse
import os
import random
import sys
import tempfile
from multiprocessing import Pool

import compare_check
import compare_expand
from compare_check import held_in, made_of
from compare_expand import add, has_more_than_names, led_elsewhere
from compare_runs import ALL_WORDS, COMMON, NAMES, differences, numbers, run_model, run_program
from compare_walk import changed

# one more than the names of the other tools
SIX = NAMES + [b"six"]


def load(folder, program, jobs):
    compare_check.load(folder, program, jobs)


def sections_of(common):
    """The sections of a common file, as the model reads them; None where it isn't one."""
    from dwzref import reuse, reading, tables
    try:
        return reuse.read_common(0, common, reading.Room())
    except tables.Refusal:
        return None


def built_of(file, sections):
    """A common file with these sections, and the right checksum."""
    from dwzref import sup
    return sup.common_file(file.elf.machine, file.elf.flags, {code: data for code, data in sections.items() if code != 9 and data is not None})


def doubled(common):
    """The common file with each unit and each text twice. The second ones refer to the first."""
    file = sections_of(common)
    if file is None:
        return common
    sections = {code: file.elf.section(code) for code in (1, 2, 3, 6) if file.elf.section(code) is not None}
    sections[1] *= 2
    if 3 in sections:
        sections[3] *= 2
    return built_of(file, sections)


def sealed(data):
    """The file with the right checksum, if it has the room for one."""
    from dwzref import elf, sup, tables
    try:
        read = elf.Elf(data, True)
        place, content = read.by_code[9].offset, read.section(9)
        if len(content) != 37:
            return data
        sum_ = sup.checksum_of({code: read.section(code) for code in (1, 2, 3)})
    except (tables.Refusal, tables.Fault, KeyError, TypeError):
        return data
    return data[:place + 5] + sum_ + data[place + 37:]


def common_of(rng, files, seed, folder):
    """A common file of some of these files, or of others."""
    for more in range(20):
        held = made_of(dict(zip(SIX, files)), True, folder)
        for name in held:
            os.remove(os.path.join(os.fsencode(folder), name))
        if COMMON in held:
            return held[COMMON]
        if rng.random() < 0.1:
            return rng.choice(files)
        files = compare_check.MODEL[0](seed + 100000 + more, 3)
    return files[0]


def change_one(rng, held, names):
    """Changes a file, or the common one."""
    name = rng.choice(names + [COMMON])
    if rng.random() < 0.5:
        held[name] = changed(rng, held[name])
    elif name == COMMON:
        held[name] = led_elsewhere(rng, held[name], None)
    else:
        held[name] = led_elsewhere(rng, held[name], held[COMMON])
    if name == COMMON and rng.random() < 0.8:
        held[name] = sealed(held[name])


def words_of(rng, names):
    words = [b"--reuse", COMMON]
    if rng.random() < 0.3:
        words += [b"-M", b"/usr/lib/debug/common.debug"]
    if len(names) == 1 and rng.random() < 0.4:
        words += [b"-o", b"out"]
    return words + [b"-q"] * (rng.random() < 0.1) + names


def kind_of(want):
    """How a run ended, for the count."""
    if want[0]:
        return want[1].decode().strip().split(": ")[-1].split(" 0x")[0]
    return "written" if b" -> " in want[1] else "quiet" if not want[1] else "nothing moves"


def told_same(held, old, words, folder):
    """Which of the files aren't told to be the same as before."""
    wrong = []
    names = words[words.index(b"-q") + 1:] if b"-q" in words else [word for word in words if word in SIX]
    for name in names:
        new = b"out" if b"out" in words else name
        if new not in held or held[new] == old[name] or has_more_than_names(old[name]):
            continue
        told = run_program(compare_check.PROGRAM, [b"--check", b"was", new, b"--sup", COMMON], {**held, b"was": old[name]}, folder)
        if told[1] != b"same\n":
            wrong.append("%s and what comes of it: %r" % (name.decode(), told[1]))
    return wrong


def compare(case):
    """How often each kind of end came of a set, and what is wrong."""
    seed, change = case
    rng = random.Random("reuse %d %r" % (seed, change))
    files = compare_check.MODEL[0](seed, rng.choice([2, 3, 3, 4, 5, 6]))
    made = max(1, len(files) - rng.choice([1, 1, 2, 3]))
    ends, wrong = {}, []
    with tempfile.TemporaryDirectory() as folder:
        common = common_of(rng, files[:made], seed, folder)
        if rng.random() < 0.15:
            common = doubled(common)
        names = SIX[:len(files)] if rng.random() < 0.3 else SIX[made:len(files)] or SIX[:1]
        if rng.random() < 0.5:
            names = [rng.choice(names)]
        held = {name: data for name, data in zip(SIX, files) if name in names}
        held[COMMON] = common
        old = dict(held)
        if change is not None:
            change_one(rng, held, names)
        words = words_of(rng, names)
        want = run_model(compare_check.MODEL[1:], words, dict(held), ALL_WORDS)
        ends[kind_of(want)] = 1
        for job in compare_check.JOBS:
            for name in held_in(folder):
                os.remove(os.path.join(os.fsencode(folder), name))
            got = run_program(compare_check.PROGRAM, [b"-j", b"%d" % job] + words, held, folder)
            wrong += ["-j %d %s: %s" % (job, b" ".join(words).decode(), one) for one in differences(got, want)]
        if change is None and not wrong and not got[0]:
            wrong += told_same(got[2], old, words, folder)
    return ends, ["set %d %s: %s" % (seed, change, one) for one in wrong]


def main():
    parser = argparse.ArgumentParser(description=__doc__, formatter_class=argparse.RawDescriptionHelpFormatter)
    parser.add_argument("model")
    parser.add_argument("program", nargs="?", default=os.path.join(os.path.dirname(__file__), "../crates/dwz/out/dwz"))
    parser.add_argument("--sets", type=int, default=2000)
    parser.add_argument("--changed", type=int, default=4000)
    parser.add_argument("--first", type=int, default=0)
    parser.add_argument("--jobs", type=numbers, default=[1, 3, 7, 64])
    parser.add_argument("--workers", type=int, default=os.cpu_count(), help="how many sets at a time")
    options = parser.parse_intermixed_args()
    if not os.path.isdir(os.path.join(options.model, "dwzref")):
        print("no model in %s: nothing was compared" % options.model)
        return 0
    cases = [(seed, None) for seed in range(options.first, options.first + options.sets)]
    cases += [(options.first + n % max(options.sets, 1), n // max(options.sets, 1)) for n in range(options.changed)]
    ends, wrong = {}, 0
    with Pool(options.workers, load, (options.model, os.path.abspath(options.program), options.jobs)) as pool:
        for more, found in pool.imap(compare, cases, 8):
            add(ends, more)
            for one in found:
                print(one, flush=True)
            wrong += len(found)
    print("runs: %s" % ", ".join("%s %d" % one for one in sorted(ends.items(), key=lambda one: -one[1])))
    print("sets %d, wrong %d" % (sum(ends.values()), wrong))
    return 1 if wrong else 0


if __name__ == "__main__":
    sys.exit(main())
