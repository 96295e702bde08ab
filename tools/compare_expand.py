#!/usr/bin/env python3
"""Compares what the program makes of files when it takes their partial units out (--expand) with a model of the tool that was written independently.

    tools/compare_expand.py MODEL [--sets N] [--changed N] [--first N] [--jobs N,N..] [--workers N] [PROGRAM]

MODEL is the folder of the model: it has dwzref/ (the whole tool) and tests/random_files.py (making files). Of each of N sets of one to three
random files the program makes new ones, each by itself (`-o`) or all together (`-m`), as in compare_check.py. Then it expands each new file,
and sometimes an old one, into another or in its own place; and as many sets as --changed says after a change of one new file or of the common
file: of some bytes, or of a value that leads elsewhere then (an import, a reference, a line table). Where a common file was made, it is given
with --sup; sometimes it is left out, or given where none is needed. The program runs by each number of workers (`-j`, of --jobs) in turn.
Status, text and each file afterwards have to be the model's, byte for byte.

Of what was expanded the program has to say (--check) what the model says: beside the old file, and beside the one that was expanded. Where
nothing was changed that has to be `same`, but for files in which a namespace has more than its name: copies have the name alone.

The last lines count how runs ended, what was said of what came of them, and what is wrong; the status is 1 where something is. It belongs to
no gate. Where the model isn't there, it says so and ends with status 0.
"""

import argparse
import os
import random
import sys
import tempfile
from multiprocessing import Pool

import compare_check
from compare_check import NAMES, held_in, made_of, write_all
from compare_runs import ALL_WORDS, COMMON, differences, numbers, run_model, run_program
from compare_walk import changed

# what leads elsewhere: references to entries of the file and of the common one, and offsets in sections
LEADING = {"ref_addr": 0x10, "ref_sup4": 0x1C, "sec_offset": 0x17}


def load(folder, program, jobs):
    compare_check.load(folder, program, jobs)


def read_finished(data, common):
    """The file as the model reads it beside a common one, if there is one; None where it is refused."""
    from dwzref import expand, tables
    try:
        return expand.read_finished(common, [data], 1)[0][0]
    except tables.Refusal:
        return None


def entries_of(file):
    return (entry for unit in file.units for entry in unit.root.preorder())


def has_more_than_names(data):
    """Whether a namespace of a file that was read by itself has more than its name."""
    return any(entry.tag == 0x39 and [attr.name for attr in entry.attrs] != [0x03] for entry in entries_of(read_finished(data, None)))


def led_elsewhere(rng, data, common):
    """The file with one value in the place of another of its form, or with some bytes changed where there are no two."""
    file = read_finished(data, common)
    places = {}
    for entry in entries_of(file) if file else []:
        for attr in entry.attrs:
            if attr.form in LEADING.values():
                places.setdefault(attr.form, []).append(file.elf.by_code[1].offset + attr.at)
    pairs = [(one, two) for same in places.values() for one in same for two in same if data[one:one + 4] != data[two:two + 4]]
    if not pairs:
        return changed(rng, data)
    one, two = rng.choice(pairs)
    return data[:one] + data[two:two + 4] + data[one + 4:]


def change_one(rng, held, names):
    """Changes a new file, or the common one."""
    name = rng.choice([name + b".new" for name in names] + [COMMON] * (COMMON in held))
    if name == COMMON or rng.random() < 0.4:
        held[name] = changed(rng, held[name])
    else:
        held[name] = led_elsewhere(rng, held[name], held.get(COMMON))


def words_of(rng, name, given):
    words = [b"--expand", name, b"-o", name if rng.random() < 0.1 else b"back"]
    if given:
        words += [b"--sup", COMMON]
    return words + [b"-q"] * (rng.random() < 0.1)


def kind_of(want):
    """How a run ended, for the count."""
    if want[0] == 1:
        return want[1].decode().strip().split(": ")[-1].split(" 0x")[0]
    return {b"same": "same", b"differs:": "differs"}.get(want[1][:8].strip(), "status %d" % want[0])


def compare_run(held, words, job, folder, ends):
    """What the run says and leaves, and what isn't the model's."""
    want = run_model(compare_check.MODEL[1:], words, held, ALL_WORDS)
    for name in held_in(folder):
        os.remove(os.path.join(os.fsencode(folder), name))
    got = run_program(compare_check.PROGRAM, [b"-j", b"%d" % job] + words, held, folder)
    ends[kind_of(want)] = ends.get(kind_of(want), 0) + 1
    return got, ["-j %d %s: %s" % (job, b" ".join(words).decode(), one) for one in differences(got, want)]


def compare(case):
    """How often each kind of end came of a set, and what is wrong."""
    seed, change = case
    rng = random.Random("expand %d %r" % (seed, change))
    old = dict(zip(NAMES, compare_check.MODEL[0](seed, rng.choice([1, 1, 2, 3]))))
    ends, said, wrong = {}, {}, []
    with tempfile.TemporaryDirectory() as folder:
        held = made_of(old, rng.random() < 0.5, folder)
        if change is not None:
            change_one(rng, held, list(old))
        for number, name in enumerate(list(old) + [rng.choice(NAMES[:len(old)])]):
            job = compare_check.JOBS[number % len(compare_check.JOBS)]
            given = COMMON in held and rng.random() < 0.9
            # the last of them is a file as it was before
            read = name + b".new" if number < len(old) else name
            words = words_of(rng, read, given)
            got, found = compare_run(held, words, job, folder, ends)
            wrong += found
            if got[0] or found:
                continue
            for other in {name, read} - {words[3]}:
                sup = [b"--sup", COMMON] if given else []
                told, found = compare_run(got[2], [b"--check", other, words[3]] + sup, job, folder, said)
                wrong += found
                if change is None and told[1] != b"same\n" and not has_more_than_names(old[name]):
                    wrong.append("%s and what comes of %s: %r" % (other.decode(), b" ".join(words).decode(), told[1]))
    return ends, said, ["set %d %s: %s" % (seed, change, one) for one in wrong]


def add(counts, more):
    for kind, times in more.items():
        counts[kind] = counts.get(kind, 0) + times


def main():
    parser = argparse.ArgumentParser(description=__doc__, formatter_class=argparse.RawDescriptionHelpFormatter)
    parser.add_argument("model")
    parser.add_argument("program", nargs="?", default=os.path.join(os.path.dirname(__file__), "../crates/dwz/out/dwz"))
    parser.add_argument("--sets", type=int, default=2000)
    parser.add_argument("--changed", type=int, default=4000)
    parser.add_argument("--first", type=int, default=0)
    parser.add_argument("--jobs", type=numbers, default=[1, 3])
    parser.add_argument("--workers", type=int, default=os.cpu_count(), help="how many sets at a time")
    options = parser.parse_intermixed_args()
    if not os.path.isdir(os.path.join(options.model, "dwzref")):
        print("no model in %s: nothing was compared" % options.model)
        return 0
    cases = [(seed, None) for seed in range(options.first, options.first + options.sets)]
    cases += [(options.first + n % max(options.sets, 1), n // max(options.sets, 1)) for n in range(options.changed)]
    ends, said, wrong = {}, {}, 0
    with Pool(options.workers, load, (options.model, os.path.abspath(options.program), options.jobs)) as pool:
        for more, then, found in pool.imap(compare, cases, 8):
            add(ends, more)
            add(said, then)
            for one in found:
                print(one, flush=True)
            wrong += len(found)
    for what, counts in (("expanded", ends), ("compared", said)):
        print("%s: %s" % (what, ", ".join("%s %d" % one for one in sorted(counts.items(), key=lambda one: -one[1]))))
    print("runs %d, comparisons %d, wrong %d" % (sum(ends.values()), sum(said.values()), wrong))
    return 1 if wrong else 0


if __name__ == "__main__":
    sys.exit(main())
