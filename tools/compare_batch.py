#!/usr/bin/env python3
"""Compares what the program makes of many files over a finished common file (--batch) with a model of the tool that was written independently.

    tools/compare_batch.py MODEL [--sets N] [--changed N] [--long N] [--first N] [--jobs N,N..] [--workers N] [PROGRAM]

MODEL is the folder of the model: it has dwzref/ (the whole tool) and tests/random_files.py (making files). Each of N sets has two to six random
files that share shapes, and a common file that the program makes of some of them, or of others, as in tools/compare_reuse.py. One of them or
more are written over it, some with `-M` or `-q`, each as if it were alone. As many sets as --changed says are written after some of their files
were spoiled: bytes changed, a value that leads elsewhere, another machine, no ELF file, cut, one that imports already, or one that isn't held;
in some it is the common file that is changed, or the words ask for what doesn't go together. And as many as --long says have a file that is
longer than one may be, or are longer together than all may be. Of the program it is asked by each number of workers (`-j`, of --jobs). Status,
text and each file afterwards have to be the model's, byte for byte.

Where a run answers that all went well, or not all, each FILE by itself has to come to the same with --reuse.

The last lines count how runs ended, and what is wrong; the status is 1 where something is. It belongs to no gate. Where the model isn't there,
it says so and ends with status 0.
"""

import argparse
import os
import random
import sys
import tempfile
from multiprocessing import Pool

import compare_check
from compare_check import held_in
from compare_expand import add, led_elsewhere
from compare_reuse import SIX, common_of, doubled, sealed
from compare_runs import ALL_WORDS, COMMON, OTHER_MACHINE, differences, numbers, run_model, run_program
from compare_walk import changed

LONGEST_FILE = 1 << 28

DONE, REFUSED, USAGE, PARTLY = 0, 1, 2, 7

NAME = [b"-M", b"/usr/lib/debug/common.debug"]

# words that don't go with those of a batch
OTHERS = [[b"-o", b"out"], [b"--reuse", b"other"], [b"-m", b"other"], [b"--sup", b"other"], [b"--batch", b"other"], [b"--explain"], [b"--check"],
          [b"--expand"], [b"--demo", b"2"], [COMMON], [b"-j", b"0"]]


def load(folder, program, jobs):
    compare_check.load(folder, program, jobs)


def clear(folder):
    for name in held_in(folder):
        os.remove(os.path.join(os.fsencode(folder), name))


def imports_already(held, name, common, folder):
    """The file, written over a common one: it has a supplementary section then, which is refused."""
    clear(folder)
    after = run_program(compare_check.PROGRAM, [b"--reuse", COMMON, name], {COMMON: common, name: held[name]}, folder)[2]
    return after[name]


def spoiled(rng, held, name, common, folder):
    """The file after something was done to it, or None where it isn't held."""
    data = held[name]
    kind = rng.random()
    if kind < 0.45:
        return changed(rng, data)
    if kind < 0.65:
        return led_elsewhere(rng, data, common)
    if kind < 0.75:
        return data[:18] + OTHER_MACHINE + data[20:]
    if kind < 0.80:
        return rng.choice([b"", b"no ELF file", b"\x7fELF", data[:63]])
    if kind < 0.88:
        return data[:rng.randrange(len(data))]
    if kind < 0.96:
        return imports_already(held, name, common, folder)
    return None


def change_common(rng, held):
    """Changes the common file."""
    held[COMMON] = changed(rng, held[COMMON]) if rng.random() < 0.5 else led_elsewhere(rng, held[COMMON], None)
    if rng.random() < 0.8:
        held[COMMON] = sealed(held[COMMON])


def change_some(rng, held, names, folder):
    """Spoils some of the files, and sometimes the common one. Which words are asked for then may change, too."""
    common = held[COMMON]
    for name in rng.sample(names, rng.randrange(1, len(names) + 1)):
        held[name] = spoiled(rng, held, name, common, folder)
        if held[name] is None:
            del held[name]
    if rng.random() < 0.2:
        change_common(rng, held)
    return rng.choice(OTHERS) if rng.random() < 0.03 else []


def words_of(rng, names):
    words = [b"--batch", COMMON]
    if rng.random() < 0.3:
        words += NAME
    if rng.random() < 0.2:
        words += [b"-q"]
    return words + names


def kind_of(want):
    """How a run ended, for the count."""
    if want[0] == DONE:
        return "all written" if b" -> " in want[1] else "quiet" if not want[1] else "nothing moves"
    if want[0] == PARTLY:
        return "partly written"
    if want[0] == USAGE:
        return "usage"
    return want[1].decode(errors="replace").strip().split(": ")[-1].split(" 0x")[0]


def alone(held, words, want, folder):
    """Which of the files don't come to the same by themselves. Those that are refused keep their bytes."""
    wrong = []
    named = words[2:4] if words[2:3] == NAME[:1] else []
    for name in [word for word in words if word in SIX]:
        clear(folder)
        got = run_program(compare_check.PROGRAM, [b"-j", b"1", b"--reuse", COMMON] + named + [name], {name: held[name], COMMON: held[COMMON]}, folder)
        if got[2][name] != want[2][name] or b"-q" not in words and got[1] not in want[1]:
            wrong.append("%s by itself: %r" % (name.decode(), got[1]))
    return wrong


def compared(words, held, folder, kind):
    """How the run ended by the model, and what is wrong."""
    want = run_model(compare_check.MODEL[1:], words, dict(held), ALL_WORDS)
    wrong = []
    for job in compare_check.JOBS:
        clear(folder)
        got = run_program(compare_check.PROGRAM, [b"-j", b"%d" % job] + words, held, folder)
        wrong += ["-j %d %s: %s" % (job, b" ".join(words).decode(), one) for one in differences(got, want)]
    if want[0] in (DONE, PARTLY) and not wrong and kind != "long":
        wrong += alone(held, words, want, folder)
    return {kind_of(want): 1}, wrong


def set_of(rng, seed, folder):
    """Files by their names, those that are written, and the common file among them."""
    files = compare_check.MODEL[0](seed, rng.choice([2, 3, 3, 4, 5, 6]))
    made = max(1, len(files) - rng.choice([1, 1, 2, 3]))
    common = common_of(rng, files[:made], seed, folder)
    if rng.random() < 0.1:
        common = doubled(common)
    names = SIX[:len(files)] if rng.random() < 0.4 else SIX[made:len(files)] or SIX[:1]
    rng.shuffle(names)
    held = {name: data for name, data in zip(SIX, files) if name in names}
    held[COMMON] = common
    return names, held


def lengthen(rng, held, names):
    """Makes files so long that one alone, or all together, are too long."""
    kind = rng.randrange(4)
    if kind == 0:
        held[COMMON] += bytes(LONGEST_FILE + 1 - len(held[COMMON]))
        del held[names[-1]]
    elif kind == 1:
        held[rng.choice(names)] = bytes(LONGEST_FILE + rng.randrange(1, 3))
        if rng.random() < 0.3:
            del held[names[-1]]
    elif kind == 2:
        held[names[0]] += bytes(LONGEST_FILE - len(held[names[0]]))
        held[names[-1]] = bytes(LONGEST_FILE - rng.choice([0, len(held[COMMON])]))
    else:
        held[names[0]] = bytes(2 * LONGEST_FILE - len(held[COMMON]) + rng.randrange(2))
        if rng.random() < 0.3:
            del held[names[-1]]


def compare(case):
    """How often each kind of end came of a set, and what is wrong."""
    kind, seed, change = case
    rng = random.Random("batch %s %d %r" % (kind, seed, change))
    with tempfile.TemporaryDirectory() as folder:
        names, held = set_of(rng, seed, folder)
        others = []
        if kind == "changed":
            others = change_some(rng, held, names, folder)
        elif kind == "long":
            lengthen(rng, held, names)
        ends, wrong = compared(words_of(rng, list(names)) + others, held, folder, kind)
    return ends, ["%s set %d %s: %s" % (kind, seed, change, one) for one in wrong]


def main():
    parser = argparse.ArgumentParser(description=__doc__, formatter_class=argparse.RawDescriptionHelpFormatter)
    parser.add_argument("model")
    parser.add_argument("program", nargs="?", default=os.path.join(os.path.dirname(__file__), "../crates/dwz/out/dwz"))
    parser.add_argument("--sets", type=int, default=1000)
    parser.add_argument("--changed", type=int, default=4000)
    parser.add_argument("--long", type=int, default=0)
    parser.add_argument("--first", type=int, default=0)
    parser.add_argument("--jobs", type=numbers, default=[1, 3, 64])
    parser.add_argument("--workers", type=int, default=os.cpu_count(), help="how many sets at a time")
    options = parser.parse_intermixed_args()
    if not os.path.isdir(os.path.join(options.model, "dwzref")):
        print("no model in %s: nothing was compared" % options.model)
        return 0
    cases = [("whole", seed, None) for seed in range(options.first, options.first + options.sets)]
    cases += [("changed", options.first + n % max(options.sets, 1), n // max(options.sets, 1)) for n in range(options.changed)]
    cases += [("long", options.first + n, None) for n in range(options.long)]
    ends, wrong = {}, 0
    with Pool(options.workers, load, (options.model, os.path.abspath(options.program), options.jobs)) as pool:
        for more, found in pool.imap(compare, cases, 4):
            add(ends, more)
            for one in found:
                print(one, flush=True)
            wrong += len(found)
    print("runs: %s" % ", ".join("%s %d" % one for one in sorted(ends.items(), key=lambda one: -one[1])))
    print("sets %d, wrong %d" % (sum(ends.values()), wrong))
    return 1 if wrong else 0


if __name__ == "__main__":
    sys.exit(main())
