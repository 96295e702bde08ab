#!/usr/bin/env python3
"""Compares the program dwz_show_entries with a model of the tool that was written independently, over abbreviation tables inside one another.

    tools/compare_tables.py MODEL [--files N] [--first N] [PROGRAM]

MODEL is the folder of the model (`compare_walk.py` says what it has). In each of N random files the units name tables that begin anywhere
in a short `.debug_abbrev`, most of them where a table is spelled: at a declaration of another, inside one, or at none. Of each file
the program's line has to say what the model says: how many units and entries there are, or the first fault, with section and place. The
last lines count; the status is 1 where a line differs. It belongs to no gate.
"""

import argparse
import os
import random
import struct
import subprocess
import sys
import tempfile
from collections import Counter

from compare_walk import expected
from many_units import elf

COMPILE_UNIT, IMPLICIT_CONST = 0x11, 0x21
TAGS = [COMPILE_UNIT, COMPILE_UNIT, 0x34, 0x01, 0x0B, 0x24, 0x2E]
NAMES = [0x01, 0x01, 0x11, 0x34, 0x03, 0x0B, 0x3A]
FORMS = [0x0B, 0x0B, 0x19, 0x01, IMPLICIT_CONST, 0x11, 0x0C, 0x08]


def uleb(number, padded=False):
    groups = [number & 127]
    while number := number >> 7:
        groups.append(number & 127)
    if padded:
        groups.append(0)
    return bytes(group | 128 for group in groups[:-1]) + bytes(groups[-1:])


def declaration(rng, code):
    data = uleb(code, rng.random() < 0.2) + uleb(rng.choice(TAGS)) + bytes([rng.choice([0, 1, 1])])
    for _ in range(rng.choice([0, 1, 2, 3, 6])):
        form = rng.choice(FORMS)
        data += uleb(rng.choice(NAMES)) + uleb(form)
        if form == IMPLICIT_CONST:
            data += uleb(rng.choice([0, 1, 5, 0x11, 0x21]))
    return data + b"\0\0"


def section(rng):
    """A few tables one behind the other, of which some have no end."""
    data = b""
    count = rng.randrange(1, 9)
    for _ in range(rng.randrange(1, 4)):
        for code in rng.sample(range(1, 60), count):
            data += declaration(rng, rng.choice([code, code, code, 0x11, 0x34, 0x52, 1]))
        data += b"\0" * (rng.random() < 0.85)
    return data + b"\0" * (rng.random() < 0.9)


class Reader:
    def __init__(self, data, at):
        self.data, self.at = data, at

    def byte(self):
        self.at += 1
        return self.data[self.at - 1]

    def uleb(self):
        number = shift = 0
        while (byte := self.byte()) > 127:
            number, shift = number | (byte & 127) << shift, shift + 7
        return number | byte << shift


def table_at(data, at):
    """The declarations at an offset by their codes (tag, whether there are children, forms), or None where no table is spelled."""
    table, reader = {}, Reader(data, at)
    try:
        while code := reader.uleb():
            tag, children, forms = reader.uleb(), reader.byte(), []
            while (pair := (reader.uleb(), reader.uleb())) != (0, 0):
                if 0 in pair or pair[0] > 0xFFFF:
                    return None
                if pair[1] == IMPLICIT_CONST:
                    reader.uleb()
                forms.append(pair[1])
            if not 0 < tag <= 0xFFFF or children > 1 or code in table:
                return None
            table[code] = tag, children, forms
        return table
    except IndexError:
        return None


def values(rng, forms):
    """Values of these forms, or None where one isn't of those that are known here."""
    data = b""
    for form in forms:
        if form in (0x0B, 0x0C, 0x11):
            data += bytes([rng.randrange(2 if form == 0x0C else 200)])
        elif form == 0x01:
            data += bytes(8)
        elif form == 0x08:
            data += rng.choice([b"a\0", b"\0", b"xy\0"])
        elif form not in (0x19, IMPLICIT_CONST):
            return None
    return data


def known(rng, table, is_root):
    """The codes of declarations for roots, or for other entries, whose forms are known."""
    return [code for code, (tag, _, forms) in table.items() if (tag == COMPILE_UNIT) == is_root and values(rng, forms) is not None]


def entries(rng, table, codes, depth):
    data = b""
    for _ in range(rng.choice([0, 1, 2, 3]) if codes else 0):
        data += entry(rng, table, rng.choice(codes), codes, depth)
    return data


def entry(rng, table, code, codes, depth):
    _, children, forms = table[code]
    below = (entries(rng, table, codes, depth + 1) if depth < 4 else b"") + b"\0" if children else b""
    return uleb(code) + values(rng, forms) + below


def unit(rng, abbrev, offset):
    table = table_at(abbrev, offset) or {}
    roots = known(rng, table, True)
    body = entry(rng, table, rng.choice(roots), known(rng, table, False), 0) if roots else bytes([rng.choice([1, 2, 0x11]), 0])
    if rng.random() < 0.03:
        body = body[:-1] + bytes([rng.randrange(256)])
    data = struct.pack("<HBBI", 5, 1, 8, offset) + body
    return struct.pack("<I", len(data)) + data


def random_file(seed):
    rng = random.Random(seed)
    abbrev = section(rng)
    good = [at for at in range(len(abbrev) + 1) if known(rng, table_at(abbrev, at) or {}, True)]
    info = b""
    for _ in range(rng.randrange(1, 14)):
        info += unit(rng, abbrev, rng.choice(good) if good and rng.random() < 0.97 else rng.randrange(len(abbrev) + 2))
    return elf(info, abbrev)


def main():
    parser = argparse.ArgumentParser(description=__doc__, formatter_class=argparse.RawDescriptionHelpFormatter)
    parser.add_argument("model")
    parser.add_argument("program", nargs="?", default=os.path.join(os.path.dirname(__file__), "../crates/dwz_show_entries/out/dwz_show_entries"))
    parser.add_argument("--files", type=int, default=20000)
    parser.add_argument("--first", type=int, default=0)
    options = parser.parse_intermixed_args()
    if not os.path.isdir(os.path.join(options.model, "dwzref")):
        print("no model in %s: nothing was compared" % options.model)
        return 0
    sys.path.insert(0, options.model)
    sys.dont_write_bytecode = True
    from dwzref import reading, tables
    counts, reasons = Counter(read=0, refused=0, wrong=0), Counter()
    end = options.first + options.files
    with tempfile.TemporaryDirectory() as folder:
        for start in range(options.first, end, 100):
            files = {os.path.join(folder, str(seed)): random_file(seed) for seed in range(start, min(start + 100, end))}
            for name, data in files.items():
                with open(name, "wb") as file:
                    file.write(data)
            lines = subprocess.run([options.program, *files], capture_output=True, text=True, check=True).stdout.splitlines()
            for (name, data), line in zip(files.items(), lines, strict=True):
                want, said = expected((reading, tables), data), line[len(name) + 2:]
                kind = "wrong" if said != want else "read" if " units, " in said else "refused"
                counts[kind] += 1
                if kind == "refused":
                    reasons[said.split(": ")[1].split(" ")[0]] += 1
                if kind == "wrong":
                    print("file %s: %r, not %r" % (os.path.basename(name), said, want))
                os.remove(name)
    print(", ".join("%s %d" % pair for pair in sorted(reasons.items())))
    print(", ".join("%s %d" % pair for pair in counts.items()))
    return 1 if counts["wrong"] else 0


if __name__ == "__main__":
    sys.exit(main())
