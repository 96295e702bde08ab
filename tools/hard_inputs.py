#!/usr/bin/env python3
"""Measures the program on files that are made to be hard: an entry with 40,000 attributes, 4,000 units over the suffixes of one
abbreviation table (in ascending, descending and random order of offset), units over each byte of a table at which a table is
spelled, 4,000 units over tables that begin inside one declaration, 40,000 abbreviations whose shapes have one hash, beside as
many that haven't, 80,000 types whose labels have one hash, beside as many whose labels haven't, and 1,000 types with one long name. Others ask again and again for what is behind many things: for attributes of a root or of a namespace that come behind
thousands, of many units, or for many tops; for location lists, that are named by many units, or whose suffixes are lists as well; and
for files of line tables, whose paths are long, or whose rows are those of other tables as well. And of files with long ways between their
entries it is asked why two aren't shared (`--explain`).

    tools/hard_inputs.py [--program PROGRAM] [--times N]

Each file is written elsewhere (`-o`), or explained, by one worker, N times; of each are told the least processor time and the most memory. What was written elsewhere is then
compared with the file (`--check`), and written without its partial units (`--expand`), which are given up after ten seconds. It belongs to no gate.
"""

import argparse
import os
import random
import resource
import struct
import subprocess
import tempfile

from bench_runs import best_of
from many_units import elf

SIBLING, LOCATION, NAME, BYTE_SIZE, STMT_LIST, DECL_FILE, ENCODING, SPECIFICATION, TYPE, FIRST_USER_NAME = 0x01, 0x02, 0x03, 0x0B, 0x10, 0x3A, 0x3E, 0x47, 0x49, 0x2000
ADDR, DATA4, STRING, DATA1, STRP, REF4, SEC_OFFSET, FLAG_PRESENT, IMPLICIT_CONST = 0x01, 0x06, 0x08, 0x0B, 0x0E, 0x13, 0x17, 0x19, 0x21
COMPILE_UNIT, TYPEDEF, STRUCTURE, BASE_TYPE, VARIABLE, NAMESPACE, TYPE_UNIT, FIRST_USER_TAG = 0x11, 0x16, 0x13, 0x24, 0x34, 0x39, 0x41, 0x4080

# The seconds after which a run over what was written is given up, and the most bytes that it may have.
LONGEST, MOST = 10, 4 << 30

# How a shape is hashed (dwz_layout): from 0 on, for each word the exclusive or with it, times this, of which 64 bits stay.
STEP, MASK = 0x9E3779B97F4A7C15, (1 << 64) - 1

# How a label is hashed (std's FoldHasher): 16 bytes at a time, by a product. Where the last 8 of them are these, the product is 0.
FOLDED = struct.pack("<Q", STEP)


def uleb(number):
    out = b""
    while number > 127:
        out, number = out + bytes([number & 127 | 128]), number >> 7
    return out + bytes([number])


def sleb(number):
    out = b""
    while not -64 <= number < 64:
        out, number = out + bytes([number & 127 | 128]), number >> 7
    return out + bytes([number & 127])


def declaration(code, tag, children, pairs):
    """A declaration; a pair is a name, a form and, for implicit_const, the constant."""
    spelled = b"".join(uleb(name) + uleb(form) + (sleb(more[0]) if more else b"") for name, form, *more in pairs)
    return uleb(code) + uleb(tag) + bytes([children]) + spelled + b"\0\0"


def unit(table, body):
    body = struct.pack("<HBBI", 5, 1, 8, table) + body
    return struct.pack("<I", len(body)) + body


def type_unit(signature, type_offset, body):
    body = struct.pack("<HBBIQI", 5, 2, 8, 0, signature, type_offset) + body
    return struct.pack("<I", len(body)) + body


# A unit's declaration, and that of a base type, which stands in each unit of a file, so that something moves.
FRONT = declaration(1, COMPILE_UNIT, 1, [(NAME, STRING)]) + declaration(2, BASE_TYPE, 0, [(NAME, STRING), (BYTE_SIZE, DATA1), (ENCODING, DATA1)])
INT = b"\x02a type with a name of some length\0\x04\x05"


def two_units(table, body):
    """A file of two units, of which the second has these entries besides."""
    info = unit(0, b"\x01first\0" + INT + b"\0") + unit(0, b"\x01second\0" + INT + body + b"\0")
    return elf(info, FRONT + table + b"\0")


def many_attributes(count):
    pairs = [(FIRST_USER_NAME + number, DATA1) for number in range(count)]
    return two_units(declaration(3, VARIABLE, 0, pairs), b"\x03" + bytes(number & 255 for number in range(count)))


def flags(count):
    """Pairs whose values have no bytes."""
    return [(FIRST_USER_NAME + number % 0x1000, FLAG_PRESENT) for number in range(count)]


def root_of(count):
    """A unit whose root has so many attributes."""
    pairs = [(FIRST_USER_NAME + number % 0x1000, DATA1) for number in range(count)]
    return elf(unit(0, b"\x01" + bytes(count)), declaration(1, COMPILE_UNIT, 0, pairs) + b"\0")


def roots_of(count):
    """So many units, whose roots have as many attributes."""
    return elf(unit(0, b"\x01") * count, declaration(1, COMPILE_UNIT, 0, flags(count)) + b"\0")


def type_roots_of(count):
    """The same of type units, each with its type."""
    table = declaration(1, TYPE_UNIT, 1, flags(count)) + declaration(2, BASE_TYPE, 0, [(BYTE_SIZE, DATA1)]) + b"\0"
    return elf(b"".join(type_unit(number, 25, b"\x01\x02\x04\0") for number in range(count)), table)


def named_late(count):
    """So many tops in a namespace that has as many attributes before its name."""
    table = declaration(3, NAMESPACE, 1, flags(count) + [(NAME, STRING)]) + declaration(4, BASE_TYPE, 0, [(BYTE_SIZE, DATA1)])
    return two_units(table, b"\x03n\0" + b"\x04\x04" * count + b"\0")


# Entries of a location list: `DW_LLE_default_location`, with no expression, and with `DW_OP_convert`, whose operand names the entry behind
# the header of its unit (DWARF 5, 7.7.3 and 7.7.1).
DEFAULT, CONVERT = b"\x05\0", b"\x05\x02\xa8\x0c"


def lists_of(entries):
    content = struct.pack("<HBBI", 5, 8, 0, 0) + entries + b"\0"
    return struct.pack("<I", len(content)) + content


LISTED = declaration(1, COMPILE_UNIT, 1, []) + declaration(2, VARIABLE, 0, [(LOCATION, SEC_OFFSET)]) + b"\0"


def listed_suffixes(count, entry, arrange):
    """So many variables, in that order, each of which names its own suffix of one list."""
    places = [12 + len(entry) * number for number in range(count)]
    arrange(places)
    body = b"".join(b"\x02" + struct.pack("<I", place) for place in places)
    return elf(unit(0, b"\x01" + body + b"\0"), LISTED, lists_of(entry * count))


def listed_units(count):
    """So many units with a variable each, which names a list of as many entries."""
    return elf(unit(0, b"\x01\x02" + struct.pack("<I", 12) + b"\0") * count, LISTED, lists_of(DEFAULT * count))


# The rows of directories and files are texts that stand there.
TEXTS = b"\x01\x01" + bytes([STRING])


def line_table(folder, count, rows):
    """A line table of one folder and so many files, with these rows, up to the end of the section (DWARF 5, 6.2.4)."""
    tables = TEXTS + b"\x01" + folder + b"\0" + TEXTS + bytes([count & 127 | 128, count >> 7 & 127 | 128, count >> 14]) + rows
    header = bytes([1, 1, 1, 0, 1, 1]) + tables
    content = struct.pack("<HBBI", 5, 8, 0, len(header)) + header
    return struct.pack("<I", len(content)) + content


NUMBERED = declaration(1, COMPILE_UNIT, 1, [(STMT_LIST, SEC_OFFSET)]) + declaration(
    2, BASE_TYPE, 0, [(NAME, STRING), (BYTE_SIZE, DATA1), (ENCODING, DATA1), (DECL_FILE, DATA1)]
) + b"\0"


def numbering(place, numbers):
    """A unit whose line table stands there, with a type for each of these numbers of files."""
    return unit(0, b"\x01" + struct.pack("<I", place) + b"".join(INT + bytes([number]) for number in numbers) + b"\0")


def long_folder(length, count):
    """Two units of one line table, that has so many files in one folder, whose path is that long."""
    return elf(numbering(0, (0, 1)) * 2, NUMBERED, lines=line_table(b"d" * length, count, b"f\0" * count))


def tables_inside(count, rows, numbers):
    """So many units of a line table each, whose rows are all those that stand behind it, so many besides those of the other tables."""
    lines, at, size = bytes(rows), [], len(line_table(b"d", 0, b""))
    for number in range(count):
        lines = line_table(b"d", lines.count(0), lines)
        at.append(size * (count - number - 1))
    return elf(b"".join(numbering(place, numbers) for place in at), NUMBERED, lines=lines)


def listed_suffixes_of_units(count, arrange):
    """So many units, in that order, with a variable each, which names its own suffix of one list."""
    places = [12 + len(DEFAULT) * number for number in range(count)]
    arrange(places)
    return elf(b"".join(unit(0, b"\x01\x02" + struct.pack("<I", place) + b"\0") for place in places), LISTED, lists_of(DEFAULT * count))


def suffixes(count, arrange):
    """Units of one entry each, in that order; each has its own suffix of one table."""
    table, starts = b"", []
    for number in range(count):
        starts.append(len(table))
        table += declaration(number + 1, COMPILE_UNIT, 0, [(NAME, STRING)])
    units = [unit(start, uleb(number + 1) + b"u\0") for number, start in enumerate(starts)]
    arrange(units)
    return elf(b"".join(units), table + b"\0")


def uleb_at(data, at):
    number = shift = 0
    while True:
        number, shift, at = number | (data[at] & 127) << shift, shift + 7, at + 1
        if data[at - 1] < 128:
            return number, at


def read_declaration(data, at):
    """The code of the declaration at a place, and the place behind it, or None."""
    code, at = uleb_at(data, at)
    tag, at = uleb_at(data, at)
    children, at = data[at], at + 1
    if code == 0 or not 0 < tag < 1 << 16 or children > 1:
        return None
    while True:
        name, at = uleb_at(data, at)
        form, at = uleb_at(data, at)
        if form == IMPLICIT_CONST:
            at = uleb_at(data, at)[1]
        if name == form == 0:
            return code, at
        if name == 0 or form == 0 or name >= 1 << 16:
            return None


def every_byte(count):
    """Units of one entry each, over each byte of a table of so many declarations, and one more for the entry, at which a table is spelled."""
    table, codes = b"", {}
    for number in range(count):
        codes[number + 1] = len(table)
        table += declaration(number + 1, FIRST_USER_TAG + number, 1, [(SIBLING, DATA1), (BYTE_SIZE, IMPLICIT_CONST, 5)])
    codes[count + 1] = len(table)
    table += declaration(count + 1, COMPILE_UNIT, 0, []) + b"\0"
    starts, units = set(codes.values()), []
    for start in range(codes[count + 1] + 1):
        read = (0, start) if start in starts else read_declaration(table, start)
        if read and read[1] in starts and codes.get(read[0], -1) < read[1]:
            units.append(unit(start, uleb(count + 1)))
    return elf(b"".join(units), table)


def inside_one(count):
    """Units of one entry each, over tables that begin at each second byte of one declaration."""
    table = declaration(1, 1, 1, [(SIBLING, ADDR)] * count)
    units = [unit(2 * number, uleb(2)) for number in range(count)]
    return elf(b"".join(units), table + declaration(2, COMPILE_UNIT, 0, []) + b"\0")


def constants(count, one_hash):
    """For each name a constant, such that all shapes with these two have one hash, or that they have as many bytes and differ."""
    found = []
    for number in range(count):
        state = 0
        for word in (VARIABLE, 0, FIRST_USER_NAME + number, IMPLICIT_CONST):
            state = (state ^ word) * STEP & MASK
        word = state if one_hash else state ^ number * STEP & MASK
        found.append(word - (1 << 64) if word >> 63 else word)
    return found


def many_shapes(count, one_hash):
    table, body = b"", b""
    for number, constant in enumerate(constants(count, one_hash)):
        table += declaration(number + 3, VARIABLE, 0, [(FIRST_USER_NAME + number, IMPLICIT_CONST, constant)])
        body += uleb(number + 3)
    return two_units(table, body)


def named_types(count, one_hash):
    """Types with names of one length, each in two units. In each label the name begins at the 9th byte, and its second 8 bytes tell them apart."""
    body = []
    for number in range(count):
        told = bytes(1 + (number >> 7 * place & 127) for place in range(8))
        body.append(uleb(3) + bytes(8 * [65]) + told + (FOLDED if one_hash else bytes(8 * [66])) + bytes(20 * [67]) + b"\0")
    return two_units(declaration(3, BASE_TYPE, 0, [(NAME, STRING)]), b"".join(body))


def one_text(count, length):
    """Types of two units, each with a size of its own, all of which have one name of so many bytes."""
    table = declaration(1, COMPILE_UNIT, 1, []) + declaration(2, BASE_TYPE, 0, [(NAME, STRP), (BYTE_SIZE, DATA4)])
    tops = b"".join(uleb(2) + struct.pack("<II", 0, number) for number in range(count))
    return elf(2 * unit(0, uleb(1) + tops + b"\0"), table + b"\0", texts=bytes(length * [65]) + b"\0")


# The place of the first top of a unit, in bytes from where the unit begins.
FIRST_TOP = 13


def linked(*rows):
    """Units of tops that refer to tops of their unit, and the words that ask why the first tops of the first and of the last aren't shared. A row has
    for each of its tops the numbers of those that its references lead to, one or two of them, or a size in bytes, of a type without references."""
    table = (declaration(1, COMPILE_UNIT, 1, []) + declaration(2, BASE_TYPE, 0, [(BYTE_SIZE, DATA1)]) + declaration(3, TYPEDEF, 0, [(TYPE, REF4)])
             + declaration(4, STRUCTURE, 0, [(TYPE, REF4), (SPECIFICATION, REF4)]))
    info, begins = b"", 0
    for row in rows:
        begins = len(info)
        places, at = [], FIRST_TOP
        for top in row:
            places.append(at)
            at += 2 if isinstance(top, int) else 1 + 4 * len(top)
        tops = (bytes([2, top]) if isinstance(top, int) else bytes([2 + len(top)]) + struct.pack("<%dI" % len(top), *(places[to] for to in top)) for top in row)
        info += unit(0, uleb(1) + b"".join(tops) + b"\0")
    return elf(info, table + b"\0"), (FIRST_TOP, begins + FIRST_TOP)


def chain(count, size):
    return [(number + 1,) for number in range(count)] + [size]


def cycle(count):
    return [((number + 1) % count,) for number in range(count)]


def ladder(count, first, second):
    """Tops that lead to two of those behind them, and types at the end that aren't the same."""
    return [(number + first, number + second) for number in range(count)] + [4, 8]


def limited(program, words):
    """The processor time and the memory of a run within limits, as a text."""
    child = os.fork()
    if child == 0:
        resource.setrlimit(resource.RLIMIT_CPU, (LONGEST, LONGEST))
        resource.setrlimit(resource.RLIMIT_AS, (MOST, MOST))
        os.dup2(os.open(os.devnull, os.O_WRONLY), 1)
        os.execv(program, [program, "-j", "1", *words])
    _, status, used = os.wait4(child, 0)
    status = os.waitstatus_to_exitcode(status)
    if status:
        return "given up after %d s" % LONGEST if status < 0 else "status %d" % status
    return "%.3f s, %d MB" % (used.ru_utime + used.ru_stime, used.ru_maxrss // 1024)


def after_it(program, file):
    """The same of a comparison of a file with what is made of it, and of writing that without its partial units."""
    with tempfile.TemporaryDirectory() as folder:
        new = os.path.join(folder, "new")
        if subprocess.run([program, "-q", "-o", new, file], check=False).returncode:
            return "refused", "refused"
        return limited(program, ["--check", file, new]), limited(program, ["--expand", new, "-o", os.path.join(folder, "back")])


def main():
    parser = argparse.ArgumentParser(description=__doc__, formatter_class=argparse.RawDescriptionHelpFormatter)
    parser.add_argument("--program", default=os.path.join(os.path.dirname(__file__), "../crates/dwz/out/dwz"))
    parser.add_argument("--times", type=int, default=5)
    options = parser.parse_args()
    files = (
        ("an entry with 40,000 attributes", many_attributes(40000)),
        ("4,000 units over suffixes of one table, ascending", suffixes(4000, lambda units: None)),
        ("the same, descending", suffixes(4000, list.reverse)),
        ("the same, shuffled", suffixes(4000, random.Random(1).shuffle)),
        ("units over each byte of 1,000 declarations", every_byte(1000)),
        ("4,000 units over tables inside one declaration", inside_one(4000)),
        ("a root of 20,000 attributes", root_of(20000)),
        ("2,500 units whose roots have 2,500 attributes", roots_of(2500)),
        ("the same of type units", type_roots_of(2500)),
        ("2,500 tops in a namespace that has 2,500 attributes before its name", named_late(2500)),
        ("5,000 variables over suffixes of one location list, ascending", listed_suffixes(5000, DEFAULT, lambda places: None)),
        ("the same, descending", listed_suffixes(5000, DEFAULT, list.reverse)),
        ("the same, shuffled", listed_suffixes(5000, DEFAULT, random.Random(1).shuffle)),
        ("4,000 variables over suffixes of a location list of operands, ascending", listed_suffixes(4000, CONVERT, lambda places: None)),
        ("the same, descending", listed_suffixes(4000, CONVERT, list.reverse)),
        ("40,000 of these, shuffled", listed_suffixes(40000, CONVERT, random.Random(1).shuffle)),
        ("4,000 units that name one location list", listed_units(4000)),
        ("30,000 files in a folder whose path has 60,000 bytes", long_folder(60000, 30000)),
        ("1,000 units over line tables inside one another's rows", tables_inside(1000, 50000, (0, 1))),
        ("100 units with 100 numbers of files each, over the same", tables_inside(100, 50000, range(100))),
        ("4,000 units over suffixes of one location list, ascending", listed_suffixes_of_units(4000, lambda places: None)),
        ("the same, descending", listed_suffixes_of_units(4000, list.reverse)),
        ("40,000 shapes of one hash", many_shapes(40000, True)),
        ("40,000 shapes of different hashes", many_shapes(40000, False)),
        ("80,000 labels of one hash", named_types(80000, True)),
        ("80,000 labels of different hashes", named_types(80000, False)),
        ("1,000 types with one name of 1,400,000 bytes, in two units", one_text(1000, 1400000)),
    )
    for name, content in files:
        with tempfile.NamedTemporaryFile() as file:
            file.write(content)
            file.flush()
            run = best_of(options.times, [os.path.abspath(options.program), "-j", "1", "-o", "out", file.name])
            compared, expanded = after_it(os.path.abspath(options.program), file.name)
        told = "refused" if run is None else "%.3f s, %d MB" % (run.cpu, run.memory // 1024)
        print("%s, %d bytes: %s; compared %s; expanded %s" % (name, len(content), told, compared, expanded), flush=True)
    explained = (
        ("100,000 typedefs to types of two sizes", linked(chain(100000, 4), chain(100000, 8))),
        ("cycles of 50,021 and 49,999 typedefs", linked(cycle(50021), cycle(49999))),
        ("50,000 structures that lead to the next two, and to the same the other way round", linked(ladder(50000, 1, 2), ladder(50000, 2, 1))),
    )
    for name, (content, (one, two)) in explained:
        with tempfile.NamedTemporaryFile() as file:
            file.write(content)
            file.flush()
            words = [os.path.abspath(options.program), "-j", "1", "--explain", file.name, "0x%x" % one, file.name, "0x%x" % two]
            run = best_of(options.times, words)
        print("%s, %d bytes: %s" % (name, len(content), "refused" if run is None else "%.3f s, %d MB" % (run.cpu, run.memory // 1024)))


if __name__ == "__main__":
    main()
