#!/usr/bin/env python3
"""Makes the sections that the benchmark reads.

    tools/bench_units/make.py ENTRIES FOLDER

Writes FOLDER/info and FOLDER/abbrev: one unit as gcc writes it for a C file, repeated until there are ENTRIES entries, each
time with a table of its own. The references and the offsets of texts are numbers that nothing reads here.
"""

import struct
import sys


def uleb(number):
    out = bytearray()
    while True:
        number, low = number >> 7, number & 0x7F
        out.append(low | (0x80 if number else 0))
        if not number:
            return bytes(out)


# name of a declaration: tag, has children, (attribute, form) ..
DECLARATIONS = {
    "unit": (0x11, 1, "25 0e 13 0b 03 1f 1b 1f 11 01 12 07 10 17"),
    "base": (0x24, 0, "0b 0b 3e 0b 03 0e"),
    "base_text": (0x24, 0, "0b 0b 3e 0b 03 08"),
    "typedef": (0x16, 0, "03 0e 3a 0b 3b 0b 39 0b 49 13"),
    "struct": (0x13, 1, "03 0e 0b 0b 3a 0b 3b 0b 39 0b 01 13"),
    "member": (0x0D, 0, "03 0e 3a 0b 3b 0b 39 0b 49 13 38 0b"),
    "pointer": (0x0F, 0, "0b 0b 49 13"),
    "const": (0x26, 0, "49 13"),
    "array": (0x01, 1, "49 13 01 13"),
    "subrange": (0x21, 0, "49 13 2f 0b"),
    "enum": (0x04, 1, "03 0e 3e 0b 0b 0b 49 13 3a 0b 3b 0b 39 0b 01 13"),
    "enumerator": (0x28, 0, "03 0e 1c 0b"),
    "external": (0x34, 0, "03 0e 3a 0b 3b 0b 39 0b 49 13 3f 19 3c 19"),
    "function": (0x2E, 1, "3f 19 03 0e 3a 0b 3b 0b 39 0b 27 19 49 13 11 01 12 07 40 18 7a 19 01 13"),
    "parameter": (0x05, 0, "03 0e 3a 0b 3b 0b 39 0b 49 13 02 17 b7 42 17"),
    "local": (0x34, 0, "03 0e 3a 0b 3b 0b 39 0b 49 13 02 18"),
    "block": (0x0B, 1, "11 01 12 07"),
    "call": (0x48, 1, "7d 01 7f 13"),
    "call_value": (0x49, 0, "02 18 7e 18"),
}
CODES = {name: code for code, name in enumerate(DECLARATIONS, 1)}


def declaration(code, tag, children, pairs):
    return uleb(code) + uleb(tag) + bytes([children]) + bytes.fromhex(pairs) + b"\0\0"


def table():
    return b"".join(declaration(CODES[name], *rest) for name, rest in DECLARATIONS.items()) + b"\0"


class Unit:
    def __init__(self):
        self.body = bytearray()
        self.entries = 0

    def entry(self, name, *values):
        self.body += uleb(CODES[name]) + b"".join(values)
        self.entries += 1

    def end(self):
        self.body.append(0)


def u1(n):
    return bytes([n & 0xFF])


def u4(n):
    return struct.pack("<I", n)


def u8(n):
    return struct.pack("<Q", n)


def place(n):
    """File, line and column."""
    return u1(2) + u1(n) + u1(7)


def block(*content):
    return uleb(len(content)) + bytes(content)


def types(unit):
    for n in range(12):
        unit.entry("base", u1(8), u1(7), u4(n))
    unit.entry("base_text", u1(4), u1(5), b"int\0")
    for n in range(40):
        unit.entry("typedef", u4(n), place(n), u4(0x60))
        unit.entry("pointer", u1(8), u4(0x60))
    for n in range(12):
        unit.entry("struct", u4(n), u1(64), place(n), u4(0x80))
        for member in range(8):
            unit.entry("member", u4(member), place(member), u4(0x60), u1(8 * member))
        unit.end()
        unit.entry("const", u4(0x60))
    unit.entry("array", u4(0x60), u4(0x90))
    unit.entry("subrange", u4(0x60), u1(15))
    unit.end()
    unit.entry("enum", u4(1), u1(7), u1(4), u4(0x60), place(9), u4(0x90))
    for n in range(16):
        unit.entry("enumerator", u4(n), u1(n))
    unit.end()
    for n in range(10):
        unit.entry("external", u4(n), place(n), u4(0x60))


def function(unit, n):
    unit.entry("function", u4(n), place(n), u4(0x60), u8(0x401000), u8(0x80), block(0x9C), u4(0x90))
    for parameter in range(2):
        unit.entry("parameter", u4(parameter), place(n), u4(0x60), u4(0x20), u4(0x10))
    unit.entry("local", u4(3), place(n), u4(0x60), block(0x91, 0x68))
    unit.entry("block", u8(0x401010), u8(0x20))
    unit.entry("local", u4(4), place(n), u4(0x60), block(0x91, 0x60))
    unit.end()
    unit.entry("call", u8(0x401020), u4(0x90))
    unit.entry("call_value", block(0x55), block(0x73, 0x00))
    unit.end()
    unit.end()


def a_unit():
    unit = Unit()
    unit.entry("unit", u4(1), u1(0x1D), u4(1), u4(2), u8(0x401000), u8(0x1000), u4(0))
    types(unit)
    for n in range(12):
        function(unit, n)
    unit.end()
    return unit


def main():
    wanted, folder = int(sys.argv[1]), sys.argv[2]
    unit, abbrev = a_unit(), table()
    times = -(-wanted // unit.entries)
    head = struct.pack("<IHBB", 8 + len(unit.body), 5, 1, 8)
    with open(folder + "/info", "wb") as file:
        for n in range(times):
            file.write(head + u4(n * len(abbrev)) + unit.body)
    with open(folder + "/abbrev", "wb") as file:
        file.write(abbrev * times)
    size = times * (12 + len(unit.body))
    print(f"{times} units of {unit.entries} entries, {size} bytes, {size / (times * unit.entries):.1f} an entry")


if __name__ == "__main__":
    main()
