#!/usr/bin/env python3
"""Makes an ELF64 file with many units of debug information, to measure the program by.

    tools/many_units.py UNITS ENTRIES FILE

Each of UNITS units has about ENTRIES entries: base types, and structures with four members each, most of them drawn from
one pool, so that they repeat in other units. The forms are string and data1. The same words give the same file.
"""

import random
import struct
import sys

ABBREV = bytes.fromhex(
    "01 11 01 03 08 00 00"
    "02 24 00 03 08 0b 0b 3e 0b 00 00"
    "03 13 01 03 08 0b 0b 00 00"
    "04 0d 00 03 08 38 0b 00 00"
    "00"
)


def base_type(name):
    return b"\x02" + name + b"\0\x04\x05"


def structure(number):
    members = b"".join(b"\x04m%d_%d\0" % (number, i) + bytes([4 * i]) for i in range(4))
    return b"\x03struct%d\0\x10" % number + members + b"\0"


def unit(number, entries, pool, rng):
    body, count = b"\x01u%d\0" % number, 1
    while count < entries:
        if rng.random() < 0.8:
            top, size = pool[min(int(rng.expovariate(1 / 1500)), len(pool) - 1)]
        else:
            top, size = base_type(b"own%d_%d" % (number, count)), 1
        body, count = body + top, count + size
    body = bytes.fromhex("05000108") + bytes(4) + body + b"\0"
    return struct.pack("<I", len(body)) + body


def section_header(name, kind, at, size):
    return struct.pack("<IIQQQQIIQQ", name, kind, 0, 0, at, size, 0, 0, 1, 0)


def elf(info, abbrev, lists=None, lines=None, texts=None):
    """A file of these sections; `lists` is `.debug_loclists`, `lines` is `.debug_line`, and `texts` is `.debug_str`, if there is one."""
    sections = [(b".debug_info", 1, info), (b".debug_abbrev", 1, abbrev)]
    sections += [(name, 1, content) for name, content in ((b".debug_loclists", lists), (b".debug_line", lines), (b".debug_str", texts)) if content is not None]
    names = b"\0" + b"".join(name + b"\0" for name, *_ in sections) + b".shstrtab\0"
    headers, body = [bytes(64)], b""
    for name, kind, content in sections + [(b".shstrtab", 3, names)]:
        headers.append(section_header(names.index(b"\0" + name + b"\0") + 1, kind, 64 + len(body), len(content)))
        body += content
    body += bytes(-len(body) % 8)
    head = b"\x7fELF\x02\x01\x01" + bytes(9)
    head += struct.pack("<HHIQQQIHHHHHH", 3, 62, 1, 0, 0, 64 + len(body), 0, 64, 0, 0, 64, len(headers), len(headers) - 1)
    return head + body + b"".join(headers)


def main():
    units, entries, name = int(sys.argv[1]), int(sys.argv[2]), sys.argv[3]
    rng = random.Random(1)
    pool = [(base_type(b"type%d" % i), 1) for i in range(3000)] + [(structure(i), 5) for i in range(6000)]
    info = b"".join(unit(n, entries, pool, rng) for n in range(units))
    with open(name, "wb") as file:
        file.write(elf(info, ABBREV))


if __name__ == "__main__":
    main()
