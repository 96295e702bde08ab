#!/usr/bin/env python3
"""Rewrites files that name a supplementary file by DWARF 5 (7.3.6) into files that do so in the way that came before it, which more
readers know.

    tools/gnu_forms.py COMMON FILE... --into FOLDER
    tools/gnu_forms.py COMMON FILE... --in-place

DW_FORM_ref_sup4 and DW_FORM_strp_sup become DW_FORM_GNU_ref_alt and DW_FORM_GNU_strp_alt, and `.debug_sup` becomes
`.gnu_debugaltlink`. COMMON's `.debug_sup` becomes a build ID of the first 20 bytes of the checksum, by which the two are matched. In
FOLDER each file gets a copy of the same name; with --in-place the files themselves are replaced. All have the permissions that they
had. Loaded bytes stay where they are; sections behind them stand one behind the other. It takes files as the program writes them:
ELF64, little-endian, 32-bit DWARF 5, tables of abbreviations one behind the other; one that names no supplementary file stays.
"""

import argparse
import os
import stat
import struct

REF_SUP4, STRP_SUP, IMPLICIT_CONST = 0x1c, 0x1d, 0x21

# the forms before, as they are spelled
OLD_FORMS = {REF_SUP4: bytes.fromhex("a03e"), STRP_SUP: bytes.fromhex("a13e")}

NULL, NOTE, NOBITS, LOADED = 0, 7, 8, 2

HEADER = struct.Struct("<IIQQQQIIQQ")


def uleb(data, at):
    value = shift = 0
    while True:
        byte = data[at]
        at += 1
        value |= (byte & 0x7f) << shift
        shift += 7
        if byte < 0x80:
            return value, at


def renamed_forms(data):
    """The section of abbreviations with the forms before, and the new offset of each table."""
    out, at, places = bytearray(), 0, {}
    while at < len(data):
        places[at] = len(out)
        while data[at]:
            start = at
            for _ in range(2):
                _, at = uleb(data, at)
            at += 1
            out += data[start:at]
            while True:
                start = at
                name, at = uleb(data, at)
                middle = at
                form, at = uleb(data, at)
                after = at
                if form == IMPLICIT_CONST:
                    _, at = uleb(data, at)
                out += data[start:middle] + OLD_FORMS.get(form, data[middle:after]) + data[after:at]
                if name == form == 0:
                    break
        out.append(0)
        at += 1
    return bytes(out), places


def moved_units(info, places):
    """The units, whose tables stand elsewhere."""
    out, at = bytearray(info), 0
    while at < len(info):
        size, = struct.unpack_from("<I", info, at)
        table, = struct.unpack_from("<I", info, at + 8)
        struct.pack_into("<I", out, at + 8, places[table])
        at += 4 + size
    return bytes(out)


def checksum_of(sup):
    """Whether this is the common file's, the name, and the checksum."""
    end = sup.index(b"\0", 3)
    return sup[2] == 1, sup[3:end], sup[end + 2:]


class File:
    """An ELF64 file, whose sections may be replaced."""

    def __init__(self, data):
        self.data = data
        headers_at, = struct.unpack_from("<Q", data, 40)
        count, self.names = struct.unpack_from("<HH", data, 60)
        self.headers = [list(HEADER.unpack_from(data, headers_at + 64 * n)) for n in range(count)]
        self.contents = [self.stored(n) for n in range(count)]

    def stored(self, number):
        _, kind, _, _, at, size, *_ = self.headers[number]
        return b"" if kind in (NULL, NOBITS) else self.data[at:at + size]

    def content(self, number):
        return self.contents[number]

    def number(self, name):
        names = self.content(self.names)
        for number, header in enumerate(self.headers):
            if names[header[0]:names.find(b"\0", header[0])] == name:
                return number
        return None

    def replace(self, number, content, kind=None, align=1):
        header = self.headers[number]
        header[1] = header[1] if kind is None else kind
        header[8] = align
        self.contents[number] = content

    def rename(self, number, name):
        names = self.content(self.names)
        self.headers[number][0] = len(names)
        self.replace(self.names, names + name + b"\0")

    def kept_end(self):
        """The place behind all that is loaded: it stays."""
        segments_at, = struct.unpack_from("<Q", self.data, 32)
        size, count = struct.unpack_from("<HH", self.data, 54)
        end = max(64, segments_at + size * count if count else 0)
        for at in range(segments_at, segments_at + size * count, size or 1):
            offset, = struct.unpack_from("<Q", self.data, at + 8)
            length, = struct.unpack_from("<Q", self.data, at + 32)
            if length:  # a file with debug information alone has segments without bytes
                end = max(end, offset + length)
        for _, kind, flags, _, at, length, *_ in self.headers:
            if flags & LOADED and kind not in (NULL, NOBITS):
                end = max(end, at + length)
        return end

    def finish(self):
        end = self.kept_end()
        out = bytearray(self.data[:end])
        order = sorted(range(len(self.headers)), key=lambda n: self.headers[n][4])
        for number in order:
            header = self.headers[number]
            if header[1] in (NULL, NOBITS) or header[2] & LOADED:
                continue
            if header[4] < end:
                raise SystemExit("a section that isn't loaded stands among loaded bytes")
            out += bytes(-len(out) % max(header[8], 1))
            header[4:6] = [len(out), len(self.contents[number])]
            out += self.contents[number]
        out += bytes(-len(out) % 8)
        struct.pack_into("<Q", out, 40, len(out))
        for header in self.headers:
            out += HEADER.pack(*header)
        return bytes(out)


def rewritten(data):
    """The file in the way before. A file that names no supplementary file stays."""
    file = File(data)
    sup = file.number(b".debug_sup")
    if sup is None:
        return data
    is_common, name, checksum = checksum_of(file.content(sup))
    if is_common:
        file.replace(sup, struct.pack("<III4s", 4, 20, 3, b"GNU\0") + checksum[:20], NOTE, 4)
        file.rename(sup, b".note.gnu.build-id")
        return file.finish()
    info, abbrev = file.number(b".debug_info"), file.number(b".debug_abbrev")
    table, places = renamed_forms(file.content(abbrev))
    units = moved_units(file.content(info), places)
    file.replace(abbrev, table)
    file.replace(info, units)
    file.replace(sup, name + b"\0" + checksum[:20])
    file.rename(sup, b".gnu_debugaltlink")
    return file.finish()


def put(path, like, data):
    """Writes a file, with the permissions of another, and gives it its name once it is whole."""
    new = path + ".gnu-tmp"
    with open(new, "xb") as file:
        file.write(data)
    os.chmod(new, stat.S_IMODE(os.stat(like).st_mode))
    os.replace(new, path)


def main():
    parser = argparse.ArgumentParser(description=__doc__, formatter_class=argparse.RawDescriptionHelpFormatter)
    parser.add_argument("files", nargs="+")
    where = parser.add_mutually_exclusive_group(required=True)
    where.add_argument("--into")
    where.add_argument("--in-place", action="store_true")
    options = parser.parse_args()
    if options.into:
        os.makedirs(options.into, exist_ok=True)
    for path in options.files:
        with open(path, "rb") as file:
            data = file.read()
        new = rewritten(data)
        if options.into:
            put(os.path.join(options.into, os.path.basename(path)), path, new)
        elif new != data:
            put(path, path, new)


if __name__ == "__main__":
    main()
