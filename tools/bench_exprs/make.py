#!/usr/bin/env python3
"""Makes the expressions that the benchmark reads.

    tools/bench_exprs/make.py OPERATORS FOLDER

Writes FOLDER/exprs: expressions one behind the other, each with a byte before it that is its length.
"""

import sys

# expressions as gcc writes them, with how many operators they have
KINDS = [
    ("91 68", 1),  # fbreg
    ("91 c0 7e", 1),
    ("50", 1),  # reg0
    ("55", 1),
    ("9c", 1),  # call_frame_cfa
    ("03 40 40 40 00 00 00 00 00", 1),  # addr
    ("73 00", 1),  # breg3
    ("a3 01 55 9f", 3),  # entry_value of reg5, stack_value
    ("30 9f", 2),  # lit0, stack_value
    ("70 00 a8 80 01 a8 80 02 9f", 4),  # breg0, convert, convert, stack_value
    ("50 93 08 51 93 08", 4),  # reg0, piece, reg1, piece
    ("76 00 08 20 24 08 20 26 23 01 9f", 7),  # breg6, const1u, shl, const1u, shra, plus_uconst, stack_value
]


def main():
    count, folder = int(sys.argv[1]), sys.argv[2]
    out = bytearray()
    n = k = 0
    while n < count:
        text, operators = KINDS[k * 7 % 12]
        spelled = bytes.fromhex(text)
        out += bytes([len(spelled)]) + spelled
        n += operators
        k += 1
    with open(folder + "/exprs", "wb") as file:
        file.write(out)
    print("%d operators in %d expressions" % (n, k))


main()
