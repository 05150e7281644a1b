#!/usr/bin/env python3
"""rounded.py FILE.out: prints the HP-GL of the points that the program wrote, in fractions: the nearest whole number, halves away from zero."""
import struct
import sys
from fractions import Fraction


def whole(digits):
    value = Fraction(struct.unpack(">f", bytes.fromhex(digits))[0])
    size = int(abs(value) + Fraction(1, 2))
    return -size if value < 0 else size


fields = [line.strip().split("=") for line in open(sys.argv[1], encoding="ascii")][3:]
text, pen = "IN;", "PU"
for (_, x), (_, y), (_, end) in zip(*[iter(fields)] * 3):
    text += f"{pen} {whole(x)},{whole(y)};"
    pen = "PU" if end == "1" else "PD"
sys.stdout.write(text)
