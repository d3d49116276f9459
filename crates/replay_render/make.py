#!/usr/bin/env python3
"""Makes data/pages.bin, in the form of vectors/README.md: the samples, and the paper's pages that are not starred.

    make.py            writes data/pages.bin
    make.py --check    compares it
"""
import os
import struct
import sys

HERE = os.path.dirname(os.path.abspath(__file__))
OUT = os.path.join(HERE, "data", "pages.bin")
SAMPLES = os.path.join(HERE, "..", "..", "samples")
PAGE = 65536


def sample(name):
    folder = os.path.join(SAMPLES, name)
    read = lambda f: open(os.path.join(folder, f), "rb").read()
    return read("bundle.bin"), read("plan.json"), 0, read("expected.txt")


def packed(fields):
    """Fields as pairs of width and value, packed from the most significant bit on."""
    bits = "".join(format(v, "0%db" % w) for w, v in fields)
    bits += "0" * (-len(bits) % 8)
    return bytes(int(bits[i:i + 8], 2) for i in range(0, len(bits), 8))


def text(s):
    return [(16, len(s))] + [(8, b) for b in s]


def whole_plan():
    """The bundle whose template `main` is one Expression with the empty path, which prints the plan."""
    call = [(2, 1)] + text(b"") + [(1, 0), (8, 0)] + [(4, 0), (4, 0)]
    element = [(16, 1), (16, 1), (4, 2)] + call + [(1, 0)]
    return packed([(8, 1), (8, 1)] + text(b"main") + [(12, 1)] + element)


def string(s):
    out = struct.pack("<I", len(s))
    for i in range(0, len(s), 65535):
        piece = s[i:i + 65535]
        out += struct.pack("<H", len(piece)) + piece + struct.pack("<HH", 0, 0)
    return out


def case(bundle, plan, number, page):
    """From `main`, all options off."""
    out = b"\0" + string(b"main") + struct.pack("<I", PAGE) + string(bundle) + string(plan)
    return out + bytes([number]) + string(b"") + struct.pack("<II", 0, 0) + string(page)


def cases():
    for name in ("quotation", "cutting-list", "delivery-note"):
        yield case(*sample(name))
    largest = b"18446744073709551615"
    yield case(whole_plan(), largest, 0, largest)
    yield case(whole_plan(), b"18446744073709551616", 9, b"")
    yield case(whole_plan(), b"", 8, b"")


def main():
    made = list(cases())
    made = struct.pack("<I", len(made)) + b"".join(made)
    if sys.argv[1:] == ["--check"]:
        same = open(OUT, "rb").read() == made
        print("pages: the same" if same else "pages: differ")
        sys.exit(0 if same else 1)
    open(OUT, "wb").write(made)


main()
