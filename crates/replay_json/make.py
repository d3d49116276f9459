#!/usr/bin/env python3
"""Makes data/texts-0.bin and so on: plans with the number that the oracle's check gives them.

    make.py ORACLE GEN CASES...

ORACLE and GEN are oracle/bin/oracle and oracle/bin/gen, CASES the files of the fixed list (crates/replay_render/data).
The texts: those of the list's json profile, those of the whole list that 7 to 10 refuse, edges that are written out here,
and generated ones of the json profile. None comes twice. The form of a string is that of vectors/README.md.
"""
import os
import struct
import subprocess
import sys
import tempfile

HERE = os.path.join(os.path.dirname(os.path.abspath(__file__)), "data")
SEED = 41
GENERATED = 900
JSON_PROFILE = range(2921, 3281)
LONGEST = 262144


def string(d, p):
    n, = struct.unpack_from("<I", d, p)
    p += 4
    out = bytearray()
    while len(out) < n:
        k, = struct.unpack_from("<H", d, p)
        out += d[p + 2:p + 2 + k]
        count, back = struct.unpack_from("<HH", d, p + 2 + k)
        p += 6 + k
        for _ in range(count):
            out.append(out[-back])
    return bytes(out), p


def fixed(files):
    """Number in the list, plan and answer of each case."""
    place = 0
    for name in files:
        d = open(name, "rb").read()
        count, = struct.unpack_from("<I", d, 0)
        p = 4
        for _ in range(count):
            place += 1
            _, p = string(d, p + 1)
            _, p = string(d, p + 4)
            plan, p = string(d, p)
            number = d[p]
            _, p = string(d, p + 1)
            _, p = string(d, p + 8)
            yield place, plan, number


def batch(d):
    p = 0
    while p < len(d):
        p += 1
        for skip in (4, 0):
            n, = struct.unpack_from("<I", d, p)
            p += 4 + n + skip
        n, = struct.unpack_from("<I", d, p)
        yield d[p + 4:p + 4 + n]
        p += 4 + n


def edges():
    for depth in (31, 32, 33):
        for a, b in ((b"[", b"]"), (b'{"a":', b"}")):
            yield a * depth + b"1" + b * depth
            yield a * depth + b * depth if a == b"[" else a * (depth - 1) + b"{}" + b * (depth - 1)
    for n in (4095, 4096):
        yield b"[" + b",".join([b"1"] * n) + b"]"
        yield b"[" + b",".join([b"1"] * (n - 1)) + b",1.0]"
        yield b"[" + b",".join([b"1"] * n) + b"] x"
        yield b"{" + b",".join([b'"a":0'] * n) + b"}"
    for n in (65535, 65536, 65537):
        yield b" " * (n - 1) + b"1"
        yield b'"' + b"a" * (n - 2) + b'"'
        yield b"[" * n
        yield b"-0" + b" " * (n - 2)
    yield b"[1.0,"
    yield b"[-0] x"


def packed(text):
    out = bytearray(struct.pack("<I", len(text)))
    p = 0
    plain = bytearray()

    def piece(count, back):
        out.extend(struct.pack("<H", len(plain)) + plain + struct.pack("<HH", count, back))
        plain.clear()

    while p < len(text):
        best = (0, 0)
        for back in range(1, min(64, p) + 1):
            n = 0
            while n < 65535 and p + n < len(text) and text[p + n] == text[p + n - back]:
                n += 1
            best = max(best, (n, -back))
        if best[0] >= 8:
            piece(best[0], -best[1])
            p += best[0]
        else:
            plain.append(text[p])
            p += 1
            if len(plain) == 65535:
                piece(0, 0)
    if plain:
        piece(0, 0)
    return bytes(out)


def main(oracle, gen, files):
    texts = {}
    for place, plan, number in fixed(files):
        if place in JSON_PROFILE or 7 <= number <= 10:
            texts.setdefault(plan)
    for plan in edges():
        texts.setdefault(plan)
    with tempfile.TemporaryDirectory() as folder:
        name = os.path.join(folder, "batch")
        subprocess.run([gen, "json", "--seed", str(SEED), "--count", "3000", "-o", name], check=True, stdout=subprocess.DEVNULL)
        more = [t for t in dict.fromkeys(batch(open(name, "rb").read())) if len(t) < 1200 and t not in texts]
        for plan in more[:GENERATED]:
            texts.setdefault(plan)
        name = os.path.join(folder, "plan")
        for plan in texts:
            open(name, "wb").write(plan)
            texts[plan] = int(subprocess.run([oracle, "check-plan", name], check=True, capture_output=True).stdout)
    records = [bytes([number]) + packed(plan) for plan, number in texts.items()]
    parts = [[]]
    for r in records:
        if 4 + sum(map(len, parts[-1])) + len(r) > LONGEST:
            parts.append([])
        parts[-1].append(r)
    os.makedirs(HERE, exist_ok=True)
    for k, part in enumerate(parts):
        open(os.path.join(HERE, f"texts-{k}.bin"), "wb").write(struct.pack("<I", len(part)) + b"".join(part))
    counts = {n: sum(1 for x in texts.values() if x == n) for n in sorted(set(texts.values()))}
    print(len(records), "texts in", len(parts), "files:", counts)


if __name__ == "__main__":
    if len(sys.argv) < 4:
        sys.exit(__doc__)
    main(sys.argv[1], sys.argv[2], sorted(sys.argv[3:]))
