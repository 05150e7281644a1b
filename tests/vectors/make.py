#!/usr/bin/env python3
"""Writes the hard vectors of the float leaves: make.py FILE. tests/vectors/run compares them with those that are stored; see README.md.

A line is "OP A B C R": the leaf's letter, three f32 patterns and the pattern (or count) expected, in eight hex digits.
"""
import math
import os
import random
import subprocess
import sys
import tempfile
from fractions import Fraction

SIGN, INF, NAN, MAX = 0x80000000, 0x7F800000, 0x7FC00000, 0x7F7FFFFF
ONE, HIDDEN = 0x3F800000, 0x00800000
SPECIALS = [0, 1, 0x007FFFFF, HIDDEN, 0x3F7FFFFF, ONE, 0x3F800001, 0x7F000000, MAX, INF]
SPECIALS += [s | SIGN for s in SPECIALS] + [NAN]
rng = random.Random(20261)


def finite(b):
    return b & 0x7FFFFFFF < INF


def value(b):
    """The exact value of a finite pattern."""
    e, t = b >> 23 & 0xFF, b & 0x7FFFFF
    m = t if e == 0 else HIDDEN + t
    v = Fraction(m) * Fraction(2) ** (max(e, 1) - 150)
    return -v if b & SIGN else v


def nearest(v, negative_zero):
    """The f32 pattern nearest to the fraction v, ties to even: by search among the patterns, no floats used."""
    if v == 0:
        return SIGN if negative_zero else 0
    sign, w = (SIGN, -v) if v < 0 else (0, v)
    lo, hi = 0, INF
    while hi - lo > 1:
        mid = (lo + hi) // 2
        lo, hi = (mid, hi) if value(mid) <= w else (lo, mid)
    above = Fraction(2) ** 128 if hi == INF else value(hi)
    below, up = w - value(lo), above - w
    return sign | (lo if below < up or (below == up and lo % 2 == 0) else hi)


def fma_exact(a, b, c):
    v = value(a) * value(b) + value(c)
    product_minus = bool((a ^ b) & SIGN)
    return nearest(v, product_minus and bool(c & SIGN))


def root_exact(b):
    """The f32 nearest to the root of a positive finite pattern, by squares of midpoints."""
    v = value(b)
    lo, hi = 0, INF
    while hi - lo > 1:
        mid = (lo + hi) // 2
        lo, hi = (mid, hi) if value(mid) ** 2 <= v else (lo, mid)
    mid2 = ((value(lo) + value(hi)) / 2) ** 2
    return lo if v < mid2 or (v == mid2 and lo % 2 == 0) else hi


def sixth_exact(b):
    if b & 0x7FFFFFFF == 0:
        return 0
    if b & 0x7FFFFFFF > INF or b & SIGN:
        return NAN
    if b == INF:
        return INF
    v, lo, hi = value(b), 0, INF
    while hi - lo > 1:
        mid = (lo + hi) // 2
        lo, hi = (mid, hi) if value(mid) ** 6 <= v else (lo, mid)
    return lo


def any_bits():
    return rng.getrandbits(32)


def number(exp_lo=1, exp_hi=254, sign=None):
    s = rng.getrandbits(1) if sign is None else sign
    return s << 31 | rng.randint(exp_lo, exp_hi) << 23 | rng.getrandbits(23)


def is_nan(b):
    return b & 0x7FFFFFFF > INF


def canonical(b):
    return NAN if is_nan(b) else b


# ---- fma
def fma_inputs():
    few = [0, 1, ONE, MAX, INF]
    few += [s | SIGN for s in few] + [NAN]
    for a in few:
        for b in few:
            for c in few:
                yield a, b, c
    for _ in range(250):
        yield canonical(any_bits()), canonical(any_bits()), canonical(any_bits())
    for _ in range(250):  # the addend near the product, and the product's own rounding taken away
        a, b = number(90, 160), number(90, 160)
        p = nearest(value(a) * value(b), False)
        for c in (p ^ SIGN, (p + rng.randint(-2, 2)) ^ SIGN):
            yield a, b, c
    for _ in range(120):  # ties: the sum has 25 digits, the last one set; and a digit more or less
        total = rng.randrange(1 << 24, 1 << 25) | 1
        m, n = rng.randrange(1, 4096) | 1, rng.randrange(1, 4096) | 1
        scale = Fraction(2) ** rng.randint(-120, 80)
        a, b, c = nearest(Fraction(m), False), nearest(n * scale, False), nearest((total - m * n) * scale, False)
        s = rng.getrandbits(1) << 31
        yield from ((a, b ^ s, c ^ s), (a, b ^ s, c + 1 ^ s), (a, b ^ s, c - 1 ^ s))
    for _ in range(150):  # far addends: only the sticky digit is left of the smaller
        a, b = number(60, 190), number(60, 190)
        p = nearest(value(a) * value(b), False)
        if not finite(p) or p & 0x7FFFFFFF < 1 << 25:
            continue
        d = rng.randint(24, 120)
        yield a, b, (max((p >> 23 & 0xFF) - d, 0) << 23 | rng.getrandbits(23)) | rng.getrandbits(1) << 31
        # a product that is a tie, alone and broken by the far addend
        a, b = nearest(Fraction((1 << 12) + 1), False), nearest(Fraction(rng.randrange(1 << 12, 1 << 13) | 1) / 2, False)
        s = rng.getrandbits(1) << 31
        yield from ((a, b ^ s, 0), (a, b ^ s, rng.randint(0, 60) << 23 | 1), (a, b ^ s, SIGN | rng.randint(0, 60) << 23 | 1))
    for _ in range(200):  # results at the upper end
        a, b = number(180, 200, 0), 0
        b = nearest(Fraction(2) ** 128 / value(a), False)
        yield a, b + rng.randint(-2, 2), rng.getrandbits(1) << 31 | rng.randint(220, 240) << 23 | rng.getrandbits(23)
    for _ in range(300):  # results at the lower end: subnormal, or below the smallest value
        a = number(40, 90)
        b = rng.getrandbits(1) << 31 | (rng.randint(100, 150) - (a >> 23 & 0xFF)) % 200 << 23 | rng.getrandbits(23)
        yield a, b, rng.getrandbits(1) << 31 | rng.getrandbits(24 if rng.getrandbits(1) else 3)
    for _ in range(120):  # subnormal factors
        yield rng.getrandbits(23) | rng.getrandbits(1) << 31, number(100, 250), rng.getrandbits(rng.choice([1, 23, 25])) | rng.getrandbits(1) << 31
    # products that are ties, one that goes down and one that goes up, broken the other way by an addend at every distance
    down, up = ONE + (1 << 11), ONE + 3 * (1 << 11)
    for d in range(24, 127):
        yield from ((down, down, ONE - (d << 23)), (down, up, SIGN | ONE - (d << 23)))


# ---- sqrt
def sqrt_inputs():
    yield from SPECIALS
    for _ in range(300):
        yield number(sign=0)
    for _ in range(300):  # subnormals of every length
        yield rng.getrandbits(rng.randint(1, 23)) or 1
    for _ in range(300):  # exact squares and the values beside them
        k = rng.randrange(1, 4096)
        b = nearest(Fraction(k * k) * Fraction(4) ** rng.randint(-60, 50), False)
        yield from (b - 1, b, b + 1)
    for _ in range(300):  # roots close to a midpoint, from both sides, at odd and even exponents
        k = rng.randrange(1 << 23, 1 << 24)
        v = (Fraction(2 * k + 1) / 2) ** 2 * Fraction(4) ** rng.randint(-80, 30)
        b = nearest(v, False)
        yield from (b - 1, b, b + 1)
    for _ in range(40):
        yield number(sign=1)


# ---- sixth root
def sixth_inputs():
    yield from SPECIALS
    for _ in range(300):
        yield number(sign=0)
    for _ in range(200):
        yield rng.getrandbits(rng.randint(1, 23)) or 1
    for k in range(1, 16):  # exact sixth powers and the values beside them
        for j in range(-20, 20, 3):
            b = nearest(Fraction(k) ** 6 * Fraction(64) ** j, False)
            if finite(b) and b > 1:
                yield from (b - 1, b, b + 1)
    for _ in range(400):  # the two values around a sixth power
        r = number(103, 147, 0)
        b = nearest(value(r) ** 6, False)
        if finite(b + 1) and b > 1:
            yield from (b - 1, b, b + 1)
    for _ in range(40):
        yield number(sign=1)


# ---- the small leaves
def less(a, b):
    if is_nan(a) or is_nan(b):
        return False
    key = lambda x: -1 - (x & 0x7FFFFFFF) if x & SIGN else x
    return key(a) < key(b)  # -0 before +0


def below(a, b):
    if is_nan(a) or is_nan(b):
        return False
    key = lambda x: -(x & 0x7FFFFFFF) if x & SIGN else x
    return key(a) < key(b)


def smaller(a, b):
    return b if is_nan(a) or less(b, a) else a


def larger(a, b):
    return b if is_nan(a) or less(a, b) else a


def clamp(x, lo, hi):
    return lo if below(x, lo) else hi if below(hi, x) else x


def whole_up(b):
    if is_nan(b) or (b & SIGN and b != SIGN) or below(0x47800000, b):
        return 65537
    return math.ceil(value(b))


def pieces(q, w1, w2):
    r, w = sixth_exact(q), larger(larger(w1, w2), ONE)
    if is_nan(r):
        return 65537
    if r == INF or w == INF:
        return 65537 if r else 1
    return max(1, whole_up(nearest(value(r) * value(w), False)))


def near_whole():
    for _ in range(120):
        k = rng.choice([rng.randrange(0, 9), rng.randrange(0, 70000), rng.randrange(1 << 22, 1 << 25)])
        b = nearest(Fraction(2 * k + rng.getrandbits(1), 2), False)
        yield from (max(b - 1, 0), b, b + 1)
    for _ in range(60):
        yield number(100, 160, 0)


def rows():
    for a, b, c in fma_inputs():
        yield "f", a, b, c, None
    for a in sqrt_inputs():
        yield "s", a, 0, 0, None
    for a in sixth_inputs():
        yield "x", a, 0, 0, sixth_exact(a)
    for a in SPECIALS:
        yield "a", a, 0, 0, a if a == NAN else a & ~SIGN
    for op, leaf in (("m", smaller), ("n", larger)):
        for a in SPECIALS:
            for b in SPECIALS:
                yield op, a, b, 0, leaf(a, b)
    ends = [0, SIGN, ONE, ONE | SIGN, INF, NAN]
    for x in SPECIALS:
        for lo in ends:
            for hi in ends:
                yield "c", x, lo, hi, clamp(x, lo, hi)
    for b in SPECIALS + list(near_whole()):
        yield "u", b, 0, 0, None
        yield "u", b ^ SIGN if b != NAN else b, 0, 0, None
    for b in SPECIALS + [0x47800000, 0x47800001, 0x477FFFFF] + list(near_whole()):
        yield "w", b, 0, 0, whole_up(b)
    for _ in range(400):
        q = rng.choice([0, SIGN, number(60, 190, 0), nearest(Fraction(rng.randrange(1, 1030)) ** 6, False)])
        q += rng.randint(-1, 1) if q & 0x7FFFFFFF else 0
        w1, w2 = (rng.choice([ONE, 0x3C800000, 0x42800000, number(121, 132, 0)]) for _ in range(2))
        yield "p", q, w1, w2, pieces(q, w1, w2)
    for q in (NAN, INF, INF | SIGN, ONE | SIGN):
        yield "p", q, ONE, ONE, pieces(q, ONE, ONE)


def main():
    table = list(rows())
    asked = "".join(f"{o} {a:08x} {b:08x} {c:08x}\n" for o, a, b, c, r in table if r is None)
    with tempfile.TemporaryDirectory() as work:
        source, reference = os.path.join(os.path.dirname(os.path.abspath(__file__)), "reference.c"), os.path.join(work, "reference")
        subprocess.run([os.environ.get("CC", "cc"), "-O1", "-ffp-contract=off", "-o", reference, source, "-lm"], check=True)
        answers = iter(subprocess.run([reference], input=asked, capture_output=True, text=True, check=True).stdout.split("\n"))
    count = {}
    with open(sys.argv[1], "w") as out:
        for o, a, b, c, r in table:
            if r is None:
                r = int(next(answers).split()[4], 16)
                # a second opinion, by whole numbers, where all is finite
                if o == "f" and finite(a) and finite(b) and finite(c):
                    assert r == fma_exact(a, b, c), (o, hex(a), hex(b), hex(c), hex(r))
                if o == "s" and 0 < a < INF:
                    assert r == root_exact(a), (o, hex(a), hex(r))
            out.write(f"{o} {a:08x} {b:08x} {c:08x} {r:08x}\n")
            count[o] = count.get(o, 0) + 1
    print(count)


main()
