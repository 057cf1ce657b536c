#!/usr/bin/env python3
"""The rotary tables of rows and of columns, worked out in integers: what rust/tests/rope.txt holds of them.

A line has P, the head width, theta and, of row_cos, row_sin, column_cos and column_sin, a hash of the bits. Each value is
the f32 nearest to cos or sin of p * theta^(-i/n), n = head width / 2, with even i for rows p and odd i for columns p. All
is counted in units of 2^-BITS: a power of theta is cut off to a whole number (its n-th root is one of integers), and what
that and the series leave out is far below ERROR; no value may lie so near the middle of two f32. With --margin it prints
instead how near the nearest comes, as a power of two of a unit in the last place.
"""
import struct
import sys
from fractions import Fraction

BITS = 256
ONE = 1 << BITS
ERROR = 1 << 40
SIZES = [
    (110, 64, 10000.0),
    (110, 16, 10000.0),
    (8, 4, 10000.0),
    (64, 100, 500000.0),
    (2048, 4, 10000.0),
    (37, 256, 10000.0),
    (110, 88, 1000000.0),
    (300, 20, 2.5),
    (1000, 8, 1.0),
    (12, 256, 3.4028234663852886e38),
]


def arctan_inverse(k):
    """arctan(1/k)."""
    total, term, n = 0, ONE // k, 1
    while term:
        total += term // n if n % 4 == 1 else -(term // n)
        term //= k * k
        n += 2
    return total


PI = 16 * arctan_inverse(5) - 4 * arctan_inverse(239)


def integer_root(x, n):
    """The largest whole number whose n-th power is at most x: Newton's steps lead down to it."""
    y = 1 << -(-x.bit_length() // n)
    while True:
        less = ((n - 1) * y + x // y ** (n - 1)) // n
        if less >= y:
            return y
        y = less


def frequency(theta, i, n):
    exact = Fraction(theta)
    return integer_root(((exact.denominator**i) << (BITS * n)) // exact.numerator**i, n)


def cos_sin(angle):
    quarters = (2 * angle + PI // 2) // PI
    x = angle - quarters * PI // 2
    sums, term, k = [0, 0], ONE, 0
    while term not in (0, -1):
        sums[k % 2] += -term if k % 4 > 1 else term
        k += 1
        term = term * x // ONE // k
    cos, sin = sums
    return [(cos, sin), (-sin, cos), (-cos, -sin), (sin, -cos)][quarters % 4]


def nearest(x):
    """The bits of the f32 nearest to x, to even in the middle, and the distance from the next middle, in last places."""
    size = abs(x)
    place = max(size.bit_length() - 24, BITS - 149)  # of the last bit
    whole, rest = size >> place, size & ((1 << place) - 1)
    half = 1 << (place - 1)
    up = rest > half or rest == half and whole % 2 == 1
    value = Fraction(whole + up, 1) * Fraction(2) ** (place - BITS)
    bits = struct.unpack("<I", struct.pack("<f", -float(value) if x < 0 else float(value)))[0]
    return bits, Fraction(abs(rest - half), 1 << place)


least = Fraction(1)


def bits_of(x, exact):
    global least
    if not exact:
        least = min(least, nearest(x)[1])
        assert nearest(x - ERROR)[0] == nearest(x + ERROR)[0], "too near the middle"
    return nearest(x)[0]


def table_hashes(side, head, theta):
    n = head // 2
    hashes = []
    for first in (0, 1):
        freqs = [frequency(theta, i, n) for i in range(first, n, 2)]
        pairs = [[cos_sin(p * freq) for freq in freqs] for p in range(side)]
        for which in (0, 1):
            found = 0xCBF29CE484222325  # FNV-1a of the bits, word by word
            for p, row in enumerate(pairs):
                for pair in row:
                    found = ((found ^ bits_of(pair[which], p == 0)) * 0x100000001B3) % 2**64
            hashes.append("%016x" % found)
    return hashes


for side, head, theta in SIZES:
    least = Fraction(1)
    hashes = table_hashes(side, head, theta)
    if sys.argv[1:] == ["--margin"]:
        print(side, head, theta, "2^-%d" % ((1 / least).__floor__().bit_length() - 1))
    else:
        print(side, head, int(theta) if theta == int(theta) and theta < 1e9 else theta, *hashes)
