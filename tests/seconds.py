#!/usr/bin/env python3
"""Writes cases for tests/delays.c, worked out by Python's exact fractions from the request alone:

    python3 tests/seconds.py SEED COUNT

First the kinds of cases, one a line: '#' and the kind's name. Then the cases: the number of the kind from 0, the bits of the
number of seconds in hexadecimal, T, and the status and the ticks that the conversion must give. COUNT random ones come
after those that are always there: every exponent with either sign, numbers beside whole numbers of ticks, both ends of what
is taken, what is not a number."""
import math
import random
import struct
import sys
from fractions import Fraction

MOST_TICKS = 4294967295
RATES = (1, 2, 3, 7, 10, 60, 100, 999, 1000)
INFINITY = 0x7FF0000000000000
SIGN = 1 << 63
KINDS = (
    "0.0", "-0.0", "not normal", "not normal, below zero", "less than a tick", "a whole number of ticks",
    "the first number above some ticks", "the last number below some ticks", "any other", "the largest that is taken",
    "the next above the largest", "too large", "below zero", "infinity", "-infinity", "not a number",
    "not a number, with a sign", "not a number, signalling", "not a number, signalling, with a sign", "T of 0", "T of 1001",
    "T above 1001")


def number(bits):
    return struct.unpack("<d", struct.pack("<Q", bits))[0]


def bits_of(x):
    return struct.unpack("<Q", struct.pack("<d", x))[0]


def ticks(bits, rate):
    """The smallest whole number of ticks not below the number times T; None where that is refused."""
    x = number(bits)
    if math.isnan(x) or math.isinf(x) or x < 0:
        return None
    n = math.ceil(Fraction(x) * rate)
    return n if n <= MOST_TICKS else None


def special(bits):
    """The kind of an infinity, of what is not a number, of a zero, of what is below zero or not normal; None of any other."""
    negative, size = bits >= SIGN, bits % SIGN
    if size > INFINITY:
        quiet = size >> 51 & 1
        return "not a number" + ("" if quiet else ", signalling") + (", with a sign" if negative else "")
    if size == INFINITY:
        return "-infinity" if negative else "infinity"
    if size == 0:
        return "-0.0" if negative else "0.0"
    if size < 1 << 52:
        return "not normal, below zero" if negative else "not normal"
    return "below zero" if negative else None


def beside(bits, rate):
    """The kind of a normal number above zero, by the numbers beside it."""
    n, before, after = (ticks(b, rate) for b in (bits, bits - 1, bits + 1))
    if n is None:
        return "too large" if before is None else "the next above the largest"
    if after is None:
        return "the largest that is taken"
    if Fraction(number(bits)) * rate == n:
        return "a whole number of ticks"
    if n == 1 and after == 1:
        return "less than a tick"
    if before < n:
        return "the first number above some ticks"
    return "the last number below some ticks" if n < after else "any other"


def case(bits, rate):
    if not 1 <= rate <= 1000:
        kind, n = "T of %d" % rate if rate in (0, 1001) else "T above 1001", None
    else:
        kind, n = special(bits) or beside(bits, rate), ticks(bits, rate)
    return "%d %x %d %d %d" % (KINDS.index(kind), bits, rate, 10 if n is None else 0, n or 0)


def exponents():
    for exponent in range(2048):
        for sign in (0, SIGN):
            for digits in (0, 1, (1 << 52) - 1, random.getrandbits(52)):
                yield sign | exponent << 52 | digits, random.choice(RATES)


def whole(counts, reach):
    """The numbers nearest to some whole numbers of ticks, and as many on either side."""
    for rate in RATES:
        for n in counts:
            for step in range(-reach, reach + 1):
                yield bits_of(float(Fraction(n, rate))) + step, rate


def ends():
    quiet = INFINITY | 1 << 51
    for bits in (0, 1, 2, (1 << 52) - 1, 1 << 52, bits_of(1.0), INFINITY - 1, INFINITY, INFINITY + 1, quiet, SIGN - 1):
        for sign in (0, SIGN):
            for rate in RATES + (0, 1001, 1002, 65536, 4294967295):
                yield bits | sign, rate


def any_number():
    rate = random.choice((random.choice(RATES), random.randint(1, 1000)))
    kind = random.randrange(8)
    if kind == 0:
        return random.getrandbits(64), rate
    if kind == 1:
        return random.randint(1023 - 80, 1023 + 34) << 52 | random.getrandbits(52), rate
    if kind == 2:
        return bits_of(random.randint(0, 2**33) / 2.0 ** random.randint(0, 60)), rate
    if kind == 3:
        return random.choice((INFINITY, SIGN | INFINITY)) | random.getrandbits(random.randint(1, 52)), rate
    if kind == 4:
        return bits_of(random.uniform(0, 10000)), random.choice((0, 1001, random.randint(1001, 2**32 - 1), rate))
    n = random.choice((random.randint(1, 10000), random.randint(1, MOST_TICKS), MOST_TICKS - random.randrange(4)))
    return bits_of(float(Fraction(n, rate))) + random.randint(-2, 2), rate


def main():
    seed, count = int(sys.argv[1]), int(sys.argv[2])
    random.seed(seed)
    print("\n".join("# " + kind for kind in KINDS))
    few = min(1000, 20 + count // 200)
    for cases in (exponents(), whole(range(1, few), 1), whole(range(MOST_TICKS - 3, MOST_TICKS + 3), 3), ends()):
        print("\n".join(case(*c) for c in cases))
    for _ in range(count):
        print(case(*any_number()))


if __name__ == "__main__":
    main()
