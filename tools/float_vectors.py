"""An exact model of the scope document's float functions, and the rows that it answers.

    python3 tools/float_vectors.py

Run it from the repository's root. It writes crates/floats_vectors/stdin, the rows, and
crates/floats_vectors/stdout, the rows with their results. It gives the same files on each run.

The model is whole numbers and fractions throughout: no float of Python's is used, and nothing of the
port. A value is worked out exactly, and `round_to_f32` rounds it once. A root is also checked: its
square is compared with the squares of the two points half way to its neighbours.
"""

from fractions import Fraction
from math import floor, isqrt

INFINITY = 0x7F80_0000
NAN = 0x7FC0_0000
ONE = 0x3F80_0000
SIGN = 0x8000_0000


# ---- a bit pattern and its value


def is_nan(bits):
    return bits % SIGN > INFINITY


def is_infinite(bits):
    return bits % SIGN == INFINITY


def is_zero(bits):
    return bits % SIGN == 0


def sign(bits):
    """The sign bit, where it stands in the pattern."""
    return bits & SIGN


def value(bits):
    """The value of a finite pattern."""
    field, fraction = divmod(bits % SIGN, 2**23)
    if field == 0:
        magnitude = Fraction(fraction, 2**149)
    else:
        magnitude = (2**23 + fraction) * Fraction(2) ** (field - 150)
    return -magnitude if sign(bits) else magnitude


def exponent(x):
    """The e with 2^e <= x < 2^(e + 1), of an x above zero."""
    e = x.numerator.bit_length() - x.denominator.bit_length()
    return e if Fraction(2) ** e <= x else e - 1


def nearest(x):
    """The whole number nearest to x, a tie to the even one."""
    low = floor(x)
    rest = x - low
    if rest > Fraction(1, 2) or (rest == Fraction(1, 2) and low % 2 == 1):
        return low + 1
    return low


def round_to_f32(x):
    """The pattern of the f32 nearest to an x of zero or more: ties to even, an infinity on overflow."""
    if x == 0:
        return 0
    e = max(exponent(x), -126)
    significand = nearest(x / Fraction(2) ** (e - 23))
    if significand == 2**24:
        e, significand = e + 1, 2**23
    if e > 127:
        return INFINITY
    if significand < 2**23:
        return significand
    return (e + 127) * 2**23 + significand - 2**23


def below(a, b):
    """Whether a < b, of two patterns that are no NaN."""

    def place(bits):
        return -(bits % SIGN) if sign(bits) else bits

    return place(a) < place(b)


# ---- single operations, IEEE 754


def multiply(a, b):
    if is_nan(a) or is_nan(b):
        return NAN
    product_sign = sign(a) ^ sign(b)
    if is_infinite(a) or is_infinite(b):
        return NAN if is_zero(a) or is_zero(b) else product_sign | INFINITY
    return product_sign | round_to_f32(abs(value(a) * value(b)))


def one_divided_by(a):
    if is_nan(a):
        return NAN
    if is_infinite(a):
        return sign(a)
    if is_zero(a):
        return sign(a) | INFINITY
    return sign(a) | round_to_f32(abs(1 / value(a)))


# ---- the float functions


def larger(a, b):
    if is_nan(a):
        return b
    if is_nan(b):
        return a
    return b if below(a, b) else a


def smaller(a, b):
    if is_nan(a):
        return b
    if is_nan(b):
        return a
    return b if below(b, a) else a


def absolute(a):
    return a % SIGN


def root(a):
    if is_nan(a) or is_zero(a):
        return a
    if sign(a):
        return NAN
    if is_infinite(a):
        return a
    # the root is the root of n, divided by 2^200. Where n is no square, its root lies between whole and
    # whole + 1, and every f32 and every point half way between two is a whole number of 2^-150: so
    # whole + 1/2 rounds as the root does
    n = value(a) * 4**200
    assert n.denominator == 1
    whole = isqrt(n.numerator)
    if whole * whole == n:
        result = round_to_f32(Fraction(whole, 2**200))
    else:
        result = round_to_f32(Fraction(2 * whole + 1, 2**201))
    assert_nearest_root(value(a), result)
    return result


def assert_nearest_root(x, result):
    under = (value(result - 1) + value(result)) / 2
    over = (value(result) + value(result + 1)) / 2
    assert under * under < x < over * over


def power(c, e):
    result = ONE
    left = abs(e)
    while left > 0:
        if left % 2 == 1:
            result = multiply(result, c)
        c = multiply(c, c)
        left = left // 2
    return one_divided_by(result) if e < 0 else result


def power_1_5(m):
    return multiply(m, root(m))


L = 744261118


def exponential(a):
    if is_nan(a):
        return a
    if a == INFINITY or (not is_infinite(a) and value(a) >= 89):
        return INFINITY
    if a == SIGN | INFINITY or value(a) <= -104:
        return 0
    q, r = divmod(floor(value(a) * 2**30), L)
    t = 2**30
    total = t
    for k in range(1, 13):
        t = t * r // (k * 2**30)
        total += t
    return round_to_f32(total * Fraction(2) ** (q - 30))


# ---- the rows: a function's name and its operands


class Patterns:
    """Patterns spread over all 32 bits, the same in each run."""

    def __init__(self):
        self.state = 1

    def next(self, size):
        self.state = (self.state * 6364136223846793005 + 1442695040888963407) % 2**64
        return (self.state >> 32) % size


def f32(x):
    """The pattern of the f32 nearest to a fraction."""
    return (SIGN if x < 0 else 0) | round_to_f32(abs(Fraction(x)))


def around(bits, distance):
    return range(bits - distance, bits + distance + 1)


ZEROS = [0, SIGN]
NANS = [NAN, 0x7F80_0001, 0x7FFF_FFFF, 0xFF80_0001, 0xFFC0_0000, 0xFFFF_FFFF]
INFINITIES = [INFINITY, SIGN | INFINITY]
SMALLEST, LARGEST_SUBNORMAL, SMALLEST_NORMAL, LARGEST = 1, 0x007F_FFFF, 0x0080_0000, 0x7F7F_FFFF
EDGES = [SMALLEST, LARGEST_SUBNORMAL, SMALLEST_NORMAL, LARGEST, ONE - 1, ONE, ONE + 1]
SPECIAL = ZEROS + NANS + INFINITIES + EDGES + [SIGN | bits for bits in EDGES]


def exp_operands(patterns):
    yield from SPECIAL
    # the first infinite result; 89; the first result with fewer bits; the first that is the smallest f32; the
    # first zero; -104
    for bits in (0x42B1_7218, 0x42B2_0000, 0xC2AE_AC50, 0xC2CD_BF37, 0xC2CF_F1B5, 0xC2D0_0000):
        yield from around(bits, 8)
    for whole in range(-106, 92):
        yield f32(whole)
    # tiny arguments of both signs
    for power_of_two in range(1, 150):
        yield f32(Fraction(1, 2**power_of_two))
        yield f32(Fraction(-1, 2**power_of_two))
    # the whole range, and the part of it with small results
    for step in range(700):
        yield f32(Fraction(193 * step, 700) - 104)
    for step in range(250):
        yield f32(Fraction(-104) + Fraction(17 * step, 250))
    # where the quotient by L changes
    for q in (*range(-151, 0), *range(1, 129)):
        yield from around(f32(Fraction(q * L, 2**30)), 1)
    for _ in range(200):
        yield patterns.next(2**32)


def odd_roots(c, digits):
    """The odd numbers below 2^digits whose squares are c modulo 2^digits, for a c that is 1 modulo 8."""
    roots = [1, 3, 5, 7]
    for d in range(4, digits + 1):
        lifted = [r + half for r in roots for half in (0, 2 ** (d - 1))]
        roots = sorted({r for r in lifted if (r * r - c) % 2**d == 0})
    return roots


def near_ties():
    """Numbers whose root lies next to the middle of two f32: middle^2 - c, where that has 24 digits only."""
    for c in range(-399, 402, 8):
        for middle in odd_roots(c, 26):
            if 2**24 <= middle < 2**25:
                yield f32(Fraction(middle * middle - c, 2**26))


def sqrt_operands(patterns):
    yield from SPECIAL
    yield from (f32(x) for x in (-2, Fraction(-1, 4), 2, 3, Fraction(1, 4)))
    # every exponent, with the ends of its fractions and some between
    for field in range(255):
        for fraction in (0, 1, 2**23 - 1, patterns.next(2**23)):
            yield field * 2**23 + fraction
    for power_of_two in range(23):
        yield 2**power_of_two
    for _ in range(40):
        yield patterns.next(2**23)
    for whole in list(range(1, 40)) + [patterns.next(4096) for _ in range(60)]:
        yield from around(f32(whole * whole), 1)
    yield from near_ties()


POWI_BASES = [f32(Fraction(tenths, 10)) for tenths in (9, -9, 5, 10, -10, 11, 20, -20, 100)]
POWI_BASES += ZEROS + INFINITIES + [NAN, SMALLEST, SIGN | SMALLEST, LARGEST, SIGN | LARGEST, ONE - 1, ONE + 1]
POWI_EXPONENTS = list(range(-8, 9)) + [-128, -127, -126, -31, 31, 127, 128, 149, 150, 151, 65535, -65536]
POWI_EXPONENTS += [-(2**31), -(2**31) + 1, 2**31 - 1, 2**31 - 2, 2**30, -(2**30)]


def powi_operands(patterns):
    for c in POWI_BASES:
        for e in POWI_EXPONENTS:
            yield c, e
    for e in range(-40, 130):
        yield f32(Fraction(9, 10)), e
    for _ in range(150):
        # a base from 1/4 to 4, and an exponent from -64 to 63
        yield f32(1) - 2**24 + patterns.next(2**25), patterns.next(128) - 64


def powf_1_5_operands(patterns):
    yield from SPECIAL
    for field in range(255):
        yield field * 2**23 + patterns.next(2**23)
    for whole in range(1, 40):
        yield f32(whole)
    for _ in range(20):
        yield SIGN | patterns.next(INFINITY)


def pairs(patterns):
    for a in SPECIAL:
        for b in SPECIAL:
            yield a, b
    for _ in range(50):
        a = patterns.next(2**32)
        yield a, patterns.next(2**32)
        yield a, a + 1
        yield a, a ^ SIGN


def abs_operands(patterns):
    yield from SPECIAL
    for _ in range(60):
        yield patterns.next(2**32)


def rows():
    patterns = Patterns()
    for a, b in pairs(patterns):
        yield "max", a, b, larger(a, b)
        yield "min", a, b, smaller(a, b)
    for a in abs_operands(patterns):
        yield "abs", a, None, absolute(a)
    for a in sqrt_operands(patterns):
        yield "sqrt", a, None, root(a)
    for c, e in powi_operands(patterns):
        yield "powi", c, e % 2**32, power(c, e)
    for m in powf_1_5_operands(patterns):
        yield "powf_1_5", m, None, power_1_5(m)
    for a in exp_operands(patterns):
        yield "exp", a, None, exponential(a)


# rows that the program answers with `bad line`: no such function, a digit that is none, an operand left out
MALFORMED = ["log      3f800000 --------", "exp      3F800000 --------", "max      3f800000 --------"]
# the start of a row, at which it stops
CUT = "exp      3f8"


def main():
    asked, answered = [], []
    for name, first, second, result in dict.fromkeys(rows()):
        row = f"{name:8} {first:08x} " + ("--------" if second is None else f"{second:08x}")
        asked.append(row + "\n")
        answered.append(f"{row} {NAN if is_nan(result) else result:08x}\n")
    for row in MALFORMED:
        asked.append(row + "\n")
        answered.append(row + " bad line\n")
    asked.append(CUT)
    for name, lines in ("stdin", asked), ("stdout", answered):
        with open(f"crates/floats_vectors/{name}", "w", encoding="ascii", newline="\n") as file:
            file.writelines(lines)
    print(f"{len(answered)} rows")


if __name__ == "__main__":
    main()
