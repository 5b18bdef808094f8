"""Answers in exact arithmetic, each rounded once by hand to the nearest value, a tie to the even one.
    exact.py exp          writes the vectors of exp
    exact.py ln           writes those of ln, by the steps of document 02's paper 1
    exact.py narrow_case  writes those of narrow's case, by the two f32 around the number
    exact.py power        writes those of the power, by the words of document 02's paper 9
    exact.py check FILE   works out root, mul_add, narrow, of_u64 and rem_tau of FILE's lines again, and names each line that differs"""
import sys
from fractions import Fraction
from math import isqrt

TOP, INFINITE, NAN = 1 << 63, 0x7FF << 52, 0x7FF8 << 48
TAU, ROOT2 = 0x401921FB54442D18, 0x3FF6A09E667F3BCD
# the nearest to -745.2 and to 709.79
EXP_LEAST, EXP_MOST = 0xC08749999999999A, 0x40862E51EB851EB8
LOG2E, LN2_HIGH, LN2_LOW = 0x3FF71547652B82FE, 0x3FE62E42FEE00000, 0x3DEA39EF35793C76
# 1/j! for j from 0 to 13
COEFFICIENTS = [int(word, 16) for word in """3FF0000000000000 3FF0000000000000 3FE0000000000000 3FC5555555555555
    3FA5555555555555 3F81111111111111 3F56C16C16C16C17 3F2A01A01A01A01A 3EFA01A01A01A01A 3EC71DE3A556C734
    3E927E4FB7789F5C 3E5AE64567F544E4 3E21EED8EFF8D898 3DE6124613A86D09""".split()]


def is_nan(b):
    return b & ~TOP > INFINITE


def is_infinite(b):
    return b & ~TOP == INFINITE


def value(b):
    """The number that a finite pattern stands for."""
    field, digits = b >> 52 & 0x7FF, b & (1 << 52) - 1
    significand = digits if field == 0 else digits + (1 << 52)
    magnitude = Fraction(significand) * Fraction(2) ** (max(field, 1) - 1075)
    return -magnitude if b & TOP else magnitude


def rounded(x, digits=53, emax=1023, sign=0):
    """The pattern of the value nearest to x; sign is the sign bit of an x that is zero."""
    width = 64 if digits == 53 else 32
    if x < 0:
        sign = 1
    lowest = emax + digits - 2
    units = abs(x) * 2**lowest
    dropped = max((units.numerator // units.denominator).bit_length() - digits, 0)
    quotient, rest = divmod(units.numerator, units.denominator << dropped)
    twice = 2 * rest - (units.denominator << dropped)
    if twice > 0 or twice == 0 and quotient % 2 == 1:
        quotient += 1
    # the leading digit adds one to the exponent's field, and a carry one more
    pattern = (dropped << digits - 1) + quotient
    return sign << width - 1 | min(pattern, 2 * emax + 1 << digits - 1)


def root(b):
    if is_nan(b) or b & ~TOP == 0:
        return NAN if is_nan(b) else b
    if b & TOP:
        return NAN
    if is_infinite(b):
        return b
    # a whole number of units of 2^-1075 has the root cut to it; half a unit more stands for what was cut
    square = value(b) * 4**1075
    whole = isqrt(square.numerator)
    cut = 0 if whole * whole == square.numerator else 1
    return rounded(Fraction(2 * whole + cut, 2**1076))


def mul_add(a, b, c):
    if is_nan(a) or is_nan(b) or is_nan(c):
        return NAN
    sign = (a ^ b) & TOP
    if is_infinite(a) or is_infinite(b):
        zero = a & ~TOP == 0 or b & ~TOP == 0
        against = is_infinite(c) and c & TOP != sign
        return NAN if zero or against else sign | INFINITE
    if is_infinite(c):
        return c
    both = sign & c & TOP
    return rounded(value(a) * value(b) + value(c), sign=both >> 63)


def narrow(b):
    if is_nan(b):
        return 0x7FC00000
    if is_infinite(b):
        return b >> 63 << 31 | 0x7F800000
    return rounded(value(b), 24, 127, b >> 63)


def rem_tau(b):
    if is_nan(b) or is_infinite(b):
        return NAN
    x, tau = value(b), value(TAU)
    rest = abs(x) % tau
    return rounded(tau - rest) if x < 0 and rest != 0 else rounded(rest, sign=b >> 63)


def step(x):
    """x, rounded once."""
    return value(rounded(x))


def exp(b):
    """E: the exponent's whole part is taken off in two pieces, and 14 terms of the series are summed from the smallest."""
    if is_nan(b):
        return NAN
    if is_infinite(b):
        return 0 if b & TOP else INFINITE
    y = value(b)
    if y < value(EXP_LEAST) or y > value(EXP_MOST):
        return 0 if y < 0 else INFINITE
    k = step(step(y * value(LOG2E)) + Fraction(1, 2)).__floor__()
    r = step(step(y - step(k * value(LN2_HIGH))) - step(k * value(LN2_LOW)))
    p = value(COEFFICIENTS[13])
    for j in range(12, -1, -1):
        p = step(step(p * r) + value(COEFFICIENTS[j]))
    # p is above 1/2 and below 2, so the first product is a normal number for every k here; the second may be anything
    h = k // 2
    return rounded(step(p * Fraction(2) ** h) * Fraction(2) ** (k - h))


def ln(b):
    """The logarithm of m * 2^e by the series of the inverse hyperbolic tangent of (m - 1) / (m + 1), 11 terms of it."""
    if is_nan(b):
        return NAN
    if b & ~TOP == 0:
        return TOP | INFINITE
    if b & TOP:
        return NAN
    if is_infinite(b):
        return INFINITE
    x = value(b)
    e = x.numerator.bit_length() - x.denominator.bit_length()
    m = x / Fraction(2) ** e
    if m < 1:
        m, e = 2 * m, e - 1
    if m > value(ROOT2):
        m, e = m / 2, e + 1
    s = step(step(m - 1) / step(m + 1))
    t = step(s * s)
    q = step(Fraction(1, 21))
    for j in range(9, -1, -1):
        q = step(step(q * t) + step(Fraction(1, 2 * j + 1)))
    small = step(step(step(2 * s) * q) + step(e * value(LN2_LOW)))
    return rounded(step(e * value(LN2_HIGH)) + small)


def product(a, b):
    sign = (a ^ b) & TOP
    if is_nan(a) or is_nan(b):
        return NAN
    if is_infinite(a) or is_infinite(b):
        return NAN if 0 in (a & ~TOP, b & ~TOP) else sign | INFINITE
    return rounded(abs(value(a) * value(b))) | sign


def power(b, n):
    """1 for n = 0; else that of half of n, rounded down, squared, and times the number where n is odd."""
    if n == 0:
        return 1023 << 52
    h = power(b, n // 2)
    square = product(h, h)
    return product(square, b) if n % 2 else square


def value32(p):
    """The number that the pattern of a non-negative f32 stands for; that of an infinity stands for the next number there would be."""
    field, digits = p >> 23, p & (1 << 23) - 1
    significand = digits if field == 0 else digits + (1 << 23)
    return Fraction(significand) * Fraction(2) ** (max(field, 1) - 150)


def narrow_case(b):
    """The case of clause 4.3.1: 1 overflow, 2 below half, 3 half and even, 4 half and odd, 5 above half. The f32 below is found by halving."""
    if is_nan(b) or is_infinite(b):
        return 0
    x = abs(value(b))
    if x >= 2**128 - 2**103:
        return 1
    low, high = 0, 0x7F800000
    while high - low > 1:
        middle = (low + high) // 2
        low, high = (middle, high) if value32(middle) <= x else (low, middle)
    twice = 2 * x - value32(low) - value32(high)
    if twice != 0:
        return 2 if twice < 0 else 5
    return 3 + low % 2


class Random:
    """Marsaglia's xorshift of 64 bits."""

    def __init__(self, seed):
        self.state = seed

    def bits(self):
        s = self.state
        s ^= s << 13 & 2**64 - 1
        s ^= s >> 7
        s ^= s << 17 & 2**64 - 1
        self.state = s
        return s

    def float(self, low, high):
        field = 1023 + low + self.bits() % (high - low)
        return self.bits() & (TOP | (1 << 52) - 1) | field << 52


def beside(b):
    return [b - 1, b, b + 1]


def exp_operands():
    """Edges of the range, every whole part k and the points where it changes, the last results before 0 and infinity, and random numbers."""
    random = Random(0x2545F4914F6CDD1D)
    near = [0, 1, 2, 1 << 51, (1 << 52) - 1, 1 << 52, INFINITE - 1, INFINITE, INFINITE + 1, NAN, TOP - 1]
    for whole in (708, 709, 1, 2, 710, 745, 746, 1000):
        near += beside(rounded(Fraction(whole)))
    near += beside(EXP_LEAST & ~TOP) + beside(EXP_MOST)
    for e in range(-60, 12):
        near.append((e + 1023) << 52)
    for k in range(0, 1023, 4):
        near += beside(rounded((k + Fraction(1, 2)) / value(LOG2E)))
    for b in near:
        yield b
        yield b | TOP
    for k in range(-1075, 1025):
        yield rounded(k / value(LOG2E))
        yield rounded((k - Fraction(1, 2)) / value(LOG2E))
    # where the result is n times the smallest number, and for some n where it becomes one more
    for n in range(1, 1001):
        yield ln(n)
    for n in range(100):
        yield from beside(rounded(value(ln(2 * n + 1)) - value(LN2_HIGH) - value(LN2_LOW)))
    # the smallest normal number, and the largest number of all
    for b in (1 << 52, INFINITE - 1):
        yield from (ln(b) + turn for turn in range(-4, 5))
    for turn in range(1500):
        yield [random.bits(), random.float(-3, 4), random.float(0, 10), random.float(-30, 0)][turn % 4]
    yield rounded(Fraction(-7, 4))


def ln_operands():
    """All powers of two, numbers beside them, beside 1 and beside the root of 2 at many exponents, subnormal and other random numbers; some below 0."""
    random = Random(0x9E3779B97F4A7C15)
    for b in (0, 1, 2, 3, (1 << 52) - 1, 1 << 52, INFINITE - 1, INFINITE, INFINITE + 1, NAN, TOP - 1, ROOT2, 1023 << 52):
        yield b
        yield b | TOP
    for j in range(52):
        yield 1 << j
    for field in range(1, 2047):
        yield field << 52
    for field in range(1, 2047, 8):
        yield from ((field << 52) - 1, (field << 52) + 1)
    for field in [1, 2, 1021, 1022, 1023, 1024, 1025, 2046] + list(range(5, 2046, 40)):
        for turn in range(-3, 4):
            yield (ROOT2 & (1 << 52) - 1 | field << 52) + turn
    for turn in range(-40, 41):
        yield (1023 << 52) + turn
    for j in range(52):
        yield from ((1023 << 52) + (1 << j), (1023 << 52) - (1 << j))
    for turn in range(500):
        yield random.bits() % (1 << 52) >> random.bits() % 52
    for turn in range(1800):
        yield [random.bits() % INFINITE, random.float(-3, 4) & ~TOP, random.float(-60, 60) & ~TOP, random.float(-1, 1) & ~TOP][turn % 4]
    for turn in range(100):
        yield TOP | random.bits()


def narrow_case_operands():
    """Numbers at, beside and half way between f32: the edges of each range and of the bound, every power of two, and random ones; f64 that are subnormal or far beyond."""
    random = Random(0xD1B54A32D192ED03)
    for b in (0, 1, (1 << 52) - 1, 1 << 52, INFINITE - 1, INFINITE, INFINITE + 1, NAN, TOP - 1):
        yield b
        yield b | TOP
    lower = [0, 1, 2, 3, 4, 0x3FFFFF, 0x400000, 0x7FFFFD, 0x7FFFFE, 0x7FFFFF, 0x800000, 0x800001, 0x7F7FFFFC, 0x7F7FFFFD, 0x7F7FFFFE, 0x7F7FFFFF]
    lower += [1 << j for j in range(23)] + [field << 23 for field in range(1, 255)] + [(field << 23) - 1 for field in range(1, 255)]
    lower += [random.bits() % 0x800000 for turn in range(100)] + [random.bits() % 0x7F800000 for turn in range(200)]
    for p in lower:
        for x in (value32(p), (value32(p) + value32(p + 1)) / 2):
            b = rounded(x) | random.bits() & TOP
            yield b
            if x != value32(p):
                yield from (b - 1, b + 1)
    for turn in range(400):
        yield random.bits()


def power_operands():
    """A number and an exponent: edges with every small exponent, powers of two and their neighbours and the largest; numbers beside 1 with any exponent; random ones."""
    random = Random(0xBF58476D1CE4E5B9)
    one = 1023 << 52
    edges = (0, 1, (1 << 52) - 1, 1 << 52, one - 1, one, one + 1, one + (1 << 51), 1024 << 52, INFINITE - 1, INFINITE, NAN)
    exponents = list(range(17)) + [(1 << j) + turn for j in range(5, 32) for turn in (-1, 0, 1)] + [(1 << 32) - 1]
    for b in edges:
        for n in exponents:
            yield b, n
            if n % 3 == 0 or n < 4:
                yield b | TOP, n
    for turn in range(800):
        yield one + (random.bits() % (1 << 52) >> turn % 52), random.bits() % (1 << 32) >> turn % 32
        yield random.float(-3, 4), random.bits() % 20
        yield random.bits() % INFINITE | random.bits() & TOP, random.bits() % (1 << 32) >> turn % 32


def check(path):
    again = {"root": root, "mul_add": mul_add, "narrow": narrow, "rem_tau": rem_tau, "of_u64": lambda n: rounded(Fraction(n))}
    bad = 0
    for line in open(path):
        name, *words = line.split()
        if name in again:
            *operands, answer = [int(word, 16) for word in words]
            if again[name](*operands) != answer:
                bad += 1
                print("differs:", line.strip())
    return bad


answers = {"exp": (exp, exp_operands, 16), "ln": (ln, ln_operands, 16), "narrow_case": (narrow_case, narrow_case_operands, 1)}
if sys.argv[1] == "power":
    for b, n in dict.fromkeys(power_operands()):
        print("power %016X %016X %016X" % (b, n, power(b, n)))
elif sys.argv[1] in answers:
    answer, operands, width = answers[sys.argv[1]]
    for b in dict.fromkeys(operands()):
        print("%s %016X %0*X" % (sys.argv[1], b, width, answer(b)))
else:
    sys.exit(1 if check(sys.argv[2]) else 0)
