"""Lists of Chebyshev coefficients through the power basis (1, x, x^2, ...), in unbounded whole numbers."""

from math import comb, lcm
from operator import mul

from header import COEFFICIENTS, MAX_DEGREE

PRODUCT_SIZE = 2 * MAX_DEGREE + 1   # numbers of the list C
TOP = PRODUCT_SIZE - 1      # highest degree that a product has
SCALE = 64                  # back conversion is kept times 2^SCALE


def _chebyshev_polynomials():
    """T_0..T_64 as lists of powers: T_(k+2) = 2 x T_(k+1) - T_k."""
    rows = [[1], [0, 1]]
    for _ in range(TOP - 1):
        row = [0] + [2 * c for c in rows[-1]]
        for j, c in enumerate(rows[-2]):
            row[j] -= c
        rows.append(row)
    return rows


def _power_in_chebyshev(j):
    """x^j = 2^(1-j) * sum over i <= j/2 of comb(j, i) T_(j-2i), the term of
    T_0 halved; kept times 2^SCALE so that all entries are whole."""
    row = [0] * (j + 1)
    for i in range(j // 2 + 1):
        row[j - 2 * i] = comb(j, i) << (SCALE + 1 - j)
    if j % 2 == 0:
        row[0] >>= 1
    return row


_T = _chebyshev_polynomials()
_X = [_power_in_chebyshev(j) for j in range(TOP + 1)]
# Only every second entry is nonzero, so each table row keeps those only.
_TO_POWER = [[_T[k][j] for k in range(j, TOP + 1, 2)] for j in range(TOP + 1)]
_FROM_POWER = [[_X[j][k] for j in range(k, TOP + 1, 2)] for k in range(TOP + 1)]


def trimmed(row):
    """The list without the zeros at its top."""
    end = len(row)
    while end and row[end - 1] == 0:
        end -= 1
    return list(row[:end])


def power_form(row):
    """The powers' coefficients of the sum of row_k T_k."""
    row = trimmed(row)
    return [sum(map(mul, row[j::2], _TO_POWER[j])) for j in range(len(row))]


def chebyshev_form(powers):
    """2^SCALE times the Chebyshev coefficients of a power-basis list."""
    return [sum(map(mul, powers[k::2], _FROM_POWER[k]))
            for k in range(len(powers))]


def power_product(p, q):
    """The product of two power-basis lists."""
    if not p or not q:
        return []
    reverse = q[::-1]
    n, m = len(p), len(q)
    total = []
    for j in range(n + m - 1):
        low = max(0, j - m + 1)             # first power taken from p
        total.append(sum(map(mul, p[low:j + 1], reverse[m - 1 - j + low:])))
    return total


def product_list(a, b):
    """C(a, b): 65 whole numbers, the Chebyshev expansion of 2 a(x) b(x)."""
    scaled = chebyshev_form([2 * c for c in
                             power_product(power_form(a), power_form(b))])
    whole = []
    for number in scaled:
        assert number & ((1 << SCALE) - 1) == 0, "C is not whole"
        whole.append(number >> SCALE)
    return whole + [0] * (TOP + 1 - len(whole))


def value_numerator(row, p, q):
    """The sum of row_k T_k(p/q) times q^32, by Horner in the power basis."""
    powers = power_form(row)
    value, step = 0, 1
    for c in reversed(powers):
        value = value * p + c * step
        step *= q
    return value * q ** (MAX_DEGREE + 1 - len(powers))


_PRIMITIVE_SCALE = lcm(*range(1, COEFFICIENTS + 1))
_PRIMITIVE_FACTOR = [_PRIMITIVE_SCALE // (j + 1) for j in range(COEFFICIENTS)]
PRIMITIVE_DENOMINATOR = _PRIMITIVE_SCALE << SCALE


def primitive_numerators(row):
    """The Chebyshev coefficients of the primitive that has no constant power,
    times PRIMITIVE_DENOMINATOR."""
    powers = [0] + [c * f for c, f in zip(power_form(row), _PRIMITIVE_FACTOR)]
    return chebyshev_form(powers)
