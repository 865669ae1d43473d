"""Cases for the converter of power series, document 02's S-3: every degree, single powers at every power of two (most of them
ties), both limits from both sides, every refusal and its order."""

import re
from math import comb
from pathlib import Path
from random import Random

import oracle as o
from cases import BAD_DEGREES, BORDER_MODELS, Case, random_model, random_total, signed, spoiled, spread
from header import ACCEPTED, BAD_SERIES, COEFFICIENTS, LARGE_RESULT, MAX_DEGREE, S
from oracle import LIMIT, Series, power, series

ROOT = Path(__file__).resolve().parent.parent
TABLES = [ROOT / 'crates' / 'series' / 'src' / 'table.rt', ROOT / 'plain' / 'expansion_table.h']
CONVERTED = 5000            # accepted ones among the fixed cases, at least
SHOWN = 500                 # answers among them that a wrong rule changes, at least


def case(s):
    return Case('from_series', (s,))


def two_powers(first, second, top):
    """first at x^0, second at x^top."""
    return series([first] + [0] * (top - 1) + [second])


# Weights that grow past 2^28 by rounding alone, whichever way ties go; and their neighbours, which do not.
GROWN = (series([0] * 14 + [-152] + [0] * 16 + [268435304]), two_powers(199, LIMIT - 199, 29), two_powers(198, LIMIT - 199, 29))
NOT_GROWN = (series([0] * 14 + [-152] + [0] * 16 + [268435303]), series([0] * 14 + [-151] + [0] * 16 + [268435304]),
             two_powers(197, LIMIT - 199, 29), two_powers(199, LIMIT - 200, 29), power(31, LIMIT), power(31, -LIMIT))
# Eight of its coefficients are ties: weight 2^28 by the even rule, four more by ties upwards or away from zero.
TIED_AT_LIMIT = power(30, LIMIT)


def fixed_powers():
    """x^k times every power of two, and three times it: ties at many places, above and below zero; tops that round to zero.
    Then x^k times large numbers, so many that one unit more or less in any entry of the table shows."""
    for k in range(COEFFICIENTS):
        for exponent in range(29):
            for value in (1 << exponent, 3 << exponent):
                for p in (value, -value):
                    if value <= LIMIT:
                        yield power(k, p)
        for i in range(30):
            yield power(k, (-1) ** i * (LIMIT - 7919 * i * i - 1))


def fixed_degrees():
    """Every degree, with every length of what is not zero; full rows; weights around the limit."""
    for degree in range(COEFFICIENTS):
        yield series([], degree)
        for last in range(degree + 1):
            yield series([0] * last + [S + 1], degree)              # zero tops
            yield series([(-1) ** k * (S // 3 + k) for k in range(last + 1)], degree)
        yield series([1] * (degree + 1))
        yield series([-1] * (degree + 1))
        share = LIMIT // (degree + 1)
        for extra in (-1, 0, 1):                                    # 2^28 and one on each side
            rest = LIMIT - share * degree + extra
            yield series([rest] + [share] * degree)
            yield series([share] * degree + [rest])
            yield series([-rest] + [(-1) ** k * share for k in range(degree)])
            for p in (LIMIT + extra, -LIMIT - extra):
                yield power(degree, p)
                yield series([p], degree)
            for first, sign in ((1, -1), (-1, 1), (S, 1), (-197, 1), (197, 1), (198, -1), (199, 1)):
                if degree:
                    yield two_powers(first, sign * (LIMIT - abs(first) + extra), degree)


def fixed_refused():
    """14 by each of its grounds, alone and together with others; 14 before 3; 3."""
    for m, _ in BORDER_MODELS:
        yield Series(m.degree, m.coefficients)
    whole = power(MAX_DEGREE, S)
    for s in (whole, series([S]), series([]), *GROWN, TIED_AT_LIMIT, power(MAX_DEGREE, LIMIT + 1)):
        for degree in BAD_DEGREES:
            yield s._replace(degree=degree)
    for degree in range(MAX_DEGREE):
        for place in sorted({degree + 1, (degree + COEFFICIENTS) // 2, MAX_DEGREE}):
            for value in (1, -1, LIMIT, LIMIT + 1):
                yield power(place, value)._replace(degree=degree)
                yield series([S] * (degree + 1) + [0] * (place - degree - 1) + [value], degree)
    for s in (*GROWN, TIED_AT_LIMIT, *NOT_GROWN):
        yield s
        yield Series(s.degree, tuple(-p for p in s.coefficients))
        yield s._replace(degree=MAX_DEGREE)
        yield s._replace(degree=s.degree - 1)                       # 14 before 3
        for k in range(COEFFICIENTS):                               # one unit more anywhere: 14, or another answer
            row = list(s.coefficients)
            row[k] += 1
            yield Series(max(k, s.degree), tuple(row))


def fixed_tied_rows():
    """Every coefficient an odd multiple of 2^(k-2): all sums end in halves or are whole."""
    for degree in range(2, 25):
        for sign in (1, -1):
            yield series([sign * (2 * k + 1 - degree | 1) << max(k - 2, 0) >> max(degree - 20, 0) for k in range(degree + 1)])


def fixed_from_series():
    for s in (*fixed_powers(), *fixed_degrees(), *fixed_refused(), *fixed_tied_rows()):
        yield case(s)
    rng = Random(3)
    for _ in range(1500):
        yield random_from_series(rng)


def random_from_series(rng):
    kind = rng.random()
    degree = rng.choice((rng.randint(0, MAX_DEGREE), rng.randint(20, MAX_DEGREE)))
    if kind < 0.2:                                  # ties, full or sparse
        top = rng.randint(1, 26)
        s = series([rng.choice((0, 1, -1, 3, -3)) << max(k + rng.choice((-2, -2, -1)), 0) if k <= top else 0
                    for k in range(degree + 1)])
        if o.weight(s.coefficients) > LIMIT:
            s = series(spread(rng, degree, LIMIT))
    elif kind < 0.4:                                # two powers at the limit, where rounding may pass it
        first, second = rng.sample(range(18, COEFFICIENTS), 2)
        first = rng.choice((0, first, rng.randint(0, MAX_DEGREE)))
        part, rest = rng.randint(0, 400), rng.choice((0, 0, 1, 2))
        row = [0] * COEFFICIENTS
        row[second] = signed(rng, LIMIT - part - rest)
        if first != second:
            row[first] = signed(rng, part)
        s = series(row, rng.randint(max(first, second), MAX_DEGREE))
    elif kind < 0.5:                                # weight 2^28 or one off, spread out
        row = spread(rng, degree, LIMIT)
        place = rng.randint(0, degree)
        room = LIMIT - o.weight(row) + rng.choice((-1, 0, 0, 1))
        row[place] += room if row[place] >= 0 else -room
        s = series(row)
    else:
        s = series(random_model(rng, random_total(rng), 0, degree).coefficients[:degree + 1])
    if rng.random() < 0.1:
        s = Series(*spoiled(rng, o.Model(*s, 0), candidate=True)[:2])
    return case(s)


# ---- What the cases and the tables are ---------------------------------------------------

def binomial_row(k):
    """2^32 times the weights of T_0 .. T_32 in x^k: x^k = 2^(1-k) * sum of comb(k, i) T_(k-2i), the term of T_0 halved."""
    row = [0] * COEFFICIENTS
    for i in range(k // 2 + 1):
        twice = comb(k, i) << (34 - k)
        row[k - 2 * i] = twice // (4 if k == 2 * i else 2)
        assert row[k - 2 * i] * (4 if k == 2 * i else 2) == twice, 'not whole'
    return row


ROWS = [binomial_row(k) for k in range(COEFFICIENTS)]


def check_tables():
    """The tables of the library and of plain C have the binomials' numbers."""
    rattle = re.findall(r'\d+', re.search(r'= \[\n(.*?)\];', TABLES[0].read_text(), re.S)[1])
    assert [int(n) for n in rattle] == [n for row in ROWS for n in row], TABLES[0]
    plain = re.findall(r'\{([\d,\s]+)\}', TABLES[1].read_text())
    plain = [[int(n) for n in row.split(',')] for row in plain]
    assert [row + [0] * (COEFFICIENTS - len(row)) for row in plain] == ROWS, TABLES[1]


def sums(s):
    """The weights of T_0 .. T_n in the series, times 2^32, by the binomials."""
    return [sum(p * row[j] for p, row in zip(s.coefficients, ROWS) if p) for j in range(s.degree + 1)]


def cut(n, d):
    """Rounding towards zero."""
    return n // d if n >= 0 else -(-n // d)


def ties_to(choose):
    """The nearest whole number, a tie between q and q + 1 going to choose(q)."""
    def rule(n, d):
        q, rest = divmod(n, d)
        return choose(q) if 2 * rest == d else o.near(n, d)
    return rule


WRONG_TIES = {'ties upwards': ties_to(lambda q: q + 1), 'ties downwards': ties_to(lambda q: q),
              'ties away from zero': ties_to(lambda q: q + (q >= 0)), 'ties to the odd number': ties_to(lambda q: q + 1 - q % 2)}
WRONG_RULES = {'cutting': cut, **WRONG_TIES}


def rounded(degree, exact, rule=o.near):
    """The answer for these sums, by this rule of rounding."""
    row = [rule(c, 1 << 32) for c in exact]
    error = sum(abs(c - (r << 32)) for c, r in zip(exact, row))
    return o.finished(degree, row, o.up(error, 1 << 32), o.STANDARD)


def check_witnesses():
    """What grows past 2^28 by rounding, and what does not; with which rule of ties."""
    assert all(o.from_series(s)[0] == LARGE_RESULT for s in GROWN)
    assert all(rounded(s.degree, sums(s), rule)[0] == LARGE_RESULT for s in GROWN for rule in WRONG_TIES.values())
    for s in (TIED_AT_LIMIT, Series(TIED_AT_LIMIT.degree, tuple(-p for p in TIED_AT_LIMIT.coefficients))):
        number, made = o.from_series(s)
        assert (number, o.weight(made.coefficients), made.radius) == (ACCEPTED, LIMIT, 4)
    grown_by = {name for name, rule in WRONG_TIES.items()
                if rounded(TIED_AT_LIMIT.degree, sums(TIED_AT_LIMIT), rule)[0] == LARGE_RESULT}
    assert grown_by == {'ties upwards', 'ties away from zero'}
    assert all(o.from_series(s)[0] == ACCEPTED for s in NOT_GROWN)
    assert o.weight(o.from_series(NOT_GROWN[2])[1].coefficients) == LIMIT


def check_series():
    """compare.py asks this before every comparison."""
    check_tables()
    check_witnesses()


def entry_shows(judged, k, j, change):
    """Whether some answer is another one with a changed entry of the table."""
    for s, exact, answer in judged:
        moved = exact[:]
        moved[j] += change * s.coefficients[k]
        if rounded(s.degree, moved) != answer:
            return True
    return False


def check_cases():
    """The fixed cases are enough, and they show each wrong rule: they tell the oracle from a converter that cuts, from one that
    sends ties elsewhere and from one with an entry of the table one off; they have ties above and below zero at every degree
    from 2 on."""
    answers = [(s, o.from_series(s)) for (s,) in (c.inputs for c in fixed_from_series())]
    judged = [(s, sums(s), answer) for s, answer in answers if answer[0] != BAD_SERIES]
    assert all(rounded(s.degree, exact) == answer for s, exact, answer in judged)
    accepted = sum(answer[0] == ACCEPTED for _, answer in answers)
    assert accepted >= CONVERTED, accepted
    assert {answer[0] for _, answer in answers} == {ACCEPTED, LARGE_RESULT, BAD_SERIES}
    assert {s.degree for s, _, answer in judged if answer[0] == ACCEPTED} == set(range(COEFFICIENTS))
    ties = {(s.degree, n > 0) for s, exact, _ in judged for n in exact if n % (1 << 32) == 1 << 31}
    assert ties == {(degree, above) for degree in range(2, COEFFICIENTS) for above in (True, False)}
    shown = {name: sum(rounded(s.degree, exact, rule) != answer for s, exact, answer in judged)
             for name, rule in WRONG_RULES.items()}
    assert min(shown.values()) > SHOWN, shown
    for k in range(COEFFICIENTS):
        with_power = [one for one in judged if one[0].coefficients[k]]
        assert all(entry_shows(with_power, k, j, change) for j in range(k + 1) for change in (1, -1)), k
    return accepted, ', '.join(f'{name} shows in {count}' for name, count in shown.items())


FIXED = {'from_series': fixed_from_series}
RANDOM = {'from_series': random_from_series}

if __name__ == '__main__':
    print('series: %d converted among the fixed cases; %s' % check_cases())
