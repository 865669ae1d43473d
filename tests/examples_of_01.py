"""The examples P1 to P11 and the other stated numbers of document 01, on -S..S, the ties of document 02 (S-11), roots by both tests
(S-22) and models on other intervals (S-24), asserted against the oracle.  compare.py runs them before every comparison."""

import oracle as o
import power_basis
from oracle import S, Model, constant, model, power, term


def check_tables():
    """The two conversions of the power basis undo each other for every T_k."""
    for k in range(power_basis.TOP + 1):
        unit = [0] * k + [1]
        assert o.chebyshev_form(power_basis.power_form(unit)) == [0] * k + [1 << o.SCALE]


def check_ties():
    """Document 02, S-11: half an odd number goes to the even one, on both sides of zero."""
    for odd, even in ((1, 0), (3, 2), (5, 2), (7, 4)):
        for n, whole in ((odd, even), (-odd, -even)):
            assert o.near(n, 2) == whole
            assert o.multiply(constant(n), constant(S // 2), 32) == (0, constant(whole, 1))
            assert o.integrate(term(1, 2 * n)) == (0, model([-whole, 0, whole], 2))
            assert o.from_series(power(2, n)) == (0, model([whole, 0, whole], 1))


# f, its radius, h, w, all constant; the number and radius by 0x21, and by 0x22; m, N and b where 0x21 accepts.
TIGHT_ROOTS = [
    ((4 * S, 0, -2 * S, -S // 4), (7, 0), (7, 0), None),
    ((4 * S, 0, 2 * S, S // 4), (0, 0), (0, 0), (0, 0, 0)),
    ((2 * S, 0, 2 * S, S // 4), (0, S), (0, S), (0, 2 * S, S // 2)),                        # P8: both at their border
    ((2 * S - 1, 0, 2 * S, S // 4), (8, 0), (17, 0), None),                                 # P9
    ((3 * S, 0, 2 * S, S // 4), (0, S // 2), (0, 307121), (0, S, S // 4)),                  # docs/FORMAT.md
    # The witnesses of docs/DECISIONS.md, "Tighter roots".
    ((6366, 3182, 81708, 716408), (0, 40854), (0, 40854), (936927, 3183, 2175)),            # r = v + 1
    ((15783, 0, 133844, 5908123), (0, 26129), (0, 26129), (459693, 1302, 7337)),            # r = v + 1
    ((13 * S // 4, 0, 5 * S // 2, 1), (0, 1258292), (0, S), (S - 5, 3 * S, 3)),             # b = 3, r = S exactly
    ((13 * S // 4 - 1, 0, 5 * S // 2, 1), (8, 0), (17, 0), None),                           # b = 4
    ((4, 1 << 16, 2048, 1 << 28), (8, 0), (17, 0), None),                                   # b·S² is a multiple of 2^64
    ((224 * S, 0, 16 * S, S // 32), (0, 2 * S), (17, 0), (0, 32 * S, S)),                   # the least r is above S
    ((116509, 0, 349526, 18), (0, 174763), (17, 0), (S - 12, 1, 1)),                        # none is whole
]


def root_inputs():
    """f, h and w of these roots."""
    return [(constant(f, radius), constant(h), constant(w)) for (f, radius, h, w), *_ in TIGHT_ROOTS]


def check_tight_roots():
    """Document 02, S-22: the tighter root test beside the root test, on the same candidates."""
    for (f, h, w), (_, by_21, by_22, numbers) in zip(root_inputs(), TIGHT_ROOTS):
        for test, (number, r) in ((o.root, by_21), (o.tight_root, by_22)):
            wanted = (number, o.ZERO_MODEL, 0, 0, 0) if number else (0, h._replace(radius=r), *numbers)
            assert test(f, h, w) == wanted, (test.__name__, f, h, w)


def placed(lower, upper, *arguments):
    """model(), on another interval."""
    return model(*arguments)._replace(lower=lower, upper=upper)


def check_intervals():
    """Document 02, S-24: numbers worked out by hand."""
    limit, widest = 1 << 28, (-1 << 28, 1 << 28)
    zero = Model(0, (0,) * 33, 0, 0, 0)
    assert o.ZERO_MODEL == zero
    # Integrals: of 1 from 0 to x, of 1 and T_1 on extents of 3 and 4 units of length, and the radius rounded up.
    assert o.integrate(placed(0, S, [S])) == (0, placed(0, S, [S // 2, S // 2], 1))
    assert o.integrate(placed(S, 4 * S, [S])) == (0, placed(S, 4 * S, [3 * S // 2, 3 * S // 2], 1))
    assert o.integrate(placed(-S, 3 * S, [0, S])) == (0, placed(-S, 3 * S, [-S // 2, 0, S // 2], 2))
    for e, radius in ((0, 1), (1, 2), (S, 2), (S + 1, 3)):
        assert o.integrate(placed(0, 1, [0], e)) == (0, placed(0, 1, [0, 0], radius))
    assert o.integrate(placed(*widest, [S // 2], 3)) == (0, placed(*widest, [limit // 2, limit // 2], 3 * 512 + 1))
    for value in (S // 2 + 1, 1 << 24, 1 << 28, -1 << 28):      # c_1 is 2^27 + 256, 2^32, 2^36, -2^36
        assert o.integrate(placed(*widest, [value])) == (3, zero)
    # Points: the middle, a third, a tie that goes to 0 and one that goes to 2.
    assert o.evaluate(placed(0, S, [0, S]), S // 2) == (0, 0, 0)
    assert o.evaluate(placed(0, 3, [0, S]), 1) == (0, -349526, -349524)
    assert o.evaluate(placed(0, 3, [0, -S]), 2) == (0, -349526, -349524)
    for p, mapped in ((1, 0), (3, 2), (-1, 0), (-3, -2), (2, 1)):
        half = p % 2                                # an inexact point costs half a unit, rounded outwards
        assert o.evaluate(placed(0, 4 * S, [0, S]), 2 * S + p) == (0, mapped - half, mapped + half)
    for lower, upper in ((0, 1), widest, (-7, S)):
        curve = placed(lower, upper, [0, S])
        assert o.evaluate(curve, lower) == (0, -S, -S) and o.evaluate(curve, upper) == (0, S, S)
        assert o.evaluate(curve, lower - 1) == o.evaluate(curve, upper + 1) == (4, 0, 0)
    # 18: ends that are wrong; straight after 2 of the same model, before the next model's; the zero model fed on.
    one, other = constant(S), placed(0, 2 * S, [S])
    for lower, upper in ((0, 0), (1, 0), (-limit - 1, 0), (0, limit + 1)):
        wrong, worse = placed(lower, upper, [S]), placed(lower, upper, [S], 0, 33)
        assert o.add(wrong, one) == o.add(one, wrong) == o.add(wrong, constant(limit + 1)) == (18, zero)
        assert o.add(worse, one) == o.add(one, worse) == o.add(constant(limit + 1), wrong) == (2, zero)
    for ends in ((-limit, 1 - limit), (limit - 1, limit), widest):
        assert o.add(placed(*ends, [S]), placed(*ends, [S])) == (0, placed(*ends, [2 * S]))
    assert o.integrate(o.add(constant(limit), one)[1]) == (18, zero)
    # 19: after every 2 and 18, before all else.
    assert o.add(one, other) == o.multiply(one, other, 33) == o.multiply(constant(limit), other, 0) == (19, zero)
    bad = constant(limit + 1)
    for h, w, number in ((one, one, 19), (bad, one, 2), (one, bad, 2), (one, constant(0), 19), (constant(limit), one, 19)):
        assert o.quotient(one, other, h, w) == (number, zero, 0, 0, 0)
    # A candidate has its operand's interval.
    third = constant(349525)
    assert o.quotient(placed(0, 1, [S]), placed(0, 1, [3 * S]), third, third) == (0, placed(0, 1, [349525], 2), 1, 1, 1)
    assert o.root(placed(0, 1, [4 * S]), constant(2 * S), constant(S // 4))[:2] == (0, placed(0, 1, [2 * S]))
    assert o.from_series(power(1, 5)) == (0, placed(-S, S, [0, 5]))


def block(value):
    """A constant, by hand."""
    return bytes([0]) + value.to_bytes(4, 'little', signed=True) + bytes(128)


def loaded_on(value, lower, upper):
    """A load by 0x14 of a constant with radius 3, by hand."""
    return b'\x14' + block(value) + b'\x03\0\0\0' + b''.join(end.to_bytes(4, 'little', signed=True) for end in (lower, upper))


def interval_jobs():
    """Jobs with 0x14, by hand, with what the program prints for them."""
    start, four, root = b'\x01\x01', loaded_on(4 * S, 0, 2 * S), b'\x21\x00' + block(2 * S) + block(S // 4)
    quotient = b'\x20\x00\x00' + block(S) + block(S // 4)
    yield start + four + b'\x00', '0 0 3\naccepted 1\n'
    yield start + four + loaded_on(-1, -5, 5) + b'\x11\x00\x00\x00', '0 0 3\n1 0 3\n2 0 6\naccepted 3\n'
    yield start + four + root + b'\x22' + root[1:] + b'\x00', '0 0 3\n1 0 2\n2 0 2\naccepted 3\n'         # N = 3, b = 1
    # m = 1, N = 6, b = 2
    yield start + four + quotient * 31 + b'\x00', ''.join(f'{i} 0 3\n' for i in range(32)) + 'accepted 32\n'
    yield start + loaded_on(S, -S, S) + b'\x10' + block(S) + bytes(4) + b'\x12\x00\x01\x00', '0 0 3\n1 0 0\n2 0 3\naccepted 3\n'
    for ends in ((0, 0), (1, 0), (-(1 << 28) - 1, 0), (0, (1 << 28) + 1), (-1 << 31, (1 << 31) - 1)):
        yield start + four + loaded_on(S, *ends) + b'\x00', 'refused 18 2\n'
        yield start + loaded_on((1 << 28) + 1, *ends) + b'\x00', 'refused 2 1\n'
    for other in (loaded_on(S, 0, 2 * S + 1), loaded_on(S, 1, 2 * S), loaded_on(S, -S, S), b'\x10' + block(S) + bytes(4)):
        for command in (b'\x11\x00\x01', b'\x12\x01\x00', b'\x13\x00\x01\x20', quotient[:2] + b'\x01' + quotient[3:]):
            yield start + four + other + command + b'\x00', 'refused 19 3\n'
    yield start + four[:-1], 'refused 10 1\n'
    yield start + four, 'refused 10 2\n'
    yield start + four[:137] + b'\x00', 'refused 10 1\n'                 # as wide as 0x10
    yield start + four + b'\x00\x00', 'refused 11 2\n'
    yield start + four * 33 + b'\x00', 'refused 13 33\n'
    yield start + b'\x15' + four[1:] + b'\x00', 'refused 9 1\n'


def edition_jobs():
    """Jobs with the multiply byte 0xFF in both editions, by hand, with what the program prints for them: T_1 times T_2 is
    T_1/2 + T_3/2, of which the larger degree keeps T_1/2."""
    t1, t2 = (bytes([0x10, k]) + bytes(4 * k) + S.to_bytes(4, 'little') + bytes(4 * (33 - k)) for k in (1, 2))
    for product in (b'\x13\x00\x01', b'\x13\x01\x00'):
        yield b'\x01\x01' + t1 + t2 + product + b'\xff\x00', '0 1 0\n1 2 0\n2 3 0\naccepted 3\n'
        yield b'\x01\x02' + t1 + t2 + product + b'\xff\x00', '0 1 0\n1 2 0\n2 2 524288\naccepted 3\n'
        for edition in (b'\x01\x01', b'\x01\x02'):
            yield edition + t1 + t2 + product + b'\x02\x00', '0 1 0\n1 2 0\n2 2 524288\naccepted 3\n'
            yield edition + t1 + t2 + product + b'\x20\x00', '0 1 0\n1 2 0\n2 3 0\naccepted 3\n'
            yield edition + t1 + t2 + product + b'\xfe\x00', 'refused 9 3\n'
            yield edition + b'\x00', 'accepted 0\n'
            yield edition + edition + b'\x00', 'refused 9 1\n'
    yield from ((bytes([1, edition, 0]), 'refused 9 0\n') for edition in (0, 3, 4, 255))


def root_job(command, f, radius, h, w, subtracted=0):
    """Edition 1, load of a constant, so many times the load less itself, its root by a command byte, end; by hand."""
    return (b'\x01\x01' + b'\x10' + block(f) + radius.to_bytes(4, 'little') + b'\x12\x00\x00' * subtracted
            + bytes([command, 0]) + block(h) + block(w) + b'\x00')


def root_text(number, r, radius, subtracted=0):
    """What the program prints for such a job; the command of the root is 2 and more."""
    if number:
        return f'refused {number} {2 + subtracted}\n'
    radii = [radius] + [2 * radius] * subtracted + [r]
    return ''.join(f'{i} 0 {e}\n' for i, e in enumerate(radii)) + f'accepted {len(radii)}\n'


def root_jobs():
    """The jobs of these roots by both commands, with what the program prints for them."""
    for (f, radius, h, w), by_21, by_22, _ in TIGHT_ROOTS:
        for command, outcome in ((0x21, by_21), (0x22, by_22)):
            for subtracted in (0, 1, 5):
                yield (root_job(command, f, radius, h, w, subtracted), root_text(*outcome, radius, subtracted))


def check_examples():
    check_tables()
    check_ties()
    check_tight_roots()
    check_intervals()
    t1, t2 = model([0, S]), model([0, 0, S])
    assert o.multiply(t1, t1, 2) == (0, model([524288, 0, 524288]))            # P1
    assert o.multiply(t1, t1, 1) == (0, model([524288, 0], 524288))            # P2
    half = constant(524288)
    assert o.multiply(constant(1), half, 32) == (0, constant(0, 1))            # P3, as S-11 has it
    assert o.multiply(constant(-1), half, 32) == (0, constant(0, 1))           # P4
    assert o.integrate(constant(S)) == (0, model([S, S], 1))                   # P5
    assert o.evaluate(t2, 524288) == (0, -524289, -524287)                     # P6
    third = constant(349525)
    assert o.quotient(constant(S), constant(3 * S), third, third) == (
        0, constant(349525, 2), 1, 1, 1)                                       # P7
    h, w = constant(2 * S), constant(S // 4)
    number, result = o.root(constant(2097152), h, w)[:2]
    assert (number, result) == (0, constant(2 * S, S))                         # P8
    refused_8 = (8, o.ZERO_MODEL, 0, 0, 0)
    assert o.root(constant(2097151), h, w) == refused_8                    # P9
    assert o.root(constant(S), h, w) == refused_8                          # P10
    assert o.check_job(b'') == ('refused', 10, 0)                              # P11

    # The other borders that document 01 states.
    assert o.integrate(term(31, 64)) == (0, model([0] * 30 + [-1, 0, 1], 32))
    assert o.integrate(model([0] * 32 + [32])) == (3, o.ZERO_MODEL)
    assert o.add(constant(1 << 28), constant(0))[0] == 0
    assert o.add(constant((1 << 28) + 1), constant(0))[0] == 2
    for sign in (1, -1):
        assert o.evaluate(t1, sign * S)[0] == 0
        assert o.evaluate(t1, sign * (S + 1)) == (4, 0, 0)

    # The first slip: the negative pair for the root of 4S.
    assert o.root(constant(4 * S), constant(-2 * S), constant(-S // 4))[0] == 7
    # 8 b M past 64 bits, signed and unsigned.
    for radius in (0, 4):
        assert o.root(constant(1 << 28, radius), constant(1 << 11),
                      constant(1 << 28))[0] == 8
    # f longer than C(g, h).
    one = constant(S)
    number, result, m, n, b = o.quotient(model([S, 0, 0, 0, 0, S]), one, one, one)
    assert (number, m, n, b, result.radius) == (0, 0, S, S, S)
    # Jobs of roots, on intervals and of both editions, and their texts.
    for job, text in (*root_jobs(), *interval_jobs(), *edition_jobs()):
        assert o.printed(job) == text, text
    # The example job and its text.
    job = example_job()
    assert o.check_job(job) == ('accepted', 2, [constant(4 * S), constant(2 * S)])
    assert o.printed(job) == '0 0 0\n1 0 0\naccepted 2\n'
    assert o.printed(b'') == 'refused 10 0\n'
    assert o.printed(bytes(65537)) == 'too long\n'


def example_job():
    """Edition 1, load of 4S, root with h = 2S and w = S/4, end."""
    return root_job(0x21, 4 * S, 0, 2 * S, S // 4)
