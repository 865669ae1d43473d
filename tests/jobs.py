"""Writing jobs: bytes of single commands, and a builder that keeps the models
of the results so far, so that fitting candidates can be found for the next."""

import oracle as o
from candidates import quotient_candidates, root_candidates
from cases import on, random_degree, random_interval, random_model, signed, spread, tied_factors
from header import COEFFICIENTS, DEFAULT_KEPT, MAX_DEGREE, MAX_RESULTS, S
from oracle import LIMIT, model


def block(m):
    """A degree byte and 33 signed 32-bit coefficients."""
    return bytes([m.degree & 255]) + b''.join(
        c.to_bytes(4, 'little', signed=True) for c in m.coefficients)


EDITION_1, EDITION_2 = EDITIONS = [bytes([o.EDITION, edition]) for edition in o.EDITIONS]
END = bytes([o.END])


def number(n):
    return (n & 0xFFFFFFFF).to_bytes(4, 'little')


def load(m):
    """On the standard interval, whatever the model's ends are."""
    return bytes([o.LOAD]) + block(m) + number(m.radius)


def load_on(m):
    return bytes([o.LOAD_ON]) + block(m) + b''.join(map(number, (m.radius, m.lower, m.upper)))


def any_load(m):
    """The shorter of the two loads, where the model's ends allow it."""
    return load(m) if o.interval(m) == o.STANDARD else load_on(m)


def add(i, j):
    return bytes([o.ADD, i, j])


def subtract(i, j):
    return bytes([o.SUBTRACT, i, j])


def multiply(i, j, kept):
    return bytes([o.MULTIPLY, i, j, kept])


def quotient(i, j, h, w):
    return bytes([o.QUOTIENT, i, j]) + block(h) + block(w)


def root(i, h, w):
    return bytes([o.ROOT, i]) + block(h) + block(w)


def tight_root(i, h, w):
    return bytes([o.TIGHT_ROOT, i]) + block(h) + block(w)


def read_commands(job):
    """Byte and operands of each command; the last may be unknown or cut off."""
    position = 0
    while position < len(job):
        width = o.OPERAND_WIDTH.get(job[position], 0)
        yield job[position], job[position + 1:position + 1 + width]
        if job[position] not in o.OPERAND_WIDTH:
            return
        position += 1 + width


class Builder:
    """A job so far: its commands as separate bytes, the results' models, and the intervals that grow() draws from."""

    def __init__(self, intervals=(o.STANDARD,), edition=1):
        self.edition = edition
        self.commands = [bytes([o.EDITION, edition])]
        self.results = []
        self.intervals = intervals

    def _keep(self, command, number, result):
        """Keeps a command only if it is not refused; says whether it was kept."""
        if number or len(self.results) == MAX_RESULTS:
            return False
        self.commands.append(command)
        self.results.append(result)
        return True

    def load(self, m, command=any_load):
        return self._keep(command(m), o.fault(m), m)

    def beside(self, i):
        """The results on the interval of result i."""
        return [j for j, m in enumerate(self.results) if o.same_interval(m, self.results[i])]

    def add(self, i, j):
        return self._keep(add(i, j), *o.add(self.results[i], self.results[j]))

    def subtract(self, i, j):
        return self._keep(subtract(i, j), *o.subtract(self.results[i], self.results[j]))

    def multiply(self, i, j, kept=MAX_DEGREE):
        return self._keep(multiply(i, j, kept),
                          *o.multiply(self.results[i], self.results[j], o.kept_by(self.edition, kept)))

    def quotient(self, i, j, degree=MAX_DEGREE, found=None):
        f, g = self.results[i], self.results[j]
        found = found or quotient_candidates(f, g, degree)
        if found is None:
            return False
        return self._keep(quotient(i, j, *found), *o.quotient(f, g, *found)[:2])

    def _root(self, command, test, i, degree, found):
        f = self.results[i]
        found = found or root_candidates(f, degree)
        if found is None:
            return False
        return self._keep(command(i, *found), *test(f, *found)[:2])

    def root(self, i, degree=MAX_DEGREE, found=None):
        return self._root(root, o.root, i, degree, found)

    def tight_root(self, i, degree=MAX_DEGREE, found=None):
        return self._root(tight_root, o.tight_root, i, degree, found)

    def job(self):
        return b''.join(self.commands) + END

    def prefix(self):
        """All commands so far, without an end."""
        return b''.join(self.commands)


def curve_model(rng):
    """A curve away from zero, as stretches have, with a small radius."""
    degree = random_degree(rng)
    base = int(S * 2 ** rng.uniform(-2, 4))
    row = spread(rng, degree, int(base * rng.choice((0.1, 0.5, 1.5))))
    row[0] += signed(rng, base) if rng.random() < 0.3 else base
    return model(row, rng.choice((0, 0, 1, rng.randint(0, 200))))


def grow(rng, builder, wanted):
    """Adds commands, a random mix, until the builder has the wanted results."""
    while len(builder.results) < wanted:
        count = len(builder.results)
        kind = rng.random()
        if count == 0 or kind < 0.25:
            m = curve_model(rng) if rng.random() < 0.9 else random_model(rng)
            builder.load(on(m, *rng.choice(builder.intervals)), rng.choice((any_load, any_load, load_on)))
            continue
        i = rng.randrange(count)
        j = rng.choice(builder.beside(i))
        if kind < 0.38:
            builder.add(i, j)
        elif kind < 0.5:
            builder.subtract(i, j)
        elif kind < 0.68:
            builder.multiply(i, j, rng.choice((DEFAULT_KEPT, MAX_DEGREE, rng.randint(0, MAX_DEGREE))))
        elif kind < 0.8:
            builder.quotient(i, j, rng.choice((MAX_DEGREE, 24, random_degree(rng))))
        else:
            one = rng.choice((builder.root, builder.tight_root, builder.tight_root))
            one(i, rng.choice((MAX_DEGREE, 24, random_degree(rng))))


def drawn_builder(rng):
    """An empty job of either edition, on the standard interval, on another, or on some."""
    return Builder(rng.choice(((o.STANDARD,), (random_interval(rng),), (o.STANDARD, random_interval(rng)),
                               [random_interval(rng) for _ in range(3)])), rng.choice(o.EDITIONS))


def random_builder(rng, wanted=None):
    builder = drawn_builder(rng)
    if wanted is None:
        wanted = rng.choice((0, 1, 2, 3, 4, 5, 6, 8, 10, 14))
    grow(rng, builder, wanted)
    return builder


def tied_builder(rng):
    """Products with ties, sums and products of these, and a few other commands."""
    builder = drawn_builder(rng)
    for m in tied_factors(rng):
        builder.load(on(m._replace(radius=rng.choice((0, 0, 1, 20))), *builder.intervals[0]))
    builder.multiply(0, 1, rng.choice((DEFAULT_KEPT, rng.randint(0, MAX_DEGREE))))
    for _ in range(rng.randint(0, 3)):
        i, j = rng.randrange(len(builder.results)), rng.randrange(2)
        rng.choice((builder.add, builder.subtract, builder.multiply, builder.multiply))(i, j)
    grow(rng, builder, len(builder.results) + rng.choice((0, 0, 1, 4)))
    return builder


def full_builder(rng):
    """A cheap job with 32 results, so that the next one is the 33rd."""
    builder = Builder()
    builder.load(model([S, S // 3], 1))
    builder.load(model([signed(rng, S // 5)] * COEFFICIENTS))
    while len(builder.results) < MAX_RESULTS:
        i = len(builder.results) - 1
        if o.weight(builder.results[i].coefficients) > LIMIT // 4 or not builder.subtract(i, 1):
            builder.subtract(0, 1)
    return builder
