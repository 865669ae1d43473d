"""Wrong answers that compare.py plants among those of the library, each of which it must find.  Each function alters answers and
gives the places of the altered ones in the batch, none if the batch has no answer that fits."""

from array import array

from area_cases import ANSWERS, AREAS, sized
from header import (MODEL_SIZE, PLACE_LOWER, PLACE_RADIUS, PLACE_UPPER, SCRATCH_SIZE, SERVICE_B, SERVICE_M, SERVICE_N, SERVICE_RADIUS,
                    SHORT_AREA)

# Which numbers of an area are spoiled, each in an answer of its own: the radius and the ends, of the first result in a job, the
# high bound, m; of a proposal the first value or coefficient, the change and the outcome; of a converted job its first two bytes; of
# a room the fields of the service's first record, at which the workshop has fields of its first three, and the last byte.
MODEL_PLACES = PLACE_RADIUS, PLACE_LOWER, PLACE_UPPER
SPOILED = {'out': MODEL_PLACES, 'work': MODEL_PLACES, 'bounds': (1,), 'answer': (0, 1), 'numbers': (0,),
           'record': (0, -1), 'h': (1,), 'w': (1,), 'units': (1,), 'outcome': (0,), 'output': (0, 1),
           'room': (0, 1, SERVICE_M, SERVICE_N, SERVICE_B, SERVICE_RADIUS, -1)}


# The entries that answer models.
WITH_MODELS = [entry for entry, areas in AREAS.items() if any(what in ('out', 'work') for _, _, what in areas)]


def places_of(case, areas, wanted):
    """Where each area of these kinds starts in the case's answer, and its number."""
    start = 4
    for i, ((_, _, content), (_, _, what)) in enumerate(zip(areas, AREAS[case.entry])):
        if what in wanted:
            yield start, i
        start += len(content) * content.itemsize


def spoil(answers, i, start, bits):
    spoiled = bytearray(answers[i])
    spoiled[start] ^= bits
    answers[i] = bytes(spoiled)


def plant(batch, answers, entry):
    """Changes the last bit of one number in each area that the entry answers in, each in another of its accepted answers."""
    fits = [i for i, (case, _, number, _) in enumerate(batch) if case.entry == entry and number == 0]
    wanted = [(area, place) for area, (_, _, what) in enumerate(AREAS[entry]) for place in SPOILED.get(what, ())]
    if len(fits) < len(wanted):
        return set()
    chosen = [fits[(k + 1) * len(fits) // (len(wanted) + 1)] for k in range(len(wanted))]
    for i, (area, place) in zip(chosen, wanted):
        case, areas, _, _ = batch[i]
        code, size, _ = AREAS[entry][area]
        start, = (start for start, number in places_of(case, areas, SPOILED) if number == area)
        spoil(answers, i, start + array(code).itemsize * (place % size if size else place), 1)
    return set(chosen)


def exchange(batch, answers):
    """Exchanges which proposal is chosen in the middle one of the accepted answers of two."""
    fits = [i for i, (case, _, number, _) in enumerate(batch) if case.entry == 'quotient_of_two' and number == 0]
    if not fits:
        return set()
    i = fits[len(fits) // 2]
    start, _ = next(places_of(*batch[i][:2], ('answer',)))
    spoil(answers, i, start, 3)
    return {i}


def clear(batch, answers, entry, count):
    """Puts one of the entry's scratches as if count of its numbers had been cleared."""
    for i, (case, areas, _, expected) in enumerate(batch):
        if case.entry != entry:
            continue
        start, area = next(places_of(case, areas, ('scratch',)))
        _, length, content = areas[area]
        end = start + len(content) * content.itemsize
        zeros = bytes(content.itemsize * SCRATCH_SIZE)
        if length >= max(count, SCRATCH_SIZE) and expected[start:].startswith(zeros):
            spoiled = bytes(content.itemsize * count) + content[count:].tobytes()
            answers[i] = answers[i][:start] + spoiled + answers[i][end:]
            return {i}
    return set()


def leave(batch, answers, entry):
    """Puts back what stood in each area that the entry answers in, before refusals with 1 cleared it."""
    chosen = {}
    for i, (case, areas, number, expected) in enumerate(batch):
        if case.entry == entry and number == SHORT_AREA:
            for start, area in places_of(case, areas, ANSWERS):
                before = areas[area][2].tobytes()
                taken = area in chosen or any(i == one for one, _, _ in chosen.values())
                if not taken and not expected.startswith(before, start):
                    chosen[area] = i, start, before
    # An area that is itself the only one that can be too short is never cleared by 1.
    if set(chosen) != {area for area, (_, _, what) in enumerate(AREAS[entry])
                       if what in ANSWERS and any(i != area for i, _ in sized(entry))}:
        return set()
    for i, start, before in chosen.values():
        answers[i] = answers[i][:start] + before + answers[i][start + len(before):]
    return {i for i, _, _ in chosen.values()}


def former(batch, answers, entry):
    """Puts one accepted answer as if a model still had 35 numbers: the ends left as they were, a job's results closer together."""
    for i, (case, areas, number, expected) in enumerate(batch):
        if case.entry != entry or number:
            continue
        start, area = next(places_of(case, areas, ('out', 'work')))
        _, size, what = AREAS[entry][area]
        content, width = areas[area][2], areas[area][2].itemsize
        answered = array(content.typecode, expected[start:start + width * size])
        rows = [answered[place:place + PLACE_LOWER] for place in range(0, size, MODEL_SIZE)]
        written = sum(rows, array(content.typecode))
        spoiled = (written + content[len(written):size]).tobytes()
        if spoiled != answered.tobytes() and (what == 'out' or any(rows[1])):
            answers[i] = answers[i][:start] + spoiled + answers[i][start + len(spoiled):]
            return {i}
    return set()
