"""Are the conversions sharp?  Puts one wrong rule at a time into the oracle's converter, and demands that some fixed cases of
edition_cases.py show it.

  edition_rules.py [part of a rule's name]
"""

import sys
from contextlib import contextmanager
from random import Random

import compare
import edition_cases
import edition_oracle as e
import oracle as o
from header import ACCEPTED, DEFAULT_KEPT, MAX_DEGREE, SHORT_AREA, SHORT_OUTPUT

SHOWN = 2                   # at least so many cases show each rule
RIGHT = {name: getattr(e, name) for name in ('block_degree', 'stated', 'static_degree', 'written', 'convert_edition')}


def open_by(rule, editions=o.EDITIONS):
    """Another kept degree for 0xFF in these editions."""
    def stated(edition, kept, degrees):
        wrong = kept == DEFAULT_KEPT and edition in editions
        return rule(degrees) if wrong else RIGHT['stated'](edition, kept, degrees)
    return e, 'stated', stated


def degrees_by(bytes_, rule):
    """Another degree for the results of these commands."""
    def static_degree(edition, byte, operands, named):
        right = RIGHT['static_degree'](edition, byte, operands, named)
        return rule(edition, operands, named, right) if byte in bytes_ else right
    return e, 'static_degree', static_degree


def byte_of_w(edition, operands, named, right):
    return e.block_degree(operands[-o.BLOCK_BYTES])


def written_by(rule):
    """Commands of a converted job written otherwise; rule takes what is right, too."""
    return e, 'written', lambda edition, byte, operands, named: rule(
        edition, byte, operands, named, RIGHT['written'](edition, byte, operands, named))


def kept_as_it_is(edition, byte, operands, named, right):
    return bytes([byte, *operands]) if byte == o.MULTIPLY else right


def everywhere(edition, byte, operands, named, right):
    """0xFF replaced wherever it stands."""
    return right.replace(b'\xff', bytes([MAX_DEGREE])) if byte in o.RESULT_BYTES else right


def answer_by(rule):
    """Another answer of the whole call; rule takes what is right, too."""
    return e, 'convert_edition', lambda job, room: rule(job, room, *RIGHT['convert_edition'](job, room))


def short_first(job, room, number, answer, output):
    return (SHORT_OUTPUT, [0, 0], bytes(room)) if room < len(job) else (number, answer, output)


def zero_to_length(job, room, number, answer, output):
    return number, answer, output if number == ACCEPTED else output[:len(job)]


def behind_cleared(job, room, number, answer, output):
    return number, answer, output + bytes(room - len(output)) if number == ACCEPTED else output


def by_the_check(job, room, number, answer, output):
    """Models looked at as the check does."""
    verdict, *told = o.check_job(job)
    return (number, answer, output) if verdict == 'accepted' or number == SHORT_OUTPUT else (told[0], [0, told[1]], bytes(room))


def left_on_short_answer(case, lengths, right=compare.answer_to):
    number, contents = right(case, lengths)
    return number, {what: row for what, row in contents.items() if number != SHORT_AREA or what != 'output'}


def other_of_three(edition):
    return {1: 2, 2: 1, 3: 1}[edition]


RULES = {
    'the sum for the larger': [open_by(sum, (2,))],
    'the sum, at most 32': [open_by(lambda degrees: min(sum(degrees), MAX_DEGREE), (2,))],
    'the smaller': [open_by(min, (2,))],
    'the first factor': [open_by(lambda degrees: degrees[0], (2,))],
    'the second factor': [open_by(lambda degrees: degrees[1], (2,))],
    '32 in edition 2': [open_by(lambda degrees: MAX_DEGREE, (2,))],
    'the larger in edition 1': [open_by(max, (1,))],
    '32, at most the sum, in edition 1': [open_by(lambda degrees: min(MAX_DEGREE, sum(degrees)), (1,))],
    '0xFF kept': [written_by(kept_as_it_is)],
    '0xFF kept from 2 to 1': [written_by(lambda edition, *rest: kept_as_it_is(edition, *rest) if edition == 2 else rest[-1])],
    '0xFF kept where the larger is 32': [written_by(lambda edition, byte, operands, named, right: kept_as_it_is(
        edition, byte, operands, named, right) if max(named, default=0) == MAX_DEGREE and edition == 2 else right)],
    '0xFF replaced everywhere': [written_by(everywhere)],
    'the edition not changed': [(e, 'other', lambda edition: edition)],
    'edition 2 always': [(e, 'other', lambda edition: 2)],
    'edition 3 admitted': [(o, 'EDITIONS', (1, 2, 3)), (e, 'other', other_of_three), open_by(max, (2, 3))],
    'edition 0 admitted': [(o, 'EDITIONS', (0, 1, 2)), (e, 'other', lambda edition: 1 if edition != 1 else 2), open_by(max, (0, 2))],
    'edition 2 refused': [(o, 'EDITIONS', (1,))],
    'degree bytes above 32 as they are': [(e, 'block_degree', lambda byte: byte)],
    'degree bytes above 32 as 0': [(e, 'block_degree', lambda byte: byte if byte <= MAX_DEGREE else 0)],
    'degree bytes above 32 by their low bits': [(e, 'block_degree', lambda byte: min(byte % 64, MAX_DEGREE))],
    'a sum by its first': [degrees_by((o.ADD, o.SUBTRACT), lambda edition, operands, named, right: named[0])],
    'a difference by its second': [degrees_by((o.SUBTRACT,), lambda edition, operands, named, right: named[1])],
    'a product by its sum': [degrees_by((o.MULTIPLY,), lambda edition, operands, named, right: min(sum(named), MAX_DEGREE))],
    'a product by its kept degree': [degrees_by((o.MULTIPLY,), lambda edition, operands, named, right: e.stated(
        edition, operands[2], named))],
    'a quotient by f': [degrees_by((o.QUOTIENT,), lambda edition, operands, named, right: named[0])],
    'a root by f': [degrees_by((o.ROOT,), lambda edition, operands, named, right: named[0])],
    'a tighter root by f': [degrees_by((o.TIGHT_ROOT,), lambda edition, operands, named, right: named[0])],
    'a test by w': [degrees_by(o.TESTS, byte_of_w)],
    'a load on an interval as 32': [degrees_by((o.LOAD_ON,), lambda edition, operands, named, right: MAX_DEGREE)],
    '20 before reading': [answer_by(short_first)],
    '20 never': [answer_by(lambda job, room, number, answer, output: (
        (ACCEPTED, [len(job), 0], e.converted(job)[:room]) if number == SHORT_OUTPUT else (number, answer, output)))],
    '20 for an output just as long': [answer_by(lambda job, room, number, answer, output: (
        (SHORT_OUTPUT, [0, 0], bytes(room)) if number == ACCEPTED and room == len(job) else (number, answer, output)))],
    'the output zero only up to the length': [answer_by(zero_to_length)],
    'the output left after a refusal': [answer_by(lambda job, room, number, answer, output: (
        number, answer, output if number == ACCEPTED else b''))],
    'the output left after 20': [answer_by(lambda job, room, number, answer, output: (
        number, answer, b'' if number == SHORT_OUTPUT else output))],
    'bytes behind cleared': [answer_by(behind_cleared)],
    'models checked': [answer_by(by_the_check)],
    "the output's length answered": [answer_by(lambda job, room, number, answer, output: (
        number, [room, 0] if number == ACCEPTED else answer, output))],
    'a refusal without its command': [answer_by(lambda job, room, number, answer, output: (
        number, answer if number == ACCEPTED else [0, 0], output))],
    'the output left after a short answer': [(compare, 'answer_to', left_on_short_answer)],
}


@contextmanager
def replaced(changes):
    kept = [(module, what, getattr(module, what)) for module, what, _ in changes]
    for module, what, rule in changes:
        setattr(module, what, rule)
    try:
        yield
    finally:
        for module, what, rule in kept:
            setattr(module, what, rule)


def answered(call):
    """What the call leaves; or that a wrong rule could not be followed, which no right one is."""
    try:
        return compare.expected_bytes(*call)[1]
    except (OverflowError, ValueError, KeyError):
        return None


def main(part=''):
    rng = Random(1)
    calls = [(case, compare.lent_areas(case, rng, True)) for case in compare.make_cases(['convert_edition'], 0, rng)]
    right = list(map(answered, calls))
    assert None not in right, 'the oracle fails'
    shown = {}
    for name, changes in RULES.items():
        if part in name:
            with replaced(changes):
                shown[name] = sum(answered(call) != one for call, one in zip(calls, right))
    few = [name for name, count in shown.items() if count < SHOWN]
    assert not few, f'too few fixed cases that show: {few}'
    print(f'editions, {len(shown)} wrong converters in {len(calls)} calls: '
          + ', '.join(f'{name} shows in {count}' for name, count in shown.items()))


if __name__ == '__main__':
    main(*sys.argv[1:])
