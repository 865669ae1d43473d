"""Slips of intervals, for slips.py: wrong versions of plain/plain.c, plain/models.h and plain/reading.h.

Left out, since no answer differs: u - l, 2p - l - u and each product of an end in 32 bits (none leaves them), 19 after 9 in a job
(there 9 stands among the operand values, before any model), and whether the ends of a result are those of f or of g.
"""

from pathlib import Path

PLAIN_C = (Path(__file__).resolve().parent.parent / 'plain' / 'plain.c').read_text()
TWO = ('add', 'subtract', 'multiply', 'quotient', 'quotient_of_two', 'make_quotient', 'check')     # have two operands
ONE = ('integrate', 'evaluate', 'root', 'tight_root', 'make_reciprocal')
TESTED = ('quotient', 'quotient_of_two', 'check')       # by judge_quotient

# ---- 18: what is wrong, old text, new text; each must show in every entry

LARGE = '    if (!good_candidate(a) || a[RADIUS] < 0 || a[RADIUS] > LIMIT)\n        return BAD_MODEL;\n'
ENDS = '    if (a[LOWER] >= a[UPPER] || a[LOWER] < -LIMIT || a[UPPER] > LIMIT)\n        return BAD_ENDS;\n'
OF_ENDS = [
    ('18 before 2', LARGE + ENDS, ENDS + LARGE),
    ('18 left out', ENDS, ''),
    ('2 for 18', ENDS, ENDS.replace('BAD_ENDS', 'BAD_MODEL')),
    ('l = u accepted', ENDS, ENDS.replace('>= a', '> a')),
    ('l > u accepted', ENDS, ENDS.replace('>= a', '== a')),
    ('l = -2^28 - 1 accepted', ENDS, ENDS.replace('< -LIMIT', '< -LIMIT - 1')),
    ('l = -2^28 refused', ENDS, ENDS.replace('< -LIMIT', '<= -LIMIT')),
    ('u = 2^28 + 1 accepted', ENDS, ENDS.replace('> LIMIT', '> LIMIT + 1')),
    ('u = 2^28 refused', ENDS, ENDS.replace('> LIMIT', '>= LIMIT')),
    ('ends compared as unsigned', ENDS, ENDS.replace('a[LOWER] >=', '(uint32_t)a[LOWER] >=').replace('>= a', '>= (uint32_t)a')),
    ('the extent limited in place of the ends', ENDS,
     ENDS.replace('a[LOWER] < -LIMIT || a[UPPER] > LIMIT', '(int64_t)a[UPPER] - a[LOWER] > 2 * LIMIT')),
]

# ---- 18 and 19 of two operands

BOTH = '    uint32_t number = model_fault(a);\n    return number != 0 ? number : model_fault(b);\n'
SAME = 'return a[LOWER] == b[LOWER] && a[UPPER] == b[UPPER];'
OPERANDS = '    uint32_t number = models_fault(a, b);\n    return number == 0 && !same_interval'
OF_TWO = [
    ('2 of both before 18 of one', BOTH, '    uint32_t number = model_fault(a), other = model_fault(b);\n'
     '    return number == BAD_MODEL || other == 0 ? number : number == 0 || other == BAD_MODEL ? other : number;\n'),
    ('the second model first', BOTH, BOTH.replace('(a)', '(?)').replace('(b)', '(a)').replace('(?)', '(b)')),
    ('19 left out', SAME, 'return a != NULL && b != NULL;'),
    ('18 for 19', 'DIFFERENT_INTERVALS = 19', 'DIFFERENT_INTERVALS = 18'),
    ('equal extents accepted', SAME, 'return (int64_t)a[UPPER] - a[LOWER] == (int64_t)b[UPPER] - b[LOWER];'),
    ('equal middles accepted', SAME, 'return a[UPPER] + a[LOWER] == b[UPPER] + b[LOWER];'),
    ('upper ends not compared', SAME, 'return a[LOWER] == b[LOWER];'),
    ('lower ends not compared', SAME, 'return a[UPPER] == b[UPPER];'),
]
# add, subtract, multiply and the maker of quotients, which have no h and w.
OF_OPERANDS = [
    ('19 before the models', OPERANDS, OPERANDS.replace('    uint32_t', '    if (!same_interval(a, b))\n'
                                                        '        return DIFFERENT_INTERVALS;\n    uint32_t')),
]
KEPT = '    if (kept > MAX_DEGREE)\n        return BAD_VALUE;\n'
LIST = '    int64_t c[PRODUCT_SIZE], row[COEFFICIENTS], error = 0;\n'
TESTS_KEPT = ('    uint32_t number = operands_fault(a, b);\n    if (number != 0)\n        return number;\n'
              f'    if (kept == DEFAULT_KEPT)\n        kept = (uint32_t)(a[0] > b[0] ? a[0] : b[0]);\n{KEPT}')
# The quotient test: h and w, 19, 5, 6, 3.
CANDIDATES = '    if (!good_candidate(h) || !good_candidate(w))\n        return BAD_MODEL;\n'
H, W = (f'    if (!good_candidate({c}))\n        return BAD_MODEL;\n' for c in 'hw')
DIFFERENT = '    if (!same_interval(f, g))\n        return DIFFERENT_INTERVALS;\n'


def judged_later(behind):
    """The quotient test's text from 19 to another refusal, and the same with 19 behind that."""
    start = PLAIN_C.index(DIFFERENT)
    end = PLAIN_C.index(behind, start) + len(behind)
    return PLAIN_C[start:end], PLAIN_C[start + len(DIFFERENT):end] + DIFFERENT


OF_JUDGED = [
    ('19 before 2 of h', CANDIDATES + DIFFERENT, DIFFERENT + CANDIDATES),
    ('19 before 2 of w', CANDIDATES + DIFFERENT, H + DIFFERENT + W),
    ('19 after 5', *judged_later('        return NOT_CONTRACTING;\n')),
    ('19 after 6', *judged_later('        return LARGE_RESIDUAL;\n')),
    ('19 after 3', *judged_later('        return LARGE_RESULT;\n')),
]

# ---- The ends of a result

FINISHED = '    out[LOWER] = lower;\n    out[UPPER] = upper;\n'
ACCEPTED = '    out[LOWER] = f[LOWER];\n    out[UPPER] = f[UPPER];\n'


def wrong_ends(what, text, lower, upper):
    return [(f'ends of {what} left at 0', text, ''),
            (f'ends of {what} -S and S', text, text.replace(f'= {lower}', '= -UNIT').replace(f'= {upper}', '= UNIT')),
            (f'ends of {what} exchanged', text,
             text.replace(f'= {lower}', '= ?').replace(f'= {upper}', f'= {lower}').replace('?', upper))]


CLEARED = '    memset(area, 0, size * width);\n'
ZERO_MODEL = ('    if (size == MODEL_SIZE && width == sizeof(int32_t)) {\n        ((int32_t *)area)[LOWER] = -UNIT;\n'
              '        ((int32_t *)area)[UPPER] = UNIT;\n    }\n')
SERIES_ENDS = '-UNIT, UNIT, out);'

# ---- Sizes

SHORT_OPERANDS = 'if (!CLEAR(out, MODEL_SIZE) || a_len < MODEL_SIZE || b_len < MODEL_SIZE)\n        return SHORT_AREA;\n    return '
CALLS = {'add': 'termwise(a, b, 1', 'subtract': 'termwise(a, b, -1', 'multiply': 'multiply(a, b'}
OF_SIZES = [(f'{area} of {size} numbers', entry, SHORT_OPERANDS + call,
             (SHORT_OPERANDS + call).replace(*text))
            for entry, call in CALLS.items() for size in (35, 36)
            for area, text in (('a', ('a_len < MODEL_SIZE', f'a_len < {size}')), ('b', ('b_len < MODEL_SIZE', f'b_len < {size}')),
                               ('out', ('CLEAR(out, MODEL_SIZE)', f'CLEAR(out, {size})')))]
OF_SIZES += [('a first model of 36 numbers', entry, text, text.replace('MODEL_SIZE', '36')) for entry, text in (
    ('evaluate', 'BOUNDS_SIZE) || a_len < MODEL_SIZE'), ('integrate', 'MODEL_SIZE) || a_len < MODEL_SIZE)'),
    ('quotient', 'fit && f_len >= MODEL_SIZE && g_len'), ('quotient_of_two', 'f_len >= MODEL_SIZE && g_len >= MODEL_SIZE\n'),
    ('root', 'fit && f_len >= MODEL_SIZE && h_len'))]
OF_SIZES += [('35 numbers for a model', entry, '#define MODEL_SIZE 37', '#define MODEL_SIZE 35') for entry in (*TWO, *ONE)]
OF_SIZES += [('a work area of 1,120 numbers', 'check', '#define WORK_SIZE (MAX_RESULTS * MODEL_SIZE)', '#define WORK_SIZE 1120')]

# ---- Integrate

ROUNDED = 'row[k] = near((lower - upper) * extent, 4 * UNIT * k);'
SPREAD = 'up(a[RADIUS] * extent, UNIT)'
OF_INTEGRAL = [
    ('numerators not scaled', ROUNDED, 'row[k] = near(lower - upper, 2 * k);'),
    ('2 S k for 4 S k', ROUNDED, ROUNDED.replace('4 *', '2 *')),
    ('rounded before the extent', ROUNDED, 'row[k] = near(near(lower - upper, 2 * k) * extent, 2 * UNIT);'),
    ('numerators times the extent in 32 bits', ROUNDED, ROUNDED.replace('(lower', '(int32_t)((lower').replace('extent,', 'extent),')),
    ('c_k in 32 bits before the weight', ROUNDED, ROUNDED.replace('near', '(int32_t)near')),
    ('the upper end for the extent', 'int64_t extent = (int64_t)a[UPPER] - a[LOWER];\n    row', 'int64_t extent = a[UPPER];\n    row'),
    ('2 S for the extent', 'int64_t extent = (int64_t)a[UPPER] - a[LOWER];\n    row', 'int64_t extent = 2 * UNIT;\n    row'),
    ('radius by 2 e', SPREAD, '2 * (int64_t)a[RADIUS]'),
    ('radius by e times the extent', SPREAD, 'a[RADIUS] * extent'),
    ('radius downwards', SPREAD, SPREAD.replace('up', 'down')),
    ('radius to the nearest', SPREAD, SPREAD.replace('up', 'near')),
    ('radius by half the extent, twice', SPREAD, '2 * up(a[RADIUS] * extent, 2 * UNIT)'),
    ('e times the extent in 32 bits', SPREAD, 'up((int32_t)(a[RADIUS] * extent), UNIT)'),
]

# ---- Evaluate

NUMERATOR = 'int64_t numerator = UNIT * (2 * (int64_t)p - a[LOWER] - a[UPPER]);'
POINT = 'int64_t point = near(numerator, extent);'
SQUARES = 'int64_t squares = point * extent == numerator ? 1 : 1 + 2048;'
TERM = 'magnitude(a[1 + k]) * k * (squares * k - 1);'
OUTSIDE = '    if (p < a[LOWER] || p > a[UPPER])\n        return POINT_OUTSIDE;\n'
EVALUATED = '    uint32_t number = model_fault(a);\n    if (number != 0)\n        return number;\n' + OUTSIDE
TERMS = ('int64_t t = (int64_t)1 << 30, next = 1024 * point, v = 0, w = 0;\n    for (int k = 0; k <= a[0]; k++) {\n'
         f'        v += a[1 + k] * t;\n        w += {TERM}\n        int64_t after = near(2 * point * next, UNIT) - t;')
OF_EVALUATION = [
    ('the point not mapped', POINT, 'int64_t point = p;'),
    ('the ends exchanged in the point', NUMERATOR, 'int64_t numerator = UNIT * ((int64_t)a[LOWER] + a[UPPER] - 2 * (int64_t)p);'),
    ('the point from the lower end', NUMERATOR, 'int64_t numerator = UNIT * ((int64_t)p - a[LOWER]);'),
    ('S (2p - l - u) in 32 bits', NUMERATOR, NUMERATOR.replace('UNIT * (', '(int32_t)(UNIT * (').replace(');', '));')),
    ('the point cut towards zero', POINT, POINT.replace('near(numerator, extent)', 'numerator / extent')),
    ('the point downwards', POINT, POINT.replace('near', 'down')),
    ('the point upwards', POINT, POINT.replace('near', 'up')),
    ('ties of the point upwards', POINT, POINT.replace('near(numerator, extent)', 'down(2 * numerator + extent, 2 * extent)')),
    ('the point at 2^30', TERMS, TERMS.replace('int64_t t', 'int64_t fine = near(1024 * numerator, extent), t')
     .replace('1024 * point', 'fine').replace('2 * point * next, UNIT', '2 * fine * next, 1024 * UNIT')),
    ('t_1 at 2^30', TERMS, TERMS.replace('1024 * point', 'near(1024 * numerator, extent)')),
    ('W not grown', SQUARES, 'int64_t squares = 1;'),
    ('W always grown', SQUARES, 'int64_t squares = 1 + 2048;'),
    ('W grown where exact', SQUARES, SQUARES.replace('==', '!=')),
    ('W grown unless y is whole', SQUARES, SQUARES.replace('point * extent == numerator', 'point % UNIT == 0')),
    ('half the growth', SQUARES, SQUARES.replace('2048', '1024')),
    ('twice the growth', SQUARES, SQUARES.replace('2048', '4096')),
    ('growth by k', TERM, 'magnitude(a[1 + k]) * k * (k - 1 + squares - 1);'),
    ('growth by k (k - 1)', TERM, 'magnitude(a[1 + k]) * k * (k - 1) * squares;'),
    ('growth with its sign', TERM, '(magnitude(a[1 + k]) * k * (k - 1) + a[1 + k] * k * k * (squares - 1));'),
    ('4 by -S and S', OUTSIDE, OUTSIDE.replace('a[LOWER]', '-UNIT').replace('a[UPPER]', 'UNIT')),
    ('4 by the lower end alone', OUTSIDE, OUTSIDE.replace(' || p > a[UPPER]', '')),
    ('4 by the upper end alone', OUTSIDE, OUTSIDE.replace('p < a[LOWER] || ', '')),
    ('4 before the model', EVALUATED, OUTSIDE + EVALUATED),
]

# ---- Command 0x14

SHAPE = '    case 0x14: *width = BLOCK_BYTES + 12;    *names = 0; return 1;\n'
READ_LOWER = 'out[LOWER] = byte == 0x14 ? read_i32(operands + BLOCK_BYTES + 4) : -UNIT;'
READ_UPPER = 'out[UPPER] = byte == 0x14 ? read_i32(operands + BLOCK_BYTES + 8) : UNIT;'
READ_RADIUS = 'out[RADIUS] = read_i32(operands + BLOCK_BYTES);'
READ = f'{READ_LOWER}\n        {READ_UPPER}\n'
LOADED = '        return model_fault(out);\n'
OF_LOADS = [
    ('0x14 unknown', SHAPE, ''),
    ('0x15 known', SHAPE, f'    case 0x15:\n{SHAPE}'),
    ('0x14 without its upper end', SHAPE, SHAPE.replace('+ 12', '+ 8')),
    ('0x14 without its ends', SHAPE, SHAPE.replace('+ 12', '+ 4')),
    ('0x14 four bytes longer', SHAPE, SHAPE.replace('+ 12', '+ 16')),
    ('0x14 is 0x10', READ, READ.replace('byte == 0x14', '0')),
    ('0x10 on 0..S', READ_LOWER, READ_LOWER.replace('-UNIT', '0')),
    ('0x10 on 0..0', READ, READ.replace(': -UNIT', ': 0').replace(': UNIT', ': 0')),
    ('the ends of 0x14 exchanged', READ, READ.replace('BYTES + 4', '@').replace('BYTES + 8', 'BYTES + 4').replace('@', 'BYTES + 8')),
    ('the ends before the radius', f'{READ_RADIUS}    /* below 0 from 2^31 on, and refused */\n        {READ}',
     f'{READ_RADIUS.replace("BYTES", "BYTES + (byte == 0x14 ? 8 : 0)")}\n        '
     f'{READ.replace("BYTES + 4", "BYTES").replace("BYTES + 8", "BYTES + 4")}'),
    ('the ends without their sign', READ, READ.replace('read_i32(', '0x7FFFFFFF & read_i32(')),
    ('the ends highest byte first', READ, READ.replace('read_i32(', '(int32_t)__builtin_bswap32((uint32_t)read_i32(')
     .replace(') :', ')) :')),
    ('the ends of a load not looked at', LOADED, '        return model_fault(out) == BAD_ENDS ? 0 : model_fault(out);\n'),
    ('every load on one interval', LOADED,
     '        if (out != work && !same_interval(work, out))\n            return DIFFERENT_INTERVALS;\n' + LOADED),
    ('later results on -S and S', '    uint32_t number = run(job', '    for (int i = 0; i < MAX_RESULTS; i++)\n'
     '        work[MODEL_SIZE * i + LOWER] = -UNIT, work[MODEL_SIZE * i + UPPER] = UNIT;\n    uint32_t number = run(job'),
]

INTERVAL_SLIPS = [(f'interval: {name}, {entry}', entry, old, new) for name, entry, old, new in (
    *((name, entry, *texts) for name, *texts in OF_ENDS for entry in (*TWO, *ONE)),
    *((name, entry, *texts) for name, *texts in OF_TWO[:2] for entry in TWO if entry != 'check'),
    *((name, entry, *texts) for name, *texts in OF_TWO[2:] for entry in TWO),
    *((name, entry, *texts) for name, *texts in OF_OPERANDS for entry in ('add', 'subtract', 'multiply', 'make_quotient')),
    ('19 after 9', 'multiply', LIST + TESTS_KEPT, LIST + TESTS_KEPT.replace('operands', 'models')
     + DIFFERENT.replace('f, g', 'a, b')),
    *((name, entry, *texts) for name, *texts in OF_JUDGED for entry in TESTED),
    *((name, entry, *texts) for name, *texts in wrong_ends('what is formed', FINISHED, 'lower', 'upper')
      for entry in ('add', 'subtract', 'multiply', 'integrate', 'check')),
    *((name, entry, *texts) for name, *texts in wrong_ends('what a test accepts', ACCEPTED, 'f[LOWER]', 'f[UPPER]')
      for entry in ('quotient', 'root', 'tight_root', 'check')),
    *((f'ends of a series {lower} and {upper}', 'from_series', SERIES_ENDS, f'{lower}, {upper}, out);')
      for lower, upper in (('0', '0'), ('0', 'UNIT'), ('UNIT', '-UNIT'))),
    *(('the zero model on -S and S', entry, CLEARED, CLEARED + ZERO_MODEL)
      for entry in ('add', 'subtract', 'multiply', 'integrate', 'from_series', 'quotient', 'root', 'tight_root')),
    *OF_SIZES,
    *((name, 'integrate', *texts) for name, *texts in OF_INTEGRAL),
    *((name, 'evaluate', *texts) for name, *texts in OF_EVALUATION),
    *((name, 'check', *texts) for name, *texts in OF_LOADS),
)]
