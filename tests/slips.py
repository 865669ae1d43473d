"""Are the cases sharp?  Puts one slip at a time into a copy of the plain C
version and demands that compare.py finds a difference.  Slow; for people, not
for the gate.

  slips.py [part of a slip's name]
"""

import re
import subprocess
import sys
import tempfile
from pathlib import Path

from edition_slips import EDITION_SLIPS
from interval_slips import INTERVAL_SLIPS
from proposal_slips import PROPOSAL_SLIPS
from report_slips import REPORT_SLIPS

HERE = Path(__file__).resolve().parent
PLAIN = HERE.parent / 'plain'
TESTS = 'quotient,root'
ROOTS = ('root', 'tight_root')
M_LINE = 'int64_t m = up(weight(c, PRODUCT_SIZE) + 2 * m_weight'
N_LINE = 'int64_t n = up(weight(c, PRODUCT_SIZE) + 2 * (int64_t)UNIT * f[RADIUS],'
B_LINE = '    if (p.b > (UNIT - p.m) * (UNIT - p.m) / (8 * p.m_weight))'
ROOT_M, ROOT_B = 'int64_t m = up(weight(c, PRODUCT_SIZE), UNIT)', 'n, up(m_weight * n, UNIT)};'
F_RADIUS = '+ 2 * (int64_t)UNIT * f[RADIUS], 2'
P_LINE = 'int64_t p = (int64_t)a[1 + i] * b[1 + j];'
SECOND_TEST = '    uint32_t other = test_proposal(fault, f, g, second, second_len, c, &two);'
SELECT_END = '        answer[1] = (uint32_t)one.radius;\n    }\n    return number;'
SHORT_FIRST = '    if (length < PROPOSAL_SIZE)\n        return SHORT_AREA;\n    if (fault != 0)\n        return fault;'
BAD_FIRST = '    if (fault != 0)\n        return fault;\n    if (length < PROPOSAL_SIZE)\n        return SHORT_AREA;'
SCRATCH_END = '    CLEAR(scratch, SCRATCH_SIZE);\n    return number;\n}\n\n/* ---- Jobs'
NEAR = 'static int64_t near(int64_t n, int64_t d)\n{\n'
# Wrong rules for near: the expression that it answers with.
TIES_UP, TIES_DOWN = 'down(2 * n + d, 2 * d)', '-down(d - 2 * n, 2 * d)'
WRONG_NEAR = {
    'near truncates': 'n / d',
    'near cuts after adding a half': '(2 * n + d) / (2 * d)',
    'ties upwards, the former rule': TIES_UP,
    'ties downwards': TIES_DOWN,
    'ties away from zero': f'n < 0 ? {TIES_DOWN} : {TIES_UP}',
    'ties to the odd number': f'{TIES_UP} - ({TIES_UP} != {TIES_DOWN} && {TIES_UP} % 2 == 0)',
}

# Name, entries that must show it, old text (its first place), new text.
SLIPS = [
    ('pair 0,0 once', 'multiply', 'c[i > j ? i - j : j - i] += p;',
     'if (i + j) c[i > j ? i - j : j - i] += p;'),
    ('equal pairs once', 'multiply', 'c[i > j ? i - j : j - i] += p;',
     'if (i != j || !i) c[i > j ? i - j : j - i] += p;'),
    ('m downwards', TESTS, M_LINE, M_LINE.replace('up(', 'down(')),
    ('m to the nearest', TESTS, M_LINE, M_LINE.replace('up(', 'near(')),
    ('b downwards', TESTS, 'int64_t b = up(', 'int64_t b = down('),
    ('radius downwards', 'quotient', 'radius = up(b * UNIT', 'radius = down(b * UNIT'),
    ('root radius not doubled', 'root', 'up(2 * p.b * UNIT', 'up(p.b * UNIT'),
    ('dropped not paid', 'multiply', 'error += weight(c + degree + 1, PRODUCT_SIZE - degree - 1);', ''),
    ('radii product left out', 'multiply', ' + e_a * e_b);', ');'),
    ('8bM wraps signed', 'root', B_LINE,
     '    if ((UNIT - p.m) * (UNIT - p.m) < (int64_t)(8 * (uint64_t)p.b * (uint64_t)p.m_weight))'),
    ('8bM wraps unsigned', 'root', B_LINE,
     '    if ((uint64_t)((UNIT - p.m) * (UNIT - p.m)) < 8 * (uint64_t)p.b * (uint64_t)p.m_weight)'),
    ('8bM equality refused', 'root', B_LINE, B_LINE.replace('b >', 'b >=')),
    ('8bM one too many', 'root', B_LINE, B_LINE.replace('b >', 'b - 1 >')),
    ('8bM with 4', 'root', B_LINE, B_LINE.replace('8 *', '4 *')),
    ('f longer than C', 'quotient',
     '    int64_t n = up(weight(c, PRODUCT_SIZE) + 2 * (int64_t)UNIT * f[RADIUS] + 2 * h',
     '    int64_t n = up(weight(c, g[0] + h[0] + 1) + 2 * (int64_t)UNIT * f[RADIUS] + 2 * h'),
    ('m = S passes', TESTS, 'if (m >= UNIT)', 'if (m > UNIT)'),
    ('m = S - 1 refused', TESTS, 'if (m >= UNIT)', 'if (m >= UNIT - 1)'),
    ('N = 2^28 refused', 'quotient', 'if (n > LIMIT)', 'if (n >= LIMIT)'),
    ('N one more passes', 'quotient', 'if (n > LIMIT)', 'if (n > LIMIT + 1)'),
    ('N narrowed', 'quotient', 'if (n > LIMIT)', 'if ((int32_t)n > LIMIT)'),
    ('m narrowed', 'quotient', 'if (m >= UNIT)', 'if ((int32_t)m >= UNIT)'),
    ('quotient radius narrowed', 'quotient', '    if (radius > LIMIT)\n        return LARGE_RESULT;\n    *passed',
     '    if ((int32_t)radius > LIMIT)\n        return LARGE_RESULT;\n    *passed'),
    ('weight in 32 bits', 'add', '    int64_t sum = 0;\n    for (int k = 1;', '    int32_t sum = 0;\n    for (int k = 1;'),
    ('result weight at the limit', 'add', 'weight(row, degree + 1) > LIMIT', 'weight(row, degree + 1) >= LIMIT'),
    ('result radius one more', 'multiply', 'radius > LIMIT || weight', 'radius > LIMIT + 1 || weight'),
    ('top zeros cut', 'subtract', '    out[0] = degree;',
     '    while (degree > 0 && row[degree] == 0) degree--;\n    out[0] = degree;'),
    ('kept 255 unknown', 'multiply', 'if (kept == DEFAULT_KEPT)', 'if (kept == DEFAULT_KEPT - 1)'),
    ('kept as a byte', 'multiply', 'if (kept == DEFAULT_KEPT)', 'kept &= 255;\n    if (kept == DEFAULT_KEPT)'),
    ('series cut towards zero', 'from_series', 'row[j] = near(sums[j], EXPANSION_UNIT)', 'row[j] = sums[j] / EXPANSION_UNIT'),
    ('series rounded down', 'from_series', 'row[j] = near(sums[j], EXPANSION_UNIT)', 'row[j] = down(sums[j], EXPANSION_UNIT)'),
    ('series: radius 0', 'from_series', 'up(error, EXPANSION_UNIT)', 'up(0 * error, EXPANSION_UNIT)'),
    ('series: radius downwards', 'from_series', 'up(error, EXPANSION_UNIT)', 'down(error, EXPANSION_UNIT)'),
    ('series: difference with its sign', 'from_series', 'magnitude(sums[j] - EXPANSION_UNIT * row[j])',
     'sums[j] - EXPANSION_UNIT * row[j]'),
    ('series: each power rounded', 'from_series', 'sums[j] += series[1 + k] * expansion_table[k][j]',
     'sums[j] += EXPANSION_UNIT * near(series[1 + k] * expansion_table[k][j], EXPANSION_UNIT)'),
    ('series: degree lowered', 'from_series', '    return finish(degree, row, up(error, EXPANSION_UNIT)',
     '    while (degree > 0 && row[degree] == 0) degree--;\n    return finish(degree, row, up(error, EXPANSION_UNIT)'),
    ('series: T_k left out', 'from_series', 'j <= k; j++', 'j < k || j == 0; j++'),
    ('series: last power left out', 'from_series', 'k <= degree; k++)\n        for (int j = 0; j <= k',
     'k < degree; k++)\n        for (int j = 0; j <= k'),
    ('series: 2 for 14', 'from_series', 'return BAD_SERIES;', 'return BAD_MODEL;'),
    ('series: degree 33', 'from_series', 'if (!good_candidate(series))',
     'if (!good_candidate(series) && series[0] != MAX_DEGREE + 1)'),
    ('series: negative degree', 'from_series', 'if (!good_candidate(series))', 'if (series[0] >= 0 && !good_candidate(series))'),
    ('series: weight one more', 'from_series', 'if (!good_candidate(series))',
     'if (!good_candidate(series) && (model_weight(series) != LIMIT + 1 || series[0] < 0 || series[0] > MAX_DEGREE))'),
    ('series: weight at the limit', 'from_series', 'if (!good_candidate(series))',
     'if (!good_candidate(series) || model_weight(series) == LIMIT)'),
    ('series: nonzero beyond', 'from_series', 'if (!good_candidate(series))',
     'if (series[0] < 0 || series[0] > MAX_DEGREE || model_weight(series) > LIMIT)'),
    ('series: 3 left out', 'from_series', '    return finish(degree, row, up(error, EXPANSION_UNIT)',
     '    if (weight(row, degree + 1) > LIMIT) row[0] = 0;\n    return finish(degree, row, up(error, EXPANSION_UNIT)'),
    ('out left on 1, series', 'from_series', '!CLEAR(out, MODEL_SIZE) || series_len < SERIES_SIZE',
     'series_len < SERIES_SIZE || !CLEAR(out, MODEL_SIZE)'),
    ('series of 37 numbers', 'from_series', 'series_len < SERIES_SIZE', 'series_len < MODEL_SIZE'),
    ('integral radius', 'integrate', 'UNIT) + degree', 'UNIT) + a[0]'),
    ('integral a_0 once', 'integrate', 'k == 1 ? 2 * (int64_t)a[1]', 'k == 1 ? (int64_t)a[1]'),
    ('W left out', 'evaluate', 'down(4 * v - w,', 'down(4 * v,'),
    ('low cut towards zero', 'evaluate', 'down(4 * v - w, (int64_t)1 << 32)', '(4 * v - w) / ((int64_t)1 << 32)'),
    ('p = u refused', 'evaluate', 'p > a[UPPER]', 'p >= a[UPPER]'),
    ('p = l refused', 'evaluate', 'p < a[LOWER]', 'p <= a[LOWER]'),
    ('p by its distance from the middle, in 32 bits', 'evaluate', 'p < a[LOWER] || p > a[UPPER]',
     'magnitude((int32_t)(2u * (uint32_t)p - (uint32_t)a[LOWER] - (uint32_t)a[UPPER])) > (int64_t)a[UPPER] - a[LOWER]'),
    ('scratch left', TESTS, '    CLEAR(scratch, SCRATCH_SIZE);', ''),
    ('scratch left on 1', TESTS, '    CLEAR(scratch, SCRATCH_SIZE);', '    if (number != 1) CLEAR(scratch, SCRATCH_SIZE);'),
    ('scratch left where out is short', TESTS, '    CLEAR(scratch, SCRATCH_SIZE);', '    if (fit) CLEAR(scratch, SCRATCH_SIZE);'),
    ('numbers left on refusal', TESTS, '& CLEAR(numbers, NUMBERS_SIZE)', '& (numbers_len >= NUMBERS_SIZE)'),
    ('numbers left where out is short', TESTS, '& CLEAR(numbers', '&& CLEAR(numbers'),
    ('out left on 1', 'add', '!CLEAR(out, MODEL_SIZE) || a_len < MODEL_SIZE || b_len < MODEL_SIZE)',
     'a_len < MODEL_SIZE || b_len < MODEL_SIZE || !CLEAR(out, MODEL_SIZE))'),
    ('out left on 1, integrate', 'integrate', '!CLEAR(out, MODEL_SIZE) || a_len < MODEL_SIZE)',
     'a_len < MODEL_SIZE || !CLEAR(out, MODEL_SIZE))'),
    ('bounds left on 1', 'evaluate', '!CLEAR(bounds, BOUNDS_SIZE) || a_len < MODEL_SIZE',
     'a_len < MODEL_SIZE || !CLEAR(bounds, BOUNDS_SIZE)'),
    ('answer left on 1', 'check', '!CLEAR(answer, ANSWER_SIZE) || work_len < WORK_SIZE || scratch_len < SCRATCH_SIZE',
     'work_len < WORK_SIZE || scratch_len < SCRATCH_SIZE || !CLEAR(answer, ANSWER_SIZE)'),
    ('short area cleared', TESTS, '    if (length < size)\n        return 0;\n    memset(area, 0, size * width);\n    return 1;',
     '    memset(area, 0, (length < size ? length : size) * width);\n    return length >= size;'),
    ('one number behind cleared', TESTS, 'memset(area, 0, size * width);',
     'memset(area, 0, (length > size ? size + 1 : size) * width);'),
    ('job: scratch cleared on 1', 'check', '    if (!CLEAR(answer', '    CLEAR(scratch, SCRATCH_SIZE);\n    if (!CLEAR(answer'),
    ('job: work cleared on 1', 'check', '    if (!CLEAR(answer', '    CLEAR(work, WORK_SIZE);\n    if (!CLEAR(answer'),
    ('job: scratch left', 'check', '    memset(scratch, 0, SCRATCH_SIZE * sizeof *scratch);\n    if', '    if'),
    ('job: work left on refusal', 'check', '        memset(work, 0, WORK_SIZE * sizeof *work);\n', ''),
    ('job: work not cleared', 'check', '    memset(work, 0, WORK_SIZE * sizeof *work);\n    clear_room', '    clear_room'),
    ('job: count before name', 'check', '    for (size_t i = 0; i < names; i++)',
     '    if (count == MAX_RESULTS)\n        return TOO_MANY_RESULTS;\n    for (size_t i = 0; i < names; i++)'),
    ('job: 32nd result refused', 'check', 'return count == MAX_RESULTS ?', 'return count == MAX_RESULTS - 1 ?'),
    ('job: name of itself', 'check', 'operands[i] >= count', 'operands[i] > count'),
    ('job: name before d', 'check', "operands[2] != DEFAULT_KEPT)",
     "operands[2] != DEFAULT_KEPT && operands[0] < count)"),
    ('job: edition again', 'check', '(byte == 0x01) != (command == 0)', '(byte != 0x01 && command == 0)'),
    ('job: after end ignored', 'check', '*position < job_len ? BYTES_AFTER_END : 0', '0'),
    ('job: radius as signed', 'check', '|| a[RADIUS] < 0 || a', '|| a'),
    ('job: d 254', 'check', 'operands[2] != DEFAULT_KEPT)', 'operands[2] < DEFAULT_KEPT - 1)'),
    ('job: later tests waved through', 'check', '    if (byte == 0x20)\n',
     '    if (out != work && work + 10 * MODEL_SIZE < out) {\n        memcpy(out, h, sizeof h);\n'
     '        return 0;\n    }\n    if (byte == 0x20)\n'),
]

# What the root tests share must show in each.
SLIPS += [(f'{name}, {entry}', entry, old, new) for name, old, new in (
    ('helper sign left out', 'if (sum <= 0)', 'if (sum == 0)'),
    ('helper sum zero passes', 'if (sum <= 0)', 'if (sum < 0)'),
    ('helper sign after m', 'if (sum <= 0)', 'if (sum <= 0 && sum > -1000)'),
    ('m downwards', ROOT_M, ROOT_M.replace('up(', 'down(')),
    ('m = S passes', f'{ROOT_M};\n    if (m >= UNIT)', f'{ROOT_M};\n    if (m > UNIT)'),
    ('m = S - 1 refused', f'{ROOT_M};\n    if (m >= UNIT)', f'{ROOT_M};\n    if (m >= UNIT - 1)'),
    ('N downwards', N_LINE, N_LINE.replace('up(', 'down(')),
    ('N to the nearest', N_LINE, N_LINE.replace('up(', 'near(')),
    ('N = 2^28 refused', f'{N_LINE} 2 * UNIT);\n    if (n > LIMIT)', f'{N_LINE} 2 * UNIT);\n    if (n >= LIMIT)'),
    ('N one more passes', f'{N_LINE} 2 * UNIT);\n    if (n > LIMIT)', f'{N_LINE} 2 * UNIT);\n    if (n > LIMIT + 1)'),
    ('b downwards', ROOT_B, ROOT_B.replace('up(', 'down(')),
    ('f longer than C', N_LINE, N_LINE.replace('PRODUCT_SIZE', '2 * h[0] + 1')),
    ('f radius left out', F_RADIUS, '+ 0 * f[RADIUS], 2'),
) for entry in ROOTS]

# The tighter root test: what is wrong, old text, new text.
SCALED, NEXT = 'scaled = b * UNIT * UNIT;', 'next <= UNIT && twice * next * next + scaled <= c * next'
LARGE_B, NO_B = '    if (b > UNIT)\n        return NO_SUCH_RADIUS;\n', '    if (b == 0)\n        return 0;\n'
LEAST, NONE = '    uint64_t radius = least_radius(', '    if (radius == NO_SUCH_RADIUS)\n        return NO_RADIUS;'
REFUSED, FORMER = B_LINE[8:-1], '(uint64_t)up(2 * p.b * UNIT, UNIT - p.m)'      # as 0x21 has it
TIGHT_END = '    accept_candidate(f, h, (int64_t)radius, p.m, p.n, p.b, out, numbers);'
LOOP_END = '            low = middle;\n    }\n    return high;'
SLIPS += [(f'tight: {name}', 'tight_root', old, new) for name, old, new in (
    ('v + 1 not tried', NEXT, '0'),
    ('v + 1 tried beyond S', NEXT, NEXT.replace('next <= UNIT && ', '')),
    ('v + 1 not tried at equality', NEXT, NEXT.replace('<= c', '< c')),
    ('v + 1 taken untried', NEXT, 'next <= UNIT'),
    ('the greatest r', LOOP_END, LOOP_END.replace('    return high;', """
    while (high < UNIT && twice * (high + 1) * (high + 1) + scaled <= c * (high + 1))
        high++;
    return high;""")),
    ('b S for b S^2', SCALED, 'scaled = b * UNIT;'),
    ('b S^2 in 64 bits, b unlimited', LARGE_B, ''),
    ('b above 2^24 alone refused', LARGE_B, LARGE_B.replace('b > UNIT', 'b > 16 * UNIT')),
    ('b = 2^24 alone refused', LARGE_B, LARGE_B.replace('b > UNIT', 'b == 16 * UNIT')),
    ('8 for 17', NONE, NONE.replace('NO_RADIUS', 'NEGATIVE_DISCRIMINANT')),
    ('6 for 17', NONE, NONE.replace('NO_RADIUS', 'LARGE_RESIDUAL')),
    ('3 above S/2', NONE, f'{NONE}\n    if (radius > UNIT / 2)\n        return LARGE_RESULT;'),
    ('S refused with 3', NONE, f'{NONE}\n    if (radius >= UNIT)\n        return LARGE_RESULT;'),
    ('the search begun at 1', NO_B, ''),
    ('b = 1 gives 0', NO_B, NO_B.replace('b == 0', 'b <= 1')),
    ('M for 2 M', 'twice = 2 * m_weight', 'twice = m_weight'),
    ('4 M for 2 M', 'twice = 2 * m_weight', 'twice = 4 * m_weight'),
    ('S for S - m', '(UNIT - m) * UNIT, twice', '(uint64_t)UNIT * UNIT, twice'),
    ('S - m for (S - m) S', '(UNIT - m) * UNIT, twice', 'UNIT - m, twice'),
    ('below, not at most, in the search', '+ scaled <= c * middle', '+ scaled < c * middle'),
    ('below, not at most, at v', '+ scaled > c * high', '+ scaled >= c * high'),
    ('r up to S - 1', 'v < UNIT ? v : UNIT;', 'v < UNIT ? v : UNIT - 1;'),
    ('r beyond S', 'v < UNIT ? v : UNIT;', 'v;'),
    ('v from 2 M', 'c / (4 * m_weight)', 'c / (2 * m_weight)'),
    ('v from 8 M', 'c / (4 * m_weight)', 'c / (8 * m_weight)'),
    ('v rounded up', 'c / (4 * m_weight)', '(c - 1) / (4 * m_weight) + 1'),
    ('the search ends early', 'high - low > 1', 'high - low > 2'),
    ('the last that does not satisfy', LOOP_END, LOOP_END.replace('return high', 'return low')),
    ('ten halvings', 'while (high - low > 1) {', 'for (int i = 0; i < 10 && high - low > 1; i++) {'),
    ('nineteen halvings', 'while (high - low > 1) {', 'for (int i = 0; i < 19 && high - low > 1; i++) {'),
    ('the radius of 0x21', NONE, f'{NONE}\n    radius = {FORMER};'),
    ('half the radius of 0x21', NONE, f'{NONE}\n    radius = ({FORMER} + 1) / 2;'),
    ('accepted where 0x21 accepts', NONE,
     f'    if (radius == NO_SUCH_RADIUS && !({REFUSED}))\n        radius = {FORMER};\n{NONE}'),
    ('the root test', NONE, f'    radius = {REFUSED} ? NO_SUCH_RADIUS : {FORMER};\n{NONE}'),
    ('m and b exchanged', f'{LEAST}(uint64_t)p.m_weight, (uint64_t)p.m, (uint64_t)p.b);',
     f'{LEAST}(uint64_t)p.m_weight, (uint64_t)p.b, (uint64_t)p.m);'),
    ('numbers left at zero', TIGHT_END, TIGHT_END.replace('p.m, p.n, p.b', '0, 0, 0')),
)]

# Its areas, in the text of its entry alone.
TIGHT_ENTRY = re.search(r'uint32_t plain_tight_root\(.*?\n}\n', (PLAIN / 'plain.c').read_text(), re.S)[0]
SLIPS += [(f'tight: {name}', 'tight_root', TIGHT_ENTRY, TIGHT_ENTRY.replace(old, new)) for name, old, new in (
    ('f of 34 numbers', 'f_len >= MODEL_SIZE', 'f_len >= CANDIDATE_SIZE'),
    ('h of 33 numbers', 'h_len >= CANDIDATE_SIZE', 'h_len >= COEFFICIENTS'),
    ('w of 33 numbers', 'w_len >= CANDIDATE_SIZE', 'w_len >= COEFFICIENTS'),
    ('w of 37 numbers', 'w_len >= CANDIDATE_SIZE', 'w_len >= MODEL_SIZE'),
    ('h and w exchanged', 'f, h, w, out', 'f, w, h, out'),
    ('numbers left on refusal', 'CLEAR(numbers, NUMBERS_SIZE)', '(numbers_len >= NUMBERS_SIZE)'),
    ('numbers left where out is short', '& CLEAR(numbers', '&& CLEAR(numbers'),
    ('out left on refusal', 'CLEAR(out, MODEL_SIZE)', '(out_len >= MODEL_SIZE)'),
    ('scratch left on 1', '    CLEAR(scratch', '    if (number != SHORT_AREA)\n        CLEAR(scratch'),
    ('scratch left on 17', '    CLEAR(scratch', '    if (number != NO_RADIUS)\n        CLEAR(scratch'),
    ('scratch left where out is short', '    CLEAR(scratch', '    if (fit)\n        CLEAR(scratch'),
)]

# Its command.
TIGHT_COMMAND = '    case 0x22: *width = 1 + 2 * BLOCK_BYTES; *names = 1; return 1;\n'
SLIPS += [(f'job: {name}', 'check', old, new) for name, old, new in (
    ('0x22 unknown', TIGHT_COMMAND, TIGHT_COMMAND.replace('case 0x22: ', '')),
    ('0x23 known', TIGHT_COMMAND, f'    case 0x23:\n{TIGHT_COMMAND}'),
    ('0x22 names nothing', f'    case 0x21:\n{TIGHT_COMMAND}',
     f'{TIGHT_COMMAND.replace("0x22", "0x21")}{TIGHT_COMMAND.replace("names = 1", "names = 0")}'),
    ('0x22 names two', f'    case 0x21:\n{TIGHT_COMMAND}',
     f'{TIGHT_COMMAND.replace("0x22", "0x21")}{TIGHT_COMMAND.replace("names = 1", "names = 2").replace("1 + 2", "2 + 2")}'),
    ('0x22 one byte longer', f'    case 0x21:\n{TIGHT_COMMAND}',
     f'{TIGHT_COMMAND.replace("0x22", "0x21")}{TIGHT_COMMAND.replace("1 + 2", "2 + 2")}'),
    ('0x22 is 0x21', '    if (byte == 0x21)\n', '    if (byte == 0x21 || byte == 0x22)\n'),
    ('0x21 is 0x22', '    if (byte == 0x21)\n', '    if (byte == 0)\n'),
    ('0x22 with h and w exchanged', 'return test_tight_root(a, h, w', 'return test_tight_root(a, w, h'),
    ('8 for 17', NONE, NONE.replace('NO_RADIUS', 'NEGATIVE_DISCRIMINANT')),
    ('v + 1 not tried', NEXT, '0'),
)]

# Two proposals for one quotient: what is wrong, old text, new text.
SLIPS += [(f'two: {name}', 'quotient_of_two', old, new) for name, old, new in (
    ('ties to the second', 'two.radius < one.radius', 'two.radius <= one.radius'),
    ('the larger radius', 'two.radius < one.radius', 'two.radius > one.radius'),
    ('radii one apart are equal', 'two.radius < one.radius', 'two.radius + 1 < one.radius'),
    ('the first if it passes', '(number != 0 || two.radius < one.radius)', 'number != 0'),
    ('the second if it passes', '(number != 0 || two.radius < one.radius)', '1'),
    ('the second alone does not win', 'if (other == 0 && ', 'if (other == 0 && number == 0 && '),
    ('the refusal of the second', SELECT_END, SELECT_END.replace('return number', 'return number == 0 ? 0 : other')),
    ('the smaller refusal', SELECT_END, SELECT_END.replace('return number', 'return number < other ? number : other')),
    ('67 numbers', 'length < PROPOSAL_SIZE', 'length < PROPOSAL_SIZE - 1'),
    ('69 numbers', 'length < PROPOSAL_SIZE', 'length < PROPOSAL_SIZE + 1'),
    ('68 numbers and no more', 'length < PROPOSAL_SIZE', 'length != PROPOSAL_SIZE'),
    ('a short one refuses the call', 'if (CLEAR(answer, SELECTION_SIZE) && ',
     'if (CLEAR(answer, SELECTION_SIZE) && first_len >= PROPOSAL_SIZE && second_len >= PROPOSAL_SIZE && '),
    ('2 before 1', SHORT_FIRST, BAD_FIRST),
    ('h and w exchanged', 'f, g, proposal, proposal + CANDIDATE_SIZE, c', 'f, g, proposal + CANDIDATE_SIZE, proposal, c'),
    ('w from number 33', 'proposal, proposal + CANDIDATE_SIZE', 'proposal, proposal + COEFFICIENTS'),
    ('the w of the first', SECOND_TEST, SECOND_TEST + """
    if (first_len >= PROPOSAL_SIZE && second_len >= PROPOSAL_SIZE)
        other = fault == 0 ? judge_quotient(f, g, second, first + CANDIDATE_SIZE, c, &two) : fault;"""),
    ('the h of the first', SECOND_TEST, SECOND_TEST.replace('second, second_len', 'first, first_len')),
    ('3 passes', 'if (radius > LIMIT)\n        return LARGE_RESULT;\n    *passed', '*passed'),
    ('radius 2^28 refused', 'if (radius > LIMIT)\n        return LARGE_RESULT;\n    *passed',
     'if (radius >= LIMIT)\n        return LARGE_RESULT;\n    *passed'),
    ('f and g not looked at', 'uint32_t fault = models_fault(f, g);', 'uint32_t fault = 0;'),
    ('g not looked at', 'uint32_t fault = models_fault(f, g);', 'uint32_t fault = model_fault(f);'),
    ('answer left on refusal', 'if (CLEAR(answer, SELECTION_SIZE) && ', 'if (answer_len >= SELECTION_SIZE && '),
    ('answer left on 1', 'if (CLEAR(answer, SELECTION_SIZE) && ',
     'if (f_len >= MODEL_SIZE && g_len >= MODEL_SIZE && scratch_len >= SCRATCH_SIZE && CLEAR(answer, SELECTION_SIZE) && '),
    ('first kept in answer on refusal', '    if (number == 0) {\n        answer[0]', '    if (1) {\n        answer[0]'),
    ('scratch left', SCRATCH_END, SCRATCH_END.replace('    CLEAR(scratch, SCRATCH_SIZE);\n', '')),
    ('scratch left where both are short', SCRATCH_END,
     f'    if (first_len >= PROPOSAL_SIZE || second_len >= PROPOSAL_SIZE)\n    {SCRATCH_END}'),
    ('scratch left where one is short', SCRATCH_END,
     f'    if (first_len >= PROPOSAL_SIZE && second_len >= PROPOSAL_SIZE)\n    {SCRATCH_END}'),
    ('scratch left on 1', SCRATCH_END, f'    if (number != SHORT_AREA)\n    {SCRATCH_END}'),
    ('chosen from 0', 'CHOSEN_FIRST = 1, CHOSEN_SECOND = 2', 'CHOSEN_FIRST = 0, CHOSEN_SECOND = 1'),
    ('chosen exchanged', 'CHOSEN_FIRST = 1, CHOSEN_SECOND = 2', 'CHOSEN_FIRST = 2, CHOSEN_SECOND = 1'),
    ('radius of the other', 'answer[1] = (uint32_t)two.radius', 'answer[1] = (uint32_t)(number == 0 ? one.radius : two.radius)'),
    ('radius of the other, first', 'answer[1] = (uint32_t)one.radius',
     'answer[1] = (uint32_t)(other == 0 ? two.radius : one.radius)'),
)]

# Forming C in groups of 16 places: the texts by which each test forms what m and what N weighs.
LISTS = {entry: [f'product_list({one}, c);\n    c[0] -= {constant};\n', f'product_list({other}, c);\n    take_residual(c, f);\n']
         for entry, one, other, constant in (('quotient', 'w, g', 'g, h', '2 * (int64_t)UNIT * UNIT'),
                                             *((root, 'w, h', 'h, h', '(int64_t)UNIT * UNIT') for root in ROOTS))}
SLIPS += [(f'groups: place {place} left out of {letter}, {entry}', entry, formed, f'{formed}    c[{place}] = 0;\n')
          for entry, both in LISTS.items() for letter, formed in zip('mN', both) for place in (15, 31, 47, 63, 64)]
SLIPS += [(f'groups: the constant in each, {entry}', entry, of_m,
           of_m.replace('    c[0]', '    for (int k = 0; k < PRODUCT_SIZE; k += 16)\n        c[k]'))
          for entry, (of_m, _) in LISTS.items()]
# The loop over f ends where C ends, at its last place or with its last group.
SLIPS += [(f'groups: f dropped past {where}, {entry}', entry, LISTS[entry][1], LISTS[entry][1].replace(
           'take_residual(c, f);', f'for (int k = 0; k <= f[0] && k {ends}; k++)\n        c[k] -= 2 * (int64_t)UNIT * f[1 + k];'))
          for entry, last in (('quotient', '(g[0] + h[0])'), *((root, '2 * h[0]') for root in ROOTS))
          for where, ends in (("C's end", f'<= {last}'), ("C's last group", f'/ 16 <= {last} / 16'))]
SLIPS += [(f'groups: |i - j| = 0 from both sides, {entry}', entry, 'c[i > j ? i - j : j - i] += p;',
           'c[i > j ? i - j : j - i] += i == j ? 2 * p : p;') for entry in ('multiply', 'quotient', *ROOTS)]

# The scratch of each entry: where its length is looked at, and where it is cleared.
LOOKED_AT = {
    'quotient': 'w_len >= CANDIDATE_SIZE && scratch_len >= SCRATCH_SIZE',
    'root': '&& scratch_len >= SCRATCH_SIZE)\n        number = test_root',
    'tight_root': '&& scratch_len >= SCRATCH_SIZE)\n        number = test_tight_root',
    'quotient_of_two': '&& scratch_len >= SCRATCH_SIZE)\n        number = select_proposal',
    'check': 'work_len < WORK_SIZE || scratch_len < SCRATCH_SIZE',
}
CLEARED = {
    'quotient': 'test_quotient(f, g, h, w, out, numbers);\n    CLEAR(scratch, SCRATCH_SIZE);',
    'root': 'test_root(f, h, w, out, numbers);\n    CLEAR(scratch, SCRATCH_SIZE);',
    'tight_root': 'test_tight_root(f, h, w, out, numbers);\n    CLEAR(scratch, SCRATCH_SIZE);',
    'quotient_of_two': 'second_len, answer);\n    CLEAR(scratch, SCRATCH_SIZE);',
    'check': '    memset(scratch, 0, SCRATCH_SIZE * sizeof *scratch);\n    if',
}
SLIPS += [(f'scratch: {name}, {entry}', entry, text, text.replace('SCRATCH_SIZE', size))
          for name, size in (('65 needed', 'PRODUCT_SIZE'), ('17 needed', '(SCRATCH_SIZE + 1)'),
                             ('15 accepted', '(SCRATCH_SIZE - 1)')) for entry, text in LOOKED_AT.items()]
SLIPS += [(f'scratch: {count} numbers cleared, {entry}', entry, text, re.sub(
           r'    (CLEAR|memset)\(scratch.*;', f'    if (scratch_len >= SCRATCH_SIZE)\n        memset(scratch, 0, '
           f'({count} < scratch_len ? {count} : scratch_len) * sizeof *scratch);', text))
          for count in (15, 17, 65) for entry, text in CLEARED.items()]

# One near serves four operations and the jobs.
SLIPS += [(f'{name}, {entry}', entry, NEAR, f'{NEAR}    return {rule};\n')
          for name, rule in WRONG_NEAR.items()
          for entry in ('multiply', 'integrate', 'evaluate', 'from_series', 'check')]

# One walk over the pairs serves multiply and the tests: a wrong visit must show in each.
SLIPS += [(f'walk: {name}, {entry}', entry, P_LINE, new)
          for name, new in (('diagonal skipped', 'if (i == j)\n                continue;\n            ' + P_LINE),
                            ('last pair twice', P_LINE[:-1] + ' * (i == a[0] && j == b[0] ? 2 : 1);'),
                            ('last pair left out', P_LINE[:-1] + ' * !(i == a[0] && j == b[0]);'))
          for entry in ('multiply', 'quotient', *ROOTS)]

SLIPS += INTERVAL_SLIPS + EDITION_SLIPS + REPORT_SLIPS


def spoiled_plain(folder, old, new, sources=('plain.c', 'editions.c', 'reports.h', 'reading.h', 'models.h', 'areas.h')):
    """The folder, with a copy of the plain C version: a text is altered at its first place in the first source that has it."""
    texts = {path.name: path.read_text() for path in PLAIN.iterdir() if path.suffix in ('.c', '.h')}
    altered = next((name for name in sources if old in texts[name]), None)
    assert altered, f'the text to alter is gone: {old}'
    texts[altered] = texts[altered].replace(old, new, 1)
    for name, text in texts.items():
        (Path(folder) / name).write_text(text)
    return Path(folder)


def found(slip, folder):
    name, entries, old, new = slip
    sources = {'sources': ('proposals.c',)} if slip in PROPOSAL_SLIPS else {}
    spoiled = spoiled_plain(folder, old, new, **sources)
    # The makers' cases take longer, and the fixed ones are to be enough; -lm for the fused operation.
    of_makers = sources or entries.startswith('make_')
    run = subprocess.run([sys.executable, str(HERE / 'compare.py'), '--plain', str(spoiled), '--entries', entries,
                          '--cases', '0' if of_makers else '5000', '--link=-lm'],
                         stdout=subprocess.PIPE, stderr=subprocess.STDOUT, text=True)
    last = run.stdout.strip().splitlines()[-1]
    # A harness that dies (a division by zero, say) is a find as well.
    sharp = run.returncode == 1 or 'the harness ended with -' in last
    print(f'{"found " if sharp else "MISSED"} {name}: {last}', flush=True)
    return sharp


def main():
    part = sys.argv[1] if len(sys.argv) > 1 else ''
    with tempfile.TemporaryDirectory() as folder:
        missed = [slip[0] for slip in (*SLIPS, *PROPOSAL_SLIPS) if part in slip[0] and not found(slip, folder)]
    print(f'{len(missed)} missed', *missed)
    sys.exit(1 if missed else 0)


if __name__ == '__main__':
    main()
