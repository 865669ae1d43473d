"""Slips of the makers of proposals, for slips.py: wrong versions of plain/proposals.c.

Left out, since no answer differs: |i - j| before i + j (the places differ, or get the same number twice); -p_k for 0 - p_k
(a zero of either sign adds nothing); no look at g_0 (1/0 makes NaNs in the first round); values tested once, after the last
round (none becomes finite again); in a quotient no test of w (f times w is then not finite either).  And no test of the change:
no model is known for which v - w leaves the doubles where v does not.
"""

RECIPROCAL, QUOTIENT, UNITS = 'make_reciprocal', 'make_quotient', 'to_units'
BOTH, ALL = (RECIPROCAL, QUOTIENT), (RECIPROCAL, QUOTIENT, UNITS)

# ---- Products and rounds: what is wrong, old text, new text; each must show in both makers

LOOPS = '    for (int i = 0; i < COEFFICIENTS; i++) {\n        for (int j = 0; j < COEFFICIENTS; j++) {\n            double v'
I, J = 'int i = 0; i < COEFFICIENTS; i++', 'int j = 0; j < COEFFICIENTS; j++'
V_LINE = 'double v = a[i] * b[j];'
SUM, DIFFERENCE = 'c[i + j] += v;', 'c[i > j ? i - j : j - i] += v;'
PAIR = f'            if (i + j < COEFFICIENTS)\n                {SUM}\n            {DIFFERENCE}'
PAIR_AND = PAIR.replace('COEFFICIENTS)\n', 'COEFFICIENTS) {\n') + '\n            }'
FUSED_SUM, FUSED_DIFFERENCE = (f'c[{k}] = fma(a[i], b[j], c[{k}]);' for k in ('i + j', 'i > j ? i - j : j - i'))
FMA = '            double fma(double, double, double);\n'
ADD = '    add_pairs(a, b, c);\n'
HALVING = '    for (int k = 0; k < COEFFICIENTS; k++)\n        c[k] = c[k] / 2.0;\n'
HALF_FIRST = '    double half[COEFFICIENTS];\n' + HALVING.replace('c[k] = c', 'half[k] = a') + ADD.replace('(a', '(half')
OF_PRODUCTS = [
    ('i within j', LOOPS, LOOPS.replace(I, '?').replace(J, I).replace('?', J)),
    ('falling i', LOOPS, LOOPS.replace(I, 'int i = MAX_DEGREE; i >= 0; i--')),
    ('falling j', LOOPS, LOOPS.replace(J, 'int j = MAX_DEGREE; j >= 0; j--')),
    ('factors of the first product exchanged', 'product(g, w, p);', 'product(w, g, p);'),
    ('factors of the second product exchanged', 'product(w, p, v);', 'product(p, w, v);'),
    ('the halving first', ADD + HALVING, HALF_FIRST),
    ('not halved', ADD + HALVING, ADD),
    ('place 0 not halved', ADD + HALVING, ADD + HALVING.replace('k = 0', 'k = 1')),
    ('sums fused', PAIR, FMA + PAIR.replace(SUM, FUSED_SUM)),
    ('differences fused', PAIR, FMA + PAIR.replace(DIFFERENCE, FUSED_DIFFERENCE)),
    ('both fused', PAIR, FMA + PAIR.replace(SUM, FUSED_SUM).replace(DIFFERENCE, FUSED_DIFFERENCE)),
    ('products in extended precision', V_LINE, 'long double v = (long double)a[i] * b[j];'),
    ('products in single precision', V_LINE, 'float v = (float)(a[i] * b[j]);'),
    ('a double pair in one step', PAIR, '            if (i == 0 || j == 0) {\n                c[i + j] += 2.0 * v;\n'
     f'                continue;\n            }}\n{PAIR}'),
    ('place 32 dropped', 'if (i + j < COEFFICIENTS)', 'if (i + j < MAX_DEGREE)'),
    ('|i - j| dropped with i + j', PAIR, PAIR_AND),
    ('places beyond 32 put back', PAIR,
     f'{PAIR}\n            if (i + j > MAX_DEGREE)\n                c[2 * MAX_DEGREE - i - j] += v;'),
    ('|i - j| = 0 left out', DIFFERENCE, f'if (i != j || i == 0)\n                {DIFFERENCE}'),
]

X = 'if (change < x)\n            change = x;'
SUBTRACTED = 'p[k] = (k == 0 ? 2.0 : 0.0) - p[k];\n    product(w, p, v);\n'
STARTS = '    record[0] = 1.0 / g[0];\n'
ROUND = '        record[COEFFICIENTS] = improve(g, record);\n'
FINITE = '        if (!all_finite(record, RECIPROCAL_RECORD_SIZE))\n            return NOT_FINITE;\n'
IF_SETTLED = '        if (record[COEFFICIENTS] <= small)\n            *outcome = SETTLED;\n'
END = '    }\n    return 0;\n'
LOOP = ('    *outcome = GIVEN_UP;\n    for (int round = 0; round < ROUNDS && *outcome == GIVEN_UP; round++) {\n'
        f'{ROUND}{FINITE}{IF_SETTLED}{END}')
VALUE = 'values[k] = model[1 + k] / 1048576.0;'
KEEP = 'kept = record[COEFFICIENTS];\n'


ANSWER_KEPT = END.replace('    return', '    record[COEFFICIENTS] = kept;\n    return')


def keeping(before='', behind='', settled=IF_SETTLED, end=ANSWER_KEPT):
    """The rounds with a change kept beside them, before each round or behind it; it is answered in place of the last one."""
    return f'    double kept = 0.0;\n{LOOP}'.replace(ROUND, before + ROUND + behind).replace(IF_SETTLED + END, settled + end)


OF_ROUNDS = [
    ('2 at every place', '(k == 0 ? 2.0 : 0.0)', '2.0'),
    ('2 w - w (g w)', SUBTRACTED, 'p[k] = p[k] + 0.0;\n    product(w, p, v);\n    for (int k = 0; k < COEFFICIENTS; k++)\n'
     '        v[k] = 2.0 * w[k] - v[k];\n'),
    ('the sum of the differences', X, 'change += x;'),
    ('the last difference', X, 'change = x;'),
    ('the difference of w_0', X, 'if (k == 0)\n            change = x;'),
    ('differences without w_0', X, X.replace('(change', '(k > 0 && change')),
    ('differences without w_32', X, X.replace('(change', '(k < MAX_DEGREE && change')),
    ('differences with their sign', 'x = -x;', 'x = x + 0.0;'),
    ('the largest value for the difference', 'double x = v[k] - w[k];', 'double x = v[k];'),
    ('11 rounds', '#define ROUNDS 12', '#define ROUNDS 11'),
    ('13 rounds', '#define ROUNDS 12', '#define ROUNDS 13'),
    ('the change of the round before', LOOP, keeping(f'        if (round > 0)\n            {KEEP}')),
    ('the change of the first round', LOOP, keeping('', f'        if (round == 0)\n            {KEEP}')),
    ('the largest change of all rounds', LOOP, keeping('', f'        if (kept < record[COEFFICIENTS])\n            {KEEP}')),
    ('settled by the change of the round before', LOOP, keeping(
        '', '', IF_SETTLED.replace('record[COEFFICIENTS] <= small', 'round > 0 && kept <= small') + f'        {KEEP}', END)),
    ('settled below 2^-24 only', '<= small', '< small'),
    ('settled a little above 2^-24', '<= small', '<= small * (1.0 + 1.0 / 1048576.0)'),
    ('settled at 2^-23', '1.0 / 16777216.0', '2.0 / 16777216.0'),
    ('settled at 2^-25', '1.0 / 16777216.0', '0.5 / 16777216.0'),
    ('settled not tested in the twelfth round', '<= small', '<= small && round < ROUNDS - 1'),
    ('settled not tested in the first round', '<= small', '<= small && round > 0'),
    ('settled by the change over w_0', '<= small', '<= small * record[0]'),
    ('one more round once settled', IF_SETTLED,
     IF_SETTLED.replace(')\n', ') {\n            improve(g, record);\n') + '        }\n'),
    ('starts at 1', STARTS, '    record[0] = 1.0;\n'),
    ('starts at 1/g_0 in whole units', STARTS, '    record[0] = (double)to_unit(1.0 / g[0]) / 1048576.0;\n'),
    ('starts in single precision', STARTS, '    record[0] = 1.0f / (float)g[0];\n'),
    ('values in units', VALUE, 'values[k] = model[1 + k];'),
    ('values in single precision', VALUE, 'values[k] = (float)model[1 + k] / 1048576.0f;'),
    ('the last coefficient left out', VALUE, 'values[k] = k < model[0] || k == 0 ? model[1 + k] / 1048576.0 : 0.0;'),
    ('infinities pass', 'list[k] >= -DBL_MAX && list[k] <= DBL_MAX', 'list[k] == list[k]'),
    ('NaNs pass', '!(list[k] >= -DBL_MAX && list[k] <= DBL_MAX)', 'list[k] < -DBL_MAX || list[k] > DBL_MAX'),
    ('g_0 = 0 is 2', '(model[1] == 0)\n        return NOT_FINITE;', '(model[1] == 0)\n        return BAD_MODEL;'),
    ('given up is 15', IF_SETTLED + END, IF_SETTLED + END.replace('return 0', 'return *outcome == SETTLED ? 0 : NOT_FINITE')),
    ('settled and given up exchanged', 'GIVEN_UP = 0, SETTLED = 1', 'GIVEN_UP = 1, SETTLED = 0'),
]

# ---- Units: each must show in the entry of its own, and in the makers.  A reciprocal has no tie that a case could be made of:
# 2^41/g_0 would have to be near an odd number, and the other coefficients are not exact.

RISES, FALLS = 'if (rest > 0.5 || (rest == 0.5 && whole % 2 != 0))', 'if (rest < -0.5 || (rest == -0.5 && whole % 2 != 0))'
NEAREST = f'    {RISES}\n        whole++;\n    {FALLS}\n        whole--;\n'
CUT = '    if (!(scaled > -536870912.0 && scaled < 536870912.0))\n        return 536870912;\n'
LARGE = 'return sum > LIMIT ? LARGE_PROPOSAL : 0;'
WEIGH = 'sum += magnitude(unit);'
DEGREE = '    candidate[0] = MAX_DEGREE;\n'


def ties(above, below):
    return NEAREST.replace(RISES, f'if (rest > 0.5{above})').replace(FALLS, f'if (rest < -0.5{below})')


OF_TIES = [
    ('ties away from zero', NEAREST, ties(' || rest == 0.5', ' || rest == -0.5')),
    ('ties towards zero', NEAREST, ties('', '')),
    ('ties upwards', NEAREST, ties(' || rest == 0.5', '')),
    ('ties downwards', NEAREST, ties('', ' || rest == -0.5')),
    ('ties to the odd number', NEAREST, NEAREST.replace('!= 0', '== 0')),
    ('ties by the sum with a half', NEAREST, '    whole = (int64_t)(scaled + (scaled < 0.0 ? -0.5 : 0.5));\n'),
]
OF_UNITS = [
    ('cut towards zero', NEAREST, ''),
    ('rounded down', NEAREST, '    if (rest < 0.0)\n        whole--;\n'),
    ('value times S in single precision', 'double scaled = value * 1048576.0;', 'double scaled = (float)value * 1048576.0;'),
    ('2^28 refused', LARGE, LARGE.replace('>', '>=')),
    ('2^28 + 1 accepted', LARGE, LARGE.replace('LIMIT ?', 'LIMIT + 1 ?')),
    ('16 left out', LARGE, 'return sum < 0 ? LARGE_PROPOSAL : 0;'),
    ('the largest coefficient for the weight', WEIGH, 'sum = magnitude(unit) > sum ? magnitude(unit) : sum;'),
    ('the weight without the last', WEIGH, 'sum += k < MAX_DEGREE ? magnitude(unit) : 0;'),
    ('degree of the last that is not zero', DEGREE, '    candidate[0] = 0;\n    for (int k = 0; k < COEFFICIENTS; k++)\n'
     '        if (to_unit(values[k]) != 0)\n            candidate[0] = k;\n'),
    ('degree 0', DEGREE, '    candidate[0] = 0;\n'),
]
UNITS_FINITE = '    if (!all_finite(values, VALUES_SIZE))\n        return NOT_FINITE;\n'
UNITS_LARGE = '    uint32_t number = to_candidate(values, made);\n'
SOME_LARGE = ('    for (int k = 0; k < VALUES_SIZE; k++)\n        if (values[k] > 256.0 || values[k] < -256.0)\n'
              '            return LARGE_PROPOSAL;\n')
UNITS_SHORT = '!CLEAR(units, CANDIDATE_SIZE) || values_len < VALUES_SIZE'
OF_UNITS_ALONE = [
    ('cut at 2^28', CUT, CUT.replace('536870912.0', '268435456.0')),
    ('no cut', CUT, ''),
    ('cut to 2^28', CUT, CUT.replace('return 536870912', 'return LIMIT')),
    ('the sum with its signs', WEIGH, 'sum += unit;'),
    ('the sum in 32 bits', 'int64_t sum = 0;', 'int32_t sum = 0;'),
    ('the last value not looked at', UNITS_FINITE, UNITS_FINITE.replace('SIZE', 'SIZE - 1')),
    ('not finite is 16', UNITS_FINITE, ''),
    ('16 before 15', UNITS_FINITE, SOME_LARGE + UNITS_FINITE),
    ('32 values', 'values_len < VALUES_SIZE', 'values_len < VALUES_SIZE - 1'),
    ('34 values', 'values_len < VALUES_SIZE', 'values_len < CANDIDATE_SIZE'),
    ('units left on 1', UNITS_SHORT, 'values_len < VALUES_SIZE || !CLEAR(units, CANDIDATE_SIZE)'),
    ('units left on refusal', UNITS_SHORT, UNITS_SHORT.replace('!CLEAR(units, CANDIDATE_SIZE)', 'units_len < CANDIDATE_SIZE')),
    ('units kept on 16', '    if (number == 0)\n        memcpy(units', '    if (number != 1)\n        memcpy(units'),
]

# ---- Each maker: its areas, its models, what it stores

FIT = {RECIPROCAL: 'CLEAR(record, RECIPROCAL_RECORD_SIZE) & CLEAR(w, CANDIDATE_SIZE)\n'
       '              & CLEAR(outcome, OUTCOME_SIZE);\n',
       QUOTIENT: 'CLEAR(record, QUOTIENT_RECORD_SIZE) & CLEAR(h, CANDIDATE_SIZE)\n'
       '              & CLEAR(w, CANDIDATE_SIZE) & CLEAR(outcome, OUTCOME_SIZE);\n'}
SIZES = {RECIPROCAL: {'record': 'RECIPROCAL_RECORD_SIZE', 'w': 'CANDIDATE_SIZE', 'outcome': 'OUTCOME_SIZE'},
         QUOTIENT: {'record': 'QUOTIENT_RECORD_SIZE', 'h': 'CANDIDATE_SIZE', 'w': 'CANDIDATE_SIZE', 'outcome': 'OUTCOME_SIZE'}}
MODELS = {RECIPROCAL: 'uint32_t number = model_fault(g);\n', QUOTIENT: 'uint32_t number = operands_fault(f, g);\n'}
# What is not looked at, and where that alone makes the refusal.
WAVED = {'{}': 'model_fault({0}) != 0', 'the radius of {}': 'good_candidate({0}) && model_fault({0}) == BAD_MODEL',
         'the ends of {}': 'model_fault({0}) == BAD_ENDS'}
STORED = {RECIPROCAL: '    memcpy(record, made, sizeof made);\n    memcpy(w, units, sizeof units);\n    *outcome = ended;\n',
          QUOTIENT: '    memcpy(record, made, sizeof made);\n    memcpy(h, answer, sizeof answer);\n'
          '    memcpy(w, helper, sizeof helper);\n    *outcome = ended;\n'}


def waved(entry, model, others='1'):
    """The refusals of the models without one that this model makes, the others being good."""
    for name, condition in WAVED.items():
        yield (f'{name.format(model)} not looked at', MODELS[entry],
               MODELS[entry].replace('= ', f'= {condition.format(model)} && {others} ? 0 : '))


def of_each(entry):
    fit, stored = FIT[entry], STORED[entry]
    for area, size in SIZES[entry].items():
        clear = f'CLEAR({area}, {size})'
        yield f'{area} left on refusal', fit, fit.replace(clear, f'({area}_len >= {size})')
        yield f'{area} one number short accepted', fit, fit.replace(clear, f'CLEAR({area}, {size} - ({area}_len == {size} - 1))')
        yield f'{area} one number longer', fit, fit.replace(clear, f'CLEAR({area}, {size} + 1)')
    yield 'areas left where another is short', fit, fit.replace('&', '&&')
    yield ('areas left where a model is short', f'    int fit = {fit}',
           f'    if (g_len < MODEL_SIZE)\n        return SHORT_AREA;\n    int fit = {fit}')
    yield from waved(entry, 'g', *['model_fault(f) == 0'] * (entry == QUOTIENT))
    yield 'lists left out once given up', stored, f'    if (ended == GIVEN_UP)\n        return 0;\n{stored}'
    yield 'the last number of the record left out', stored, stored.replace('sizeof made', 'sizeof made - sizeof *made')
    yield 'outcome left at given up', stored, stored.replace('ended', 'GIVEN_UP')
    yield 'outcome always settled', stored, stored.replace('ended', 'SETTLED')


MADE = '        number = reciprocal(g, made, &ended);\n'
MADE_UNITS = '    if (number == 0)\n        number = to_candidate(made, units);\n'
ON_16 = '    if (number == LARGE_PROPOSAL)\n        '
OF_RECIPROCAL = [
    ('not finite is 16', FINITE, ''),
    ('w_0 alone is tested', FINITE, FINITE.replace('RECIPROCAL_RECORD_SIZE', '1')),
    ('not finite passes in the twelfth round', FINITE, FINITE.replace('(!', '(round < ROUNDS - 1 && !')),
    ('16 not once given up', MADE_UNITS, MADE_UNITS + ON_16 + 'number = ended == GIVEN_UP ? 0 : number;\n'),
    ('record kept on 16', MADE_UNITS, MADE_UNITS + ON_16 + 'memcpy(record, made, sizeof made);\n'),
    ('settled kept on 16', MADE_UNITS, MADE_UNITS + ON_16 + '*outcome = ended;\n'),
    ('degree kept on 16', MADE_UNITS, MADE_UNITS + ON_16 + 'w[0] = MAX_DEGREE;\n'),
    ('record kept on 15', MADE, MADE + '    if (number == NOT_FINITE && g[1] != 0)\n        memcpy(record, made, sizeof made);\n'),
]
FW = '    product(a, last, made);\n'
FW_FINITE = '    if (!all_finite(made, COEFFICIENTS))\n        return NOT_FINITE;\n'
H, W = 'to_candidate(made, answer)', 'to_candidate(last, helper)'
FW_LARGE = f'    if ({H} != 0 || {W} != 0)\n        return LARGE_PROPOSAL;\n'
IS_16 = '\n        return LARGE_PROPOSAL;\n'
GOOD = MODELS[QUOTIENT]
ROUNDS_OF_W = '    if (number == 0)\n        number = reciprocal(g, last, &ended);\n    if (number != 0)\n        return number;\n'
DIFFERENT = '    if (!same_interval(f, g))\n        return DIFFERENT_INTERVALS;\n'
STORE = STORED[QUOTIENT]
OF_QUOTIENT = [
    ('factors of f w exchanged', FW, FW.replace('a, last', 'last, a')),
    ('16 of w before 15 of f w', FW + FW_FINITE, f'{FW}    if ({W} != 0){IS_16}{FW_FINITE}'),
    ('f w not tested', FW_FINITE, ''),
    ('16 of h alone', FW_LARGE, f'    {W};\n    if ({H} != 0){IS_16}'),
    ('16 of w alone', FW_LARGE, f'    {H};\n    if ({W} != 0){IS_16}'),
    ('16 of both only', FW_LARGE, f'    if (({H} != 0) & ({W} != 0)){IS_16}'),
    ('both weights together', FW_LARGE, f'{FW_LARGE}    if (model_weight(answer) + model_weight(helper) > LIMIT){IS_16}'),
    ('16 not once given up', FW_LARGE, f'    if ((({H} != 0) | ({W} != 0)) && ended == SETTLED){IS_16}'),
    ('15 of w before 2 of f', GOOD,
     f'if (model_fault(g) == 0 && reciprocal(g, last, &ended) != 0)\n        return NOT_FINITE;\n    {GOOD}'),
    *waved(QUOTIENT, 'f'),
    ('19 left out', GOOD, GOOD.replace('operands', 'models')),
    ('19 after 15 of w', f'    {GOOD}{ROUNDS_OF_W}', f'    {GOOD.replace("operands", "models")}{ROUNDS_OF_W}{DIFFERENT}'),
    ('19 after 15 of f w', f'    {GOOD}{ROUNDS_OF_W}    to_values(f, a);\n{FW}{FW_FINITE}',
     f'    {GOOD.replace("operands", "models")}{ROUNDS_OF_W}    to_values(f, a);\n{FW}{FW_FINITE}{DIFFERENT}'),
    ('19 after 16', f'    {GOOD}{ROUNDS_OF_W}    to_values(f, a);\n{FW}{FW_FINITE}{FW_LARGE}',
     f'    {GOOD.replace("operands", "models")}{ROUNDS_OF_W}    to_values(f, a);\n{FW}{FW_FINITE}{FW_LARGE}{DIFFERENT}'),
    ('19 before the models', GOOD, f'{DIFFERENT.strip()}\n    {GOOD}'),
    ('h and w exchanged', STORE, STORE.replace('h, answer', 'h, helper').replace('w, helper', 'w, answer')),
    ('w before f w in the record', STORE, STORE.replace(
        'memcpy(record, made, sizeof made);',
        'memcpy(record, last, 34 * sizeof *record);\n    memcpy(record + 34, made, 33 * sizeof *record);')),
    ('f times w in whole units', FW, '    for (int k = 0; k < COEFFICIENTS; k++)\n'
     f'        last[k] = (double)to_unit(last[k]) / 1048576.0;\n{FW}'),
    ('record kept on 16', FW_LARGE, f'    memcpy(record, made, sizeof made);\n{FW_LARGE}'),
    ('settled kept on 16', FW_LARGE, f'    *outcome = ended;\n{FW_LARGE}'),
]

PROPOSAL_SLIPS = [
    *((f'makers: {name}, {entry}', entry, *texts) for name, *texts in (*OF_PRODUCTS, *OF_ROUNDS) for entry in BOTH),
    *((f'makers: {name}, {entry}', entry, *texts) for entry in BOTH for name, *texts in of_each(entry)),
    *((f'units: {name}, {entry}', entry, *texts) for name, *texts in OF_TIES for entry in (QUOTIENT, UNITS)),
    *((f'units: {name}, {entry}', entry, *texts) for name, *texts in OF_UNITS for entry in ALL),
    *((f'units: {name}', UNITS, *texts) for name, *texts in OF_UNITS_ALONE),
    *((f'reciprocal: {name}', RECIPROCAL, *texts) for name, *texts in OF_RECIPROCAL),
    *((f'quotient: {name}', QUOTIENT, *texts) for name, *texts in OF_QUOTIENT),
]
