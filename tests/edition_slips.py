"""Slips of editions and of their converter, for slips.py: wrong versions of plain/plain.c, plain/reading.h and plain/editions.c.
Each row: name, entry that must show it, old text, new text."""

# ---- What 255 stands for

LARGER = 'kept = (uint32_t)(a[0] > b[0] ? a[0] : b[0]);'
OPEN = 'edition == 1 && operands[2] == DEFAULT_KEPT ? MAX_DEGREE : operands[2]'
ADMITTED = 'return operands[0] == 1 || operands[0] == 2 ? 0 : BAD_VALUE;'
OF_PRODUCTS = [(f'255 {name}, {entry}', entry, LARGER, f'kept = {rule};') for name, rule in (
    ('is 32', 'MAX_DEGREE'), ('is the sum', '(uint32_t)(a[0] + b[0])'), ('is the smaller', '(uint32_t)(a[0] < b[0] ? a[0] : b[0])'),
    ('is the first', '(uint32_t)a[0]'), ('is the second', '(uint32_t)b[0]'),
    ('is one more', '(uint32_t)(a[0] > b[0] ? a[0] : b[0]) + 1')) for entry in ('multiply', 'check')]
OF_JOBS = [(f'job: {name}', 'check', old, new) for name, old, new in (
    ('0xFF the larger in edition 1', OPEN, 'edition > 0 ? operands[2] : 0'),
    ('0xFF 32 in edition 2', OPEN, OPEN.replace('edition == 1 && ', '')),
    ('the editions exchanged', OPEN, OPEN.replace('== 1', '== 2')),
    ('edition 2 refused', ADMITTED, 'return operands[0] == 1 ? 0 : BAD_VALUE;'),
    ('edition 3 admitted', ADMITTED, ADMITTED.replace('operands[0] == 2', 'operands[0] == 2 || operands[0] == 3')),
    ('edition 0 admitted', ADMITTED, ADMITTED.replace('operands[0] == 1', 'operands[0] < 2')),
    ('every edition admitted', ADMITTED, 'return 0;'),
)]

# ---- The converter

ENTRY = 'convert_edition'
SUM = 'return sum < kept ? (uint8_t)sum : kept;'
HIGH = 'return degree < MAX_DEGREE ? degree : MAX_DEGREE;'
STANDS = 'larger(degrees[read.operands[0]], degrees[read.operands[1]])'
IN_2 = '                if (job[1] == 2)\n'
ROOM = '    if (out_len < job_len)\n        return SHORT_OUTPUT;\n'
COPY = '    memcpy(out, job, job_len);\n'
EDITION = '    out[1] = (uint8_t)(3 - job[1]);\n'
REPLACE = '        out[places[i]] = kept[i];\n'
CLEARED = '    if (number != 0 && out_len > 0)\n        memset(out, 0, out_len);\n'
FITS = '    if (CLEAR(answer, ANSWER_SIZE)) {\n'
COMMAND = '    *command = 0;\n    if (out_len'
WALK = '    for (*command = 0;; ++*command) {\n'
TOLD = 'answer[number == 0 ? 0 : 1] = number == 0 ? (uint32_t)job_len : command;'
OF_CONVERTER = [(f'convert: {name}', ENTRY, old, new) for name, old, new in (
    ('the sum for the larger', STANDS, '(uint8_t)(degrees[read.operands[0]] + degrees[read.operands[1]])'),
    ('the first factor', STANDS, 'degrees[read.operands[0]]'),
    ('the second factor', STANDS, 'degrees[read.operands[1]]'),
    ('32 in edition 2', IN_2, '                if (job[1] == 3)\n'),
    ('the larger in edition 1', IN_2, ''),
    ('the editions exchanged', IN_2, IN_2.replace('== 2', '== 1')),
    ('0xFF kept', REPLACE, '        out[places[i]] = DEFAULT_KEPT;\n'),
    ('0xFF kept where it stood for 32', REPLACE, '        out[places[i]] = kept[i] == MAX_DEGREE ? DEFAULT_KEPT : kept[i];\n'),
    ('the first 0xFF kept', '    for (uint32_t i = 0; i < replaced', '    for (uint32_t i = 1; i < replaced'),
    ('the last 0xFF kept', 'i < replaced', 'i + 1 < replaced'),
    ('the byte before replaced', '(read.operands + 2 - job)', '(read.operands + 1 - job)'),
    ('0xFF replaced everywhere', COPY, f'{COPY}    for (size_t i = 0; i < job_len; i++)\n        if (out[i] == 255)\n'
                                       '            out[i] = MAX_DEGREE;\n'),
    ('the edition not changed', EDITION, ''),
    ('edition 2 always', EDITION, '    out[1] = 2;\n'),
    ('the sum of a product left out', SUM, 'return kept;'),
    ('the kept degree of a product left out', SUM, 'return sum < MAX_DEGREE ? (uint8_t)sum : MAX_DEGREE;'),
    ('the sum of a product in 8 bits after 32', SUM, 'return (uint8_t)(sum & 31) < kept ? (uint8_t)(sum & 31) : kept;'),
    ('degree bytes above 32 as they are', HIGH, 'return degree;'),
    ('degree bytes above 32 as 0', HIGH, 'return degree <= MAX_DEGREE ? degree : 0;'),
    ('the degree of a test from its name', 'c->operands[c->names];', 'c->operands[0];'),
    ('the degree of a test from w', 'c->operands[c->names];',
     'c->operands[c->names + (c->names > 0 ? BLOCK_BYTES : 0)];'),
    ('a sum by its first', 'return larger(degrees[c->operands[0]], degrees[c->operands[1]]);', 'return degrees[c->operands[0]];'),
    ('a difference by the byte behind', 'if (c->byte == 0x11 || c->byte == 0x12)', 'if (c->byte == 0x11)'),
    ('20 before reading', WALK, f'{ROOM}{WALK}'),
    ('20 never', ROOM, '    if (out_len < job_len)\n        return 0;\n'),
    ('20 for an output just as long', ROOM, ROOM.replace('<', '<=')),
    ('20 by two bytes', ROOM, ROOM.replace('out_len <', 'out_len + 1 <')),
    ('20 with the last command', COMMAND, COMMAND.replace('    *command = 0;\n', '')),
    ('the output zero only up to the length', CLEARED, CLEARED.replace('0, out_len)', '0, out_len < job_len ? out_len : job_len)')),
    ('the output left after a refusal', CLEARED, ''),
    ('the output left after a short answer', CLEARED, CLEARED.replace('number != 0', 'number > 1')),
    ('the output left after 20', CLEARED, CLEARED.replace('number != 0', 'number != 0 && number != SHORT_OUTPUT')),
    ('the output left after a refusal of reading', CLEARED, CLEARED.replace('number != 0', '(number == 1 || number == SHORT_OUTPUT)')),
    ('one byte behind the output cleared', CLEARED, CLEARED.replace('0, out_len)', '0, out_len + 1)')),
    ('bytes behind cleared', COPY, f'    memset(out, 0, out_len);\n{COPY}'),
    ('one byte behind cleared', COPY, f'{COPY}    if (out_len > job_len)\n        out[job_len] = 0;\n'),
    ('an answer of 1 accepted', FITS, '    if (answer_len > 0 && clear(answer, answer_len, 1, sizeof *answer)) {\n'),
    ('an answer of 3 needed', FITS, '    if (answer_len > ANSWER_SIZE && CLEAR(answer, ANSWER_SIZE)) {\n'),
    ('a short answer cleared', FITS, f'    if (answer_len == 1)\n        answer[0] = 0;\n{FITS}'),
    ("the output's length answered", TOLD, TOLD.replace('(uint32_t)job_len', '(uint32_t)out_len')),
    ('no command answered', TOLD, TOLD.replace(': command', ': 0')),
    ('the command in the place of the length', TOLD, 'answer[0] = number == 0 ? (uint32_t)job_len : command;'),
    ('the end not looked behind', '*position < job_len ? BYTES_AFTER_END : 0', '0'),
    ('12 after 13', '    for (size_t i = 0; i < names; i++)',
     '    if (count == MAX_RESULTS)\n        return TOO_MANY_RESULTS;\n    for (size_t i = 0; i < names; i++)'),
    ('edition 2 refused', ADMITTED, 'return operands[0] == 1 ? 0 : BAD_VALUE;'),
    ('edition 3 admitted', ADMITTED, ADMITTED.replace('operands[0] == 2', 'operands[0] == 2 || operands[0] == 3')),
    ('0x14 unknown', '    case 0x14: *width', '    case 0x15: *width'),
    ('0x22 unknown', '    case 0x22: *width', '    case 0x23: *width'),
)]

EDITION_SLIPS = [(f'editions: {name}', *rest) for name, *rest in OF_PRODUCTS + OF_JOBS + OF_CONVERTER]
