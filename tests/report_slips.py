"""Slips of report records, for slips.py: wrong versions of plain/reports.h and of the run in plain/plain.c.
Each row: name, entry that must show it, old text, new text."""

BOTH, SERVICE, WORKSHOP = ('check_workshop', 'check_service'), ('check_service',), ('check_workshop',)
NUMBER = '    at[0] = (uint8_t)i;\n'
DEGREE = '    at[1] = (uint8_t)result[0];\n'
PLACE = 'uint8_t *at = room + i * record_size(report);'
BYTES = '    for (int k = 0; k < 4; k++)\n        at[k] = n >> 8 * k & 255;\n'
TESTED = '            at = write_field(at, numbers[k]);\n'
RADIUS = '    write_field(at, (uint64_t)result[RADIUS]);\n'
SIZES = 'report == NO_REPORT ? 0 : report == WORKSHOP ? 6 : 18'
ROOM = 'return MAX_RESULTS * record_size(report);'
CLEAR = 'memset(room, 0, room_size(report));'
FRESH = '        uint64_t numbers[NUMBERS_SIZE] = {0};\n'
WRITTEN = '        write_record(report, room, *count, result, numbers);\n'
SHORT = '\n        || room_len < room_size(report)'
FIT = '    if (!CLEAR(answer, ANSWER_SIZE) || work_len < WORK_SIZE || scratch_len < SCRATCH_SIZE' + SHORT + ')\n        return SHORT_AREA;\n'
FIRST_CLEAR = '    clear_room(report, room);\n    uint32_t number = run('
LAST_CLEAR = '        clear_room(report, room);\n        answer[1] = command;\n'
ACCEPT = '    numbers[0] = (uint64_t)m;\n    numbers[1] = (uint64_t)n;\n    numbers[2] = (uint64_t)b;\n'

REPORT_SLIPS = [(f'reports: {name}, {entry}', entry, old, new) for name, entries, old, new in (
    ('numbers from 1', BOTH, NUMBER, '    at[0] = (uint8_t)(i + 1);\n'),
    ('no number', BOTH, NUMBER, '    at[0] = 0;\n'),
    ('number and degree exchanged', BOTH, NUMBER + DEGREE, '    at[1] = (uint8_t)i;\n    at[0] = (uint8_t)result[0];\n'),
    ('no degree', BOTH, DEGREE, ''),
    ('the degree one more', BOTH, DEGREE, '    at[1] = (uint8_t)(result[0] + 1);\n'),
    ('the degree below 32', BOTH, DEGREE, '    at[1] = (uint8_t)(result[0] & 31);\n'),
    ('the degree of result 0', BOTH, DEGREE, '    at[1] = (uint8_t)(result - 37 * i)[0];\n'),
    ('the constant for the radius', BOTH, RADIUS, '    write_field(at, (uint64_t)result[1]);\n'),
    ('the lower end for the radius', BOTH, RADIUS, RADIUS.replace('RADIUS', 'LOWER')),
    ('no radius', BOTH, RADIUS, ''),
    ('big-endian', BOTH, BYTES, BYTES.replace('at[k]', 'at[3 - k]')),
    ('three bytes of a field', BOTH, BYTES, BYTES.replace('k < 4', 'k < 3')),
    ('two bytes of a field', BOTH, BYTES, BYTES.replace('k < 4', 'k < 2')),
    ('seven bits of a byte', BOTH, BYTES, BYTES.replace('255', '127')),
    ('m and N exchanged', SERVICE, TESTED, TESTED.replace('numbers[k]', 'numbers[k == 0 ? 1 : k == 1 ? 0 : 2]')),
    ('N and b exchanged', SERVICE, TESTED, TESTED.replace('numbers[k]', 'numbers[k == 2 ? 1 : k == 1 ? 2 : 0]')),
    ('b before m and N', SERVICE, TESTED, TESTED.replace('numbers[k]', 'numbers[(k + 2) % 3]')),
    ('the radius before b', SERVICE, TESTED, TESTED.replace('numbers[k]', 'k == 2 ? (uint64_t)result[RADIUS] : numbers[k]')),
    ('m, N and b for the workshop', WORKSHOP, 'if (report == SERVICE)', 'if (report == WORKSHOP)'),
    ('no m, N and b for the service', SERVICE, 'if (report == SERVICE)', 'if (report == NO_REPORT)'),
    ('the numbers of the last test stay', SERVICE, FRESH, FRESH.replace('uint64_t', 'static uint64_t')),
    ('m and N exchanged in a test', SERVICE, ACCEPT, ACCEPT.replace('[0]', '[3]').replace('[1]', '[0]').replace('[3]', '[1]')),
    ('no b of a test', SERVICE, ACCEPT, ACCEPT.replace('(uint64_t)b', '0')),
    ('a record of 7 bytes', WORKSHOP, SIZES, SIZES.replace('6', '7')),
    ('a record of 5 bytes', WORKSHOP, SIZES, SIZES.replace('6', '5')),
    ('a record of 17 bytes', SERVICE, SIZES, SIZES.replace('18', '17')),
    ('a record of 20 bytes', SERVICE, SIZES, SIZES.replace('18', '20')),
    ('records by the work area', BOTH, PLACE, 'uint8_t *at = room + (i < 10 ? 37 * i % room_size(report) : 0);'),
    ('each record over the first', BOTH, PLACE, 'uint8_t *at = room;'),
    ('31 records', BOTH, ROOM, 'return (MAX_RESULTS - 1) * record_size(report);'),
    ('a record more', BOTH, ROOM, 'return (MAX_RESULTS + 1) * record_size(report);'),
    ('one byte of the room left', BOTH, CLEAR, 'memset(room, 0, room_size(report) - 1);'),
    ('the first byte of the room left', BOTH, CLEAR, 'memset(room + 1, 0, room_size(report) - 1);'),
    ('one byte behind cleared', BOTH, CLEAR, 'memset(room, 0, room_size(report) + 1);'),
    ('records that were not made left', BOTH, FIRST_CLEAR, FIRST_CLEAR.split('\n')[1]),
    ('records kept after a refusal', BOTH, LAST_CLEAR, '        answer[1] = command;\n'),
    ('records kept after 11', BOTH, LAST_CLEAR, LAST_CLEAR.replace('clear_room', 'if (number != BYTES_AFTER_END)\n            clear_room')),
    ('records kept after a test fails', BOTH, LAST_CLEAR,
     LAST_CLEAR.replace('clear_room', 'if (number >= BAD_VALUE && number != NO_RADIUS)\n            clear_room')),
    ('a record before the command is judged', BOTH, WRITTEN, WRITTEN.replace('*count', '*count == 0 ? 0 : *count - 1')),
    ('no record of the 32nd result', BOTH, WRITTEN, '        if (*count < MAX_RESULTS - 1)\n    ' + WRITTEN),
    ('no record of loads', BOTH, WRITTEN, '        if (read.names > 0)\n    ' + WRITTEN),
    ('no record of 0x14', BOTH, WRITTEN, '        if (read.byte != 0x14)\n    ' + WRITTEN),
    ('no record of 0x22', BOTH, WRITTEN, '        if (read.byte != 0x22)\n    ' + WRITTEN),
    ('no record in edition 2', BOTH, WRITTEN, '        if (job[1] == 1)\n    ' + WRITTEN),
    ('the room not looked at', BOTH, SHORT, ''),
    ('a byte less needed', BOTH, SHORT, SHORT.replace('room_len <', 'room_len + 1 <')),
    ('a byte more needed', BOTH, SHORT, SHORT.replace('room_len <', 'room_len <=')),
    ('192 bytes for both', SERVICE, SHORT, '\n        || room_len < (report == NO_REPORT ? 0 : 192)'),
    ('576 bytes for both', WORKSHOP, SHORT, '\n        || room_len < (report == NO_REPORT ? 0 : 576)'),
    ('a room just as long and no longer', BOTH, SHORT, SHORT.replace('<', '!=')),
    ('the room cleared on 1', BOTH, FIT, FIT.replace(
        ')\n        return SHORT_AREA;', ') {\n        if (report != NO_REPORT && room_len > 0)\n            memset(room, 0, '
        'room_len < room_size(report) ? room_len : room_size(report));\n        return SHORT_AREA;\n    }')),
    ('the room cleared where another area is short', BOTH, FIT,
     '    if (report != NO_REPORT && room_len >= room_size(report))\n        clear_room(report, room);\n' + FIT),
    ('work cleared where the room is short', BOTH, FIT,
     FIT.replace(SHORT, '') + '    memset(work, 0, WORK_SIZE * sizeof *work);\n    if (room_len < room_size(report))\n        return SHORT_AREA;\n'),
    ('the answer left where the room is short', BOTH, FIT, '    if (room_len < room_size(report))\n        return SHORT_AREA;\n' + FIT),
    ('the workshop for the service', SERVICE, 'scratch_len, SERVICE, room', 'scratch_len, WORKSHOP, room'),
    ('the service for the workshop', WORKSHOP, 'scratch_len, WORKSHOP, room', 'scratch_len, SERVICE, room'),
    ('a job of no result refused', BOTH, FIRST_CLEAR, '    if (job_len == 3 && job[2] == 0)\n        return JOB_ENDS;\n' + FIRST_CLEAR),
) for entry in entries]
