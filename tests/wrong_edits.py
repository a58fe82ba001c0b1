"""Wrong versions of bench/plain.c: the first text, which occurs there once,
becomes the second. Those of shape codes, and of falling and concave curves,
are in wrong_shapes.py, those of the rule that reads a curve in wrong_rules.py,
those of halves in wrong_halves.py, those of Import in wrong_imports.py."""

CHECKED = '''\
    int64_t fault = lists_fault(c, values_len, slopes_len, shape, NULL);
'''
# The same where the call reads.
RULED = '''\
    uint32_t rule = shape;
    int64_t fault = lists_fault(c, values_len, slopes_len, shape, &rule);
'''
REFUSED_FAULT = '''\
    if (fault)
        return fault;
'''

POINTS = [
    # limits
    ('p.area > 20000', 'p.area > 20001'),
    ('p.area > 20000', 'p.area >= 20000'),
    ('- 1 > 1999', '- 1 > 2000'),
    ('- 1 > 1999', '- 1 >= 1999'),
    ('p.value > 200000', 'p.value > 200001'),
    ('p.value > 200000', 'p.value >= 200000'),
    ('p.slope < -10000', 'p.slope < -10001'),
    ('p.slope > 10000', 'p.slope >= 10000'),
    # the shape of a segment
    ('(a == 0 && b == 0)', '(a == 0)'),
    ('(a == 0 && b == 0)', '(b == 0)'),
    ('|| (a == 0 && b == 0)', ''),
    # the curve and the rounding
    ('(a * u + b * t)', '(a * t + b * u)'),
    ('(uint64_t)den;', '0;'),
    ('(uint64_t)den;', '(uint64_t)den - 1;'),
    ('(2 * (int64_t)l.value + 1)', '(2 * (int64_t)l.value)'),
    ('q - (n % d < 0)', 'q'),
    ('bt * (2 * bt) / w', 'bt * (2 * bt) / w - 1'),
    ('if (rise == 0)', 'if (rise <= 1)'),
    # number and place of a refusal
    ('* number + (int64_t)place', '* number'),
    ('* number + (int64_t)place', '* (int64_t)place + number'),
    ('-((INT64_C(1) << 32) * number + (int64_t)place)',
     '(INT64_C(1) << 32) * -number + (int64_t)place'),
    ('(INT64_C(1) << 32) * number', '(INT64_C(1) << 31) * number'),
]

FILE_COUNT = '''\
    if (count < 2 || count > 64)
        return refused(1, 0);
    if (shape'''

FILES = [
    ('bytes_len < 7 ', 'bytes_len < 8 '),
    ('bytes_len < 7 || ', ''),
    ('memcmp(bytes, "TRF\\1\\0", 5', 'memcmp(bytes, "TRF\\1\\0", 4'),
    ('memcmp(bytes, "TRF\\1\\0", 5', 'memcmp(bytes, "TRG\\1\\0", 5'),
    ('bytes_len != 7 + 12', 'bytes_len < 7 + 12'),
    ('bytes_len != 7 + 12', '(uint8_t)bytes_len != 7 + 12'),
    ('(uint32_t)p[3] << 24', '0'),
    (FILE_COUNT, FILE_COUNT.replace('> 64', '> 65')),
    (FILE_COUNT, FILE_COUNT.replace('> 64', '>= 64')),
    (FILE_COUNT, FILE_COUNT.replace('< 2', '< 3')),
    ('shapeless < count ? refused(6, shapeless)',
     'shapeless < count ? refused(5, shapeless)'),
]

DESK_HEAD = '''\
    int64_t fault = head_fault(bytes, bytes_len);
    if (fault)
        return desk_refused(fault);
'''
DESK_ROOM = '''\
    if (two ? scratch_len < 24 : scratch_len < 12 * count)
        return desk_refused(refused(11, 0));
'''
DESK_RECORDS = '    const uint8_t *records = bytes + 7;\n'
DESK_FAULT = '''\
    uint32_t rule = bytes[5];
    fault = file_fault(bytes, &rule);
    if (fault)
        return desk_refused(fault);
'''
DESK_ROWS = DESK_ROOM + DESK_RECORDS + DESK_FAULT
DESK_OUTSIDE = '''\
area < load32(records) || area > load32(records + 12 * (count - 1))'''
DESK_FIND = 'find_record(records, count, area);'
TWO_FACTOR = '        return segment_factor(l, r, rule, area);'
TWO_ROOM = 'two ? scratch_len < 24 :'
TWO_COPY = 'memcpy(scratch, left, 24);'
TWO_SHORT = '''\
    if (two && scratch_len < 24%s)
        return desk_refused(refused(11, 0));
'''


def alone(right, wrong):
    """The wrong expression in one desk reading, the right one in the other."""
    return [(right, '(two ? %s : %s)' % pair)
            for pair in ((wrong, right), (right, wrong))]


def row_11_after(number):
    """Row 11 after this row of rows 1 to 6 and those before it."""
    first = DESK_FAULT.replace(
        '(fault)\n', '(two && fault && -fault >> 32 <= %d)\n' % number)
    return DESK_RECORDS + first + DESK_ROOM + REFUSED_FAULT.replace(
        'fault;', 'desk_refused(fault);')


DESK = [
    # the scratch
    ('scratch_len < 12 * count', 'scratch_len <= 12 * count'),
    ('scratch_len < 12 * count', 'scratch_len + 1 < 12 * count'),
    ('scratch, records, 12 * count', 'scratch, records, 12 * count + 1'),
    ('scratch, records, 12 * count', 'scratch, records, 12 * count - 1'),
    (DESK_RECORDS, DESK_RECORDS.replace(
        '= bytes + 7', '= two ? bytes + 7 : memcpy(scratch, bytes + 7, 12 * count)')),
    ('return -1000000 - (int32_t)(-refusal >> 32);',
     'return -1000000 + (int32_t)(refusal >> 32);'),
    # the area read
    ('area < load32(records)', 'area + 1 < load32(records)'),
    ('area > load32(records', 'area >= load32(records'),
    ('12 * (low + half)) <= area ?', '12 * (low + half)) <= area + 1 ?'),
    # the same by one desk reading alone, and row 7 not tried
    *[pair for wrong in (
        DESK_OUTSIDE.replace('area <', 'area + 1 <'),
        DESK_OUTSIDE.replace('area >', 'area >='),
        DESK_OUTSIDE.replace('||', '&&'), '0')
      for pair in alone(DESK_OUTSIDE, wrong)],
]

TWO_ORDER = [
    # row 11: the length
    *[(TWO_ROOM, TWO_ROOM.replace('< 24', other)) for other in (
        '< 25', '< 23', '< 12', '< 36', '!= 24', '< 12 * count',
        '< 24 || scratch_len < 12 * count',
        '< 24 && scratch_len < 12 * count', '< 24 && count > 1',
        '< 24 && count != 0')],
    (TWO_ROOM, 'two ? 0 :'),
    (TWO_ROOM, 'two ? (uint8_t)scratch_len < 24 :'),
    (TWO_ROOM, 'two ? (uint16_t)scratch_len < 24 :'),
    # row 11: before row 9, before row 10, after others, another number
    (DESK_HEAD, TWO_SHORT % '' + DESK_HEAD),
    (DESK_HEAD, DESK_HEAD.replace(
        '    if', TWO_SHORT % ' && -fault >> 32 != 9' + '    if')),
    *[(DESK_ROWS, row_11_after(number)) for number in range(1, 7)],
    (DESK_ROWS, DESK_ROWS.replace('scratch_len < 24', '0') + TWO_SHORT
     % ' && !(%s)' % DESK_OUTSIDE),
    (DESK_ROOM, DESK_ROOM.replace('11', 'two ? 1 : 11')),
    (DESK_ROOM, DESK_ROOM.replace('11', 'two ? 12 : 11')),
    # the factor of the first segment, the last, the one before, the next
    *[(TWO_FACTOR, '        left = %s;\n        l = load_point(left), r = '
       'load_point(left + 12);\n' % record + TWO_FACTOR) for record in (
           'records', 'records + 12 * (count - 2)',
           'left > records ? left - 12 : left',
           'left + 24 < bytes + bytes_len ? left + 12 : left')],
    (TWO_FACTOR, TWO_FACTOR.replace('area', 'l.area')),
]

TWO_SCRATCH = [
    # which records: one twice, exchanged, one alone
    *[(TWO_COPY, 'memcpy(scratch, %s, 12), memcpy(scratch + 12, %s, 12);'
       % pair) for pair in (('left', 'left'), ('left + 12', 'left + 12'),
                            ('left + 12', 'left'))],
    (TWO_COPY, 'memcpy(scratch, left, 12);'),
    (TWO_COPY, 'memcpy(scratch + 12, left + 12, 12);'),
    # at a rated point the segment before, the next; beside it
    (DESK_FIND, 'find_record(records, count, two ? area + 1 : area);'),
    (DESK_FIND, 'find_record(records, count,\n'
     '                 two && area > load32(records) ? area - 1 : area);'),
    *[(TWO_COPY, 'memcpy(scratch, %s, 24);' % record) for record in (
        'area == l.area && left > records ? left - 12 : left',
        'area == l.area && left + 24 < bytes + bytes_len ? left + 12 : left',
        'area + 1 == r.area && left + 24 < bytes + bytes_len ? left + 12 : left',
        'area == l.area + 1 && left > records ? left - 12 : left',
        # at the last area beyond the last record, and before
        'area == r.area ? left + 12 : left',
        'area == r.area && count > 2 ? left - 12 : left',
        # the first, the last, without the head, the file from its start
        'records', 'records + 12 * (count - 2)', 'left - 7', 'bytes')],
    (TWO_COPY, '''\
{
        memcpy(scratch, left, 24);
        if (area == r.area)
            memcpy(scratch, left + 12, 12);
    }'''),
    # fewer bytes, more bytes, none
    *[(TWO_COPY, 'memcpy(scratch, left, %s);' % size) for size in (
        '0', '23', '25', '20', 'scratch_len < 12 * count ? 24 : 36',
        'scratch_len < 12 * count ? 24 : bytes + bytes_len - left')],
    (TWO_COPY, 'memcpy(scratch + 1, left + 1, 23);'),
    # all records where there is room; those after the two; bytes cleared
    (TWO_COPY, '''\
memcpy(scratch, scratch_len < 12 * count ? left : records,
               scratch_len < 12 * count ? 24 : 12 * count);'''),
    *[(TWO_COPY, '{\n        %s\n        %s\n    }' % (TWO_COPY, more))
      for more in (
          'memset(scratch + 24, 0, scratch_len - 24);',
          'if (scratch_len > 24)\n            scratch[24] = 0;',
          'scratch[scratch_len - 1] = 0;',
          'if (scratch_len >= 12 * count)\n'
          '            memcpy(scratch + 24, records + 24, 12 * count - 24);',
          # bytes of a field, a mirrored point
          'scratch[6] = 0;', 'scratch[11] = 0;', 'scratch[23] = 0;',
          'if (bytes[5] > 2)\n'
          '            store32(scratch + 4, 200000 - l.value);',
          'if (bytes[5] > 2)\n'
          '            store32(scratch + 20, (uint32_t)-r.slope);',
          # a byte beside the scratch
          'scratch[scratch_len] = 0;', 'scratch[-1] = 0;')],
    # written before a refusal: rows 1 to 6, row 7
    (DESK_RECORDS, DESK_RECORDS + '''\
    if (two && count > 1)
        memcpy(scratch, records, 24);
'''),
    (DESK_FAULT, DESK_FAULT + '''\
    if (two)
        memcpy(scratch, records, 24);
'''),
    # cleared on a refusal: rows 9 and 10, row 11, rows 1 to 6, row 7
    (DESK_HEAD, DESK_HEAD.replace('return', '''\
return two && scratch_len ? scratch[0] = 0, desk_refused(fault) :''')),
    (DESK_ROOM, DESK_ROOM.replace('return', '''\
return two && scratch_len ? memset(scratch, 0, scratch_len) : 0,''')),
    (DESK_FAULT, DESK_FAULT.replace('return', '''\
return two ? memset(scratch, 0, 24) : 0,''')),
    ('return desk_refused(refused(7, 0));', '''\
return two ? memset(scratch, 0, scratch_len) : 0,
               desk_refused(refused(7, 0));'''),
    # touching a scratch without bytes, writing what is to be read
    (DESK_HEAD, '''\
    if (two)
        (void)*(volatile uint8_t *)scratch;
''' + DESK_HEAD),
    (TWO_COPY, '*(volatile uint8_t *)bytes = bytes[0], ' + TWO_COPY),
]

CHECK = [
    ('(int64_t)areas_len - 1;', '(int64_t)areas_len;'),
    ('values_len != c.count ||', 'values_len < c.count ||'),
    ('values_len != c.count ||', 'values_len > c.count ||'),
    ('slopes_len != c.count)', 'slopes_len < c.count)'),
    ('slopes_len != c.count)', 'slopes_len > c.count)'),
    ('slopes_len != c.count)', '(uint8_t)slopes_len != c.count)'),
    ('slopes_len != c.count)', '(uint16_t)slopes_len != c.count)'),
    ('c.count < 2 ||', 'c.count < 1 ||'),
    ('c.count < 2 || c.count > 64', 'c.count < 2 || c.count > 65'),
    ('c.count < 2 || c.count > 64', 'c.count < 2 || c.count >= 64'),
    # the shape code before the lengths
    ('    if (values_len != c.count', '''    if (shape < 1 || shape > 4)
        return refused(2, 0);
    if (values_len != c.count'''),
    # places, the last segment for the first, segments before later points
    ('has_shape(l, r, shape) && shapeless == c.count', 'has_shape(l, r, shape)'),
    ('''shapeless == c.count)
            shapeless = i - 1;''', '''shapeless == c.count)
            shapeless = i;'''),
    ('''shapeless == c.count)
            shapeless = i - 1;''', '''shapeless == c.count)
            return refused(6, i - 1);'''),
    ('''            return refused(fault, i);
        if (!has_shape(l, r, shape) && shapeless == c.count)''',
     '''            return refused(fault, i - 1);
        if (!has_shape(l, r, shape) && shapeless == c.count)'''),
    # writing what is to be read, if only what it holds
    (CHECKED + '    return fault ?', '''    if (areas_len)
        *(volatile uint32_t *)areas = *(const volatile uint32_t *)areas;
''' + CHECKED + '    return fault ?'),
    # reading an entry of a list without entries, and one too many
    (CHECKED + '    return fault ?',
     '    (void)*(const volatile uint32_t *)values;\n' + CHECKED
     + '    return fault ?'),
    (CHECKED + '    return fault ?', '''    if (slopes_len)
        (void)*(const volatile int32_t *)(slopes + slopes_len);
''' + CHECKED + '    return fault ?'),
]

READ = [
    ('area < c.areas[0] ||', 'area + 1 < c.areas[0] ||'),
    ('area > c.areas[c.count - 1]', 'area >= c.areas[c.count - 1]'),
    ('area > c.areas[c.count - 1]', '(uint16_t)area > c.areas[c.count - 1]'),
    ('area > c.areas[c.count - 1]', '(int32_t)area > (int32_t)c.areas[c.count - 1]'),
    ('c.areas[low + half] <= area ?', 'c.areas[low + half] <= area + 1 ?'),
    ('''        return refused(7, 0);
    return factor(c''', '''        return refused(7, 1);
    return factor(c'''),
    ('    return factor(c, rule, area);',
     '    return (uint32_t)factor(c, rule, area);'),
    # row 7 before rows 1 to 6
    (RULED + REFUSED_FAULT + '''\
    if (outside(c, area))
        return refused(7, 0);
''', '''\
    if (areas_len && outside(c, area))
        return refused(7, 0);
''' + RULED + REFUSED_FAULT),
]

PAIR_ROOM = '''\
    if (out_len < 3)
        return refused(11, 0);
'''
PAIR_FORM = '''\
    if (outside(c, form))
        return refused(7, 0);
'''
PAIR_PLAN = '''\
    if (outside(c, plan))
        return refused(7, 1);
'''

PAIR = [
    # row 11 after rows 1 to 6, and after row 7
    (PAIR_ROOM + RULED + REFUSED_FAULT, RULED + REFUSED_FAULT + PAIR_ROOM),
    (PAIR_ROOM + RULED + REFUSED_FAULT + PAIR_FORM + PAIR_PLAN,
     RULED + REFUSED_FAULT + PAIR_FORM + PAIR_PLAN + PAIR_ROOM),
    ('out_len < 3', 'out_len < 2'),
    ('out_len < 3', 'out_len <= 3'),
    ('out_len < 3', 'out_len != 3'),
    # the plan area: its place, and before the form area
    ('return refused(7, 1);', 'return refused(7, 0);'),
    (PAIR_FORM + PAIR_PLAN, PAIR_PLAN + PAIR_FORM),
    # what is written, and when
    ('out[1] - out[0]', 'out[0] - out[1]'),
    ('''out[0] = factor(c, rule, form);
    out[1] = factor(c, rule, plan);''', '''out[1] = factor(c, rule, form);
    out[0] = factor(c, rule, plan);'''),
    (PAIR_PLAN + '    out[0] = factor(c, rule, form);\n',
     '    out[0] = factor(c, rule, form);\n' + PAIR_PLAN),
    ('    out[2] = out[1] - out[0];\n    return 3;',
     '    out[2] = out[1] - out[0];\n    return (int64_t)out_len;'),
    ('    out[2] = out[1] - out[0];', ''),
    ('    out[2] = out[1] - out[0];', '''\
    out[2] = out[1] - out[0];
    memset(out + 3, 0, 4 * (out_len - 3));'''),
]

SHEET_ROW_8 = '''\
    if (step == 0 || out_len == 0 || out_len > 1024)
        return refused(8, 0);
'''
SHEET_ROW_7 = '''\
    if (outside(c, start))
        return refused(7, 0);
'''

SHEET = [
    # a sum that wraps
    ('uint64_t last = start + (uint64_t)step * (out_len - 1)',
     'uint32_t last = start + step * (uint32_t)(out_len - 1)'),
    ('uint64_t last = start + (uint64_t)step * (out_len - 1)',
     'uint64_t last = start + (uint64_t)(uint32_t)(step * (out_len - 1))'),
    # row 8: its limits, before row 6, after row 7
    ('out_len > 1024)', 'out_len > 1025)'),
    ('out_len > 1024)', 'out_len >= 1024)'),
    ('out_len > 1024)', '(uint16_t)out_len > 1024)'),
    ('step == 0 || ', ''),
    ('out_len == 0 || ', ''),
    (RULED + REFUSED_FAULT + SHEET_ROW_8,
     SHEET_ROW_8 + RULED + REFUSED_FAULT),
    (SHEET_ROW_8 + SHEET_ROW_7, SHEET_ROW_7 + SHEET_ROW_8),
    # the place of row 7
    ('- start) / step + 1)', '- start) / step)'),
    ('(areas[areas_len - 1] - start) / step + 1', '0'),
    ('(areas[areas_len - 1] - start) / step + 1', 'out_len - 1'),
    # writing before refusing
    ('    if (last > areas[areas_len - 1])',
     '    out[0] = factor(c, rule, start);\n    if (last > areas[areas_len - 1])'),
    # touching a list without entries
    (SHEET_ROW_8, '    *(volatile int32_t *)out = *(volatile int32_t *)out;\n'
     + SHEET_ROW_8),
    # entries not written, another result
    ('start, step, out, out_len);', 'start, step, out, out_len - 1);'),
    ('start, step, out, out_len);', 'start, step, out, 1);'),
    ('r.area : (uint64_t)r.area + 1;', 'r.area : (uint64_t)r.area;'),
    ('i++, area += step)', 'i++, area += 1)'),
    ('return (int64_t)out_len;', 'return (int64_t)areas_len;'),
]

OPEN_ROOM = '''\
    if (areas_len < count || values_len < count || slopes_len < count)
        return refused(11, 0);
'''
OPEN_FAULT = '''\
    fault = file_fault(bytes, NULL);
    if (fault)
        return fault;
'''
OPEN_LOOP = '''\
    for (size_t i = 0; i < count; i++) {
        point p = load_point(bytes'''
OPEN_RESULT = '    return 256 * bytes[5] + (int64_t)count;'

OPEN = [
    # row 11: after row 1, each list, and lengths cut to a byte
    (OPEN_ROOM + OPEN_FAULT, OPEN_FAULT + OPEN_ROOM),
    ('areas_len < count ||', 'areas_len <= count ||'),
    ('areas_len < count ||', ''),
    ('|| values_len < count', ''),
    ('|| slopes_len < count', ''),
    ('slopes_len < count)', 'slopes_len < 64)'),
    ('slopes_len < count)', 'slopes_len != count)'),
    ('slopes_len < count)', '(uint8_t)slopes_len < count)'),
    ('slopes_len < count)', '(uint16_t)slopes_len < count)'),
    # entries not written, written too many, written before a refusal
    (OPEN_LOOP, OPEN_LOOP.replace('i < count', 'i + 1 < count')),
    (OPEN_LOOP, OPEN_LOOP.replace('i = 0', 'i = 1')),
    (OPEN_RESULT, '    memset(areas + count, 0, 4 * (areas_len - count));\n'
     + OPEN_RESULT),
    (OPEN_RESULT, '    memset(slopes, 0, 4 * (slopes_len - count));\n'
     + OPEN_RESULT),
    (OPEN_FAULT, '    values[0] = 0;\n' + OPEN_FAULT),
    ('areas[i] = p.area;', 'areas[i] = p.value;'),
    ('slopes[i] = p.slope;', 'slopes[i] = (uint16_t)p.slope;'),
    # the result, and a place
    ('256 * bytes[5] + (int64_t)count', '256 * (int64_t)count + bytes[5]'),
    ('256 * bytes[5] + (int64_t)count', '(int64_t)count'),
    ('''            return refused(fault, i);
        if (!has_shape(l, r, shape) && shapeless == count)''',
     '''            return refused(fault, 0);
        if (!has_shape(l, r, shape) && shapeless == count)'''),
    ('refused(6, shapeless) : 0;\n}\n\n/*\n', 'refused(6, 0) : 0;\n}\n\n/*\n'),
]

WRITE_LENGTH = '    size_t length = 7 + 12 * c.count;\n'
WRITE_ROOM = '''\
    if (out_len < length)
        return refused(12, 0);
'''
WRITE_ROWS = CHECKED + REFUSED_FAULT + WRITE_LENGTH + WRITE_ROOM
WRITE_MARK = '    memcpy(out, "TRF\\1\\0", 5);\n'
WRITE_SHAPE = '    out[5] = (uint8_t)shape;\n'
WRITE_COUNT = '    out[6] = (uint8_t)c.count;\n'
STORE = '    memcpy(p, &x, 4);\n'
WRITE_LOOP = 'for (size_t i = 0; i < c.count; i++) {'
WRITE_RECORD = 'out + 7 + 12 * i;'
WRITE_SLOPE = '(uint32_t)p.slope);'
WRITE_RESULT = '    return (int64_t)length;'


def row_12_before(number):
    """Row 12 before this row of rows 1 to 6 and those after it."""
    return (CHECKED + '    if (fault && -fault >> 32 < %d)\n' % number
            + '        return fault;\n' + WRITE_LENGTH + WRITE_ROOM
            + REFUSED_FAULT)


WRITE_ORDER = [
    # row 12 before another, or not tried; rows 1 to 6 not tried
    *[(WRITE_ROWS, row_12_before(number)) for number in range(1, 7)],
    (WRITE_LENGTH + WRITE_ROOM, WRITE_LENGTH),
    (WRITE_ROWS, WRITE_ROWS.replace('NULL);', 'NULL) * 0;')),
    (WRITE_ROWS, WRITE_ROWS.replace('(fault)', '(fault && -fault >> 32 != 6)')),
    (WRITE_ROWS, WRITE_ROWS.replace(' shape,', ' (uint8_t)shape,')),
    # the length that is needed
    ('out_len < length', 'out_len <= length'),
    ('out_len < length', 'out_len + 1 < length'),
    ('out_len < length', 'out_len != length'),
    ('out_len < length', 'out_len < 775'),
    ('out_len < length', 'out_len < 7'),
    ('out_len < length', '(uint8_t)out_len < length'),
    ('out_len < length', '(uint16_t)out_len < length'),
    ('length = 7 + 12 * c.count', 'length = 7 + 12 * (c.count - 1)'),
    ('length = 7 + 12 * c.count', 'length = (uint8_t)(7 + 12 * c.count)'),
    # number and place
    ('refused(12, 0)', 'refused(11, 0)'),
    ('refused(12, 0)', 'refused(12, 1)'),
    ('refused(12, 0)', 'refused(12, out_len)'),
    # writing before a refusal, and on one
    (WRITE_ROOM, '    if (out_len)\n        out[0] = 84;\n' + WRITE_ROOM),
    (WRITE_ROOM, WRITE_ROOM.replace(
        'return', 'return memset(out, 0, out_len),')),
    (WRITE_ROWS, WRITE_ROWS.replace(
        'return fault', 'return out_len ? out[out_len - 1] = 0, fault : fault')),
    # touching a buffer without bytes, or a byte beside it
    (WRITE_ROWS, '    *(volatile uint8_t *)out = *(volatile uint8_t *)out;\n'
     + WRITE_ROWS),
    (WRITE_RESULT, '    out[out_len] = 0;\n' + WRITE_RESULT),
    (WRITE_RESULT, '    out[-1] = 0;\n' + WRITE_RESULT),
    # writing what is to be read, if only what it holds
    (WRITE_RESULT, '    *(volatile int32_t *)slopes = slopes[0];\n'
     + WRITE_RESULT),
    # bytes after the file
    (WRITE_RESULT, '''\
    if (out_len > length)
        out[length] = 0;
''' + WRITE_RESULT),
    (WRITE_RESULT, '    memset(out + length, 0, out_len - length);\n'
     + WRITE_RESULT),
    # the result
    (WRITE_RESULT, '    return (int64_t)out_len;'),
    (WRITE_RESULT, '    return (int64_t)length - 1;'),
    (WRITE_RESULT, '    return 256 * shape + (int64_t)c.count;'),
]

WRITE_BYTES = [
    # the mark, the version, shape and count
    (WRITE_MARK, WRITE_MARK.replace('TRF', 'TRG')),
    (WRITE_MARK, WRITE_MARK.replace('TRF', 'FRT')),
    (WRITE_MARK, WRITE_MARK.replace('\\1\\0', '\\0\\1')),
    (WRITE_MARK, WRITE_MARK.replace('\\1', '\\2')),
    (WRITE_MARK, WRITE_MARK.replace('5', '4')),
    (WRITE_MARK, WRITE_MARK.replace('5', '3')),
    (WRITE_SHAPE, '    out[5] = 2;\n'),
    (WRITE_SHAPE, ''),
    (WRITE_COUNT, '    out[6] = (uint8_t)(c.count - 1);\n'),
    (WRITE_COUNT, '    out[6] = (uint8_t)length;\n'),
    (WRITE_COUNT, ''),
    (WRITE_SHAPE + WRITE_COUNT, '''\
    out[6] = (uint8_t)shape;
    out[5] = (uint8_t)c.count;
'''),
    # which points, and where
    (WRITE_LOOP, 'for (size_t i = 0; i + 1 < c.count; i++) {'),
    (WRITE_LOOP, 'for (size_t i = 1; i < c.count; i++) {'),
    (WRITE_RECORD, 'out + 7 + 12 * (c.count - 1 - i);'),
    (WRITE_RECORD, 'out + 6 + 12 * i;'),
    # fields exchanged
    ('store32(record, p.area);\n        store32(record + 4, p.value);',
     'store32(record, p.value);\n        store32(record + 4, p.area);'),
    ('store32(record + 4, p.value);\n        store32(record + 8, (uint32_t)',
     'store32(record + 8, p.value);\n        store32(record + 4, (uint32_t)'),
    # the order of a field's bytes, and bytes not written
    (STORE, 'x = (x & 0xFF0000FF) | (x >> 8 & 0xFF00) | (x & 0xFF00) << 8;\n'
     + STORE),
    (STORE, 'x = __builtin_bswap32(x);\n' + STORE),
    (STORE, 'x = x >> 16 | x << 16;\n' + STORE),
    (STORE, 'memcpy(p, &x, 3);'),
    (STORE, 'memcpy(p, &x, 2);'),
    (STORE, 'memcpy(p + 1, (uint8_t *)&x + 1, 3);'),
    (STORE, 'p[0] = (uint8_t)x;\n    memcpy(p + 2, (uint8_t *)&x + 2, 2);'),
    (STORE, 'x &= 0xFFFFFF;\n' + STORE),
    # fields cut
    ('store32(record, p.area);', 'store32(record, (uint8_t)p.area);'),
    ('store32(record, p.area);', 'store32(record, p.area & 0x3FFF);'),
    ('store32(record + 4, p.value);',
     'store32(record + 4, (uint16_t)p.value);'),
    ('store32(record + 4, p.value);',
     'store32(record + 4, p.value & 0x1FFFF);'),
    # slopes below 0
    (WRITE_SLOPE, '(uint16_t)p.slope);'),
    (WRITE_SLOPE, '(uint32_t)p.slope & 0xFFFFFF);'),
    (WRITE_SLOPE, '(uint32_t)(int8_t)p.slope);'),
    (WRITE_SLOPE, '(uint32_t)(p.slope < 0 ? -p.slope : p.slope));'),
    (WRITE_SLOPE, '(uint32_t)(p.slope < 0 ? p.slope ^ INT32_MAX : p.slope));'),
    (WRITE_SLOPE, '(uint32_t)p.slope & 0xFF00FFFF);'),
    (WRITE_SLOPE, '(uint32_t)(p.slope < 0 ? p.slope - 1 : p.slope));'),
    (WRITE_SLOPE, '(uint32_t)(p.slope == -1 ? 0 : p.slope));'),
    (WRITE_SLOPE, '(uint32_t)(p.slope > -10000 ? p.slope : -9999));'),
    (WRITE_SLOPE, '(uint32_t)(p.slope > 0 ? p.slope : 0));'),
]

FILL_LENGTHS = '    if (values_len != count || slopes_len != count)\n'
FILL_COUNT = '''\
    if (count < 2 || count > 64)
        return refused(1, 0);
    int64_t fault = rising'''
FILL_POINT = '        point p = {areas[i], values[i], 0};\n'
FILL_PLACE = '''\
            return refused(fault, i);
        if (i > 0'''
FALL = 'values[i] < values[i - 1] && fall == count'
FALL_AT = '            fall = i - 1;\n'
FALL_REFUSED = 'return fall < count ? refused(6, fall) : 0;'
FILL_FAULT = '''\
    int64_t fault = rising_fault(areas, values, count);
    if (fault)
        return fault;
'''
FILL_START = FILL_FAULT + '''\
    chord before = chord_at(areas, values, 0), after = before;
    for (size_t i = 0; i < count; i++) {
        uint64_t slope;
'''
FILL_ROW_5 = '''\
        if (slope > 10000)
            return refused(5, i);
'''
FILL_STORE = '        filled[i] = (int32_t)slope;\n'
FILL_END = '    memcpy(slopes, filled, count * sizeof slopes[0]);\n'
FILL_RESULT = '    return (int64_t)count;'

# Rows 3 and 4 not together: each area before any value.
AREAS_FIRST = '''\
    for (size_t i = 0; i < count; i++) {
        point p = {areas[i], 0, 0};
        if (point_fault(p, i == 0 ? 0 : areas[i - 1], i == 0))
            return refused(3, i);
    }
'''
# A slope above the range to the left of a falling segment before that.
SLOPES_ON_THE_WAY = FILL_START.replace(
    '(fault)', '(fault && -fault >> 32 != 6)') + '''\
        if (fault && i == (uint32_t)-fault)
            return fault;
'''
LAST_SLOPE_FIRST = FILL_START.replace(FILL_FAULT, FILL_FAULT + '''\
    if (count > 2 && end_slope(chord_at(areas, values, count - 2),
                               chord_at(areas, values, count - 3)) > 10000)
        return refused(5, count - 1);
''')

FILL_ROWS = [
    # row 1: each list, and lengths cut to one or two bytes
    (FILL_LENGTHS, '    if (values_len != count)\n'),
    (FILL_LENGTHS, '    if (slopes_len != count)\n'),
    (FILL_LENGTHS, FILL_LENGTHS.replace('slopes_len !=', 'slopes_len <')),
    (FILL_LENGTHS, FILL_LENGTHS.replace('slopes_len !=', 'slopes_len >')),
    (FILL_LENGTHS, FILL_LENGTHS.replace('slopes_len', '(uint8_t)slopes_len')),
    (FILL_LENGTHS, FILL_LENGTHS.replace('slopes_len', '(uint16_t)slopes_len')),
    (FILL_COUNT, FILL_COUNT.replace('< 2', '< 1')),
    (FILL_COUNT, FILL_COUNT.replace('< 2', '< 3')),
    (FILL_COUNT, FILL_COUNT.replace('> 64', '>= 64')),
    (FILL_COUNT, FILL_COUNT.replace('> 64', '> 65')),
    # rows 3 and 4: their order, and the place
    (FILL_POINT, '''\
        if (values[i] > 200000)
            return refused(4, i);
''' + FILL_POINT),
    ('    size_t fall = count;\n', '    size_t fall = count;\n' + AREAS_FIRST),
    (FILL_PLACE, FILL_PLACE.replace('(fault, i)', '(fault, 0)')),
    # row 6: its place, level segments, later points
    (FALL_AT, '            fall = i;\n'),
    (FALL_AT, '            return refused(6, i - 1);\n'),
    (FALL, 'values[i] < values[i - 1]'),
    (FALL, 'values[i] <= values[i - 1] && fall == count'),
    (FALL, 'values[i] + 1 < values[i - 1] && fall == count'),
    # row 6: not for a curve that falls from end to end
    (FALL_REFUSED, FALL_REFUSED.replace(
        '?', '&& values[0] <= values[count - 1] ?')),
    # row 5: before row 6, its limit, slopes cut before it is tried
    (FILL_START, SLOPES_ON_THE_WAY),
    (FILL_ROW_5, FILL_ROW_5.replace('> 10000', '>= 10000')),
    (FILL_ROW_5, FILL_ROW_5.replace('> 10000', '> 10001')),
    (FILL_ROW_5, FILL_ROW_5.replace('slope >', '(uint32_t)slope >')),
    (FILL_ROW_5, FILL_ROW_5.replace('slope >', '(int32_t)slope >')),
    (FILL_ROW_5, FILL_ROW_5.replace('slope >', '(uint16_t)slope >')),
    ('        uint64_t slope;\n', '        uint32_t slope;\n'),
    # row 5: not at every point, its place, the last before the inner ones
    (FILL_ROW_5, FILL_ROW_5.replace('10000', '10000 && i + 1 < count')),
    (FILL_ROW_5, FILL_ROW_5.replace('(5, i)', '(5, 0)')),
    (FILL_ROW_5, FILL_ROW_5.replace('(5, i)', '(5, i + 1)')),
    (FILL_START, LAST_SLOPE_FIRST),
    (FILL_ROW_5, '        slope = slope > 10000 ? 10000 : slope;\n'),
]

FILL_LIST = [
    # written before a refusal, and on one
    (FILL_STORE, '        filled[i] = slopes[i] = (int32_t)slope;\n'),
    (FILL_FAULT, FILL_FAULT.replace('return', 'return slopes[0] = 0,')),
    (FILL_LENGTHS, FILL_LENGTHS + '        memset(slopes, 0, 4 * slopes_len);\n'
     + FILL_LENGTHS),
    # an entry too few, one too many, zeros left out
    (FILL_END, FILL_END.replace('count', '(count - 1)')),
    (FILL_END, FILL_END.replace('slopes, filled, count',
                                'slopes + 1, filled + 1, (count - 1)')),
    (FILL_END, FILL_END + '    slopes[count] = 0;\n'),
    (FILL_END, FILL_END + '    slopes[-1] = 0;\n'),
    (FILL_END, '''\
    for (size_t i = 0; i < count; i++)
        if (filled[i])
            slopes[i] = filled[i];
'''),
    (FILL_STORE, '        filled[i] = (int8_t)slope;\n'),
    # what the list held: tried by row 5, kept if it is a slope, looked at
    (FILL_START, '''\
    for (size_t i = 0; i < count; i++)
        if (slopes[i] < -10000 || slopes[i] > 10000)
            return refused(5, i);
''' + FILL_START),
    (FILL_STORE, FILL_STORE + '''\
        if (slopes[i] > 0 && slopes[i] <= 10000)
            filled[i] = slopes[i];
'''),
    (FILL_STORE, '''\
        filled[i] = (int32_t)slope + (slopes[i] == INT32_MIN);
'''),
    # touching a list without entries, one to be read, and an entry beside
    (FILL_LENGTHS, '    (void)*(volatile int32_t *)slopes;\n' + FILL_LENGTHS),
    (FILL_END, '    *(volatile uint32_t *)values = values[0];\n' + FILL_END),
    (FILL_END, '    (void)*(const volatile uint32_t *)(areas + count);\n'
     + FILL_END),
    # the result
    (FILL_RESULT, '    return (int64_t)count - 1;'),
    (FILL_RESULT, '    return 256 + (int64_t)count;'),
]

INNER_LEVEL = '    if (l.rise == 0 || r.rise == 0)\n        return 0;\n'
INNER = '''\
    return 100 * l.rise * r.rise * (l.gap + r.gap) /
           (l.gap * r.gap * (l.rise + r.rise));
'''
OWN_LEVEL = '    if (own.rise == 0)\n        return 0;\n'
OTHER_LEVEL = '        return 200 * own.rise / own.gap;\n'
END = '''\
    return 100 * own.rise * (own.rise + other.rise) * other.gap /
           (own.gap * (own.gap + other.gap) * other.rise);
'''
TWO_POINTS = '''\
        if (count == 2)
            slope = 100 * after.rise / after.gap;
        else if (i == 0)
'''
FIRST = 'end_slope(after, chord_at(areas, values, 1))'
LAST = 'end_slope(before, chord_at(areas, values, i - 2))'

# The chord slopes of the formulas in doubles, and in rounded hundredths.
DOUBLES = '''\
    double p = (double)%s.rise / (double)%s.gap;
    double q = (double)%s.rise / (double)%s.gap;
    double across = (double)(%s.rise + %s.rise) / (double)(%s.gap + %s.gap);
'''
ROUNDED = '''\
    uint64_t p = 100 * %s.rise / %s.gap, q = 100 * %s.rise / %s.gap;
    uint64_t across = 100 * (%s.rise + %s.rise) / (%s.gap + %s.gap);
'''


def of_chords(form, one, other):
    return form % ((one, one, other, other) + (one, other) * 2)


def quotient(formula, result):
    """The formula with another end: n and d are its two parts."""
    above, below = formula.strip()[len('return '):-1].split(' /\n')
    return '    uint64_t n = %s, d = %s;\n    return %s;\n' % (
        above, below.strip(), result)


FILL_SLOPES = [
    # inner slopes: without weights, weights exchanged, other means
    (INNER, '    return 200 * l.rise * r.rise /\n'
     '           (l.rise * r.gap + r.rise * l.gap);\n'),
    (INNER, '    return 100 * l.rise * r.rise * (l.gap + r.gap) /\n'
     '           (l.gap * l.gap * r.rise + r.gap * r.gap * l.rise);\n'),
    (INNER, '    return 100 * (l.rise * r.gap * r.gap + r.rise * l.gap * l.gap) /\n'
     '           (l.gap * r.gap * (l.gap + r.gap));\n'),
    (INNER, '    return 100 * (l.rise + r.rise) / (l.gap + r.gap);\n'),
    # one side level, both sides level
    (INNER_LEVEL, INNER_LEVEL.replace('|| r.rise', '&& r.rise').replace(
        '0;', '0;\n    if (l.rise == 0)\n        return 100 * r.rise / r.gap;')),
    (INNER_LEVEL, ''),
    # ends: chords exchanged, the last not mirrored, gaps exchanged
    (FIRST, 'end_slope(chord_at(areas, values, 1), after)'),
    (LAST, 'end_slope(chord_at(areas, values, i - 2), before)'),
    (LAST, 'end_slope(chord_at(areas, values, 0), chord_at(areas, values, 1))'),
    (LAST, '100 * before.rise / before.gap'),
    (END, END.replace('* other.gap /', '* own.gap /')),
    (END, '    return 50 * own.rise * (own.rise * other.gap + other.rise * own.gap)'
     ' /\n           (own.gap * own.gap * other.rise);\n'),
    # ends: the formula of the arithmetic mean
    (END, '''\
    uint64_t a = own.rise * other.gap * (2 * own.gap + other.gap);
    uint64_t b = other.rise * own.gap * own.gap;
    return a > b ? 100 * (a - b) / (own.gap * other.gap *
                                    (own.gap + other.gap)) : 0;
'''),
    # ends beside a level segment, or level themselves
    (OTHER_LEVEL, OTHER_LEVEL.replace('200', '100')),
    (OTHER_LEVEL, '        return 2 * (100 * own.rise / own.gap);\n'),
    (OTHER_LEVEL, '        return 0;\n'),
    (OTHER_LEVEL, '        return 10000;\n'),
    (OWN_LEVEL, OWN_LEVEL.replace('0;', '100 * other.rise / other.gap;')),
    # two points: twice the chord, no rule of their own
    (TWO_POINTS, TWO_POINTS.replace('100', '200')),
    (TWO_POINTS, '        if (i == 0)\n'),
    # rounded to the nearest, halves up and to even, and up; above the range by
    # a part of a hundredth
    (TWO_POINTS, TWO_POINTS.replace('100 * after.rise /',
                                    '(100 * after.rise + after.gap / 2) /')),
    (OTHER_LEVEL, '        return (200 * own.rise + own.gap / 2) / own.gap;\n'),
    *[(formula, quotient(formula, result)) for formula in (INNER, END)
      for result in ('(n + d / 2) / d', '(n + d - 1) / d',
                     'n / d + (2 * (n % d) + (n / d & 1) > d)',
                     'n > 10000 * d ? 10001 : n / d')],
    (TWO_POINTS, TWO_POINTS.replace('100 * after.rise /', '''\
after.rise > 100 * after.gap ? 10001 : 100 * after.rise /''')),
    # chord slopes rounded first, in doubles, in 32 bits
    (INNER, of_chords(ROUNDED, 'l', 'r')
     + '    return across ? p * q / across : 0;\n'),
    (END, of_chords(ROUNDED, 'own', 'other')
     + '    return q ? p * across / q : 2 * p;\n'),
    (INNER, of_chords(DOUBLES, 'l', 'r')
     + '    return (uint64_t)(100 * (p * q / across));\n'),
    (END, of_chords(DOUBLES, 'own', 'other')
     + '    return (uint64_t)(100 * (p * across / q));\n'),
    ('    uint64_t rise, gap;\n', '    uint32_t rise, gap;\n'),
]

# For the comparison.
COMPARED = [
    ('of points and segments', POINTS),
    ('of curve files', FILES),
    ('of desk_reading, and of both', DESK),
    ('of desk_reading_two, its numbers', TWO_ORDER),
    ('of desk_reading_two, its scratch', TWO_SCRATCH),
    ('of curve_check', CHECK),
    ('of curve_read', READ),
    ('of curve_pair', PAIR),
    ('of curve_sheet', SHEET),
    ('of curve_open', OPEN),
    ('of curve_write, its refusals and its buffer', WRITE_ORDER),
    ('of curve_write, the bytes of its file', WRITE_BYTES),
    ('of curve_fill_slopes, its refusals', FILL_ROWS),
    ('of curve_fill_slopes, its list', FILL_LIST),
    ('of curve_fill_slopes, the slopes', FILL_SLOPES),
]

# Lengths cut to 32 bits.
FAR = [
    ('values_len != c.count ||', '(uint32_t)values_len != c.count ||'),
    ('slopes_len != c.count)', '(uint32_t)slopes_len != c.count)'),
    ('    if (values_len != c.count',
     '    c.count = (uint32_t)c.count;\n    if (values_len != c.count'),
    ('out_len < 3', '(uint32_t)out_len < 3'),
    ('out_len > 1024)', '(uint32_t)out_len > 1024)'),
    ('bytes_len != 7 + 12', '(uint32_t)bytes_len != 7 + 12'),
    ('areas_len < count ||', '(uint32_t)areas_len < count ||'),
    ('slopes_len < count)', '(uint32_t)slopes_len < count)'),
    ('scratch_len < 12 * count', '(uint32_t)scratch_len < 12 * count'),
    (TWO_ROOM, 'two ? (uint32_t)scratch_len < 24 :'),
    ('out_len < length', '(uint32_t)out_len < length'),
    ('size_t count = areas_len;', 'size_t count = (uint32_t)areas_len;'),
    ('values_len != count ||', '(uint32_t)values_len != count ||'),
    ('slopes_len != count)', '(uint32_t)slopes_len != count)'),
]

# Memory that is kept between calls.
SHARED = [
    ('    point l = point_at(c, 0);\n',
     '    static point l;\n    l = point_at(c, 0);\n'),
    ('    point l = load_point(records);\n',
     '    static point l;\n    l = load_point(records);\n'),
    (TWO_COPY, '''\
{
        static uint8_t kept[24];
        memcpy(kept, left, 24);
        memcpy(scratch, kept, 24);
    }'''),
    ('    uint64_t area = start + (uint64_t)step * i;\n',
     '    static volatile uint64_t area;\n'
     '    area = start + (uint64_t)step * i;\n'),
    (WRITE_LENGTH, WRITE_LENGTH.replace('size_t length',
                                        'static size_t length;\n    length')),
    ('    int32_t filled[64];\n', '    static int32_t filled[64];\n'),
]
