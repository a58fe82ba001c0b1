"""Wrong versions of bench/plain.c as wrong_edits.py has them: of the rule by
which a curve is read, item 8. A version may be a list of edits."""

from wrong_edits import CHECKED, OPEN_FAULT, REFUSED_FAULT, RULED, TWO_FACTOR
from wrong_shapes import (DESK_FACTOR, FILE_CALLS, FORM_FACTOR, IN_FILES,
                          IN_LISTS, LIST_CALLS, OPENED, PLAN_FACTOR,
                          READ_FACTOR, TRIED, WRITTEN_SHAPE, in_each_call)

# ---- how the rule of code 1 is found, in files and in lists ----

FOUND_FILES = '''\
    size_t run = rule ? convex_run(records, count) : 0;
    if (run < count - 1)
        return scan(records, count, RISING, run);
    *rule = CONVEX;
    return 0;
'''
FOUND_LISTS = '''\
    size_t run = rule ? convex_run_of_lists(c) : 0;
    if (run < c.count - 1)
        return scan_lists(c, RISING, run);
    *rule = CONVEX;
    return 0;
'''
# After the rising test: how many of n segments pass a test, and whether the
# first and the last one do.
COUNTED = '''\
    int64_t fault = %(scan)s;
    size_t n = %(count)s - 1, passed = 0, first = 0, last = 0;
    for (size_t k = 0; rule && !fault && k < n; k++) {
        point l = %(left)s, r = %(right)s;
        int32_t h = (int32_t)(r.area - l.area);
        int32_t rise = 100 * (int32_t)(r.value - l.value);
        int32_t b = rise - h * l.slope, a = h * r.slope - rise;
        last = %(test)s;
        first |= k == 0 && last;
        passed += last;
    }
    if (rule && !fault && (%(rule)s))
        *rule = CONVEX;
    return fault;
'''
FILES = {'scan': 'scan(records, count, RISING, 0)', 'count': 'count',
         'left': 'load_point(records + 12 * k)',
         'right': 'load_point(records + 12 * k + 12)'}
LISTS = {'scan': 'scan_lists(c, RISING, 0)', 'count': 'c.count',
         'left': 'point_at(c, k)', 'right': 'point_at(c, k + 1)'}
PASSES, ALL = '(a > 0 && b > 0) || (a == 0 && b == 0)', 'passed == n'


def found_by(test, rule):
    """By this test of a segment, and this one of the curve."""
    for old, form in ((FOUND_FILES, FILES), (FOUND_LISTS, LISTS)):
        yield old, COUNTED % {'test': test, 'rule': rule, **form}


CURVES = [
    # by one segment or some, never, always
    'first', 'last', 'first && last', 'passed > 0', '2 * passed >= n',
    'passed + 1 >= n', '0', '1',
    # all but the first, all but the last
    'passed - first == n - 1', 'passed - last == n - 1',
    # all, but not of every number of points
    'n == 1 && passed == n', 'n > 1 && passed == n', 'n < 63 && passed == n',
]
SEGMENTS = [
    # one side weak, both, one side not tested
    '(a > 0 && b >= 0) || (a == 0 && b == 0)',
    '(a >= 0 && b > 0) || (a == 0 && b == 0)', 'a >= 0 && b >= 0',
    'a > 0 || (a == 0 && b == 0)', 'b > 0 || (a == 0 && b == 0)',
    # straight segments not, or by one side; level ones not
    'a > 0 && b > 0', '(a > 0 && b > 0) || a == 0',
    '(a > 0 && b > 0) || b == 0',
    '(a > 0 && b > 0) || (a == 0 && b == 0 && rise)',
    # bent either way, the other way; the slopes alone; the chord in hundredths
    '(a > 0) == (b > 0)', 'a <= 0 && b <= 0', 'l.slope <= r.slope',
    '(l.slope < rise / h && rise / h < r.slope) || (a == 0 && b == 0)',
]

# ---- how far the convex test goes ----

START = '''\
    if (point_fault(l, 0, 1) || l.slope < 0)
        return 0;
    for (; i < %s; i++) {'''
TESTED = '''\
        point r = %s;
        if (point_fault(r, l.area, 0) || !has_shape(l, r, CONVEX))
            break;
'''
RUNS = [
    (START, ('count', 'c.count'), [
        ('point_fault(l, 0, 1) || ', ''), (' || l.slope < 0', ''),
        ('slope < 0', 'slope <= 0'), ('slope < 0', 'slope < -1')]),
    (TESTED, ('load_point(records + 12 * i)', 'point_at(c, i)'), [
        ('point_fault(r, l.area, 0) || ', ''), (', 0) ||', ', 1) ||'),
        ('CONVEX', 'RISING'), ('break', 'continue')]),
]


def runs():
    """The changes in files and in lists; and at the end of the run."""
    for form, places, changes in RUNS:
        for place in places:
            for old, new in changes:
                yield form % place, (form % place).replace(old, new)
    for found in (FOUND_FILES, FOUND_LISTS):
        yield found, found.replace('count - 1', 'count - 2')
        yield found, found.replace(', run)', ', run + 1)')
        yield found, found.replace('*rule = CONVEX', '*rule = CONCAVE')


# ---- in one call alone ----

SEGMENT = '''segment_factor(l, r, (%%(shape)s == %s && has_shape(l, r, %s) ?
            %s : %%(shape)s), %%(area)s)'''
SHEET_FACTORS = '    fill_sheet(c, rule, '
# By the segment of this area, for the other areas too.
FIRST_READ = '''\
    size_t at = 0;
    while (at + 2 < c.count && c.areas[at + 1] <= %s)
        at++;
    if (shape == RISING)
        rule = has_shape(point_at(c, at), point_at(c, at + 1), CONVEX) ? CONVEX
                                                                       : shape;
'''
READS = RULED + REFUSED_FAULT + '    if (outside(c, area))'

ONE_CALL = [
    # by the segment that is read
    *in_each_call(SEGMENT % ('RISING', 'CONVEX', 'CONVEX')),
    (FORM_FACTOR, FIRST_READ % 'form' + FORM_FACTOR),
    (SHEET_FACTORS, FIRST_READ % 'start' + SHEET_FACTORS),
    # the code that is filed
    (DESK_FACTOR, DESK_FACTOR.replace('rule', 'bytes[5]')),
    (TWO_FACTOR, TWO_FACTOR.replace('rule', 'bytes[5]')),
    *[(factor, factor.replace('rule', 'shape'))
      for factor in (READ_FACTOR, FORM_FACTOR, PLAN_FACTOR, SHEET_FACTORS)],
    [(FORM_FACTOR, FORM_FACTOR.replace('rule', 'shape')),
     (PLAN_FACTOR, PLAN_FACTOR.replace('rule', 'shape'))],
    # the convex rule for all curves
    *[(factor, factor.replace('rule', '(rule == RISING ? CONVEX : rule)'))
      for factor in (DESK_FACTOR, TWO_FACTOR, READ_FACTOR, FORM_FACTOR,
                     PLAN_FACTOR, SHEET_FACTORS)],
    # the rule that was found for the lists when they were lent before
    (READS, READS.replace('    if (outside', '''\
    static const uint32_t *lent;
    static uint32_t kept;
    if (shape == RISING) {
        rule = areas == lent ? kept : rule;
        lent = areas;
        kept = rule;
    }
    if (outside''')),
]

# ---- under the other codes ----

MIRRORED = SEGMENT % ('FALLING', 'CONCAVE', 'CONCAVE')


def codes():
    """Under code 3 concave first, under 2 rising first, under 4 falling; of
    the segments in each call alone, and of the curve."""
    yield from in_each_call(MIRRORED)
    yield from in_each_call(SEGMENT % ('CONVEX', 'RISING', 'RISING'))
    yield from in_each_call(SEGMENT % ('CONCAVE', 'FALLING', 'FALLING'))
    for scan in (IN_FILES, IN_LISTS):
        for code, first in (('FALLING', 'CONCAVE'), ('CONVEX', 'RISING'),
                            ('CONCAVE', 'FALLING')):
            tried = TRIED % code
            yield tried + scan % code, '''%s(rule && %s == 0 ?
                (void)(*rule = %s) : (void)0), %s''' % (
                    tried, (scan % first)[:-1], first, scan % code)


# ---- what is filed ----

BOTH_FAIL = '''\
    if (!fault && shape == RISING)
        fault = lists_fault(c, values_len, slopes_len, CONVEX, NULL);
'''
ONE_PASSES = BOTH_FAIL.replace('!fault', 'fault')
TRIPLES = '''\
    int64_t fault = triples_fault(bytes, n, shape);
'''
TRIPLES_AGAIN = '''\
    if (%sfault && shape == RISING)
        fault = triples_fault(bytes, n, CONVEX);
'''
FILE_AGAIN = '''\
    if (%sfault && bytes[5] == RISING)
        fault = scan(bytes + 7, count, CONVEX, 0);
'''


def acceptance():
    """Under code 1 both tests, or one of them; by each call."""
    for text in LIST_CALLS:
        head = RULED if text.startswith(RULED) else CHECKED
        for again in (BOTH_FAIL, ONE_PASSES):
            yield text, head + again + text[len(head):]
    for negated in ('!', ''):
        for text in FILE_CALLS:
            yield text, text + FILE_AGAIN % negated
        yield TRIPLES, TRIPLES + TRIPLES_AGAIN % negated


WRITES = CHECKED + REFUSED_FAULT + '    size_t length'
FILED = [
    # the code of the rule, opened and written
    [(OPEN_FAULT, '    uint32_t rule = bytes[5];\n'
      + OPEN_FAULT.replace('NULL', '&rule')),
     (OPENED, OPENED.replace('bytes[5]', 'rule'))],
    [(WRITES, WRITES.replace(CHECKED, RULED)),
     (WRITTEN_SHAPE, WRITTEN_SHAPE.replace('shape', 'rule'))],
    *acceptance(),
]

COMPARED = [
    ('of the rule of code 1, by its segments',
     [edit for rule in CURVES for edit in found_by(PASSES, rule)]
     + [edit for test in SEGMENTS for edit in found_by(test, ALL)]),
    ('of the convex test as far as it goes', list(runs())),
    ('of the rule of one call', ONE_CALL),
    ('of the rules of the other codes', list(codes())),
    ('of the code that is filed', FILED),
]

# Memory that is kept between calls.
SHARED = [(READS, READS.replace('uint32_t rule = shape',
                                'static uint32_t rule;\n    rule = shape'))]
