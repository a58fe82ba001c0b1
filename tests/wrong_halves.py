"""Wrong versions of bench/plain.c as wrong_edits.py has them: of halves, which
go to the even unit. A version may be a list of edits."""

from wrong_edits import TWO_FACTOR
from wrong_shapes import (DESK_FACTOR, FORM_FACTOR, LISTS_FACTOR, PLAN_FACTOR,
                          READ_FACTOR, SHEET_ENTRY)

# ---- which of two units ----

HEAD = 'static inline int32_t to_even(int64_t k, int tie)\n{\n'
RULE = 'k - (tie && (k & 1))'
UP, DOWN, ODD = 'k', 'k - tie', 'k - (tie && !(k & 1))'

RULES = [(RULE, rule) for rule in (
    UP, DOWN, ODD,
    'k - (tie && k <= 0)',                      # away from zero
    'k - (tie && k > 0)',                       # toward zero
    'k - (tie && k % 2 == 1)',                  # odd, but not below 0
    'k - (tie && k % 2 == -1)',                 # odd below 0 alone
    'k - (tie && (k & 2))',                     # another bit
    'k - (tie && (k & 1) && k > 0)',
    'k - (tie && (k & 1) && k <= 200000)',
    'k - (tie && (k & 1) && k < 200000)',
    'k + (tie && (k & 1))',                     # the even unit beyond
    'k - (k & 1)',                              # even wherever it is
    'k - tie * k % 2',
)]

# ---- what is a half ----

RISING_RETURN = '''\
    return to_even(l.value + (int64_t)q, (uint64_t)n == q * 2 * (uint64_t)den);
'''
RISING_TIE = '(uint64_t)n == q * 2 * (uint64_t)den'
CONVEX_TIE = 'rest == 0 && n == k * 2 * scale'
CONCAVE_TIE = 'rest == 0 && n == k * (uint64_t)(200 * h)'
CONVEX_REST = 'rest = bt * (2 * bt) - q * w;'
CONCAVE_REST = 'rest = au * (2 * bt) - q * w;'
CONVEX_RETURN = '''\
    int64_t k = floor_div(n, 2 * scale);
    return to_even(k, rest == 0 && n == k * 2 * scale);
'''
CONCAVE_RETURN = '''\
    uint64_t k = n / (uint64_t)(200 * h);
    return to_even((int64_t)k, rest == 0 && n == k * (uint64_t)(200 * h));
'''

TIES = [
    # no half, any number, whole numbers too
    (RISING_TIE, '0'),
    (RISING_TIE, '1'),
    (RISING_TIE, 'n % (uint64_t)den == 0'),
    (CONVEX_TIE, '0'),
    (CONVEX_TIE, '1'),
    (CONVEX_TIE, 'rest == 0 && n % scale == 0'),
    (CONCAVE_TIE, '0'),
    (CONCAVE_TIE, '1'),
    (CONCAVE_TIE, 'rest == 0 && n % (uint64_t)(100 * h) == 0'),
    # one remainder alone
    (CONVEX_TIE, 'rest == 0'),
    (CONVEX_TIE, 'n == k * 2 * scale'),
    (CONVEX_TIE, 'rest == 0 || n == k * 2 * scale'),
    (CONCAVE_TIE, 'rest == 0'),
    (CONCAVE_TIE, 'n == k * (uint64_t)(200 * h)'),
    (CONCAVE_TIE, 'rest == 0 || n == k * (uint64_t)(200 * h)'),
    # straight segments alone, bent ones alone
    (CONVEX_TIE, 'w == 0 && n == k * 2 * scale'),
    (CONVEX_TIE, 'w != 0 && ' + CONVEX_TIE),
    (CONCAVE_TIE, 'w == 0 && n == k * (uint64_t)(200 * h)'),
    (CONCAVE_TIE, 'w != 0 && ' + CONCAVE_TIE),
    # the remainder of another product
    (CONVEX_REST, 'rest = bt * bt - q * w;'),
    (CONCAVE_REST, 'rest = au * bt - q * w;'),
    (CONVEX_REST, ''),
    (CONCAVE_REST, ''),
    # not where the product passes 64 bits
    (CONVEX_REST, CONVEX_REST + '\n        rest |= bt >> 32;'),
    (CONCAVE_REST, CONCAVE_REST + '\n        rest |= bt >> 32;'),
    # the parity of what is added to the left value
    (RISING_RETURN, '''\
    return (int32_t)l.value + to_even((int64_t)q, %s);
''' % RISING_TIE),
    (CONVEX_RETURN, CONVEX_RETURN.replace(
        'to_even(k', '(int32_t)l.value + to_even(k - (int64_t)l.value')),
    (CONCAVE_RETURN, CONCAVE_RETURN.replace(
        'to_even((int64_t)k', '(int32_t)l.value +\n'
        '           to_even((int64_t)k - (int64_t)l.value')),
]

# ---- rounded twice, or in doubles ----

def nearest(n, d):
    """n / d to the nearest unit, halves to even; 64 bits must hold twice n."""
    return ('to_even(floor_div(2 * (%s) + (%s), 2 * (%s)),\n'
            '            (2 * (%s) + (%s)) %% (2 * (%s)) == 0)'
            % (n, d, d, n, d, d))


CHORD = '(int64_t)l.value * u + (int64_t)r.value * t'
# au bt / (au + bt), to the nearest: in hundredths over h.
SAG = '''\
    int64_t sag = w == 0 ? 0 : (int64_t)(
        ((unsigned __int128)(uint64_t)(%s) * (2 * (uint64_t)(%s)) + w) /
        (2 * w));
'''
CONVEX_SAG, CONCAVE_SAG = SAG % ('a * u', 'b * t'), SAG % ('au', 'bt')
# What a bent segment is above its left tangent, in hundredths.
ABOVE = '''\
    int64_t above = w == 0 ? 0 : (int64_t)(
        ((unsigned __int128)(uint64_t)(b * t) * (2 * (uint64_t)(b * t)) +
         w * (uint64_t)h) / (2 * w * (uint64_t)h));
'''
# P / Q of the report in doubles, with this r.
DOUBLES = '''\
    double y0 = l.value, y1 = r.value, d0 = l.slope / 100.0;
    double d1 = r.slope / 100.0, c = (y1 - y0) / (double)h, s = %s;
    double x = (double)t / (double)h, z = (double)u / (double)h;
    double v = (y1 * x * x * x + (s * y1 - (double)h * d1) * x * x * z +
                (s * y0 + (double)h * d0) * x * z * z + y0 * z * z * z) /
               (1 + (s - 3) * x * z);
    int64_t k = (int64_t)(v + 300000.5) - 300000;
    return to_even(k, (double)k - v == 0.5);
'''
BENT = 'w == 0 ? 3 : 1 + (d1 - c) / (c - d0) + (c - d0) / (d1 - c)'

TWICE = [
    # chord and sag apart, left tangent and what is above it apart
    (CONVEX_RETURN, CONVEX_SAG + '    return %s -\n           %s;\n' % (
        nearest(CHORD, 'h'), nearest('sag', 'scale'))),
    (CONCAVE_RETURN, CONCAVE_SAG + '    return %s +\n           %s;\n' % (
        nearest(CHORD, 'h'), nearest('sag', '100 * h'))),
    (CONVEX_RETURN, ABOVE + '    return %s +\n           %s;\n' % (
        nearest('100 * (int64_t)l.value + l.slope * t', '100'),
        nearest('above', '100'))),
    # to hundredths first
    (CONVEX_RETURN, ABOVE + '    return %s;\n' % nearest(
        '100 * (int64_t)l.value + l.slope * t + above', '100')),
    (CONCAVE_RETURN, CONCAVE_SAG + '''\
    int64_t hundredths = %s;
    return %s;
''' % (nearest('100 * (%s) + sag' % CHORD, 'h'), nearest('hundredths', '100'))),
    # in doubles
    (RISING_RETURN, DOUBLES % '1 + (d0 + d1) / c'),
    (CONVEX_RETURN, DOUBLES % BENT),
    (CONCAVE_RETURN, DOUBLES % BENT),
]

# ---- in one shape alone, in one call alone ----

AREA = '    int64_t t = (int64_t)area - l.area;\n'


def at_times(rule):
    """Another rule while `other` is set; `back` sets it to 0 again."""
    return HEAD, '''\
static int other;

static inline int32_t back(int32_t read)
{
    other = 0;
    return read;
}

''' + HEAD + '''\
    if (other)
        return (int32_t)(%s);
''' % rule


def of_shape(rule, shape):
    return [at_times(rule), (AREA, '    other = shape == %s;\n' % shape + AREA)]


def of_call(rule, place, call):
    """The rule for what this expression gives."""
    return [at_times(rule),
            (place, place.replace(call, 'back((other = 1, %s))' % call))]


FACTOR = 'segment_factor(l, r, %s, %s)'
LISTS_READ = 'segment_factor(point_at(c, low), point_at(c, low + 1), shape, area)'
CALLS = [
    (DESK_FACTOR, FACTOR % ('rule', 'area')),
    (TWO_FACTOR, FACTOR % ('rule', 'area')),
    (LISTS_FACTOR, LISTS_READ),
    (READ_FACTOR, 'factor(c, rule, area)'),
    (FORM_FACTOR, 'factor(c, rule, form)'),
    (PLAN_FACTOR, 'factor(c, rule, plan)'),
    (SHEET_ENTRY, FACTOR % ('shape', '(uint32_t)area')),
]

COMPARED = [
    ('of halves', RULES + TIES),
    ('of halves, rounded twice or in doubles', TWICE),
    ('of halves of one shape',
     [of_shape(rule, shape) for rule in (UP, DOWN, ODD)
      for shape in ('RISING', 'CONVEX', 'FALLING', 'CONCAVE')]),
    ('of halves of one call',
     [of_call(rule, *call) for rule in (UP, DOWN, ODD) for call in CALLS]),
]
