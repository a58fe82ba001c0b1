"""The writer of curve files for tests and benchmark.

Written from document 01, The curve file; whether a curve is accepted does
not matter here.
"""


def number(value, size):
    """Little-endian, modulo the width: two's complement below 0."""
    return (value % 256**size).to_bytes(size, 'little')


def curve_file(points, shape, mark=b'TRF', version=1, count=None):
    """The bytes of a curve file with these points (area, value, slope).

    mark, version and count (of the points, if not given) are for files with
    a fault.
    """
    stated = len(points) if count is None else count
    head = mark + number(version, 2) + number(shape, 1) + number(stated, 1)
    return head + b''.join(number(field, 4) for point in points
                           for field in point)
