"""The writer of binary64 triples for tests.

Written from document 02, item 7: area, value, slope, little-endian, 24 bytes
a point, with no header. Whether they are taken does not matter here.
"""

import struct


def figure(value):
    """The 8 bytes of a number, the nearest that binary64 has."""
    return struct.pack('<d', value)


def number(eight):
    """The number, or no number, of 8 bytes."""
    return struct.unpack('<d', eight)[0]


def of_bits(bits):
    """The 8 bytes of a figure from its bits, sign first."""
    return bits.to_bytes(8, 'little')


def bits_of(eight):
    return int.from_bytes(eight, 'little')


def rows(points):
    """The figures of each point, each as its 8 bytes."""
    return [[figure(field) for field in point] for point in points]


def joined(rows_of_figures):
    return b''.join(eight for row in rows_of_figures for eight in row)


def triples(points):
    """The bytes of these points (area, value, slope)."""
    return joined(rows(points))
