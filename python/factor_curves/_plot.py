"""Draws curves, with matplotlib."""

import io
import itertools
import os
import warnings
from typing import Dict, Sequence, Tuple

import matplotlib
from matplotlib.figure import Figure

from . import SHAPE_NAMES, Curve

# Colours that the colour-blind can tell apart (Okabe and Ito), and line styles for print.
COLOURS = ['#0072b2', '#d55e00', '#009e73', '#cc79a7', '#56b4e9', '#e69f00']
STYLES = ['-', '--', '-.', ':']

# Ending of the file's name: format, and metadata without a date.
Format = Tuple[str, Dict[str, None]]
FORMATS: Dict[str, Format] = {'.png': ('png', {}), '.pdf': ('pdf', {'CreationDate': None})}
SVG: Format = ('svg', {'Date': None})

# File, its curve, and the factors at every whole area from the first to the last.
Named = Tuple[str, Curve, Sequence[int]]


def label(path: str, curve: Curve) -> str:
    """Shape and file name for the legend, as plain text and not as a formula.

    A rule that is not the shape's own is named too.
    """
    name = os.fsencode(os.path.splitext(os.path.basename(path))[0]).decode('utf-8', 'replace')
    name = 'standard input' if path == '-' else name
    shape = SHAPE_NAMES[curve.shape]
    if curve.rule != curve.shape:
        shape += ', read by the %s rule' % SHAPE_NAMES[curve.rule]
    return '%s (%s)' % (shape, name.replace('$', r'\$'))


def figure(named: Sequence[Named]) -> Figure:
    """The factor at every whole area as a line, and the rated points as dots."""
    made = Figure(figsize=(7.5, 4.5))
    axes = made.add_subplot(1, 1, 1)
    looks = zip(itertools.cycle(STYLES), itertools.cycle(COLOURS))
    for index, (path, curve, factors) in enumerate(named):
        style, colour = next(looks)
        areas = range(curve.first_area, curve.last_area + 1)
        axes.plot([area / 10 for area in areas], [factor / 10000 for factor in factors],
                  linestyle=style, color=colour, linewidth=1.6, label=label(path, curve),
                  gid='curve-%d' % index)
    points = sorted({(point.area, point.value) for _, curve, _ in named for point in curve.points})
    axes.plot([area / 10 for area, _ in points], [value / 10000 for _, value in points],
              linestyle='none', marker='o', markersize=5, color='black', label='rated points',
              gid='rated-points')
    axes.set_xlabel('floor area (m\u00b2)')
    axes.set_ylabel('factor')
    axes.ticklabel_format(style='plain', useOffset=False)
    axes.grid(color='#dddddd', linewidth=0.6)
    for side in ('top', 'right'):
        axes.spines[side].set_visible(False)
    axes.legend(frameon=False)
    made.tight_layout()
    return made


def picture(named: Sequence[Named], ending: str) -> bytes:
    """The picture as a file's bytes. The same matplotlib makes the same bytes every time."""
    kind, metadata = FORMATS.get(ending.lower(), SVG)
    with matplotlib.rc_context(), warnings.catch_warnings():
        warnings.simplefilter('ignore')             # a letter that the font does not have
        matplotlib.rcdefaults()
        matplotlib.rcParams['svg.hashsalt'] = 'factor curves'
        matplotlib.rcParams['path.simplify_threshold'] = 0.03       # of a pixel
        out = io.BytesIO()
        figure(named).savefig(out, format=kind, metadata=metadata, dpi=150)
    return out.getvalue()
