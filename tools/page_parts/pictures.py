"""Pictures without a style of their own, which the page's policy would refuse: bars of limits and positions, and entries by time."""
from .markup import Markup, tag

WIDE, HIGH = 200, 14


def rect(x, wide, class_, high=HIGH, y=0):
    # A pattern is named here: in a style sheet its name would be one of that file.
    fill = f'url(#{class_})' if class_ in ('waits', 'over') else None
    return tag('rect', x=f'{x:.1f}', y=f'{y:.1f}', width=f'{max(wide, 0):.1f}', height=f'{high:.1f}', class_=class_, fill=fill)


def picture(*parts, wide=WIDE, high=HIGH, class_='bar'):
    return tag('svg', *parts, viewBox=f'0 0 {wide} {high}', preserveAspectRatio='none', class_=class_, aria_hidden='true', focusable='false')


def limit_bar(row):
    """The use of a limit, what waits under it with room and without, and the limit's mark."""
    limit = row['limit'] or 0
    scale = WIDE / max(limit, row['use'] + row['waiting'], 1)
    use, waits, end = row['use'] * scale, row['waiting'] * scale, limit * scale
    inside = min(waits, max(end - use, 0))
    return picture(rect(0, end, 'room'), rect(0, use, f'use {row["state"]}'), rect(use, inside, 'waits'), rect(max(use, end), waits - inside, 'over'),
                   rect(min(max(end - 1, 0), WIDE - 2), 2, 'mark'))


def part_bar(part, whole):
    """A part of a whole."""
    return picture(rect(0, WIDE, 'room'), rect(0, WIDE * part / whole if whole else 0, 'use free'))


def position_bar(row, most):
    """Short to the left, long to the right."""
    half = WIDE / 2
    left, right = half * row['short'] / most, half * row['long'] / most
    return picture(rect(half - left, left, 'short'), rect(half, right, 'long'), rect(half - 0.5, 1, 'mark'))


def rate_bars(rate):
    """Entries by time."""
    counts, most = rate['counts'], max(rate['counts']) or 1
    bars = (rect(place * 10, 9, 'use free', 40 * made / most, 40 - 40 * made / most) for place, made in enumerate(counts))
    return picture(*bars, rect(0, 10 * len(counts), 'mark', 1, 39), wide=10 * len(counts), high=40, class_='rate')


PATTERNS = Markup('<svg class="patterns" aria-hidden="true" focusable="false" width="0" height="0"><defs>'
                  '<pattern id="waits" width="6" height="6" patternUnits="userSpaceOnUse"><rect class="waits-ground" width="6" height="6"/>'
                  '<path class="waits-line" d="M-1 1L1 -1M-1 7L7 -1M5 7L7 5"/></pattern>'
                  '<pattern id="over" width="5" height="5" patternUnits="userSpaceOnUse"><rect class="over-ground" width="5" height="5"/>'
                  '<path class="over-line" d="M0 0L5 5M0 5L5 0"/></pattern></defs></svg>')
