"""What other programs read: tables for a spreadsheet, and Prometheus's text format."""
import csv
import io
import re

from .group_view import STATES

HEADS = {
    'limits': ['group', 'kind', 'name', 'limit', 'use', 'room', 'waiting', 'short', 'state'],
    'offers': ['number', 'group', 'symbol', 'side', 'price', 'lots', 'left', 'agreement', 'executing', 'from_account', 'account', 'carrying', 'entry', 'since',
               'held_by'],
    'positions': ['account', 'firm', 'symbol', 'long', 'short', 'net'],
}


def plain(value):
    """A cell. One that a spreadsheet would take for a formula begins with an apostrophe."""
    if isinstance(value, list):
        return '; '.join(f'{key["kind"]} {key["name"]} {key["room"]}' for key in value)
    text = '' if value is None else str(value)
    return f"'{text}" if text[:1] in '=+-@\t\r' and text and not re.fullmatch(r'-?[0-9]+(\.[0-9]+)?', text) else text


def table_of(page, rows):
    text = io.StringIO()
    writer = csv.writer(text, lineterminator='\r\n')
    writer.writerow(HEADS[page])
    writer.writerows([plain(row[head]) for head in HEADS[page]] for row in rows)
    return text.getvalue()


def label(value):
    return str(value).replace('\\', r'\\').replace('"', r'\"').replace('\n', r'\n')


def metric(name, about, *values):
    """The lines of a metric: values are numbers, each with its labels."""
    yield f'# HELP bathlif_{name} {about}'
    yield f'# TYPE bathlif_{name} gauge'
    for value, labels in values:
        words = ','.join(f'{key}="{label(word)}"' for key, word in labels.items())
        yield f'bathlif_{name}{{{words}}} {value}' if words else f'bathlif_{name} {value}'


def metrics_of(following):
    with following.day.lock:
        state = following.state()
        lines = [*metrics_of_page(following, state), *(metrics_of_desk(following) if following.desk and not following.gone else []), *metrics_of_day(following)]
    return '\n'.join(lines) + '\n'


def metrics_of_page(following, state):
    desk = following.desk if not following.gone else None
    yield from metric('desk_open', '1 if the desk answers and is open, 0 if not.', (int(bool(desk and desk.state == 'OPEN')), {}))
    yield from metric('page_good', '1 if what the page shows is what the desk has, 0 if not.', (int(state['level'] in ('good', 'over')), {}))
    yield from metric('replica_differs', '1 if the replica is not a copy of the desk.', (int(bool(following.day.differs)), {}))
    yield from metric('entries', 'Entries that the page shows.', (state['entries'], {}))
    yield from metric('behind_entries', 'Entries that the desk has and the page has not.', (state['behind'], {}))
    if state['heard_seconds'] is not None:
        yield from metric('heard_seconds', 'Seconds since the desk last answered.', (state['heard_seconds'], {}))


def metrics_of_desk(following):
    desk, rows = following.desk, [(row, dict(firm=row.firm, connection=row.number)) for row in following.connections]
    yield from metric('desk_entries', 'Entries that the desk has.', (desk.entries, {}))
    yield from metric('connections', 'Connections of firms.', (desk.connections, {}))
    yield from metric('places', 'How many connections there may be at once.', (desk.places, {}))
    yield from metric('connection_heard_seconds', 'Seconds since a firm last sent a byte.', *((row.heard / 1000, labels) for row, labels in rows))
    yield from metric('connection_unread_bytes', 'Bytes that a firm has not read.', *((row.held, labels) for row, labels in rows))


def metrics_of_day(following):
    day, groups = following.day, [(view, dict(group=view.group)) for view in following.views.all()]
    yield from metric('offers_open', 'Open offers.', *((len(view.offers), labels) for view, labels in groups))
    yield from metric('lots_waiting', 'Lots that wait in open offers.', *((view.lots, labels) for view, labels in groups))
    yield from metric('lots_held_back', 'Lots of open offers for which a limit lacks room.', *((view.held_lots, labels) for view, labels in groups))
    yield from metric('lots_swept_now', 'Lots that a sweep would take now.', *((view.proposed, labels) for view, labels in groups if view.proposed is not None))
    yield from metric('limits', 'Limits by how they are.', *((view.states[name], dict(labels, state=name)) for view, labels in groups for name in STATES))
    yield from metric('limits_short', 'Limits under which more lots wait than have room.',
                      *((sum(bool(row.short) for row in view.limits), labels) for view, labels in groups))
    for name, value in (('swept', day.swept), ('claimed', day.claimed), ('reversed', day.reversed)):
        yield from metric(f'lots_{name}', f'Lots that were {name} since the day was opened.', (value, {}))
    yield from metric('sweeps', 'Sweeps since the first entry.', (len(day.sheets.rows), {}))
    yield from metric('refused', 'Refused commands since the day was opened.', *((made, dict(reason=name)) for name, made in sorted(day.refusals.items())))
