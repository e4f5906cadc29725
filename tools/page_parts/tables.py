"""Tables of limits, offers, sweeps, entries, positions and connections, and the words in their cells."""
import urllib.parse

from .markup import Column, Markup, joined, link, number, table, tag
from .pictures import limit_bar, part_bar, position_bar

STATES = {'blocks': 'blocks', 'full': 'full', 'near': 'near', 'free': ''}
MOST_CHIPS = 4


def address(page, **asked):
    """The address of a page with a query."""
    words = urllib.parse.urlencode({key: value for key, value in asked.items() if value not in (None, '')})
    return ('/' if page == 'overview' else f'/{page}') + (f'?{words}' if words else '')


# Words.

def clock(iso):
    return tag('time', iso[11:19], datetime=iso, title=iso.replace('T', ' ')) if iso else tag('span', '–', title='This page has not seen when')


def lasted(milliseconds):
    seconds = milliseconds / 1000
    if seconds < 120:
        return f'{seconds:.1f} s' if seconds < 10 else f'{seconds:.0f} s'
    return f'{seconds / 60:.0f} min' if seconds < 7200 else f'{seconds / 3600:.1f} h'


def chip(kind, name, *more):
    """A limit that holds something back."""
    return tag('span', kind, ' ', tag('b', name), *more, class_='chip bad')


def chips(keys):
    """Limits, as the values of a page have them."""
    return joined(joined([chip(key['kind'], key['name']), ' ']) for key in keys)


def group_link(row):
    return link(f'/limits/{row["group"]}', row['group'])


def offer_link(row):
    return link(f'/offers/{row["number"]}', number(row['number']))


def key_words(row):
    return joined([tag('span', row['kind'], class_='kind'), ' ', link(address('find', id=row['name']), row['name'])])


def key_in_group(row):
    return joined([key_words(row), tag('span', f' in {row["group"]}', class_='narrow')])


def state_mark(row):
    return tag('b', STATES[row['state']]) if row['state'] != 'free' else ''


def limit_words(row):
    return row['limit'] if row['limit'] is not None else 'never set'


def bold(value):
    """A number that matters, and nothing if it is 0."""
    return tag('b', number(value)) if value else ''


def trade_words(row):
    return joined([tag('b', 'buy' if row['side'] == 'B' else 'sell'), f' {row["symbol"]} @ {row["price"]}'])


def held_words(row):
    if not row['held_by']:
        return tag('span', 'room for all of it', class_='note') if row['left'] else ''
    return joined(joined([chip(key['kind'], key['name'], f' room {key["room"]:,}'), ' ']) for key in row['held_by'])


def cut_words(sweep):
    if not sweep['offers']:
        return tag('span', 'no offer waited', class_='note')
    if not sweep['cut']:
        return tag('span', 'nothing: every offer was taken whole', class_='note')
    more = len(sweep['cut']) - MOST_CHIPS
    return joined([chips(sweep['cut'][:MOST_CHIPS]), f'and {more:,} more' if more > 0 else ''])


def refusals_table(rows, name):
    return entries_table(rows, name, True)


def answer_words(row):
    return tag('code', row['answer'], class_='no' if row['answer'].startswith('NO ') else None)


def line_words(row):
    return tag('code', row['line'])


def at_words(row):
    return clock(row['at'])


# Tables.

LIMIT_COLUMNS = [
    Column('state', state_mark, 'state', 'state'),
    Column('used, and what waits', limit_bar, 'picture'),
    Column('used', lambda row: row['use'], 'n wide', 'use'),
    Column('limit', limit_words, 'n wide', 'limit'),
    Column('room', lambda row: row['room'], 'n', 'room'),
]


def limits_table(rows, name, has_group=True):
    columns = [
        *([Column('group', group_link, 'wide'), Column('key', key_in_group, 'key')] if has_group else [Column('key', key_words, 'key')]),
        *LIMIT_COLUMNS,
        Column('waits', lambda row: row['waiting'] or '', 'n wide', 'waiting'),
        Column('without room', lambda row: bold(row['short']), 'n bad', 'short'),
    ]
    return table(columns, rows, name, lambda row: f'limit-{row["group"]}-{row["kind"]}-{row["name"]}', lambda row: row['state'])


def path_table(rows):
    """The limits on an offer's path."""
    columns = [
        Column('key', key_words, 'key'),
        *LIMIT_COLUMNS,
        Column('lacks', lambda row: bold(row['lacks']), 'n bad', 'lacks'),
        Column('waits', lambda row: row['waiting'], 'n wide', 'waiting'),
    ]
    return table(columns, rows, 'The limits on its path', lambda row: f'path-{row["kind"]}', lambda row: row['state'])


def legend():
    marks = [('class="use free"', 'used today'), ('class="use near"', 'used, near the limit'), ('class="use full"', 'used, no room left'), ('class="room"', 'room'),
             ('fill="url(#waits)"', 'waits, and has room'), ('fill="url(#over)"', 'waits without room'), ('class="mark" transform="scale(0.12 1)"', 'the limit')]
    keys = (tag('svg', Markup(f'<rect width="18" height="12" {mark}/>'), viewBox='0 0 18 12', class_='key-bar', aria_hidden='true') for mark, _ in marks)
    return tag('p', *(tag('span', key, f' {words}') for key, (_, words) in zip(keys, marks)), class_='legend')


def groups_table(rows):
    return table([
        Column('group', group_link),
        Column('offers', lambda row: link(address('offers', group=row['group']), number(row['offers'])), 'n', 'offers'),
        Column('lots wait', lambda row: row['lots'], 'n', 'lots'),
        Column('held back', lambda row: bold(row['held']), 'n bad', 'held'),
        Column('a sweep now', lambda row: row['swept_now'], 'n', 'swept_now'),
        Column('limits', lambda row: row['limits'], 'n wide', 'limits'),
        Column('full', lambda row: row['full'] + row['blocks'], 'n'),
        Column('near', lambda row: row['near'], 'n', 'near'),
    ], rows, 'Groups', lambda row: f'group-{row["group"]}')


def offers_table(rows, name):
    return table([
        Column('offer', offer_link, 'n'),
        Column('since', lambda row: clock(row['since']), 'at wide'),
        Column('left', lambda row: row['left'], 'n', 'left'),
        Column('of', lambda row: row['lots'], 'n wide', 'lots'),
        Column('held back by', held_words, 'held'),
        Column('group', group_link, 'wide'),
        Column('trade', trade_words, 'wide'),
        Column('executing firm', lambda row: row['executing'], 'wide'),
        Column('account', lambda row: row['account']),
        Column('carrying firm', lambda row: row['carrying'], 'wide'),
        Column('agreement', lambda row: row['agreement'], 'wide'),
    ], rows, name, lambda row: f'offer-{row["number"]}')


def events_table(rows, name):
    """What happened to an offer."""
    return table([
        Column('entry', lambda row: link(f'/{"sweeps" if row["what"] == "swept" else "entries"}/{row["entry"]}', number(row['entry'])), 'n'),
        Column('at', at_words, 'at'),
        Column('what', lambda row: row['what']),
        Column('lots', lambda row: row['lots'], 'n', 'lots'),
        Column('what was entered', line_words, 'line'),
    ], rows, name, lambda row: f'event-{row["entry"]}')


def sweeps_table(rows, name):
    return table([
        Column('sweep', lambda row: link(f'/sweeps/{row["entry"]}', number(row['entry'])), 'n'),
        Column('at', at_words, 'at'),
        Column('group', group_link),
        Column('taken of what waited', lambda row: part_bar(row['lots'], row['asked']), 'picture wide'),
        Column('taken', lambda row: row['lots'], 'n', 'lots'),
        Column('waited', lambda row: row['asked'], 'n wide', 'asked'),
        Column('left', lambda row: row['left'], 'n', 'left'),
        Column('what held the rest back (the cut)', cut_words, 'held'),
    ], rows, name, lambda row: f'sweep-{row["entry"]}')


def sheet_offers(rows, name):
    """Offers of a sheet."""
    return table([
        Column('offer', offer_link, 'n'),
        Column('taken', lambda row: row['taken'], 'n', 'taken'),
        Column('of', lambda row: row['lots'], 'n', 'lots'),
        Column('held back by', lambda row: joined(joined([chip(*key), ' ']) for key in row['held_by']), 'held'),
        Column('its limits', lambda row: ', '.join(' '.join(key) for key in row['path']), 'wide'),
    ], rows, name, lambda row: f'taken-{row["number"]}')


def sheet_limits(rows):
    """Limits of a sheet."""
    def state(row):
        return tag('b', 'cut') if row['is_cut'] else 'full' if row['taken'] == row['room'] else ''

    return table([
        Column('key', key_words, 'key'),
        Column('state', state, 'state'),
        Column('room', lambda row: row['room'], 'n', 'room'),
        Column('taken', lambda row: row['taken'], 'n', 'taken'),
        Column('held back', lambda row: row['held_back'] or '', 'n'),
    ], rows, 'Its limits', lambda row: f'room-{row["kind"]}-{row["name"]}', lambda row: 'full' if row['is_cut'] else '')


def entries_table(rows, name, is_short=False):
    def origin(row):
        return f'connection {row["connection"]}, 34={row["message"]}' if row['connection'] else ''

    return table([
        Column('entry', lambda row: link(f'/entries/{row["entry"]}', number(row['entry'])), 'n'),
        Column('at', at_words, 'at'),
        Column('answer', answer_words, None, 'answer'),
        Column('what was entered', line_words, 'line', 'line'),
        *([] if is_short else [Column('by', origin, 'wide')]),
    ], rows, name, lambda row: f'entry-{row["entry"]}')


def positions_table(rows, name):
    most = max((max(row['long'], row['short']) for row in rows), default=1) or 1
    return table([
        Column('account', lambda row: link(address('find', id=row['account']), row['account'])),
        Column('firm', lambda row: row['firm'], 'wide'),
        Column('instrument', lambda row: row['symbol']),
        Column('long', lambda row: row['long'], 'n', 'long'),
        Column('short', lambda row: row['short'], 'n', 'short'),
        Column('short and long', lambda row: position_bar(row, most), 'picture wide'),
        Column('net', lambda row: f'{row["net"]:+,}' if row['net'] else '0', 'n', 'net'),
    ], rows, name, lambda row: f'position-{row["account"]}-{row["symbol"]}')


def instruments_table(rows):
    return table([
        Column('instrument', lambda row: link(address('positions', name=row['symbol']), row['symbol'])),
        Column('group', group_link),
        Column('open interest', lambda row: row['interest'], 'n', 'interest'),
        Column('long', lambda row: row['long'], 'n', 'long'),
        Column('short', lambda row: row['short'], 'n', 'short'),
        Column('accounts', lambda row: row['accounts'], 'n', 'accounts'),
    ], rows, 'By instrument', lambda row: f'instrument-{row["symbol"]}')


def agreements_table(rows):
    return table([
        Column('agreement', lambda row: link(address('find', id=row['agreement']), row['agreement'])),
        Column('executing firm', lambda row: row['executing']),
        Column('account', lambda row: row['account']),
        Column('carrying firm', lambda row: row['carrying']),
    ], rows, 'Agreements', lambda row: f'agreement-{row["agreement"]}')


def connections_table(rows, name):
    return table([
        Column('no.', lambda row: row['number'], 'n', 'number'),
        Column('firm', lambda row: row['firm'] if row['firm'] != '-' else tag('span', 'none yet: no Logon', class_='note')),
        Column('last heard', lambda row: joined([tag('b', 'silent ') if row['is_silent'] else '', lasted(row['heard'])]), 'n'),
        Column('connected for', lambda row: lasted(row['since']), 'n'),
        Column('bytes in', lambda row: row['bytes_in'], 'n wide'),
        Column('bytes out', lambda row: row['bytes_out'], 'n wide'),
        Column('unread by it', lambda row: row['held'], 'n'),
        Column('its next 34', lambda row: row['expects'], 'n wide'),
        Column('the desk\'s next 34', lambda row: row['sends'], 'n wide'),
        Column('port', lambda row: str(row['port'] or 'its door'), 'n wide'),
    ], rows, name, lambda row: f'connection-{row["number"]}', lambda row: 'near' if row['is_silent'] else '')
