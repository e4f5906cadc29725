"""The pages as HTML, each made of the values that its JSON has."""
from .markup import Markup, alone, count, joined, link, number, tag
from .pictures import rate_bars
from .sheets import DRAW
from .tables import (address, agreements_table, answer_words, chips, clock, connections_table, entries_table, events_table, groups_table, instruments_table,
                     lasted, legend, limits_table, offers_table, path_table, positions_table, refusals_table, sheet_limits, sheet_offers, sweeps_table,
                     trade_words)

KINDS = {'EXEC': 'executing firms', 'AGR': 'agreements', 'ACCT': 'accounts', 'CARRY': 'carrying firms', 'GUAR': 'guarantors'}
MORE = 400              # rows that come with each step down a long list
MOST_GROUPS = 12        # that are named as choices
UNKNOWN = 'the desk isn\'t asked, or doesn\'t answer'
NOTHING = 'No entry, offer, firm, account, agreement, group or instrument has this name. An id is looked for as it was sent, capitals and all.'


# Parts of pages.

def empty(words):
    return tag('p', words, class_='empty')


def panel(title, *parts, note=None, more=None, class_='', is_list=False):
    head = tag('div', tag('h2', title), note and tag('span', note, class_='note'), more and link(more[0], more[1], class_='more'), class_='head')
    return tag('section', head, *parts, class_=f'panel {class_}'.strip(), data_list=is_list)


def listed(title, made, rows, words, *parts, **more):
    """A panel with a table of rows, or with words if there is none."""
    return panel(title, made(rows, title) if rows else empty(words), *parts, **more)


def choices(name, here, options, link_of):
    """Links of which one is the page that is shown."""
    links = (link(link_of(value), words, aria_current='true' if value == here else None) for value, words in options)
    return tag('nav', *links, class_='choices', aria_label=name)


def group_choices(v, page, **asked):
    options = [('', 'all groups'), *((group, group) for group in v['groups'][:MOST_GROUPS])]
    return choices('group', v['group'], options, lambda group: address(page, **asked, group=group))


def filter_form(path, word, **kept):
    hidden = [alone('input', type='hidden', name=name, value=value) for name, value in kept.items() if value]
    name = tag('label', 'name has ', alone('input', name='name', value=word, size=12, autocomplete='off'))
    return tag('form', name, *hidden, tag('button', 'Show'), action=path, class_='filter')


def rows_end(v, page, **asked):
    """How many rows of a list are shown, and the way to more of them."""
    have, all_rows = v['first'] + len(v['rows']), v['all']
    if have >= all_rows:
        return None
    more = link(address(page, **asked, rows=have + MORE), f'Show {min(MORE, all_rows - have):,} more', data_more=True)
    return tag('p', f'{have:,} of {all_rows:,} are shown. ', more, class_='end')


def would_take(lots):
    return '' if lots is None else f'; a sweep now would take {lots:,}'


# The pages.

def overview(v):
    yield tag('div', *tiles(v), class_='tiles')
    yield listed('Limits that need a look', limits_table, v['tightest'], 'Every limit has room, and none is near.',
                 legend() if v['tightest'] else None, note='most lots without room first', more=('/limits', f'all {v["limits"]["all"]:,} limits'))
    yield listed('Offers held back', offers_table, v['held'], 'No offer is held back.' if v['open_offers'] else 'No offer waits.', note='the oldest first',
                 more=('/offers?only=held', f'all {v["held_offers"]:,}'))
    yield listed('Last sweeps', sweeps_table, v['last_sweeps'], 'No sweep was made yet.', more=('/sweeps', 'all sweeps'))
    yield listed('Last refusals', refusals_table, v['last_refusals'], 'Nothing was refused today.', more=('/entries?only=refused', 'all refusals'), class_='half')
    more = ('/limits', f'all {v["all_groups"]:,} groups') if v['all_groups'] > len(v['groups']) else None
    yield panel('Groups', groups_table(v['groups']), more=more, class_='half')
    if v['rate']:
        yield panel('Entries by time', rate_bars(v['rate']), rate_words(v['rate']))


def tiles(v):
    """The numbers at the top, each a link to what it counts."""
    limits, connections, rate, state = v['limits'], v['connections'], v['rate'], v['state']
    full, held, silent = limits['full'] + limits['blocks'], v['held_lots'], connections['silent']
    refused = ', '.join(f'{name} {made:,}' for name, made in list(v['refusals'].items())[:2]) or 'nothing was refused'
    silence = UNKNOWN if silent is None else f'{silent:,} not heard for a minute'
    rows = [
        ('/offers', 'Open offers', v['open_offers'], f'{count(v["lots_waiting"], "lot")} wait{would_take(v["swept_now"])}', '', 'open_offers'),
        ('/offers?only=held', 'Lots held back', held, f'in {count(v["held_offers"], "offer")} for which a limit lacks room', held and 'bad', 'held_lots'),
        ('/limits?state=full', 'Limits full', full, f'{limits["short"]:,} have less room than waits under them', full and 'bad', 'full'),
        ('/limits?state=near', 'Limits near', limits['near'], f'used to {v["near_from"]:.0%} or more', limits['near'] and 'warn', 'near'),
        ('/sweeps', 'Lots moved today', v['moved'], f'{v["swept"]:,} swept, {v["claimed"]:,} claimed, {v["reversed"]:,} taken back', '', 'moved'),
        ('/entries?only=refused', 'Refused today', v['refused'], refused, '', 'refused'),
        ('/connections', 'Connections', connections['connected'], silence, silent and 'warn', 'connected'),
        ('/entries', 'Entries a second', rate and rate['per_second'], entered_words(rate, state), '', 'per_second'),
    ]
    for path, name, value, words, mark, f in rows:
        parts = tag('span', name, class_='name'), tag('strong', number(value), data_f=f), tag('span', words, class_='note')
        yield link(path, *parts, class_=f'tile {mark or ""}'.strip())


def entered_words(rate, state):
    minute = f'{rate["last_minute"]:,} in the last minute; ' if rate and rate['last_minute'] is not None else ''
    return f'{minute}{state["entries"]:,} of {state["most_entries"]:,} so far'


def rate_words(rate):
    words = f'; a bar is {lasted(rate["seconds"] * 1000)}, the highest {entries_counted(max(rate["counts"]))}'
    return tag('p', clock(rate['first']), ' to ', clock(rate['last']), words, class_='note')


def entries_counted(value):
    return f'{value:,} {"entry" if value == 1 else "entries"}'


def limits(v):
    page, states = f'limits/{v["group"]}' if v['group'] else 'limits', v['limits']
    yield tag('h1', f'Limits of {v["group"]}' if v['group'] else 'Limits')
    if v['group']:
        yield group_lead(v['groups'][0])
    elif v['groups']:
        yield panel('By group', groups_table(v['groups']))
    options = [('', 'all'), ('short', f'less room than waits {states["short"]:,}'), ('full', f'full {states["full"] + states["blocks"]:,}'),
               ('blocks', f'0 or never set {states["blocks"]:,}'), ('near', f'near {states["near"]:,}')]
    yield tag('div', choices('state', v['only'], options, lambda state: address(page, state=state, kind=v['kind'], name=v['name'])),
              choices('kind', v['kind'], [('', 'all kinds'), *KINDS.items()], lambda kind: address(page, state=v['only'], kind=kind, name=v['name'])),
              filter_form(f'/{page}', v['name'], state=v['only'], kind=v['kind']), class_='filters')
    words = 'No limit is like that.' if v['only'] or v['kind'] or v['name'] else 'No limit was set yet: whatever is given up waits.'
    shown = limits_table(v['rows'], 'Limits', not v['group']) if v['rows'] else empty(words)
    yield panel(count(v['all'], 'limit'), shown, rows_end(v, page, state=v['only'], kind=v['kind'], name=v['name']), legend(), is_list=True,
                note='most lots without room first, then the fullest')


def group_lead(group):
    waiting = link(address('offers', group=group['group']), count(group['offers'], 'open offer'))
    short = f'{count(group["short"], "limit")} {"has" if group["short"] == 1 else "have"} less room than waits under {"it" if group["short"] == 1 else "them"}'
    words = f' wait{would_take(group["swept_now"])}. {short}. '
    return tag('p', f'{count(group["lots"], "lot")} of ', waiting, words, link(address('sweeps', group=group['group']), 'Its sweeps'), class_='lead')


def offers(v):
    asked = dict(group=v['group'], only=v['only'], name=v['name'])
    yield tag('h1', 'Offers that wait')
    options = [('', 'all'), ('held', 'held back by a limit'), ('free', 'with room for all')]
    yield tag('div', choices('which', v['only'], options, lambda only: address('offers', **{**asked, 'only': only})),
              group_choices(v, 'offers', only=v['only'], name=v['name']), filter_form('/offers', v['name'], group=v['group'], only=v['only']), class_='filters')
    shown = offers_table(v['rows'], 'Offers that wait') if v['rows'] else empty('No offer is like that.' if any(asked.values()) else 'No offer waits.')
    yield panel(f'{count(v["all"], "offer")}, {count(v["lots"], "lot")}', shown, rows_end(v, 'offers', **asked), is_list=True,
                note='the oldest first. An offer is held back if a limit on its path has less room than is left of it')


def offer(v):
    o = v['offer']
    lots = count(o['lots'], 'lot')
    yield tag('h1', f'Offer {o["number"]:,}: ' + (f'{o["left"]:,} of {lots} wait' if o['left'] else f'closed, nothing of {lots} is left'))
    entered = ['Entry ', link(f'/entries/{o["entry"]}', number(o['entry'])), joined([' at ', clock(o['since'])]) if o['since'] else '',
               ', report ', link(f'/entries/{o["report"]}', number(o['report'])), '.']
    parties = f'{o["executing"]} gives up to {o["account"]}, which {o["carrying"]} carries, by {o["agreement"]}: '
    yield tag('p', parties, trade_words(o), f', held in {o["from_account"]}. ', *entered, class_='lead')
    if o['left']:
        yield panel('Why it waits', *why_it_waits(v, o))
        yield panel('The limits on its path', path_table(v['path']), legend(), note=f'in {o["group"]}; all of them count at once')
    yield panel('What happened to it', events_table(v['events'], 'What happened to it'))


def why_it_waits(v, o):
    lacking = [row for row in v['path'] if row['lacks']]
    if lacking:
        yield tag('p', f'{"This limit has" if len(lacking) == 1 else "These limits have"} less room than the {count(o["left"], "lot")} left: ', chips(lacking))
        yield tag('p', 'For a claim of this offer, the house would enter at the console:', limit_lines(o, lacking, 'left'))
        waits = max(row['waiting'] for row in lacking)
        if waits > o['left']:
            words = f'A sweep gives older offers their lots first, and {count(waits, "lot")} wait under the same limit. For all of them:'
            yield tag('p', words, limit_lines(o, lacking, 'waiting'))
    else:
        yield tag('p', 'Each limit on its path has room for all of it: its carrying firm can claim it, and the next sweep looks at it.')
    sweep = v['last_sweep']
    if sweep is None:
        yield tag('p', 'No sweep of its group has seen it yet.')
    else:
        held = joined([' It was held back there by ', chips(sweep['held_by'])]) if sweep['held_by'] else ''
        seen = link(f'/sweeps/{sweep["entry"]}', f'entry {sweep["entry"]:,}')
        yield tag('p', 'The last sweep that saw it, ', seen, f', took {sweep["took"]:,} of its lots.', held)


def limit_lines(o, rows, what):
    """The lines by which limits get room for what is left of an offer, or for all that waits under each."""
    lines = (f'LIMIT {o["group"]} {row["kind"]} {row["name"]} {row["use"] + (o if what == "left" else row)[what]}' for row in rows)
    return tag('pre', '\n'.join(lines))


def sweeps(v):
    yield tag('h1', 'Sweeps')
    yield tag('div', group_choices(v, 'sweeps'), class_='filters')
    shown = sweeps_table(v['rows'], 'Sweeps') if v['rows'] else empty('No sweep was made yet.')
    yield panel(count(v['all'], 'sweep'), shown, rows_end(v, 'sweeps', group=v['group']), is_list=True, note='the newest first')


def sweep(v):
    s = v['sweep']
    yield tag('h1', f'Sweep of {s["group"]}, entry {s["entry"]:,}: {s["lots"]:,} of {count(s["asked"], "lot")}')
    if v['faults']:
        yield tag('p', tag('b', 'tools/recheck finds this sheet wrong: '), '; '.join(v['faults']), class_='alarm')
    if not s['offers']:
        yield panel('Nothing waited', empty('No offer of the group was open.'))
    elif 'limits' in v:
        yield from sheet_panels(v, s)
    checked = '' if v['faults'] else 'Added up again by tools/recheck, which shares no code with the desk: right. '
    sheet, entered = link(f'/sweeps/{s["entry"]}.sheet', 'Its sheet'), link(f'/entries/{s["entry"]}', 'its entry')
    yield tag('p', checked, sheet, ' as text, for tools/recheck or tools/draw; ', entered, '.', class_='note')


def sheet_panels(v, s):
    yield tag('p', *(f'{line} ' for line in v['story']), joined(['Made at ', clock(s['at']), '.']) if s['at'] else '', class_='lead')
    drawn = Markup(DRAW.Picture(v['_view'], False, False).svg())
    picture = tag('div', drawn, class_='cut', tabindex='0', role='region', aria_label='The picture of the sweep')
    yield panel('What passed, and what held the rest', picture, tag('p', DRAW.NOTE, class_='note'))
    short = [row for row in v['offers'] if row['taken'] < row['lots']]
    whole = [row for row in v['offers'] if row['taken'] == row['lots']]
    left = sum(row['lots'] - row['taken'] for row in short)
    yield panel('What it left', sheet_offers(short[:MORE], 'What it left') if short else empty('Nothing: every offer was taken whole.'),
                note=f'{count(left, "lot")} of {count(len(short), "offer")}' + (f', of which {MORE} are shown' if len(short) > MORE else ''))
    rows = sorted(v['limits'], key=lambda row: (not row['is_cut'], -row['held_back'], row['room'] - row['taken']))
    yield panel('Its limits', sheet_limits(rows[:MORE]), note=count(len(rows), 'limit'), class_='half')
    yield listed('What it took whole', sheet_offers, whole[:MORE], 'No offer.', note=count(len(whole), 'offer'), class_='half')


def positions(v):
    yield tag('h1', 'Positions')
    yield tag('div', filter_form('/positions', v['name']), tag('span', 'an account, a firm or an instrument', class_='note'), class_='filters')
    yield panel('By instrument', instruments_table(v['instruments']) if v['instruments'] else empty('No account holds anything.'))
    shown = positions_table(v['rows'], 'By account') if v['rows'] else empty('None of that name holds anything.' if v['name'] else 'No account holds anything.')
    yield panel('By account', shown, rows_end(v, 'positions', name=v['name']), is_list=True, note=count(v['all'], 'position'))


def entries(v):
    yield tag('h1', 'Entries')
    yield tag('div', choices('which', v['only'], [('', 'all'), ('refused', 'refused')], lambda only: address('entries', only=only)), class_='filters')
    shown = entries_table(v['rows'], 'Entries') if v['rows'] else empty('Nothing was refused.' if v['only'] else 'Nothing was entered yet.')
    yield panel(entries_counted(v['all']), shown, rows_end(v, 'entries', only=v['only']), is_list=True, note='the newest first')


def entry(v):
    yield tag('h1', f'Entry {v["entry"]:,}: {"refused" if v["is_refused"] else "done"}')
    rows = [('entered', tag('code', v['line'])), ('answered', answer_words(v)), ('when', v['full'] or 'This page has not seen when.'), ('by', who(v))]
    yield panel('What was entered', tag('dl', *(joined([tag('dt', name), tag('dd', words)]) for name, words in rows)))
    if v['is_refused']:
        yield panel('What it did', empty('Nothing: it was refused. docs/rules/refusals.md says what each refusal means, and what to do.'))
        return
    if v['kind'] == 'SWEEP':
        yield panel('What it did', tag('p', link(f'/sweeps/{v["entry"]}', 'The sweep, with its picture and its sheet')))
    if v['before']:
        yield panel('What it goes back to', entries_table(v['before'], 'What it goes back to'))
    if v['offers']:
        yield panel('Its offers' if v['kind'] == 'GIVEUP' else 'Its offer', offers_table(v['offers'], 'Its offers'))
    if v['kind'] not in ('SWEEP', 'DAY'):
        yield listed('What followed', entries_table, v['after'], 'Nothing yet.', note='not all are shown' if v['more'] else None)


def who(v):
    """By whom an entry was made, as far as that is known."""
    if v['connection']:
        return f'{v["line"].split(" ")[1]}, on connection {v["connection"]}, by its message 34={v["message"]}'
    if v['state']['times'] == 'seen':
        return 'The journal\'s file says by whom, and this page wasn\'t given it (--journal).'
    return 'an operator or a sweeper' if v['at'] else 'the opening script, or a journal without origins'


def connections(v):
    yield tag('h1', 'Connections')
    if not v['is_watched']:
        yield panel('Unknown', empty('This page was given a journal alone. Started with --watch it asks the desk who is connected.'))
        return
    if v['silent']:
        names = ', '.join(f'{row["firm"]} ({lasted(row["heard"])})' for row in v['rows'] if row['is_silent'])
        yield tag('p', tag('b', count(v['silent'], 'connection')), f' not heard for a minute: {names}.', class_='lead')
    places = f' of {v["places"]:,} places' if v['places'] else ''
    ever = f'; {v["ever"]:,} in all so far' if v['ever'] is not None else ''
    is_known = v['connected'] is not None
    shown = connections_table(v['rows'], 'Who is connected') if v['rows'] else empty('Nobody is connected.' if is_known else 'The desk can\'t be asked.')
    yield panel('Who is connected', shown, note=f'{v["connected"]:,}{places}{ever}; the longest silent first' if is_known else None)
    if v['absent']:
        yield panel('Firms without a connection', tag('p', ', '.join(v['absent'])), note=count(len(v['absent']), 'firm'))


def find(v):
    yield tag('h1', f'What “{v["id"]}” names' if v['id'] else 'Search')
    if not v['id']:
        yield panel('Nothing was asked', empty('Type an id, an account, an agreement, a firm, an instrument, or the number of an offer or an entry.'))
        return
    direct = [joined([link(f'/offers/{v["offer"]}', f'offer {v["offer"]:,}'), ' ']) if v['offer'] else '',
              joined([link(f'/entries/{v["entry"]}', f'entry {v["entry"]:,}'), ' ']) if v['entry'] else '', names_words(v['names'])]
    if any(direct):
        yield tag('p', 'It is ', *direct, class_='lead')
    parts = [('Limits', limits_table, v['limits'], v['all_limits']), ('Offers that wait', offers_table, v['offers'], v['all_offers']),
             ('Connections', connections_table, v['connections'], len(v['connections'])), ('Positions', positions_table, v['positions'], v['all_positions']),
             ('Agreements', lambda rows, _: agreements_table(rows), v['agreements'], v['all_agreements'])]
    for name, made, rows, all_rows in parts:
        if rows:
            yield panel(name, made(rows, name), note=f'{len(rows):,} of {all_rows:,}' if all_rows > len(rows) else f'{all_rows:,}')
    if v['entries']:
        more = f'; there are more than these {len(v["entries"])}' if v['more'] else ''
        yield panel('Entries', entries_table(v['entries'], 'Entries'), note=f'the newest first{more}')
    if not any(direct) and not v['entries'] and not any(rows for _, _, rows, _ in parts):
        yield panel('Nothing', empty(NOTHING))


def names_words(names):
    return f'{"an" if names[0][0] in "aeio" else "a"} {" and ".join(names)} of the reference' if names else ''


PAGES = dict(overview=overview, limits=limits, offers=offers, sweeps=sweeps, positions=positions, entries=entries, connections=connections, find=find)
SINGLE = dict(limits=limits, offers=offer, sweeps=sweep, entries=entry)
