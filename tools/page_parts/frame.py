"""What is around every page: how the desk is, the pages, the search, and what the times are."""
from .markup import Markup, alone, joined, link, number, tag
from .pages import PAGES, SINGLE
from .pictures import PATTERNS

TABS = [('overview', 'Overview'), ('limits', 'Limits'), ('offers', 'Offers'), ('sweeps', 'Sweeps'), ('positions', 'Positions'), ('entries', 'Entries'),
        ('connections', 'Connections')]
CSV = ('limits', 'offers', 'positions')
TIMES = {'journal': 'Times are those at which entries were asked for, as the journal has them',
         'seen': 'Times are those at which this page saw an entry; those from before its start have none'}
ASK = 'Search an id, an account, an agreement, a firm, an instrument, or the number of an offer or an entry'


def state_words(state):
    """How the desk is in a word, and the facts beside it, which page.js writes anew each second."""
    day = state['date']
    date = f'day {day[:4]}-{day[4:6]}-{day[6:]}' if day else 'no day is open'
    heard = '' if state['heard_seconds'] is None else f'answered {state["heard_seconds"]:.0f} s ago'
    facts = [date, f'entries {state["entries"]:,}', f'{state["behind"]:,} behind' if state['behind'] else '', heard]
    return state['word'], [fact for fact in facts if fact]


def header(state, here, counts, word):
    pill, facts = state_words(state)
    marks = dict(limits=counts['limits_short'], offers=counts['offers'], sweeps=counts['sweeps'], connections=counts['connections'])

    def tab(place, page, name):
        mark = tag('i', number(marks[page]), class_='bad' if page == 'limits' else None) if marks.get(page) else ''
        return link('/' if page == 'overview' else f'/{page}', name, mark, aria_current='page' if page == here else None, accesskey=str(place))

    box = alone('input', name='id', type='search', value=word, placeholder='id, account, agreement, offer', aria_label=ASK, autocomplete='off', spellcheck='false')
    search = tag('form', box, tag('button', 'Find'), action='/find', role='search')
    top = tag('div', link('/', 'Bathlif', class_='brand'), tag('span', pill, id='pill', class_=f'pill {state["level"]}', role='status'),
              tag('span', *(tag('span', fact, class_='fact') for fact in facts), id='facts'), search, class_='top')
    return tag('header', top, tag('nav', *(tab(place, page, name) for place, (page, name) in enumerate(TABS, 1)), class_='tabs', aria_label='Pages'))


def footer(state, here, address, query, zone):
    is_agreed = state['agrees_to'] and state['word'] != 'differs'
    agrees = f' The replica\'s answers agree with the journal\'s digests up to entry {state["agrees_to"]:,}.' if is_agreed else ''
    asked = f'?{query}' if query else ''
    csv = joined([' · ', link(f'{address}.csv{asked}', 'CSV')]) if here in CSV and address.count('/') == 1 else ''
    keys = joined([tag('kbd', '/'), ' search, ', tag('kbd', '1'), ' to ', tag('kbd', '7'), ' pages, ', tag('kbd', 'Esc'), ' leaves the search'])
    return tag('footer', tag('p', f'{TIMES[state["times"]]}, in {zone}. What is shown is answered by a replica of the desk, giveup replay.{agrees}'),
               tag('p', link(f'{address}.json{asked}', 'JSON'), csv, ' · ', link('/metrics', 'metrics'), ' · keys: ', keys))


def title_of(values, parts):
    if 'title' in values:
        return values['title']
    if parts[0] == 'find':
        return f'“{values["id"]}”'
    return dict(TABS)[parts[0]] + (f' of {parts[1]}' if len(parts) > 1 else '')


def page_of(values, parts, query, zone):
    """A whole page."""
    state, here = values['state'], parts[0]
    body = (SINGLE if len(parts) > 1 else PAGES)[here](values)
    heads = [alone('meta', charset='utf-8'), alone('meta', name='viewport', content='width=device-width, initial-scale=1'),
             alone('meta', name='color-scheme', content='light dark'), tag('title', f'{title_of(values, parts)} · Bathlif'),
             alone('link', rel='icon', href='/icon.svg'), alone('link', rel='stylesheet', href='/page.css'), tag('script', src='/page.js', defer=True),
             tag('noscript', alone('meta', http_equiv='refresh', content='5'))]
    banner = tag('p', tag('b', state['word']), ': ', state['text'], id='banner', class_=state['level'], hidden=state['level'] == 'good')
    main = tag('main', *body, id='main', tabindex='-1', data_entries=state['entries'])
    parts_of_body = [link('#main', 'To the page', class_='skip'), PATTERNS, header(state, here, values['counts'], values.get('id', '')), banner, main,
                     footer(state, here, '/' + '/'.join(parts), query, zone)]
    return Markup('<!doctype html>\n') + tag('html', tag('head', *heads), tag('body', *parts_of_body), lang='en')
