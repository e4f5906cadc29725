"""What each page shows, as values: the JSON of a page is these, and its HTML is made of them."""
import bisect
import heapq
import itertools
import subprocess
import threading
import time

from .group_view import NEAR, by_need

ROWS, MOST_ROWS = 100, 20_000
SILENT = 60_000         # milliseconds of silence from a firm after which it is shown as silent
FOUND = 100             # entries of a search
LOOKED = 10_000         # entries that are looked at for those that follow a limit
RECENT, BARS = 300_000, 30      # milliseconds before now of which entries are shown by time, and the bars that they are shown in
DONE = {'REPORT': 'reported', 'GIVEUP': 'given up', 'CLAIM': 'claimed', 'REFUSE': 'refused', 'REVERSE': 'taken back', 'SWEEP': 'swept'}


def number_in(text, least, most):
    """The number that a text is, if it is one of few digits between these."""
    return int(text) if text.isascii() and text.isdigit() and len(text) < 10 and least <= int(text) <= most else None


def keys_of(keys):
    return [dict(kind=kind, name=name) for kind, name in keys]


class Shown:
    def __init__(self, following, clock):
        self.following, self.clock, self.again = following, clock, threading.Lock()

    @property
    def day(self):
        return self.following.day

    def answer(self, parts, asked):
        """The values of the page at a path, of its parts, or None if there is no such page. `asked` is the query."""
        pages = {'overview': self.overview, 'limits': self.limits, 'offers': self.offers, 'sweeps': self.sweeps, 'positions': self.positions,
                 'entries': self.entries, 'connections': self.connections, 'find': self.find}
        single = {'limits': self.limits, 'offers': self.offer, 'sweeps': self.sweep, 'entries': self.entry}
        following, day = self.following, self.day
        if len(parts) == 2 and parts[0] == 'sweeps':
            self.prepare(parts[1])
        with day.lock:
            if len(parts) == 1 and parts[0] in pages:
                values = pages[parts[0]](asked)
            elif len(parts) == 2 and parts[0] in single:
                values = single[parts[0]](asked, parts[1])
            else:
                return None
            if values is None:
                return None
            return dict(page=parts[0], state=following.state(), counts=self.counts(), **values)

    def counts(self):
        """What the tabs show beside their names."""
        day, views = self.day, self.following.views.all()
        return dict(limits_short=sum(bool(row.short) for view in views for row in view.limits), offers=day.open_count(), sweeps=len(day.sheets.rows),
                    connections=len(self.following.connections), refused=sum(day.refusals.values()))

    @staticmethod
    def rows_asked(asked):
        """The places of the first row that is asked for, and of the one after the last; without an end where `rows` is None, as in a table for a spreadsheet."""
        if asked.get('rows', '') is None:
            return 0, None
        return number_in(asked.get('from', ''), 0, MOST_ROWS) or 0, number_in(asked.get('rows', ''), 1, MOST_ROWS) or ROWS

    # The overview.

    def overview(self, asked):
        day, views = self.day, self.following.views.all()
        limits = [[row for row in view.limits if row.state != 'free' or row.short] for view in views]
        held = sorted(number for view in views for number in view.held)
        sweeps = day.sheets.numbers
        return dict(
            open_offers=day.open_count(), lots_waiting=sum(view.lots for view in views), held_offers=len(held), held_lots=sum(view.held_lots for view in views),
            swept_now=self.sum_of(view.proposed for view in views), limits=self.states(views), near_from=NEAR,
            moved=day.swept + day.claimed - day.reversed, swept=day.swept, claimed=day.claimed, reversed=day.reversed, closed=day.closed,
            refused=sum(day.refusals.values()), refusals=dict(day.refusals.most_common()), rate=self.rate(), connections=self.connection_counts(),
            tightest=[self.limit_values(row) for row in itertools.islice(heapq.merge(*limits, key=by_need), 12)],
            held=[self.offer_values(number) for number in held[:8]],
            groups=[self.group_values(view) for view in sorted(views, key=lambda view: (-view.held_lots, -view.lots, view.group))[:12]], all_groups=len(views),
            last_sweeps=[self.sweep_values(number) for number in sweeps[:-8:-1]],
            last_refusals=[self.entry_values(number) for number in day.history.refused[:-8:-1] if number >= day.first])

    @staticmethod
    def sum_of(numbers):
        """The sum of numbers, or None if one isn't known."""
        numbers = list(numbers)
        return None if None in numbers else sum(numbers)

    @staticmethod
    def states(views):
        states = {name: sum(view.states[name] for view in views) for name in ('blocks', 'full', 'near', 'free')}
        return dict(states, short=sum(bool(row.short) for view in views for row in view.limits), all=sum(len(view.limits) for view in views))

    def rate(self):
        """Entries by time: of the last five minutes if anything was entered in them, and else of the whole day."""
        history, moments, now = self.day.history, self.day.history.moments, int(time.time() * 1000)
        place = bisect.bisect_right(moments, 0)
        if place == len(moments):
            return None
        known, newest, is_over = moments[place], max(moments[-1], moments[place]), self.following.is_over()
        is_idle = is_over or newest < now - RECENT
        first, last = (known, newest) if is_idle else (max(known, now - RECENT), max(now, newest))
        step = max((last - first) / BARS, 1)
        counts = [history.between(int(first + step * place), int(first + step * (place + 1)) + (place == BARS - 1)) for place in range(BARS)]
        return dict(first=self.clock.iso(first), last=self.clock.iso(last), seconds=round(step / 1000, 3), counts=counts,
                    per_second=None if is_over else self.tenths(history.between(now - 10_000, now + 1)),
                    last_minute=None if is_over else history.between(now - 60_000, now + 1))

    @staticmethod
    def tenths(count):
        """A tenth of a count, without a fraction if it has none."""
        whole, rest = divmod(count, 10)
        return count / 10 if rest else whole

    # Limits.

    def limits(self, asked, group=None):
        views = self.following.views
        if group is not None and group not in self.day.reference.group_places:
            return None
        shown = [views.view(self.day.reference.group_places[group])] if group else views.all()
        kind, state, word, (first, most) = asked.get('kind', ''), asked.get('state', ''), asked.get('name', '').upper(), self.rows_asked(asked)
        lists = [view.limits for view in shown]
        if kind or state or word:
            lists = [[row for row in rows if kind in ('', row.kind) and word in row.name and (not state or self.is_like(row, state))] for rows in lists]
        rows = itertools.islice(heapq.merge(*lists, key=by_need), first, most)
        return dict(group=group, kind=kind, only=state, name=word, all=sum(map(len, lists)), first=first,
                    rows=[self.limit_values(row) for row in rows], limits=self.states(shown),
                    groups=[self.group_values(view) for view in shown if group or view.limits or view.lots])

    @staticmethod
    def is_like(row, state):
        return row.short > 0 if state == 'short' else row.state in (state, 'blocks') if state == 'full' else row.state == state

    @staticmethod
    def limit_values(row):
        return row._asdict()

    @staticmethod
    def group_values(view):
        return dict(group=view.group, limits=len(view.limits), blocks=view.states['blocks'], full=view.states['full'], near=view.states['near'],
                    short=sum(bool(row.short) for row in view.limits), offers=len(view.offers), lots=view.lots, held=view.held_lots, swept_now=view.proposed)

    # Offers.

    def offers(self, asked):
        group, only, word, (first, most) = asked.get('group', ''), asked.get('only', ''), asked.get('name', '').upper(), self.rows_asked(asked)
        offers, reference = self.day.offers, self.day.reference
        numbers = []
        for view in self.following.views.all():
            if group in ('', view.group):
                numbers += [number for number in view.offers if not only or (number in view.held) == (only == 'held')]
        if word:
            numbers = [number for number in numbers if any(word in name for _, name in offers.path(number))]
        numbers.sort()
        return dict(group=group, only=only, name=word, all=len(numbers), lots=sum(offers.left[number] for number in numbers), groups=reference.groups,
                    first=first, rows=[self.offer_values(number) for number in numbers[first:most]])

    def offer_values(self, number):
        day, offers = self.day, self.day.offers
        entry = offers.entries[number]
        _, _, _, _, side, symbol, _, price, held = day.history.lines[offers.reports[number]].split(' ')
        name = day.reference.names[offers.agreements[number]]
        firm, account = day.reference.agreements[name]
        view = self.following.views.view(offers.groups[number])
        return dict(number=number, group=view.group, symbol=symbol, side=side, price=price, lots=offers.lots[number], left=offers.left[number], agreement=name,
                    executing=firm, from_account=held, account=account, carrying=day.reference.accounts[account], entry=entry,
                    since=self.clock.iso(day.history.moments[entry - 1]), report=offers.reports[number],
                    held_by=[dict(kind=kind, name=name, room=room) for kind, name, room in view.held.get(number, ())])

    def offer(self, asked, text):
        day, offers = self.day, self.day.offers
        number = number_in(text, 1, len(offers))
        if not number:
            return None
        view, left = self.following.views.view(offers.groups[number]), offers.left[number]
        limits = {(row.kind, row.name): row for row in view.limits}
        path = []
        for kind, name in offers.path(number):
            row = limits.get((kind, name))
            room = row.room if row else 0
            path.append(dict(kind=kind, name=name, limit=row.limit if row else None, use=row.use if row else 0, room=room, waiting=row.waiting if row else 0,
                             short=row.short if row else 0, state=row.state if row else 'blocks', lacks=max(0, left - room)))
        happened = [(offers.entries[number], offers.lots[number]), *offers.history(number)]
        events = [dict(self.entry_values(entry), lots=lots, what=DONE[day.history.lines[entry].partition(' ')[0]]) for entry, lots in happened]
        return dict(offer=self.offer_values(number), path=path, events=events, last_sweep=self.last_sweep(number), title=f'Offer {number}')

    def last_sweep(self, number):
        """The newest sweep that saw an offer: what it took, and the limits of its cut on the offer's path."""
        day = self.day
        entry = day.offers.entries[number]
        for sweep in itertools.islice(reversed(day.sheets.numbers), 50):
            row = day.sheets.rows[sweep]
            if sweep < entry:
                break
            if row.group == day.reference.groups[day.offers.groups[number]]:
                took = next((lots for at, lots in day.offers.history(number) if at == sweep), 0)
                cut = keys_of(key for key in day.offers.path(number) if key in row.cut)
                return dict(self.sweep_values(sweep), took=took, held_by=cut)
        return None

    # Sweeps.

    def sweeps(self, asked):
        numbers, (first, most), group = self.day.sheets.numbers, self.rows_asked(asked), asked.get('group', '')
        rows = [number for number in reversed(numbers) if group in ('', self.day.sheets.rows[number].group)]
        return dict(group=group, groups=self.day.reference.groups, all=len(rows), first=first,
                    rows=[self.sweep_values(number) for number in rows[first:most]])

    def sweep_values(self, number):
        row, day = self.day.sheets.rows[number], self.day
        return dict(entry=number, at=self.clock.iso(day.history.moments[number - 1]), group=row.group, version=row.version, offers=row.offers, asked=row.asked,
                    lots=row.lots, left=row.asked - row.lots, cut=keys_of(row.cut), whole=row.whole)

    def prepare(self, text):
        """Reads the sheet of a sweep before the day is locked for the page, since an old one takes seconds."""
        number = number_in(text, 1, len(self.day.history))
        if number in self.day.sheets.rows:
            self.sheet(number)

    def sweep(self, asked, text):
        number = number_in(text, 1, len(self.day.history))
        if number not in self.day.sheets.rows:
            return None
        sheet = self.sheet(number)
        view, faults = self.day.sheets.view(number, sheet)
        values = dict(sweep=self.sweep_values(number), faults=faults, title=f'Sweep {number}', sheet=sheet.split('\n'))
        if view:
            values |= dict(
                _view=view, oldest_first=view.filled_in_turn(), story=view.story(),
                limits=[dict(kind=kind, name=name, room=view.room((kind, name)), taken=view.taken[kind, name], held_back=view.held_back[kind, name],
                             is_cut=view.is_cut((kind, name))) for kind, name in view.sheet.rooms],
                offers=[dict(number=offer, lots=row.lots, taken=view.takes(offer), path=view.path(offer), held_by=view.held_by(offer))
                        for offer, row in view.offers.items()])
        return values

    def sheet(self, number):
        """The sheet of a sweep; one that isn't kept any more is worked out by another replica, of the entries up to it."""
        day = self.day
        with self.again:
            kept = day.sheets.text(number)
            if kept is None:
                lines = day.history.lines
                said = subprocess.run([self.following.program, 'replay', day.reference.path_of_file], input=bytes(lines.text[:lines.ends[number]]),
                                      stdout=subprocess.PIPE, stderr=subprocess.DEVNULL, check=True).stdout
                kept = said[said.rindex(b'\nSHEET ') + 1:].decode('latin-1').rstrip('\n')
                day.sheets.keep(number, kept)
            return kept

    # Positions.

    def positions(self, asked):
        day, word, (first, most) = self.day, asked.get('name', '').upper(), self.rows_asked(asked)
        rows = self.position_rows()
        symbols = sorted({row['symbol'] for row in rows})
        interest = day.ask_interest(symbols)
        sums = {symbol: [0, 0, 0] for symbol in symbols}
        for row in rows:
            sums[row['symbol']] = [one + more for one, more in zip(sums[row['symbol']], (row['long'], row['short'], 1))]
        shown = [row for row in rows if any(word in row[name] for name in ('account', 'symbol', 'firm'))]
        return dict(name=word, all=len(shown),
                    instruments=[dict(symbol=symbol, group=day.reference.instruments[symbol], interest=interest.get(symbol), long=sums[symbol][0],
                                      short=sums[symbol][1], accounts=sums[symbol][2]) for symbol in symbols],
                    first=first, rows=shown[first:most])

    def position_rows(self):
        """What each account holds, as the replica says."""
        accounts = self.day.reference.accounts
        return [dict(account=account, firm=accounts[account], symbol=symbol, long=long, short=short, net=long - short)
                for (account, symbol), (long, short) in sorted(self.day.ask_positions().items()) if long or short]

    # Entries.

    def entries(self, asked):
        history, (first, most), only = self.day.history, self.rows_asked(asked), asked.get('only', '')
        numbers = history.refused[::-1][first:most] if only == 'refused' else range(len(history), 0, -1)[first:most]
        return dict(only=only, all=len(history.refused) if only == 'refused' else len(history), first=first, rows=[self.entry_values(number) for number in numbers])

    def entry_values(self, number):
        entry = self.day.history.entry(number)
        return dict(entry=number, at=self.clock.iso(entry.at), line=entry.line, answer=entry.answer, connection=entry.connection or None,
                    message=entry.message or None)

    def entry(self, asked, text):
        day = self.day
        number = number_in(text, 1, len(day.history))
        if not number:
            return None
        words, answer = day.history.lines[number].split(' '), day.history.answers[number].split(' ')
        offers, before, after, more = [], [], [], False
        if answer[0] != 'NO':
            if words[0] == 'REPORT':
                before, after, more = self.after_report(number, words)
            elif words[0] == 'GIVEUP':
                before, offers = [self.reported(words)], list(range(int(answer[2]), int(answer[3]) + 1))
            elif words[0] in ('CLAIM', 'REFUSE', 'REVERSE'):
                offers = [int(words[2])]
            elif words[0] == 'LIMIT':
                after = self.set_again(number, words)
            after = sorted({*after, *(entry for offer in offers for entry, _ in day.offers.history(offer) if entry > number)})
        return dict(self.entry_values(number), title=f'Entry {number}', full=self.clock.full(day.history.moments[number - 1]), kind=words[0],
                    is_refused=answer[0] == 'NO',
                    offers=[self.offer_values(offer) for offer in offers], before=[self.entry_values(entry) for entry in before],
                    after=[self.entry_values(entry) for entry in after[:FOUND]], more=more or len(after) > FOUND)

    def reported(self, words):
        return self.day.reports[f'{words[1]} {words[3]}']

    def after_report(self, number, words):
        """The other side of a report's trade, before or after it, and the give-ups of the report."""
        day, history = self.day, self.day.history
        sides, given, looked = [], [], 0
        for looked, other in enumerate(itertools.islice(history.having(words[3], len(history) + 1), FOUND), 1):
            line = history.lines[other].split(' ')
            if line[0] == 'REPORT' and line[3] == words[3] and other != number and not history.answers[other].startswith('NO'):
                sides.append(other)
        for looked, other in enumerate(itertools.islice(history.having(words[2], len(history) + 1), FOUND), 1):
            line = history.lines[other].split(' ')
            if line[0] == 'GIVEUP' and line[1] == words[1] and line[3] == words[2]:
                given.append(other)
        offers = [offer for entry in given if (answer := history.answers[entry].split(' '))[0] == 'OK' for offer in range(int(answer[2]), int(answer[3]) + 1)]
        events = [entry for offer in offers for entry, _ in day.offers.history(offer)]
        return [side for side in sides if side < number], [side for side in sides if side > number] + given + events, looked == FOUND

    def set_again(self, number, words):
        history = self.day.history
        looked = itertools.takewhile(lambda other: other > number, itertools.islice(history.having(words[3], len(history) + 1), LOOKED))
        return [other for other in looked if history.lines[other].split(' ')[:4] == words[:4]][:FOUND]

    # Connections.

    def connections(self, asked):
        following = self.following
        rows = sorted(following.connections, key=lambda row: -row.heard)
        present = {row.firm for row in rows}
        absent = [firm for firm in self.day.reference.firms if firm not in present]
        desk = following.desk
        return dict(self.connection_counts(), places=desk.places if desk else None, ever=desk.all if desk else None, is_watched=bool(following.watch),
                    rows=[self.connection_values(row) for row in rows], absent=absent if desk and not following.gone else [])

    @staticmethod
    def connection_values(row):
        return dict(row._asdict(), is_silent=row.heard >= SILENT)

    def connection_counts(self):
        rows, is_known = self.following.connections, self.following.desk is not None and not self.following.gone
        if not is_known:
            return dict(connected=None, silent=None, without_firm=None)
        return dict(connected=len(rows), silent=sum(row.heard >= SILENT for row in rows), without_firm=sum(row.firm == '-' for row in rows))

    # A search.

    def find(self, asked):
        """What an id, an account, an agreement, a firm, a group, an instrument or a number names."""
        word, day, views = asked.get('id', '').strip(), self.day, self.following.views.all()
        reference, name = day.reference, word.upper()
        number = number_in(word.lstrip('#'), 1, max(len(day.history), len(day.offers)))
        limits = sorted((row for view in views for row in view.limits if row.name == name), key=by_need)
        offers = sorted(offer for view in views for offer in view.offers if any(name == key for _, key in day.offers.path(offer)))
        agreements = [row for row in self.agreements() if name in row.values()]
        positions = [row for row in self.position_rows() if name in (row['account'], row['symbol'], row['firm'])]
        entries = self.entries_having(word) or self.entries_having(name)
        kinds = dict(firm=reference.firms, group=reference.groups, instrument=reference.instruments, account=reference.accounts, agreement=reference.agreements)
        return dict(id=word, names=[kind for kind, known in kinds.items() if name in known],
                    entry=number if number and number <= len(day.history) else None, offer=number if number and number <= len(day.offers) else None,
                    limits=[self.limit_values(row) for row in limits[:FOUND]], all_limits=len(limits),
                    offers=[self.offer_values(offer) for offer in offers[:FOUND]], all_offers=len(offers),
                    connections=[self.connection_values(row) for row in self.following.connections if row.firm == name],
                    positions=positions[:FOUND], all_positions=len(positions), agreements=agreements[:FOUND], all_agreements=len(agreements),
                    entries=[self.entry_values(entry) for entry in entries[:FOUND]], more=len(entries) > FOUND)

    def agreements(self):
        reference = self.day.reference
        for name, (firm, account) in reference.agreements.items():
            yield dict(agreement=name, executing=firm, account=account, carrying=reference.accounts[account])

    def entries_having(self, word):
        history = self.day.history
        return list(itertools.islice(history.having(word, len(history) + 1), FOUND + 1)) if word else []
