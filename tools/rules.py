"""The rules of docs/rules, read a second time and in another language, for tools/house: what a reference declares, what the lines of a
script say, and what a house answers to them. Nothing of it comes from the desk.

A `House` is a book: `enter` takes a command, `tell` a question, `swept` a sweep with its takes. A `Run` is a house with the workers of a
script. Each sum is kept, and changed by what is accepted, so that the time for a day grows with its lines.
"""
import bisect
import collections
import csv
import datetime
import io
import re

import takes

MOST_ENTRIES = 1_000_000
MOST_OPEN = 4_096
HIGHEST_LIMIT = 1_000_000_000

REFUSALS = {1: 'NoDay', 2: 'WrongDay', 3: 'UnknownInstrument', 4: 'UnknownAccount', 5: 'NotYours', 6: 'DuplicateId', 7: 'MatchConflict',
            8: 'UnknownTrade', 9: 'NotMatched', 10: 'NoAgreement', 11: 'TooManyLots', 12: 'TooManyOffers', 13: 'UnknownOffer',
            14: 'OfferClosed', 15: 'LimitReached', 16: 'UnknownKey', 17: 'TooHigh', 18: 'OfferOpen', 19: 'NothingToReverse'}

Report = collections.namedtuple('Report', 'firm id match side symbol lots price account day')


# The reference (docs/rules/reference.md).

NAME = re.compile('[A-Z0-9-]{1,12}')
FIELDS = {'FIRM': 1, 'GROUP': 1, 'INSTRUMENT': 2, 'ACCOUNT': 2, 'AGREEMENT': 3, 'GUARANTOR': 2}
MOST_ROWS = {'FIRM': 1_000, 'GROUP': 100, 'INSTRUMENT': 10_000, 'ACCOUNT': 10_000, 'AGREEMENT': 10_000}


class BadReference(Exception):
    """The fault of the first bad row."""


def records_of(data):
    """The records of a file: comma-separated, and not empty."""
    csv.field_size_limit(len(data) + 1)
    text = data.removeprefix(b'\xef\xbb\xbf').decode('latin-1')
    return [record for record in csv.reader(io.StringIO(text, newline='')) if record]


class Reference:
    """What the rows of a file declare, each kind in the order of the file."""

    def __init__(self, data):
        self.firms, self.groups = {}, {}
        self.symbols = {}               # symbol: group
        self.owners = {}                # account: the firm that carries it
        self.agreements = {}            # agreement: executing firm and account
        self.between = {}               # executing firm and account: agreement
        self.guarantors = {}            # firm: the firm that guarantees what it carries
        for number, record in enumerate(records_of(data), 1):
            self.add(number, *record)
        guarantors = set(self.guarantors.values())
        listed = {'EXEC': self.firms, 'AGR': self.agreements, 'ACCT': self.owners, 'CARRY': self.firms,
                  'GUAR': [firm for firm in self.firms if firm in guarantors]}
        # The keys of limits, each with its place among those that are listed.
        keys = [(kind, name) for kind, names in listed.items() for name in names]
        self.keys = {key: place for place, key in enumerate(keys)}

    def add(self, number, kind, *names):
        is_row = FIELDS.get(kind) == len(names) and all(NAME.fullmatch(name) for name in names)
        require(is_row, f'BadRow {number}')
        getattr(self, f'add_{kind.lower()}')(number, *names)

    def declare(self, number, kind, rows, name, value, is_twice=False):
        require(name not in rows and not is_twice, f'Twice {number}')
        require(len(rows) < MOST_ROWS.get(kind, len(rows) + 1), 'TooMany')
        rows[name] = value

    def add_firm(self, number, firm):
        self.declare(number, 'FIRM', self.firms, firm, firm)

    def add_group(self, number, group):
        self.declare(number, 'GROUP', self.groups, group, group)

    def add_instrument(self, number, symbol, group):
        require(group in self.groups, f'Unknown {number}')
        self.declare(number, 'INSTRUMENT', self.symbols, symbol, group)

    def add_account(self, number, account, firm):
        require(firm in self.firms, f'Unknown {number}')
        self.declare(number, 'ACCOUNT', self.owners, account, firm)

    def add_agreement(self, number, agreement, firm, account):
        require(firm in self.firms and account in self.owners, f'Unknown {number}')
        require(self.owners[account] != firm, f'BadRow {number}')
        self.declare(number, 'AGREEMENT', self.agreements, agreement, (firm, account), (firm, account) in self.between)
        self.between[firm, account] = agreement

    def add_guarantor(self, number, guarantor, firm):
        require(guarantor in self.firms and firm in self.firms, f'Unknown {number}')
        require(guarantor != firm, f'BadRow {number}')
        self.declare(number, 'GUARANTOR', self.guarantors, firm, guarantor)

    def path(self, firm, account):
        """The keys of the limits under which an executing firm gives up to an account."""
        carrier = self.owners[account]
        keys = [('EXEC', firm), ('AGR', self.between[firm, account]), ('ACCT', account), ('CARRY', carrier)]
        return keys + ([('GUAR', self.guarantors[carrier])] if carrier in self.guarantors else [])


def require(is_right, fault):
    if not is_right:
        raise BadReference(fault)


# The lines of a script (docs/rules/script.md). Each word is read to the value that it writes.

NUMBER_TEXT = re.compile(r'(-?)(?=\.?[0-9])0*([0-9]*)\.?([0-9]*)')


class BadLine(Exception):
    """A line that has none of the forms."""


def fitting(value, is_right):
    """A value, if it is right."""
    if not is_right:
        raise BadLine
    return value


def name_of(word):
    return fitting(word, NAME.fullmatch(word))


def id_of(word):
    return fitting(word, re.fullmatch('[!-~]{1,64}', word))


def number_of(word, least=0, most=999_999_999_999):
    number = int(fitting(word, re.fullmatch('[0-9]{1,12}', word)))
    return fitting(number, least <= number <= most)


def day_of(word):
    fitting(word, re.fullmatch('[0-9]{8}', word))
    try:
        datetime.date(int(word[:4]), int(word[4:6]), int(word[6:]))
    except ValueError:
        raise BadLine from None
    return word


def price_of(word):
    """A price, in millionths."""
    found = NUMBER_TEXT.fullmatch(word)
    fitting(word, found)
    sign, whole, fraction = found[1], found[2], found[3].rstrip('0')
    fitting(word, len(whole) <= 9 and len(fraction) <= 6)
    return int(f'{sign}{whole or 0}{fraction:0<6}')


def lots_of(word):
    millionths = price_of(word)
    return fitting(millionths // 1_000_000, millionths % 1_000_000 == 0 and 1_000_000 <= millionths <= 1_000_000_000_000)


def one_of(*words):
    return lambda word: fitting(word, word in words)


def kind_of(word):
    return fitting(word, word in ('EXEC', 'AGR', 'ACCT', 'CARRY', 'GUAR'))


def offer_of(word):
    return number_of(word, 1, 16_000_000)


def why_of(word):
    return fitting(word, number_of(word) in (1, 2, 5))


def worker_of(word):
    return number_of(word, 0, 62)


FORMS = {
    'DAY': [day_of],
    'LIMIT': [name_of, kind_of, name_of, number_of],
    'REPORT': [name_of, id_of, id_of, one_of('B', 'S'), name_of, lots_of, price_of, name_of],
    'GIVEUP': [name_of, id_of, id_of],          # and pairs
    'CLAIM': [name_of, offer_of],
    'REFUSE': [name_of, offer_of, why_of],
    'REVERSE': [name_of, offer_of],
    'SEE': [worker_of, name_of],
    'PROPOSE': [worker_of],
    'COMMIT': [worker_of],
    'SWEEP': [name_of],
    'POSITION': [name_of, name_of],
    'INTEREST': [name_of],
    'LIMITS': [name_of],
}
COMMANDS = list(FORMS)[:7]
QUESTIONS = list(FORMS)[-3:]


def is_silent(line):
    return fitting(line == '' or line.startswith('#'), len(line) <= 1_024)


def said_by(line):
    """What a line says: its first word, and the values of the others."""
    fitting(line, line == line.strip(' '))
    word, *words = [word for word in line.split(' ') if word]
    forms = FORMS.get(word, ())
    if word == 'GIVEUP':
        forms = forms + [name_of, lots_of] * ((len(words) - 3) // 2)
        fitting(line, 5 <= len(words) <= 35)
    fitting(line, len(words) == len(forms) and word in FORMS)
    return word, *(form(word) for form, word in zip(forms, words))


# The book (docs/rules/give-ups.md, limits.md, positions.md).

class Denied(Exception):
    """The first refusal that applies."""


def refuse(number, applies, key=None):
    if applies:
        raise Denied(f'NO {number} {REFUSALS[number]}' + (f' {" ".join(key)}' if key else ''))


class Offer:
    def __init__(self, report, account, lots, group, path):
        self.report, self.account, self.lots = report, account, lots
        self.group, self.path = group, path
        self.moved = 0                  # less what was moved back
        self.moved_today = 0
        self.day = None                 # of the last move
        self.is_closed = False          # refused or reversed

    def left(self):
        return 0 if self.is_closed else self.lots - self.moved

    def counted(self):
        """What counts of it against its report."""
        return self.moved if self.is_closed else self.lots


class House:
    """A book: what was accepted, and the sums of it."""

    def __init__(self, reference):
        self.reference = reference
        self.entries = 0
        self.day = None
        self.limits = {group: {} for group in reference.groups}     # key: lots
        self.listed = {group: [] for group in reference.groups}     # the keys with a limit, in the order of their listing
        self.used = {group: collections.Counter() for group in reference.groups}    # key: lots moved today
        self.reports = {}                                           # firm and id: Report
        self.matches = collections.defaultdict(list)                # match id: its reports
        self.given = collections.Counter()                          # firm and id of a report: what its offers count against it
        self.give_ups = set()                                       # firm and id
        self.offers = []
        self.open = {group: {} for group in reference.groups}       # number: Offer, in the order of the numbers
        self.versions = {group: 0 for group in reference.groups}
        self.positions = collections.Counter()                      # account, symbol and side: lots
        self.interests = collections.Counter()                      # symbol: open interest

    def report(self, firm, id):
        return self.reports.get((firm, id))

    def with_match(self, match):
        return self.matches.get(match, [])

    def offer(self, number):
        return self.offers[number - 1] if 1 <= number <= len(self.offers) else None

    def moved_today(self, offer):
        return offer.moved_today if offer.day == self.day else 0

    def free(self, report):
        return report.lots - self.given[report.firm, report.id]

    def limit(self, group, key):
        return self.limits[group].get(key)

    def room(self, group, key):
        return max(0, self.limits[group].get(key, 0) - self.used[group][key])

    def touch(self, group):
        self.versions[group] += 1

    def add_lots(self, account, symbol, side, lots):
        """Lots come to an account, or leave it if they are below 0."""
        before = self.net(account, symbol)
        self.positions[account, symbol, side] += lots
        self.interests[symbol] += self.net(account, symbol) - before

    def net(self, account, symbol):
        """What an account adds to the open interest."""
        long, short = self.held(account, symbol)
        return max(0, long - short)

    def move(self, offer, lots):
        """Lots of an offer come to its account, or go back if they are below 0."""
        report = offer.report
        self.add_lots(report.account, report.symbol, report.side, -lots)
        self.add_lots(offer.account, report.symbol, report.side, lots)
        offer.moved_today = self.moved_today(offer) + lots
        offer.moved, offer.day = offer.moved + lots, self.day
        for key in offer.path:
            self.used[offer.group][key] += lots

    def close(self, offer, counted):
        """Nothing is left of an offer from now on: of its lots, which counted against its report, only those that were moved still do."""
        offer.is_closed = True
        self.given[offer.report.firm, offer.report.id] -= counted - offer.counted()

    def settle(self, number):
        """An offer of which nothing is left isn't open."""
        offer = self.offer(number)
        if offer.left() == 0:
            self.open[offer.group].pop(number, None)

    # Commands: the refusals in the order of their numbers, and then what is done.

    def enter(self, word, *values):
        """The answer to a command, which is entered."""
        if self.entries == MOST_ENTRIES:
            return 'FULL'
        command = {'DAY': self.open_day, 'LIMIT': self.set_limit, 'REPORT': self.take_report, 'GIVEUP': self.give_up,
                   'CLAIM': self.claim, 'REFUSE': self.refuse_offer, 'REVERSE': self.reverse}[word]
        self.entries += 1
        try:
            return f'{self.entries} {command(*values)}'
        except Denied as denied:
            return f'{self.entries} {denied}'

    def open_day(self, day):
        refuse(2, self.day and day <= self.day)
        self.day = day
        for group in self.reference.groups:
            self.used[group].clear()
            self.touch(group)
        return 'OK'

    def set_limit(self, group, kind, name, lots):
        key = kind, name
        refuse(16, group not in self.reference.groups or key not in self.reference.keys)
        refuse(17, lots > HIGHEST_LIMIT)
        if key not in self.limits[group]:
            bisect.insort(self.listed[group], key, key=self.reference.keys.get)
        self.limits[group][key] = lots
        self.touch(group)
        return 'OK'

    def take_report(self, firm, id, match, side, symbol, lots, price, account, day=None):
        refuse(1, not self.day)
        refuse(2, day not in (None, self.day))
        refuse(3, symbol not in self.reference.symbols)
        refuse(4, account not in self.reference.owners)
        refuse(5, self.reference.owners[account] != firm)
        refuse(6, self.report(firm, id))
        new = Report(firm, id, match, side, symbol, lots, price, account, self.day)
        others = self.with_match(match)
        terms = lambda it: (it.symbol, it.lots, it.price, it.day)
        refuse(7, len(others) == 2 or any(terms(it) != terms(new) or it.side == side for it in others))
        self.reports[firm, id] = new
        self.matches[match].append(new)
        if not others[1:]:
            return 'OK OPEN'
        for it in others:
            self.add_lots(it.account, it.symbol, it.side, it.lots)
        return 'OK MATCHED'

    def give_up(self, firm, id, report, *pairs):
        lines = list(zip(pairs[::2], pairs[1::2]))
        of = self.report(firm, report)
        refuse(1, not self.day)
        refuse(4, any(account not in self.reference.owners for account, _ in lines))
        refuse(6, (firm, id) in self.give_ups)
        refuse(8, not of)
        refuse(9, len(self.with_match(of.match)) < 2)
        refuse(10, any((firm, account) not in self.reference.between for account, _ in lines))
        refuse(11, sum(lots for _, lots in lines) > self.free(of))
        group = self.reference.symbols[of.symbol]
        refuse(12, len(self.open[group]) + len(lines) > MOST_OPEN)
        first = len(self.offers) + 1
        self.give_ups.add((firm, id))
        for account, lots in lines:
            offer = Offer(of, account, lots, group, self.reference.path(firm, account))
            self.offers.append(offer)
            self.open[group][len(self.offers)] = offer
            self.given[of.firm, of.id] += lots
        self.touch(group)
        return f'OK OFFERS {first} {len(self.offers)}'

    def offer_of(self, firm, number):
        """The offer of a claim, a refusal or a reversal, which are refused alike."""
        offer = self.offer(number)
        refuse(1, not self.day)
        refuse(5, offer and self.reference.owners[offer.account] != firm)
        refuse(13, not offer)
        return offer

    def claim(self, firm, number):
        offer = self.offer_of(firm, number)
        lots = offer.left()
        refuse(14, lots == 0)
        for key in offer.path:
            refuse(15, self.room(offer.group, key) < lots, key)
        self.move(offer, lots)
        self.settle(number)
        self.touch(offer.group)
        return f'OK LOTS {lots}'

    def refuse_offer(self, firm, number, _why):
        offer = self.offer_of(firm, number)
        lots = offer.left()
        refuse(14, lots == 0)
        self.close(offer, offer.counted())
        self.settle(number)
        self.touch(offer.group)
        return f'OK LOTS {lots}'

    def reverse(self, firm, number):
        offer = self.offer_of(firm, number)
        refuse(18, offer.left() > 0)
        lots = self.moved_today(offer)
        refuse(19, lots == 0)
        counted = offer.counted()
        self.move(offer, -lots)
        self.close(offer, counted)
        self.touch(offer.group)
        return f'OK LOTS {lots}'

    def swept(self, group, takes):
        """A sweep is entered: each take moves its lots."""
        self.entries += 1
        for number, lots in takes.items():
            if lots:
                self.move(self.offer(number), lots)
                self.settle(number)
        self.touch(group)

    # Questions.

    def tell(self, word, *names):
        """Returns the answer to a question, in lines."""
        return getattr(self, f'tell_{word.lower()}')(*names)

    def held(self, account, symbol):
        return self.positions[account, symbol, 'B'], self.positions[account, symbol, 'S']

    def tell_position(self, account, symbol):
        return ['{} {}'.format(*self.held(account, symbol))]

    def tell_interest(self, symbol):
        return [str(self.interests[symbol])]

    def tell_limits(self, group):
        keys = self.listed.get(group, [])
        return [f'{" ".join(key)} {self.limit(group, key)} {self.used[group][key]} {self.room(group, key)}' for key in keys]

    def tell_held(self, firm, account):
        if self.reference.owners.get(account) != firm:
            return ['NONE']
        held = [(symbol, *self.held(account, symbol)) for symbol in self.reference.symbols]
        return [str(self.day or 0)] + [f'{symbol} {long} {short}' for symbol, long, short in held if long or short]

    def tell_view(self, group):
        if group not in self.reference.groups:
            return ['UNKNOWN GROUP']
        view = View(self, group)
        return [str(view.version), *view.rows()]

    def printed(self, word, *names):
        """What a replay prints of a question."""
        owners, symbols, groups = self.reference.owners, self.reference.symbols, self.reference.groups
        kinds = {'POSITION': (owners, symbols), 'INTEREST': (symbols,), 'LIMITS': (groups,)}[word]
        if not all(name in known for name, known in zip(names, kinds)):
            return ['UNKNOWN']
        return [f'{word.replace("LIMITS", "LIMIT")} {" ".join(names)} {it}' for it in self.tell(word, *names)]


# Sweeps (docs/rules/sweeps.md).

class View:
    """The open offers of a group and the rooms of their keys, as they are when it is made."""

    def __init__(self, house, group):
        self.group, self.version = group, house.versions[group]
        self.offers = house.open[group].copy()
        self.lots = {number: offer.left() for number, offer in self.offers.items()}
        self.limits, self.used = house.limits[group].copy(), house.used[group].copy()

    def takes(self, any_greatest=None):
        """What a sweep takes, by number. It is made from any greatest takes, if they are given."""
        offers = {number: takes.Offer(self.lots[number], offer.path) for number, offer in self.offers.items()}
        return takes.oldest_first(offers, {key: self.room(key) for key in self.keys()}, any_greatest)

    def room(self, key):
        return max(0, self.limits.get(key, 0) - self.used[key])

    def keys(self):
        """Those of its rooms, in the order in which the paths name them first."""
        return list(dict.fromkeys(key for offer in self.offers.values() for key in offer.path))

    def rows(self):
        """The offers, each with its agreement before the executing firm, and the rooms."""
        for number, offer in self.offers.items():
            executing, agreement, *others = (name for _, name in offer.path)
            yield f'OFFER {number} {self.lots[number]} {agreement} {executing} {" ".join(others)}'
        for key in self.keys():
            yield f'ROOM {" ".join(key)} {self.room(key)}'

    # The lines of its sheet.

    def head(self):
        return [f'SHEET {self.group} {self.version}', *self.rows()]

    def take_rows(self, lots):
        return [f'TAKE {number} {lots[number]}' for number in self.offers]

    def foot(self, cut_keys, cut_offers):
        return [*(f'CUT {" ".join(key)}' for key in self.keys() if key in cut_keys), *(f'CUT OFFER {number}' for number in sorted(cut_offers)), 'END']


class Run:
    """A house, and the workers of a script with their looks and proposals."""

    def __init__(self, reference):
        self.house = House(reference)
        self.views = {}                 # group: the last view that was looked at
        self.looks = {}                 # worker: view
        self.proposals = {}             # worker: lots

    def answers(self, word, *values):
        """What a replay prints of a line; of a sweep the view alone, since its cut is the desk's choice."""
        if word in COMMANDS:
            return [self.house.enter(word, *values)]
        if word in QUESTIONS:
            return self.house.printed(word, *values)
        return {'SEE': self.see, 'PROPOSE': self.propose, 'COMMIT': self.commit, 'SWEEP': self.sweep}[word](*values)

    def view(self, group):
        """The view of a group now, which is made once for each version."""
        view = self.views.get(group)
        if not view or view.version != self.house.versions[group]:
            view = self.views[group] = View(self.house, group)
        return view

    def see(self, worker, group):
        if group not in self.house.reference.groups:
            return ['UNKNOWN GROUP']
        self.looks[worker] = self.view(group)
        self.proposals.pop(worker, None)
        return [f'SEEN {group} {self.looks[worker].version}']

    def propose(self, worker):
        if worker not in self.looks:
            return ['NOTHING']
        self.proposals[worker] = sum(self.looks[worker].takes().values())
        return [f'PROPOSED {self.proposals[worker]}']

    def commit(self, worker):
        if worker not in self.proposals:
            return ['NOTHING']
        view = self.looks.pop(worker)
        del self.proposals[worker]
        if self.house.entries == MOST_ENTRIES:
            return ['FULL']
        now = self.house.versions[view.group]
        return view if view.version == now else [f'STALE {view.version} {now}']

    def sweep(self, group):
        if group not in self.house.reference.groups:
            return ['UNKNOWN GROUP']
        return ['FULL'] if self.house.entries == MOST_ENTRIES else self.view(group)
