"""A day as its lines come: each is given to the replica, and what it answers is noted."""
import collections
import threading

from .history import History
from .offers import Offers
from .replica import ReplicaEnded
from .sheets import Sheets, sweep_of

WORDS = ('DAY', 'LIMIT', 'REPORT', 'GIVEUP', 'CLAIM', 'REFUSE', 'REVERSE', 'SWEEP')

Row = collections.namedtuple('Row', 'line at connection message instead', defaults=(0, 0, 0, None))


class Day:
    """What the entries so far came to. Its lock is held while lines are taken and while something is looked up."""

    def __init__(self, reference, replica):
        self.reference, self.replica, self.lock = reference, replica, threading.RLock()
        self.history, self.offers, self.sheets = History(), Offers(reference), Sheets()
        self.reports, self.unmatched = {}, {}           # (firm, id): the entry; match id: account and symbol of the first side
        self.touched = [0] * len(reference.groups)      # how often a group's limits, offers or uses have changed
        self.positions, self.moved = {}, set()          # (account, symbol): long and short; those to be asked for again
        self.refusals, self.date, self.first = collections.Counter(), '', 1
        self.swept = self.claimed = self.closed = self.reversed = self.all_swept = 0
        self.differs = None                             # why the replica isn't a copy of the desk
        self.is_frozen = False                          # the replica is gone, and what it said stays
        self.swept_by_entry = {}                        # what the replica took, until the desk's journal has said what the desk took
        self.notes = {word: getattr(self, f'note_{word.lower()}') for word in WORDS}

    def take(self, rows):
        """Rows of a journal. What the replica printed for them, answer by answer."""
        with self.lock:
            answers = self.replica.play([row.line for row in rows])
            parts = [answer.split('\n', 1) for answer in answers]
            first = len(self.history) + 1
            said = [self.without_number(number, part[0], row) for number, (part, row) in enumerate(zip(parts, rows), first)]
            self.history.extend(rows, said)
            for number, (row, words, part) in enumerate(zip(rows, said, parts), first):
                if words[:3] == 'NO ':
                    self.history.refused.append(number)
                    self.refusals[words.split(' ')[2]] += 1
                else:
                    line = row.line.split(' ')
                    self.notes[line[0]](number, line, words.split(' '), part[-1])
            return answers

    def without_number(self, due, answer, row):
        number, _, said = answer.partition(' ')
        if not number.isdigit():
            raise ReplicaEnded(f'it enters nothing for the line {row.line[:60]!r}, and answers {answer[:60]!r}')
        if int(number) != due:
            self.say(due, f'the replica numbers it {number}')
        return said

    def say(self, entry, why):
        self.differs = self.differs or f'at entry {entry:,}: {why}'

    # What an entry did.

    def note_day(self, number, words, said, sheet):
        self.date, self.first = words[1], number
        self.refusals.clear()
        self.swept = self.claimed = self.closed = self.reversed = 0
        for place in range(len(self.touched)):
            self.touched[place] += 1

    def note_limit(self, number, words, said, sheet):
        self.touched[self.reference.group_places[words[1]]] += 1

    def note_report(self, number, words, said, sheet):
        _, firm, name, match, _, symbol, _, _, account = words
        self.reports[f'{firm} {name}'] = number
        if said[1] == 'OPEN':
            self.unmatched[match] = account, symbol
        else:
            self.moved.update((self.unmatched.pop(match), (account, symbol)))

    def note_giveup(self, number, words, said, sheet):
        report = self.reports[f'{words[1]} {words[3]}']
        group = self.group_of(report)
        for account, lots in zip(words[4::2], words[5::2]):
            self.offers.add(number, report, group, self.reference.between[words[1], account], int(lots))
        self.touched[group] += 1

    def group_of(self, report):
        return self.reference.group_places[self.reference.instruments[self.history.lines[report].split(' ')[5]]]

    def move(self, offer):
        """Lots of an offer were moved, or moved back: two positions, and the uses of its path."""
        _, _, _, _, _, symbol, _, _, held = self.history.lines[self.offers.reports[offer]].split(' ')
        account = self.reference.agreements[self.reference.names[self.offers.agreements[offer]]][1]
        self.moved.update(((held, symbol), (account, symbol)))
        self.touched[self.offers.groups[offer]] += 1

    def note_claim(self, number, words, said, sheet):
        offer, lots = int(words[2]), int(said[2])
        self.offers.take(offer, number, lots)
        self.claimed += lots
        self.move(offer)

    def note_refuse(self, number, words, said, sheet):
        offer, lots = int(words[2]), int(said[2])
        self.offers.take(offer, number, lots)
        self.closed += lots
        self.touched[self.offers.groups[offer]] += 1

    def note_reverse(self, number, words, said, sheet):
        offer, lots = int(words[2]), int(said[2])
        self.offers.note(offer, number, lots)
        self.reversed += lots
        self.move(offer)

    def note_sweep(self, number, words, said, sheet):
        group = self.reference.group_places[words[1]]
        row, offers, takes = sweep_of(number, sheet.split('\n'))
        left = self.offers.left
        # The sheet has what the program knows of the group's offers, so what the page has noted of them is tested by it.
        if len(offers) != len(self.offers.open[group]) or any(offer not in self.offers.open[group] or left[offer] != lots for offer, lots in offers.items()):
            self.say(number, f'the sheet has {len(offers):,} open offers of {words[1]}, and this page has noted others')
            return
        self.sheets.add(row, sheet)
        for offer, lots in takes.items():
            if lots:
                self.offers.take(offer, number, lots)
                self.move(offer)
        self.swept += row.lots
        self.all_swept += row.lots
        self.swept_by_entry[number] = {offer: lots for offer, lots in takes.items() if lots}
        self.touched[group] += 1

    # What the desk said of it.

    def compare(self, entry, takes):
        """The desk's own takes of a sweep, which its journal has in comments, beside the replica's."""
        due = self.swept_by_entry.pop(entry, None)
        if None not in (due, takes) and due != takes:
            self.say(entry, 'the desk took other lots in this sweep than the replica')

    # What is asked of the replica.

    def ask_positions(self):
        """All positions, of which those that may have changed are asked for again."""
        pairs = [] if self.is_frozen else list(self.moved)
        for pair, answer in zip(pairs, self.replica.ask([f'POSITION {account} {symbol}' for account, symbol in pairs])):
            words = answer.split(' ')
            self.positions[pair] = int(words[3]), int(words[4])
        self.moved.difference_update(pairs)
        return self.positions

    def ask_interest(self, symbols):
        answers = [] if self.is_frozen else self.replica.ask([f'INTEREST {symbol}' for symbol in symbols])
        return {symbol: int(answer.split(' ')[2]) for symbol, answer in zip(symbols, answers)}

    def open_count(self):
        return sum(map(len, self.offers.open))
