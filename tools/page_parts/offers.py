"""The offers of a day: what is left of each, which are open, what waits under each key, and what happened to each."""
import collections
from array import array


class Offers:
    """Columns by an offer's number, from 1. An event is an entry that took lots of an offer, closed it or took it back, and the event before it."""

    def __init__(self, reference):
        self.reference = reference
        self.entries, self.reports, self.lots, self.left, self.agreements = (array('L', [0]) for _ in range(5))
        self.groups, self.last = array('B', [0]), array('L', [0])
        self.events = [array('L', [0]) for _ in range(3)]       # entry, lots, the event before
        self.open = [{} for _ in reference.groups]              # by group: the numbers of the open offers, in order
        self.waiting = [collections.Counter() for _ in reference.groups]
        self.lots_waiting = [0] * len(reference.groups)

    def __len__(self):
        return len(self.lots) - 1

    def add(self, entry, report, group, agreement, lots):
        number = len(self.lots)
        for column, value in zip((self.entries, self.reports, self.groups, self.agreements, self.lots, self.left, self.last),
                                 (entry, report, group, agreement, lots, 0, 0)):
            column.append(value)
        self.open[group][number] = None
        self.change(number, lots)

    def change(self, number, lots):
        """This many lots more are left of an offer, or fewer."""
        group = self.groups[number]
        self.left[number] += lots
        self.lots_waiting[group] += lots
        waiting = self.waiting[group]
        for key in self.reference.paths[self.agreements[number]]:
            waiting[key] += lots
            if not waiting[key]:
                del waiting[key]
        if not self.left[number]:
            self.open[group].pop(number, None)

    def note(self, number, entry, lots):
        for column, value in zip(self.events, (entry, lots, self.last[number])):
            column.append(value)
        self.last[number] = len(self.events[0]) - 1

    def take(self, number, entry, lots):
        """A claim or a sweep takes lots of an offer, or a refusal closes them."""
        self.change(number, -lots)
        self.note(number, entry, lots)

    def history(self, number):
        """The entries that did something to an offer, with the lots, from the first on."""
        found, place = [], self.last[number]
        while place:
            found.append((self.events[0][place], self.events[1][place]))
            place = self.events[2][place]
        return found[::-1]

    def path(self, number):
        return self.reference.paths[self.agreements[number]]
