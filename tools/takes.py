"""What a sweep takes (docs/rules/sweeps.md, "Which offers get the lots"): of all greatest takes those that are oldest first over the group.
Worked out from offers and rooms alone, for tools/recheck and tools/house. Nothing of it comes from the desk.

It begins with any greatest takes, and gives each offer, the oldest first, as many lots as it can get while the older offers keep theirs and
the sum stays. The view has to be nested: the offers of one account have one carrying firm, and those of one carrying firm one guarantor or none.
"""
import collections

# The kinds of keys in the order in which lots pass them.
KINDS = ['EXEC', 'AGR', 'ACCT', 'CARRY', 'GUAR']


# An open offer: its lots, and the keys of its path, each a kind and a name.
Offer = collections.namedtuple('Offer', 'lots path')


def way_of(offer):
    """The points that its lots pass: the keys of its path between a source and a sink."""
    return ['source', *sorted(offer.path, key=lambda key: KINDS.index(key[0])), 'sink']


def first_parting(offers):
    """The first offer from one of whose keys lots go on elsewhere than in an offer before it, and that key; None if the view is nested."""
    ends = {}
    for number, offer in offers.items():
        way = way_of(offer)
        for key, end in zip(way[3:], way[4:]):
            if ends.setdefault(key, end) != end:
                return number, key
    return None


def oldest_first(offers, rooms, takes=None):
    """The lots that a sweep takes of each offer. Offers are by number, in order, rooms by key; `takes` are any greatest takes."""
    network = Network(offers, rooms)
    if takes is None:
        network.fill()
    else:
        for number, offer in offers.items():
            network.send(way_of(offer), takes[number])
    return {number: network.most(offer) for number, offer in offers.items()}


class Network:
    """Points that lots pass, and how many more can pass from one to another."""

    def __init__(self, offers, rooms):
        self.left = collections.defaultdict(dict)       # from a point to a point; backwards, how many can be sent another way round
        waiting = collections.Counter()                 # agreement: the lots of its offers
        for offer in offers.values():
            _, executing, agreement, *others = way_of(offer)
            waiting[agreement] += offer.lots
            self.left['source'][executing] = rooms[executing]
            self.left[executing][agreement] = self.left[agreement][others[0]] = min(rooms[agreement], waiting[agreement])
            for key, end in zip(others, others[1:]):
                self.left[key][end] = rooms[key]
        for point, end in [(point, end) for point, ends in self.left.items() for end in ends]:
            self.left[end][point] = 0
        # Between points of different regions no lots can be sent another way round.
        self.region = dict.fromkeys(self.left, 0)

    def send(self, way, lots):
        """Lots pass along a way."""
        for one, end in zip(way, way[1:]):
            self.left[one][end] -= lots
            self.left[end][one] += lots

    def room(self, way):
        """How many lots can pass along a way."""
        return min(self.left[one][end] for one, end in zip(way, way[1:]))

    # Greatest takes: a maximum flow.

    def fill(self):
        """As many lots as can pass go from the source to the sink, by ways of ever more steps."""
        while 'sink' in (levels := self.levels()):
            above = {point: self.ends_above(point, levels) for point in levels}
            way = ['source']
            while way:
                end = next(above[way[-1]], None)
                if end is None:
                    del levels[way.pop()]
                elif end != 'sink':
                    way.append(end)
                else:
                    self.send([*way, end], self.room([*way, end]))
                    way = ['source']

    def levels(self):
        """How many steps lead from the source to each point, as far as the sink."""
        levels, now = {'source': 0}, ['source']
        while now and 'sink' not in levels:
            ends = dict.fromkeys(end for point in now for end, room in self.left[point].items() if room and end not in levels)
            levels.update(dict.fromkeys(ends, levels[now[0]] + 1))
            now = list(ends)
        return levels

    def ends_above(self, point, levels):
        """The points one level up to which lots can pass from this one, each again for as long as they can."""
        for end in self.left[point]:
            while self.left[point][end] and levels.get(end) == levels[point] + 1:
                yield end

    # Oldest first.

    def most(self, offer):
        """The most that an offer gets while older offers keep theirs. From now on it keeps that: no lot of it is sent another way round."""
        _, executing, agreement, *_ = way_of(offer)
        lots = min(offer.lots, self.left[agreement][executing])
        self.left[agreement][executing] -= lots
        while lots < offer.lots and self.left[executing][agreement] and (way := self.search(agreement, executing)):
            more = min(offer.lots - lots, self.left[executing][agreement], self.room(way))
            self.send(way, more)
            self.left[executing][agreement] -= more
            lots += more
        return lots

    def search(self, start, goal):
        """A way from a point to another, or None. Both ends search in turns, so that a search in vain costs no more than the smaller part."""
        if self.region[start] != self.region[goal]:
            return None
        reached = {start: None}, {goal: None}           # points, each with the one before it
        sides = self.spread(reached[0], lambda point, end: self.left[point][end]), self.spread(reached[1], lambda point, end: self.left[end][point])
        while True:
            for side, other in ((0, 1), (1, 0)):
                point = next(sides[side], 'no more')
                if point == 'no more':
                    self.region.update(dict.fromkeys(reached[side], object()))
                    return None
                if point in reached[other]:
                    return [*back(reached[0], point)][::-1] + [*back(reached[1], point)][1:]

    def spread(self, reached, room):
        """Goes on from what was reached, one look at a time: gives the point that it comes to, or None if it can't pass or was there before."""
        points = list(reached)
        for point in points:
            for end in self.left[point]:
                is_new = end not in reached and room(point, end) and self.region[end] == self.region[point]
                if is_new:
                    reached[end] = point
                    points.append(end)
                yield end if is_new else None


def back(reached, point):
    """A point, the one before it, and so on to where the search began."""
    while point is not None:
        yield point
        point = reached[point]
