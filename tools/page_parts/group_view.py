"""A product group as it is now: its limits as the replica lists them, what waits under each, and what holds its open offers back."""
import collections
import time

NEAR = 0.8              # of a limit: from here on it is shown as near
MOST_SECONDS = 0.25     # that a proposal may take
LIKELY = 6              # this many times what a limit takes in LIMITS, before a proposal was seen

Limit = collections.namedtuple('Limit', 'group kind name limit use room waiting short state')
STATES = ('blocks', 'full', 'near', 'free')


def state_of(limit, use, room):
    """How a limit is: it blocks (0, or never set), it is full, used to eight tenths, or free."""
    return 'blocks' if not limit else 'full' if not room else 'near' if use >= NEAR * limit else 'free'


class GroupView:
    """`proposed` is what a sweep of the group would take now, or None if that isn't known."""

    def __init__(self, day, place):
        self.group, offers = day.reference.groups[place], day.offers
        self.touched = day.touched[place]
        waiting = offers.waiting[place]
        rows = [self.limit(kind, name, limit, use, room, waiting) for kind, name, limit, use, room in ([] if day.is_frozen else day.replica.limits(self.group))]
        self.rooms = {(row.kind, row.name): row.room for row in rows}
        # A limit that was never set isn't listed, and blocks what waits under it.
        rows += [self.limit(*key, None, 0, 0, waiting) for key in waiting if key not in self.rooms]
        self.limits = sorted(rows, key=by_need)
        self.offers = list(offers.open[place])
        self.held = {number: keys for number in self.offers if (keys := self.short_keys(offers, number))}
        self.lots = offers.lots_waiting[place]
        self.held_lots = sum(offers.left[number] for number in self.held)
        self.proposed = 0 if not self.offers else None
        self.states = collections.Counter(row.state for row in rows if row.limit or row.waiting)

    def limit(self, kind, name, limit, use, room, waiting):
        waits = waiting.get((kind, name), 0)
        return Limit(self.group, kind, name, limit, use, room, waits, max(0, waits - room), state_of(limit, use, room))

    def short_keys(self, offers, number):
        """The keys on an offer's path that have no room for all that is left of it, with their rooms."""
        left, rooms = offers.left[number], self.rooms
        return tuple((*key, rooms.get(key, 0)) for key in offers.path(number) if rooms.get(key, 0) < left)


class GroupViews:
    """The groups of a day, each worked out again only once it has changed."""

    def __init__(self, day):
        self.day, self.kept = day, [None] * len(day.reference.groups)
        self.cost = None        # seconds that the replica takes for an offer of a proposal, as it was seen

    def view(self, place):
        kept = self.kept[place]
        if kept is None or kept.touched != self.day.touched[place] and not self.day.is_frozen:
            since = time.monotonic()
            kept = self.kept[place] = GroupView(self.day, place)
            self.propose(kept, time.monotonic() - since)
        return kept

    def propose(self, view, seconds):
        """Asks for a proposal if that isn't too long for whoever waits: a program that was built without its proofs takes a thousand times as long."""
        count = len(view.offers)
        cost = self.cost if self.cost is not None else LIKELY * seconds / (1 + len(view.limits))
        if count and cost * count <= MOST_SECONDS and not self.day.is_frozen:
            since = time.monotonic()
            view.proposed = self.day.replica.proposed(view.group)
            self.cost = (time.monotonic() - since) / count

    def all(self):
        return [self.view(place) for place in range(len(self.kept))]

    def warm(self):
        """Asks for all groups once, so that nobody waits for that."""
        for place in range(len(self.kept)):
            with self.day.lock:
                self.view(place)


def by_need(limit):
    """The limits under which most lots lack room first, then the fuller ones."""
    state, part = STATES.index(limit.state), limit.use / limit.limit if limit.limit else 0
    return state > 1 and not limit.short, -limit.short, state, -part, -limit.waiting, limit.group, limit.kind, limit.name
