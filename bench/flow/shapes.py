#!/usr/bin/env python3
"""Writes seeded views in plain text: shapes.py SHAPE OFFERS SEED [guarantors] > view.txt

offer NUMBER LOTS EXEC AGREEMENT ACCOUNT CARRY [GUAR]      with guarantors: of each three carrying firms two have one in common
room KIND NAME LOTS      in the order in which the keys are first mentioned
"""
import sys


class Seeded:
    """A small generator, the same everywhere."""

    def __init__(self, seed):
        self.state = seed * 2862933555777941757 + 3037000493

    def below(self, bound):
        self.state = (self.state * 6364136223846793005 + 1442695040888963407) % 2**64
        return (self.state >> 33) % bound


# Each shape gives its offers (lots, executing firm, agreement, account, carrying firm) and the room of a key
# from its kind, its name and the lots of its offers.


def one_agreement(count, rng):
    """All offers under one agreement."""
    offers = [(1 + rng.below(1_000_000), 0, 0, 0, 0) for _ in range(count)]
    return offers, lambda kind, name, lots: 1_000_000_000


def distinct(count, rng):
    """Each offer with an agreement and an account of its own."""
    offers = [(1 + rng.below(1_000_000), rng.below(64), n, n, rng.below(64)) for n in range(count)]
    offers = [(l, e, a, c, c % 64) for (l, e, a, c, _) in offers]
    return offers, lambda kind, name, lots: 1 + rng.below(max(1, 2 * lots))


def dense(count, rng):
    """Every firm with every account."""
    side = max(1, int(count**0.5))
    offers = []
    for n in range(count):
        e, c = (n // side) % side, n % side
        offers.append((1 + rng.below(1_000_000), e, n, c, c % 16))
    return offers, lambda kind, name, lots: 1 + rng.below(max(1, lots))


def tight(count, rng):
    """Limits that bind at every level."""
    firms, accounts, carriers = max(1, count // 32), max(1, count // 8), max(1, count // 128)
    offers = []
    for n in range(count):
        c = rng.below(accounts)
        offers.append((1 + rng.below(1_000_000), rng.below(firms), n, c, c % carriers))
    return offers, lambda kind, name, lots: 1 + lots // 2 + rng.below(1 + lots // 4)


def chain_of(length, first_exec, first_account, lots):
    """Firms e with accounts e and e + 1, the wrong one first, and a last firm with one account."""
    offers = []
    for i in range(length):
        offers.append((lots, first_exec + i, first_account + i + 1))
        offers.append((lots, first_exec + i, first_account + i))
    offers.append((lots, first_exec + length, first_account + length))
    return offers


def chains(count, rng):
    """One chain through all firms."""
    length = max(1, count // 2 - 1)
    offers = [(l, e, n, c, c % 8) for n, (l, e, c) in enumerate(chain_of(length, 0, 0, 1000))]
    return offers, lambda kind, name, lots: 1000 if kind in ("exec", "acct") else 1_000_000_000


def combs(count, rng):
    """Chains of each length from 1 up."""
    offers, length, execs, accounts = [], 1, 0, 0
    while len(offers) + 2 * length + 1 <= count:
        offers += chain_of(length, execs, accounts, 1 + rng.below(1000))
        execs, accounts, length = execs + length + 1, accounts + length + 1, length + 1
    lots = {}
    for l, e, c in offers:
        lots[("exec", e)] = lots[("acct", c)] = l
    offers = [(l, e, n, c, c % 8) for n, (l, e, c) in enumerate(offers)]
    return offers, lambda kind, name, total: lots.get((kind, name), 1_000_000_000)


def spread(count, rng):
    """Each account under its own firms at both ends."""
    offers = [(1 + rng.below(1_000_000), n, n, n, n) for n in range(count)]
    return offers, lambda kind, name, lots: 1 + rng.below(max(1, 2 * lots))


def staircase(count, rng):
    """Firms with ever more accounts, and accounts with room for one firm."""
    offers, n, e = [], 0, 0
    while n < count:
        for c in range(e + 1):
            if n < count:
                offers.append((1 + rng.below(1000), e, n, c, c % 8))
                n += 1
        e += 1
    return offers, lambda kind, name, lots: 500 if kind in ("exec", "acct") else 1_000_000_000


def creeping(count, rng):
    """Firm i with accounts i and i - 1, and each account with room for one lot more than a firm fills: each way is two steps longer than the last."""
    links = max(1, min(1000, count // 2))
    pairs = [(i, i) for i in range(links, 0, -1)] + [(i + 1, i) for i in range(links, 0, -1)]
    offers = [(1_000_000, e, n, c, 0) for n, (e, c) in enumerate(pairs)]
    rooms = dict(acct=1001, exec=1000)
    return offers, lambda kind, name, lots: 1000 + links if (kind, name) == ("exec", 1) else rooms.get(kind, 1_000_000_000)


class Links:
    """A network as offers: each firm has an account of its own name, which its own last offer would fill."""

    MOST = 1_000_000

    def __init__(self):
        self.count, self.links = 0, []

    def node(self):
        self.count += 1
        return self.count - 1

    def join(self, tail, head, lots=MOST):
        self.links.append((lots, tail, head))

    def offers(self, entry, leave):
        inside, outside = self.count, self.count + 1
        ends = [(self.MOST, leave, outside), (self.MOST, inside, entry)] + self.links
        ends += [(self.MOST, node, node) for node in range(self.count)]
        return [(lots, e, n, c, 0) for n, (lots, e, c) in enumerate(ends)]


def zigzag(count, rng):
    """A bundle of ways of one lot, crossed forwards and backwards in turn, and entered and left ever later on two chains."""
    side, gap = max(1, int((0.475 * count) ** 0.5)), 5
    turns = max(1, (count - side * side - 6 * side - 8) // (2 + 4 * gap))
    net = Links()
    hubs = [net.node(), net.node()]
    sides = [[net.node() for _ in range(side)] for _ in hubs]
    for hub, nodes in zip(hubs, sides):
        for node in nodes:
            net.join(hub, node)
            net.join(node, hub)
    for left in sides[0]:
        for right in sides[1]:
            net.join(left, right, 1)
    entry, leave = net.node(), net.node()
    into, out = entry, leave
    for turn in range(turns):
        net.join(into, hubs[turn % 2], side * side)
        net.join(hubs[1 - turn % 2], out, side * side)
        if turn + 1 < turns:
            for _ in range(gap):
                after, before = net.node(), net.node()
                net.join(into, after)
                net.join(before, out)
                into, out = after, before
    return net.offers(entry, leave), lambda kind, name, lots: Links.MOST if kind in ("exec", "acct") else 1_000_000_000


def turned(shape):
    """The same offers, the last first."""

    def view(count, rng):
        offers, room = shape(count, rng)
        return offers[::-1], room

    return view


def shuffled(shape):
    """The same offers in any order."""

    def view(count, rng):
        offers, room = shape(count, rng)
        for i in range(len(offers) - 1, 0, -1):
            j = rng.below(i + 1)
            offers[i], offers[j] = offers[j], offers[i]
        return offers, room

    return view


SHAPES = dict(
    one=one_agreement,
    distinct=distinct,
    dense=dense,
    tight=tight,
    chains=chains,
    mixed=shuffled(chains),
    back_chains=turned(chains),
    combs=combs,
    any_combs=shuffled(combs),
    spread=spread,
    stairs=staircase,
    creep=creeping,
    zigzag=zigzag,
)


def keys_of(offer, guarantors):
    _, e, a, c, d = offer
    keys = [("exec", e), ("agr", a), ("acct", c), ("carry", d)]
    return keys + [("guar", d // 3)] if guarantors and d % 3 < 2 else keys


def main():
    shape, count, seed = sys.argv[1], int(sys.argv[2]), int(sys.argv[3])
    guarantors = sys.argv[4:] == ["guarantors"]
    rng = Seeded(seed)
    offers, room = SHAPES[shape](count, rng)
    totals = {}
    out = []
    for number, offer in enumerate(offers, 1):
        lots = min(offer[0], 1_000_000)
        keys = keys_of(offer, guarantors)
        out.append(" ".join(map(str, ["offer", number, lots] + [name for _, name in keys])))
        for key in keys:
            totals[key] = totals.get(key, 0) + lots
    for (kind, name), lots in totals.items():
        out.append(f"room {kind} {name} {min(1_000_000_000, room(kind, name, lots))}")
    print("\n".join(out))


main()
