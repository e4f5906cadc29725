"""Small groups by dice, each swept once, beside all takes that their limits let through. For `tools/house --groups`.

The offers and rooms of a group are known before its script is written, and `all_takes` tries one take after another: neither the rules of
tools/rules.py nor the network of tools/takes.py decide what is due.
"""
import collections
import random

MOST_GROUPS = 20        # of one reference, which is one script
MOST_OFFERS, MOST_LOTS = 5, 4

# A group: its name, the executing firm, account and lots of each of its offers, and the rooms of their keys.
Group = collections.namedtuple('Group', 'name offers rooms')


def all_takes(lots, paths, left):
    """All takes of offers with these lots and paths that the rooms left let through."""
    if not lots:
        yield ()
        return
    for take in range(min(lots[0], *(left[key] for key in paths[0])) + 1):
        for key in paths[0]:
            left[key] -= take
        for others in all_takes(lots[1:], paths[1:], left):
            yield take, *others
        for key in paths[0]:
            left[key] += take


def all_greatest(lots, paths, rooms):
    takes = list(all_takes(lots, paths, dict(rooms)))
    most = max(map(sum, takes))
    return [these for these in takes if sum(these) == most]


class House:
    """A house by dice, with groups of a few offers each."""

    def __init__(self, seed, count):
        dice = random.Random(seed)
        self.executing, self.carrying = ([f'{letter}{number}' for number in range(1, 1 + dice.randrange(1, 4))] for letter in 'EC')
        self.carriers = {f'A{number}': dice.choice(self.carrying) for number in range(1, 1 + dice.randrange(1, 5))}
        self.guarantors = {firm: dice.choice(self.executing) for firm in self.carrying if dice.randrange(2)}
        pairs = [(firm, account) for firm in self.executing for account in self.carriers]
        self.agreements = {pair: f'P{number}' for number, pair in enumerate(dice.sample(pairs, dice.randrange(1, 1 + min(6, len(pairs)))), 1)}
        self.groups = [self.group(dice, f'G{number}') for number in range(1, 1 + count)]

    def group(self, dice, name):
        offers = [(*dice.choice(list(self.agreements)), dice.randrange(1, 1 + MOST_LOTS)) for _ in range(dice.randrange(1, 1 + MOST_OFFERS))]
        keys = dict.fromkeys(key for firm, account, _ in offers for key in self.path(firm, account))
        return Group(name, offers, {key: dice.randrange(13 if key[0] in ('CARRY', 'GUAR') else 9) for key in keys})

    def path(self, firm, account):
        carrier = self.carriers[account]
        path = [('EXEC', firm), ('AGR', self.agreements[firm, account]), ('ACCT', account), ('CARRY', carrier)]
        return path + ([('GUAR', self.guarantors[carrier])] if carrier in self.guarantors else [])

    def rows(self):
        """Its reference."""
        yield from (f'FIRM,{firm}' for firm in self.executing + self.carrying)
        for number, group in enumerate(self.groups, 1):
            yield from (f'GROUP,{group.name}', f'INSTRUMENT,X{number},{group.name}')
        yield from (f'ACCOUNT,H{firm},{firm}' for firm in self.executing)
        yield from (f'ACCOUNT,{account},{firm}' for account, firm in self.carriers.items())
        yield from (f'AGREEMENT,{name},{firm},{account}' for (firm, account), name in self.agreements.items())
        yield from (f'GUARANTOR,{guarantor},{firm}' for firm, guarantor in self.guarantors.items())

    def script(self):
        """A day with one sweep of each group."""
        yield 'DAY 20260105'
        for number, group in enumerate(self.groups, 1):
            yield from (f'LIMIT {group.name} {kind} {name} {lots}' for (kind, name), lots in group.rooms.items())
            for firm in dict.fromkeys(firm for firm, _, _ in group.offers):
                for side in 'BS':
                    yield f'REPORT {firm} R{number}-{side} M{number}-{firm} {side} X{number} {MOST_OFFERS * MOST_LOTS} 101.5 H{firm}'
            for place, (firm, account, lots) in enumerate(group.offers):
                yield f'GIVEUP {firm} L{number}-{place} R{number}-B {account} {lots}'
            yield f'SWEEP {group.name}'

    def offers(self, group):
        """The lots and the path of each offer of a group."""
        return [(lots, self.path(firm, account)) for firm, account, lots in group.offers]

    def due(self, group):
        """What a sweep of a group has to take, and whether other takes are as great."""
        greatest = all_greatest(*zip(*self.offers(group)), group.rooms)
        return max(greatest), len(greatest) > 1
