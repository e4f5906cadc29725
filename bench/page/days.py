"""Days of a made-up house: its reference, its opening script, and what its firms and sweepers enter, from a seed."""
import random

EXECUTING = ['ALDER', 'BIRCHWOOD', 'CEDARS', 'DOGWOOD', 'ELMGATE', 'FERNDALE', 'HAWTHORN', 'IVYBANK']
CARRYING = ['LARCHMONT', 'MAPLETON', 'OAKHAM', 'PINEFORD', 'ROWANLEA', 'WILLOWAY']
ACCOUNTS = ['ATLAS', 'BOREAS', 'CERES', 'DELOS', 'FAUNUS', 'GAIA', 'IRIS', 'JANUS', 'KRONOS', 'LETO', 'MAIA', 'NYX']
GROUPS = {'RATES': {'XF6': '101.5', 'YF6': '99.25', 'BUND-H6': '131.07'}, 'ENERGY': {'OIL-H6': '71.4', 'GAS-H6': '3.181'}, 'GRAINS': {'CRN-H6': '447.5', 'WHT-H6': '541.25'}}
PRICES = {symbol: price for prices in GROUPS.values() for symbol, price in prices.items()}


class House:
    """Fourteen firms, twelve customers' accounts, forty agreements, three groups."""

    def __init__(self, seed=7):
        self.random = random.Random(seed)
        self.carrier = {account: CARRYING[place % len(CARRYING)] for place, account in enumerate(ACCOUNTS)}
        pairs = [(firm, account) for firm in EXECUTING for account in ACCOUNTS]
        self.random.shuffle(pairs)
        self.agreements = {f'AG-{place:03}': pair for place, pair in enumerate(sorted(pairs[:40]), 1)}

    def reference(self):
        yield from (f'FIRM,{firm}' for firm in EXECUTING + CARRYING)
        yield from (f'GROUP,{group}' for group in GROUPS)
        yield from (f'INSTRUMENT,{symbol},{group}' for group, prices in GROUPS.items() for symbol in prices)
        yield from (f'ACCOUNT,{firm}-H,{firm}' for firm in EXECUTING)
        yield from (f'ACCOUNT,{account},{firm}' for account, firm in self.carrier.items())
        yield from (f'AGREEMENT,{name},{firm},{account}' for name, (firm, account) in self.agreements.items())
        yield 'GUARANTOR,WILLOWAY,LARCHMONT'

    def opening(self, tight=1.0):
        """The day, and a limit for each key of each group."""
        yield 'DAY 20260105'
        for group in GROUPS:
            for kind, names, lots in (('EXEC', EXECUTING, (1200, 1500, 2000)), ('AGR', self.agreements, (250, 400, 600, 900)), ('ACCT', ACCOUNTS, (500, 800, 1500)),
                                      ('CARRY', CARRYING, (1200, 1800, 2500)), ('GUAR', ['WILLOWAY'], (2400,))):
                yield from (f'LIMIT {group} {kind} {name} {int(self.random.choice(lots) * tight)}' for name in names)

    def trade(self, number):
        """Both sides of a trade: for each the firm, its report's id and the side, then the terms."""
        buyer, seller = self.random.sample(EXECUTING, 2)
        symbol = self.random.choice(list(PRICES))
        return dict(match=f'T{number}', sides=[(buyer, f'B{number}', 'B'), (seller, f'S{number}', 'S')], symbol=symbol, price=PRICES[symbol], lots=self.random.choice((5, 10, 20, 40, 75, 120)))

    def give_up(self, firm, lots):
        """The lines of a give-up: accounts that a firm has agreements for, and lots."""
        accounts = [account for name, account in self.agreements.values() if name == firm]
        account = self.random.choice(accounts)
        other = self.random.choice(accounts)
        return [(account, lots)] if other == account or lots < 10 else [(account, lots // 2), (other, lots - lots // 2)]


def script(trades, seed=7, sweep_every=6, tight=1.0):
    """A day of the house as a script: trades, give-ups of most of them, claims, refusals, some mistakes, and sweeps."""
    house = House(seed)
    yield from house.opening(tight)
    given, carriers, pick = 0, [], house.random
    for number in range(1, trades + 1):
        trade = house.trade(number)
        for firm, report, side in trade['sides'][:1 if pick.random() < 0.03 else 2]:
            yield f'REPORT {firm} {report} {trade["match"]} {side} {trade["symbol"]} {trade["lots"]} {trade["price"]} {firm}-H'
        for firm, report, _ in trade['sides'][:1 if pick.random() < 0.7 else 2]:
            lines = house.give_up(firm, trade['lots'])
            yield f'GIVEUP {firm} G{report} {report} ' + ' '.join(f'{account} {lots}' for account, lots in lines)
            given += 1
            carriers += [house.carrier[account] for account, _ in lines]
            if pick.random() < 0.2:
                offer = max(1, len(carriers) - pick.randrange(9))
                firm = carriers[offer - 1] if pick.random() < 0.9 else pick.choice(CARRYING)
                yield f'CLAIM {firm} {offer}' if pick.random() < 0.7 else f'REFUSE {firm} {offer} {pick.choice((1, 2, 5))}'
            if given % sweep_every == 0:
                yield f'SWEEP {pick.choice(list(GROUPS))}'


def many_entries(count, has_sweeps=True):
    """A finished day of this many entries: trades of two firms, some of which are given up, and a sweep at times, or else a claim of each offer."""
    yield 'DAY 20260105'
    house, made = House(3), 1
    for line in list(house.opening(1000))[1:]:
        yield line
        made += 1
    number = offers = 0
    while made < count:
        number += 1
        trade = house.trade(number)
        lines = [f'REPORT {firm} {report} {trade["match"]} {side} {trade["symbol"]} {trade["lots"]} {trade["price"]} {firm}-H' for firm, report, side in trade['sides']]
        if number % 4 == 0:
            firm, report, _ = trade['sides'][0]
            given = house.give_up(firm, trade['lots'])
            lines.append(f'GIVEUP {firm} G{number} {report} ' + ' '.join(f'{account} {lots}' for account, lots in given))
            lines += [] if has_sweeps else [f'CLAIM {house.carrier[account]} {offer}' for offer, (account, _) in enumerate(given, offers + 1)]
            offers += len(given)
        if number % 400 == 0 and has_sweeps:
            lines.append(f'SWEEP {house.random.choice(list(GROUPS))}')
        yield from lines[:count - made]
        made += len(lines[:count - made])


def full_house(limits=20_000, offers=4096):
    """A reference and a script with this many limits and open offers: ten groups, of which one has all the offers, each under keys of little room."""
    firms, accounts = 40, 1000
    reference = [f'FIRM,F{k}' for k in range(firms)] + ['FIRM,C0', 'FIRM,C1', *(f'GROUP,G{k}' for k in range(10)), *(f'INSTRUMENT,S{k},G{k}' for k in range(10))]
    reference += [f'ACCOUNT,H{k},F{k}' for k in range(firms)] + [f'ACCOUNT,A{k},C{k % 2}' for k in range(accounts)]
    reference += [f'AGREEMENT,P{k},F{k % firms},A{k}' for k in range(accounts)]
    keys = [('EXEC', f'F{k}') for k in range(firms)] + [('CARRY', 'C0'), ('CARRY', 'C1')] + [pair for k in range(accounts) for pair in (('AGR', f'P{k}'), ('ACCT', f'A{k}'))]
    script, made = ['DAY 20260105'], 0
    for group in range(10):
        for place, (kind, name) in enumerate(keys):
            if made < limits:
                script.append(f'LIMIT G{group} {kind} {name} {100 + place % 50 if kind != "ACCT" else place % 12}')
                made += 1
    number = 0
    while number < offers:
        firm, report = number // 16 % firms, number // 16
        script.append(f'REPORT F{firm} R{report} M{report} B S0 160 100 H{firm}')
        script.append(f'REPORT F{(firm + 1) % firms} Q{report} M{report} S S0 160 100 H{(firm + 1) % firms}')
        script.append(f'GIVEUP F{firm} L{report} R{report} ' + ' '.join(f'A{(firm + firms * ((report * 16 + k) % (accounts // firms))) % accounts} 10' for k in range(16)))
        number += 16
    script += ['SWEEP G0']
    return reference, script
