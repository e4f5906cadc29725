"""A mixed script of this many lines over 1,000 accounts: limits first, then trades of two reports, give-ups, claims, refusals, positions, and a sweep every 50 give-ups.

    script.py N REF    writes the script on standard output, and its reference file to REF
"""
import random
import sys

FIRMS, CARRIERS, ACCOUNTS, GROUPS = 20, 20, 1_000, 10


def reference():
    yield from (f'FIRM,E{i}' for i in range(FIRMS))
    yield from (f'FIRM,C{i}' for i in range(CARRIERS))
    yield from (f'GROUP,G{i}' for i in range(GROUPS))
    yield from (f'INSTRUMENT,X{i},G{i}' for i in range(GROUPS))
    yield from (f'ACCOUNT,H{i},E{i}' for i in range(FIRMS))
    yield from (f'ACCOUNT,A{i},C{i % CARRIERS}' for i in range(ACCOUNTS))
    yield from (f'AGREEMENT,P{i},E{i % FIRMS},A{i}' for i in range(ACCOUNTS))


def limits():
    for group in range(GROUPS):
        for kind, names in (('EXEC', [f'E{i}' for i in range(FIRMS)]), ('CARRY', [f'C{i}' for i in range(CARRIERS)])):
            yield from (f'LIMIT G{group} {kind} {name} 1000000000' for name in names)
        yield from (f'LIMIT G{group} {kind}{i} 1000000000' for i in range(ACCOUNTS) for kind in ('AGR P', 'ACCT A'))


def lines(chance):
    yield 'DAY 20260105'
    yield from limits()
    offer = trade = given = 0
    while True:
        trade += 1
        firm, other, group = chance.randrange(FIRMS), chance.randrange(FIRMS), chance.randrange(GROUPS)
        lots = chance.randrange(2, 100)
        yield f'REPORT E{firm} B{trade} M{trade} B X{group} {lots} 101.5 H{firm}'
        yield f'REPORT E{other} S{trade} M{trade} S X{group} {lots} 101.5 H{other}'
        account = firm + FIRMS * chance.randrange(ACCOUNTS // FIRMS)
        yield f'GIVEUP E{firm} L{trade} B{trade} A{account} {lots // 2} A{account} {lots - lots // 2}'
        offer += 2
        given += 1
        carrier = account % CARRIERS
        yield f'CLAIM C{carrier} {offer - 1}'
        if chance.random() < 0.2:
            yield f'REFUSE C{carrier} {offer} 1'
        yield f'POSITION A{account} X{group}'
        if given % 50 == 0:
            yield f'SWEEP G{group}'


def main():
    count, path = int(sys.argv[1]), sys.argv[2]
    with open(path, 'w') as file:
        file.writelines(row + '\n' for row in reference())
    script = lines(random.Random(1))
    for _ in range(count):
        sys.stdout.write(next(script) + '\n')


main()
