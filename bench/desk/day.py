#!/usr/bin/env python3
"""A reference, a script that leaves offers open in G1, and commands by their names.

    day.py rows > REFERENCE
    day.py script ENTRIES OPEN AGREEMENTS ROOM > SCRIPT
    day.py commands SCRIPT > COMMANDS

The OPEN offers are of AGREEMENTS agreements in turn (1 to 4,096), each with an account of its own, and of two lots; ROOM is what the limits
of the carrying firms leave in G1. All else of the ENTRIES is in G2: trades, give-ups and claims, one after another.
"""
import itertools
import sys

GIVERS, CARRIERS, ACCOUNTS, TURNS = 20, 10, 4_096, 201
MOST = 1_000_000_000


def rows():
    yield from (f'FIRM,E{n}' for n in range(GIVERS))
    yield from (f'FIRM,C{n}' for n in range(CARRIERS))
    yield from ('GROUP,G1', 'INSTRUMENT,XF6,G1', 'GROUP,G2', 'INSTRUMENT,YF6,G2')
    yield from (f'ACCOUNT,H{n},E{n}' for n in range(GIVERS))
    yield from (f'ACCOUNT,A{n},C{n % CARRIERS}' for n in range(ACCOUNTS))
    yield from (f'AGREEMENT,P{n},E{n % GIVERS},A{n}' for n in range(ACCOUNTS))


def limits(group, room):
    yield from (f'LIMIT {group} EXEC E{n} {MOST}' for n in range(GIVERS))
    yield from (f'LIMIT {group} CARRY C{n} {room}' for n in range(CARRIERS))
    for n in range(ACCOUNTS):
        yield f'LIMIT {group} AGR P{n} {MOST}'
        yield f'LIMIT {group} ACCT A{n} {MOST}'


def trade(symbol, name, giver, lots):
    yield f'REPORT E{giver} B{name} M{name} B {symbol} {lots} 101.5 H{giver}'
    yield f'REPORT E{giver} S{name} M{name} S {symbol} {lots} 101.5 H{giver}'


def pending(count, agreements):
    """A trade of each firm in G1, and the offers of it that stay open."""
    for giver in range(GIVERS):
        yield from trade('XF6', f'X{giver}', giver, 1_000_000)
    for n in range(count):
        account = n % agreements
        giver = account % GIVERS
        yield f'GIVEUP E{giver} L{n} BX{giver} A{account} 2'


def settled(offers):
    """Rounds of four entries in G2: a trade, a give-up of it, and the claim of that."""
    for turn in itertools.count():
        account = turn % ACCOUNTS
        giver = account % GIVERS
        yield from trade('YF6', f'Y{turn}', giver, 10)
        yield f'GIVEUP E{giver} K{turn} BY{turn} A{account} 2'
        yield f'CLAIM C{account % CARRIERS} {offers + turn + 1}'


def script(entries, count, agreements, room):
    lines = itertools.chain(['DAY 20260105'], limits('G1', room), limits('G2', MOST), pending(count, agreements), settled(count))
    return itertools.islice(lines, entries)


def commands(offers):
    """One of each kind in each turn: the claims are of the turn's own give-up, and of an offer without room."""
    for turn in range(TURNS):
        account = 17 * turn % ACCOUNTS
        giver = account % GIVERS
        first, second = trade('YF6', f'T{turn}', giver, 10)
        yield f'submit: report, the first side\t{first}'
        yield f'submit: report, the second side\t{second}'
        yield f'submit: give-up of one line\tGIVEUP E{giver} KT{turn} BT{turn} A{account} 2'
        yield f'submit: claim, accepted\tCLAIM C{account % CARRIERS} {offers + turn + 1}'
        yield 'submit: claim, denied for its limits\tCLAIM C1 2'
        yield f'submit: limit\tLIMIT G2 ACCT A{account} {MOST - 1}'


if __name__ == '__main__':
    match sys.argv[1:]:
        case ['rows']:
            lines = rows()
        case ['script', *numbers]:
            lines = script(*map(int, numbers))
        case ['commands', name]:
            with open(name) as said:
                lines = list(commands(sum(line.startswith('GIVEUP') for line in said)))
    sys.stdout.writelines(f'{line}\n' for line in lines)
