"""A house of many executing firms: E1, E2 .. with the accounts H1, H2 .., and C1 with A1; each executing firm may give up to A1."""


def rows(firms):
    """The reference rows."""
    yield from (f'FIRM,E{k}' for k in range(1, firms + 1))
    yield from ('FIRM,C1', 'GROUP,G1', 'INSTRUMENT,XF6,G1')
    yield from (f'ACCOUNT,H{k},E{k}' for k in range(1, firms + 1))
    yield 'ACCOUNT,A1,C1'
    yield from (f'AGREEMENT,P{k},E{k},A1' for k in range(1, firms + 1))


def opening(firms, lots=1_000_000_000):
    """The script that opens the day, and sets each limit to this many lots."""
    yield 'DAY 20260105'
    for k in range(1, firms + 1):
        yield f'LIMIT G1 EXEC E{k} {lots}'
        yield f'LIMIT G1 AGR P{k} {lots}'
    yield f'LIMIT G1 ACCT A1 {lots}'
    yield f'LIMIT G1 CARRY C1 {lots}'


def text(lines):
    return ''.join(f'{line}\n' for line in lines)


def full_rows(firms, offers):
    """The reference rows of a house in which E1 has this many agreements, each with an account of C1's."""
    yield from (f'FIRM,E{k}' for k in range(1, firms + 1))
    yield from ('FIRM,C1', 'GROUP,G1', 'INSTRUMENT,XF6,G1')
    yield from (f'ACCOUNT,H{k},E{k}' for k in range(1, firms + 1))
    yield from (f'ACCOUNT,A{n},C1' for n in range(1, offers + 1))
    yield from (f'AGREEMENT,P{n},E1,A{n}' for n in range(1, offers + 1))


def full_opening(offers):
    """The script that gives lots of E1 up to each of these accounts. No limit is set, so a sweep takes nothing, and the offers stay open."""
    yield 'DAY 20260105'
    for n in range(1, offers + 1):
        yield f'REPORT E1 B{n} O{n} B XF6 10 101.5 H1'
        yield f'REPORT E1 S{n} O{n} S XF6 10 101.5 H1'
        yield f'GIVEUP E1 L{n} B{n} A{n} 10'
