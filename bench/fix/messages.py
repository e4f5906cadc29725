"""Messages of E1 to the house."""


def message(kind, number, fields=''):
    """A message from E1 to the house."""
    body = f'35={kind}|49=E1|56=GIVEUP|34={number}|52=20260105-09:00:00|{fields}'.replace('|', '\x01')
    front = f'8=FIXT.1.1\x019={len(body)}\x01{body}'
    return f'{front}10={sum(front.encode()) % 256:03}\x01'.encode()


LOGON = message('A', 1, '98=0|108=0|1137=9|')


def report(number):
    """A report of a trade of its own."""
    return message('AE', number, f'571=R{number}|880=M{number}|55=XF6|32=10|31=101.5|552=1|54=1|1=H1|')
