"""Writes N trade capture reports of E1 and E2, two sides a trade, each trade with ids of its own."""
import sys


def message(body):
    text = f"8=FIXT.1.1|9={len(body)}|{body}".replace("|", "\x01")
    return text + f"10={sum(text.encode()) % 256:03}\x01"


def report(number):
    firm, side, account = (("E1", 1, "H1"), ("E2", 2, "H2"))[number % 2]
    return message(
        f"35=AE|49={firm}|56=GIVEUP|34={number + 1}|52=20260105-09:00:00|571=R{number}|880=M{number // 2}"
        f"|55=XF6|32=10|31=101.5|75=20260105|552=1|54={side}|1={account}|"
    )


for number in range(int(sys.argv[1])):
    sys.stdout.write(report(number))
