"""Messages of firms to the desk, and what comes back, for the scripts of this folder."""
import time

SOH = '\x01'


def stamp():
    """The moment, as 52 has it."""
    return time.strftime('%Y%m%d-%H:%M:%S', time.gmtime())


def message(kind, firm, number, fields=''):
    """A message of a firm to the desk, with its length and check sum. In the fields `|` means the byte 0x01."""
    body = f'35={kind}|49={firm}|56=GIVEUP|34={number}|52={stamp()}|{fields}'.replace('|', SOH)
    front = f'8=FIXT.1.1{SOH}9={len(body)}{SOH}{body}'
    return f'{front}10={sum(front.encode()) % 256:03}{SOH}'.encode()


def fields_of(text):
    """The fields of a message. If a tag comes more than once, the first counts."""
    fields = {}
    for part in text.rstrip(SOH).split(SOH):
        tag, _, value = part.partition('=')
        fields.setdefault(tag, value)
    return fields


def is_whole(text):
    """Whether the length and the check sum of a message are right."""
    front, _, check = text.rstrip(SOH).rpartition(SOH)
    body = front.split(SOH, 2)[2] + SOH
    return fields_of(text)['9'] == str(len(body)) and check == f'10={sum((front + SOH).encode()) % 256:03}'


def taken_from(data):
    """The messages at the front of the bytes, as texts, and the bytes after them."""
    texts = []
    while (end := data.find(b'\x0110=')) >= 0 and len(data) >= end + 8:
        texts.append(data[:end + 8].decode())
        data = data[end + 8:]
    return texts, data


def report(report_id, match_id, side, account, lots=10):
    """The fields of one side of a trade (AE)."""
    return f'571={report_id}|880={match_id}|55=XF6|32={lots}|31=101.5|552=1|54={side}|1={account}|'


def give_up(give_up_id, report_id, account, lots=10):
    """The fields of a give-up of one line (J)."""
    return f'70={give_up_id}|71=0|53={lots}|124=1|17={report_id}|78=1|79={account}|80={lots}|'
