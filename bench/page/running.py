"""A desk that runs, the firms of days.House at it, and tools/page beside it."""
import os
import signal
import subprocess
import sys
import time
import urllib.error
import urllib.request
from pathlib import Path

TOP = Path(__file__).resolve().parent.parent.parent
sys.path.insert(0, str(TOP / 'bench' / 'serve'))

from connection import Connection           # noqa: E402
from console import Console                 # noqa: E402
from server import Server                   # noqa: E402

from days import CARRYING, EXECUTING, House     # noqa: E402

SECONDS = 120


class Page:
    """tools/page as a child, and what it answers."""

    def __init__(self, program, reference, watch=None, journal=None, zone='UTC'):
        words = [str(TOP / 'tools' / 'page'), '--program', str(program), '--ref', str(reference), '--zone', zone]
        words += ['--watch', str(watch)] if watch else []
        words += ['--journal', str(journal)] if journal else []
        self.child = subprocess.Popen(words, stdin=subprocess.DEVNULL, stdout=subprocess.DEVNULL, stderr=subprocess.PIPE)
        line = self.child.stderr.readline().decode()
        if 'http://' not in line:
            raise SystemExit(f'the page did not start: {line}')
        self.address = line.split()[-1].rstrip('/')

    def get(self, path, method='GET', body=None, **headers):
        """The status, the headers and the body of an answer."""
        request = urllib.request.Request(self.address + path, method=method, data=body, headers={name.replace('_', '-'): value for name, value in headers.items()})
        try:
            with urllib.request.urlopen(request, timeout=SECONDS) as answer:
                return answer.status, answer.headers, answer.read().decode()
        except urllib.error.HTTPError as error:
            return error.code, error.headers, error.read().decode()

    def json(self, path):
        import json
        return json.loads(self.get(path)[2])

    def until(self, holds, seconds=SECONDS, every=0.1):
        """Waits until the page's state is so: the seconds, or None."""
        since = time.monotonic()
        while time.monotonic() - since < seconds:
            if holds(self.json('/connections.json')['state']):
                return time.monotonic() - since
            time.sleep(every)
        return None

    def children(self):
        """Its replicas."""
        return [int(path.parent.name) for path in Path('/proc').glob('[0-9]*/stat') if stat_of(path)[1:2] == [str(self.child.pid)]]

    def end(self):
        self.child.send_signal(signal.SIGTERM)
        try:
            self.child.wait(10)
        except subprocess.TimeoutExpired:
            self.child.kill()
            self.child.wait()
        self.child.stderr.close()


def stat_of(path):
    try:
        return path.read_text().rpartition(')')[2].split()
    except OSError:
        return []


def processor_seconds(process):
    words = stat_of(Path(f'/proc/{process}/stat'))
    return (int(words[11]) + int(words[12])) / os.sysconf('SC_CLK_TCK') if words else 0


class Desk:
    """A desk with a console, a watch and a journal, in a folder."""

    def __init__(self, program, folder, reference, script, every=4, is_resumed=False, connections=64):
        self.folder, self.console_path, self.watch, self.journal = Path(folder), f'{folder}/console', f'{folder}/watch', f'{folder}/day.journal'
        self.reference, self.script = f'{folder}/house.csv', f'{folder}/open.script'
        if not is_resumed:
            Path(self.reference).write_text('\n'.join(reference) + '\n')
            Path(self.script).write_text('\n'.join(script) + '\n')
        options = ['--console', self.console_path, '--watch', self.watch, '--until-closed', *(['--resume'] if is_resumed else [])]
        self.server = Server(str(program), self.reference, self.script, connections, every, self.journal, options=options)
        while not os.path.exists(self.watch):
            time.sleep(0.02)

    def enter(self, *lines):
        """The answers to lines at the console."""
        console = Console(self.console_path, 60)
        answers = [' '.join(console.ask(line) or ['gone'])[:200] for line in lines]
        console.close()
        return answers

    def kill(self):
        self.server.stop()

    def close(self):
        """CLOSE: the status of the desk, and what it printed."""
        Console(self.console_path, 60).ask('CLOSE')
        return self.server.end()


class Firms:
    """The firms of a house, each with a connection, and trades that they report and give up."""

    def __init__(self, desk, house, firms=None):
        self.house, self.lines, self.trades = house, {}, 0
        for firm in firms or EXECUTING + CARRYING:
            line = self.lines[firm] = Connection(desk.server.port, firm)
            line.log_on(0)
            line.hear_until(lambda m: m['35'] == 'A', 60)

    def say(self, firm, kind, fields, is_answer):
        """Sends a message, and the answer to it."""
        line = self.lines[firm]
        while line.hear(0)[1]:
            pass                    # notices that came before
        line.send(kind, fields)
        at, heard = line.hear_until(is_answer, 60)
        if at is None:
            raise SystemExit(f'{firm} was not answered: {kind} {fields}')
        return next(filter(is_answer, heard))

    def report(self, firm, report, match, side, trade):
        fields = f'571={report}|880={match}|55={trade["symbol"]}|32={trade["lots"]}|31={trade["price"]}|552=1|54={"1" if side == "B" else "2"}|1={firm}-H|'
        return self.say(firm, 'AE', fields, lambda m: m['35'] == 'AR' and m['571'] == report)

    def give_up(self, firm, name, report, lines):
        parts = ''.join(f'79={account}|80={lots}|' for account, lots in lines)
        return self.say(firm, 'J', f'70={name}|71=0|53={sum(lots for _, lots in lines)}|124=1|17={report}|78={len(lines)}|{parts}', lambda m: m['35'] == 'P' and m['70'] == name)

    def trade(self, gives=True):
        """A trade, and one side of it given up."""
        self.trades += 1
        trade = self.house.trade(self.trades)
        for firm, report, side in trade['sides']:
            self.report(firm, report, trade['match'], side, trade)
        firm, report, _ = trade['sides'][0]
        if gives:
            self.give_up(firm, f'G{self.trades}', report, self.house.give_up(firm, trade['lots']))
        return trade

    def act(self, firm, offer, what):
        """A claim (0), a refusal (1, 2, 5) or a reversal (7)."""
        return self.say(firm, 'AT', f'755={offer}|87={what}|', lambda m: m['35'] == 'AS' and m['755'] == str(offer) and m['87'] == str(what) or m['35'] == 'j')

    def end(self):
        for line in self.lines.values():
            line.line.close()


def house_of(seed=7, tight=1.0):
    house = House(seed)
    return house, list(house.reference()), list(house.opening(tight))
