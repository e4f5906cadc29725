"""The house's reference: what its rows declare, as docs/rules/reference.md says. The replica has read the same file first, so it is accepted."""
import csv
import hashlib
from pathlib import Path

KINDS = ('EXEC', 'AGR', 'ACCT', 'CARRY', 'GUAR')


class Reference:
    def __init__(self, path):
        data = Path(path).read_bytes()
        self.path_of_file, self.digest = str(path), hashlib.sha256(data).hexdigest()
        self.firms, self.groups, self.instruments, self.accounts, self.agreements, self.guarantors = [], [], {}, {}, {}, {}
        for row in csv.reader(data.decode('latin-1').removeprefix('\xef\xbb\xbf').splitlines()):
            self.add(row)
        self.names = list(self.agreements)                      # of agreements, by their places
        self.places = {name: place for place, name in enumerate(self.names)}
        self.between = {pair: self.places[name] for name, pair in self.agreements.items()}
        self.paths = [self.path(*self.agreements[name], name) for name in self.names]
        self.group_places = {group: place for place, group in enumerate(self.groups)}

    def add(self, row):
        match row:
            case ['FIRM', firm]:
                self.firms.append(firm)
            case ['GROUP', group]:
                self.groups.append(group)
            case ['INSTRUMENT', symbol, group]:
                self.instruments[symbol] = group
            case ['ACCOUNT', account, firm]:
                self.accounts[account] = firm
            case ['AGREEMENT', name, firm, account]:
                self.agreements[name] = (firm, account)
            case ['GUARANTOR', guarantor, firm]:
                self.guarantors[firm] = guarantor

    def path(self, firm, account, name):
        """The keys that the offers of an agreement come under, in the desk's order."""
        carrying = self.accounts[account]
        keys = [('EXEC', firm), ('AGR', name), ('ACCT', account), ('CARRY', carrying)]
        return tuple(keys + ([('GUAR', self.guarantors[carrying])] if carrying in self.guarantors else []))
