"""The accounts of firms in a store that nothing serves, as they are kept and as they should be, and which of their rows a
request has read, deleted and written; for the scripts here."""
import contextlib
import sqlite3
import sys
import tomllib
from collections import defaultdict
from dataclasses import dataclass, field
from datetime import date, timedelta
from itertools import accumulate

sys.dont_write_bytecode = True
from server import RATES  # noqa: E402

RATE_ROWS = tomllib.loads(RATES)["rate"]
# A firm that is not registered, and a row behind all that a firm can have: month, day, serial, cents, ref.
NOBODY = 99_999_999
PROBE = (2_399, 80_000, 500_000_000_000, 1, "probe")
# What is added to each weight: more than any in these books, and less than the greatest one.
PROBE_WEIGHT = 1_000_000_000_000


def contribution(month, gross):
    rate = [rate["contribution"] for rate in RATE_ROWS if rate["from"] <= month][-1]
    return (gross * rate + 5_000) // 10_000


def begun_months(due, day):
    """How many of the due day and the same day of each later month lie before a day. Days are day numbers."""
    begun, late = 0, date(1970, 1, 1) + timedelta(due)
    while late < date(1970, 1, 1) + timedelta(day):
        begun += 1
        late = late.replace(year=late.year + late.month // 12, month=late.month % 12 + 1)
    return begun


@dataclass
class Account:
    """A firm's charges by month, its credits for contributions by day and serial, its pieces by rowid; and by
    month the rowid of the charge, its due day, what is open of it and its weight."""
    charges: dict = field(default_factory=dict)
    credits: dict = field(default_factory=dict)
    pieces: dict = field(default_factory=dict)
    rows: dict = field(default_factory=dict)

    def allocated(self):
        """The pieces as they should be: what the stretches of a charge and of a credit have in common."""
        pieces, charged = set(), 0
        for month, owed in self.charges.items():
            paid = 0
            for key, (cents, reference) in self.credits.items():
                share = min(charged + owed, paid + cents) - max(charged, paid)
                if share > 0:
                    pieces.add((month, *key, share, reference))
                paid += cents
            charged += owed
        return pieces

    def settled(self):
        """What is open of each charge, and its weight, as they should be."""
        left, weights = dict(self.charges), dict.fromkeys(self.charges, 0)
        for month, day, _, cents, _ in self.allocated():
            left[month] -= cents
            weights[month] += cents * begun_months(self.rows[month][1], day)
        return {month: (left[month], weights[month]) for month in self.charges}

    def kept(self):
        return set(self.pieces.values()) - {PROBE}

    def beyond(self, before):
        """Tells of a piece whether it is put anew, as the account was before; None where nothing is."""
        months = [month for month, cents in self.charges.items() if before.charges.get(month) != cents]
        keys = [key for key in self.credits if key not in before.credits]
        charged = sum(self.charges.values())
        credited = sum(cents for cents, _ in self.credits.values())
        if months:
            place = sum(cents for month, cents in self.charges.items() if month < min(months))
            return (lambda piece: piece[0] >= min(months)) if credited > place else None
        if keys:
            place = sum(cents for key, (cents, _) in self.credits.items() if key < min(keys))
            return (lambda piece: piece[1:3] >= min(keys)) if charged > place else None
        return None

    def may_be_written(self, before):
        """The months whose charges may be written: the changed one, and those that reach beyond the place."""
        months = [month for month, cents in self.charges.items() if before.charges.get(month) != cents]
        keys = [key for key in self.credits if key not in before.credits]
        if months:
            return {month for month in self.charges if month >= min(months)}
        if not keys:
            return set()
        place = sum(cents for key, (cents, _) in self.credits.items() if key < min(keys))
        ends = zip(self.charges, accumulate(self.charges.values()))
        return {month for month, end in ends if end > place}

    def has_new_last(self, before):
        """Whether credits are new, and all new ones come behind the others, and no charge has changed."""
        new = self.credits.keys() - before.credits.keys()
        return bool(new) and self.charges == before.charges and all(key in new for key in self.credits if key >= min(new))

    def read(self, before):
        """How many charges and credits are looked at, as the account was before: of credits, where all new ones come
        behind the others, those alone, and else all besides those from the first new one on."""
        new = self.credits.keys() - before.credits.keys()
        if self.has_new_last(before):
            return len(self.charges) + len(new)
        if self.charges != before.charges:
            return len(self.charges) + len(self.credits)
        return len(self.charges) + len(self.credits) + sum(key >= min(new) for key in self.credits) if new else 0


def read_accounts(store):
    """The accounts of all firms in a store that nothing serves, by number."""
    accounts = defaultdict(Account)
    with contextlib.closing(sqlite3.connect(store)) as base:
        for no, month, cents, *rest in base.execute("SELECT employer, month, cents, rowid, due, open, weight"
                                                    " FROM charges ORDER BY 1, 2"):
            accounts[no].charges[month] = cents
            accounts[no].rows[month] = tuple(rest)
        for no, day, serial, *credit in base.execute("SELECT employer, day, serial, cents, ref FROM credits"
                                                     " WHERE purpose = 'C' ORDER BY 1, 2, 3"):
            accounts[no].credits[day, serial] = tuple(credit)
        for no, rowid, *piece in base.execute("SELECT employer, rowid, month, day, serial, cents, ref"
                                              " FROM pieces"):
            accounts[no].pieces[rowid] = tuple(piece)
    return accounts


def plant(store):
    """The rows that tell a DELETE, and behind all one that keeps their rowids from being given again; and
    weights that tell which charges are written."""
    with contextlib.closing(sqlite3.connect(store)) as base, base:
        base.execute("UPDATE charges SET weight = weight + ?", [PROBE_WEIGHT])
        base.execute("INSERT INTO pieces SELECT no, ?, ?, ?, ?, ? FROM employers", PROBE)
        base.execute("INSERT INTO pieces VALUES (?, ?, ?, ?, ?, ?)", (NOBODY, *PROBE))


def expect(holds, *words):
    if not holds:
        sys.exit(" ".join(map(str, words)))


@dataclass
class Rows:
    """The rows of a request: what its firms have, and what was read, deleted and written of it."""
    firms: int = 0
    charges: int = 0
    credits: int = 0
    read: int = 0
    deleted: int = 0
    written: int = 0
    left: int = 0
    deletes: int = 0
    charges_written: int = 0

    def add(self, before, after, deleted, written, was_deleted):
        self.firms += 1
        self.charges += len(after.charges)
        self.credits += len(after.credits)
        self.read += after.read(before)
        self.deleted += len(deleted)
        self.written += len(written)
        self.left += len(after.kept()) - len(written)
        self.deletes += was_deleted
        self.charges_written += len(written_charges(before, after))


def written_charges(before, after):
    """The months whose charges were written anew: what is open of them is another part, or their weights, which
    have nothing added where they were reckoned whole."""
    return {month for month, row in after.rows.items() if row != before.rows.get(month)}


def check_charges(kind, no, before, after):
    """What is open of a firm's charges, and their weights, are those of its pieces, and no more were written
    than may be."""
    for account in (before, after):
        kept = {month: (left, weight % PROBE_WEIGHT) for month, (_, _, left, weight) in account.rows.items()}
        expect(kept == account.settled(), kind, no, "has", kept, "due", account.settled())
    written, may_be = written_charges(before, after), after.may_be_written(before)
    expect(written <= may_be, kind, no, "wrote charges of", written - may_be)
    for month in before.rows:
        same = before.rows[month][:2] == after.rows[month][:2]
        expect(same, kind, no, "a charge has another rowid or due day", month)


def rows_of_firm(kind, no, before, after, last):
    """What was deleted and written of a firm's pieces, and whether by a DELETE; it must be what is due."""
    gone = {before.pieces[rowid] for rowid in before.pieces.keys() - after.pieces.keys()}
    new = after.pieces.keys() - before.pieces.keys()
    written = {after.pieces[rowid] for rowid in new}
    stay = before.pieces.keys() & after.pieces.keys()
    expect(all(rowid > last for rowid in new), kind, no, "a rowid was given again")
    expect(all(before.pieces[rowid] == after.pieces[rowid] for rowid in stay), kind, no, "a row has changed")
    expect(before.kept() == before.allocated(), kind, no, "had wrong pieces")
    expect(after.kept() == after.allocated(), kind, no, "has wrong pieces")
    test = after.beyond(before)
    due = [set(filter(test, account.allocated())) if test else set() for account in (before, after)]
    expect(gone - {PROBE} == due[0], kind, no, "deleted", gone, "due", due[0])
    expect(written == due[1], kind, no, "wrote", written, "due", due[1])
    deletes = test is not None and not after.has_new_last(before)
    expect((PROBE in gone) == deletes, kind, no, "DELETE:", PROBE in gone)
    check_charges(kind, no, before, after)
    return due[0], due[1], PROBE in gone
