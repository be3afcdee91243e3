"""What a camt.053 text says: its pages of statements with their balances, entries and transactions.

Versions 02 and 08 say the same in nearly the same elements; where they differ, both ways are looked up.
"""

from __future__ import annotations

import re
from collections.abc import Iterable, Iterator
from dataclasses import dataclass, field
from datetime import date
from decimal import Decimal
from xml.etree.ElementTree import Element

from payment_files.accounts import SPELLINGS

from .ibans import without_spaces
from .texts import UNSHOWN, Fault, plain, shown
from .xml_text import read_root

NAMESPACE = "urn:iso:std:iso:20022:tech:xsd:"
VERSIONS = ("camt.053.001.02", "camt.053.001.08")
OTHER_MESSAGES = {
    "camt.052": "a report within the day, which isn't final; the statement of the day, camt.053, is wanted",
    "camt.054": "a notification of single payments; the statement of the day, camt.053, is wanted",
}
# A decimal number of XML: 1500, 1500.00, .50, +1500
AMOUNT = re.compile(r"\+?(?=\.?[0-9])0*[0-9]{0,18}(\.[0-9]{0,5}0*)?")
CURRENCY = re.compile("[A-Z]{3}")
# A date or a date with a time, of which the day counts as it is written.
DAY = re.compile(r"([0-9]{4}-[0-9]{2}-[0-9]{2})(T.*|Z|[+-][0-9]{2}:[0-9]{2})?", re.DOTALL)
PAGE_NUMBER = re.compile("[0-9]{1,5}")
# The amounts of a transaction, with what the bank adds to it or takes off and without.
AMOUNTS = ("Amt", "AmtDtls/TxAmt/Amt", "AmtDtls/InstdAmt/Amt")
CHARGES = ("Chrgs/Rcrd/Amt", "Chrgs/Amt", "Chrgs/TtlChrgsAndTaxAmt")
REMITTANCE = ("RmtInf/Ustrd", "RmtInf/Strd/CdtrRefInf/Ref", "RmtInf/Strd/AddtlRmtInf")
DEBTOR_NAME = ("RltdPties/Dbtr/Pty/Nm", "RltdPties/Dbtr/Nm", "RltdPties/Dbtr/Agt/FinInstnId/Nm")
# Some banks have an IBAN among the other numbers of an account.
DEBTOR_ACCOUNT = ("RltdPties/DbtrAcct/Id/IBAN", "RltdPties/DbtrAcct/Id/Othr/Id")
# Whose debt it pays, where that isn't the debtor's own.
ULTIMATE_DEBTOR = ("RltdPties/UltmtDbtr/Pty/Nm", "RltdPties/UltmtDbtr/Nm")
DIRECTIONS = {"CRDT": True, "DBIT": False}
# What banks write where they have no reference.
NO_REFERENCE = re.compile(
    "NON[- ]?REF(?:ERENCE)?|NOT ?(?:PROVIDED|AVAILABLE|APPLICABLE)|NONE|UNKNOWN|NULL|N/?A|0+|[-.]+", re.IGNORECASE)
# The same of the payer's. (The references that are made of it have to stay as they are.)
NO_END_TO_END = re.compile("NON-?REF|NOT ?PROVIDED|NONE|0+", re.IGNORECASE)
# The end-to-end references of tools/payment-file, and what stands in a text of one, or of its transfer, without spaces:
# so much of it that it is no other, since the bank may cut it off behind a line. Then the reference of a whole list.
OF_A_PAYOUT = re.compile("L[1-9][0-9]{0,7}-C[1-9][0-9]{0,7}")
TEXT_OF_A_PAYOUT = re.compile("payoutlist([0-9]{1,8})of2[0-9]{3}(?:[0-9-]*,?claim([0-9]{1,8}),?employer)?|"
                              "eref[+:](l[0-9]{1,8}-c[0-9]{1,8})(?=[a-z]{4}[+:]|$)")
OF_A_LIST = re.compile("PAYOUT-[1-9][0-9]{0,7}-[0-9]{4}-[0-9]{2}-[0-9]{2}")
# Where that may stand in the details of an entry.
LIST_REFERENCES = ("Btch/PmtInfId", "TxDtls/Refs/PmtInfId", "Btch/MsgId", "TxDtls/Refs/MsgId")
# The bank's codes of what came back: a transfer that was undeliverable or recalled; a direct debit that wasn't
# paid, was recalled or reversed; a cheque that wasn't paid, or was reversed. German banks have numbers for the same.
CAME_BACK = ("RRTN", "RPCR", "UPDD", "RCDD", "PRDD", "UPCQ", "CQRV")
# Behind SWIFT's code for it: NTRF+159+9310, N051+159
CAME_BACK_IN_GERMANY = re.compile(r"[A-Z][A-Z0-9]{3}\+(108|109|159|181|184)(\+.*)?", re.DOTALL)
FLAGS = {"": False, "false": False, "0": False, "true": True, "1": True}


@dataclass(frozen=True)
class Money:
    amount: Decimal
    currency: str

    def __str__(self) -> str:
        digits = max(2, -self.amount.normalize().as_tuple().exponent)
        return f"{self.amount:.{digits}f} {self.currency}"


@dataclass(frozen=True)
class Balance:
    code: str
    # Below zero where the account is in debit.
    money: Money


@dataclass(frozen=True)
class Transaction:
    """One payment of an entry. A text that the bank doesn't give is empty."""

    reference: str
    end_to_end: str
    # The claim of a payout list, as L1-C1, or the list alone, as L1; empty of other payments.
    payout: str
    # What it adds to the entry, where the details say so.
    credited: Money | None
    # Whether it says so of itself, as a fee that was taken off a credit.
    is_debit: bool
    is_return: bool
    name: str
    # Whose debt it pays, where the bank says that it is another one's.
    other_name: str
    iban: str
    texts: tuple[str, ...]
    # All that are told of it, with fees or without. (Another statement may tell fewer of the same.)
    amounts: frozenset[Money] = field(compare=False)

    @property
    def payer(self) -> str:
        return f"{self.name} ({self.other_name})".strip() if self.other_name else self.name

    @property
    def text(self) -> str:
        return " ".join(self.texts)


@dataclass(frozen=True)
class Entry:
    status: str
    is_credit: bool
    money: Money
    is_reversal: bool
    reference: str
    booked: date | None
    value: date | None
    transactions: tuple[Transaction, ...]
    # Whether all transactions stand here that the entry is said to have.
    is_detailed: bool
    # The claims of payout lists in it; where none is told, the lists, as PAYOUT-1-2024-02-10.
    payouts: tuple[str, ...]

    @property
    def is_return(self) -> bool:
        returns = [it.is_return for it in self.transactions]
        # A debit isn't parted, so that what one of its transactions takes back is told of the whole.
        is_whole = self.is_detailed and bool(returns) and all(returns)
        return self.is_reversal or (is_whole if self.is_credit else any(returns))


@dataclass(frozen=True)
class Page:
    """A statement, or one page of it."""

    account: str
    identifier: str
    number: int
    # Whether it says that it is the last one, where the statement itself is numbered by pages.
    is_last: bool | None
    balances: tuple[Balance, ...]
    entries: tuple[Entry, ...]


@dataclass(frozen=True)
class Message:
    """What one file holds; a message may be parted into several, and then says which part it is."""

    number: int | None
    is_last: bool
    pages: tuple[Page, ...]


@dataclass(frozen=True)
class Node:
    """An element, with what a message calls it."""

    element: Element
    namespace: str
    called: str

    def parts(self, path: str) -> Iterator[Node]:
        steps = "/".join(f"{{{self.namespace}}}{step}" for step in path.split("/"))
        for element in self.element.iterfind(steps):
            yield Node(element, self.namespace, self.called)

    def has(self, path: str) -> bool:
        return any(True for _ in self.parts(path))

    def text(self, *paths: str) -> str:
        """The first text at these paths that isn't empty."""
        texts = (node.own_text() for path in paths for node in self.parts(path))
        return next(filter(None, texts), "")

    def own_text(self) -> str:
        return (self.element.text or "").strip()

    def need(self, *paths: str) -> str:
        text = self.text(*paths)
        if not text:
            raise self.fault(f"{' or '.join(paths)} is missing")
        return text

    def flag(self, path: str) -> bool:
        text = self.text(path)
        if text not in FLAGS:
            raise self.fault(f"{path} is {shown(text)}, neither true nor false")
        return FLAGS[text]

    def fault(self, text: str) -> Fault:
        return Fault(f"{self.called}: {text}")


def read_message(name: str, content: bytes) -> Message:
    """The statements of a text, or their pages."""
    root = read_root(name, content)
    message, _, local = root.tag.removeprefix("{" + NAMESPACE).partition("}")
    if local != "Document" or not root.tag.startswith("{" + NAMESPACE):
        raise Fault(f"{name}: the XML is no camt.053 statement; its root is {shown(root.tag)}")
    if message not in VERSIONS:
        told = OTHER_MESSAGES.get(message[:8], f"only {' and '.join(VERSIONS)} are read")
        raise Fault(f"{name}: {shown(message)}: {told}")
    document = Node(root, NAMESPACE + message, name)
    pages = tuple(read_page(found, document) for found in document.parts("BkToCstmrStmt/Stmt"))
    if not pages:
        raise Fault(f"{name}: no statement (BkToCstmrStmt/Stmt) in it")
    part = "BkToCstmrStmt/GrpHdr/MsgPgntn"
    number = read_page_number(document, f"{part}/PgNb") if document.has(part) else None
    is_last = document.flag(f"{part}/LastPgInd") or not document.has(f"{part}/LastPgInd")
    return Message(number, is_last, pages)


def read_page(found: Node, document: Node) -> Page:
    account = found.need("Acct/Id/IBAN", "Acct/Id/Othr/Id")
    identifier = found.need("Id")
    page = Node(found.element, found.namespace, f"statement {shown(identifier)} of {shown(account)}")
    entries = enumerate(page.parts("Ntry"), 1)
    # By the message version 02 counts.
    is_numbered = bool(page.text("StmtPgntn/PgNb"))
    numbered, path = (page, "StmtPgntn/PgNb") if is_numbered else (document, "BkToCstmrStmt/GrpHdr/MsgPgntn/PgNb")
    return Page(
        account=account,
        identifier=identifier,
        number=read_page_number(numbered, path),
        is_last=page.flag("StmtPgntn/LastPgInd") if page.text("StmtPgntn/LastPgInd") else None,
        balances=tuple(map(read_balance, page.parts("Bal"))),
        entries=tuple(
            read_entry(Node(it.element, it.namespace, f"{page.called}, entry {place} of the page"), account)
            for place, it in entries
        ),
    )


def read_page_number(node: Node, path: str) -> int:
    number = node.text(path) or "1"
    if not PAGE_NUMBER.fullmatch(number):
        raise node.fault(f"{shown(number)} is no page number")
    return int(number)


def read_balance(node: Node) -> Balance:
    money = read_money(node, "Amt")
    amount = money.amount if read_direction(node) else -money.amount
    # One between two pages may have the code of an opening or a closing balance, and tell it by its sub type.
    code = "ITBD" if node.text("Tp/SubTp/Cd") == "INTM" else node.text("Tp/CdOrPrtry/Cd")
    return Balance(code, Money(amount, money.currency))


def read_entry(node: Node, account: str) -> Entry:
    details = list(node.parts("NtryDtls"))
    is_credit, money = read_direction(node), read_money(node, "Amt")
    found = [it for part in details for it in part.parts("TxDtls")]
    whole = node if len(found) == 1 else None
    transactions = tuple(read_transaction(it, whole, account if is_credit else None) for it in found)
    return Entry(
        status=node.need("Sts/Cd", "Sts/Prtry", "Sts"),
        is_credit=is_credit,
        money=money,
        is_reversal=node.flag("RvslInd") or came_back(node),
        reference=read_reference(node, "AcctSvcrRef"),
        booked=read_day(node, "BookgDt"),
        value=read_day(node, "ValDt"),
        transactions=transactions,
        is_detailed=all(map(has_all_transactions, details)) and not (is_credit and is_part(transactions, money)),
        payouts=read_payouts(details, transactions),
    )


def read_payouts(details: list[Node], transactions: tuple[Transaction, ...]) -> tuple[str, ...]:
    claims = [it.payout for it in transactions if it.payout]
    told = (node.own_text() for part in details for path in LIST_REFERENCES for node in part.parts(path))
    return tuple(dict.fromkeys(claims or filter(OF_A_LIST.fullmatch, told)))


def has_all_transactions(details: Node) -> bool:
    """Whether as many transactions stand there as the batch is said to have, if it is said."""
    announced = details.text("Btch/NbOfTxs")
    return not announced or announced.lstrip("0") == str(sum(1 for _ in details.parts("TxDtls")))


def is_part(transactions: tuple[Transaction, ...], whole: Money) -> bool:
    """Whether the transactions are less than their credit, so that others aren't told."""
    told = credited_by(transactions)
    return told is not None and told.currency == whole.currency and told.amount < whole.amount


def credited_by(transactions: tuple[Transaction, ...]) -> Money | None:
    """What transactions add to their entry, where it is known of each, and in one currency."""
    amounts = [it.credited for it in transactions if it.credited]
    if len(amounts) != len(transactions) or len({it.currency for it in amounts}) != 1:
        return None
    return Money(sum((it.amount for it in amounts), Decimal(0)), amounts[0].currency)


def read_transaction(node: Node, whole: Node | None, credited_account: str | None) -> Transaction:
    """A transaction of an entry, which is told where it is the only one, and which credits an account or doesn't."""
    parts = (it.own_text() for path in REMITTANCE for it in node.parts(path))
    # Where a line ends, or a sign without a width stands, a number may go on as where one part follows another.
    texts = [plain(piece) for part in parts for piece in UNSHOWN.split(part)]
    end_to_end = read_reference(node, "Refs/EndToEndId", NO_END_TO_END)
    iban = node.text(*DEBTOR_ACCOUNT)
    payout = end_to_end if OF_A_PAYOUT.fullmatch(end_to_end) else payout_of(texts)
    is_debit = node.text("CdtDbtInd") == "DBIT"
    name, other_name = plain(node.text(*DEBTOR_NAME)), plain(node.text(*ULTIMATE_DEBTOR))
    is_of_another = letters_of(other_name) != letters_of(name) and not NO_REFERENCE.fullmatch(other_name)
    # A credit from the account itself, or of a payout by its reference or text, is a transfer that came back.
    is_own = iban and without_spaces(iban) == without_spaces(credited_account or "") or payout
    return Transaction(
        reference=read_reference(node, "Refs/AcctSvcrRef"),
        end_to_end=end_to_end,
        payout=payout,
        credited=None if is_debit else read_credited(node),
        is_debit=is_debit,
        is_return=node.has("RtrInf") or came_back(node) or credited_account is not None and bool(is_own),
        name=name,
        other_name=other_name if is_of_another else "",
        iban=iban,
        texts=tuple(filter(None, texts)),
        amounts=read_amounts(node, whole),
    )


def read_amounts(node: Node, whole: Node | None) -> frozenset[Money]:
    """The amounts that are told of a transaction, and the same before charges and behind them."""
    nodes = [node, whole] if whole else [node]
    told = {read_money(it, path) for it in nodes for path in AMOUNTS if it.has(path)}
    charges = [it for at in nodes for path in CHARGES for it in at.parts(path)]
    # (What a bank writes there otherwise than by the rules is no reason to refuse its statement.)
    taken = [Decimal(it.own_text()) for it in charges if AMOUNT.fullmatch(it.own_text())]
    return frozenset(told | {Money(it.amount + charge, it.currency) for it in told for charge in sums_of(taken)})


def sums_of(charges: list[Decimal]) -> set[Decimal]:
    """What is taken off, or was put on, by each of these charges alone, and by all."""
    sums = {*charges, sum(charges, Decimal(0))} if charges else set()
    return sums | {-it for it in sums}


def letters_of(name: str) -> str:
    """The letters and digits of a name, by which two are the same."""
    return re.sub(r"[\W_]", "", name.translate(SPELLINGS).casefold())


def payout_of(texts: Iterable[str]) -> str:
    """The claim or the list of a payout by its text; nothing where it is another one's."""
    found = TEXT_OF_A_PAYOUT.search("".join(texts).replace(" ", "").casefold())
    if not found:
        return ""
    number, claim, reference = found.groups()
    return reference.upper() if reference else f"L{number}-C{claim}" if claim else f"L{number}"


def came_back(node: Node) -> bool:
    own = node.text("BkTxCd/Prtry/Cd")
    return node.text("BkTxCd/Domn/Fmly/SubFmlyCd") in CAME_BACK or bool(CAME_BACK_IN_GERMANY.fullmatch(own))


def read_credited(node: Node) -> Money | None:
    """The amount of a transaction, which stands in the details of its amounts alone in version 02."""
    path = next((path for path in ("Amt", "AmtDtls/TxAmt/Amt") if node.has(path)), None)
    return read_money(node, path) if path else None


def read_reference(node: Node, path: str, none: re.Pattern = NO_REFERENCE) -> str:
    reference = node.text(path)
    return "" if none.fullmatch(reference) else reference


def read_money(node: Node, path: str) -> Money:
    found = next(node.parts(path), None)
    if found is None:
        raise node.fault(f"{path} is missing")
    text, currency = found.own_text(), found.element.get("Ccy", "")
    if not AMOUNT.fullmatch(text) or not CURRENCY.fullmatch(currency):
        raise node.fault(f"{shown(f'{text} {currency}')} is no amount with a currency")
    return Money(Decimal(text), currency)


def read_direction(node: Node) -> bool:
    """Whether it is a credit."""
    direction = node.need("CdtDbtInd")
    if direction not in DIRECTIONS:
        raise node.fault(f"CdtDbtInd is {shown(direction)}, neither CRDT nor DBIT")
    return DIRECTIONS[direction]


def read_day(node: Node, path: str) -> date | None:
    text = node.text(f"{path}/Dt", f"{path}/DtTm")
    if not text:
        return None
    try:
        return date.fromisoformat(DAY.fullmatch(text)[1])
    except (TypeError, ValueError):
        raise node.fault(f"{path}: {shown(text)} is no day") from None
