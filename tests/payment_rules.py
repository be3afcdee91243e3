"""The rules of a SEPA payment file, pain.001.001.09, for the elements that tools/payment-file uses: those of
ISO 20022's schema, and those of the European Payments Council. They share nothing with the tool."""

import re
import xml.etree.ElementTree as ElementTree

NAMESPACE = "{urn:iso:std:iso:20022:tech:xsd:pain.001.001.09}"
ID = r"(?!/)(?!.*//)[A-Za-z0-9+?/:().,'-]{1,35}(?<!/)"
SIGN = "[A-Za-z0-9/?:().,'+ -]"
DAY = "[0-9]{4}-[0-9]{2}-[0-9]{2}"
CENTS = r"(0|[1-9][0-9]{0,15})\.[0-9]{2}"
# The children of each element, in the order of the schema.
CHILDREN = {
    "Document": "CstmrCdtTrfInitn",
    "CstmrCdtTrfInitn": "GrpHdr PmtInf",
    "GrpHdr": "MsgId CreDtTm NbOfTxs CtrlSum InitgPty",
    "PmtInf": "PmtInfId PmtMtd NbOfTxs CtrlSum PmtTpInf ReqdExctnDt Dbtr DbtrAcct DbtrAgt ChrgBr"
              "( CdtTrfTxInf)+",
    "CdtTrfTxInf": "PmtId Amt Cdtr CdtrAcct RmtInf",
    "InitgPty": "Nm", "Dbtr": "Nm", "Cdtr": "Nm", "PmtTpInf": "SvcLvl", "SvcLvl": "Cd", "ReqdExctnDt": "Dt",
    "DbtrAcct": "Id", "DbtrAcct/Id": "IBAN", "CdtrAcct": "Id", "CdtrAcct/Id": "IBAN",
    "DbtrAgt": "FinInstnId", "FinInstnId": "Othr", "Othr": "Id",
    "PmtId": "EndToEndId", "Amt": "InstdAmt", "RmtInf": "Ustrd",
}
TEXTS = {
    "MsgId": ID, "PmtInfId": ID, "EndToEndId": ID, "NbOfTxs": "[1-9][0-9]{0,14}", "CtrlSum": CENTS,
    "CreDtTm": DAY + r"T[0-9]{2}:[0-9]{2}:[0-9]{2}(Z|[+-][0-9]{2}:[0-9]{2})?", "PmtMtd": "TRF",
    "Cd": "SEPA", "Dt": DAY, "Nm": SIGN + "{1,70}", "IBAN": "[A-Z]{2}[0-9]{2}[A-Z0-9]{1,30}",
    "Othr/Id": "NOTPROVIDED", "ChrgBr": "SLEV", "InstdAmt": r"(0|[1-9][0-9]{0,8})\.[0-9]{2}",
    "Ustrd": SIGN + "{1,140}",
}


def in_cents(text):
    return int(text.replace(".", ""))


def remainder(iban):
    """What is left of an IBAN by 97, sign by sign; it is 1."""
    left = 0
    for sign in iban[4:] + iban[:4]:
        value = ord(sign) - (ord("0") if sign.isdigit() else ord("A") - 10)
        left = (left * (10 if value < 10 else 100) + value) % 97
    return left


def broken_by(element, above=""):
    """Each rule that an element or one inside of it breaks."""
    name = element.tag.removeprefix(NAMESPACE)
    key = next((it for it in (f"{above}/{name}", name) if it in CHILDREN or it in TEXTS), None)
    text = (element.text or "") + "".join(child.tail or "" for child in element)
    if dict(element.attrib) != ({"Ccy": "EUR"} if name == "InstdAmt" else {}):
        yield f"{name} has other attributes"
    if key in CHILDREN:
        names = " ".join(child.tag.removeprefix(NAMESPACE) for child in element)
        if not re.fullmatch(CHILDREN[key], names) or text.strip():
            yield f"{name} has {names} {text.strip()}"
    elif key is None or len(element) or not re.fullmatch(TEXTS[key], element.text or ""):
        yield f"{above}/{name} is {text}"
    if name == "IBAN" and remainder(text) != 1:
        yield f"IBAN {text} is wrong"
    for child in element:
        yield from broken_by(child, name)


def broken_sums(document):
    """Each sum or count that is wrong, and each payment of nothing or under the name of another one."""
    payments = [*document.iter(f"{NAMESPACE}CdtTrfTxInf")]
    total = sum(in_cents(it.text) for it in document.iter(f"{NAMESPACE}InstdAmt"))
    ends = {it.text for it in document.iter(f"{NAMESPACE}EndToEndId")}
    counts = [int(it.text) for it in document.iter(f"{NAMESPACE}NbOfTxs")]
    sums = [in_cents(it.text) for it in document.iter(f"{NAMESPACE}CtrlSum")]
    if counts != [len(payments)] * 2 or sums != [total] * 2:
        yield f"{counts} and {sums} for {len(payments)} and {total}"
    if len(ends) != len(payments):
        yield "an EndToEndId stands twice"
    if any(in_cents(it.text) == 0 for it in document.iter(f"{NAMESPACE}InstdAmt")):
        yield "an amount is 0"


def broken_rules(content):
    """Each rule that the bytes of a file break."""
    document = ElementTree.fromstring(content)
    return [*broken_by(document)] or [*broken_sums(document)]


def leaves(element, above=""):
    """Each text of a document with its path, in their order."""
    path = f"{above}/{element.tag.removeprefix(NAMESPACE)}"
    return [it for child in element for it in leaves(child, path)] or [(path, element.text)]
