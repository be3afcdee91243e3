"""Statements in camt.053 for the tests of tools/bank-file, written by hand, and what is to come of them.

The signs of references that the tool makes were computed with sha256sum and base32, of what stands above them.
"""

import io
import re
import warnings
import zipfile

# Of the fund, of the firms 1001 and 1002, and of nobody.
ACCOUNT = "DE02120300000000202051"
NORD, WEST, STRANGE = "DE89370400440532013000", "DE75512108001245126199", "DE12500105170648489890"
FIRMS = f"iban,employer\nDE89 3704 0044 0532 0130 00,1001\n{WEST},1002\n,1003\n"
NAMESPACE = "urn:iso:std:iso:20022:tech:xsd:camt.053.001."
DECLARED = '<?xml version="1.0" encoding="UTF-8"?>\n'

# ---- statements in version 08


def transaction(amount="", text="", name="", iban="", reference="", end_to_end="", more=""):
    own = f"<AcctSvcrRef>{reference}</AcctSvcrRef>" if reference else ""
    refs = f"<Refs>{own}<EndToEndId>{end_to_end or 'NOTPROVIDED'}</EndToEndId></Refs>"
    money = f'<Amt Ccy="EUR">{amount}</Amt><CdtDbtInd>CRDT</CdtDbtInd>' if amount else ""
    debtor = f"<Dbtr><Pty><Nm>{name}</Nm></Pty></Dbtr>" if name else ""
    account = f"<DbtrAcct><Id><IBAN>{iban}</IBAN></Id></DbtrAcct>" if iban else ""
    texts = "".join(f"<Ustrd>{it}</Ustrd>" for it in ([text] if isinstance(text, str) else text))
    return (f"<TxDtls>{refs}{money}<RltdPties>{debtor}{account}</RltdPties><RmtInf>{texts}</RmtInf>{more}"
            "</TxDtls>")


def entry(amount, *details, reference="", direction="CRDT", status="BOOK", value="<Dt>2024-04-30</Dt>",
          booked="2024-04-30", currency="EUR", reversal="", batch=""):
    own = f"<AcctSvcrRef>{reference}</AcctSvcrRef>" if reference else ""
    days = f"<BookgDt><Dt>{booked}</Dt></BookgDt>" if booked else ""
    days += f"<ValDt>{value}</ValDt>" if value else ""
    parts = f"<NtryDtls>{batch}{''.join(details)}</NtryDtls>" if details or batch else ""
    return (f'<Ntry><Amt Ccy="{currency}">{amount}</Amt><CdtDbtInd>{direction}</CdtDbtInd>{reversal}'
            f"<Sts><Cd>{status}</Cd></Sts>{days}{own}<BkTxCd/>{parts}</Ntry>\n")


def payment(amount, text="", name="", iban="", reference="", end_to_end="", **options):
    """An entry of one transaction."""
    return entry(amount, transaction("", text, name, iban, "", end_to_end), reference=reference, **options)


def balance(code, amount, currency="EUR"):
    direction = "DBIT" if amount.startswith("-") else "CRDT"
    money = f'<Amt Ccy="{currency}">{amount.lstrip("-")}</Amt><CdtDbtInd>{direction}</CdtDbtInd>'
    kind = f"<Tp><CdOrPrtry><Cd>{code}</Cd></CdOrPrtry></Tp>"
    return f"<Bal>{kind}{money}<Dt><Dt>2024-04-30</Dt></Dt></Bal>\n"


def page(balances, *entries, identifier="S1", number="", last="true", account=ACCOUNT):
    numbered = f"<StmtPgntn><PgNb>{number}</PgNb><LastPgInd>{last}</LastPgInd></StmtPgntn>" if number else ""
    return (f"<Stmt><Id>{identifier}</Id>{numbered}<Acct><Id><IBAN>{account}</IBAN></Id></Acct>\n"
            f"{balances}{''.join(entries)}</Stmt>\n")


def statement(opening, closing, *entries, **options):
    return page(balance("OPBD", opening) + balance("CLBD", closing), *entries, **options)


def document(*statements, head="", declaration=DECLARED):
    header = f"<GrpHdr><MsgId>M1</MsgId>{head}</GrpHdr>\n"
    return (f'{declaration}<Document xmlns="{NAMESPACE}08"><BkToCstmrStmt>{header}{"".join(statements)}'
            "</BkToCstmrStmt></Document>\n")


def one(opening, closing, *entries, **options):
    """A document of one statement."""
    return document(statement(opening, closing, *entries, **options))


def as_02(text):
    """The same document in version 02, as far as the two differ in what is read."""
    text = text.replace(f"{NAMESPACE}08", f"{NAMESPACE}02")
    text = re.sub(r"<Sts><Cd>(\w+)</Cd></Sts>", r"<Sts>\1</Sts>", text)
    text = text.replace("<Pty>", "").replace("</Pty>", "")
    amounts = r'</Refs>(<Amt Ccy="EUR">[^<]*</Amt>)<CdtDbtInd>CRDT</CdtDbtInd>'
    return re.sub(amounts, r"</Refs><AmtDtls><TxAmt>\1</TxAmt></AmtDtls>", text)


def packed(*members, **options):
    """A zip of members, each a name with its content."""
    content = io.BytesIO()
    with zipfile.ZipFile(content, "w", zipfile.ZIP_DEFLATED, **options) as archive, warnings.catch_warnings():
        # (a name that stands twice is told)
        warnings.simplefilter("ignore")
        for name, text in members:
            archive.writestr(name, text)
    return content.getvalue()


# ---- good statements, each with the lines of its bank file

# Written from the schema of version 02, without what is above.
STATEMENT_02 = f"""<?xml version="1.0" encoding="utf-8"?>
<Document xmlns="urn:iso:std:iso:20022:tech:xsd:camt.053.001.02">
 <BkToCstmrStmt>
  <GrpHdr>
   <MsgId>27632364572</MsgId><CreDtTm>2024-02-26T18:00:00.0+01:00</CreDtTm>
   <MsgPgntn><PgNb>1</PgNb><LastPgInd>true</LastPgInd></MsgPgntn>
  </GrpHdr>
  <Stmt>
   <Id>2736482736482</Id>
   <ElctrncSeqNb>56</ElctrncSeqNb>
   <CreDtTm>2024-02-26T18:00:00.0+01:00</CreDtTm>
   <Acct><Id><IBAN>{ACCOUNT}</IBAN></Id><Ccy>EUR</Ccy></Acct>
   <Bal>
    <Tp><CdOrPrtry><Cd>PRCD</Cd></CdOrPrtry></Tp>
    <Amt Ccy="EUR">112.72</Amt><CdtDbtInd>DBIT</CdtDbtInd><Dt><Dt>2024-02-23</Dt></Dt>
   </Bal>
   <Bal>
    <Tp><CdOrPrtry><Cd>CLBD</Cd></CdOrPrtry></Tp>
    <Amt Ccy="EUR">1447.28</Amt><CdtDbtInd>CRDT</CdtDbtInd><Dt><Dt>2024-02-26</Dt></Dt>
   </Bal>
   <Bal>
    <Tp><CdOrPrtry><Cd>CLAV</Cd></CdOrPrtry></Tp>
    <Amt Ccy="EUR">9999.99</Amt><CdtDbtInd>CRDT</CdtDbtInd><Dt><Dt>2024-02-26</Dt></Dt>
   </Bal>
   <Ntry>
    <Amt Ccy="EUR">1500</Amt>
    <CdtDbtInd>CRDT</CdtDbtInd>
    <Sts>BOOK</Sts>
    <BookgDt><Dt>2024-02-26</Dt></BookgDt>
    <ValDt><Dt>2024-02-25</Dt></ValDt>
    <AcctSvcrRef>STZV-Pm22/11-1</AcctSvcrRef>
    <BkTxCd><Domn><Cd>PMNT</Cd><Fmly><Cd>RCDT</Cd><SubFmlyCd>ESCT</SubFmlyCd></Fmly></Domn></BkTxCd>
    <NtryDtls>
     <TxDtls>
      <Refs><EndToEndId>E-17</EndToEndId></Refs>
      <AmtDtls><TxAmt><Amt Ccy="EUR">1500.00</Amt></TxAmt></AmtDtls>
      <RltdPties>
       <Dbtr><Nm>Bau Nord</Nm></Dbtr>
       <DbtrAcct><Id><IBAN>{NORD}</IBAN></Id></DbtrAcct>
       <Cdtr><Nm>Ferienkasse</Nm></Cdtr>
      </RltdPties>
      <RmtInf><Ustrd>Beitrag Jänner</Ustrd><Ustrd>2024</Ustrd></RmtInf>
     </TxDtls>
    </NtryDtls>
    <AddtlNtryInf>GUTSCHRIFT</AddtlNtryInf>
   </Ntry>
   <Ntry>
    <Amt Ccy="EUR">60.00</Amt>
    <CdtDbtInd>CRDT</CdtDbtInd>
    <Sts>BOOK</Sts>
    <BookgDt><DtTm>2024-02-26T09:00:00</DtTm></BookgDt>
    <ValDt><DtTm>2024-02-26T23:30:00+01:00</DtTm></ValDt>
    <AcctSvcrRef>STZV-Pm22/11-2</AcctSvcrRef>
    <BkTxCd/>
   </Ntry>
  </Stmt>
 </BkToCstmrStmt>
</Document>
"""

BATCH_PARTS = (
    transaction("100.10", "Beitrag", "Bau Nord", NORD, "BT-1"),
    transaction("0.01", "Zinsen 1003", "Büro", STRANGE, "BT-2"),
    transaction("99.89", "1001, 1003", "Büro", STRANGE, "BT-3"),
)
BATCH = one("0.00", "200.00", entry("200.00", *BATCH_PARTS, reference="BT",
                                    batch="<Btch><NbOfTxs>3</NbOfTxs></Btch>"))
BATCH_LINES = [
    "BT-1,2024-04-30,1001,10010,C,Bau Nord: Beitrag",
    "BT-2,2024-04-30,1003,1,I,Büro: Zinsen 1003",
    'BT-3,2024-04-30,,9989,C,"Büro: 1001, 1003"',
]

# Three pages, with the numbers of their interim balances and none.
PAGES = [
    page(balance("OPBD", "-10.00") + balance("ITBD", "90.00"),
         payment("100.00", reference="PG-1"), number="1", last="false"),
    page(balance("ITBD", "140.00") + balance("ITBD", "90.00"),
         payment("50.00", reference="PG-2"), number="2", last="false"),
    page(balance("CLBD", "120.00"), payment("20.00", direction="DBIT"), number="00003"),
]
ZIPPED_PAGES = packed(*((f"{name}.xml", document(it)) for name, it in zip("bca", PAGES)))

LONG = "ABCDEFGHIJKLMNOPQRSTUVWXYZ0123456789ABCDEFGHIJKLMN"
REFERENCES = one(
    "0.00", "53.00",
    payment("1.00", reference=LONG),
    payment("2.00", reference="Überweisung-1"),
    payment("3.00", reference="R 1"),
    payment("4.00", reference="place~abc"),
    payment("5.00", reference="X" * 35),
    payment("6.00", reference='a,"b"'),
    payment("7.00", reference="DOUBLE"),
    payment("7.00", reference="DOUBLE"),
    payment("8.00", reference="bank~abc"),
    entry("10.00", transaction("9.00"), transaction("1.00"), reference="BATCH"),
)
REFERENCES_LINES = [
    # ["ABC..", "1"]
    "bank~oori7qhknusaiweqrbraeq6xnt,2024-04-30,,100,C,",
    # ["\u00dcberweisung-1", "1"]
    "bank~pcuj5b7ug7ydwnptfj6hy66ghy,2024-04-30,,200,C,",
    # ["R 1", "1"]
    "bank~pjlqkeqrfv2g27fq6wykuh3bgk,2024-04-30,,300,C,",
    # ["place~abc", "1"]
    "bank~7znou72ecyw2ijqqlensi2mok7,2024-04-30,,400,C,",
    f"{'X' * 35},2024-04-30,,500,C,",
    '"a,""b""",2024-04-30,,600,C,',
    "DOUBLE,2024-04-30,,700,C,",
    # ["DOUBLE", "2"]
    "bank~5uuqmza2woikv4ymrxshzshkri,2024-04-30,,700,C,",
    # ["bank~abc", "1"]
    "bank~27dmuklkk5afvya2zdhi5om7aj,2024-04-30,,800,C,",
    "BATCH,2024-04-30,,900,C,",
    # ["BATCH", "2"]
    "bank~dsynpzbvymdt6enkwl6wwijxx7,2024-04-30,,100,C,",
]

NO_REFERENCES = one("0.00", "3.00", payment("1.00", end_to_end="E2E-1"), payment("1.00", reference="NONREF"),
                    payment("1.00", reference="000000"))
NO_REFERENCES_LINES = [
    # ["DE02120300000000202051", "S1", "2024-04-30", "1", "1", "E2E-1"]
    "place~aoq5tmeb23abk5fqrhz7n4dizy,2024-04-30,,100,C,",
    # ["DE02120300000000202051", "S1", "2024-04-30", "2", "1", ""]
    "place~r6xmgkdrxkbcb7lty5k7zn6bfq,2024-04-30,,100,C,",
    "place~isbhu2wlzlkcsppjy7uovj4won,2024-04-30,,100,C,",
]

# "B: " and 135 letters are 138 bytes, so that the next sign of four bytes doesn't fit.
NOTES = one(
    "0.00", "9.00",
    payment("1.00", "n" * 135 + "\U0001f477z", "B", reference="NT-1"),
    payment("1.00", "n" * 133 + "\U0001f477z", "B", reference="NT-2"),
    payment("1.00", 'a,b "c"\n\t d&#13;&#x85;&#x7f;&#x202e;e', reference="NT-3"),
    payment("1.00", "=1+1", "=+-@ Bau", reference="NT-4"),
    payment("1.00", "=1+1", reference="NT-5"),
    payment("1.00", "u&#x308; &lt;b&gt; &amp;", "Bau", reference="NT-6"),
    payment("1.00", "a; b;= +1", "Bau;=1+1", reference="NT-7"),
    payment("1.00", "\uff1d1+1", reference="NT-8"),
    payment("1.00", "a;&quot;=1+1;b", reference="NT-9"),
)
NOTES_LINES = [
    f"NT-1,2024-04-30,,100,C,B: {'n' * 135}",
    f"NT-2,2024-04-30,,100,C,B: {'n' * 133}\U0001f477",
    'NT-3,2024-04-30,,100,C,"a,b ""c"" d e"',
    "NT-4,2024-04-30,,100,C,Bau: =1+1",
    "NT-5,2024-04-30,,100,C,1+1",
    "NT-6,2024-04-30,,100,C,Bau: ü <b> &",
    'NT-7,2024-04-30,,100,C,"Bau,=1+1: a; b,= +1"',
    "NT-8,2024-04-30,,100,C,1+1",
    'NT-9,2024-04-30,,100,C,"a,""=1+1;b"',
]

LATIN = one("0.00", "1.00", payment("1.00", "März", "Größe", NORD, "LT-1"))
LATIN_LINES = ["LT-1,2024-04-30,1001,100,C,Größe: März"]

GOOD = {
    "version 02": (STATEMENT_02, [
        "STZV-Pm22/11-1,2024-02-25,1001,150000,C,Bau Nord: Beitrag Jänner 2024",
        "STZV-Pm22/11-2,2024-02-26,,6000,C,"]),
    "batch": (BATCH, BATCH_LINES),
    "pages": (ZIPPED_PAGES, ["PG-1,2024-04-30,,10000,C,", "PG-2,2024-04-30,,5000,C,"]),
    "references": (REFERENCES, REFERENCES_LINES),
    "no references": (NO_REFERENCES, NO_REFERENCES_LINES),
    "notes": (NOTES, NOTES_LINES),
    "Latin-1": (LATIN.replace("UTF-8", "ISO-8859-1").encode("latin-1"), LATIN_LINES),
}
