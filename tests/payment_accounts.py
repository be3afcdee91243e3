"""Runs tools/payment-file over tables of accounts: IBANs, names, and what a table lacks.

    python3 tests/payment_accounts.py

What is expected is worked out by hand.
"""

import re
import sys
import xml.etree.ElementTree as ElementTree

# No __pycache__ is left beside the sources.
sys.dont_write_bytecode = True
from payment_file import HEADER, MADE, NORD, OST, Tool, summary  # noqa: E402
from payment_rules import NAMESPACE, remainder  # noqa: E402
from program_under_test import run_tests  # noqa: E402


def iban_of(account):
    """A German account's IBAN; its check digits come of the number with DE00 behind it, D being 13, E 14."""
    return f"DE{98 - int(f'{account:018}131400') % 97:02}{account:018}"


def with_check_digits(country, account):
    return f"{country}{98 - remainder(f'{country}00{account}'):02}{account}"


class Ibans(Tool):
    # The examples that the registry of IBANs publishes for the countries of SEPA.
    EXAMPLES = """
        AD1200012030200359100100 AL47212110090000000235698741 AT611904300234573201 BE68539007547034
        BG80BNBG96611020345678 CH9300762011623852957 CY17002001280000001200527600 CZ6508000000192000145399
        DE89370400440532013000 DK5000400440116243 EE382200221020145685 ES9121000418450200051332
        FI2112345600000785 FR1420041010050500013M02606 GB29NWBK60161331926819 GI75NWBK000000007099453
        GR1601101250000000012300695 HR1210010051863000160 HU42117730161111101800000000
        IE29AIBK93115212345678 IS140159260076545510730339 IT60X0542811101000000123456 LI21088100002324013AA
        LT121000011101001000 LU280019400644750000 LV80BANK0000435195001 MC5811222000010123456789030
        MD24AG000225100013104168 ME25505000012345678951 MK07250120000058984 MT84MALT011000012345MTLCAST001S
        NL91ABNA0417164300 NO9386011117947 PL61109010140000071219812874 PT50000201231234567890154
        RO49AAAA1B31007593840000 RS35260005601001611379 SE4550000000058398257466 SI56191000000123438
        SK3112000000198742637541 SM86U0322509800000000270100 VA59001123000012345678
    """.split()

    # Those of whose IBANs the registry says that they have digits alone behind the country.
    DIGITS_ALONE = "AT BE CZ DE DK EE ES FI HR HU IS LT ME NO PL PT RS SE SI SK VA".split()

    def made_of(self, ibans):
        """The IBANs in the payments of firms from 1 on that have these in the table."""
        rows = [f"{at},{iban},Bau\n" for at, iban in enumerate(ibans, 1)]
        self.write("accounts.csv", HEADER + "".join(rows))
        self.write_list(*((at, 100) for at in range(1, len(ibans) + 1)))
        made = self.make(*self.words, told=summary(len(ibans), f"{len(ibans)}.00")).decode()
        return re.findall(r"<CdtrAcct>\s*<Id>\s*<IBAN>(.*?)</IBAN>", made)

    def test_published_examples(self):
        wanted = self.EXAMPLES
        self.assertEqual(len(wanted), 42)
        self.assertEqual(self.made_of(wanted), wanted)
        in_fours = [" ".join(re.findall(".{1,4}", it)) for it in wanted]
        self.assertEqual(self.made_of([f"\u00a0{it.lower()} \t" for it in in_fours]), wanted)

    def test_the_least_and_the_greatest_check_digits(self):
        ibans = ["DE02370400440532013014", "DE98370400440532013032"]
        self.assertEqual(self.made_of(ibans), ibans)

    def test_wrong_ibans(self):
        """A wrong one is told with its line, also where its firm isn't on the list."""
        mistyped, length = "{} is mistyped: its check digits don't agree", "{} has {} signs in place of 22"
        faults = {
            "DE89370400440532013001": mistyped,                      # a wrong digit
            "DE89370400440532010300": mistyped,                      # two digits exchanged
            "AT611904300234573210": mistyped,
            "DE01370400440532013032": mistyped,                      # by 97 as good as 98
            "DE00370400440532013050": mistyped,                      # by 97 as good as 97
            "DE99370400440532013014": mistyped,                      # by 97 as good as 02
            "DE5137040044053201300": length.format("{}", 21),        # by 97 it is good
            "DE813704004405320130000": length.format("{}", 23),      # by 97 it is good
            "DE89370400440532013OOO": "{} has a letter behind DE, where digits alone stand",
            "TR330006100519786457841326": "{} is of no country in SEPA",
            "XX89370400440532013000": "{} is of no country in SEPA",
            "DE8９370400440532013000": "'{}' isn't an IBAN",
            "ıT60X0542811101000000123456": "'{}' isn't an IBAN",
            "DE89-3704-0044-0532-0130-00": "'{}' isn't an IBAN",
            "IBAN": "'{}' isn't an IBAN",
            "DE89": "'{}' isn't an IBAN",
            "<IBAN>": "'{}' isn't an IBAN",
            "89370400440532013000": "'{}' isn't an IBAN",
            "D" * 50: f"'{40 * 'D'}' isn't an IBAN",
        }
        rows = [f"{at},{iban},Bau\n" for at, iban in enumerate(faults, 2001)]
        self.write("accounts.csv", HEADER + NORD + OST + "".join(rows))
        told = [f"accounts.csv: line {line}: {fault.format(iban)}\n"
                for line, (iban, fault) in enumerate(faults.items(), 4)]
        self.refuse(2, "".join(told), *self.words)

    def test_a_letter_where_digits_alone_stand(self):
        """Its check digits agree all the same."""
        examples = [it for it in self.EXAMPLES if it[:2] in self.DIGITS_ALONE]
        ibans = [with_check_digits(it[:2], f"{it[4:-1]}O") for it in examples]
        self.assertEqual(len(ibans), 21)
        self.write("accounts.csv", HEADER + "".join(f"{at},{iban},Bau\n" for at, iban in enumerate(ibans, 1)))
        self.refuse(2, "".join(
            f"accounts.csv: line {line}: {iban} has a letter behind {iban[:2]}, where digits alone stand\n"
            for line, iban in enumerate(ibans, 2)), *self.words)

    def test_the_funds_own(self):
        words = self.words[:-1]
        self.assertIn(b"<IBAN>DE02120300000000202051<", self.make(*words, " de02 1203 0000 0000 2020 51"))
        wrong = "DE02120300000000202052"
        told = f"argument --debtor-iban: {wrong} is mistyped: its check digits don't agree\n"
        self.refuse(2, told, *words, wrong)


class Names(Tool):
    def test_names(self):
        names = {
            "Bau & Söhne": "Bau + Soehne",
            "MÜLLER BAU GmbH": "MUELLER BAU GmbH",
            "Müller-Öztürk Straßenbau": "Mueller-Oeztuerk Strassenbau",
            "Mu\u0308ller": "Mueller",
            "Épée Ñandú Çelik Łódź Ångström": "Epee Nandu Celik Lodz Angstroem",
            "Ærø Þór Œuvre": "Aeroe Thor Oeuvre",
            "Ǽbro BRØNDǾ": "Aebro BROENDOE",
            "Đorđević Ðað ıþ STRAẞE": "Dordevic Dad ith STRASSE",
            "<Nm>Bau</Nm> <!-- ]]> &amp;": ".Nm.Bau./Nm. ..-- )). +amp,",
            '""Bau „Nord“ ’s""': "'Bau 'Nord' 's'",
            "‹A› ‘B’ «C» ‚D‘ “E” ‟F‛": "'A' 'B' 'C' 'D' 'E' 'F'",
            "Müller‑Bau ‐‒–—―−": "Mueller-Bau ------",
            "a_b;c*d#e@f[g]h{i}j|k\\l~m": "a-b,c.d.e.f(g)h(i)j/k/l-m",
            "½ Bau 3\u22154 / 5⁄6": "1/2 Bau 3/4 / 5/6",
            "  Bau \u00a0 Nord ": "Bau Nord",
            "A" * 70: "A" * 70,
            "ß" * 35: "s" * 70,
        }
        rows = [f'{at},{iban_of(at)},"{name}"\n' for at, name in enumerate(names, 1)]
        self.write("accounts.csv", HEADER + "".join(rows))
        self.write_list(*((at, 100) for at in range(1, len(names) + 1)))
        made = self.make(*self.words, told=summary(len(names), f"{len(names)}.00"))
        found = [it.text for it in ElementTree.fromstring(made).findall(f".//{NAMESPACE}Cdtr/{NAMESPACE}Nm")]
        self.assertEqual(found, [*names.values()])

    def test_names_that_cannot_be_written(self):
        cannot = "'{}' can't be written in the letters of SEPA, which are A to Z"
        too_long = "the name has {} signs in SEPA, and 70 are the most"
        faults = {
            "Бау": cannot.format("Б"), "Bau 建": cannot.format("建"),
            "Bau\u202eNord": cannot.format("\\u202e"), "Bau\x1b[2J": cannot.format("\\x1b"),
            "Bau\0": cannot.format("\\x00"), "Bau\tNord": cannot.format("\\t"),
            "": "the name has no letter", " . & ": "the name has no letter",
            "A" * 71: too_long.format(71), "ß" * 36: too_long.format(72),
            "Bau\nNord": cannot.format("\\n"),
        }
        rows = [f'{at},DE89370400440532013000,"{name}"\n' for at, name in enumerate(faults, 1)]
        self.write("accounts.csv", HEADER + "".join(rows))
        # The last name has a line end, so its row ends a line later.
        lines = [*range(2, len(faults) + 1), len(faults) + 2]
        told = [f"accounts.csv: line {line}: {fault}\n" for line, fault in zip(lines, faults.values())]
        self.refuse(2, "".join(told), *self.words)
        words = (*self.words[:5], "Фонд", *self.words[6:])
        self.refuse(2, f"argument --debtor-name: {cannot.format('Ф')}\n", *words)


class Tables(Tool):
    def test_firms_without_an_iban(self):
        self.write_list((1001, 100), (1004, 200), (77, 300), (1001, 400))
        self.write("accounts.csv", HEADER + "1001, ,Bau Nord & Söhne\n" + OST)
        self.refuse(1, "employer 77: isn't in the table\n"
                       "employer 1001 Bau Nord + Soehne: has no IBAN in the table\n", *self.words)

    def test_the_funds_own_iban(self):
        """What is transferred to the account that it leaves reaches no firm."""
        self.write("accounts.csv", HEADER + NORD + "1004,DE02 1203 0000 0000 2020 51,Bau Ost\n")
        self.refuse(1, "employer 1004 Bau Ost: has the fund's own IBAN in the table\n", *self.words)

    def test_an_iban_of_two_names(self):
        """An account has one name: one of the lines was copied wrongly."""
        self.write("accounts.csv", HEADER + NORD + OST + "77,at61 1904 3002 3457 3201,Bau West\n")
        told = "employer 1004 Bau Ost: its IBAN stands in the table as that of Bau West, too\n"
        self.refuse(1, told, *self.words)
        others = enumerate(("Zoll", "Ernst", "Adam", "Mitte", "Nord"), 77)
        rows = [f"{employer},AT611904300234573201,Bau {name}\n" for employer, name in others]
        self.write("accounts.csv", HEADER + NORD + OST + "".join(rows))
        self.refuse(1, told.replace("West", "Adam, Bau Ernst, Bau Mitte, Bau Nord, Bau Zoll"), *self.words)
        self.write("accounts.csv", HEADER + NORD + OST + "77,AT611904300234573201, Bau  Ost\n")
        self.make(*self.words)

    def test_tables_as_spreadsheets_write_them(self):
        rows = HEADER + '"1001","DE89370400440532013000","Bau Nord GmbH"\n\n' + OST
        self.write("accounts.csv", "\ufeff" + rows.replace("\n", "\r\n"))
        wanted = self.make(*self.words, *MADE)
        self.write("accounts.csv", HEADER + NORD + OST + "99999999,,Bau Süd\n")
        self.assertEqual(self.make(*self.words, *MADE), wanted)

    def test_wrong_tables(self):
        header, twice = "the header isn't employer,iban,name", "employer 1001 stands in two lines"
        faults = {
            "": f"line 1: {header}",
            NORD: f"line 1: {header}",
            "employer;iban;name\n": f"line 1: {header}",
            "employer,iban,name,bic\n": f"line 1: {header}",
            HEADER + NORD + OST + NORD: f"line 4: {twice}",
            HEADER + NORD + "1001,,Bau Nord\n": f"line 3: {twice}",
            HEADER + "1001,DE89370400440532013000\n": "line 2: 2 fields in place of 3",
            HEADER + "1001,DE89370400440532013000,Bau, Nord\n": "line 2: 4 fields in place of 3",
            HEADER + "01001,,Bau\n": "line 2: '01001' is no employer's number",
            HEADER + "0,,Bau\n": "line 2: '0' is no employer's number",
            HEADER + "100000000,,Bau\n": "line 2: '100000000' is no employer's number",
            HEADER + "١٠٠١,,Bau\n": "line 2: '١٠٠١' is no employer's number",
            HEADER + '1001,,"Bau\n': "line 2: unexpected end of data",
            HEADER + '1001,,"Bau"x\n': "line 2: ',' expected after '\"'",
            HEADER + f"1001,,{140_000 * 'B'}\n": "line 2: field larger than field limit (131072)",
        }
        for table, fault in faults.items():
            self.write("accounts.csv", table)
            self.refuse(2, f"accounts.csv: {fault}\n", *self.words)
        self.write("accounts.csv", HEADER.encode() + b"1001,,S\xfcd\n")
        self.refuse(2, "accounts.csv: no text in UTF-8\n", *self.words)


if __name__ == "__main__":
    run_tests()
