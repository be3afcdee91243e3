"""What the scripts share that compare offices of the built program with the machine of machine.py."""

import re
import sqlite3

from machine_answers import answer_to
from machine_tables import tables_of
from machine_values import day_text, month_text
from office_under_test import recomputed
from program_under_test import ProgramUnderTest

RATE_NAMES = ("contribution", "report_day", "due_day", "interest", "entitlement")
# A stream ends with its 1,000th request.
MOST_OF_A_STREAM = 999


def rate_text(row):
    numbers = "".join(f"{name} = {value}\n" for name, value in zip(RATE_NAMES, row[1:]))
    return f'[[rate]]\nfrom = "{month_text(row.first)}"\n{numbers}'


def request_bytes(request):
    method, target, key, number, body = request
    fields = {"Host": "office", "Office-Key": key, "Request-Number": number}
    if method in ("POST", "PUT") or body:
        fields["Content-Length"] = len(body)
    lines = "".join(f"{name}: {value}\r\n" for name, value in fields.items() if value is not None)
    return f"{method} {target} HTTP/1.1\r\n{lines}\r\n".encode() + body


class ComparedOffices(ProgramUnderTest):
    maxDiff = None

    def setUp(self):
        super().setUp()
        self.rules = set()

    def begin(self, book, keys, store):
        """Makes the store of a book without requests."""
        self.write("rates.toml", "".join(map(rate_text, book.rates)))
        self.write("callers.toml", "".join(f"{key} = {caller}\n" for key, caller in keys.items()))
        self.init(store)

    def compare(self, book, keys, day, requests, store):
        """Serves the requests of a day, each of which comes when the book has taken the one before."""
        sent, wanted = [], []
        for request in requests:
            sent.append(request)
            wanted.append(answer_to(book, keys, day, request))
        self.rules |= {int(rule) for answer in wanted for rule in re.findall(rb'"rule":([0-9]+)}\Z', answer)}
        starts = range(0, len(sent), MOST_OF_A_STREAM)
        server = self.serving(len(starts), day_text(day), store)
        for start in starts:
            part = slice(start, start + MOST_OF_A_STREAM)
            self.compare_stream(server, sent[part], wanted[part])
        self.assertEqual(self.ended(server), (0, f"served {len(starts)}\n", ""))

    def compare_stream(self, server, requests, wanted):
        answers = self.send(server, b"".join(map(request_bytes, requests)))
        for request, answer in zip(requests, wanted):
            self.assertEqual(answers[:len(answer)].decode(), answer.decode(), (server.day, request))
            answers = answers[len(answer):]
        self.assertEqual(answers, b"")

    def compare_tables(self, book, store):
        # Brings in what the log has.
        self.assertEqual(self.run_program("look", store)[0], 0)
        connection = sqlite3.connect(self.folder / store)
        for table, rows in tables_of(book).items():
            with self.subTest(table):
                found = connection.execute(f"SELECT * FROM {table}").fetchall()
                self.assertEqual(sorted(map(comparable, found)), sorted(map(comparable, rows)))
        connection.close()
        self.assertEqual(recomputed(self.folder / store), [])


def comparable(row):
    """A row in which nothing stands before everything."""
    return [(value is not None, value) for value in row]
