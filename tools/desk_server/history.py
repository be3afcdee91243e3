"""What the desk knows from its own log: recent entries, the claims that it made, the lists and runs, the
rates that it added.

The office has no route for these. What other desks and the firms did isn't here.

The numbers of claims, lists and runs rise, and so do the months of the rates. Where the office gives one that
isn't above the last one here, its store went back to a backup: what is known from that one on is no more.
"""

from collections import deque
from typing import Any

from .rates import RateRow

MOST_ENTRIES = 500
ACCEPTED = ("done", "repeated")
# The rule by which a claim that isn't open any more is neither released nor withdrawn.
CLAIM_NOT_OPEN = 27


def drop_from(known: dict[Any, Any], first: Any) -> None:
    """Drops what is known from this one on, which stands last."""
    while known and next(reversed(known)) >= first:
        known.popitem()


class History:
    def __init__(self) -> None:
        self.entries: deque[dict[str, Any]] = deque(maxlen=MOST_ENTRIES)
        self.claims: dict[int, dict[str, Any]] = {}
        # The lists and runs by their numbers, and the rates by their first months.
        self.documents: dict[str, dict[int, None]] = {"payouts": {}, "reminders": {}}
        self.rates: dict[str, RateRow] = {}

    def add(self, entry: dict[str, Any]) -> None:
        self.entries.append(entry)
        if entry.get("outcome") in ACCEPTED:
            learn = getattr(self, f"learn_{entry['kind']}", None)
            if learn is not None:
                learn(entry["values"], entry["reply"])
        elif entry.get("outcome") == "refused" and entry["reply"].get("rule") == CLAIM_NOT_OPEN:
            self.learn_over(entry["values"])

    def learn_over(self, values: dict[str, Any]) -> None:
        """What became of the claim isn't known: its firm has withdrawn it, or another desk did something with it."""
        if self.claims.get(values["claim"], {}).get("state") == "open":
            self.claims[values["claim"]]["state"] = "over"

    def learn_rates(self, values: dict[str, Any], _reply: dict[str, Any]) -> None:
        drop_from(self.rates, values["from"])
        self.rates[values["from"]] = RateRow(values["from"], values["contribution"])

    def learn_claim(self, values: dict[str, Any], reply: dict[str, Any]) -> None:
        drop_from(self.claims, reply["claim"])
        self.claims[reply["claim"]] = {"claim": reply["claim"], "state": "open", "reply": None, **values}

    def learn_withdraw(self, values: dict[str, Any], _reply: dict[str, Any]) -> None:
        if values["claim"] in self.claims:
            self.claims[values["claim"]]["state"] = "withdrawn"

    def learn_release(self, values: dict[str, Any], reply: dict[str, Any]) -> None:
        if values["claim"] in self.claims:
            self.claims[values["claim"]].update(state="released", reply=reply)

    def learn_payouts(self, _values: dict[str, Any], reply: dict[str, Any]) -> None:
        self.learn_document("payouts", reply["list"])

    def learn_reminders(self, _values: dict[str, Any], reply: dict[str, Any]) -> None:
        self.learn_document("reminders", reply["run"])

    def learn_document(self, kind: str, number: int) -> None:
        drop_from(self.documents[kind], number)
        self.documents[kind][number] = None

    def claims_of(self, employer: int) -> list[dict[str, Any]]:
        return [claim for claim in list(self.claims.values()) if claim["employer"] == employer]
