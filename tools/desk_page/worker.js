// A worker: what was earned with each firm, the claims, the balance; open claims are released or withdrawn
// from here.

import { clearFaultOf, tellFault } from "./answers.js";
import { get, lastOnly } from "./api.js";
import { tellDay } from "./days.js";
import { byId, make, pairs, row, table } from "./elements.js";
import { beginFinder, claimActions } from "./forms.js";
import { euros, month } from "./formats.js";
import { isTyping } from "./typing.js";
import { say } from "./words.js";

// What stands empty where the desk doesn't understand the document.
const READ_PARTS = ["worker-figures", "worker-claims", "worker-earned"];
const last = lastOnly();
let shown = null;

function claimRow(claim, worker) {
  const { employer, cents } = claim;
  return row(String(claim.claim), make("a", { href: `#/firm/${employer}` }, String(employer)),
    say(`state.${claim.state}`), euros(cents),
    claimActions(claim, () => showWorker(shown), { employer, worker, cents }));
}

/** The sum of amounts, which come as digits: exact, whatever it comes to. */
function sum(lines) {
  return String(lines.reduce((so, it) => so + BigInt(it.cents), 0n));
}

function showTables(worker) {
  const claimColumns = [["column.claim", "id"], ["column.firm", "id"], ["column.state", "word"],
    ["column.amount", "amount"], ["column.action", "action"]];
  byId("worker-claims").replaceChildren(worker.claims.length
    ? table("worker-claims-table", say("worker.claims-caption"), claimColumns,
      worker.claims.map((it) => claimRow(it, worker.worker)))
    : make("p", { class: "hint" }, say("worker.no-claims")));
  const earnedColumns = [["column.firm", "id"], ["column.month", "month"], ["column.earned", "amount"]];
  const earned = worker.earned.map((it) => row(
    make("a", { href: `#/firm/${it.employer}` }, String(it.employer)), month(it.month), euros(it.cents)));
  byId("worker-earned").replaceChildren(earned.length
    ? table("worker-earned-table", say("worker.earned-caption"), earnedColumns, earned)
    : make("p", { class: "hint" }, say("worker.no-earned")));
}

/** Asks for the worker of this number. */
export const askWorker = (number) => (number ? get(`/api/workers/${number}`) : null);

/** Shows the worker of this number; without one, the form that asks for it. */
export async function showWorker(number, asked = askWorker(number)) {
  const answer = last(asked);
  shown = number;
  byId("worker-shown").hidden = true;
  byId("worker-title").textContent = number ? say("worker.heading", { worker: number }) : say("worker.title");
  if (!number) {
    return;
  }
  if (!isTyping()) {
    byId("find-worker-number").value = number;
  }
  const told = await answer;
  if (!told) {
    return;
  }
  if (told.text === undefined) {
    tellFault(told, "worker");
    return;
  }
  clearFaultOf("worker");
  const { worker } = told;
  byId("worker-text").textContent = told.text;
  byId("worker-download").href = `/documents/worker-${number}.txt`;
  tellDay("worker", worker?.day ?? null, "day.as-of");
  if (worker) {
    pairs(byId("worker-figures"), ["worker.balance", euros(worker.balance), { id: "worker-balance" }],
      ["worker.earned", euros(sum(worker.earned)), { id: "worker-earned-sum" }],
      ["worker.claimed", euros(sum(worker.claims)), { id: "worker-claimed" }]);
    showTables(worker);
  } else {
    byId("worker-day").textContent = say("text.not-understood");
    for (const id of READ_PARTS) {
      byId(id).replaceChildren();
    }
  }
  byId("worker-shown").hidden = false;
}

export function beginWorker() {
  beginFinder("find-worker", (number) => {
    if (location.hash === `#/worker/${number}`) {
      showWorker(number);
    } else {
      location.hash = `#/worker/${number}`;
    }
  });
}
