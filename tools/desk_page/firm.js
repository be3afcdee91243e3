// A firm: what it owes, its statement month by month with bars, the office's text beside it, and its forms.

import { clearFaultOf, tellFault } from "./answers.js";
import { get, lastOnly, theSession } from "./api.js";
import { tellDay } from "./days.js";
import { button, byId, make, makeSvg, pairs, row, table } from "./elements.js";
import { beginForm, claimActions, clearFields } from "./forms.js";
import { day, euros, firmName, month } from "./formats.js";
import { beginReport, changeFirm, openReport } from "./report.js";
import { say } from "./words.js";

// What stands empty where the desk doesn't understand the statement.
const READ_PARTS = [
  "firm-member", "firm-owed", "statement-months", "statement-legend", "statement-interest",
];
// So many payments of a month stand in its row; all of them stand in the text.
const MOST_PAYMENTS = 4;
const BAR_WIDTH = 160;
const BAR_HEIGHT = 12;
const last = lastOnly();
let shown = null;
// The firm that the forms are for: they change with a firm that is shown, and not with one that isn't there.
let formsOf = null;
// The firms that are offered now.
let offered = null;

/** The firms that were opened last, for the search and for this view. */
export function showRecent(recent) {
  if (recent === offered) {
    return;
  }
  offered = recent;
  byId("recent-firms").replaceChildren(...recent.map((it) =>
    make("option", { value: it.employer }, firmName(it.name))));
  byId("firm-recent").replaceChildren(...recent.slice(0, 20).map((it) =>
    make("li", {}, make("a", { href: `#/firm/${it.employer}` }, `${it.employer} ${firmName(it.name)}`))));
}

/** A bar as long as the month's contribution: what is paid is full, what is open is an outline. */
function bar(charge, most) {
  // Only a length in the picture: the amounts stand beside it.
  const scale = BAR_WIDTH / Math.max(most, 1);
  const paid = Number(charge.paid) * scale;
  const open = Number(charge.open) * scale;
  const label = say("statement.bar", {
    month: month(charge.month), paid: euros(charge.paid), open: euros(charge.open),
  });
  const part = (kind, x, width) => makeSvg("rect", { class: kind, x, y: 0, width, height: BAR_HEIGHT });
  const viewBox = `0 0 ${BAR_WIDTH} ${BAR_HEIGHT}`;
  return makeSvg("svg", { class: "bar", role: "img", "aria-label": label, viewBox },
    part("bar-paid", 0, paid), part("bar-open", paid, open));
}

/** The reference of a payment; of what a release has set off, its claim. */
function referenceText(reference) {
  const [, claim] = /^set-off (\d+)$/.exec(reference) ?? [];
  return claim ? say("statement.set-off", { claim }) : reference;
}

function paymentLines(payments) {
  const lines = payments.slice(0, MOST_PAYMENTS).map((it) => make("li", {},
    make("span", {}, day(it.day)), " ", make("span", { class: "amount" }, euros(it.cents)), " ",
    make("span", {}, referenceText(it.reference))));
  const count = payments.length - MOST_PAYMENTS;
  if (count > 0) {
    lines.push(make("li", { class: "more" }, say("statement.more", { count })));
  }
  return lines.length ? make("ul", { class: "plain small" }, ...lines) : null;
}

const MONTH_COLUMNS = [
  ["column.month", "month"], ["column.due", "day"], ["column.contribution", "amount"],
  ["column.paid", "amount"], ["column.open", "amount"], ["column.interest", "amount"],
  ["column.bar", "payments"], ["column.action", "action"],
];

function chargeRow(charge, most) {
  const correct = button(say("statement.correct"), () => openReport(charge.month, charge.version), {
    class: "correct", "data-month": charge.month,
    "aria-label": say("statement.correct-month", { month: month(charge.month) }),
  });
  const version = make("span", { class: "under quiet small" }, say("statement.version", charge));
  const payments = make("div", {}, bar(charge, most), paymentLines(charge.payments));
  const open = charge.open === "0" ? euros(charge.open) : make("strong", {}, euros(charge.open));
  const amounts = [euros(charge.contribution), euros(charge.paid), open, euros(charge.interest)];
  return {
    cells: [make("span", {}, month(charge.month), version), day(charge.due), ...amounts, payments, correct],
    attributes: { "data-month": charge.month },
  };
}

function missingRow(text) {
  const report = button(say("statement.report"), () => openReport(text, null), {
    class: "report", "data-month": text,
    "aria-label": say("statement.report-month", { month: month(text) }),
  });
  const dashes = Array(5).fill(say("dash"));
  const missing = make("strong", {}, `! ${say("statement.missing")}`);
  return {
    cells: [month(text), ...dashes, missing, report],
    attributes: { class: "missing", "data-month": text },
  };
}

/** The months with a report and those without one, in their order. */
function monthRows(statement) {
  const most = Math.max(0, ...statement.charges.map((it) => Number(it.contribution)));
  const rows = [
    ...statement.charges.map((it) => [it.month, chargeRow(it, most)]),
    ...statement.missing.map((it) => [it, missingRow(it)]),
  ];
  rows.sort(([one], [other]) => (one < other ? -1 : 1));
  return rows.map(([, made]) => made);
}

function legend() {
  const sign = (kind) => makeSvg("svg", { class: "sign", viewBox: "0 0 12 12", "aria-hidden": "true" },
    makeSvg("rect", { class: kind, x: "0", y: "0", width: "12", height: "12" }));
  return [make("span", {}, sign("bar-paid"), ` ${say("statement.legend.paid")}`),
    make("span", {}, sign("bar-open"), ` ${say("statement.legend.open")}`),
    make("span", {}, `! ${say("statement.legend.missing")}`)];
}

function showOwed(statement) {
  const missing = String(statement.missing.length);
  const alert = (count) => ({ class: count === "0" ? "" : "owes" });
  pairs(byId("firm-owed"),
    ["owed.arrears", euros(statement.arrears), { id: "owed-arrears", ...alert(statement.arrears) }],
    ["owed.interest", euros(statement.interest), { id: "owed-interest", ...alert(statement.interest) }],
    ["owed.missing", missing, { id: "owed-missing", ...alert(missing) }],
    ["owed.prepaid", euros(statement.prepaid), { id: "owed-prepaid" }],
    ["owed.open", euros(statement.open), { id: "owed-open" }],
    ["owed.charged", euros(statement.charged), { id: "owed-charged" }],
    ["owed.credited", euros(statement.credited), { id: "owed-credited" }]);
}

function showMonths(statement) {
  const rows = monthRows(statement);
  const caption = say("statement.caption", { employer: statement.employer, day: day(statement.day) });
  byId("statement-months").replaceChildren(rows.length
    ? table("statement-table", caption, MONTH_COLUMNS, rows)
    : make("p", {}, say("statement.none")));
  byId("statement-legend").replaceChildren(...(rows.length ? legend() : []));
  const columns = [["column.day", "day"], ["column.amount", "amount"], ["column.reference", "reference"]];
  const interest = statement.interest_payments.map((it) =>
    row(day(it.day), euros(it.cents), referenceText(it.reference)));
  byId("statement-interest").replaceChildren(interest.length
    ? table("interest-table", say("interest.caption"), columns, interest)
    : "");
}

function claimRow(claim) {
  return row(String(claim.claim), make("a", { href: `#/worker/${claim.worker}` }, String(claim.worker)),
    euros(claim.cents), say(`state.${claim.state}`), claimActions(claim, () => showFirm(shown)));
}

function showClaims(claims) {
  const columns = [["column.claim", "id"], ["column.worker", "id"], ["column.amount", "amount"],
    ["column.state", "word"], ["column.action", "action"]];
  byId("firm-claims").replaceChildren(claims.length
    ? table("firm-claims-table", say("firm-claims.caption"), columns, claims.map(claimRow))
    : make("p", { class: "hint" }, say("firm-claims.none")));
}

function showStatement(told) {
  const { statement } = told;
  tellDay("firm", statement?.day ?? null, "day.as-of");
  byId("firm-text").textContent = told.text;
  byId("firm-text-note").hidden = Boolean(statement);
  byId("firm-title").textContent = statement ? `${shown} · ${firmName(statement.name)}` : shown;
  if (!statement) {
    for (const id of READ_PARTS) {
      byId(id).replaceChildren();
    }
    return;
  }
  const carried = { start: month(statement.start), last: month(statement.last) };
  byId("firm-member").textContent = say(statement.last ? "firm.member-until" : "firm.member", carried);
  showOwed(statement);
  showMonths(statement);
}

/** Asks for the firm of this number. */
export const askFirm = (number) => (number ? get(`/api/firms/${number}`) : null);

/** Shows the firm of this number; without one, those that were opened last. One that is asked for anew where it is open
 * stays there meanwhile, with what is being typed in its forms. */
export async function showFirm(number, asked = askFirm(number), isOpen = true) {
  const answer = last(asked);
  if (!isOpen || number !== shown) {
    byId("firm-shown").hidden = true;
  }
  shown = number;
  byId("firm-choose").hidden = Boolean(number);
  byId("firm-title").textContent = number ? `${say("firm.title")} ${number}` : say("firm.title");
  if (!number) {
    return;
  }
  const told = await answer;
  if (!told) {
    return;
  }
  if (told.text === undefined) {
    byId("firm-shown").hidden = true;
    tellFault(told, "firm");
    return;
  }
  clearFaultOf("firm");
  theSession().recent = told.recent;
  showStatement(told);
  showClaims(told.claims);
  if (formsOf !== number) {
    openForms(number);
  }
  byId("firm-download").href = `/documents/statement-${number}.txt`;
  byId("firm-shown").hidden = false;
}

/** Empties the forms for another firm. */
function openForms(number) {
  formsOf = number;
  for (const kind of ["claim", "withdraw", "end"]) {
    byId(`form-${kind}`).reset();
    clearFields(byId(`form-${kind}`));
    byId(`${kind}-employer`).value = number;
  }
  changeFirm(number);
}

export function beginFirm() {
  const again = () => showFirm(shown);
  beginForm("form-claim", again);
  beginForm("form-withdraw", again);
  beginForm("form-end", again);
  beginReport(again);
  byId("firm-print").addEventListener("click", () => print());
}
