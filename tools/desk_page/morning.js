// The morning's work: lines in suspense, the bank's file, reminder runs and payout lists. The view asks the
// office one question.

import { clearFault, clearFaultOf, isDone, noteAnswer, tellAnswer, tellFault, whatStops } from "./answers.js";
import { get, lastOnly } from "./api.js";
import { beginBank } from "./bank.js";
import { beginDays, tellDay } from "./days.js";
import { button, byId, goAlong, make, pairs, row, table } from "./elements.js";
import { beginFinder, beginForm, clearFields } from "./forms.js";
import { day, euros, isUnseen, month } from "./formats.js";
import { isTyping } from "./typing.js";
import { say } from "./words.js";

const PAGE = 200;
// The forms that make lists and runs.
const MAKERS = ["payouts", "reminders"];
const last = lastOnly();
const lastDocument = lastOnly();
let first = 0;
// The day on which the office works.
let officeDay = null;
// What became of the request that made a list or run, until the view is opened which shows it.
let made = null;
// What is told of the line that is being assigned, beside its reference.
let lineFacts = [];

function firmLink(employer) {
  return employer ? make("a", { href: `#/firm/${employer}` }, String(employer)) : say("dash");
}

const noteText = ({ note }) => (isUnseen(note) ? say("dash") : note);

function openAssign(line) {
  if (whatStops()) {
    tellAnswer({ fault: whatStops() });
    return;
  }
  clearFields(byId("form-assign"));
  byId("assign-reference").value = line.reference;
  byId("assign-employer").value = line.employer ?? "";
  lineFacts = [["label.value", day(line.day)], ["column.amount", euros(line.cents)],
    ["column.purpose", say(`purpose.${line.purpose}`)], ["column.note", noteText(line)]];
  pairs(byId("assign-facts"), ["label.reference", line.reference], ...lineFacts);
  byId("assign-dialog").showModal();
  byId("assign-employer").focus();
}

const SUSPENSE_COLUMNS = [
  ["column.reference", "reference"], ["column.value", "day"], ["column.purpose", "word"],
  ["column.named", "id"], ["column.amount", "amount"], ["column.note", "note"], ["column.action", "action"],
];

function suspenseRow(line) {
  const name = say("suspense.assign-line", { reference: line.reference, amount: euros(line.cents) });
  const assign = button(say("suspense.assign"), () => openAssign(line), {
    class: "assign", "data-reference": line.reference, "aria-label": name,
  });
  return row(line.reference, day(line.day), say(`purpose.${line.purpose}`), line.employer ?? say("dash"),
    euros(line.cents), noteText(line), assign);
}

function turnTo(place) {
  first = place;
  return showMorning();
}

/** Turns to another page at the wish of the clerk, who reads it from its first line on. */
const turnPage = (place) => goAlong(() => turnTo(place), () => {
  byId("suspense-lines").querySelector(".scroll")?.focus({ preventScroll: true });
  byId("suspense").scrollIntoView({ block: "start" });
});

/** Whether the lines of a page that isn't the first are all gone, as its last one was assigned. */
function isBehind({ suspense }) {
  return Boolean(suspense) && suspense.first > 0 && suspense.first >= suspense.count;
}

function pager({ first: from, lines, count }) {
  if (count <= PAGE) {
    return null;
  }
  const place = { first: from + 1, last: from + lines.length, count };
  const turn = (word, place, id) => button(say(word), () => turnPage(place), { id });
  const earlier = turn("suspense.earlier", Math.max(0, from - PAGE), "suspense-earlier");
  const later = turn("suspense.later", from + PAGE, "suspense-later");
  earlier.disabled = from === 0;
  later.disabled = from + lines.length >= count;
  return make("div", {}, make("p", {}, say("suspense.page", place)),
    make("p", { class: "buttons" }, earlier, later));
}

/** Says on which day the office works; nothing where it doesn't say so. */
function showDay({ suspense }) {
  officeDay = suspense?.day ?? null;
  tellDay("morning", officeDay, "morning.day");
}

function showSuspense(told) {
  byId("suspense-text").textContent = told.text;
  const { suspense } = told;
  if (!suspense) {
    byId("suspense-summary").textContent = say("text.not-understood");
    byId("suspense-lines").replaceChildren();
    byId("suspense-details").open = true;
    return;
  }
  const carried = { count: suspense.count, total: euros(suspense.total) };
  const summary = suspense.count ? "suspense.summary" : "suspense.empty";
  byId("suspense-summary").textContent = say(summary, carried);
  const lines = suspense.lines.length
    ? table("suspense-table", say("suspense.caption"), SUSPENSE_COLUMNS, suspense.lines.map(suspenseRow))
    : "";
  byId("suspense-lines").replaceChildren(lines, pager(suspense) ?? "");
}

function showKnown(kind, word, numbers, show) {
  const list = byId(`${kind}-known`);
  const links = numbers.toReversed().map((number) => button(String(number), () => show(number), {
    class: "link", "data-number": String(number), "aria-label": `${say(word)} ${number}`,
  }));
  list.replaceChildren(...(links.length ? [`${say(`${kind}.known`)}: `, ...links] : []));
}

function payoutTable({ payout }) {
  const caption = say("payouts.caption", { ...payout, day: day(payout.day), total: euros(payout.total) });
  const columns = [["column.claim", "id"], ["column.firm", "id"], ["column.worker", "id"],
    ["column.amount", "amount"]];
  return table("payout-table", caption, columns, payout.claims.map((it) => row(
    String(it.claim), firmLink(it.employer), make("a", { href: `#/worker/${it.worker}` }, String(it.worker)),
    euros(it.cents))));
}

function remindersTable({ reminders }) {
  const caption = say("reminders.caption", { ...reminders, day: day(reminders.day) });
  const columns = [["column.firm", "id"], ["column.level", "number"], ["column.missing", "number"],
    ["column.first-missing", "day"], ["column.arrears", "amount"], ["owed.interest", "amount"]];
  return table("reminders-table", caption, columns, reminders.reminded.map((it) => row(
    firmLink(it.employer), String(it.level), String(it.missing), month(it.first), euros(it.arrears),
    euros(it.interest))));
}

function documentTable(told) {
  if (told.payout) {
    return payoutTable(told);
  }
  return told.reminders ? remindersTable(told) : say("text.not-understood");
}

/** Shows a payout list or a reminder run: its table, and the office's text. Its day, where it is there. */
async function showDocument(kind, number) {
  clearFault();
  const told = await lastDocument(get(`/api/${kind}/${number}`));
  if (!told) {
    return null;
  }
  const place = byId("document");
  if (told.text === undefined) {
    place.hidden = true;
    tellFault(told, "morning");
    return null;
  }
  const href = `/documents/${kind === "payouts" ? "payout" : kind}-${number}.txt`;
  const text = make("pre", { id: "document-text", lang: "en", tabindex: "0" }, told.text);
  place.replaceChildren(
    make("h2", {}, say(`${kind}.title`)), documentTable(told),
    make("details", {}, make("summary", {}, say("text")), text),
    make("p", { class: "buttons" },
      make("a", { id: "document-download", class: "button", href, download: "" }, say("download")),
      button(say("close"), () => {
        place.hidden = true;
        byId(`find-${kind}-number`).focus();
      }, { id: "document-close" })));
  place.hidden = false;
  if (!isTyping()) {
    place.focus();
  }
  return (told.payout ?? told.reminders)?.day ?? null;
}

/** Shows the list or run that was made. One of an earlier day was made before, under the same number. */
async function showMade({ entry }) {
  const its = await showDocument(entry.kind, entry.reply[entry.kind === "payouts" ? "list" : "run"]);
  const isKnown = its !== null && officeDay !== null;
  if (entry.outcome.startsWith("done") && isKnown && its !== officeDay) {
    noteAnswer(say("document.known"));
  }
}

const ask = (place) => get(`/api/suspense/${place}`);

async function showMorning(asked = ask(first)) {
  const told = await last(asked);
  if (!told) {
    return;
  }
  // Where the office doesn't answer, nothing is said of what is in suspense.
  byId("suspense").hidden = told.text === undefined;
  showDay(told);
  if (told.text === undefined) {
    tellFault(told, "morning");
    return;
  }
  clearFaultOf("morning");
  if (isBehind(told)) {
    await turnTo(Math.max(0, told.suspense.first - PAGE));
    return;
  }
  showSuspense(told);
  showKnown("payouts", "label.list", told.lists, (number) => showDocument("payouts", number));
  showKnown("reminders", "label.run", told.runs, (number) => showDocument("reminders", number));
}

export function beginMorning() {
  const again = () => showMorning();
  beginDays();
  beginBank(again);
  beginForm("form-assign", again, () => lineFacts);
  beginForm("form-release", again);
  byId("assign-cancel").addEventListener("click", () => byId("assign-dialog").close());
  for (const kind of MAKERS) {
    beginForm(`form-${kind}`, async (told) => {
      await showMorning();
      if (isDone(told)) {
        await showMade(told);
      }
    });
    beginFinder(`find-${kind}`, (number) => showDocument(kind, number));
  }
}

/** Asks for the first lines in suspense. */
export const askMorning = () => ask(0);

/** Whether a command that was done has made a list or a run. */
export const isMaker = ({ entry }) => MAKERS.includes(entry.kind);

/** Has the view show the list or run that was made, when it is opened next. */
export function keepMade(told) {
  made = told;
}

/** Begins the view anew, where another one was shown before. */
export async function openMorning(_number, asked = askMorning()) {
  const kept = made;
  made = null;
  first = 0;
  byId("document").hidden = true;
  await showMorning(asked);
  if (kept) {
    await showMade(kept);
  }
}
