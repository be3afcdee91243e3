// A report of a month, or its correction: lines from a CSV file, their sum, and the charge to be expected.

import { clearAnswer, isDone, tellAnswer } from "./answers.js";
import { MOST_BYTES, fieldsOf, sendForm, theSession } from "./api.js";
import { beginDrop } from "./drop.js";
import { byId, make, row, table } from "./elements.js";
import { clearFields, forgetSent, markSent, tellField, wasSentAs } from "./forms.js";
import { euros, month, percent } from "./formats.js";
import { say } from "./words.js";

// What was told of the lines that were checked last.
let checked = null;
// How often what was checked was forgotten: a check or an answer that comes late isn't taken for the lines that
// stand there now.
let turns = 0;
// The file that is being read.
let chosen = null;
// The month that the version belongs to, with the version; null where it was typed and no month stood there yet.
let corrected = null;
// What was typed for other firms than the one that is open, by their numbers: the fields, and as which request they
// were sent, as a form knows it.
const kept = new Map();
const FIELDS = ["employer", "month", "version", "csv"];

/** Whether these fields are those that were sent. */
const areSame = (fields, sent) => FIELDS.every((it) => fields?.[it] === sent[it]);

/** The month that stands there as the office writes it, however it is typed; empty where it is none. */
function typedMonth() {
  const text = byId("report-month").value.trim();
  const [, year, its] = /^([0-9]{4})-([0-9]{1,2})$/.exec(text) ?? [];
  const [, first, end] = /^(.*?)[/.\s]+([0-9]{4})$/.exec(text) ?? [];
  const number = Number(its ?? theSession().months[first?.toLowerCase()] ?? first);
  return number >= 1 && number <= 12 ? `${year ?? end}-${String(number).padStart(2, "0")}` : "";
}

/** The month that stands there, unless more of it may be to come: 2024-1 may become 2024-12. */
const wholeMonth = () => (byId("report-month").value.trim().endsWith("-1") ? "" : typedMonth());

/** Keeps which month's version stands there. */
function keepVersion(month = wholeMonth()) {
  const version = byId("report-version").value;
  corrected = version && month ? { month, version } : null;
}

function forget() {
  turns += 1;
  checked = null;
  byId("report-check-result").replaceChildren();
  byId("report-send").disabled = true;
}

/** Says what the button sends: a report, or a correction. */
export function showSend() {
  const isCorrection = byId("report-version").value.trim() !== "";
  byId("report-send").textContent = say(isCorrection ? "report.send-correction" : "report.send");
}

/** Fills in what isn't checked yet. */
function fill({ month, version, csv }) {
  forget();
  clearFields(byId("form-report"));
  byId("report-month").value = month;
  byId("report-version").value = version;
  byId("report-csv").value = csv;
  keepVersion();
  showSend();
}

/** Takes a month and the version that stands, from the statement. Lines of another month don't stay. */
export function openReport(month, version) {
  const before = typedMonth();
  if (before !== "" && before !== month) {
    clearReport();
  }
  fill({ month, version: version ?? "", csv: byId("report-csv").value });
  byId("report-file").focus();
  byId("report-title").scrollIntoView({ block: "start" });
}

/** Empties the form, where what stood there is done. */
export function clearReport() {
  chosen = null;
  fill({ month: "", version: "", csv: "" });
}

/** Turns to another firm. Lines that weren't sent stay with theirs, and are there again with it. */
export function changeFirm(employer) {
  const form = byId("form-report");
  const before = fieldsOf(form);
  if (before.csv.trim() !== "") {
    kept.set(before.employer, { ...before, dataset: { ...form.dataset } });
  }
  form.reset();
  forgetSent(form);
  byId("report-employer").value = employer;
  clearReport();
  if (kept.has(employer)) {
    const its = kept.get(employer);
    kept.delete(employer);
    Object.assign(form.dataset, its.dataset);
    fill(its);
  }
}

/** Drops what is kept of a firm, where it was sent as the request of this number. */
export function dropKept(employer, number) {
  if (kept.has(employer) && wasSentAs(kept.get(employer), number)) {
    kept.delete(employer);
  }
}

function expectedText(told) {
  if (told.expected) {
    const { cents, rate, from } = told.expected;
    return say("report.expected", { amount: euros(cents), rate: percent(rate), from: month(from) });
  }
  return say(told.rates_known ? "report.expected-none" : "report.expected-unknown");
}

function showLines(told) {
  const carried = { month: month(told.month), lines: told.lines, gross: euros(told.gross) };
  const columns = [["column.worker", "id"], ["column.gross", "amount"]];
  const lines = told.wages.map((it) => row(String(it.worker), euros(it.cents)));
  const isCorrection = byId("report-version").value.trim() !== "";
  byId("report-check-result").replaceChildren(
    make("p", { id: "report-summary", class: "strong" }, say("report.summary", carried)),
    make("p", { id: "report-expected", class: "strong" }, expectedText(told)),
    isCorrection ? make("p", { class: "note" }, say("report.all-lines")) : "",
    lines.length ? table("report-lines", say("report.caption"), columns, lines) : "");
}

function showFaults(told) {
  const lines = told.faults.map((it) =>
    make("li", {}, say("csv.line", { line: it.line, fault: say(`csv.${it.reason}`, { word: it.word }) })));
  byId("report-check-result").replaceChildren(
    make("p", { class: "bad strong" }, `✕ ${say("report.faults")}`),
    make("ul", { id: "report-faults" }, ...lines));
}

/** Shows what was told of the lines, in the language of now. */
export function showChecked() {
  if (checked) {
    (checked.faults.length ? showFaults : showLines)(checked);
  }
}

async function check() {
  const form = byId("form-report");
  forget();
  const turn = turns;
  clearFields(form);
  const told = await sendForm("/api/check/report", "check-report", fieldsOf(form));
  if (turn !== turns) {
    return;
  }
  if (told.fault) {
    if (!tellField(form, told)) {
      tellAnswer(told);
    }
    return;
  }
  checked = told;
  if (byId("report-version").value) {
    // Nothing more of the month is to come.
    keepVersion(told.month);
  }
  showChecked();
  byId("report-send").disabled = told.faults.length > 0;
}

/** What the answer says against what was expected of the lines that were sent. */
function compare({ reply }, awaited) {
  if (!awaited || reply.charge === undefined || String(reply.charge) === awaited.cents) {
    return [];
  }
  return [say("report.differs", { amount: euros(awaited.cents) })];
}

/** Marks what was sent, in the form or where it is kept, and empties that where it is done. Other lines stay. */
function settle(sent, told) {
  const form = byId("form-report");
  const its = kept.get(sent.employer);
  if (areSame(fieldsOf(form), sent)) {
    markSent(form, told);
    if (isDone(told)) {
      clearReport();
    }
  } else if (areSame(its, sent)) {
    markSent(its, told);
    if (isDone(told)) {
      kept.delete(sent.employer);
    }
  }
}

async function send(done) {
  const form = byId("form-report");
  const kind = byId("report-version").value.trim() === "" ? "report" : "correct";
  clearFields(form);
  clearAnswer();
  byId("report-send").disabled = true;
  const turn = turns;
  const awaited = checked?.expected;
  const sent = fieldsOf(form);
  const told = await sendForm(`/api/commands/${kind}`, kind, sent);
  if (turn === turns) {
    byId("report-send").disabled = false;
  }
  if (tellField(form, told)) {
    return;
  }
  tellAnswer(told, told.entry ? compare(told.entry, awaited) : []);
  settle(sent, told);
  if (told.entry) {
    done(told);
  }
}

async function read(file) {
  chosen = file;
  forget();
  if (file.size > MOST_BYTES) {
    tellAnswer({ fault: "report-too-large", carried: {} });
    return;
  }
  const text = await file.text().catch(() => null);
  // Another file may have been chosen meanwhile, or another firm opened.
  if (chosen !== file) {
    return;
  }
  if (text === null) {
    tellAnswer({ fault: "file-unread", carried: {} });
    return;
  }
  byId("report-csv").value = text;
  check();
}

/** Checks the lines where that wasn't done yet. Enter in a field never sends them: they are looked at first. */
function checkByEnter(event) {
  if (event.key !== "Enter") {
    return;
  }
  event.preventDefault();
  if (!event.repeat && byId("report-send").disabled) {
    check();
  }
}

/** Another month has another version. */
function changeMonth() {
  forget();
  if (corrected) {
    byId("report-version").value = typedMonth() === corrected.month ? corrected.version : "";
  } else {
    keepVersion();
  }
  showSend();
}

export function beginReport(done) {
  const form = byId("form-report");
  byId("report-check").addEventListener("click", check);
  byId("report-version").addEventListener("input", () => { forget(); keepVersion(); showSend(); });
  byId("report-csv").addEventListener("input", forget);
  byId("report-month").addEventListener("input", changeMonth);
  for (const id of ["report-month", "report-version"]) {
    byId(id).addEventListener("keydown", checkByEnter);
  }
  beginDrop("report-drop", read);
  form.addEventListener("submit", (event) => {
    event.preventDefault();
    send(done);
  });
}
