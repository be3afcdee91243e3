// The forms of commands: a second click where nothing can be taken back, and faults beside their fields.

import { clearAnswer, confirmed, noteAnswer, outcomeText, subject, tellAnswer, toldLines, written } from "./answers.js";
import { fieldsOf, get, sendForm } from "./api.js";
import { button, byId, make } from "./elements.js";
import { firmName, time } from "./formats.js";
import { isTyping } from "./typing.js";
import { currentLanguage, say } from "./words.js";

// The most digits of a number that is asked for; nine of any other.
const MOST_DIGITS = { employer: 8 };
// Forms that name a firm which should be there: its name is shown before the second click.
const OF_A_FIRM = ["assign", "end"];
// In the place of the number of a request of which the desk's answer was lost.
const UNANSWERED = "unanswered";
// So many entries of the log are told before such a form is sent again.
const MOST_TOLD = 5;

/** Takes away what an earlier try told beside the fields. */
export function clearFields(form) {
  for (const field of form.querySelectorAll("[aria-invalid]")) {
    field.removeAttribute("aria-invalid");
  }
  for (const told of form.querySelectorAll(".field-fault")) {
    told.remove();
  }
}

/** Tells what is wrong beside the field that is wrong, and goes there, unless the clerk is typing elsewhere by now.
 * Whether there is such a field. */
export function tellField(form, told) {
  const field = told.fault === "field" ? form.elements.namedItem(told.carried.field) : null;
  if (!field || field.type === "hidden") {
    return false;
  }
  const id = `${field.id}-fault`;
  field.setAttribute("aria-invalid", "true");
  field.setAttribute("aria-errormessage", id);
  const text = `✕ ${say(`field.${told.carried.reason}`)}`;
  field.parentElement.append(make("span", { id, class: "field-fault", role: "alert" }, text));
  if (!isTyping()) {
    field.focus();
  }
  return true;
}

/** The number and the name of a firm; null where it isn't there, which is told. */
async function firmFact(employer, tell) {
  const told = await get(`/api/firms/${employer}`);
  if (!told.statement) {
    tell(told);
    return null;
  }
  return ["label.firm", `${employer} ${firmName(told.statement.name)}`];
}

/** The values of a command as the desk has read them, with the name of a firm that should be there; or
 * null. */
async function factsOf(kind, values, tell) {
  const told = Object.entries(written(kind, values));
  const facts = told.map(([name, value]) => [`label.${name}`, String(value)]);
  if (!OF_A_FIRM.includes(kind)) {
    return facts;
  }
  const firm = await firmFact(values.employer, tell);
  return firm && [firm, ...facts.filter(([word]) => word !== "label.employer")];
}

/** The values of a command. Of a claim of which the desk doesn't know more, with what its row has. */
function withRow(values, claimRow) {
  const { unknown, ...known } = values;
  return unknown && claimRow ? { ...known, ...claimRow } : values;
}

/** Sends a command. Where it is for good, the desk first says what it has read, and wants a second click,
 * beside which these further facts stand, if the command is still wanted then; `begin` is called when that
 * click was given. What became of it; null where nothing was sent, and `tell` has told why. */
async function sendCommand(kind, fields, tell, asks = {}) {
  const { further = [], isWanted = () => true, begin = () => {}, claimRow = null } = asks;
  const path = `/api/commands/${kind}`;
  clearAnswer();
  let told = await sendForm(path, kind, fields);
  if (told.fault === "unconfirmed") {
    const facts = await factsOf(kind, withRow(told.carried.values, claimRow), tell);
    if (facts === null || !isWanted() || !await confirmed(kind, [...facts, ...further])) {
      return null;
    }
    begin(told.carried.values);
    told = await sendForm(path, kind, fields, true);
  }
  if (!told.entry) {
    tell(told);
    return null;
  }
  return told;
}

/** Has a form know the request as which it was sent. */
export function markSent(form, told) {
  if (told.entry || told.fault === UNANSWERED) {
    form.dataset.number = String(told.entry?.number ?? UNANSWERED);
  }
}

/** Has a form know that it is settled what became of the request as which it was sent. */
export function forgetSent(form) {
  delete form.dataset.number;
}

/** Whether a form was sent as the request of this number. */
export const wasSentAs = (form, number) => [String(number), UNANSWERED].includes(form.dataset.number);

/** What stands in the fields of a form. */
const typed = (form) => String(new URLSearchParams(new FormData(form)));

/** Whether a form of which the last answer was lost is to be sent all the same. The log's last entries of its
 * kind are told: it may be one of them. */
async function isMeantAgain(kind, tell) {
  const told = await get("/api/log");
  if (!told.log) {
    tell(told);
    return false;
  }
  const last = told.log.filter((it) => it.kind === kind).slice(-MOST_TOLD).toReversed();
  const lines = last.map((it) => `${time(it.time)} ${outcomeText(it)} · ${subject(it)}`);
  return confirmed("again", [["label.last-entries", lines.join("\n") || say("dash")]]);
}

/** Tells of a form what isn't told beside its fields. */
function teller(form) {
  const dialog = form.closest("dialog");
  return (told) => {
    markSent(form, told);
    if (tellField(form, told)) {
      return;
    }
    if (dialog?.open) {
      // An open dialog hides the page, so it is told there.
      form.append(make("div", { class: "field-fault", role: "alert" }, ...toldLines(told)));
    } else {
      tellAnswer(told);
    }
  };
}

/** Tells an answer in the dialog of the next line too, which hides the page and whose sending takes it away. */
function copyAnswer(form) {
  if (form.closest("dialog")?.open) {
    const lines = byId("answer").cloneNode(true).childNodes;
    form.append(make("div", { class: "field-fault", role: "alert" }, ...lines));
  }
}

/** Tells a fault of what was sent from a dialog, beside what it is about. */
function tellBefore(form, told, about, sent) {
  if (typed(form) === sent) {
    markSent(form, told);
  }
  tellAnswer(told);
  noteAnswer(about);
  copyAnswer(form);
}

/** Sends a form. What became of it; null where nothing was sent. */
async function submit(form, further) {
  const sent = typed(form);
  const kind = form.dataset.form;
  const tell = teller(form);
  clearFields(form);
  if (form.dataset.number === UNANSWERED && !await isMeantAgain(kind, tell)) {
    return null;
  }
  const dialog = form.closest("dialog");
  // It may be cancelled, or another one typed, before all is there for the second click.
  const isWanted = () => typed(form) === sent && dialog?.open !== false;
  // What is sent can't be cancelled any more, and the dialog is there for the next line.
  let begun = null;
  const begin = (values) => {
    begun = values;
    dialog?.close();
  };
  const tellOne = (it) =>
    (dialog && begun ? tellBefore(form, it, subject({ kind, values: begun }), sent) : tell(it));
  const told = await sendCommand(kind, fieldsOf(form), tellOne, { further, isWanted, begin });
  if (!told) {
    return null;
  }
  const wasDone = tellAnswer(told);
  // The next one may have been typed meanwhile.
  if (typed(form) === sent) {
    markSent(form, told);
    if (wasDone) {
      form.reset();
      dialog?.close();
    }
  }
  if (!wasDone) {
    copyAnswer(form);
  }
  return told;
}

/** Has a form send itself, one at a time, and calls this with what became of it. What it is about may have
 * more facts than its fields. */
export function beginForm(id, done, further = () => []) {
  const form = byId(id);
  let sent = null;
  form.addEventListener("submit", async (event) => {
    event.preventDefault();
    if (sent !== null) {
      // A double click; or the next one, which has to wait.
      if (typed(form) !== sent) {
        clearFields(form);
        teller(form)({ fault: "busy", carried: {} });
      }
      return;
    }
    sent = typed(form);
    const told = await submit(form, further());
    sent = null;
    if (told) {
      done(told);
    }
  });
}

/** The buttons of a claim in a table, none where it isn't open any more; calls this when one of them was
 * answered. Where the row is the office's own, the second click tells it. */
export function claimActions(claim, done, claimRow = null) {
  const fields = {
    language: currentLanguage(), claim: String(claim.claim), employer: String(claim.employer),
  };
  let isBusy = false;
  const act = async (kind) => {
    if (isBusy) {
      return;
    }
    isBusy = true;
    const told = await sendCommand(kind, fields, tellAnswer, { claimRow });
    isBusy = false;
    if (told) {
      tellAnswer(told);
      done();
    }
  };
  const kinds = claim.state === "open" ? ["release", "withdraw"] : [];
  return make("span", { class: "buttons" }, ...kinds.map((kind) =>
    // The second half of a double click may fall on another row, which has come there by the first one.
    button(say(`${kind}.button`), (event) => event.detail < 2 && act(kind), {
      class: kind, "data-claim": String(claim.claim), "aria-label": say(`${kind}.claim`, claim),
    })));
}

/** Has a form that only asks take its number to this function. */
export function beginFinder(id, show) {
  const form = byId(id);
  form.addEventListener("submit", (event) => {
    event.preventDefault();
    clearFields(form);
    const field = form.querySelector("input");
    const number = field.value.trim();
    if (/^[1-9][0-9]*$/.test(number) && number.length <= (MOST_DIGITS[field.name] ?? 9)) {
      show(number);
    } else {
      tellField(form, { fault: "field", carried: { field: field.name, reason: field.name } });
    }
  });
}
