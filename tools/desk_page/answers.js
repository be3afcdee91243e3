// Tells what became of a request: the answer, a refusal with what to do about it, a fault; and what stops
// the forms.

import { askSettled, sendForm } from "./api.js";
import { byId, make, pairs } from "./elements.js";
import { day, euros, firmName, month, percent } from "./formats.js";
import { endTyping, isTyping } from "./typing.js";
import { hasWords, say } from "./words.js";

const MARKS = { done: "✓", repeated: "✓", refused: "✕", "given-up": "–" };
// What stands behind an outcome that the desk can't write into its log.
const UNWRITTEN = "-unwritten";
const BANK_FIELDS = ["", "reference", "value_date", "employer", "cents", "purpose", "note"];
const AMOUNTS = ["cents", "gross", "charge", "paid", "to_contributions", "to_interest", "total"];
const MONTHS = ["month", "start", "last", "from"];
const RATES = ["contribution", "entitlement", "interest"];

/** The values of a command or a reply, written for the clerk. */
export function written(kind, values) {
  const told = { ...values };
  for (const [name, value] of Object.entries(values)) {
    if (AMOUNTS.includes(name)) {
      told[name] = euros(value);
    } else if (MONTHS.includes(name)) {
      told[name] = month(value);
    } else if (name === "name") {
      told[name] = firmName(value);
    } else if (kind === "rates" && RATES.includes(name)) {
      told[name] = percent(value);
    }
  }
  return told;
}

export function subject(entry) {
  const what = say(`subject.${entry.kind}`, written(entry.kind, entry.values));
  return what ? `${say(`kind.${entry.kind}`)}: ${what}` : say(`kind.${entry.kind}`);
}

const isOneOf = (outcomes, { entry }) => outcomes.includes(entry?.outcome.replace(UNWRITTEN, ""));

/** Whether a command was done, now or before. */
export const isDone = (told) => isOneOf(["done", "repeated"], told);

/** Whether it is known what became of a command: it isn't sent again. */
export const isOver = (told) => isOneOf(Object.keys(MARKS), told);

export const outcomeText = (entry) => `${MARKS[entry.outcome] ?? "!"} ${say(`outcome.${entry.outcome}`)}`;

/** What a refusal carries, in words. */
function detailText(rule, detail) {
  if (detail === "") {
    return "";
  }
  if (rule === 18) {
    const key = `limit.${detail}.most`;
    return hasWords(key) ? say("detail.limit", { most: say(key) }) : detail;
  }
  const carried = { detail };
  if (rule === 10) {
    carried.day = day(detail);
  } else if (rule === 25) {
    carried.amount = euros(detail);
  } else if (rule === 28 || rule === 31) {
    carried.month = month(detail);
  } else if (rule === 20) {
    const [record, field] = detail.split(":");
    carried.record = record;
    carried.field = `${field} ${BANK_FIELDS[Number(field)] ?? ""}`.trim();
  }
  return say(hasWords(`detail.${rule}`) ? `detail.${rule}` : "detail.other", carried);
}

/** What the office answered, in a sentence; an empty text where it said no more than that it is done. */
export function replyText(entry) {
  if (entry.reply.rule) {
    const { rule, name, detail } = entry.reply;
    return [`${rule} ${name}`, detailText(rule, detail)].filter(Boolean).join(" · ");
  }
  if (entry.outcome === "lost") {
    return say(`fault.no-answer.${entry.reply.reason}`, entry.reply);
  }
  if (entry.outcome === "given-up") {
    return "";
  }
  const key = `reply.${entry.kind}`;
  return hasWords(key) ? say(key, written(entry.kind, entry.reply)) : "";
}

/** Whether a rule says that the office's records have failed. */
const isFailure = (rule) => rule === 41 || rule === 42;

/** What the clerk does about a refusal of a `command` or a `question`. Where the manual says to look further, that is
 * what stands here, and where this page goes on in another way than it says, its own words. */
function actText({ rule, detail }, asked) {
  if (rule === 18 && hasWords(`limit.${detail}.do`)) {
    return say(`limit.${detail}.do`);
  }
  const own = `refusal.${rule}.${asked}`;
  return isFailure(rule) ? say("stopped.text") : say(hasWords(own) ? own : `refusal.${rule}.do`);
}

/** Number and name of a refusal. Where the records failed, a command may have been done all the same, and for want of
 * memory (rule 40) the office hasn't judged it. */
function ruleText(refusal, asked) {
  if (refusal.rule === 40) {
    return say(asked === "question" ? "answer.unanswered" : "answer.undecided", refusal);
  }
  return say(isFailure(refusal.rule) ? "answer.failure" : "answer.rule", refusal);
}

/** The lines that tell a refusal: number and name, what it means, what it carries, what to do. */
function refusalLines(refusal, asked) {
  const { rule, detail } = refusal;
  const carried = detailText(rule, detail);
  return [
    make("h2", {}, ruleText(refusal, asked)),
    make("p", { class: "means" }, say(`refusal.${rule}.means`)),
    carried ? make("p", { class: "detail strong" }, carried) : null,
    make("p", { class: "do" }, make("strong", {}, say("answer.do")), " ", actText(refusal, asked)),
  ];
}

function faultText(told) {
  const code = told.fault === "no-answer" ? `no-answer.${told.carried.reason}` : told.fault;
  return say(`fault.${code}`, told.carried ?? {});
}

/** What is told where nothing was done: the office's refusal of a question, or the desk's own fault. */
export function toldLines(told) {
  const lines = told.refusal
    ? refusalLines(told.refusal, "question")
    : [make("p", { class: "strong" }, faultText(told))];
  return lines.filter(Boolean);
}

/** Tells why a view can't be shown, if it is still the one that is open. What stops the forms is told on top, and that
 * the office isn't there any more is told beside it. */
export function tellFault(told, view) {
  if (isFailure(told.refusal?.rule) || byId(`view-${view}`).hidden) {
    return;
  }
  byId("fault").replaceChildren(...toldLines(told));
  byId("fault").hidden = false;
}

/** Adds a note to the answer that stands there. */
export function noteAnswer(text) {
  byId("answer").append(make("p", { class: "note strong" }, text));
}

export function clearFault() {
  byId("fault").hidden = true;
}

/** Takes away what was told of a view that has its answer by now, if it is still the one that is open. */
export function clearFaultOf(view) {
  if (!byId(`view-${view}`).hidden) {
    clearFault();
  }
}

export function clearAnswer() {
  byId("answer").hidden = true;
}

function showAnswer(kind, lines) {
  const answer = byId("answer");
  const isAside = isTyping();
  answer.className = `banner ${kind}${isAside ? " aside" : ""}`;
  answer.replaceChildren(...lines.filter(Boolean));
  answer.hidden = false;
  if (isAside) {
    // The answer lies above what is there, and not above the field.
    document.activeElement.scrollIntoView({ block: "nearest" });
  } else {
    answer.focus();
    answer.scrollIntoView({ block: "nearest" });
  }
}

/** Tells what became of a command, and takes the focus there, unless the clerk is typing the next one: it is read out
 * and seen in any case. Whether it was done. */
export function tellAnswer(told, further = []) {
  if (!told.entry) {
    showAnswer("bad", toldLines(told));
    return false;
  }
  const { entry } = told;
  const text = replyText(entry);
  const said = entry.reply.rule
    ? refusalLines(entry.reply, "command")
    : [text ? make("p", { class: "reply strong" }, text) : null];
  const lines = [
    make("p", { class: "what" }, make("strong", {}, outcomeText(entry)), ` · ${subject(entry)}`),
    ...said,
    ...further.map((text) => make("p", { class: "note" }, text)),
    ["lost", "undecided"].includes(entry.outcome) ? make("p", {}, say("answer.pending")) : null,
    make("p", { class: "quiet" }, say("answer.number", { number: entry.number })),
  ];
  showAnswer(isDone(told) && !entry.outcome.endsWith(UNWRITTEN) ? "good" : "bad", lines);
  return isDone(told);
}

let stop = null;

/** The fault that stops the forms now, or null. */
export const whatStops = () => stop;

/** Shows the request that has no answer yet. One that is under way is neither sent again nor dropped. */
function showPending(pending) {
  byId("pending").hidden = !pending;
  if (!pending) {
    return;
  }
  const [title, text] = pending.under_way
    ? ["under-way.title", "under-way.text"]
    : ["pending.title", "pending.text"];
  byId("pending-title").textContent = say(title);
  byId("pending-text").textContent = say(text);
  byId("pending-buttons").hidden = pending.under_way;
  byId("pending-what").textContent = `${say("answer.number", pending)} · ${subject(pending)}`;
  byId("pending").dataset.number = String(pending.number);
  byId("pending").dataset.kind = pending.kind;
}

/** Shows what stops the forms: failed records, or a request that has no answer yet. */
export function showState(state) {
  const { failure, pending } = state;
  stop = null;
  if (failure) {
    stop = "stopped";
  } else if (pending) {
    stop = pending.under_way ? "busy" : "pending";
  }
  byId("stopped").hidden = !failure;
  if (failure) {
    byId("stopped-rule").textContent = ruleText(failure);
  }
  showPending(pending);
  // What stands in a dialog can be left; the desk sends nothing of it.
  for (const form of document.querySelectorAll("main form[data-form], #form-bank, #form-report")) {
    form.toggleAttribute("inert", stop !== null);
    form.classList.toggle("stopped", stop !== null);
  }
  byId("pending-send-again").disabled = false;
}

/** Asks for the second click. Whether it was given. */
function askForIt(kind, facts) {
  const dialog = byId("confirm");
  const title = `confirm.${kind}.title`;
  byId("confirm-title").textContent = say(hasWords(title) ? title : "confirm.title");
  byId("confirm-text").textContent = say(`confirm.${kind}`);
  byId("confirm-yes").textContent = say(`confirm.${kind}.yes`);
  pairs(byId("confirm-facts"), ...facts);
  return new Promise((resolve) => {
    let isGiven = false;
    byId("confirm-yes").onclick = (event) => {
      // The second half of a double click was meant for the button that led here.
      if (event.detail < 2) {
        isGiven = true;
        dialog.close();
      }
    };
    byId("confirm-no").onclick = () => dialog.close();
    // Also by Escape, or by going to another view.
    dialog.onclose = () => {
      endTyping();
      resolve(isGiven);
    };
    dialog.showModal();
    byId("confirm-no").focus();
    // In a low window the focus has gone past what is to be read first.
    dialog.scrollTop = 0;
  });
}

// The last second click that was asked for.
let lastAsked = Promise.resolve();

/** Asks for the second click, and tells what can't be taken back. Whether it was given. One waits for the one
 * before: what is read there is never changed under the hand. */
export function confirmed(kind, facts) {
  lastAsked = lastAsked.then(() => askForIt(kind, facts));
  return lastAsked;
}

/** Sends the request without an answer again, or drops it, and calls this with what became of it. */
export function beginPending(done) {
  const number = () => Number(byId("pending").dataset.number);
  byId("pending-send-again").addEventListener("click", async () => {
    byId("pending-send-again").disabled = true;
    const fields = { number: number() };
    let told = await sendForm("/api/pending/send-again", "send-again", fields);
    if (told.fault === "not-pending") {
      // The first try took long, and was answered meanwhile.
      told = await askSettled(fields.number);
    }
    byId("pending-send-again").disabled = false;
    tellAnswer(told);
    done(told);
  });
  byId("pending-give-up").addEventListener("click", async () => {
    const { kind } = byId("pending").dataset;
    // Another request may stand there by the second click.
    const fields = { number: number() };
    if (await confirmed("give-up", [["label.look", say(`look.${kind}`)]])) {
      const told = await sendForm("/api/pending/give-up", "give-up", fields, true);
      tellAnswer(told);
      done(told);
    }
  });
}
