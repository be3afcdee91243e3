// Asks the desk. The key of the office is the desk's: this page never has it.

import { unexpected } from "./days.js";
import { byId } from "./elements.js";
import { currentLanguage, hasWords, say } from "./words.js";

// Of a file: the office takes no more at once.
export const MOST_BYTES = 1_048_576;
// A short document of the office, whether there is such a worker or not: it has the office's day.
const DAY_PATH = "/api/workers/999999999";
// In milliseconds: a busy office isn't waited for twice.
const DAY_WAIT = 3_000;
// What moves the office's ledger day.
const MOVES_DAY = /^\/api\/(?:commands\/|pending\/send-again$)/;

let session = null;
let heard = () => {};
// The time of the state that was heard last.
let heardAt = 0;
// How many requests of this window are under way.
let underWay = 0;

/** What the desk said at the beginning: the tokens of the forms, how it was started, the firms that were
 * opened last. */
export const theSession = () => session;

/** Calls this with the state of the desk whenever one comes: a request without an answer, a failure; and with
 * the entry of the log that came with it. */
export function onState(listener) {
  heard = listener;
}

/** What the desk answers; a fault where it isn't there. */
async function answered(path, options) {
  try {
    const answer = await fetch(path, { cache: "no-store", redirect: "error", ...options });
    return await answer.json();
  } catch {
    return { fault: "no-desk", carried: {} };
  }
}

/** What the desk answers, when its state was heard. */
async function ask(path, options) {
  const told = await answered(path, options);
  // An answer may come behind a later one.
  if (told.state && told.state.at > heardAt) {
    heardAt = told.state.at;
    heard(told.state, told.entry);
  }
  return told;
}

export const get = (path) => ask(path, {});

/** Whether this window has sent something whose answer isn't there yet. */
export const isSending = () => underWay > 0;

/** Hands on an answer, or null where something was asked since: a view shows the last answer that it asked for,
 * in whatever order they come. */
export function lastOnly() {
  let turns = 0;
  return async (asked) => {
    turns += 1;
    const turn = turns;
    const told = await asked;
    return turn === turns ? told : null;
  };
}

/** What became of a request that isn't without an answer any more, by the log. */
export async function askSettled(number) {
  const told = await get("/api/log");
  if (!told.log) {
    return told;
  }
  const entry = told.log.findLast((it) => it.number === number);
  return entry ? { entry } : { fault: "not-in-log", carried: { number } };
}

export async function beginSession() {
  const told = await get("/api/session");
  if (!told.fault) {
    session = told;
  }
  return told;
}

/** Shows that something is being sent, as long as it is; or that what stands beside its second click is asked
 * for. */
async function showSending(asked, word) {
  underWay += 1;
  byId("sending").textContent = say(word);
  byId("sending").hidden = false;
  const told = await asked;
  underWay -= 1;
  byId("sending").hidden = underWay === 0;
  return told;
}

/** Why nothing goes on to the office: the desk isn't there, or the office was started anew for another day. Null
 * where it may, or where the office doesn't soon say its day. The state isn't heard: in it what is being sent has no
 * answer yet, and the command's own answer has one. */
async function dayFault() {
  const askedAt = performance.now();
  const signal = AbortSignal.timeout(DAY_WAIT);
  const told = await answered(DAY_PATH, { signal });
  if (told.fault === "no-desk") {
    return signal.aborted ? null : { ...told, isUnsent: true };
  }
  return told.worker ? unexpected(told.worker.day, askedAt) : null;
}

/** Sends a body to the desk, if it isn't stopped by the office's day. */
async function send(path, options) {
  return (MOVES_DAY.test(path) ? await dayFault() : null) ?? ask(path, options);
}

async function post(path, form, body, fields) {
  const headers = { "Desk-Token": session?.tokens[form] ?? "", ...fields };
  const asked = send(path, { method: "POST", headers, body });
  // Nothing is sent on before the second click.
  const isSent = fields["Desk-Confirmed"] === "yes" || !hasWords(`confirm.${form}.yes`);
  const word = isSent ? "sending" : "loading";
  const told = await (path.startsWith("/api/check/") ? asked : showSending(asked, word));
  if (told.fault === "token") {
    // The desk was started anew: the next try has its new tokens.
    await beginSession();
  }
  // The desk may have sent the command on before it stopped, or the machine slept.
  const isLost = told.fault === "no-desk" && isSent && !told.isUnsent;
  const isUnanswered = isLost && path.startsWith("/api/commands/");
  return isUnanswered ? { ...told, fault: "unanswered" } : told;
}

/** Sends a form of these fields to the desk; confirmed where the clerk has given the second click. */
export function sendForm(path, form, fields, isConfirmed = false) {
  const headers = { "Content-Type": "application/json", "Desk-Confirmed": isConfirmed ? "yes" : "no" };
  return post(path, form, JSON.stringify(fields), headers);
}

/** The fields of a form as they were typed, with the language in which amounts are written. */
export function fieldsOf(form) {
  const fields = { language: currentLanguage() };
  for (const [name, value] of new FormData(form)) {
    if (typeof value === "string") {
      fields[name] = value;
    }
  }
  return fields;
}

/** Sends the bytes of a file of this name; the fault of one that couldn't be read where there are none. */
export async function sendFile(path, form, name, bytes) {
  const headers = {
    "Content-Type": "application/octet-stream",
    "Desk-Confirmed": "yes",
    "Desk-File": encodeURIComponent(name),
  };
  return bytes === null ? { fault: "file-unread", carried: {} } : post(path, form, bytes, headers);
}
