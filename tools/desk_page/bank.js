// The bank's file: dropped or chosen, judged by the office's own program first, then imported.

import { clearAnswer, confirmed, tellAnswer } from "./answers.js";
import { MOST_BYTES, get, sendFile } from "./api.js";
import { beginDrop } from "./drop.js";
import { byId, make } from "./elements.js";
import { markSent } from "./forms.js";
import { euros } from "./formats.js";
import { say } from "./words.js";

const CHECK_MARKS = { good: "✓", faulty: "✕" };
let chosen = null;
// What was told of the file that is chosen; null as long as it is checked.
let checked = null;
// Of which bytes that was told.
let checkedBytes = null;

function showCheck(told) {
  const result = byId("bank-check");
  if (!told.check) {
    result.replaceChildren(make("p", { class: "bad" }, say(`fault.${told.fault}`, told.carried)));
    return;
  }
  const { state, text } = told.check;
  const mark = CHECK_MARKS[state] ?? "!";
  const kind = state === "good" ? "good strong" : "bad strong";
  const lines = [make("p", { class: kind }, `${mark} ${say(`bank.${state}`)}`)];
  if (text) {
    lines.push(make("p", { class: "hint" }, say("bank.told")),
      make("pre", { id: "bank-check-text", lang: "en" }, text));
  }
  if (state === "good") {
    lines.push(make("p", { class: "hint" }, say("bank.unregistered")));
  }
  result.replaceChildren(...lines);
}

/** Shows the file that is chosen and what was told of it, in the language of now. */
export function showBank() {
  if (!chosen) {
    return;
  }
  byId("bank-name").textContent = say("bank.file", { name: chosen.name, bytes: chosen.size });
  if (checked) {
    showCheck(checked);
  } else {
    byId("bank-check").replaceChildren(make("p", { class: "quiet" }, say("bank.checking")));
  }
}

/** The bytes of a file; null where the browser can't read it. */
const bytesOf = (file) => file.arrayBuffer().then((it) => new Uint8Array(it), () => null);

/** These bytes, if the file has them still; else null. The browser itself sees a change by the time of the file alone,
 * which that of another copy may be. */
async function unchanged(file, bytes) {
  const now = await bytesOf(file);
  const isSame = now?.length === bytes.length && now.every((it, place) => it === bytes[place]);
  return isSame ? bytes : null;
}

async function choose(file) {
  chosen = file;
  checked = file.size > MOST_BYTES ? { fault: "file-too-large", carried: {} } : null;
  byId("bank-import").disabled = true;
  byId("bank-hint").hidden = true;
  byId("bank-name").hidden = false;
  showBank();
  if (checked) {
    return;
  }
  const bytes = await bytesOf(file);
  const told = await sendFile("/api/check/bank", "check-bank", file.name, bytes);
  if (chosen === file) {
    checked = told;
    checkedBytes = bytes;
    showBank();
    byId("bank-import").disabled = !told.check || told.check.state === "faulty";
  }
}

/** Empties the form, where its file is imported. */
export function clearBank() {
  chosen = null;
  checkedBytes = null;
  byId("form-bank").reset();
  byId("bank-hint").hidden = false;
  byId("bank-name").hidden = true;
  byId("bank-check").replaceChildren();
  byId("bank-import").disabled = true;
}

async function importFile(done) {
  const file = chosen;
  const bytes = checkedBytes;
  clearAnswer();
  const check = byId("bank-check-text")?.textContent.trim() ?? say("dash");
  const facts = [["label.file", file.name], ["label.check", check]];
  if (!await confirmed("bank", facts)) {
    return;
  }
  byId("bank-import").disabled = true;
  // What was checked is sent, and nothing where it isn't what the file has.
  const told = await sendFile("/api/commands/bank", "bank", file.name, await unchanged(file, bytes));
  const after = told.entry ? await get("/api/suspense/0") : {};
  const further = after.suspense
    ? [say("bank.after", { count: after.suspense.count, total: euros(after.suspense.total) })]
    : [];
  const isOver = tellAnswer(told, further) || told.fault === "file-unread";
  // Another file may have been chosen meanwhile.
  if (chosen === file) {
    markSent(byId("form-bank"), told);
    if (isOver) {
      clearBank();
    } else {
      byId("bank-import").disabled = false;
    }
  }
  done(told);
}

export function beginBank(done) {
  beginDrop("bank-drop", choose);
  byId("form-bank").addEventListener("submit", (event) => {
    event.preventDefault();
    if (chosen) {
      importFile(done);
    }
  });
}
