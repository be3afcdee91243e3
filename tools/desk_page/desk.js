// The page begins here: its words, its session with the desk, and the view that the address names.

import { beginPending, clearAnswer, clearFault, isDone, isOver, showState, tellAnswer, tellFault } from "./answers.js";
import { askSettled, beginSession, isSending, onState, theSession } from "./api.js";
import { clearBank, showBank } from "./bank.js";
import { onOtherDay } from "./days.js";
import { byId, goAlong, make } from "./elements.js";
import { askFirm, beginFirm, showFirm, showRecent } from "./firm.js";
import { beginFinder, beginForm, clearFields, forgetSent, wasSentAs } from "./forms.js";
import { askLog, showLog } from "./log.js";
import { askMorning, beginMorning, isMaker, keepMade, openMorning } from "./morning.js";
import { clearReport, dropKept, showChecked, showSend } from "./report.js";
import { beginTyping } from "./typing.js";
import { askWorker, beginWorker, showWorker } from "./worker.js";
import { beginWords, say, sayWords } from "./words.js";

// What each view asks of the desk, and how it shows the answer.
const VIEWS = {
  morning: { ask: askMorning, open: openMorning },
  firm: { ask: askFirm, open: showFirm },
  worker: { ask: askWorker, open: showWorker },
  new: { ask: () => null, open: () => {} },
  log: { ask: askLog, open: showLog },
};
// In milliseconds: how soon the desk is asked again about what it has under way.
const SOON = 1_000;
// What the desk said last of its state, and what of it is shown.
let state = {};
let shown = {};
// Whether the log is being asked for a request that was settled elsewhere.
let isLooking = false;
// Whether the desk is being asked again until it has nothing under way.
let isWaiting = false;
// How often a view was shown: one that comes late isn't taken for the one that is shown now.
let turns = 0;
// Whether the answer of a command stays where that leads to another view.
let keepsAnswer = false;

function place() {
  const [, view, number] = /^#\/([a-z]+)(?:\/([1-9][0-9]{0,8}))?$/.exec(location.hash) ?? [];
  const isView = Object.hasOwn(VIEWS, view ?? "");
  return isView ? { view, number: number ?? null } : { view: "morning", number: null };
}

/** Whether there is a session with the desk, which a view needs; begins one where that failed before. */
async function hasSession(view) {
  const told = theSession() ?? await beginSession();
  if (told.fault) {
    tellFault(told, view);
  }
  return !told.fault;
}

/** Asks for the view that the address names. */
function askView() {
  const { view, number } = place();
  return { hash: location.hash, view, number, asked: VIEWS[view].ask(number) };
}

/** Shows the view that the address names. */
async function show({ view, number, asked } = askView()) {
  const turn = ++turns;
  const isOpen = !byId(`view-${view}`).hidden;
  clearFault();
  for (const it of Object.keys(VIEWS)) {
    byId(`view-${it}`).hidden = it !== view;
    if (it === view) {
      byId(`nav-${it}`).setAttribute("aria-current", "page");
    } else {
      byId(`nav-${it}`).removeAttribute("aria-current");
    }
  }
  byId("loading").hidden = false;
  if (await hasSession(view)) {
    await VIEWS[view].open(number, asked, isOpen);
  }
  if (turn !== turns) {
    return;
  }
  showRecent(theSession()?.recent ?? []);
  byId("loading").hidden = true;
  document.title = `${byId(`view-${view}`).querySelector("h1").textContent} · ${say("title")}`;
  document.body.dataset.shown = `${view}${number ? `/${number}` : ""}`;
}

/** Goes to a view. The answer that stands there goes, unless it is what leads there. */
function goTo(hash, isLed = false) {
  if (location.hash === hash) {
    show();
  } else {
    keepsAnswer = isLed;
    location.hash = hash;
  }
}

/** Saves the text that is shown beside a link. The office may say another one by now. */
function save(link) {
  clearAnswer();
  const text = link.closest(".card").querySelector("pre").textContent;
  const href = URL.createObjectURL(new Blob([text], { type: "text/plain;charset=utf-8" }));
  make("a", { href, download: link.href.split("/").at(-1) }).click();
  // The browser has begun to save it by then.
  setTimeout(() => URL.revokeObjectURL(href), 60_000);
}

/** Has the form of a request that is settled know it. One that is done, or that the log doesn't have, is emptied: one
 * more click would do it a second time. What else is typed in a form of its kind stays. */
function settleForm({ kind, number, values }, { entry }) {
  const form = byId(`form-${kind === "correct" ? "report" : kind}`);
  const isEmptied = !entry || isDone({ entry });
  if (isEmptied && form.id === "form-report") {
    dropKept(String(values.employer), number);
  }
  if (!wasSentAs(form, number)) {
    return;
  }
  forgetSent(form);
  if (!isEmptied) {
    return;
  }
  if (kind === "bank") {
    clearBank();
  } else if (form.id === "form-report") {
    clearReport();
  } else {
    form.reset();
  }
}

/** Tells what became of a request that was settled elsewhere, as in another window. Whether the log could be asked. */
async function tellSettled(pending) {
  const told = await askSettled(pending.number);
  if (!told.entry && told.fault !== "not-in-log") {
    return false;
  }
  settleForm(pending, told);
  tellAnswer(told);
  return true;
}

/** Asks the desk for its state until it has nothing under way: what another window has sent, or this one before it was
 * loaded anew. What this window has sent brings the state with its answer. */
async function waitForIt() {
  if (isWaiting) {
    return;
  }
  isWaiting = true;
  let wasGone = false;
  while (shown.pending?.under_way) {
    await new Promise((resolve) => { setTimeout(resolve, SOON); });
    const told = isSending() ? {} : await beginSession();
    if (told.fault) {
      tellFault(told, place().view);
    } else if (wasGone) {
      clearFault();
    }
    wasGone = Boolean(told.fault);
  }
  isWaiting = false;
}

/** Shows what the desk says of its state. Where a request was settled elsewhere, the forms wait until it is
 * known what became of it. */
async function takeState(told, entry) {
  state = told;
  if (isLooking) {
    return;
  }
  const { pending } = shown;
  if (pending && ![state.pending?.number, entry?.number].includes(pending.number)) {
    isLooking = true;
    const isKnown = await tellSettled(pending);
    isLooking = false;
    if (!isKnown) {
      return;
    }
  }
  shown = state;
  showState(shown);
  waitForIt();
}

function beginForms() {
  beginMorning();
  beginFirm();
  beginWorker();
  beginForm("form-register", (told) => {
    // Who went on meanwhile, to another view or the next registration, is left there.
    const isAwaited = place().view === "new" && wasSentAs(byId("form-register"), told.entry.number);
    if (isDone(told) && isAwaited) {
      goTo(`#/firm/${told.entry.values.employer}`, true);
    }
  });
  beginForm("form-rates", () => {});
  beginFinder("find-firm", (number) => goTo(`#/firm/${number}`));
  beginPending((told) => {
    if (isOver(told)) {
      settleForm(told.entry, told);
    }
    if (isDone(told) && isMaker(told)) {
      keepMade(told);
      goTo("#/morning", true);
    } else {
      show();
    }
  });
}

function beginLinks() {
  byId("stopped-again").addEventListener("click", () => goAlong(async () => {
    // Not every view asks the office.
    await askMorning();
    await show();
  }, () => {
    if (byId("stopped").hidden) {
      byId("main").focus({ preventScroll: true });
    }
  }));
  for (const kind of ["dragover", "drop"]) {
    // A file that is dropped beside its place would be opened, and the page with what is typed in it be gone.
    document.addEventListener(kind, (event) => event.preventDefault());
  }
  byId("main").addEventListener("click", (event) => {
    const link = event.target.closest("a[download]");
    if (link) {
      event.preventDefault();
      save(link);
    }
  });
  byId("nav").addEventListener("click", (event) => {
    // The browser goes nowhere where the view is open already: it is asked for anew.
    if (event.target.closest("a")?.hash === location.hash) {
      clearAnswer();
      show();
    }
  });
  byId("skip").addEventListener("click", (event) => {
    event.preventDefault();
    byId("main").focus();
  });
}

function begin() {
  onState(takeState);
  takeState(state);
  onOtherDay(() => show());
  beginTyping();
  beginForms();
  beginLinks();
  addEventListener("hashchange", () => {
    for (const dialog of document.querySelectorAll("dialog[open]")) {
      dialog.close();
    }
    if (!keepsAnswer) {
      clearAnswer();
      byId("main").focus({ preventScroll: true });
    }
    keepsAnswer = false;
    show();
  });
}

onState((told) => {
  state = told;
});
// What the page needs is asked for side by side.
const first = askView();
await Promise.all([beginSession(), beginWords()]);
// Nothing stands there without its words, so that it is laid out and drawn once.
document.body.prepend(byId("page").content);
sayWords(() => {
  for (const form of document.forms) {
    clearFields(form);
  }
  showBank();
  showChecked();
  showSend();
  showState(shown);
  clearAnswer();
  show();
}, () => tellAnswer({ fault: "no-desk", carried: {} }));
begin();
await show(first.hash === location.hash ? first : askView());
