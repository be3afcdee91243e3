// The office's day in a view, with a warning where that isn't today.

import { byId } from "./elements.js";
import { day, today } from "./formats.js";
import { say } from "./words.js";

// In milliseconds.
const MINUTE = 60_000;
// As long as a double click may take: whoever sends sooner hasn't read what was told.
const READING = 500;
// The day that each view was told last; null where the office didn't tell it.
const days = new Map();
// The day of which the clerk was told last, by whichever view, and the day that was today then: whoever was told of it
// as today's doesn't know after midnight that it isn't any more.
let lastTold = null;
let toldOn = null;
// When such a day was told in the place of sending something.
let toldAt = -Infinity;
let showAnew = () => {};

function keepTold(officeDay) {
  lastTold = officeDay;
  toldOn = today();
}

function warn(view) {
  const warning = byId(`${view}-other-day`);
  warning.textContent = say("day.other", { today: day(today()) });
  warning.hidden = [null, today()].includes(days.get(view));
}

/** Says in a view on which day the office works, by the words under this key; nothing where the day isn't
 * known. */
export function tellDay(view, officeDay, word) {
  days.set(view, officeDay);
  // Of a view that was left meanwhile nobody reads it.
  if (officeDay !== null && !byId(`view-${view}`).hidden) {
    keepTold(officeDay);
  }
  byId(`${view}-day`).textContent = officeDay === null ? "" : say(word, { day: day(officeDay) });
  warn(view);
}

/** Calls this when the office has come to work on another day than what is shown. */
export function onOtherDay(listener) {
  showAnew = listener;
}

/** The fault of an office that works on another day than today, if the clerk wasn't told of that day today and before
 * this was asked for, at a time of the page's: who is told now may go on. Null where there is none. */
export function unexpected(officeDay, askedAt) {
  const isTold = officeDay === lastTold && toldOn === today();
  if (officeDay === today() || (isTold && askedAt - toldAt > READING)) {
    // Another day, that was told before this one, is told anew.
    lastTold = isTold ? officeDay : null;
    return null;
  }
  keepTold(officeDay);
  toldAt = performance.now();
  if (!isTold) {
    showAnew();
  }
  return { fault: "other-day", carried: { day: day(officeDay), today: day(today()) } };
}

/** The page may stand open over night. What is warned of then is told once more before something is sent: nobody may
 * have been there to read it. */
export function beginDays() {
  setInterval(() => [...days.keys()].forEach(warn), MINUTE);
}
