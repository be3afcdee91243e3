// Writes amounts, days, months and rates as the clerk's language has them. Amounts come as the digits of
// whole cents and are never made into numbers, which hold no more than 2^53.

import { currentLanguage, hasWords, say, withGroups } from "./words.js";

// Blanks, and signs of which nothing is drawn.
const UNSEEN = /^[\p{White_Space}\p{Default_Ignorable_Code_Point}\p{Cc}\u2800]*$/u;

/** 123456 as 1.234,56 € in German, €1,234.56 in English. */
export function euros(cents) {
  const digits = String(cents).padStart(3, "0");
  const whole = digits.slice(0, -2);
  const rest = digits.slice(-2);
  if (currentLanguage() === "de") {
    return `${withGroups(whole)},${rest}\u00a0€`;
  }
  return `€${withGroups(whole)}.${rest}`;
}

/** 1425 as 14,25 % in German, 14.25 % in English. */
export function percent(hundredths) {
  const digits = String(hundredths).padStart(3, "0");
  const point = currentLanguage() === "de" ? "," : ".";
  return `${digits.slice(0, -2)}${point}${digits.slice(-2)}\u00a0%`;
}

// The browser's own formats of dates take long to make, so the names of the months stand among the words.
function monthAndYear(text) {
  const [year, number] = text.split("-");
  return `${say(`month.${number}`)} ${year}`;
}

const isMonth = (text) => /^\d{4}-\d{2}$/.test(text) && hasWords(`month.${text.slice(5)}`);

/** 2024-04-30 as 30.04.2024 in German, 30 Apr 2024 in English; a text that is no day stays as it is. */
export function day(text) {
  const [, its, number] = /^(.{7})-(\d{2})$/.exec(text) ?? [];
  if (!number || !isMonth(its)) {
    return text;
  }
  return currentLanguage() === "de"
    ? `${number}.${its.slice(5)}.${its.slice(0, 4)}`
    : `${number} ${monthAndYear(its)}`;
}

/** 2024-01 as Jan. 2024 in German, Jan 2024 in English; a dash for none. */
export function month(text) {
  if (!text) {
    return say("dash");
  }
  return isMonth(text) ? monthAndYear(text) : text;
}

/** The time of a log entry, in the clock of the desk. */
export function time(text) {
  const parts = /^(\d{4}-\d{2}-\d{2})T(\d{2}:\d{2}:\d{2})/.exec(text);
  return parts ? `${day(parts[1])} ${parts[2]}` : text;
}

/** Today's day in the browser's clock, as 2024-04-30. */
export function today() {
  const now = new Date();
  const parts = [now.getFullYear(), now.getMonth() + 1, now.getDate()];
  return parts.map((it) => String(it).padStart(2, "0")).join("-");
}

/** Whether a text has no sign that can be seen. */
export const isUnseen = (text) => UNSEEN.test(text);

/** The name of a firm, which may have been registered with signs that can't be seen alone. */
export const firmName = (name) => (isUnseen(name) ? say("name.unseen") : name);
