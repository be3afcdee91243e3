// The log of what was done, refused and repeated at this desk, the last entry first.

import { outcomeText, replyText, subject, tellFault } from "./answers.js";
import { get, lastOnly, theSession } from "./api.js";
import { byId, make, row, table } from "./elements.js";
import { time } from "./formats.js";
import { say } from "./words.js";

const COLUMNS = [
  ["column.time", "time"], ["column.number", "id"], ["column.outcome", "word"], ["column.what", "note"],
  ["column.reply", "note"],
];

const last = lastOnly();

export const askLog = () => get("/api/log");

export async function showLog(_number, asked = askLog()) {
  const told = await last(asked);
  if (!told) {
    return;
  }
  if (!told.log) {
    tellFault(told, "log");
    return;
  }
  byId("log-folder").textContent = say("log.folder", theSession());
  const rows = told.log.toReversed().map((entry) => ({
    ...row(time(entry.time), String(entry.number), outcomeText(entry), subject(entry),
      replyText(entry) || say("dash")),
    attributes: { "data-number": String(entry.number), "data-outcome": entry.outcome },
  }));
  byId("log-lines").replaceChildren(rows.length
    ? table("log-table", say("log.caption"), COLUMNS, rows)
    : make("p", { class: "hint" }, say("log.empty")));
}
