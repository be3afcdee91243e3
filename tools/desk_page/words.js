// The words of the page in German or English. All of them stand in words.de.json and words.en.json.

const LANGUAGES = ["de", "en"];
const KEPT = "desk-language";
// What words carry of things that are counted. Another number is a name of something, and has no groups.
const COUNTS = ["bytes", "count", "first", "firms", "items", "last", "lines", "new", "repeats"];
let words = {};
let language = "en";

/** What was chosen at an earlier visit; a browser may keep nothing. */
function keptLanguage() {
  try {
    return localStorage.getItem(KEPT);
  } catch {
    return null;
  }
}

function keepLanguage(wanted) {
  try {
    localStorage.setItem(KEPT, wanted);
  } catch {
    // The choice holds for this visit.
  }
}

function wantedLanguage() {
  const asked = new URLSearchParams(location.search).get("lang");
  if (LANGUAGES.includes(asked)) {
    return asked;
  }
  const own = navigator.language.slice(0, 2);
  return [keptLanguage(), own].find((it) => LANGUAGES.includes(it)) ?? "en";
}

export const currentLanguage = () => language;

/** Digits with what stands between thousands in the language. */
export const withGroups = (digits) => digits.replace(/\B(?=(\d{3})+$)/g, language === "de" ? "." : ",");

function carriedText(name, value) {
  return COUNTS.includes(name) && typeof value === "number" ? withGroups(String(value)) : String(value);
}

/** The words under a key, with what they carry in the place of {names}. A key without words stays. */
export function say(key, carried = {}) {
  const text = words[key] ?? key;
  return text.replace(/\{(\w+)\}/g, (whole, name) => carriedText(name, carried[name] ?? whole));
}

export const hasWords = (key) => key in words;

/** Puts the words into all elements that name their keys. */
function sayAll() {
  document.documentElement.lang = language;
  document.title = say("title");
  for (const element of document.querySelectorAll("[data-word]")) {
    element.textContent = say(element.dataset.word);
  }
  for (const element of document.querySelectorAll("[data-word-label]")) {
    element.setAttribute("aria-label", say(element.dataset.wordLabel));
  }
  for (const it of LANGUAGES) {
    document.getElementById(`language-${it}`).setAttribute("aria-pressed", String(it === language));
  }
}

async function load(wanted) {
  const answer = await fetch(`/words.${wanted}.json`);
  words = await answer.json();
  language = wanted;
}

/** Fetches the words, so that they can be said. */
export const beginWords = () => load(wantedLanguage());

/** Says all words of the page, and calls the one when another language is chosen, the other where its words
 * can't be had. */
export function sayWords(changed, failed) {
  sayAll();
  for (const it of LANGUAGES) {
    document.getElementById(`language-${it}`).addEventListener("click", async () => {
      try {
        await load(it);
      } catch {
        failed();
        return;
      }
      keepLanguage(it);
      sayAll();
      changed();
    });
  }
}
