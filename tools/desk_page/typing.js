// Whether the clerk is typing by now: what comes late doesn't take the keyboard away then.

const FIELDS = "input:not([type=file]), textarea";
// Whether a field was gone to, or something typed, since the last click on anything else, Enter or second click.
let isBegun = false;

/** Whether the clerk has gone on to type since the last thing was asked for. In a form that is stopped nobody types. */
export function isTyping() {
  const field = document.activeElement;
  return isBegun && field.matches(FIELDS) && !field.closest("[inert]");
}

/** What has the focus now has it by itself, as where a dialog was closed. */
export function endTyping() {
  isBegun = false;
}

export function beginTyping() {
  for (const kind of ["focusin", "input"]) {
    document.addEventListener(kind, ({ target }) => {
      isBegun ||= target.matches(FIELDS);
    });
  }
  // Both before what they lead to.
  document.addEventListener("click", ({ target }) => {
    isBegun &&= target.matches(FIELDS);
  }, true);
  document.addEventListener("keydown", ({ key, target }) => {
    isBegun &&= key !== "Enter" || !target.matches("input");
  }, true);
}
