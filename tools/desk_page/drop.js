// The places that take a file.

import { tellAnswer } from "./answers.js";
import { byId } from "./elements.js";

/** Has a place take one file, dropped there or chosen by its input. */
export function beginDrop(id, take) {
  const place = byId(id);
  place.querySelector("input").addEventListener("change", (event) => {
    const [file] = event.target.files;
    // An input that has a file doesn't tell when this file is chosen again, as after it was mended.
    event.target.value = "";
    if (file) {
      take(file);
    }
  });
  for (const kind of ["dragover", "dragleave", "drop"]) {
    place.addEventListener(kind, (event) => {
      event.preventDefault();
      place.classList.toggle("over", kind === "dragover");
    });
  }
  place.addEventListener("drop", (event) => {
    const { files } = event.dataTransfer;
    if (files.length === 1) {
      take(files[0]);
    } else {
      tellAnswer({ fault: "one-file", carried: {} });
    }
  });
}
