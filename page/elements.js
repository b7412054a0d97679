// Elements of the document.

export const byId = (id) => document.getElementById(id);

/// Puts words into an element where others stand: the same ones would be laid out anew.
export function say(id, words) {
  if (byId(id).textContent !== words) byId(id).textContent = words;
}

/// An element with a class and a text.
export function made(name, className, words) {
  const element = document.createElement(name);
  if (className) element.className = className;
  if (words !== undefined) element.textContent = words;
  return element;
}

export function button(words, act) {
  const element = made("button", "", words);
  element.type = "button";
  element.onclick = act;
  return element;
}
