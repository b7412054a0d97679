// The panels beside the session: files, the table of objects, one object, and what is asked of the user.
import { button, byId, made } from "./elements.js";

const MOST_ROWS = 100;

/// Gives the user a file.
export function download(name, content) {
  const link = document.createElement("a");
  link.href = URL.createObjectURL(new Blob([content], { type: "application/octet-stream" }));
  link.download = name;
  link.click();
  setTimeout(() => URL.revokeObjectURL(link.href), 10_000);
}

export async function bytesOf(file) {
  return new Uint8Array(await file.arrayBuffer());
}

/// Asks the user, and gives the answer that was chosen, or "" where none was.
export function question(words, answers) {
  const dialog = byId("question");
  byId("question-text").textContent = words;
  byId("question-buttons").replaceChildren(...answers.map((answer) => {
    const element = made("button", "", answer);
    element.value = answer;
    return element;
  }));
  dialog.returnValue = "";
  dialog.showModal();
  return new Promise((resolve) => dialog.addEventListener("close", () => resolve(dialog.returnValue), { once: true }));
}

let acts = {};
let shownFiles = "";

/// `given` are functions of a file's name by their words, which each file is listed with.
export function wireFiles(given) {
  acts = given;
}

export function showFiles(files) {
  const now = JSON.stringify(files);
  if (now === shownFiles) return;
  shownFiles = now;
  byId("file-list").replaceChildren(...(files.length === 0 ? [made("li", "", "There is none.")] : files.map(fileItem)));
}

function fileItem({ name, size }) {
  const item = made("li");
  item.append(made("code", "", name), made("span", "", `${size.toLocaleString("en")} bytes`));
  for (const [words, act] of Object.entries(acts)) {
    const element = button(words, () => act(name));
    element.setAttribute("aria-label", `${words}: ${name}`);
    item.append(element);
  }
  return item;
}

/// Fills the table of objects, where it is open.
export function fillTable(classes, onChoose) {
  const table = byId("table");
  if (!table.open) return;
  const begin = byId("table-filter").value;
  const rows = [];
  let count = 0;
  for (const { name: className, names, places } of classes) {
    names.forEach((name, at) => {
      if (!name.startsWith(begin)) return;
      if (count++ < MOST_ROWS) rows.push(rowOf(className, name, places, at, onChoose));
    });
  }
  const head = made("tr");
  head.append(...["object", "class", "x", "y", "x a tick", "y a tick"].map((words) => made("th", "", words)));
  table.querySelector("thead").replaceChildren(head);
  table.querySelector("tbody").replaceChildren(...rows);
  byId("table-more").hidden = count <= MOST_ROWS;
  byId("table-more").textContent = `and ${count - MOST_ROWS} more`;
}

function rowOf(className, name, places, at, onChoose) {
  const row = made("tr");
  const cell = made("td");
  cell.append(button(name, () => onChoose(className, name)));
  const numbers = places === null ? ["", "", "", ""] : [places.x[at], places.y[at], places.dx[at], places.dy[at]].map(String);
  row.append(cell, made("td", "", className), ...numbers.map((number) => made("td", "", number)));
  return row;
}

/// Shows the values of an object, or nothing.
export function showObject(name, found, onClose) {
  const panel = byId("object");
  panel.hidden = found === null;
  if (found === null) return;
  const table = made("table");
  found.columns.forEach((column, at) => {
    if (column === "name") return;
    const row = made("tr");
    row.append(made("td", "", column), made("td", "", found.values[at]));
    table.append(row);
  });
  const close = button("×", onClose);
  close.setAttribute("aria-label", "Close");
  const title = made("h3", "", `${name} `);
  title.append(close);
  panel.replaceChildren(title, table);
}
