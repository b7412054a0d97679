// The line that is typed: its history, lines that are pasted, and those of an example, which wait in it.
import { byId } from "./elements.js";
import { Script } from "./script.js";
import { send } from "./talk.js";

const MOST_TYPED = 200;

let typed = [];
let place = 0;

export const script = new Script(send, (line) => (byId("line").value = line));

/// Takes lines as those that were typed before.
export function remember(lines) {
  for (const line of lines) if (line.trim() !== "" && typed.at(-1) !== line) typed.push(line);
  typed = typed.slice(-MOST_TYPED);
  place = typed.length;
}

function submit(event) {
  event.preventDefault();
  const line = byId("line").value;
  remember([line]);
  if (script.isWaiting(line)) return script.next();
  byId("line").value = script.waiting ?? "";
  return send([line]);
}

function bringBack(event) {
  const step = { ArrowUp: -1, ArrowDown: 1 }[event.key];
  if (step === undefined) return;
  event.preventDefault();
  place = Math.min(Math.max(place + step, 0), typed.length);
  byId("line").value = typed[place] ?? script.waiting ?? "";
}

// pasted lines are sent, but for one that has not ended
function paste(event) {
  const lines = event.clipboardData.getData("text").split("\n");
  if (lines.length === 1) return;
  event.preventDefault();
  byId("line").value = lines.pop();
  remember(lines);
  send(lines);
}

export function wireLine() {
  byId("entry").onsubmit = submit;
  byId("line").onkeydown = bringBack;
  byId("line").onpaste = paste;
  byId("tick").onclick = () => send([`tick ${byId("ticks").value}`]);
}
