// What the page tells the program, and what it does with the answers.
import { Stopped } from "./client.js";
import { button, byId, made } from "./elements.js";
import { showFiles } from "./panels.js";
import { client, clock, scenery, transcript } from "./parts.js";
import { firstWord, isAccepted, isKept } from "./replies.js";
import { run, take, writtenSinceWays } from "./view.js";

// milliseconds after which an answer is called slow
const PATIENCE = 800;

let turn = Promise.resolve();
let generation = 0;
let waiting = 0;

/// Sends lines after those that were sent before, and ends once they are answered.
export function send(lines, isByClock = false) {
  const begun = generation;
  count(1);
  const answer = () => begun === generation && during(client.ask("answer", lines, isByClock));
  turn = turn.then(answer).finally(() => count(-1));
  return turn;
}

// how many sendings wait for their answers stands in the document too, where page/check looks for it
function count(more) {
  waiting += more;
  document.body.dataset.waits = waiting;
}

count(0);

/// Shows the state that comes of something that the worker was asked to do, tells where that lasts, and gives whether it
/// could be done.
export async function during(asked) {
  const slow = setTimeout(() => (byId("slow").hidden = false), PATIENCE);
  try {
    show(await asked);
    return true;
  } catch (error) {
    if (!(error instanceof Stopped)) transcript.note(`This could not be done: ${error.message}.`);
    return false;
  } finally {
    clearTimeout(slow);
    byId("slow").hidden = true;
  }
}

/// Stops the program in what it does. What was sent and isn't answered is forgotten.
export function stop() {
  generation++;
  run(false);
  client.restart();
}

/// Adds what was said to the transcript.
export function showEntries(entries) {
  byId("welcome")?.remove();
  transcript.add(entries);
  for (const entry of entries) {
    if (firstWord(entry.line) === "ask" && isAccepted(entry.reply)) scenery.takeAsked(askedOf(entry));
    if (isKept(entry.line, entry.reply) && firstWord(entry.line) !== "tick") writtenSinceWays();
  }
}

// the answer of an `ask`, as of a registered query
function askedOf({ line, reply, clock }) {
  const span = Number(/\d+/.exec(line)[0]);
  return { name: "ask", kind: "asked", from: clock, to: clock + span, answer: reply };
}

/// Shows a state that came from the worker.
export function show({ seen, end, files }) {
  showFiles(files);
  showEnd(end);
  take(seen);
}

let shownEnd = null;

function showEnd(end) {
  if (end?.inWords === shownEnd?.inWords) return;
  shownEnd = end;
  byId("ended").hidden = end === null;
  enable(end === null);
  if (end === null) return;
  run(false);
  const words = `${end.inWords[0].toUpperCase()}${end.inWords.slice(1)}. All that was answered is kept.`;
  const goOn = button("Go on", () => during(client.ask("goOn")).then(() => byId("line").focus()));
  byId("ended").replaceChildren(made("div", "", words), goOn, button("Begin a new session", () => byId("new-session").click()));
  goOn.focus();
}

/// Has the page take lines, or not.
export function enable(isOn) {
  for (const id of ["line", "send", "tick", "run"]) byId(id).disabled = !isOn;
}

clock.onTick = () => send(["tick 1"], true);
client.onEntries = showEntries;
