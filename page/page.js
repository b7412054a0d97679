// The page: opens the session that is kept, and makes the controls work.
import { byId } from "./elements.js";
import { takeFaults } from "./hints.js";
import { remember, wireLine } from "./line.js";
import { wireFiles } from "./panels.js";
import { client, transcript } from "./parts.js";
import { fileActs, offerKept, takeExamples, welcome, wireSessions } from "./sessions.js";
import { enable, show, showEntries, stop } from "./talk.js";
import { wireView, writtenSinceWays } from "./view.js";

function tell(words) {
  byId("notice").hidden = words === null;
  byId("notice").textContent = words ?? "";
}

async function open() {
  try {
    const [opened] = await Promise.all([client.ask("open"), faults]);
    if (opened.lacks) return tell(`This browser lacks ${opened.lacks} in WebAssembly, which the program needs. Chromium has it.`);
    client.hasKept = !opened.notKept;
    tell(opened.notKept ? `What is done here is not kept: ${opened.notKept}.` : null);
    transcript.clear();
    showEntries(opened.entries);
    remember(opened.entries.map((entry) => entry.line));
    writtenSinceWays();
    enable(true);
    show(opened);
    ready();
  } catch (error) {
    if (error.name === "NotLoaded") offerKept(error.message, ready);
    else tell(`The program can't be started: ${error.message}.`);
  }
}

function ready() {
  enable(true);
  welcome();
  byId("line").focus();
  document.body.dataset.isReady = "yes";
}

async function stopNow() {
  stop();
  await open();
  transcript.note("Stopped. A line that has no answer here has changed nothing.");
}

async function told(name) {
  const response = await fetch(`out/${name}`);
  if (!response.ok) throw new Error("there is no program here, which page/build makes");
  return response.json();
}

function tellProgram({ commit, changed, kit, verdict, bytes, packed }) {
  const of = `commit ${commit.slice(0, 10)}${changed ? " with changes" : ""}`;
  const size = `${bytes.toLocaleString("en")} bytes, ${packed.toLocaleString("en")} packed`;
  const proof = verdict === null ? "This build is not of the proved program." : `Its verdict: ${verdict}.`;
  byId("about-program").textContent = `The program of ${of}, by ${kit}: ${size}. ${proof}`;
  if (verdict === null && byId("notice").hidden) tell("This build is not of the proved program: it serves to try the page.");
}

wireView();
wireLine();
wireSessions();
wireFiles(fileActs);
byId("stop").onclick = stopNow;
const faults = told("faults.json").then(takeFaults);
const opened = open();
try {
  const [program, examples] = await Promise.all([told("program.json"), told("examples.json")]);
  takeExamples(examples);
  await opened;
  tellProgram(program);
  welcome();
} catch (error) {
  tell(`The program can't be started: ${error.message}.`);
}
