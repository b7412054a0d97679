// Sessions, files and examples: begun, saved, loaded and added by the user.
import { button, byId, made } from "./elements.js";
import { script } from "./line.js";
import { bytesOf, download, question } from "./panels.js";
import { client, scenery, transcript } from "./parts.js";
import { during } from "./talk.js";
import { forget, run } from "./view.js";

const SESSION_FILE = "domino-session";
// examples that an empty page offers
const FEATURED = ["watch", "first", "data", "files, first"];

let examples = [];

// whether the present session may be forgotten, as the user says
async function mayForget(why) {
  if (scenery.isEmpty) return true;
  const [keep, go] = ["Save it to a file first", "Forget it"];
  const now = `The present one is forgotten: its clock stands at tick ${scenery.clock}, and it has ${scenery.count} objects.`;
  const answer = await question(`${why} ${now}`, [keep, go, "Cancel"]);
  if (answer === keep) await save();
  return answer === keep || answer === go;
}

function forgetAll() {
  run(false);
  script.leave();
  transcript.clear();
  forget();
}

/// Begins an empty session without a question.
export async function beginEmpty() {
  forgetAll();
  await during(client.ask("begin"));
}

async function beginNew() {
  byId("session").hidePopover();
  if (!(await mayForget("A new session begins empty."))) return;
  await beginEmpty();
  welcome();
  byId("line").focus();
}

async function save() {
  download(`${SESSION_FILE}-${scenery.clock}`, await client.ask("text"));
}

async function load(name, bytes) {
  for (const id of ["session", "files"]) byId(id).hidePopover();
  if (!(await mayForget(`The session of ${name} is taken up.`))) return;
  const loaded = client.ask("load", bytes).then((state) => {
    forgetAll();
    return state;
  });
  const isLoaded = await during(loaded);
  byId("line").focus();
  transcript.note(isLoaded ? `The session of ${name} was loaded, by the program's own reader.` : "The present session stays.");
}

async function loadChosen({ target }) {
  const [file] = target.files;
  await load(file.name, await bytesOf(file));
  target.value = "";
}

/// What can be done with a file, by the words for it.
export const fileActs = {
  Download: async (name) => download(name, await client.ask("file", name)),
  "Load as a session": async (name) => load(name, await client.ask("file", name)),
  Remove: async (name) => during(client.ask("putFile", name, null)),
};

async function addFiles({ target }) {
  for (const file of target.files) await during(client.ask("putFile", file.name, await bytesOf(file)));
  target.value = "";
}

// ---- examples

export function takeExamples(found) {
  examples = found;
  byId("example-list").replaceChildren(...examples.map((example) => {
    const item = made("li");
    const choice = button(example.name, () => beginExample(example));
    const title = example.title === null ? "" : `${example.title}: `;
    choice.append(made("small", "", `${title}${example.lines.length} lines`));
    item.append(choice);
    return item;
  }));
}

async function beginExample({ name, lines, files, session }) {
  byId("examples").hidePopover();
  if (!(await mayForget(`The example ${name} begins anew.`))) return;
  await beginEmpty();
  const bytes = (text) => new TextEncoder().encode(text);
  for (const [file, text] of Object.entries(files)) await during(client.ask("putFile", file, bytes(text)));
  if (session !== null) await during(client.ask("load", bytes(files[session])));
  byId("welcome")?.remove();
  transcript.note(`The example ${name}. Enter sends the line that waits in the input.`);
  script.begin(name, lines);
  byId("line").focus();
}

/// Offers examples where nothing has been said yet.
export function welcome() {
  if (!transcript.isEmpty || !scenery.isEmpty) return;
  const featured = examples.filter((example) => FEATURED.includes(example.name));
  const item = transcript.note(
    made("p", "", "Type a command, or begin with an example:"),
    ...featured.map((example) => button(example.name, () => beginExample(example))),
  );
  item.id = "welcome";
}

/// What is kept and can't be taken up again is the user's to save or to forget.
export function offerKept(why, ready) {
  const saveKept = async () => download(`${SESSION_FILE}-kept`, await client.ask("kept"));
  const anew = async () => {
    byId("ended").hidden = true;
    await beginEmpty();
    ready();
  };
  byId("ended").hidden = false;
  byId("ended").replaceChildren(
    made("div", "", `What is kept of the session can't be taken up: ${why}.`),
    button("Save what is kept to a file", saveKept),
    button("Begin a new session", anew),
  );
}

export function wireSessions() {
  byId("add-file").onchange = addFiles;
  byId("save-session").onclick = save;
  byId("load-session").onchange = loadChosen;
  byId("new-session").onclick = beginNew;
}
