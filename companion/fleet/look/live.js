// Starts the page of a running server: it is told of what changes, and begins anew where it has lost the connection.
import { MapView } from "./map.js";
import { Player } from "./play.js";
import { Recording } from "./recording.js";

const AGAIN = 2_000;
// after so many ticks the page forgets what it no longer has
const FORGET = 1_000;

let recording = null;
let forgotAt = 0;

function begin(data) {
  forgotAt = data.clock;
  if (recording === null) {
    recording = new Recording(data);
    globalThis.look = new Player(recording, MapView);
  } else {
    Object.assign(recording, data);
    globalThis.look.update(true);
  }
}

function goOn(changes) {
  recording.take(changes);
  if (recording.clock - forgotAt > FORGET) {
    forgotAt = recording.clock;
    recording.forget();
  }
  globalThis.look.update();
}

function say(words) {
  document.getElementById("about").textContent = words;
}

function connect() {
  const socket = new WebSocket(`ws://${location.host}/live`);
  socket.onmessage = ({ data }) => {
    const { whole, update, state } = JSON.parse(data);
    if (state) say(state);
    else if (whole) begin(whole);
    else goOn(update);
  };
  socket.onclose = () => {
    say("the connection is lost, and tried again");
    setTimeout(connect, AGAIN);
  };
}

connect();
