// Starts the page in which a session plays on a base map.
import { Player } from "./play.js";
import { Recording } from "./recording.js";
import { tileMapOf } from "./tiles.js";

const recording = new Recording(JSON.parse(document.getElementById("recording").textContent));
/// For scripts, as in start.js.
globalThis.look = new Player(recording, tileMapOf(recording.base));
