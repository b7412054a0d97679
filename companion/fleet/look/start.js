// Starts the page in which a session plays.
import { MapView } from "./map.js";
import { Player } from "./play.js";
import { Recording } from "./recording.js";

const recording = new Recording(JSON.parse(document.getElementById("recording").textContent));
/// For scripts: `look.go(80)`, `look.recording.places(80)`, `look.frames`.
globalThis.look = new Player(recording, MapView);
