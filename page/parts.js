// The parts of the page that several of its files share.
import { Client } from "./client.js";
import { Clock } from "./clock.js";
import { byId } from "./elements.js";
import { Scenery } from "./scenery.js";
import { Transcript } from "./transcript.js";

export const client = new Client();
export const scenery = new Scenery();
export const transcript = new Transcript(byId("transcript"));
export const clock = new Clock();
