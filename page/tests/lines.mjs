// Times lines in the module once it is warm: node --experimental-wasm-memory64 lines.mjs MODULE BEFORE MEASURED, two files
// of lines. It prints the seconds of the second ones by the processor's own clock.
import { readFileSync } from "node:fs";
import { Host } from "../host.js";

const [file, ...inputs] = process.argv.slice(2);
const times = [];
let input = new Uint8Array();

// all lines before have been answered when more is asked for
function read(room) {
  if (input.length === 0) {
    times.push(process.cpuUsage().user);
    input = inputs.length > 0 ? new Uint8Array(readFileSync(inputs.shift())) : new Uint8Array();
  }
  const found = input.subarray(0, room);
  input = input.subarray(found.length);
  return found;
}

const host = new Host({ read, write: () => {} });
const { instance } = await WebAssembly.instantiate(readFileSync(file), host.imports());
host.memory = instance.exports.memory;
instance.exports.run();
console.log((times[2] - times[1]) / 1e6);
