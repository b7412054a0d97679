// Runs the module in node, as the native program is run: input, output and status, and the files of the current folder.
//
//     node --experimental-wasm-memory64 page/run.mjs MODULE [WORD ..] <INPUT
import { existsSync, readFileSync, readSync, unlinkSync, writeFileSync, writeSync } from "node:fs";
import { Host } from "./host.js";

const folder = {
  has: (name) => existsSync(name),
  get: (name) => new Uint8Array(readFileSync(name)),
  set: (name, bytes) => writeFileSync(name, bytes),
  delete: (name) => unlinkSync(name),
};

function read(room) {
  const bytes = new Uint8Array(room);
  return bytes.subarray(0, readSync(0, bytes));
}

function write(bytes) {
  for (let at = 0; at < bytes.length; ) at += writeSync(1, bytes, at);
}

const [file, ...words] = process.argv.slice(2);
const host = new Host({ words, files: folder, read, write });
const { instance } = await WebAssembly.instantiate(readFileSync(file), host.imports());
host.memory = instance.exports.memory;
process.exit(instance.exports.run());
