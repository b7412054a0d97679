// Runs the module of wide.c: node --experimental-wasm-memory64 wide.mjs MODULE SEED COUNT
import { readFileSync } from "node:fs";

const [file, seed, count] = process.argv.slice(2);
const { instance } = await WebAssembly.instantiate(readFileSync(file), {});
const failed = instance.exports.try_wide(BigInt(seed), BigInt(count));
if (failed !== 0n) {
  console.log(`try ${failed} of seed ${seed} fails`);
  process.exit(1);
}
