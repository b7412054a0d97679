// Tells the fault of each line that it is given as JSON, one a line, by the table of a file: node faults.mjs TABLE
import { readFileSync } from "node:fs";
import { faultIn } from "../faults.js";

const table = JSON.parse(readFileSync(process.argv[2], "utf8"));
const lines = JSON.parse(readFileSync(0, "utf8"));
process.stdout.write(JSON.stringify(lines.map((line) => faultIn(line, table))));
