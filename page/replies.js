// What the program writes, read: replies, the list, and the texts of sessions.

const ACCEPTED = /(?:^|\n)ok\n$/;
const REFUSED = /^refused (\d+) (\w+)\n$/;
const FIRST_WORD = /^[ \t]*([A-Za-z_]\w*)/;
// commands that change nothing of what a session goes on from
const ASKING = new Set(["ask", "show", "list", "save", "export", "quit", "nearest", "must", "may", "range"]);
const ROW = /^(?:now|later|past) (.+) :((?: \d+\.\.\d+)+)$/gm;
const LISTED = /^(?:(clock) (\d+)|(class) (\w+) (\d+)\/(\d+)|(region) (\w+) (\d+)|(watch|keep) (\w+) (\d+)\.\.(\d+))$/;
const POINT = /\(([^,]+),([^)]+)\)/g;

export function isAccepted(reply) {
  return ACCEPTED.test(reply);
}

/// The number and the name of a refusal, or null.
export function refusalOf(reply) {
  const found = REFUSED.exec(reply);
  return found && { number: Number(found[1]), name: found[2] };
}

export function firstWord(line) {
  return FIRST_WORD.exec(line)?.[1] ?? "";
}

/// Whether a session must be told this line again to be where it was: it was accepted and isn't a mere question.
export function isKept(line, reply) {
  return isAccepted(reply) && !ASKING.has(firstWord(line));
}

/// By how many ticks an accepted line moves the clock.
export function ticksOf(line) {
  const found = /^[ \t]*tick[ \t]+(\d+)[ \t]*\r?$/.exec(line);
  return found ? Number(found[1]) : 0;
}

/// How many lines were accepted and how many were refused of those that were answered by this text.
export function countReplies(text) {
  const ends = text.match(/^(?:ok|refused .*)$/gm) ?? [];
  const accepted = ends.filter((line) => line === "ok").length;
  return { accepted, refused: ends.length - accepted };
}

/// The rows of an answer: the names of the targets, and their runs of ticks.
export function rowsOf(reply) {
  return Array.from(reply.matchAll(ROW), ([, targets, runs]) => {
    const spans = runs.trim().split(" ").map((span) => span.split("..").map(Number));
    return { targets: targets.split(" "), spans };
  });
}

/// The reply to `list`.
export function listOf(reply) {
  const list = { clock: 0, classes: [], regions: [], queries: [] };
  for (const line of reply.split("\n")) {
    const found = LISTED.exec(line);
    if (found === null) continue;
    if (found[1]) list.clock = Number(found[2]);
    if (found[3]) list.classes.push({ name: found[4], used: Number(found[5]), capacity: Number(found[6]) });
    if (found[7]) list.regions.push({ name: found[8], corners: Number(found[9]) });
    if (found[10]) list.queries.push({ kind: found[10], name: found[11], from: Number(found[12]), to: Number(found[13]) });
  }
  return list;
}

/// The regions of the text of a session, with their corners.
export function regionsOf(session) {
  const regions = [];
  for (const line of session.split("\n")) {
    const found = /^region (\w+) (.*)$/.exec(line);
    if (found === null) continue;
    const points = [...found[2].matchAll(POINT)].map((point) => [Number(point[1]), Number(point[2])]);
    regions.push({ name: found[1], points });
  }
  return regions;
}
