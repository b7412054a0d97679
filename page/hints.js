// What the page says of refusals, beside the program's own reply.
import { faultIn } from "./faults.js";

const MEANINGS = {
  LineTooLong: "the line has more than 4,096 bytes",
  NotAscii: "the line has a byte that is neither a tab nor one of those from space to ~",
  BadToken: "at some place no token begins",
  BadSyntax: "the tokens are no command, or one that isn't answered yet",
  NumberRange: "a number is out of the range of its place",
  TooLarge: "a size passes its limit",
  UnknownName: "a name isn't known",
  NameTaken: "a name is taken, or is given twice",
  WrongKind: "a value or a name is of a kind that its place doesn't take",
  NotConvex: "the points name no convex region",
  TermRange: "the bound of a term passes 1,000,000,000,000,000",
  SpanRange: "the span passes the limit of its query, or the clock doesn't reach its end",
  ClockEnd: "the clock would pass 1,000,000,000",
  Presence: "the object is present already, or it is absent",
  ClassFull: "the class has had as many names as its capacity",
  StoreFull: "there are as many classes, regions or queries as there may be",
  BindingLimit: "the product of the capacities of the query's classes is too large",
  JournalFull: "the journal has no room for the command",
  NoFile: "there is no file of that name",
  BadFile: "the file isn't of the form, or one of its rows would be refused",
};

let table = null;

/// Takes the table of faults.js.
export function takeFaults(found) {
  table = found;
}

/// What is known of why a line was refused: `{ words, at, length }`, with the place where the grammar tells it.
export function explain(line, refusal) {
  const fault = faultIn(line, table);
  return fault?.number === refusal.number ? fault : { words: MEANINGS[refusal.name], at: null };
}
