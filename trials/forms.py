"""The forms of the lines of replies."""

import re

REFUSALS = (
    "LineTooLong NotAscii BadToken BadSyntax NumberRange TooLarge UnknownName NameTaken WrongKind NotConvex TermRange "
    "SpanRange ClockEnd Presence ClassFull StoreFull BindingLimit JournalFull NoFile BadFile"
).split()
NAME = r"[A-Za-z_][A-Za-z0-9_]{0,31}"
ROW = rf"(?:now|later|past)(?: {NAME}){{1,4}} :(?: \d+\.\.\d+)+"
CHANGE = rf"(?:gain|lose) {NAME}(?: {NAME}){{1,4}} :(?: \d+\.\.\d+)+|(?:enter|leave) {NAME}(?: {NAME}){{1,4}}"
LISTED = rf"clock \d+|class {NAME} \d+/\d+|region {NAME} \d+|(?:watch|keep) {NAME} \d+\.\.\d+"
LAST = "|".join(["ok"] + [f"refused {number} {name}" for number, name in enumerate(REFUSALS, 1)])
IS_LAST = re.compile(f"(?:{LAST})")
IS_LINE = re.compile(f"(?:{ROW}|{CHANGE}|{LISTED})")
SPAN = re.compile(r" (\d+)\.\.(\d+)")


def ascends(line):
    """Whether the runs of a line ascend, with a tick between two."""
    runs = [(int(lo), int(hi)) for lo, hi in SPAN.findall(line)]
    return all(lo <= hi for lo, hi in runs) and all(hi + 1 < lo for (_, hi), (lo, _) in zip(runs, runs[1:]))


def is_silent(line):
    """Whether a line has no reply: it is blank or a comment, not too long, and ASCII."""
    words = line.lstrip(b" \t")
    return len(line) <= 4096 and not words.translate(None, bytes(range(32, 127)) + b"\t") and words[:1] in (b"", b"#")
