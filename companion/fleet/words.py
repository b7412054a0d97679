"""The words, the refusals, the statuses and the limits of DOMINO, as its manual tells them."""

QUERY_WORDS: tuple[str, ...] = (
    "RETRIEVE", "FROM", "WHERE", "TRUE", "FALSE", "NOT", "AND", "OR",
    "UNTIL", "UNTIL_WITHIN", "UNTIL_AFTER", "NEXTTIME",
    "EVENTUALLY", "EVENTUALLY_WITHIN", "EVENTUALLY_AFTER", "ALWAYS", "ALWAYS_FOR",
    "INSIDE", "OUTSIDE", "DIST", "WITHIN_SPHERE", "TIME",
)
SUB_ATTRIBUTES: tuple[str, ...] = ("value", "updatetime", "function")
COMMANDS: tuple[str, ...] = (
    "class", "region", "insert", "update", "remove", "tick", "ask", "watch",
    "keep", "show", "drop", "list", "save", "import", "export", "quit",
)
PARTS: tuple[str, ...] = ("point", "num", "text", "dyn", "at", "move", "rate")

RESERVED: frozenset[str] = frozenset(QUERY_WORDS + SUB_ATTRIBUTES + COMMANDS + PARTS)
"""The words that are no names. Case matters."""

LATER_COMMANDS: tuple[str, ...] = ("nearest", "must", "may", "index", "range")
"""Commands of the grammar that may not be answered yet. They are no reserved words: they are names elsewhere."""

KEPT_COMMANDS: frozenset[str] = frozenset(
    ("class", "region", "insert", "update", "remove", "tick", "watch", "keep", "drop")
)
"""The commands that the journal keeps where they are accepted."""

FILE_COMMANDS: frozenset[str] = frozenset(("save", "import", "export"))
"""The commands that name a file."""

REFUSALS: dict[int, str] = {
    1: "LineTooLong",
    2: "NotAscii",
    3: "BadToken",
    4: "BadSyntax",
    5: "NumberRange",
    6: "TooLarge",
    7: "UnknownName",
    8: "NameTaken",
    9: "WrongKind",
    10: "NotConvex",
    11: "TermRange",
    12: "SpanRange",
    13: "ClockEnd",
    14: "Presence",
    15: "ClassFull",
    16: "StoreFull",
    17: "BindingLimit",
    18: "JournalFull",
    19: "NoFile",
    20: "BadFile",
}
"""The refusals by their numbers, in the order in which the first that holds is the answer."""

STATUSES: dict[int, str] = {
    0: "the input was read to its end or to quit, and every reply was written",
    1: "its words are of none of its forms",
    2: "the session isn't there or is faulty",
    3: "a read failed",
    4: "a write failed",
    5: "a file couldn't be read or written",
    6: "memory was out",
    7: "the input has more than 1,073,741,824 bytes",
}
"""What the exit statuses of the program mean."""

LINE_LIMIT = 4_096
"""The most bytes of a line, its end not counted."""
SESSION_LINE_LIMIT = 16_384
"""The most bytes of a line of a saved session."""
NAME_LIMIT = 32
"""The most bytes of a name, and of a text between its quotes."""
TICK_LIMIT = 1_000_000_000
"""The last tick of the clock."""
INPUT_LIMIT = 1_073_741_824
"""The most bytes of the input of one run."""
FILE_LIMIT = 536_870_912
"""The most bytes of a file that is read or written."""
JOURNAL_ENTRIES = 2_000_000
"""The most commands of a journal."""
JOURNAL_BYTES = 268_435_456
"""The most bytes of the canonical lines of a journal, with their line feeds."""
CAPACITY_LIMIT = 100_000
"""The largest capacity of a class."""
CLASS_LIMIT = 64
REGION_LIMIT = 1_024
QUERY_LIMIT = 256
"""The most registered queries."""
INDEX_LIMIT = 16
"""The most indexes, those that have ended among them."""
INDEX_TICKS = 64_000
"""How many ticks an index reaches over."""
PRODUCT_LIMIT = 1_000_000
"""The largest product of the capacities of a query's classes."""
PRODUCT_SUM_LIMIT = 4_000_000
"""The largest sum of these products over all registered queries."""


def status_meaning(status: int) -> str:
    """What an exit status of the program means; a negative one is the signal that ended it."""
    if status < 0:
        return f"signal {-status} ended it"
    return STATUSES.get(status, "a status that the program doesn't give")
