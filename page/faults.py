"""The table by which faults.js tells where a line is faulty: the companion's grammar, as it is."""

import sys

from making import HERE

sys.path.insert(0, str(HERE.parent / "companion"))

try:
    from fleet import grammar, hints, words
except ModuleNotFoundError as error:
    sys.exit(f"there is no {error.name}: companion/setup installs it")


def action(kind, argument, rules):
    """The state that a shift leads to or, below 0, the rule of a reduction."""
    return argument if str(kind) == "Shift" else -1 - rules.setdefault((argument.origin.name, len(argument.expansion)), len(rules))


def faults_table():
    """States with what follows in each, rules, words, and what is said of names and numbers."""
    table, rules = grammar._table(), {}
    states = [{name: action(*found, rules) for name, found in table.states[state].items()} for state in range(len(table.states))]
    return {
        "start": table.start_states["start"],
        "end": table.end_states["start"],
        "states": states,
        "rules": list(rules),
        "terminals": grammar.terminals(),
        "reserved": sorted(words.RESERVED),
        "later": sorted(words.LATER_COMMANDS),
        "kinds": grammar.KIND_LABELS,
        "sorts": {name: sorted(parts) for name, parts in grammar._SORTS.items()},
        "numbers": {
            kind: {"least": it.least, "most": it.most, "isWhole": it.is_whole, "words": f"{it.label} is {it.meaning}"}
            for kind, it in grammar.NUMBER_KINDS.items()
        },
        "badTokens": hints._BAD_TOKENS,
        "lineEnd": grammar.END,
        "nameLimit": words.NAME_LIMIT,
    }
