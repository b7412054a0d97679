"""Formulas that hold in a region of several parts."""

from collections.abc import Iterator, Sequence

MOST_PARTS = 128
"""The most parts in a formula: it has at most 256 nodes, and so many atoms are joined by one OR less."""
MOST_BYTES = 3_800
"""The most bytes of a formula. A line has at most 4,096, and the query has its own words before it."""


def inside_any(names: Sequence[str], variable: str = "o") -> Iterator[str]:
    """A formula that holds where the object is inside one of the regions; several, each of some of them, where they are
    too many for one. Brackets keep its depth that of a balanced tree."""
    atoms = [f"INSIDE({variable},{name})" for name in names]
    longest = max(map(len, atoms)) + len("( OR )")
    most = max(min(MOST_PARTS, MOST_BYTES // longest), 1)
    count = -(-len(atoms) // most)
    for part in range(count):
        yield _balanced(atoms[len(atoms) * part // count : len(atoms) * (part + 1) // count])


def _balanced(atoms: Sequence[str]) -> str:
    if len(atoms) == 1:
        return atoms[0]
    half = len(atoms) // 2
    return f"({_balanced(atoms[:half])} OR {_balanced(atoms[half:])})"
