"""The parts of a command's tree, as grammar.lark names them."""

from lark import Token as Leaf, Tree


def parts(tree: Tree, rule: str) -> list[Tree]:
    """The parts right below the tree that are of the rule, in the order of writing."""
    return [child for child in tree.children if isinstance(child, Tree) and child.data == rule]


def optional_part(tree: Tree, rule: str) -> Tree | None:
    """The first such part, None where there is none."""
    found = parts(tree, rule)
    return found[0] if found else None


def part(tree: Tree, rule: str) -> Tree:
    """The first such part, which the grammar says is there."""
    return parts(tree, rule)[0]


def leaf(tree: Tree) -> Leaf:
    """The token of a part that is one, a name, a text or a sign; and that of a number after its sign."""
    last = tree.children[-1]
    assert isinstance(last, Leaf)
    return last


def name_in(tree: Tree, rule: str) -> Leaf:
    """The name that the first part of the rule is, which the grammar says is there."""
    return leaf(part(tree, rule))


def place_of(where: Tree | Leaf) -> tuple[int, int]:
    """The place at which it begins, from 0, and its length in bytes."""
    if isinstance(where, Leaf):
        first, end = where.start_pos, where.end_pos
    else:
        first, end = where.meta.start_pos, where.meta.end_pos
    assert first is not None and end is not None
    return first, end - first


def whole_in(tree: Tree, rule: str) -> int:
    """The whole number that the first part of the rule is, which is in the range of its place."""
    return int(name_in(tree, rule))
