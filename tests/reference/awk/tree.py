"""The tree of a script: a class for each kind of node. INNER names those parts of a node that are expressions, statements, or lists of these."""
from dataclasses import dataclass, field
from typing import ClassVar


@dataclass(slots=True)
class Node:
    INNER: ClassVar[tuple] = ()
    # the number of the token where the node begins, which is no part of the tree
    at: int = field(kw_only=True, default=0, compare=False)


def inner(node):
    """The nodes directly within a node, in order."""
    for name in node.INNER:
        part = getattr(node, name)
        if isinstance(part, list):
            yield from part
        elif part is not None:
            yield part


# Expressions.


@dataclass(slots=True)
class Number(Node):
    text: bytes


@dataclass(slots=True)
class String(Node):
    text: bytes


@dataclass(slots=True)
class Ere(Node):
    text: bytes


@dataclass(slots=True)
class Name(Node):
    name: str


@dataclass(slots=True)
class Element(Node):
    array: Name
    keys: list
    INNER = ("keys",)


@dataclass(slots=True)
class Field(Node):
    number: Node
    INNER = ("number",)


# What can be assigned to.
PLACES = (Name, Element, Field)


@dataclass(slots=True)
class Group(Node):
    inside: Node
    INNER = ("inside",)


@dataclass(slots=True)
class Call(Node):
    function: str
    arguments: list
    INNER = ("arguments",)


@dataclass(slots=True)
class Builtin(Node):
    function: str
    arguments: list
    INNER = ("arguments",)


@dataclass(slots=True)
class Length(Node):
    """`length` without parentheses."""


@dataclass(slots=True)
class Unary(Node):
    operator: str
    operand: Node
    INNER = ("operand",)


@dataclass(slots=True)
class Binary(Node):
    """`+ - * / % ^`, the comparisons, `~` and `!~`."""

    operator: str
    left: Node
    right: Node
    INNER = ("left", "right")


class Arithmetic(Binary):
    pass


class Comparison(Binary):
    pass


class Matching(Binary):
    pass


@dataclass(slots=True)
class Concat(Node):
    left: Node
    right: Node
    INNER = ("left", "right")


@dataclass(slots=True)
class And(Node):
    left: Node
    right: Node
    INNER = ("left", "right")


@dataclass(slots=True)
class Or(Node):
    left: Node
    right: Node
    INNER = ("left", "right")


@dataclass(slots=True)
class In(Node):
    """`key in array`, or `(key, key) in array`: then there are several keys."""

    keys: list
    array: Name
    INNER = ("keys",)


@dataclass(slots=True)
class Conditional(Node):
    test: Node
    yes: Node
    no: Node
    INNER = ("test", "yes", "no")


@dataclass(slots=True)
class Assign(Node):
    operator: str
    place: Node
    value: Node
    INNER = ("place", "value")


@dataclass(slots=True)
class Before(Node):
    """`++x`, `--x`."""

    operator: str
    place: Node
    INNER = ("place",)


@dataclass(slots=True)
class After(Node):
    """`x++`, `x--`."""

    operator: str
    place: Node
    INNER = ("place",)


@dataclass(slots=True)
class Getline(Node):
    place: Node | None
    file: Node | None
    INNER = ("place", "file")


# Statements.


@dataclass(slots=True)
class Block(Node):
    statements: list
    INNER = ("statements",)


@dataclass(slots=True)
class Empty(Node):
    pass


@dataclass(slots=True)
class Evaluate(Node):
    """An expression as a statement."""

    expression: Node
    INNER = ("expression",)


@dataclass(slots=True)
class Print(Node):
    """`print` or `printf`. `enclosed`: the operands are a list in parentheses. `redirection` is `>` or `>>`, to the file `target`."""

    word: str
    operands: list | None
    enclosed: bool
    redirection: str | None
    target: Node | None
    INNER = ("operands", "target")


@dataclass(slots=True)
class Delete(Node):
    """`delete array[keys]`, or `delete array`: then there are no keys."""

    array: Name
    keys: list | None
    INNER = ("keys",)


@dataclass(slots=True)
class If(Node):
    test: Node
    yes: Node
    no: Node | None
    INNER = ("test", "yes", "no")


@dataclass(slots=True)
class While(Node):
    test: Node
    body: Node
    INNER = ("test", "body")


@dataclass(slots=True)
class Do(Node):
    body: Node
    test: Node
    INNER = ("body", "test")


@dataclass(slots=True)
class For(Node):
    first: Node | None
    test: Node | None
    step: Node | None
    body: Node
    INNER = ("first", "test", "step", "body")


@dataclass(slots=True)
class ForIn(Node):
    key: Name
    array: Name
    body: Node
    INNER = ("body",)


@dataclass(slots=True)
class Jump(Node):
    """`break`, `continue`, `next` or `nextfile`."""

    word: str


@dataclass(slots=True)
class Exit(Node):
    status: Node | None
    INNER = ("status",)


@dataclass(slots=True)
class Return(Node):
    value: Node | None
    INNER = ("value",)


# Items.


@dataclass(slots=True)
class Function(Node):
    """`at` is the token of its name."""

    name: str
    parameters: list
    body: Block


@dataclass(slots=True)
class Begin(Node):
    body: Block


@dataclass(slots=True)
class End(Node):
    body: Block


@dataclass(slots=True)
class Main(Node):
    """An item for records. Without `first` it has no pattern; with `last` its pattern is a range; without `body` it prints the record."""

    first: Node | None
    last: Node | None
    body: Block | None


@dataclass(slots=True)
class NoItem(Node):
    """A semicolon between items."""
