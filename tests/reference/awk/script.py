"""A script's statements and items, and what is refused of them."""
from . import numbers
from .grammar import MAX_DEPTH, Expressions, ParseFault
from .numbers import NumberFault
from .tokens import LEFT_OUT
from .tree import (
    Begin, Block, Delete, Do, Empty, End, Evaluate, Exit, For, ForIn, Function, If, Jump, Main, NoItem, Print, Return, While, inner,
)  # fmt: skip


class Script(Expressions):
    # Items.

    def script(self):
        # Script := Item*
        items = []
        while self.kind() is not None:
            items.append(self.item())
        return items

    def item(self):
        # Item := Function | 'BEGIN' Block | 'END' Block | Block | Pattern Block | Pattern ';' | ';'
        # Pattern := Expr | Expr ',' Expr
        at = self.at
        if self.kind() == "function":
            return self.function()
        if self.passed("BEGIN"):
            return Begin(self.block(), at=at)
        if self.passed("END"):
            return End(self.block(), at=at)
        if self.kind() == "{":
            return Main(None, None, self.block(), at=at)
        if self.passed(";"):
            return NoItem(at=at)
        first = self.expression()
        last = self.expression() if self.passed(",") else None
        if self.kind() == "{":
            return Main(first, last, self.block(), at=at)
        self.take(";")
        return Main(first, last, None, at=at)

    def function(self):
        # 'function' name '(' [name {',' name}] ')' Block
        self.take("function")
        at = self.at
        name = self.take("name", "funcname").text.decode()
        self.take("(")
        parameters = [] if self.kind() == ")" else [self.name()]
        while parameters and self.passed(","):
            parameters.append(self.name())
        self.take(")")
        return Function(name, parameters, self.block(), at=at)

    def block(self):
        # Block := '{' Stmt* '}'
        at, statements = self.at, []
        self.take("{")
        while self.kind() != "}":
            statements.append(self.statement())
        self.take("}")
        return Block(statements, at=at)

    # Statements.

    def statement(self):
        return self.deeper(self.statement_here)

    def statement_here(self):
        # Stmt := Block | ';' | Simple ';' | If | While | Do | For
        at, kind = self.at, self.kind()
        if kind == "{":
            return self.block()
        if self.passed(";"):
            return Empty(at=at)
        if kind in ("if", "while", "do", "for"):
            return getattr(self, f"{kind}_statement")()
        simple = self.simple()
        self.take(";")
        return simple

    def if_statement(self):
        # 'if' '(' Expr ')' Stmt ['else' Stmt]; `else` belongs to the nearest `if`
        at = self.at
        self.take("if")
        test, yes = self.test(), self.statement()
        return If(test, yes, self.statement() if self.passed("else") else None, at=at)

    def while_statement(self):
        # 'while' '(' Expr ')' Stmt
        at = self.at
        self.take("while")
        return While(self.test(), self.statement(), at=at)

    def do_statement(self):
        # 'do' Stmt 'while' '(' Expr ')'
        at = self.at
        self.take("do")
        body = self.statement()
        self.take("while")
        return Do(body, self.test(), at=at)

    def test(self):
        self.take("(")
        test = self.enclosed(self.expression)
        self.take(")")
        return test

    def for_statement(self):
        # 'for' '(' name 'in' name ')' Stmt | 'for' '(' [Plain] ';' [Expr] ';' [Plain] ')' Stmt
        at = self.at
        self.take("for")
        self.take("(")
        if [self.kind(ahead) for ahead in range(4)] == ["name", "in", "name", ")"]:
            key = self.name()
            self.take("in")
            array = self.name()
            self.take(")")
            return ForIn(key, array, self.statement(), at=at)
        first = None if self.kind() == ";" else self.plain()
        self.take(";")
        test = None if self.kind() == ";" else self.expression()
        self.take(";")
        step = None if self.kind() == ")" else self.plain()
        self.take(")")
        return For(first, test, step, self.statement(), at=at)

    def simple(self):
        # Simple := Plain | 'break' | 'continue' | 'next' | 'nextfile' | 'exit' [Expr] | 'return' [Expr]
        at, kind = self.at, self.kind()
        if kind in ("break", "continue", "next", "nextfile"):
            return Jump(self.take(kind).kind, at=at)
        if kind in ("exit", "return"):
            self.take(kind)
            value = None if self.kind() == ";" else self.expression()
            return (Exit if kind == "exit" else Return)(value, at=at)
        return self.plain()

    def plain(self):
        # Plain := Expr | Print | 'delete' name '[' List ']' | 'delete' name
        at = self.at
        if self.kind() in ("print", "printf"):
            return self.print()
        if self.passed("delete"):
            array = self.name()
            return Delete(array, self.keys() if self.kind() == "[" else None, at=at)
        return Evaluate(self.expression(), at=at)

    def print(self):
        # Print := ('print' [PList] | 'printf' PList) [('>'|'>>') Concat]
        at, word = self.at, self.take("print", "printf").kind
        operands, enclosed = self.operands()
        if word == "printf" and operands is None:
            self.refuse()
        redirection = self.take(">", ">>").kind if self.kind() in (">", ">>") else None
        target = self.concatenation() if redirection else None
        return Print(word, operands, enclosed, redirection, target, at=at)

    def operands(self):
        # PList := List | '(' Expr ',' List ')'; a list in parentheses before `in` is the left side of that
        if self.kind() == "(" and self.at in self.lists and not self.is_before_in(self.at):
            self.at += 1
            operands = self.enclosed(self.list)
            self.take(")")
            return operands, True
        if self.kind() in (";", ")", ">", ">>", None):
            return None, False
        outside, self.redirects = self.redirects, True
        operands = self.list()
        self.redirects = outside
        return operands, False

    def is_before_in(self, parenthesis):
        end = self.ends.get(parenthesis)
        return end is not None and end + 1 < len(self.tokens) and self.tokens[end + 1].kind == "in"


def refuse_tokens(tokens):
    """What is left out, and numbers that are not whole or out of range, the first in the script."""
    for token in tokens:
        if token.kind in LEFT_OUT:
            raise ParseFault("LeftOut", token.line, token.kind)
        if token.kind == "|":
            raise ParseFault("LeftOut", token.line, "pipe")
        if token.kind == "number":
            try:
                numbers.number_of(token.text)
            except NumberFault as fault:
                raise ParseFault("NotWhole" if fault.name == "Fraction" else "ConstantRange", token.line) from None


def depth(node):
    """How many statements, expressions and parentheses are within one another. An item's own block is none of them."""
    return 1 + max(map(depth, inner(node)), default=0)


def parts(item):
    """The patterns and the statements of an item."""
    match item:
        case Main(first, last, body):
            return [it for it in (first, last) if it is not None] + (body.statements if body else [])
        case Function() | Begin() | End():
            return item.body.statements
    return []


def is_misplaced(statement, item, is_in_loop):
    """`break` and `continue` stand in loops, `return` in functions, `next` and `nextfile` not in BEGIN and END."""
    match statement:
        case Jump("break" | "continue"):
            return not is_in_loop
        case Jump():
            return isinstance(item, (Begin, End))
        case Return():
            return not isinstance(item, Function)
    return False


def refuse_misplaced(statement, item, is_in_loop, tokens):
    if is_misplaced(statement, item, is_in_loop):
        raise ParseFault("Misplaced", tokens[statement.at].line)
    is_in_loop = is_in_loop or isinstance(statement, (While, Do, For, ForIn))
    for part in inner(statement):
        refuse_misplaced(part, item, is_in_loop, tokens)


def parse(tokens):
    """The items of a script, or a ParseFault."""
    refuse_tokens(tokens)
    items = Script(tokens).script()
    for item in items:
        if max(map(depth, parts(item)), default=0) > MAX_DEPTH:
            raise ParseFault("TooDeep", tokens[item.at].line)
    for item in items:
        for part in parts(item):
            refuse_misplaced(part, item, False, tokens)
    return items
