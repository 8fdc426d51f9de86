"""The expressions of a script. Each method reads what its name says, and its comment is the production."""
from .tree import (
    PLACES, After, And, Arithmetic, Assign, Before, Builtin, Call, Comparison, Concat, Conditional, Element, Ere, Field, Getline, Group, In, Length, Matching,
    Name, Number, Or, String, Unary,
)  # fmt: skip
from .tokens import FUNCTIONS

# the greatest depth of a tree
MAX_DEPTH = 1000
# while reading each level is entered at most twice
MOST_LEVELS = 2 * MAX_DEPTH + 10

ASSIGNING = {"=", "+=", "-=", "*=", "/=", "%=", "^="}
COMPARING = {"<", "<=", "==", "!=", ">", ">="}
# the least and the greatest number of arguments
COUNTS = {
    "length": (0, 1), "substr": (2, 3), "index": (2, 2), "match": (2, 2), "split": (2, 3), "sub": (2, 3), "gsub": (2, 3), "sprintf": (1, None),
    "tolower": (1, 1), "toupper": (1, 1), "int": (1, 1), "close": (1, 1), "fflush": (0, 1),
}  # fmt: skip
# what begins the right side of a concatenation, `++` and `--` aside
OPERAND_BEGINS = {"!", "number", "string", "ere", "name", "funcname", "$", "(", "getline"} | FUNCTIONS
LITERALS = {"number": Number, "string": String, "ere": Ere}


class ParseFault(Exception):
    """A script that has no tree, or one that is refused: a name, a line, and for LeftOut the feature."""

    def __init__(self, name, line, feature=None):
        super().__init__(name, line, feature)
        self.name, self.line, self.feature = name, line, feature


def ends_in_place(node):
    """Whether an operand ends in what can be assigned to, so that `++` after it belongs to it."""
    match node:
        case Before() | Name() | Element() | Field():
            return True
        case Arithmetic() | Comparison() | Matching() | Concat():
            return ends_in_place(node.right)
        case Unary():
            return ends_in_place(node.operand)
        case Getline():
            last = node.place if node.file is None else node.file
            return last is not None and ends_in_place(last)
    return False


class Expressions:
    def __init__(self, tokens):
        self.tokens, self.at = tokens, 0
        # in the operands of `print` that no parenthesis encloses, where `>` redirects
        self.redirects = False
        self.levels = 0
        self.match_parentheses()

    def match_parentheses(self):
        """Where each parenthesis ends, and in which ones a comma stands that is in no inner one."""
        self.ends, self.lists, open_ones = {}, set(), []
        for at, token in enumerate(self.tokens):
            if token.kind in ("(", "["):
                open_ones.append(at)
            elif token.kind in (")", "]") and open_ones:
                self.ends[open_ones.pop()] = at
            elif token.kind == "," and open_ones:
                self.lists.add(open_ones[-1])

    # What is next.

    def kind(self, ahead=0):
        at = self.at + ahead
        return self.tokens[at].kind if at < len(self.tokens) else None

    def refuse(self, name="Syntax"):
        at = min(self.at, len(self.tokens) - 1)
        raise ParseFault(name, self.tokens[at].line if self.tokens else 1)

    def take(self, *kinds):
        """The next token, which has to be of one of these kinds."""
        if self.kind() not in kinds:
            self.refuse()
        self.at += 1
        return self.tokens[self.at - 1]

    def passed(self, kind):
        """Whether the next token is of this kind; it is then taken."""
        if self.kind() == kind:
            self.at += 1
            return True
        return False

    def deeper(self, read):
        self.levels += 1
        if self.levels > MOST_LEVELS:
            self.refuse("TooDeep")
        node = read()
        self.levels -= 1
        return node

    def enclosed(self, read):
        """Within brackets `>` compares again."""
        outside, self.redirects = self.redirects, False
        node = self.deeper(read)
        self.redirects = outside
        return node

    # Expressions, from those that bind least. An assignment may stand without parentheses after `&&`, `||`, `?`, `:` and an assignment's operator: a `tail`,
    # after which no operator of this level follows.

    def expression(self):
        # Expr := Cond | Tail | Or '||' Tail
        return self.deeper(self.conditional)

    def conditional(self):
        # Cond := Or | Or '?' Expr ':' Expr
        at = self.at
        left, is_tail = self.either()
        if is_tail or not self.passed("?"):
            return left
        yes = self.expression()
        self.take(":")
        return Conditional(left, yes, self.expression(), at=at)

    def either(self):
        # Or := And | Or '||' And
        left, is_tail = self.both()
        while not is_tail and self.passed("||"):
            right, is_tail = self.both()
            left = Or(left, right, at=left.at)
        return left, is_tail

    def both(self):
        # And := In | And '&&' In
        left, is_tail = self.assignment()
        while not is_tail and self.passed("&&"):
            right, is_tail = self.assignment()
            left = And(left, right, at=left.at)
        return left, is_tail

    def assignment(self):
        # Assign := LValue ('='|'+='|'-='|'*='|'/='|'%='|'^=') Expr
        left = self.membership()
        if isinstance(left, PLACES) and self.kind() in ASSIGNING:
            operator = self.take(*ASSIGNING).kind
            return Assign(operator, left, self.expression(), at=left.at), True
        return left, False

    def membership(self):
        # In := Match | In 'in' name | '(' Expr ',' List ')' 'in' name
        at = self.at
        if self.kind() == "(" and at in self.lists:
            self.at += 1
            keys = self.enclosed(self.list)
            self.take(")")
            self.take("in")
            left = In(keys, self.name(), at=at)
        else:
            left = self.matching()
        while self.passed("in"):
            left = In([left], self.name(), at=at)
        return left

    def name(self):
        token = self.take("name")
        return Name(token.text.decode(), at=self.at - 1)

    def matching(self):
        # Match := Comp | Comp ('~'|'!~') Comp
        left = self.comparison()
        if self.kind() in ("~", "!~"):
            left = Matching(self.take("~", "!~").kind, left, self.comparison(), at=left.at)
        return left

    def comparison(self):
        # Comp := Concat | Concat ('<'|'<='|'=='|'!='|'>'|'>=') Concat
        left = self.concatenation()
        operator = self.kind()
        if operator not in COMPARING or (operator == ">" and self.redirects):
            return left
        # a getline without a file is not followed by `<`
        if operator == "<" and isinstance(left, Getline) and left.file is None:
            self.refuse()
        self.at += 1
        return Comparison(operator, left, self.concatenation(), at=left.at)

    def concatenation(self):
        # Concat := Add | Concat Add
        left = self.sum()
        while self.kind() in OPERAND_BEGINS or (self.kind() in ("++", "--") and not ends_in_place(left)):
            left = Concat(left, self.sum(), at=left.at)
        return left

    def sum(self):
        # Add := Mul | Add ('+'|'-') Mul
        left = self.product()
        while self.kind() in ("+", "-"):
            left = Arithmetic(self.take("+", "-").kind, left, self.product(), at=left.at)
        return left

    def product(self):
        # Mul := Unary | Mul ('*'|'/'|'%') Unary
        left = self.unary()
        while self.kind() in ("*", "/", "%"):
            left = Arithmetic(self.take("*", "/", "%").kind, left, self.unary(), at=left.at)
        return left

    def signed(self, operand, other):
        """`!`, `+` or `-` before what the first reads, or what the second reads."""
        at = self.at
        if self.kind() not in ("!", "+", "-"):
            return other()
        operator = self.take("!", "+", "-").kind
        return Unary(operator, self.deeper(operand), at=at)

    def unary(self):
        # Unary := ('!'|'+'|'-') Unary | Power
        return self.signed(self.unary, self.power)

    def power(self):
        # Power := Post | Post '^' Expo
        left = self.postfix()
        if self.passed("^"):
            left = Arithmetic("^", left, self.deeper(self.exponent), at=left.at)
        return left

    def exponent(self):
        # Expo := ('!'|'+'|'-') Expo | Power
        return self.signed(self.exponent, self.power)

    def postfix(self):
        # Post := LValue ('++'|'--') | ('++'|'--') LValue | Prim
        at = self.at
        if self.kind() in ("++", "--"):
            return Before(self.take("++", "--").kind, self.place(), at=at)
        if self.kind() == "getline":
            return self.getline()
        left = self.primary()
        if isinstance(left, PLACES) and self.kind() in ("++", "--"):
            left = After(self.take("++", "--").kind, left, at=at)
        return left

    def getline(self):
        # Prim := Plain1 | 'getline' [LValue] ['<' Plain1]
        at = self.at
        self.take("getline")
        place = self.place() if self.kind() in ("name", "$") else None
        file = self.primary() if self.passed("<") else None
        return Getline(place, file, at=at)

    def place(self):
        # LValue := name | name '[' List ']' | '$' Field
        if self.kind() not in ("name", "$"):
            self.refuse()
        return self.primary()

    def primary(self):
        # Plain1 := number | string | ere | LValue | '(' Expr ')' | FuncName '(' [List] ')' | builtin '(' [List] ')' | 'length'
        at, kind = self.at, self.kind()
        if kind in LITERALS:
            return LITERALS[kind](self.take(kind).text, at=at)
        if kind == "name":
            name = self.name()
            return Element(name, self.keys(), at=at) if self.kind() == "[" else name
        if kind == "$":
            self.at += 1
            return Field(self.deeper(self.field), at=at)
        if kind == "(":
            self.at += 1
            inside = self.enclosed(self.expression)
            self.take(")")
            return Group(inside, at=at)
        if kind == "funcname":
            return Call(self.take(kind).text.decode(), self.arguments(), at=at)
        return self.builtin()

    def builtin(self):
        at, function = self.at, self.take(*FUNCTIONS).kind
        if function == "length" and self.kind() != "(":
            return Length(at=at)
        arguments = self.arguments()
        if not fits(function, arguments):
            raise ParseFault("Syntax", self.tokens[at].line)
        return Builtin(function, arguments, at=at)

    def field(self):
        # Field := Plain1 | ('++'|'--') LValue | ('!'|'+'|'-') Field
        at = self.at
        if self.kind() in ("++", "--"):
            return Before(self.take("++", "--").kind, self.place(), at=at)
        return self.signed(self.field, self.primary)

    def keys(self):
        self.take("[")
        keys = self.enclosed(self.list)
        self.take("]")
        return keys

    def arguments(self):
        self.take("(")
        arguments = [] if self.kind() == ")" else self.enclosed(self.list)
        self.take(")")
        return arguments

    def list(self):
        found = [self.expression()]
        while self.passed(","):
            found.append(self.expression())
        return found


def fits(function, arguments):
    """The number of arguments is the function's; the second of split is a name, and the third of sub and gsub can be assigned to."""
    least, most = COUNTS[function]
    if len(arguments) < least or (most is not None and len(arguments) > most):
        return False
    if function == "split":
        return isinstance(arguments[1], Name)
    return function not in ("sub", "gsub") or len(arguments) < 3 or isinstance(arguments[2], PLACES)
