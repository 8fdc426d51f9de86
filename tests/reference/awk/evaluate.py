"""What expressions do. Operands and arguments are evaluated from left to right; once all are, those that the operation converts are converted, left to right."""
from dataclasses import dataclass

from . import ere, numbers, tree, values
from .printf import formatted
from .record import field_number
from .texts import expression, index, lower, split_by, split_by_ere, substitute, substr, upper
from .tokens import unescaped, within
from .values import UNINIT, Num, StrNum, Text, limited, number, text, truth, truth_value

# how many user calls may be open
MAX_CALLS = 9_999


class Exhausted(Exception):
    """A user call while MAX_CALLS are open."""


class Returned(Exception):
    def __init__(self, value):
        self.value = value


@dataclass
class Opened:
    """An open call: its function, and its parameters by their kinds."""

    function: tree.Function
    scalars: dict
    arrays: dict


@dataclass
class Place:
    """What can be assigned to, once its subscripts or its field number are known."""

    get: object
    put: object


def without_groups(node):
    while isinstance(node, tree.Group):
        node = node.inside
    return node


class Evaluator:
    def __init__(self, state):
        self.state, self.calls = state, []
        self.kinds = {getattr(tree, name): getattr(self, name) for name in dir(tree) if hasattr(self, name)}

    def value(self, node):
        return self.kinds[type(node)](node)

    def all(self, nodes):
        return [self.value(node) for node in nodes]

    # Names and places.

    def array(self, name):
        """Arrays are passed by reference."""
        if self.calls and name in self.calls[-1].arrays:
            return self.calls[-1].arrays[name]
        return self.state.arrays.setdefault(name, {})

    def variable(self, name):
        if self.calls and name in self.calls[-1].scalars:
            return self.calls[-1].scalars[name]
        return self.state.value(name)

    def set_variable(self, name, value):
        if self.calls and name in self.calls[-1].scalars:
            self.calls[-1].scalars[name] = value
        else:
            self.state.set_value(name, value)

    def key(self, nodes):
        """Several subscripts are joined with SUBSEP; a number's key is its text."""
        texts = [text(value) for value in self.all(nodes)]
        return limited(self.state.text("SUBSEP").join(texts)) if len(texts) > 1 else texts[0]

    def place(self, node):
        """The subscripts or the field number are evaluated, converted and checked here. Reading or storing an element creates it."""
        match node:
            case tree.Name(name):
                return Place(lambda: self.variable(name), lambda value: self.set_variable(name, value))
            case tree.Element(array, keys):
                held, key = self.array(array.name), self.key(keys)
                return Place(lambda: held.setdefault(key, UNINIT), lambda value: held.__setitem__(key, value))
        at = field_number(number(self.value(node.number)))
        return Place(lambda: self.state.record.field(at), lambda value: self.state.set_field(at, value))

    def Name(self, node):
        return self.variable(node.name)

    def Element(self, node):
        return self.place(node).get()

    Field = Element

    # Constants and operators.

    def Number(self, node):
        return Num(numbers.number_of(node.text))

    def String(self, node):
        return Text(unescaped(within(node.text)))

    def Ere(self, node):
        """An expression that is no operand of its own is matched with the record."""
        return truth_value(ere.is_match(self.tree_of(node), text(self.state.record.whole)))

    def Group(self, node):
        return self.value(node.inside)

    def Unary(self, node):
        value = self.value(node.operand)
        if node.operator == "!":
            return truth_value(not truth(value))
        return Num(-number(value) if node.operator == "-" else number(value))

    def operated(self, operator, left, right):
        a = number(left)
        return Num(values.OPERATORS[operator](a, number(right)))

    def Arithmetic(self, node):
        left = self.value(node.left)
        return self.operated(node.operator, left, self.value(node.right))

    def Concat(self, node):
        left = self.value(node.left)
        right = self.value(node.right)
        return Text(limited(text(left) + text(right)))

    def Comparison(self, node):
        left = self.value(node.left)
        return truth_value(values.compare(left, self.value(node.right), node.operator))

    def Matching(self, node):
        value = self.value(node.left)
        pattern = self.pattern(node.right)
        matched = text(value)
        return truth_value(ere.is_match(pattern(), matched) == (node.operator == "~"))

    def tree_of(self, node):
        return expression(within(node.text))

    def pattern(self, node):
        """An ERE token, parentheses aside, or the text of a value. What is answered gives the tree, and is called when operands are converted."""
        bare = without_groups(node)
        if isinstance(bare, tree.Ere):
            return lambda: self.tree_of(bare)
        value = self.value(node)
        return lambda: expression(text(value))

    def In(self, node):
        """`in` does not create an element."""
        return truth_value(self.key(node.keys) in self.array(node.array.name))

    def And(self, node):
        return truth_value(truth(self.value(node.left)) and truth(self.value(node.right)))

    def Or(self, node):
        return truth_value(truth(self.value(node.left)) or truth(self.value(node.right)))

    def Conditional(self, node):
        return self.value(node.yes if truth(self.value(node.test)) else node.no)

    def Assign(self, node):
        """The place comes first, then the right side; `+=` and the like read the old value next. The value is what was stored."""
        place = self.place(node.place)
        value = self.value(node.value)
        if node.operator != "=":
            value = self.operated(node.operator[:-1], place.get(), value)
        place.put(value)
        return value

    def stepped(self, node):
        """The numbers before and after `++` or `--`."""
        place = self.place(node.place)
        old = number(place.get())
        new = values.OPERATORS[node.operator[0]](old, 1)
        place.put(Num(new))
        return old, new

    def Before(self, node):
        return Num(self.stepped(node)[1])

    def After(self, node):
        return Num(self.stepped(node)[0])

    def Getline(self, node):
        """The variable's subscript or field number comes first, then the file's name, then the read."""
        store = self.place(node.place).put if node.place else None
        file = text(self.value(node.file)) if node.file else None
        return Num(self.state.getline(store, file))

    # Calls.

    def Call(self, node):
        """Scalars are passed by value, arrays by reference; missing arguments are fresh locals. An array for a parameter that is used as neither passes nothing.
        Without a returned value a call gives none. The call is made once all arguments are evaluated."""
        function = self.state.script.functions[node.function]
        call = Opened(function, {}, {})
        for at, parameter in enumerate(function.parameters):
            argument = node.arguments[at] if at < len(node.arguments) else None
            if self.state.script.is_array(function, parameter.name):
                call.arrays[parameter.name] = self.array(argument.name) if argument else {}
            elif argument is None or self.is_array(argument):
                call.scalars[parameter.name] = UNINIT
            else:
                call.scalars[parameter.name] = self.value(argument)
        self.state.turn()
        if len(self.calls) >= MAX_CALLS:
            raise Exhausted
        return self.called(call)

    def called(self, call):
        self.calls.append(call)
        try:
            self.do(call.function.body)
            return UNINIT
        except Returned as returned:
            return returned.value
        finally:
            self.calls.pop()

    def is_array(self, argument):
        function = self.calls[-1].function if self.calls else None
        return isinstance(argument, tree.Name) and self.state.script.is_array(function, argument.name)

    def Length(self, node):
        return Num(len(text(self.state.record.whole)))

    def Builtin(self, node):
        return getattr(self, f"{node.function}_of")(*node.arguments)

    def length_of(self, argument=None):
        return Num(len(text(self.value(argument)))) if argument else self.Length(None)

    def substr_of(self, *arguments):
        value, *places = self.all(arguments)
        whole = text(value)
        return Text(substr(whole, *[number(place) for place in places]))

    def index_of(self, *arguments):
        return Num(index(*[text(value) for value in self.all(arguments)]))

    def tolower_of(self, argument):
        return Text(lower(text(self.value(argument))))

    def toupper_of(self, argument):
        return Text(upper(text(self.value(argument))))

    def int_of(self, argument):
        """`int(a / b)`, parentheses round the quotient aside, is the quotient truncated."""
        bare = without_groups(argument)
        if isinstance(bare, tree.Arithmetic) and bare.operator == "/":
            left, right = self.value(bare.left), self.value(bare.right)
            a = number(left)
            return Num(values.truncated_quotient(a, number(right)))
        return Num(values.truncated(self.value(argument)))

    def sprintf_of(self, *arguments):
        pattern, *rest = self.all(arguments)
        return Text(formatted(text(pattern), rest))

    def close_of(self, argument):
        """0, or -1 if nothing of that name is open."""
        return Num(0 if self.state.streams.close(text(self.value(argument))) else -1)

    def fflush_of(self, argument=None):
        """Output goes out at once; -1 if no writer of that name is open, and the name is not empty."""
        name = text(self.value(argument)) if argument else b""
        return Num(0 if not name or name in self.state.streams.writers else -1)

    def match_of(self, argument, pattern):
        """Sets RSTART and RLENGTH, to 0 and -1 without a match."""
        value = self.value(argument)
        pattern = self.pattern(pattern)
        whole = text(value)
        found = ere.first_match(pattern(), whole)
        start, length = (found[0] + 1, found[1] - found[0]) if found else (0, -1)
        self.state.set_value("RSTART", Num(start))
        self.state.set_value("RLENGTH", Num(length))
        return Num(start)

    def split_of(self, argument, array, separator=None):
        """The text and the separator are evaluated, the array is emptied, and its elements are set. An ERE token is an expression whatever it is; without a
        separator it is FS. A newline never separates besides."""
        value = self.value(argument)
        bare = without_groups(separator) if separator else None
        given = self.value(separator) if bare and not isinstance(bare, tree.Ere) else None
        held, whole = self.array(array.name), text(value)
        by = text(given) if given is not None else self.state.text("FS")
        held.clear()
        parts = split_by_ere(self.tree_of(bare), whole) if isinstance(bare, tree.Ere) else split_by(by, whole)
        held.update((b"%d" % at, StrNum(part)) for at, part in enumerate(parts, 1))
        return Num(len(parts))

    def sub_of(self, pattern, replacement, target=None, is_global=False):
        """Expression, replacement and target in order; the target, $0 if it is left out, is stored only if something was replaced."""
        pattern = self.pattern(pattern)
        value = self.value(replacement)
        place = self.place(target or tree.Field(tree.Number(b"0")))
        old = place.get()
        found, with_text = pattern(), text(value)
        count, new = substitute(found, with_text, text(old), is_global)
        if count:
            place.put(Text(new))
        return Num(count)

    def gsub_of(self, *arguments):
        pattern, replacement, *target = arguments
        return self.sub_of(pattern, replacement, *(target or [None]), is_global=True)
