"""The kinds of a script's names: which are scalars, which are arrays, and what is refused of them."""
from dataclasses import dataclass

from .tree import Begin, Builtin, Call, Delete, Element, End, ForIn, Function, In, Main, Name, inner

SPECIAL_ARRAYS = {"ARGV", "ENVIRON"}
SPECIAL_SCALARS = {"ARGC", "CONVFMT", "FILENAME", "FNR", "FS", "NF", "NR", "OFMT", "OFS", "ORS", "RLENGTH", "RS", "RSTART", "SUBSEP"}
SPECIALS = SPECIAL_ARRAYS | SPECIAL_SCALARS
MAX_FUNCTIONS, MAX_PARAMETERS = 1000, 100


class ResolveFault(Exception):
    """TooMany, DuplicateName, UnknownFunction, ArgCount or KindClash, about a name."""

    def __init__(self, name, about):
        super().__init__(name, about)
        self.name, self.about = name, about


@dataclass(frozen=True)
class Use:
    """A name in a script: where, in which function, and whether it is used as an array, as a scalar, or stands bare as an argument."""

    at: int
    function: Function | None
    name: str
    kind: str


@dataclass(frozen=True)
class Called:
    at: int
    caller: Function | None
    function: str
    arguments: list


class Uses:
    """All names and calls of a script."""

    def __init__(self, items):
        self.names, self.calls = [], []
        for item in items:
            self.function = item if isinstance(item, Function) else None
            if isinstance(item, (Function, Begin, End, Main)) and item.body:
                self.read(item.body)
            if isinstance(item, Main):
                self.read_all(it for it in (item.first, item.last) if it is not None)

    def read_all(self, nodes):
        for node in nodes:
            self.read(node)

    def use(self, name, kind):
        self.names.append(Use(name.at, self.function, name.name, kind))

    def read(self, node):
        match node:
            case Name():
                self.use(node, "scalar")
                return
            case Element() | In() | Delete():
                self.use(node.array, "array")
            case ForIn():
                self.use(node.key, "scalar")
                self.use(node.array, "array")
            case Builtin("split", [text, array, *rest]):
                self.use(array, "array")
                self.read_all([text, *rest])
                return
            case Call():
                self.read_call(node)
                return
        self.read_all(inner(node))

    def read_call(self, node):
        self.calls.append(Called(node.at, self.function, node.function, node.arguments))
        for argument in node.arguments:
            if isinstance(argument, Name):
                self.use(argument, "bare")
            else:
                self.read(argument)


class Resolved:
    """A script's items and functions. A name is known by itself and the function whose parameter it is, or None of a global name."""

    def __init__(self, items):
        self.items = items
        self.functions = {}
        for item in items:
            if isinstance(item, Function):
                self.functions.setdefault(item.name, item)
        uses = Uses(items)
        self.refuse_functions([it for it in items if isinstance(it, Function)], uses)
        self.refuse_calls(uses)
        self.arrays = self.kinds(uses)
        self.globals = {it.name for it in uses.names if self.known(it.function, it.name)[0] is None} - SPECIALS

    def known(self, function, name):
        is_parameter = function is not None and any(it.name == name for it in function.parameters)
        return (function.name if is_parameter else None, name)

    def is_array(self, function, name):
        return self.known(function, name) in self.arrays

    def refuse(self, fault, places):
        """The first place in the script counts."""
        if places:
            raise ResolveFault(fault, min(places)[1])

    def refuse_functions(self, functions, uses):
        """At most 1,000 functions with 100 parameters. A function has no other one's name, a parameter no other's of its function; neither has the name of a
        special variable, and no parameter or variable that of a function."""
        self.refuse("TooMany", [(it.at, it.name) for n, it in enumerate(functions) if n >= MAX_FUNCTIONS or len(it.parameters) > MAX_PARAMETERS])
        places, before = [], set()
        for function in functions:
            if function.name in before | SPECIALS:
                places.append((function.at, function.name))
            before.add(function.name)
            own = set()
            for parameter in function.parameters:
                if parameter.name in own | SPECIALS or parameter.name in self.functions:
                    places.append((parameter.at, parameter.name))
                own.add(parameter.name)
        places += [(it.at, it.name) for it in uses.names if it.name in self.functions]
        self.refuse("DuplicateName", places)

    def refuse_calls(self, uses):
        self.refuse("UnknownFunction", [(it.at, it.function) for it in uses.calls if it.function not in self.functions])
        self.refuse("ArgCount", [(it.at, it.function) for it in uses.calls if len(it.arguments) > len(self.functions[it.function].parameters)])

    def passed(self, uses):
        """The parameters and arguments of all calls."""
        for call in uses.calls:
            for parameter, argument in zip(self.functions[call.function].parameters, call.arguments):
                yield call, (call.function, parameter.name), argument

    def kinds(self, uses):
        """The arrays. A name is an array if it is used as one, or if it is passed for a parameter that is one; so of scalars. Both is a clash, neither a
        scalar. ARGV and ENVIRON are used as arrays, the other special variables as scalars."""
        arrays = self.least({(None, name) for name in SPECIAL_ARRAYS}, "array", uses)
        scalars = self.least({(None, name) for name in SPECIAL_SCALARS}, "scalar", uses)
        both = arrays & scalars
        places = [(it.at, it.name) for it in uses.names if self.known(it.function, it.name) in both]
        for function in self.functions.values():
            places += [(it.at, it.name) for it in function.parameters if (function.name, it.name) in both]
        # an argument for an array has to be a bare name
        for call, parameter, argument in self.passed(uses):
            if parameter in arrays and not isinstance(argument, Name):
                places.append((call.at, parameter[1]))
        self.refuse("KindClash", places)
        return arrays

    def least(self, found, kind, uses):
        """The least set with these names, those that are used so, and those that are passed for a parameter in it."""
        found |= {self.known(it.function, it.name) for it in uses.names if it.kind == kind}
        names = [(parameter, self.known(call.caller, argument.name)) for call, parameter, argument in self.passed(uses) if isinstance(argument, Name)]
        grown = None
        while grown != found:
            grown, found = found, found | {name for parameter, name in names if parameter in found}
        return found
