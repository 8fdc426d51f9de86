"""Whether a module is typed. Operands of code that is not reached may have any type (None)."""
from dataclasses import dataclass

I32, I64 = "i32", "i64"


class InvalidFault(Exception):
    """BadIndex, BadType or BadAlign with a function's number, or BadModule."""

    def __init__(self, name, function=None):
        super().__init__(name, function)
        self.name, self.function = name, function


@dataclass
class Label:
    """An open block: what a branch to it takes, what its end leaves, and the operands below it."""

    name: str
    taken: list
    left: list
    height: int
    is_unreachable: bool = False


def signature(name):
    """The operands and results of an instruction that has no immediates but those of memory."""
    kind, _, operation = name.partition(".")
    if operation in ("eqz",):
        return [kind], [I32]
    if operation in "eq ne lt_s lt_u gt_s gt_u le_s le_u ge_s ge_u".split():
        return [kind, kind], [I32]
    if operation in ("clz", "ctz", "popcnt") or (operation.startswith("extend") and operation[6].isdigit()):
        return [kind], [kind]
    if operation == "wrap_i64":
        return [I64], [I32]
    if operation.startswith("extend_i32"):
        return [I32], [I64]
    if operation.startswith("load"):
        return [I32], [kind]
    if operation.startswith("store"):
        return [I32, kind], []
    if operation == "const":
        return [], [kind]
    return [kind, kind], [kind]


def width(name):
    """How many bytes a load or a store moves."""
    kind, _, operation = name.partition(".")
    digits = operation.removeprefix("load").removeprefix("store").partition("_")[0]
    return int(digits or kind[1:]) // 8


class Body:
    """Types the code of a function, or of a constant expression."""

    def __init__(self, module, number, locals_, results):
        self.module, self.number, self.locals, self.results = module, number, locals_, results
        self.operands, self.labels = [], []

    def refuse(self, name="BadType"):
        raise InvalidFault(name, self.number)

    def at(self, items, number):
        if number >= len(items):
            self.refuse("BadIndex")
        return items[number]

    def pop(self, wanted=None):
        label = self.labels[-1]
        if len(self.operands) == label.height:
            if not label.is_unreachable:
                self.refuse()
            return wanted
        found = self.operands.pop()
        if wanted is not None and found is not None and found != wanted:
            self.refuse()
        return found or wanted

    def pop_all(self, kinds):
        for kind in reversed(kinds):
            self.pop(kind)

    def push(self, kinds):
        self.operands += kinds

    def enter(self, name, taken, left):
        self.labels.append(Label(name, taken, left, len(self.operands)))

    def leave(self):
        label = self.labels[-1]
        self.pop_all(label.left)
        if len(self.operands) != label.height:
            self.refuse()
        return self.labels.pop()

    def unreachable(self):
        del self.operands[self.labels[-1].height :]
        self.labels[-1].is_unreachable = True

    def check(self, code):
        self.enter("block", self.results, self.results)
        for name, *immediates in code:
            if not self.labels:
                self.refuse()
            self.instruction(name, *immediates)

    def label(self, depth):
        if depth >= len(self.labels):
            self.refuse("BadIndex")
        return self.labels[-1 - depth]

    def instruction(self, name, *immediates):
        special = getattr(self, "do_" + name.replace(".", "_"), None)
        if special:
            special(*immediates)
            return
        if ".load" in name or ".store" in name:
            self.memory()
            if immediates[0] > 3 or 1 << immediates[0] > width(name):
                self.refuse("BadAlign")
        taken, left = signature(name)
        self.pop_all(taken)
        self.push(left)

    def memory(self):
        self.at(self.module.memories, 0)

    def do_nop(self):
        pass

    def do_unreachable(self):
        self.unreachable()

    def do_block(self, kind):
        self.enter("block", [kind] if kind else [], [kind] if kind else [])

    def do_loop(self, kind):
        self.enter("loop", [], [kind] if kind else [])

    def do_if(self, kind):
        self.pop(I32)
        self.enter("if", [kind] if kind else [], [kind] if kind else [])

    def do_else(self):
        label = self.leave()
        self.enter("else", label.taken, label.left)

    def do_end(self):
        label = self.leave()
        if label.name == "if" and label.left:
            # an `if` without `else` has no result
            self.refuse()
        self.push(label.left)

    def do_br(self, depth):
        self.pop_all(self.label(depth).taken)
        self.unreachable()

    def do_br_if(self, depth):
        self.pop(I32)
        taken = self.label(depth).taken
        self.pop_all(taken)
        self.push(taken)

    def do_br_table(self, depths, last):
        self.pop(I32)
        taken = self.label(last).taken
        for depth in depths:
            if self.label(depth).taken != taken:
                self.refuse()
        self.pop_all(taken)
        self.unreachable()

    def do_return(self):
        self.pop_all(self.results)
        self.unreachable()

    def called(self, kind):
        self.pop_all(kind[0])
        self.push(kind[1])

    def do_call(self, number):
        if number >= len(self.module.imports) + len(self.module.functions):
            self.refuse("BadIndex")
        self.called(self.module.type_of(number))

    def do_call_indirect(self, kind):
        self.at(self.module.tables, 0)
        kind = self.at(self.module.types, kind)
        self.pop(I32)
        self.called(kind)

    def do_drop(self):
        self.pop()

    def do_select(self):
        self.pop(I32)
        kind = self.pop()
        self.push([self.pop(kind)])

    def do_local_get(self, number):
        self.push([self.at(self.locals, number)])

    def do_local_set(self, number):
        self.pop(self.at(self.locals, number))

    def do_local_tee(self, number):
        kind = self.at(self.locals, number)
        self.pop(kind)
        self.push([kind])

    def do_global_get(self, number):
        self.push([self.at(self.module.globals, number)[0]])

    def do_global_set(self, number):
        kind, is_mutable, _ = self.at(self.module.globals, number)
        if not is_mutable:
            self.refuse()
        self.pop(kind)

    def do_memory_size(self):
        self.memory()
        self.push([I32])

    def do_memory_grow(self):
        self.memory()
        self.pop(I32)
        self.push([I32])


def is_constant(code, kind):
    """An expression for a segment's place or a global: one constant of its type. Imported globals, which could stand there too, do not exist."""
    return [it[0] for it in code] == [f"{kind}.const", "end"]


def is_start(module, kinds):
    """A start function has no parameters and no results."""
    if module.start is None:
        return True
    return module.start < len(kinds) and kinds[module.start] < len(module.types) and module.types[kinds[module.start]] == ([], [])


def validate(module):
    """Refuses a module that is not typed."""
    if any(len(results) > 1 for _, results in module.types):
        raise InvalidFault("BadModule")
    kinds = [it[2] for it in module.imports] + module.functions
    limits = module.tables + module.memories
    names = [it[0] for it in module.exports]
    counts = [len(kinds), len(module.tables), len(module.memories), len(module.globals)]
    is_well_made = (
        all(it[2] < len(module.types) for it in module.imports)
        and len(module.tables) <= 1 and len(module.memories) <= 1
        and all(most is None or least <= most for least, most in limits)
        and all(most is None or most <= 65_536 for _, most in module.memories)
        and all(is_constant(code, kind) for kind, _, code in module.globals)
        and len(set(names)) == len(names) and all(number < counts[kind] for _, kind, number in module.exports)
        and all(table < len(module.tables) and is_constant(at, I32) and all(it < len(kinds) for it in its) for table, at, its in module.elements)
        and all(memory < len(module.memories) and is_constant(at, I32) for memory, at, _ in module.data)
    )  # fmt: skip
    if not is_well_made or not is_start(module, kinds):
        raise InvalidFault("BadModule")
    for number, (kind, body) in enumerate(zip(module.functions, module.bodies), len(module.imports)):
        if kind >= len(module.types):
            raise InvalidFault("BadIndex", number)
        parameters, results = module.types[kind]
        Body(module, number, parameters + body.locals, results).check(body.code)
