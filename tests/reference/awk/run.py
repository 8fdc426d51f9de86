"""What statements do, and the run of a script."""
import sys
import threading

from . import ere, tree
from .evaluate import Evaluator, Exhausted, Returned
from .grammar import ParseFault
from .names import ResolveFault, Resolved
from .printf import formatted
from .script import parse
from .state import Job, OutOfTurns, State
from .tokens import TokenFault, tokens, within
from .values import UNINIT, Fault, Text, number, text, truth

# the most bytes of a script
MAX_SCRIPT = 1_048_576


class LoopLeft(Exception):
    """`break`."""


class BodyLeft(Exception):
    """`continue`."""


class RecordLeft(Exception):
    """`next` or `nextfile`."""


class PartLeft(Exception):
    """`exit`."""


class Run(Evaluator):
    """A script's run: BEGIN actions, then the main items for each record, then END actions."""

    def do(self, node):
        self.value(node)

    # Statements.

    def Block(self, node):
        for statement in node.statements:
            self.do(statement)

    def Empty(self, node):
        pass

    def Evaluate(self, node):
        self.value(node.expression)

    def If(self, node):
        if truth(self.value(node.test)):
            self.do(node.yes)
        elif node.no:
            self.do(node.no)

    def goes_on(self, test):
        """A loop's test costs a turn, also one that is left out."""
        self.state.turn()
        return test is None or truth(self.value(test))

    def stays(self, body):
        """Does the body of a loop; whether the loop goes on."""
        try:
            self.do(body)
        except BodyLeft:
            pass
        except LoopLeft:
            return False
        return True

    def While(self, node):
        while self.goes_on(node.test) and self.stays(node.body):
            pass

    def Do(self, node):
        while self.stays(node.body) and self.goes_on(node.test):
            pass

    def For(self, node):
        if node.first:
            self.do(node.first)
        while self.goes_on(node.test) and self.stays(node.body):
            if node.step:
                self.do(node.step)

    def ForIn(self, node):
        """Visits the keys that are there at its start, in order of insertion, also if they are deleted meanwhile."""
        for key in list(self.array(node.array.name)):
            self.state.turn()
            self.set_variable(node.key.name, Text(key))
            if not self.stays(node.body):
                return

    def Jump(self, node):
        """`next` and `nextfile` leave the record, from functions too."""
        if node.word == "break":
            raise LoopLeft
        if node.word == "continue":
            raise BodyLeft
        if not self.state.has_record:
            raise Fault("NextOutside")
        if node.word == "nextfile":
            self.state.main.give_up()
        raise RecordLeft

    def Exit(self, node):
        """The status is taken modulo 256."""
        if node.status:
            self.state.status = number(self.value(node.status)) % 256
        raise PartLeft

    def Return(self, node):
        raise Returned(self.value(node.value) if node.value else UNINIT)

    def Delete(self, node):
        """`delete` of an element does not create it; without a subscript it empties the array."""
        held = self.array(node.array.name)
        if node.keys is None:
            held.clear()
        else:
            held.pop(self.key(node.keys), None)

    def Print(self, node):
        """All operands, then the target's name, then converting or formatting, then opening, then writing. `print` joins its operands with OFS and ends them
        with ORS; without operands it prints $0."""
        state = self.state
        operands = [state.record.whole] if node.operands is None else self.all(node.operands)
        name = text(self.value(node.target)) if node.target else None
        if node.word == "printf":
            line = formatted(text(operands[0]), operands[1:])
        else:
            line = state.text("OFS").join(map(text, operands)) + state.text("ORS")
        state.streams.put(line, name, node.redirection == ">>")

    # The parts of a run.

    def run(self):
        """The status at the end."""
        state = self.state
        for name, given in state.job.assignments:
            state.assign(name, given)
        items = state.script.items
        mains = [item for item in items if isinstance(item, tree.Main)]
        ends = [item for item in items if isinstance(item, tree.End)]
        try:
            self.all_of(item for item in items if isinstance(item, tree.Begin))
            # a script of functions and BEGIN alone reads nothing by itself
            if mains or ends:
                self.records(mains)
        except PartLeft:
            # `exit` goes to END, and leaves every open call
            self.calls.clear()
        state.is_end, state.has_record = True, False
        try:
            self.all_of(ends)
        except PartLeft:
            pass
        return state.status

    def all_of(self, items):
        for item in items:
            self.do(item.body)

    def records(self, mains):
        state, open_ranges = self.state, set()
        while state.read_record():
            state.turn()
            state.has_record = True
            try:
                for item in mains:
                    if self.selects(item, open_ranges):
                        # without an action an item prints the record
                        self.do(item.body or tree.Print("print", None, False, None, None))
            except RecordLeft:
                self.calls.clear()
            state.has_record = False

    def selects(self, item, open_ranges):
        """A range opens at a record where its first pattern is true, and closes at the first one, that one included, where its second is. While it is open only
        the second is evaluated."""
        if item.first is None:
            return True
        if item.last is None:
            return truth(self.value(item.first))
        if item.at not in open_ranges:
            if not truth(self.value(item.first)):
                return False
            open_ranges.add(item.at)
        if truth(self.value(item.last)):
            open_ranges.discard(item.at)
        return True


class Refused(Exception):
    """What a script is refused for: the innermost name, and what it carries."""

    def __init__(self, *words):
        super().__init__(*words)
        self.words = tuple(word for word in words if word is not None)


def compiled(script):
    """A script's items and names. Its length comes first, then its tokens, its tree, its constant expressions, and its names."""
    if len(script) > MAX_SCRIPT:
        raise Refused("TooLarge")
    try:
        found = tokens(script)
        items = parse(found)
        for token in found:
            if token.kind == "ere":
                read_constant(token)
        return Resolved(items)
    except TokenFault as fault:
        raise Refused(fault.name, fault.line) from None
    except ParseFault as fault:
        raise Refused(fault.name, fault.line, fault.feature) from None
    except ResolveFault as fault:
        raise Refused(fault.name, fault.about) from None


def read_constant(token):
    try:
        ere.read_ere(within(token.text))
    except ere.EreFault as fault:
        raise Refused(fault.name, token.line, fault.place) from None


def run_script(script, job, world, turns=None):
    """("Ended", status), ("Faulted", name), ("Exhausted",), ("OutOfTurns",), or ("Refused", name and what it carries ..)."""
    try:
        resolved = compiled(script)
    except Refused as refused:
        return "Refused", *refused.words
    try:
        job.refuse_long_texts()
        return "Ended", Run(State(resolved, job, world, turns)).run()
    except Fault as fault:
        return "Faulted", fault.name
    except Exhausted:
        return ("Exhausted",)
    except OutOfTurns:
        return ("OutOfTurns",)


def on_a_deep_stack(what):
    """What a function answers, on a stack for scripts of any depth."""
    sys.setrecursionlimit(2_000_000)
    threading.stack_size(1 << 29)
    told = []

    def call():
        try:
            told.append((what(), None))
        except BaseException as error:
            told.append((None, error))

    thread = threading.Thread(target=call)
    thread.start()
    thread.join()
    answer, error = told[0]
    if error:
        raise error
    return answer


__all__ = ["Job", "Refused", "compiled", "on_a_deep_stack", "run_script"]
