"""The imports of a module: values by handles, arrays and iterators by numbers, and all that a script's run has."""
from awk import ere, values
from awk.names import SPECIAL_SCALARS
from awk.numbers import LIMIT
from awk.printf import formatted
from awk.record import field_number
from awk.state import State
from awk.texts import expression, index, lower, split_by, split_by_ere, substitute, substr, upper
from awk.values import FAULTS, UNINIT, Fault, Num, StrNum, Text, limited, number, text, truth

from .machine import Trap

SPECIALS = sorted(SPECIAL_SCALARS)
COMPARISONS = ["<", "<=", "==", "!=", ">", ">="]
# what a call answers besides a value
DONE, READ, PENDING, NOT_THERE, NO_KEY = 0, 1, 2, 3, -2

# Each import: its arguments and its answer, in one letter each. h a handle that is spent, k one that is kept, n a number, a an array, t an iterator, p and l
# a place in memory and a length, i a small number, c a code.
IMPORTS = {
    "num": "n h", "lit": "pl h", "uninit": " h", "dup": "k h", "to_num": "h n", "int_of": "h n", "truth": "h c", "compare": "ihh c", "concat": "hh h",
    "pow": "nn n", "fail": "i ", "get_special": "i h", "set_special": "ih c", "field": "n h", "set_field": "nh c", "new_array": " a", "elem": "ah h",
    "set_elem": "ahh c", "has": "ah c", "delete": "ah c", "join": "hh h", "iter": "a t", "iter_next": "t h", "length": "h n", "matches": "hh c",
    "match": "hh n", "sub": "hhhi n", "sub_result": " h", "split": "hahi n", "substr": "hnn h", "substr_from": "hn h", "index": "hh n", "lower": "h h",
    "upper": "h h", "next_main": " c", "getline": " c", "getline_var": " c", "getline_file": "h c", "getline_var_file": "h c", "line": " h",
    "declare": "pli ", "start_assign": " c", "pending_name": " i", "pending_value": " h", "begin_end": " ", "close": "h c", "arg": "h ", "sprintf": "i h",
    "print": "ii c", "printf": "ii c", "drop": "h ", "iter_free": "t ", "free_array": "a ",
}  # fmt: skip
# the second name of imports has these too
LATER = {"next_file": " c", "clear": "a c", "flush": "h c"}
# what still acts once a fault is kept
FREEING = {"drop", "iter_free", "free_array"}


def word_type(letter):
    return "i64" if letter == "n" else "i32"


class Numbered:
    """Things by numbers; the number that was given back last is given next."""

    def __init__(self, *held):
        self.held, self.free = dict(enumerate(held)), []

    def put(self, it):
        at = self.free.pop() if self.free else len(self.held)
        self.held[at] = it
        return at

    def take(self, at):
        self.free.append(at)
        return self.held.pop(at)


class HostState(State):
    """A run's state, with the names that the module announced. An assignment to a scalar of these is the module's to make."""

    def __init__(self, job, world):
        super().__init__(None, job, world, None)
        # whether each name is an array or a function
        self.names, self.waiting = {}, None

    def is_no_scalar(self, word):
        return self.names.get(word, False)

    def assign_global(self, word, value):
        if word not in self.names:
            return None
        self.waiting = list(self.names).index(word), value
        return PENDING


class Host:
    """Answers the imports. A fault is kept, and the call answers -1, or the least i64 if its answer is a number; so do all later calls, which do nothing."""

    def __init__(self, job, world):
        self.state = HostState(job, world)
        self.values, self.iterators = Numbered(), Numbered()
        self.arrays = Numbered(self.state.arrays["ARGV"], self.state.arrays["ENVIRON"])
        self.list, self.fault = [], None
        # the texts that `line` and `sub_result` give, once each
        self.line_read, self.text_made = None, None
        self.to_assign = list(job.assignments)
        try:
            job.refuse_long_texts()
        except Fault as fault:
            self.fault = fault.name

    def find(self, module, name):
        """An import and its type, or None."""
        known = {b"awk1": IMPORTS, b"awk2": IMPORTS | LATER}.get(module, {})
        shape = known.get(name.decode())
        if shape is None:
            return None
        taken, _, answered = shape.partition(" ")
        kind = [word_type(it) for it in taken], [word_type(it) for it in answered]
        return (lambda *words, memory: self.call(name.decode(), taken, answered, words, memory)), kind

    def call(self, name, taken, answered, words, memory):
        if self.fault and name not in FREEING:
            return self.word(answered, None)
        given = [*self.read(name, taken, words, memory)]
        try:
            answer = getattr(self, f"do_{name}")(*given)
        except Fault as fault:
            self.fault = self.fault or fault.name
            answer = None
        return self.word(answered, answer)

    def word(self, answered, answer):
        """An answer as a word; None where the call faulted."""
        if not answered:
            return None
        if answered == "n":
            return (-(1 << 63) if answer is None else answer) % (1 << 64)
        if answered == "h" and answer is not None and answer is not NO_KEY:
            answer = self.values.put(answer)
        return (-1 if answer is None else answer) % (1 << 32)

    def read(self, name, taken, words, memory):
        """What the words of a call are; a trap if one is unfit. A place and a length are one text."""
        words = [*words]
        for letter in taken.replace("pl", "p"):
            word = words.pop(0)
            if letter == "p":
                if word + words[0] > len(memory):
                    raise Trap("BadPointer")
                yield bytes(memory[word : word + words.pop(0)])
            elif letter in "hkat":
                yield self.held(letter, word)
            elif letter == "n":
                value = word - (1 << 64) if word >> 63 else word
                if abs(value) > LIMIT:
                    raise Trap("BadArgument")
                yield value
            elif letter == "i":
                yield word

    def held(self, letter, word):
        """The value of a handle, which is spent unless it is kept; or the array or the iterator of a number."""
        table = {"a": self.arrays, "t": self.iterators}.get(letter, self.values)
        if word not in table.held:
            raise Trap("BadHandle")
        if letter == "a":
            return word
        return table.take(word) if letter == "h" else word if letter == "t" else table.held[word]

    def require(self, is_fit):
        if not is_fit:
            raise Trap("BadArgument")

    # Values.

    def do_num(self, n):
        return Num(n)

    def do_lit(self, bytes_):
        return Text(bytes_)

    def do_uninit(self):
        return UNINIT

    def do_dup(self, value):
        return value

    def do_drop(self, value):
        pass

    def do_to_num(self, value):
        return number(value)

    def do_int_of(self, value):
        return values.truncated(value)

    def do_truth(self, value):
        return int(truth(value))

    def do_compare(self, operator, left, right):
        self.require(operator < len(COMPARISONS))
        return int(values.compare(left, right, COMPARISONS[operator]))

    def do_concat(self, left, right):
        return Text(limited(text(left) + text(right)))

    def do_pow(self, a, b):
        return values.power(a, b)

    def do_fail(self, fault):
        self.require(1 <= fault <= len(FAULTS))
        raise Fault(FAULTS[fault - 1])

    # Special variables, the record and its fields.

    def do_get_special(self, at):
        self.require(at < len(SPECIALS))
        return self.state.value(SPECIALS[at])

    def do_set_special(self, at, value):
        self.require(at < len(SPECIALS))
        self.state.set_value(SPECIALS[at], value)
        return DONE

    def do_field(self, at):
        return self.state.record.field(at)

    def do_set_field(self, at, value):
        self.state.set_field(field_number(at), value)
        return DONE

    # Arrays.

    def do_new_array(self):
        return self.arrays.put({})

    def do_free_array(self, array):
        self.require(array > 1)
        self.arrays.take(array)

    def do_elem(self, array, key):
        return self.arrays.held[array].setdefault(text(key), UNINIT)

    def do_set_elem(self, array, key, value):
        self.arrays.held[array][text(key)] = value
        return DONE

    def do_has(self, array, key):
        return int(text(key) in self.arrays.held[array])

    def do_delete(self, array, key):
        self.arrays.held[array].pop(text(key), None)
        return DONE

    def do_clear(self, array):
        self.arrays.held[array].clear()
        return DONE

    def do_join(self, left, right):
        return Text(limited(text(left) + self.state.text("SUBSEP") + text(right)))

    def do_iter(self, array):
        return self.iterators.put(list(self.arrays.held[array]))

    def do_iter_next(self, iterator):
        keys = self.iterators.held[iterator]
        return Text(keys.pop(0)) if keys else NO_KEY

    def do_iter_free(self, iterator):
        self.iterators.take(iterator)

    # Texts.

    def do_length(self, value):
        return len(text(value))

    def do_matches(self, value, pattern):
        return int(ere.is_match(expression(text(pattern)), text(value)))

    def do_match(self, value, pattern):
        found = ere.first_match(expression(text(pattern)), text(value))
        start, length = (found[0] + 1, found[1] - found[0]) if found else (0, -1)
        self.state.set_value("RSTART", Num(start))
        self.state.set_value("RLENGTH", Num(length))
        return start

    def do_sub(self, pattern, replacement, target, is_global):
        self.require(is_global < 2)
        count, self.text_made = substitute(expression(text(pattern)), text(replacement), text(target), is_global)
        return count

    def do_sub_result(self):
        self.require(self.text_made is not None)
        made, self.text_made = self.text_made, None
        return Text(made)

    def do_split(self, value, array, separator, is_ere):
        self.require(is_ere < 2)
        held = self.arrays.held[array]
        held.clear()
        cut = split_by_ere(expression(text(separator)), text(value)) if is_ere else split_by(text(separator), text(value))
        held.update((b"%d" % at, StrNum(part)) for at, part in enumerate(cut, 1))
        return len(cut)

    def do_substr(self, value, first, count):
        return Text(substr(text(value), first, count))

    def do_substr_from(self, value, first):
        return Text(substr(text(value), first))

    def do_index(self, value, part):
        return index(text(value), text(part))

    def do_lower(self, value):
        return Text(lower(text(value)))

    def do_upper(self, value):
        return Text(upper(text(value)))

    # Input.

    def do_next_main(self):
        """Failing files are faults here, and an answer of getline."""
        self.require(self.state.waiting is None)
        if self.state.read_record():
            return READ
        return PENDING if self.state.waiting else DONE

    def getline(self, store, file):
        answer = self.state.getline(store, file)
        if self.state.waiting:
            return PENDING
        return {1: READ, 0: DONE, -1: NOT_THERE}[answer]

    def keep(self, value):
        self.line_read = value

    def do_getline(self):
        self.require(self.state.waiting is None)
        return self.getline(None, None)

    def do_getline_var(self):
        self.require(self.state.waiting is None)
        return self.getline(self.keep, None)

    def do_getline_file(self, name):
        return self.getline(None, text(name))

    def do_getline_var_file(self, name):
        return self.getline(self.keep, text(name))

    def do_line(self):
        self.require(self.line_read is not None)
        line, self.line_read = self.line_read, None
        return line

    def do_next_file(self):
        self.state.main.give_up()
        return DONE

    # Names and assignments.

    def do_declare(self, name, kind):
        self.require(kind < 2 and name.decode("latin-1") not in self.state.names)
        self.state.names[name.decode("latin-1")] = bool(kind)

    def do_start_assign(self):
        self.require(self.state.waiting is None)
        while self.to_assign:
            if self.state.assign(*self.to_assign.pop(0)):
                return PENDING
        return DONE

    def do_pending_name(self):
        self.require(self.state.waiting is not None)
        return self.state.waiting[0]

    def do_pending_value(self):
        self.require(self.state.waiting is not None)
        (_, value), self.state.waiting = self.state.waiting, None
        return value

    def do_begin_end(self):
        self.state.is_end = True

    # Output.

    def do_close(self, name):
        return DONE if self.state.streams.close(text(name)) else NOT_THERE

    def do_flush(self, name):
        return DONE if not text(name) or text(name) in self.state.streams.writers else NOT_THERE

    def do_arg(self, value):
        self.list.append(value)

    def last(self, count):
        """Takes the last values of the argument list."""
        self.require(count <= len(self.list))
        at = len(self.list) - count
        taken, self.list = self.list[at:], self.list[:at]
        return taken

    def do_sprintf(self, count):
        self.require(count > 0)
        pattern, *rest = self.last(count)
        return Text(formatted(text(pattern), rest))

    def put(self, line_of, count, target):
        self.require(target < 3)
        taken = self.last(count + (target > 0))
        name = text(taken.pop()) if target else None
        self.state.streams.put(line_of(taken), name, target == 2)
        return DONE

    def do_print(self, count, target):
        state = self.state
        return self.put(lambda taken: state.text("OFS").join(map(text, taken)) + state.text("ORS"), count, target)

    def do_printf(self, count, target):
        self.require(count > 0)
        return self.put(lambda taken: formatted(text(taken[0]), taken[1:]), count, target)
