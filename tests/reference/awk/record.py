"""The record, its fields and NF."""
from . import values
from .texts import split_by
from .values import UNINIT, Fault, StrNum

MAX_FIELD = 1_048_576


def field_number(number):
    """The number of a field, or a count of fields."""
    if not 0 <= number <= MAX_FIELD:
        raise Fault("FieldNumber")
    return number


class Record:
    def __init__(self):
        self.whole, self.fields = UNINIT, []

    def set_whole(self, text, separator, newline_separates):
        """Splitting happens at once, with its faults. What is set is a numeric string, and so are its fields."""
        fields = split_by(separator, text, newline_separates)
        field_number(len(fields))
        self.whole, self.fields = StrNum(text), [StrNum(field) for field in fields]

    def field(self, number):
        """Reading past the last field gives no value, and changes nothing."""
        if field_number(number) == 0:
            return self.whole
        return self.fields[number - 1] if number <= len(self.fields) else UNINIT

    def set_field(self, number, value, joint):
        """Keeps the value that is given, with fields without values up to it, and joins the record anew."""
        if field_number(number) > len(self.fields):
            self.extend(number)
        self.fields[number - 1] = value
        self.join(joint)

    def set_count(self, number, joint):
        """Cuts or extends, and joins the record anew."""
        self.extend(field_number(number))
        del self.fields[number:]
        self.join(joint)

    def extend(self, number):
        self.fields += [UNINIT] * (number - len(self.fields))

    def join(self, joint):
        texts = [values.text(field) for field in self.fields]
        if sum(map(len, texts)) + len(joint) * (len(texts) - 1) > values.TEXT_LIMIT:
            raise Fault("TextLimit")
        self.whole = StrNum(joint.join(texts))
