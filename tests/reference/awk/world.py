"""What is outside a script: files by their names, standard input and standard output. A world opens, reads, writes and closes streams by numbers; 0 and 1 are
the standard ones. `Failed` is the answer of a call that failed."""
import os
from dataclasses import dataclass

# the bytes that a read asks for
PIECE = 65_536
STANDARD_INPUT, STANDARD_OUTPUT = 0, 1


class Failed(Exception):
    pass


@dataclass
class MemFile:
    """A file in memory: its bytes (None if there is no file), whether reading fails at their end, the most bytes it may hold, and whether it opens."""

    held: bytes | None = b""
    fails: bool = False
    room: int | None = None
    opens: bool = True


class MemReading:
    """Opening for reading fixes the bytes."""

    def __init__(self, file):
        self.rest, self.fails = file.held, file.fails


class MemWorld:
    def __init__(self, given=None, output=None, most=PIECE):
        self.most = most
        self.out = output or MemFile()
        self.files = {}
        self.streams = [MemReading(given or MemFile()), self.out]

    def add(self, name, file):
        self.files[name] = file

    def bytes(self, name):
        return self.files[name].held if name in self.files else None

    def output(self):
        return self.out.held

    def opened(self, stream):
        self.streams.append(stream)
        return len(self.streams) - 1

    def open_read(self, name):
        file = self.files.get(name)
        if file is None or file.held is None or not file.opens:
            raise Failed
        return self.opened(MemReading(file))

    def open_write(self, name, appends):
        """A name without a file opens for writing, and has no limit."""
        file = self.files.setdefault(name, MemFile(None))
        if not file.opens:
            raise Failed
        if file.held is None or not appends:
            file.held = b""
        return self.opened(file)

    def read(self, number):
        """At least a byte, at most so many as a read gives, or nothing at the end."""
        stream = self.streams[number]
        if stream.fails and not stream.rest:
            raise Failed
        piece, stream.rest = stream.rest[: self.most], stream.rest[self.most :]
        return piece

    def write(self, number, text):
        """How many bytes went out: at least one, unless the file is full."""
        file = self.streams[number]
        count = len(text) if file.room is None else min(len(text), file.room - len(file.held))
        if count <= 0 < len(text):
            raise Failed
        file.held += text[:count]
        return count

    def close(self, number):
        self.streams[number] = None


class Around:
    """A world that hands its calls on to another one."""

    def __init__(self, inside):
        self.inside = inside

    def open_read(self, name):
        return self.inside.open_read(name)

    def open_write(self, name, appends):
        return self.inside.open_write(name, appends)

    def read(self, number):
        return self.inside.read(number)

    def write(self, number, text):
        return self.inside.write(number, text)

    def close(self, number):
        self.inside.close(number)


class FailingWorld(Around):
    """The call with this number, from 1 on, fails, and changes nothing; `close` is not counted."""

    def __init__(self, inside, failing):
        super().__init__(inside)
        self.failing, self.calls = failing, 0

    def call(self):
        self.calls += 1
        if self.calls == self.failing:
            raise Failed

    def open_read(self, name):
        self.call()
        return super().open_read(name)

    def open_write(self, name, appends):
        self.call()
        return super().open_write(name, appends)

    def read(self, number):
        self.call()
        return super().read(number)

    def write(self, number, text):
        self.call()
        return super().write(number, text)


@dataclass
class Fence:
    """Which names open: none, none for writing, or only those of a list, for reading."""

    no_files: bool = False
    read_only: bool = False
    only: tuple | None = None


class FencedWorld(Around):
    """A name that is kept out does not open, and the world inside is not asked. The standard streams are no names."""

    def __init__(self, inside, fence):
        super().__init__(inside)
        self.fence = fence

    def open_read(self, name):
        if self.fence.no_files or (self.fence.only is not None and name not in self.fence.only):
            raise Failed
        return super().open_read(name)

    def open_write(self, name, appends):
        if self.fence.no_files or self.fence.read_only or self.fence.only is not None:
            raise Failed
        return super().open_write(name, appends)


def of_system(call, *words):
    try:
        return call(*words)
    except OSError:
        raise Failed from None


def path(name):
    """A name that is empty, not UTF-8, or has a zero byte does not open."""
    try:
        text = name.decode()
    except UnicodeDecodeError:
        raise Failed from None
    if not text or "\0" in text:
        raise Failed
    return name


class OsWorld:
    """The files of the system."""

    def open_read(self, name):
        return of_system(os.open, path(name), os.O_RDONLY | os.O_CLOEXEC)

    def open_write(self, name, appends):
        flags = os.O_WRONLY | os.O_CREAT | os.O_CLOEXEC | (os.O_APPEND if appends else os.O_TRUNC)
        return of_system(os.open, path(name), flags, 0o666)

    def read(self, number):
        return of_system(os.read, number, PIECE)

    def write(self, number, text):
        return of_system(os.write, number, text)

    def close(self, number):
        os.close(number)
