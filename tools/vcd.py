"""Reads value change dumps strictly by IEEE 1364-2005, section 18, and texts, `$var string` with changes `sTEXT CODE`, as GTKWave has them."""

from typing import NamedTuple

# The bits that each kind of signal of a program may have in one value change without a vector.
SCALARS = "01xXzZ"
# Commands that come before the changes, and those that may be among them.
HEADINGS = ("$date", "$version", "$timescale", "$comment", "$scope", "$upscope", "$var", "$enddefinitions")
KINDS = ("event", "wire", "reg", "string")
# A signal so called may fire more than once at a time.
LOST = ".lost"


class Fault(Exception):
    """The fault of a text that is no dump."""


class Signal(NamedTuple):
    """A declared signal."""

    kind: str
    size: int


class Dump:
    """The contents of a dump: signals by their names with all scopes, when each event fired, and the values."""

    def __init__(self):
        self.scale, self.signals, self.scopes, self.comments = None, {}, [], []
        # The contents of $dumpvars, by name: the bits, or None for an event that fires there.
        self.begun = {}
        # The times of each event, and of each other signal the times at which it has another value than before, with the value.
        self.fired, self.values = {}, {}
        self.end = None


class Reader:
    """Reads a dump word by word."""

    def __init__(self, text):
        self.words, self.dump, self.names, self.now = iter(text.split()), Dump(), {}, {}
        self.is_declared, self.begins = False, False

    def next(self, expected):
        word = next(self.words, None)
        if word is None:
            raise Fault(f"the text ends where {expected} is expected")
        return word

    def to_end(self, command):
        """Returns the words up to the `$end` of a command."""
        found = []
        while (word := self.next(f"the $end of {command}")) != "$end":
            found.append(word)
        return found

    def read(self):
        for word in self.words:
            if word.startswith("$"):
                self.command(word)
            elif not self.is_declared:
                raise Fault(f"{word} comes before $enddefinitions")
            elif word.startswith("#"):
                self.time(word[1:])
            else:
                self.change(word)
        if self.begins or not self.is_declared:
            raise Fault("a command is not closed")
        self.settle()
        return self.dump

    def command(self, word):
        if word == "$end" and self.begins:
            self.begins = False
        elif word == "$dumpvars" and self.dump.end is not None:
            self.begins = True
        elif word == "$comment":
            self.dump.comments.append((self.dump.end, " ".join(self.to_end(word))))
        elif word in HEADINGS and not self.is_declared:
            self.heading(word, self.to_end(word))
        else:
            raise Fault(f"{word} is not allowed there")

    def heading(self, command, words):
        dump = self.dump
        if command == "$timescale":
            dump.scale = "".join(words)
        elif command == "$scope":
            dump.scopes.append(words[1])
        elif command == "$upscope":
            if not dump.scopes:
                raise Fault("no scope is open at an $upscope")
            dump.scopes.pop()
        elif command == "$var":
            self.declare(*words)
        elif command == "$enddefinitions":
            if dump.scopes:
                raise Fault("a scope is open at the end of the definitions")
            self.is_declared = True

    def declare(self, kind, size, code, name, *bits):
        whole = ".".join([*self.dump.scopes, name])
        if kind not in KINDS:
            raise Fault(f"{whole} is a {kind}")
        if code in self.names or whole in self.dump.signals:
            raise Fault(f"{whole} or {code} is declared twice")
        if not all(33 <= ord(it) <= 126 for it in code):
            raise Fault(f"{code} is no code")
        self.names[code] = whole
        self.dump.signals[whole] = Signal(kind, int(size))

    def time(self, digits):
        if not digits.isdigit() or self.begins:
            raise Fault(f"#{digits} is no time, or is in $dumpvars")
        if self.dump.end is not None and int(digits) <= self.dump.end:
            raise Fault(f"the time {digits} comes after {self.dump.end}")
        self.settle()
        self.dump.end = int(digits)

    def change(self, word):
        if self.dump.end is None:
            raise Fault(f"{word} comes before the first time")
        if word[0] in "bB":
            bits, code = word[1:], self.next("a code")
        elif word[0] == "s":
            bits, code = word[1:], self.next("a code")
        elif word[0] in SCALARS:
            bits, code = word[0], word[1:]
        else:
            raise Fault(f"{word} is no change")
        if code not in self.names:
            raise Fault(f"{code} is not declared")
        name = self.names[code]
        kind, size = self.dump.signals[name]
        if (kind == "string") != (word[0] == "s"):
            raise Fault(f"{name} can't change to {word}")
        if kind == "string":
            self.now[name] = bits
        elif not bits or len(bits) > size or bits.strip(SCALARS) or (word[0] in "bB") != (size > 1):
            raise Fault(f"{name} can't change to {word}")
        elif kind == "event":
            self.fire(name)
        else:
            self.now[name] = extended(bits.lower(), size)
        if self.begins:
            self.dump.begun[name] = self.now.get(name)

    def fire(self, name):
        times = self.dump.fired.setdefault(name, [])
        if self.dump.end in times[-1:]:
            if not name.endswith(LOST):
                raise Fault(f"{name} fires twice at {self.dump.end}")
            return
        times.append(self.dump.end)

    def settle(self):
        """Keeps the values that differ from those at the time before."""
        for name, bits in self.now.items():
            found = self.dump.values.setdefault(name, [])
            if not found or found[-1][1] != bits:
                found.append((self.dump.end, bits))
        self.now.clear()


def extended(bits, size):
    """The bits of a value in its whole size: a value that begins with 1 is extended by zeros, others by their leftmost bit."""
    return bits.rjust(size, "0" if bits[0] == "1" else bits[0])


def read(text):
    """Returns the contents of a dump, or raises a Fault."""
    return Reader(text).read()
