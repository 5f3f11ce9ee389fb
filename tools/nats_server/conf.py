"""Reads nats-server's configuration format (NATS documentation, "Server Configuration").

A file is a map of keys and values: `key value`, `key: value` or `key = value`, one a line or with a comma or semicolon
between. A value is a map {}, a list [], a text with or without quotes, a block of lines in brackets (), a truth value, a
number, or `$NAME`, which stands for the value of that key in a map around it or in the environment. `include FILE` puts
the entries of another file in its place. Comments begin with # or //.
"""

import bisect
import dataclasses
import os
import pathlib
import re

COMMENT = r"(?:#|//)[^\n]*"
# What may stand between the values of a map, of a list, and of a file, where the brackets of a JSON text are skipped.
BETWEEN = {
    "}": re.compile(rf"(?:[\s,;]|{COMMENT})*"),
    "]": re.compile(rf"(?:\s|{COMMENT})*"),
    "": re.compile(rf"(?:[\s,;{{}}]|{COMMENT})*"),
}
# What a value ends at in them.
ENDED = {
    "}": re.compile(rf"[ \t]*(?:{COMMENT})?(?:[\r\n,;]|(?=\}})|\Z)"),
    "]": re.compile(rf"[ \t]*(?:{COMMENT})?(?:[\r\n,]|(?=\])|\Z)"),
    "": re.compile(rf"[ \t]*(?:{COMMENT})?(?:[\r\n,;}}]|\Z)"),
}
KEY = re.compile(r'"(?P<double>[^"]*)"|\'(?P<single>[^\']*)\'|(?P<bare>[^\s:=\]][^\s:=]*)')
AFTER_KEY = re.compile(r"\s*[:=]?\s*")
INCLUDE = re.compile(r"[ \t]*(?:'([^']*)'|\"([^\"]*)\"|([^\s;}']+)'?)")
SINGLE = re.compile(r"'([^']*)'")
DOUBLE = re.compile(r'"((?:\\.|[^"\\])*)"', re.DOTALL)
BLOCK = re.compile(r"\(((?:.*?\n)??)\)(?=\n|\Z)", re.DOTALL)
BARE = re.compile(r"((?:\\.|[^ \t\r\n,;\]}'\\])+)'?")
ESCAPE = re.compile(r"\\(x[0-9a-fA-F]{2}|.|\n)")
ESCAPES = {"t": "\t", "n": "\n", "r": "\r", '"': '"', "\\": "\\"}
TRUTHS = {"true": True, "yes": True, "on": True, "false": False, "no": False, "off": False}
INTEGER = re.compile(r"(-?\d+)(?:([kmgtpe])(i?b?))?", re.IGNORECASE)
FLOAT = re.compile(r"-?\d+\.\d+")
# nats-server takes `$2a$..` without quotes for a hashed password.
HASHED = "2a$"


@dataclasses.dataclass(frozen=True)
class Place:
    """Where something is: a file, and a line from 1."""

    file: str
    line: int

    def __str__(self):
        return f"{self.file}:{self.line}"


class Fault(Exception):
    """Says what is wrong with a configuration, and where."""

    def __init__(self, place, text):
        super().__init__(f"{place}: {text}")


@dataclasses.dataclass
class Value:
    """A text, truth value, number, list of values or map of values, and where its entry begins."""

    held: object
    place: Place
    # Whether a `$NAME` stands for it. Such a key needn't be one that nats-server knows.
    is_used: bool = False

    def of_kind(self, kind, name):
        """Returns what it holds, or says that it isn't of this kind."""
        if not isinstance(self.held, kind) or (kind is int and isinstance(self.held, bool)):
            raise Fault(self.place, f"{name} has to stand here")
        return self.held

    def text(self):
        return self.of_kind(str, "a text")

    def number(self):
        return self.of_kind(int, "a whole number")

    def entries(self):
        return self.of_kind(list, "a list")

    def map(self):
        return self.of_kind(dict, "a map")


class Reader:
    """Reads the text of one file. `doubles` has the key and the place of each entry that took another's place."""

    def __init__(self, text, file):
        self.string, self.file, self.at = text, file, 0
        self.breaks = [it.start() for it in re.finditer("\n", text)]
        self.scopes, self.doubles = [], []

    def place(self):
        return Place(self.file, bisect.bisect_left(self.breaks, self.at) + 1)

    def take(self, form):
        """Goes on after what has this form here, and returns the match, or None if nothing has."""
        found = form.match(self.string, self.at)
        if found:
            self.at = found.end()
        return found

    def wanted(self, form, what):
        """Goes on after what has this form, or says what is missing."""
        found = self.take(form)
        if not found:
            raise Fault(self.place(), what)
        return found

    def has_ended(self, end):
        """Skips what may stand between values, and returns whether their map, list or file ends here."""
        self.take(BETWEEN[end])
        if self.at == len(self.string):
            if end:
                raise Fault(self.place(), f"the file ends before a {end}")
            return True
        return self.string[self.at] == end

    def map(self, end=""):
        """Reads entries up to the end of their map or file, and returns their values by key."""
        found = {}
        self.scopes.append(found)
        while not self.has_ended(end):
            self.entry(found)
            self.wanted(ENDED[end], "a value ends at a comma, a bracket or the end of its line")
        self.scopes.pop()
        self.at += len(end)
        return found

    def entry(self, into):
        """Reads a key with its value, or what a file has that is included here."""
        place, key = self.place(), self.wanted(KEY, "a key has to stand here")
        if (key["bare"] or "").lower() == "include" and self.string[self.at : self.at + 1].isspace():
            included = self.included(place)
        else:
            self.take(AFTER_KEY)
            included = {key[key.lastgroup]: self.value(place)}
        self.doubles += [(it, value.place) for it, value in included.items() if it in into]
        into.update(included)

    def included(self, place):
        """Returns the entries of the file that is named here, as seen from this file's folder."""
        name = next(filter(None, self.wanted(INCLUDE, "the name of a file has to stand here").groups()))
        found, doubles = read(os.path.join(os.path.dirname(self.file), name), place)
        self.doubles += doubles
        return found

    def list(self):
        """Reads values up to the end of their list."""
        found = []
        while not self.has_ended("]"):
            found.append(self.value(self.place()))
            self.wanted(ENDED["]"], "a value of a list ends at a comma, a bracket or the end of its line")
        self.at += 1
        return found

    def value(self, place):
        """Reads one value, of the entry that begins at a place."""
        first = self.string[self.at : self.at + 1]
        if first == "{":
            self.at += 1
            return Value(self.map("}"), place)
        if first == "[":
            self.at += 1
            return Value(self.list(), place)
        if first == "'":
            return Value(self.wanted(SINGLE, "a text in quotes doesn't end")[1], place)
        if first == '"':
            return Value(self.unescaped(self.wanted(DOUBLE, "a text in quotes doesn't end")[1]), place)
        if first == "(":
            return Value(self.wanted(BLOCK, "a block ends with a line of one )")[1], place)
        return self.bare(self.wanted(BARE, "a value has to stand here")[1], place)

    def bare(self, text, place):
        """Returns what a text without quotes stands for."""
        if "\\" in text:
            return Value(self.unescaped(text), place)
        if text.startswith("$"):
            return self.variable(text[1:], place)
        return Value(plain(text), place)

    def variable(self, name, place):
        """Returns the value of the innermost key of this name before it, or of the environment."""
        if name.startswith(HASHED):
            return Value(f"${name}", place)
        for scope in reversed(self.scopes):
            if name in scope:
                scope[name].is_used = True
                return Value(scope[name].held, place)
        if name not in os.environ:
            raise Fault(place, f"nothing before has the name {name}, nor has the environment")
        found = Reader(os.environ[name], f"${name}")
        return Value(found.value(place).held, place)

    def unescaped(self, text):
        """Returns a text with what its escapes stand for; bytes that are no UTF-8 stay single."""

        def meant(escape):
            code = escape[1]
            if len(code) == 3:
                return bytes.fromhex(code[1:]).decode("ascii", "surrogateescape")
            if code not in ESCAPES:
                raise Fault(self.place(), f"\\{code} is no escape")
            return ESCAPES[code]

        return ESCAPE.sub(meant, text).encode("utf-8", "surrogateescape").decode("utf-8", "surrogateescape")


def plain(text):
    """Returns the truth value, number or text that a text without quotes is."""
    if text.lower() in TRUTHS:
        return TRUTHS[text.lower()]
    number = INTEGER.fullmatch(text)
    if number:
        power = "kmgtpe".find((number[2] or "").lower()) + 1 if number[2] else 0
        return int(number[1]) * (1024 if number[3] else 1000) ** power
    return float(text) if FLOAT.fullmatch(text) else text


def read(file, place=None):
    """Reads a file of a configuration.

    Returns the values by their keys, and of each entry that took another's place the key and where it stands. Raises Fault
    where the file can't be read, at the place that names it if there is one, and where it isn't in this format.
    """
    try:
        text = pathlib.Path(file).read_bytes().decode("utf-8", "surrogateescape")
    except OSError as error:
        raise Fault(place or file, f"{file} can't be read: {error.strerror}") from None
    reader = Reader(text, str(file))
    return reader.map(), reader.doubles
