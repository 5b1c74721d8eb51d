"""The source line with a mark that the program shows after a note with a place (docs/formats/program.md)."""

import re

PLACE = re.compile(rb"([^\n]*?):([0-9]+):([0-9]+): (?:E[0-9][0-9]|stop): ")
MOST_SHOWN = 200
MOST_BEFORE = 100
BYTE_ORDER_MARK = b"\xef\xbb\xbf"


class LaterText(bytes):
    """A text of a declaration after another one: its byte order mark is not shown."""


def source_line(text, line, column):
    """Returns the line of a text, cut round the byte in this column, and a line with a mark under the byte."""
    if isinstance(text, LaterText) and text.startswith(BYTE_ORDER_MARK) and line == 1:
        text, column = text[len(BYTE_ORDER_MARK) :], column - len(BYTE_ORDER_MARK)
    whole = text.split(b"\n")[line - 1].removesuffix(b"\r")
    at = column - 1
    first = min(max(at - MOST_BEFORE, 0), max(len(whole) - MOST_SHOWN, 0))
    part = bytes(it if it == 9 or 32 <= it < 127 else 63 for it in whole[first : first + MOST_SHOWN])
    before = bytes(9 if it == 9 else 32 for it in whole[first:at]).ljust(at - first)
    return part + b"\n" + before + b"^\n"


def with_source(notes, texts):
    """Returns notes, each of which that begins with a place with its source line. `texts` has the text of each file by its name."""
    return b"".join(note + source_of(note, texts) for note in notes.splitlines(keepends=True))


def source_of(note, texts):
    """Returns the source line of the place with which a note begins, or nothing if it does not begin with one."""
    found = PLACE.match(note)
    if not found:
        return b""
    name, line, column = found[1], int(found[2]), int(found[3])
    return source_line(texts[name], line, column)
