"""Reads one XML file, which may be hostile, into elements that keep the place of each attribute and character.

lxml decides what is well-formed, but it gives only lines, so a scan of the same text gives the places. The scan comes
first and refuses what could make parsing slow or large: declarations of entities, and very many or very deep elements.
So lxml sees no entities but the five of XML, and references to characters. The scan also refuses each element, attribute
and text that tables.toml neither uses nor knows to mean nothing."""

from __future__ import annotations

import bisect
import codecs
import html
import os
import re
import stat
from array import array
from collections import Counter
from collections.abc import Iterator
from dataclasses import dataclass, field

from lxml import etree

from .common import IS_NAME, TABLES, FileFault, Faults, Place, Refused, shown

MOST_BYTES, MOST_ELEMENTS, MOST_ATTRIBUTES, MOST_DEPTH = 4 * 2**20, 100_000, 64, 64
USED = {tag: (set(attributes.split()), set(children.split())) for tag, (attributes, children) in TABLES["used"].items()}
IGNORED = {kind: frozenset(names.split()) for kind, names in TABLES["ignored"].items()}
# For each element, what it may have once: its children, and with each of them those beside which it can't be.
ONCE = {tag: {it: set(group.split("|")) for group in groups.split() for it in group.split("|")} for tag, groups in TABLES["once"].items()}
ADVICE: dict[str, str] = {tag: f": {text}" for tag, text in TABLES["advice"]["elements"].items()}
MOST_NAMES = 200
DECLARED = re.compile(rb"""<\?xml\s[^>]{0,200}?encoding\s*=\s*["']([\w.:-]{1,40})["']""")
NAME = r"""[^\s<>/="'&!?]++"""
VALUE = r"""(?:"[^"<]*+"|'[^'<]*+')"""
ATTRIBUTE = re.compile(rf"\s++({NAME})\s*+=\s*+({VALUE})")
PIECE = re.compile(
    rf"""<!--.*?-->|<\?.*?\?>|<!DOCTYPE\s[^>\[]*+>|<!\[CDATA\[(?P<cdata>.*?)\]\]>|(?P<text>[^<]++)
    |</{NAME}\s*+(?P<end>>)|<(?P<start>{NAME})(?P<attributes>(?:\s++{NAME}\s*+=\s*+{VALUE}){{0,{MOST_ATTRIBUTES}}}+)
    \s*+(?P<empty>/?)>""",
    re.DOTALL | re.VERBOSE)
MANY = re.compile(rf"<{NAME}(?:\s++{NAME}\s*+=\s*+{VALUE}){{{MOST_ATTRIBUTES + 1}}}")
WRITTEN = re.compile(r"&(?:(?:lt|gt|amp|apos|quot|#[xX0-9A-Fa-f]{1,8});|([^;&\s]{0,60});?)|\r\n?|[\t\n]")


class Source:
    """The text of one file."""

    def __init__(self, path: str, text: str) -> None:
        self.path, self.text = path, text
        self.starts = [0, *(it.end() for it in re.finditer(r"\r\n?|\n", text))]

    def place(self, offset: int) -> Place:
        """Return the place of a character."""
        line = bisect.bisect_right(self.starts, offset)
        return Place(self.path, line, offset - self.starts[line - 1] + 1)


@dataclass(slots=True)
class Code:
    """A text out of an XML file, with the offset in the file of each of its characters."""

    source: Source
    end: int
    text: str = ""
    offsets: array[int] = field(default_factory=lambda: array("I"))

    def place(self, index: int) -> Place:
        """Return the place of a character, or that after the text."""
        return self.source.place(self.offsets[index] if index < len(self.offsets) else self.end)

    def after(self, prefix: str) -> Code:
        """Return this text after a prefix, which has the place of its first character."""
        first = [self.offsets[0] if self.offsets else self.end]
        return Code(self.source, self.end, prefix + self.text, array("I", first * len(prefix)) + self.offsets)

    def add(self, kind: str, span: tuple[int, int], faults: Faults) -> None:
        """Add a stretch of the file, with references and line ends replaced as XML has it; in CDATA line ends alone."""
        (at, end), texts = span, [self.text]
        for found in WRITTEN.finditer(self.source.text, at, end):
            if kind == "cdata" and found[0][0] in "&\t":
                continue
            if found[1] is not None:
                faults.refuse(self.source.place(found.start()), f"the entity {shown(found[1])} is not declared")
            blank = " " if kind == "attributes" or found[0] == "\t" else "\n"
            texts += [self.source.text[at:found.start()], html.unescape(found[0])[:1] if found[0][0] == "&" else blank]
            self.offsets.extend(range(at, found.start() + 1))
            at = found.end()
        self.offsets.extend(range(at, end))
        self.text, self.end = "".join([*texts, self.source.text[at:end]]), end


class Node:
    """An element with the attributes and children that are used. If it is not used itself, it hangs on no parent.

    One that is left out was refused, and the rest is looked at without it (lint.py)."""

    def __init__(self, tag: str, source: Source, offset: int) -> None:
        self.tag, self.source, self.offset, self.is_used, self.is_left_out = tag, source, offset, True, False
        self.attributes: dict[str, Code] = {}
        self.text = Code(source, offset)
        self.children: list[Node] = []

    def made(self, tag: str, *children: Node, **attributes: str) -> Node:
        """Return an element that is in no file, with the place of this one."""
        node = Node(tag, self.source, self.offset)
        node.children += children
        for name, text in attributes.items():
            node.attributes[name] = Code(self.source, self.offset, text, array("I", [self.offset] * len(text)))
        return node

    @property
    def place(self) -> Place:
        """The place of the element's tag."""
        return self.source.place(self.offset)

    def get(self, name: str) -> str:
        """Return an attribute without blanks at its ends, or nothing."""
        return self.attributes[name].text.strip() if name in self.attributes else ""

    def at(self, name: str) -> Place:
        """Return the place of an attribute's value, or that of the element if it has none."""
        return self.code(name).place(0)

    def code(self, name: str) -> Code:
        """Return an attribute with the place of each character."""
        return self.attributes.get(name) or Code(self.source, self.offset)

    def all(self, *tags: str) -> Iterator[Node]:
        """Return the children with one of these tags."""
        return (it for it in self.children if it.tag in tags)


def read_source(path: str, faults: Faults) -> Source:
    """Return the text of a file, by its byte order mark or the encoding that it declares."""
    try:
        about = os.stat(path)
        if not stat.S_ISREG(about.st_mode):
            raise FileFault(f"{path}: this is no file that can be read")
        if about.st_size > MOST_BYTES:
            raise faults.refuse(Place(path, 1, 1), f"a file has at most {MOST_BYTES:,} bytes")
        with open(path, "rb") as file:
            data = file.read(MOST_BYTES)
    except (OSError, ValueError) as fault:
        raise FileFault(f"{shown(path)}: {getattr(fault, 'strerror', None) or fault}") from None
    if data[:2] in (b"<\0", b"\0<"):
        raise faults.refuse(Place(path, 1, 1), "this is UTF-16 without a byte order mark: save the file as UTF-8")
    declared = DECLARED.match(data)
    named = declared[1].decode().upper() if declared else "UTF-8"
    encoding = "utf-16" if data.startswith((codecs.BOM_UTF16_LE, codecs.BOM_UTF16_BE)) else TABLES["encodings"].get(named)
    if encoding is None:
        raise faults.refuse(Place(path, 1, 1), f"the encoding {named} is not supported: save the file as UTF-8")
    try:
        return Source(path, data.decode(encoding))
    except UnicodeDecodeError as fault:
        before = Source(path, data[:fault.start].decode(encoding))
        raise faults.refuse(before.place(len(before.text)), f"this is no text in the encoding {encoding}") from None


def read_tag(found: re.Match[str], parent: Node, faults: Faults, ignored: Counter[str]) -> Node:
    """Return the element of a start tag. What is not known is refused, and what means nothing is counted."""
    node = Node(found["start"], parent.source, found.start())
    node.is_used = parent.is_used and node.tag in USED[parent.tag][1]
    if node.is_used:
        first = next(parent.all(*ONCE.get(parent.tag, {}).get(node.tag, ())), None)
        if first:
            faults.refuse(node.place, f"{parent.tag} has a second part {node.tag}, beside {first.tag} at {first.place}: keep one of the two")
        parent.children.append(node)
    elif parent.is_used and not IGNORED["elements"].isdisjoint((node.tag, f"{parent.tag}.{node.tag}", f"{parent.tag}.*")):
        ignored[f"element {node.tag}"] += 1
        if node.tag == "Attribute":
            count_name(found, ignored)
    elif parent.is_used:
        faults.refuse(node.place, f"the element {shown(node.tag)} in {parent.tag} is not known{ADVICE.get(node.tag, '')}")
    for one in ATTRIBUTE.finditer(node.source.text, *found.span("attributes")) if node.is_used else ():
        name, code = one[1], Code(node.source, one.start(2) + 1)
        code.add("attributes", (one.start(2) + 1, one.end(2) - 1), faults)
        if name in USED[node.tag][0]:
            node.attributes[name] = code
        elif not IGNORED["attributes"].isdisjoint((name, f"{node.tag}.{name}", f"{node.tag}.*")):
            ignored[f"attribute {name}"] += 1
        elif not name.startswith(("xmlns:", "xsi:")):
            faults.refuse(node.source.place(one.start(1)), f"the attribute {shown(name)} of {node.tag} is not known")
    is_name = node.is_used and "Name" in USED[node.tag][0] and node.tag not in ("System", "Parameter")
    if is_name and not IS_NAME.fullmatch(node.get("Name")):
        faults.refuse(node.at("Name"), f"{shown(node.get('Name'))!r} is no name: a name is letters, digits and underscores")
    return node


def count_name(found: re.Match[str], ignored: Counter[str]) -> None:
    """Count an element Attribute under its Name, which says what a tool keeps there."""
    name = next((one[2][1:-1] for one in ATTRIBUTE.finditer(found.string, *found.span("attributes")) if one[1] == "Name"), "")
    if sum(it.startswith("element Attribute ") for it in ignored) < MOST_NAMES:
        ignored[f"element Attribute {shown(html.unescape(name))}"] += 1


def scan(source: Source, faults: Faults, ignored: Counter[str]) -> tuple[list[Node], list[str]]:
    """Return the root of a text, if it is one of those that are known, and the tags of all elements."""
    at, stack, tags = 0, [Node("a file", source, 0)], []
    top = stack[0]
    while at < len(source.text):
        found = PIECE.match(source.text, at)
        if found is None:
            reason = "this is no well-formed XML"
            if source.text.startswith("<!DOCTYPE", at):
                reason = "a DOCTYPE with declarations of its own is not accepted"
            elif MANY.match(source.text, at):
                reason = f"an element has more than {MOST_ATTRIBUTES} attributes"
            raise faults.refuse(source.place(at), reason)
        kind, node = found.lastgroup, stack[-1]
        if kind == "empty":
            tags.append(found["start"])
            if len(tags) > MOST_ELEMENTS or len(stack) > MOST_DEPTH:
                limits = f"{MOST_ELEMENTS:,} elements, {MOST_DEPTH} inside each other"
                raise faults.refuse(source.place(at), f"a file has at most {limits}")
            stack.append(read_tag(found, node, faults, ignored))
        if (kind == "end" or found["empty"]) and len(stack) > 1:
            stack.pop()
        elif kind in ("text", "cdata") and node.tag in ("ST", "Other"):
            if node.get("Text") and found[kind].strip():
                faults.refuse(source.place(found.start(kind)), f"{node.tag} has a text beside its attribute Text: keep one of the two")
            node.text.add(kind, found.span(kind), faults)
        elif kind in ("text", "cdata") and found[kind].strip() and node.is_used and node is not top:
            faults.refuse(source.place(found.start(kind)), f"{node.tag} has a text, which is not known")
        at = found.end()
    return top.children, tags


def read_document(path: str, faults: Faults, ignored: Counter[str]) -> Node:
    """Read an XML file. What is no such file is refused with its place."""
    source = read_source(path, faults)
    roots, tags = scan(source, faults, ignored)
    parser = etree.XMLParser(resolve_entities=False, no_network=True, load_dtd=False, huge_tree=False, encoding="utf-8")
    try:
        elements = etree.fromstring(source.text.encode("utf-8"), parser).iter("*")
    except (etree.XMLSyntaxError, ValueError) as fault:
        line, column = getattr(fault, "position", (1, 1))
        message = shown(re.sub(r", line \d+, column \d+.*", "", str(fault)).strip())
        place = Place(path, max(line, 1), max(column, 1))
        raise faults.refuse(place, f"this is no well-formed XML: {message}") from None
    if [it.tag for it in elements] != tags:
        raise faults.refuse(Place(path, 1, 1), "elements with a namespace are not supported")
    if not roots:
        raise Refused
    return roots[0]
