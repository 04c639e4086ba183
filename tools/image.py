#!/usr/bin/env python3
r"""Encode a file of Cedar entities as a names file and an image.

    python3 tools/image.py SOURCE NAMES IMAGE

SOURCE is UTF-8. A line that begins with // is a comment; empty lines are
ignored. Every other line is one entity, with single spaces exactly as here:

    entity  = uid " " record [" in [" uid {", " uid} "]"] [" tags " fields]
    record  = "{}" | fields
    fields  = "{ " key ": " value {", " key ": " value} " }"
    set     = "[]" | "[" value {", " value} "]"
    value   = bool | long | string | uid | set | record | extension
    key     = identifier | string       a string only if not an identifier
    uid     = type "::" string          type: identifiers joined by "::"
    string  = '"' characters '"'        only \" and \\ escape; no controls
    long    = decimal digits, perhaps after "-", within 64 bits

    extension = decimal("12.5000")      always four fraction digits
              | ip("10.20.0.17")        IPv4 only
              | ip("10.20.0.0/16")      prefix 0 to 31
              | datetime("2026-11-02T07:30:00.000Z")    from year 0001
              | duration("90000ms")

No number has needless leading zeros, and zero has no sign. Keys, tag keys,
ancestors and entities strictly ascend, by the UTF-8 bytes of the key or of
the type and then the id. The elements of a set keep the order given.

NAMES holds every name in use (types, ids, keys, tag keys, String values, and
always the empty name), sorted by UTF-8 bytes, each ended by a newline. The
line at index i, from 0, is name i; name 0 is the empty name.

IMAGE is little-endian, for E entities and V nodes:

    u32 E, u32 V, u32 16, u32 16 + 4E
    E times  u32, the index from 0 of the first node of the entity
    V times  u32 kind, u32 field, u32 a, u32 b, i64 number

    kind           a              b           number
    1 Bool                                    0 or 1
    2 Long                                    the value
    3 String       name
    4 uid          type name      id name
    5 set          element count
    6 record       field count
    7 extension    1 decimal                  value times 10000
                   2 IPv4         see below   address, unsigned 32-bit
                   3 datetime                 ms since 1970-01-01T00:00Z
                   4 duration                 ms
    9 entity       type name      id name     tag count

For IPv4, b is 0 without a prefix, else the prefix plus 1. A blank is 0. A
set or record is followed by its children in turn. An entity is followed by
its attributes as one record, its ancestors as uids, and its tags as values.
The field of a record field or a tag is the name of its key; the field of an
entity is its ancestor count; any other field is 0.
"""

import datetime
import re
import struct
import sys

BOOL, LONG, STRING, UID, SET, RECORD, EXTENSION, ENTITY = 1, 2, 3, 4, 5, 6, 7, 9
DECIMAL, IPV4, DATETIME, DURATION = 1, 2, 3, 4

EPOCH = datetime.datetime(1970, 1, 1)
MILLISECOND = datetime.timedelta(milliseconds=1)

IDENTIFIER = r"[A-Za-z_][A-Za-z0-9_]*"
QUOTED = r'"((?:[^"\\\x00-\x1f\x7f-\x9f]|\\["\\])*)"'
KEY_TOKEN = re.compile(rf"({IDENTIFIER})|{QUOTED}")
UID_TOKEN = re.compile(rf"({IDENTIFIER}(?:::{IDENTIFIER})*)::{QUOTED}")
STRING_TOKEN = re.compile(QUOTED)
EXTENSION_TOKEN = re.compile(r'(decimal|ip|datetime|duration)\("([^"\\]*)"\)')
LONG_TOKEN = re.compile(r"-?[0-9]+")
BOOL_TOKEN = re.compile(r"true|false")

WHOLE_FORM = re.compile(r"0|-?[1-9][0-9]*")
DECIMAL_FORM = re.compile(r"(-?)(0|[1-9][0-9]*)\.([0-9]{4})")
IPV4_FORM = re.compile(r"([0-9]+)\.([0-9]+)\.([0-9]+)\.([0-9]+)(?:/([0-9]+))?")
DATETIME_FORM = re.compile(
    r"([0-9]{4})-([0-9]{2})-([0-9]{2})"
    r"T([0-9]{2}):([0-9]{2}):([0-9]{2})\.([0-9]{3})Z"
)


class FormError(Exception):
    """The source is out of form."""


def unescape(text):
    return re.sub(r'\\(["\\])', r"\1", text)


def order(*names):
    """The sort key of a name or a sequence of names: their UTF-8 bytes."""
    return tuple(name.encode() for name in names)


def signed_64(digits):
    """The value of a sign and digits, which must fit an i64."""
    # The length test keeps int() from very long input.
    if len(digits.lstrip("-0")) > 19 or not -(2**63) <= int(digits) < 2**63:
        raise ValueError("number beyond 64 bits")
    return int(digits)


def whole(text):
    if not WHOLE_FORM.fullmatch(text):
        raise ValueError("number out of form")
    return signed_64(text)


def small(text, most):
    """A number from 0 to `most`, without needless leading zeros."""
    if not WHOLE_FORM.fullmatch(text) or len(text) > len(str(most)):
        raise ValueError("IPv4 address out of form")
    if int(text) > most:
        raise ValueError(f"{text} in an IPv4 address is more than {most}")
    return int(text)


# Each of these returns the b and the number of an extension node.


def read_decimal(text):
    match = DECIMAL_FORM.fullmatch(text)
    if not match or text == "-0.0000":
        raise ValueError("decimal out of form")
    return 0, signed_64("".join(match.groups()))


def read_ipv4(text):
    match = IPV4_FORM.fullmatch(text)
    if not match:
        raise ValueError("IPv4 address out of form")
    *parts, prefix = match.groups()
    address = int.from_bytes(bytes(small(part, 255) for part in parts), "big")
    return 0 if prefix is None else small(prefix, 31) + 1, address


def read_datetime(text):
    match = DATETIME_FORM.fullmatch(text)
    if not match:
        raise ValueError("datetime out of form")
    *fields, millisecond = (int(group) for group in match.groups())
    try:
        moment = datetime.datetime(*fields, millisecond * 1000)
    except ValueError as error:
        raise ValueError(f"no such datetime: {error}") from None
    return 0, (moment - EPOCH) // MILLISECOND


def read_duration(text):
    if not text.endswith("ms"):
        raise ValueError("duration not in ms")
    return 0, whole(text[:-2])


EXTENSIONS = {
    "decimal": (DECIMAL, read_decimal),
    "ip": (IPV4, read_ipv4),
    "datetime": (DATETIME, read_datetime),
    "duration": (DURATION, read_duration),
}


class Line:
    """Reads one entity from `text`, adding its nodes to `nodes`.

    A node is (kind, field, a, b, number); a name in it is still a str.
    """

    def __init__(self, text, nodes):
        self.text = text
        self.nodes = nodes
        self.at = 0

    def fail(self, message, at=None):
        column = (self.at if at is None else at) + 1
        raise FormError(f"column {column}: {message}")

    def take(self, literal):
        """Step over `literal` if it is next, and say whether it was."""
        found = self.text.startswith(literal, self.at)
        if found:
            self.at += len(literal)
        return found

    def need(self, literal):
        if not self.take(literal):
            self.fail(f"expected {literal!r}")

    def match(self, token):
        match = token.match(self.text, self.at)
        if match:
            self.at = match.end()
        return match

    def checked(self, reader, text, at):
        try:
            return reader(text)
        except ValueError as error:
            self.fail(str(error), at)

    def entity(self):
        """Read the whole line; return the type and id of the entity."""
        place = self.reserve()
        uid = self.uid()
        self.need(" ")
        self.record(0)
        ancestors = self.ancestors() if self.take(" in [") else 0
        tags = self.fields("tag key") if self.take(" tags ") else 0
        if self.at < len(self.text):
            self.fail("expected the end of the line")
        self.nodes[place] = (ENTITY, ancestors, *uid, tags)
        return uid

    def reserve(self):
        """Make room for a node whose counts are not yet known."""
        self.nodes.append(None)
        return len(self.nodes) - 1

    def uid(self):
        match = self.match(UID_TOKEN)
        if not match:
            self.fail("expected an entity uid")
        return match[1], unescape(match[2])

    def ancestors(self):
        count, last = 0, None
        while True:
            start = self.at
            uid = self.uid()
            if last is not None and order(*uid) <= order(*last):
                self.fail("ancestor not ascending", start)
            self.nodes.append((UID, 0, *uid, 0))
            count, last = count + 1, uid
            if not self.take(", "):
                self.need("]")
                return count

    def key(self):
        start = self.at
        match = self.match(KEY_TOKEN)
        if not match:
            self.fail("expected a key")
        if match[1] is not None:
            return match[1]
        key = unescape(match[2])
        if re.fullmatch(IDENTIFIER, key):
            self.fail("key quoted without need", start)
        return key

    def fields(self, what):
        """Read one or more keys and values in braces; return how many."""
        self.need("{ ")
        count, last = 0, None
        while True:
            start = self.at
            key = self.key()
            if last is not None and order(key) <= order(last):
                self.fail(f"{what} not ascending", start)
            self.need(": ")
            self.value(key)
            count, last = count + 1, key
            if not self.take(", "):
                self.need(" }")
                return count

    def record(self, field):
        place = self.reserve()
        count = 0 if self.take("{}") else self.fields("key")
        self.nodes[place] = (RECORD, field, count, 0, 0)

    def set(self, field):
        place = self.reserve()
        self.need("[")
        count = 0
        if not self.take("]"):
            self.value(0)
            count = 1
            while self.take(", "):
                self.value(0)
                count += 1
            self.need("]")
        self.nodes[place] = (SET, field, count, 0, 0)

    def value(self, field):
        """Read a value; `field` is its key, or 0 if it has none."""
        start = self.at
        if self.text.startswith("{", start):
            self.record(field)
        elif self.text.startswith("[", start):
            self.set(field)
        elif match := self.match(UID_TOKEN):
            self.nodes.append((UID, field, match[1], unescape(match[2]), 0))
        elif match := self.match(STRING_TOKEN):
            self.nodes.append((STRING, field, unescape(match[1]), 0, 0))
        elif match := self.match(EXTENSION_TOKEN):
            kind, reader = EXTENSIONS[match[1]]
            b, number = self.checked(reader, match[2], start)
            self.nodes.append((EXTENSION, field, kind, b, number))
        elif match := self.match(LONG_TOKEN):
            number = self.checked(whole, match[0], start)
            self.nodes.append((LONG, field, 0, 0, number))
        elif match := self.match(BOOL_TOKEN):
            self.nodes.append((BOOL, field, 0, 0, int(match[0] == "true")))
        else:
            self.fail("expected a value")


def read(source):
    """Read the bytes of a source; return the first nodes and the nodes."""
    if source and not source.endswith(b"\n"):
        raise FormError("the last line has no newline")
    firsts, nodes, last = [], [], None
    for number, raw in enumerate(source.split(b"\n"), 1):
        try:
            text = raw.decode()
            if not text or text.startswith("//"):
                continue
            firsts.append(len(nodes))
            uid = Line(text, nodes).entity()
            if last is not None and order(*uid) <= order(*last):
                raise FormError("entity not ascending")
            last = uid
        except UnicodeDecodeError as error:
            raise FormError(f"line {number}: not UTF-8: {error.reason}") from None
        except RecursionError:
            raise FormError(f"line {number}: nested too deeply") from None
        except FormError as error:
            raise FormError(f"line {number}: {error}") from None
    return firsts, nodes


def encode(firsts, nodes):
    """Number the names; return the bytes of the names file and the image."""
    used = {item for node in nodes for item in node if isinstance(item, str)}
    names = sorted(used | {""}, key=order)
    index = {name: i for i, name in enumerate(names)}
    image = bytearray()
    image += struct.pack("<4I", len(firsts), len(nodes), 16, 16 + 4 * len(firsts))
    image += struct.pack(f"<{len(firsts)}I", *firsts)
    for node in nodes:
        items = (index[item] if isinstance(item, str) else item for item in node)
        image += struct.pack("<4Iq", *items)
    return "".join(name + "\n" for name in names).encode(), bytes(image)


def main(arguments):
    if len(arguments) != 3:
        sys.exit("usage: image.py SOURCE NAMES IMAGE")
    source_path, names_path, image_path = arguments
    try:
        with open(source_path, "rb") as file:
            source = file.read()
        names, image = encode(*read(source))
        for path, content in ((names_path, names), (image_path, image)):
            with open(path, "wb") as file:
                file.write(content)
    except FormError as error:
        sys.exit(f"image.py: {source_path}: {error}")
    except OSError as error:
        sys.exit(f"image.py: {error}")


if __name__ == "__main__":
    main(sys.argv[1:])
