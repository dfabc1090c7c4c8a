"""A second reader of requests, for the scripts beside this one: what an input is, as docs/SERVICE.md has it.

It shares nothing with the server. It takes a whole input, so it knows nothing of pieces, and it reads a head by one
regular expression of RFC 9112's grammar in the form that docs/SERVICE.md states. Needs Python 3.9 or later and its
standard library alone.
"""

import re
from dataclasses import dataclass
from urllib.parse import unquote_to_bytes

MOST_HEAD = 16_384
MOST_FIELDS = 100
MOST_BODY = 8_388_608
MOST_SENT = 33_554_432
MOST_LINE = 1_024
MOST_TRAILER = 16_384
METHODS = (b"GET", b"HEAD", b"POST", b"PUT", b"DELETE")

TOKEN = rb"[0-9A-Za-z!#$%&'*+\-.^_`|~]+"
START = rb"(?:\r?\n)*(" + TOKEN + rb") ([\x21-\x7e\x80-\xff]+) HTTP/1\.([01])\r?\n"
FIELD = rb"(" + TOKEN + rb"):([\t\x20-\x7e\x80-\xff]*)\r?\n"
HEAD = re.compile(START + rb"((?:" + FIELD + rb")*)\r?\n")
# Whole lines that some head begins with.
FRONT = re.compile(rb"(?:\r?\n)*(?:" + START[len(rb"(?:\r?\n)*"):] + rb"(?:" + FIELD + rb")*)?")
FIELDS = re.compile(FIELD)
TEXT = rb"[\t\x20-\x7e\x80-\xff]"
CHUNK_LINE = re.compile(rb"([0-9A-Fa-f]{1,15})[ \t]*(?:;" + TEXT + rb"*)?\r\n")
# What some chunk line, some line of a trailer begins with.
CHUNK_FRONT = re.compile(rb"(?:[0-9A-Fa-f]{1,15}[ \t]*(?:;" + TEXT + rb"*)?\r?)?")
ABSOLUTE = re.compile(rb"http://[^/?]+(?=[/?]|\Z)")


@dataclass
class Request:
    """A whole request, and how many bytes of the input it took."""

    method: bytes
    target: bytes
    minor: int
    fields: list
    body: bytes
    used: int

    def segments(self):
        """The decoded segments of the path."""
        return segments_of(self.target)

    def url(self):
        """The path as a script sees it."""
        return b"/" + b"/".join(self.segments())

    def query(self):
        return self.target.partition(b"?")[2]

    def closes(self):
        """Whether it asks that the connection be closed."""
        elements = [element.strip(b" \t").lower() for name, value in self.fields if name.lower() == b"connection"
                    for element in value.split(b",")]
        return self.minor == 0 or b"close" in elements


@dataclass
class Refused:
    """An input that is refused, and the status of its reply."""

    status: int


class End:
    """An input without a byte."""


class Truncated:
    """Less than a request."""


class Stop(Exception):
    """What an input is, found somewhere within."""

    def __init__(self, found):
        super().__init__()
        self.found = found


def read(content):
    """What an input is: a Request, Refused, End or Truncated."""
    if not content:
        return End()
    head = HEAD.match(content[:MOST_HEAD])
    if head is None or not is_utf8(head[2]):
        return without_head(content)
    try:
        return with_head(content, head)
    except Stop as stop:
        return stop.found


def is_utf8(content):
    try:
        content.decode("utf-8")
    except UnicodeDecodeError:
        return False
    return True


def without_head(content):
    """What an input is that doesn't begin with a head."""
    window = content[:MOST_HEAD]
    lines = window[:window.rfind(b"\n") + 1]
    front = FRONT.fullmatch(lines)
    if front is None or front[2] is not None and not is_utf8(front[2]):
        return Refused(400)
    return Refused(431) if len(content) >= MOST_HEAD else Truncated()


def with_head(content, head):
    fields = [(name, value.strip(b" \t")) for name, value in FIELDS.findall(head[4])]
    method, target, minor = head[1], head[2], int(head[3])
    if len(fields) > MOST_FIELDS:
        return Refused(431)
    if method not in METHODS:
        return Refused(501)
    chunked, length = framing(fields, minor)
    if sum(name.lower() == b"host" for name, _ in fields) not in ((1,) if minor else (0, 1)):
        return Refused(400)
    if not target.startswith(b"/") and not ABSOLUTE.match(target):
        return Refused(400)
    if any(segment in (b".", b"..") or re.search(rb"[/\\\0]", segment) for segment in segments_of(target)):
        return Refused(400)
    begin = head.end()
    body, end = chunks(content, begin) if chunked else (content[begin:begin + length], begin + length)
    return Request(method, target, minor, fields, body, end) if end <= len(content) else Truncated()


def framing(fields, minor):
    """Whether the body is chunked, and its length where it isn't."""
    codings = [value for name, value in fields if name.lower() == b"transfer-encoding"]
    lengths = [value for name, value in fields if name.lower() == b"content-length"]
    if codings and [coding.lower() for coding in codings] != [b"chunked"]:
        raise Stop(Refused(501))
    if codings and (minor == 0 or lengths):
        raise Stop(Refused(400))
    if any(not re.fullmatch(rb"[0-9]{1,19}", value) for value in lengths) or len(set(lengths)) > 1:
        raise Stop(Refused(400))
    length = int(lengths[0]) if lengths else 0
    if length > MOST_BODY:
        raise Stop(Refused(413))
    return bool(codings), length


def segments_of(target):
    """The decoded segments of a target's path."""
    path = target.partition(b"?")[0]
    if path.startswith(b"http://"):
        path = path[len(b"http://"):].partition(b"/")[2]
    return [unquote_to_bytes(segment) for segment in path.split(b"/") if segment]


def chunks(content, begin):
    """The body in chunks that begins there, and where it ends."""
    at, body = begin, b""
    while True:
        line = chunk_line(content, at)
        size, at = int(line[1], 16), line.end()
        if len(body) + size > MOST_BODY:
            raise Stop(Refused(413))
        over(at - begin)
        if size == 0:
            end = trailer(content, at)
            over(end - begin)
            return body, end
        body += content[at:at + size]
        at += size
        ends(content, at)
        at += 2


def over(sent):
    if sent > MOST_SENT:
        raise Stop(Refused(413))


def chunk_line(content, at):
    """The chunk line that stands there."""
    window = content[at:at + MOST_LINE]
    line = CHUNK_LINE.match(content, at, at + MOST_LINE)
    if line is not None:
        return line
    room = MOST_LINE - (1 if window.endswith(b"\r") else 2)
    raise Stop(Truncated() if CHUNK_FRONT.fullmatch(window) and len(window) <= room else Refused(400))


def ends(content, at):
    """Goes on where a line end stands there."""
    there = content[at:at + 2]
    if there != b"\r\n":
        raise Stop(Truncated() if b"\r\n".startswith(there) else Refused(400))


def trailer(content, begin):
    """Where the trailer ends that begins there."""
    at = begin
    while True:
        line = re.compile(TEXT + rb"*").match(content, at)
        stop = min(line.end(), begin + MOST_TRAILER)
        there = content[stop:stop + 2]
        full = stop + 2 - begin > MOST_TRAILER
        if not full and there == b"\r\n":
            at = stop + 2
            if not line[0]:
                return at
            continue
        if stop == line.end() and not b"\r\n".startswith(there[:MOST_TRAILER - (stop - begin)]):
            raise Stop(Refused(400))
        raise Stop(Refused(431) if len(content) - begin >= MOST_TRAILER else Truncated())
