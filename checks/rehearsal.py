"""Rehearsal files for the scripts beside this one: writing events, playing them, reading the listing.

docs/REHEARSAL.md says what events and listings are. Needs Python 3.9 or later and its standard library alone.
"""

import os
import subprocess
import sys
from dataclasses import dataclass

ROOT = os.path.dirname(os.path.dirname(os.path.abspath(__file__)))
DEFAULT_PROGRAM = os.path.join(ROOT, "ns_server")


class Unplayed(Exception):
    """The program didn't play a rehearsal to its end."""


@dataclass
class Line:
    """One line of a listing: its first word, its further words, and the bytes that follow it."""

    kind: str
    words: list
    content: bytes = b""


@dataclass
class Reply:
    """A response: status, fields in order, body."""

    status: int
    head: list
    body: bytes

    @staticmethod
    def of(content):
        head, _, body = content.partition(b"\r\n\r\n")
        lines = head.decode("utf-8", "replace").split("\r\n")
        return Reply(int(lines[0].split(" ")[1]), lines, body)

    def field(self, name):
        """The value of the first field of this name, or None."""
        for line in self.head[1:]:
            key, _, value = line.partition(": ")
            if key.lower() == name.lower():
                return value
        return None


def request(method, target, fields=(), body=b"", version="HTTP/1.1"):
    """The bytes of a request. Host and Content-Length are put in where they are wanted and not given."""
    fields = list(fields)
    names = [name.lower() for name, _ in fields]
    if "host" not in names and version == "HTTP/1.1":
        fields.insert(0, ("Host", "l"))
    if body and "content-length" not in names:
        fields.append(("Content-Length", str(len(body))))
    head = f"{method} {target} {version}\r\n" + "".join(f"{key}: {value}\r\n" for key, value in fields)
    return head.encode() + b"\r\n" + body


class Rehearsal:
    """Events, put one behind another, and then played at once."""

    def __init__(self):
        self.events = bytearray()

    def line(self, text):
        self.events += text.encode() + b"\n"

    def block(self, line, content):
        self.line(f"{line} {len(content)}")
        self.events += content + b"\n"

    def define(self, script):
        self.block("define", script)

    def page(self, path, content):
        self.block(f"page {path}", content)

    def ask(self, content):
        """A connection with this input, served to its end by worker 0."""
        self.block("connect 0", content)
        self.line("run 0")

    def play(self, program):
        """The lines of the listing. Raises Unplayed where the program ends with another status than 0."""
        played = subprocess.run([program, "rehearse"], input=bytes(self.events), capture_output=True, check=False)
        if played.returncode != 0:
            said = played.stderr.decode("utf-8", "replace").strip()
            raise Unplayed(f"status {played.returncode}: {said}")
        return lines_of(played.stdout)


def lines_of(listing):
    """The lines of a listing."""
    lines = []
    at = 0
    while at < len(listing):
        end = listing.index(b"\n", at)
        kind, *words = listing[at:end].decode().split(" ")
        at = end + 1
        content = b""
        if kind == "response" or (kind == "script" and len(words) == 4) or words[:1] == ["error"]:
            size = int(words[-1])
            content = listing[at:at + size]
            at += size + 1
        lines.append(Line(kind, words, content))
    return lines


def program_of(words):
    """The path of the program: the one word of the command line, or the script at the top of the repository."""
    if len(words) > 1:
        print("one argument at most: the path of the program", file=sys.stderr)
        sys.exit(2)
    program = words[0] if words else DEFAULT_PROGRAM
    if not os.access(program, os.X_OK):
        print(f"no program at {program}", file=sys.stderr)
        sys.exit(2)
    return os.path.abspath(program)
