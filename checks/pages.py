"""The pages of the documents for the scripts beside this one: their fenced blocks, commands and tables.

Needs Python 3.9 or later and its standard library alone.
"""

import os
import re
from dataclasses import dataclass

from rehearsal import ROOT


@dataclass
class Block:
    """A fenced block: the line on which it begins, its words, its text."""

    line: int
    words: list
    text: str


def pages():
    """The pages: their paths from the root of the repository."""
    return ["README.md", "CHANGELOG.md"] + sorted(f"docs/{name}" for name in os.listdir(os.path.join(ROOT, "docs")))


def read(path):
    """The text of a file of the repository."""
    with open(os.path.join(ROOT, path), encoding="utf-8") as file:
        return file.read()


def blocks_of(text):
    """The fenced blocks of a page."""
    blocks, opened = [], None
    for number, line in enumerate(text.split("\n"), start=1):
        if opened is None and line.startswith("```"):
            opened = Block(number, line[3:].split(), "")
        elif opened is not None and line == "```":
            blocks.append(opened)
            opened = None
        elif opened is not None:
            opened.text += line + "\n"
    return blocks


def commands_of(text):
    """The commands of a console block, with what must come of each."""
    commands = []
    for line in text.removesuffix("\n").split("\n"):
        if line.startswith("$ "):
            commands.append([line[2:], []])
        elif line.startswith("> ") and not commands[-1][1]:
            commands[-1][0] += "\n" + line[2:]
        else:
            commands[-1][1].append(line)
    return commands


def cells_of(line):
    """The cells of a line of a table."""
    return [cell.strip().replace("\\|", "|") for cell in re.split(r"(?<!\\)\|", line)[1:-1]]


def tables_of(text):
    """The tables of a page: the line of each, the cells of its head, and of its rows."""
    tables, rows, begun = [], [], 0
    for number, line in enumerate(text.split("\n") + [""], start=1):
        if line.startswith("|"):
            begun = begun or number
            rows.append(cells_of(line))
        elif rows:
            tables.append((begun, rows[0], rows[2:]))
            rows, begun = [], 0
    return tables
