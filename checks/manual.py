#!/usr/bin/env python3
"""Runs the examples of the manual, and compares what comes with what the manual says.

    checks/manual.py [--model | --program PATH]

The manual is README.md and the pages of docs/reference. An example of it is an input of `try` and what is printed for it:

- two blocks, each between lines of three backticks: one that begins with the word `input`, and behind it one that begins
  with the word `output`. In `input NAME` the input stands behind the schema of that name, which is a block `schema NAME` on
  the same page;
- a row of a table that begins with the columns `Input` and `Output`. Its first code is the input, and each code of its
  second cell is a line of the output; a cell without code is an empty one. In ``Input behind `NAME` `` it is as above;
- a block whose lines are indented by four spaces and begin with `$ `: a command for the shell at the top of the repository,
  and what it prints.

The status that is wanted of an input follows from the output: that of the fault in its last line, else 1 where a line tells
a refusal, and 0 where none does. The files `examples/*-try.txt` are examples too, each with its output beside it; their
status is 0, or N where the first line is `; status N`.

Prints each example that differs, and each place of the manual that is written in no such way. The status is 0 where there
is none. With `--model` the model of the language answers, in place of the program.
"""

import argparse
import pathlib
import re
import shlex
import subprocess
import sys
from typing import NamedTuple

ROOT = pathlib.Path(__file__).resolve().parent.parent
PAGES = [ROOT / "README.md", *sorted((ROOT / "docs" / "reference").glob("*.md"))]
FENCE = "```"
INDENT = " " * 4
CODE = re.compile(r"`([^`]*)`")
COLUMNS = re.compile(r"\| Input(?: behind `(?P<front>[^`]*)`)? \| Output \|")
OUTPUT_LINE = re.compile(r"\d+ \d+\.\d+ |fault [a-z]+( \d|$)")
STATUSES = {"words": 2, "text": 3, "schema": 3, "script": 3, "source": 6, "memory": 8, "input": 9}


class Example(NamedTuple):
    """An example: where it stands, its input or its command, the output, and the status, None where it isn't said."""

    place: str
    input: str | None
    command: str | None
    output: str
    status: int | None


class Trouble(Exception):
    """A place of a page that is written in no way in which examples are."""


def status_of(output):
    """The status of `try` that goes with an output."""
    last = output.splitlines()[-1] if output else ""
    if last.startswith("fault "):
        return STATUSES[last.split()[1]]
    return 1 if re.search(r"^\d+ \d+\.\d+ refused ", output, re.MULTILINE) else 0


class Page:
    """The examples of a page."""

    def __init__(self, path):
        self.name = path.relative_to(ROOT)
        self.lines = path.read_text().split("\n")
        self.at, self.fronts, self.examples, self.waiting = 0, {}, [], None

    def place(self, line):
        return f"{self.name}:{line + 1}"

    def add(self, line, text, output):
        self.examples.append(Example(self.place(line), text, None, output, status_of(output)))

    def front(self, name):
        if name is None:
            return ""
        if name not in self.fronts:
            raise Trouble(f"no schema {name} stands before it")
        return self.fronts[name]

    def while_(self, holds):
        """The lines from here on as long as a test holds of them."""
        start = self.at
        while self.at < len(self.lines) and holds(self.lines[self.at]):
            self.at += 1
        return self.lines[start : self.at]

    def fence(self):
        kind, *names = self.lines[self.at].removeprefix(FENCE).split()
        start, name = self.at, names[0] if names else None
        self.at += 1
        text = "".join(f"{line}\n" for line in self.while_(lambda line: line != FENCE))
        self.at += 1
        if self.waiting is not None and kind != "output":
            raise Trouble("an input has no output behind it")
        match kind:
            case "schema":
                self.fronts[name] = text
            case "input":
                self.waiting = self.front(name) + text
            case "output" if self.waiting is not None:
                self.add(start, self.waiting, text)
                self.waiting = None
            case "output":
                raise Trouble("an output has no input before it")
            case _:
                raise Trouble(f"a block of the kind {kind}")

    def table(self):
        start, rows = self.at, self.while_(lambda line: line.startswith("|"))
        columns = COLUMNS.match(rows[0])
        if not columns:
            return
        front = self.front(columns["front"])
        for line, row in enumerate(rows[2:], start + 2):
            first, second = row.split(" | ")[:2]
            text = "".join(CODE.findall(first)[:1])
            self.add(line, front + text, "".join(f"{code}\n" for code in CODE.findall(second)))

    def indented(self):
        start, lines = self.at, self.while_(lambda line: line.startswith(INDENT))
        lines = [line.removeprefix(INDENT) for line in lines]
        if not lines[0].startswith("$ "):
            if any(OUTPUT_LINE.match(line) for line in lines):
                raise Trouble("an output stands in no example")
            return
        sessions = []
        for line, text in enumerate(lines, start):
            if text.startswith("$ "):
                sessions.append((line, text.removeprefix("$ "), []))
            else:
                sessions[-1][2].append(f"{text}\n")
        for line, command, output in sessions:
            self.examples.append(Example(self.place(line), None, command, "".join(output), None))

    def read(self):
        """Reads the page to its end: what is wrong with it."""
        troubles = []
        while self.at < len(self.lines):
            start, line = self.at, self.lines[self.at]
            try:
                if line.startswith(FENCE):
                    self.fence()
                elif line.startswith("|"):
                    self.table()
                elif line.startswith(INDENT):
                    self.indented()
                else:
                    self.at += 1
            except Trouble as trouble:
                troubles.append(f"{self.place(start)}: {trouble}")
                self.waiting = None
        if self.waiting is not None:
            troubles.append(f"{self.name}: the last input has no output behind it")
        return troubles


def examples_of_files():
    found = []
    for path in sorted((ROOT / "examples").glob("*-try.txt")):
        text = path.read_text()
        status = re.match(r"; status (\d)\n", text)
        output = path.with_suffix(".expected").read_text()
        found.append(Example(str(path.relative_to(ROOT)), text, None, output, int(status[1]) if status else 0))
    return found


def answer_of(program, example):
    """The status and the output of an example."""
    if example.command is None:
        words, text = [*program, "x.st", "try"], example.input
    else:
        words, text = ["bash", "-c", example.command.replace("bin/statice", shlex.join(program))], ""
    ran = subprocess.run(words, input=text.encode(), stdout=subprocess.PIPE, cwd=ROOT, check=False, timeout=120)
    return ran.returncode, ran.stdout.decode()


def differs(program, example):
    status, output = answer_of(program, example)
    if output == example.output and example.status in (None, status):
        return False
    print(f"{example.place}:")
    for title, found, text in [("the manual", example.status, example.output), ("what came", status, output)]:
        told = "" if found is None else f", status {found}"
        print(f"  {title}{told}:")
        print("".join(f"    {line}\n" for line in text.splitlines()), end="")
    return True


def stand_in(words):
    """Answers as the program does, by the model."""
    from trying import try_

    if len(words) != 2 or words[1] != "try":
        status, output = 2, "fault words\n"
    else:
        status, output, *_ = try_(sys.stdin.buffer.read())
    sys.stdout.buffer.write(output.encode())
    return status


def main():
    if sys.argv[1:2] == ["--stand-in"]:
        return stand_in(sys.argv[2:])
    parser = argparse.ArgumentParser(description="Runs the examples of the manual.")
    which = parser.add_mutually_exclusive_group()
    which.add_argument("--model", action="store_true", help="ask the model and not the program")
    which.add_argument("--program", default=str(ROOT / "bin" / "statice"), help="the program to ask")
    words = parser.parse_args()
    model = [sys.executable, str(pathlib.Path(__file__).resolve()), "--stand-in"]
    program = model if words.model else [str(pathlib.Path(words.program).resolve())]
    troubles, examples = [], examples_of_files()
    for path in PAGES:
        page = Page(path)
        troubles += page.read()
        examples += page.examples
    print("".join(f"{trouble}\n" for trouble in troubles), end="")
    differing = sum(differs(program, example) for example in examples)
    print(f"{differing} of {len(examples)} examples differ")
    return 1 if differing or troubles else 0


if __name__ == "__main__":
    sys.exit(main())
