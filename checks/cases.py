"""Programs of cases: the notation of their tables, and how their answers are judged.

The folder of such a program has its tables in `data/`, and in `stdout` what it prints.
"""

import re


def shortened(text):
    return text if len(text) < 3000 else f"{text[:1500]} .. {text[-1500:]}"


# ---- the notation

def repeated(inside):
    """What the inside of braces stands for."""
    count, blank, text = inside.partition(" ")
    if not blank:
        return bytes.fromhex(inside) if re.fullmatch("([0-9a-fA-F]{2})*", inside) else b""
    times = int(count) if re.fullmatch("[0-9]+", count) else 0
    if "#" not in text:
        return text.encode() * times
    return b"".join(text.replace("#", str(number), 1).encode() for number in range(times))


def written_out(text, opening, closing):
    """A text with what stands between braces written out."""
    first, *pieces = text.split(opening)
    out = first.encode()
    for piece in pieces:
        inside, found, behind = piece.partition(closing)
        out += repeated(inside) + behind.encode() if found else piece.encode()
    return out


def case_of(front, item):
    """The bytes of a case behind its front, and the place of its mark."""
    front, text = (written_out(written_out(part, "{{", "}}").decode(), "{", "}") for part in (front, item))
    mark = text.find(b"^")
    return front + (text if mark < 0 else text[:mark] + text[mark + 1 :]), None if mark < 0 else len(front) + mark


def cases_of(table):
    """The cases of a table: each with its first line."""
    items, front = [""], ""
    for line in table.split("\n"):
        if line.startswith("  "):
            items[-1] += f"\n{line[2:]}"
        else:
            items.append(line)
    for item in items:
        if item.startswith("> "):
            front = f"{item[2:]}\n"
        elif item and not item.startswith("# "):
            yield item.split("\n")[0], *case_of(front, item)


# ---- answers


def blocks_of(lines):
    """Answers, each with its first line and the lines below it, which begin with two blanks."""
    blocks = []
    for line in lines:
        if line.startswith("  ") and blocks:
            blocks[-1] += f"\n{line}"
        else:
            blocks.append(line)
    return blocks


def judged(name, table, printed, answer):
    """Prints where the cases of a table have other answers than the model gives them; how many have."""
    cases, blocks, differing = list(cases_of(table)), blocks_of(printed), 0
    for place, (line, text, mark) in enumerate(cases):
        due = answer(text)
        if mark is not None and due.split(" ")[-1] == str(mark):
            due = f"{due[: due.rindex(' ')]} ^"
        came = blocks[place] if place < len(blocks) else "nothing at all"
        if came != f"{line} => {due}":
            differing += 1
            print(f"{name}: {shortened(line)}\n  the model: {shortened(due)}\n  the program: {shortened(came)}")
    if len(blocks) != len(cases):
        differing += 1
        print(f"{name}: {len(cases)} cases, {len(blocks)} answers")
    print(f"{name}: {differing} of {len(cases)} differ")
    return differing


def judge(folder, tables):
    """Judges the tables of a program by what the model answers to the cases of each; whether all agree."""
    lines, of_tables = [], {}
    for line in (folder / "stdout").read_bytes().decode().split("\n"):
        if found := re.fullmatch(r"(\w+\.txt): [0-9]+ cases", line):
            of_tables[found[1]], lines = lines, []
        elif line or lines:
            lines.append(line)
    differing = 0
    for path in sorted((folder / "data").iterdir()):
        if path.name in tables:
            table = path.read_bytes().decode()
            differing += judged(path.name, table, of_tables.get(path.name, []), tables[path.name])
        else:
            print(f"{path.name}: not judged")
    return not differing
