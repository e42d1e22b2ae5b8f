#!/usr/bin/env python3
"""Compares the readers of scripts with the model: random texts, in form and broken at a place or two.

    checks/scripts.py [--count N] [--seed S]
    checks/scripts.py --table FOLDER

The first form asks each of the three readers what each text is: a script, a query alone, a transaction alone.
It prints each difference, and at the end how often each answer came. The second form judges the answers of a
program of cases, whose folder has `data/` and `stdout`. The status is 0 where nothing differs.
"""

import argparse
import collections
import pathlib
import shutil
import sys
import tempfile

from asking import asked, plain
from cases import judge, shortened
from drawn_texts import Writer
from reading import READERS, ScriptFault, answer, answers, forms_of
from texts import is_headed

# ---- random texts


def counted(expected):
    """How often each reader gave each answer, as a table."""
    counts = collections.Counter((due.why, reader) for dues in expected for reader, due in dues.items())
    lines = [f"{'':>32}" + "".join(f"{reader:>13}" for reader in READERS)]
    for why in sorted({why for why, _ in counts}):
        lines.append(f"{why:>32}" + "".join(f"{counts[why, reader]:>13}" for reader in READERS))
    return "\n".join(lines)


def compare(count, seed):
    writer = Writer(seed)
    inputs = [writer.next() for _ in range(count)]
    expected = [answers(text) for text in inputs]
    folder = pathlib.Path(tempfile.mkdtemp(prefix="statice-scripts-"))
    found, said = asked(inputs, expected, folder)
    if not found:
        print(f"{said}\nthe program judged nothing; it is in {folder}")
        return 2
    differing = set()
    for number, text in enumerate(inputs):
        for reader, due in expected[number].items():
            came = found.get((number, reader), "nothing at all")
            if came != plain(due.text):
                differing.add(number)
                print(f"on {shortened(repr(text))}\n  the model, {reader}: {shortened(plain(due.text))} ({due.why})")
                print(f"  the reader: {shortened(came)}")
    print(counted(expected))
    print(f"{len(differing)} of {count} inputs differ, of {len(found)} answers")
    if differing:
        print(f"the program is in {folder}")
        return 1
    shutil.rmtree(folder)
    return 0


# ---- a program of cases


def program_answer(text):
    """How many forms stand before the first transaction of a text, and what the others are as a script."""
    try:
        forms = forms_of(text)
    except ScriptFault as fault:
        return fault.args[0]
    places = [place for place, form in enumerate(forms) if is_headed(form, "with-transaction")]
    split = places[0] if places else len(forms)
    return f"{split} before {answer(forms[split:], 'script').text}"


def answer_of(reader):
    return lambda text: answers(text)[reader].text


TABLES = {
    "scripts.txt": answer_of("script"),
    "transactions.txt": answer_of("transaction"),
    "queries.txt": answer_of("query"),
    "programs.txt": program_answer,
}


def main():
    parser = argparse.ArgumentParser(description="Compares the readers of scripts with the model.")
    parser.add_argument("--count", type=int, default=2000, help="how many texts")
    parser.add_argument("--seed", type=int, default=1, help="which texts")
    parser.add_argument("--table", type=pathlib.Path, help="the folder of a program of cases")
    words = parser.parse_args()
    if words.table:
        return 0 if judge(words.table, TABLES) else 1
    return compare(words.count, words.seed)


if __name__ == "__main__":
    sys.exit(main())
