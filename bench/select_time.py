#!/usr/bin/env python3
"""Times a `for-each` with one condition and one order key over 10,000 and 20,000 people, and sqlite3 doing the same.

    python3 bench/select_time.py                    the program of this copy of the repository
    python3 bench/select_time.py OTHER/bin/statice  another program

One input makes the people, in transactions of 4,000 statements, and then selects those of one grade in the order of their
rooms. sqlite3 (Debian's package) inserts the same rows into a table in memory and selects the same ones in the same order,
in one run. Prints the least times of five runs each, how many times longer the second count takes, and how many times
longer than sqlite3's. For the time of one `for-each` by itself there are inputs with 21 of them, of which the time with one
is taken off; likewise for sqlite3.
"""

import pathlib
import subprocess
import sys
import time

PROGRAM = pathlib.Path(sys.argv[1] if len(sys.argv) > 1 else pathlib.Path(__file__).resolve().parent.parent / "bin" / "statice")
RUNS = 5
EACH = 4000
MORE = 20


def people(count):
    """Names, grades and the numbers of rooms."""
    return [(f"Ada {n}", n % 7, n * 7919 % 1000) for n in range(count)]


def script_of(count, times):
    """The input of the program, and the number of its transactions. Names are short, so that an input may have so many people."""
    lines = ["(define-schema s)", "(define-entity-type p () ((n string) (g integer) (r integer)))"]
    made, transactions = people(count), 0
    for first in range(0, count, EACH):
        lines.append("(with-transaction")
        for name, grade, room in made[first:first + EACH]:
            lines.append(f'(make x p (n "{name}")(g {grade})(r {room}))')
        lines.append(")")
        transactions += 1
    query = "(for-each (q p) (where (= (p.g q) 3)) (order-by ((p.r q) asc)) (show (p.n q) (p.r q)))"
    lines.append(f"(with-transaction {query * times})")
    transactions += 1
    return "\n".join(lines).encode(), transactions


def rows_of(count):
    """The rows that are selected, in order; ties stand in the order of making."""
    return sorted(((room, n, name) for n, (name, grade, room) in enumerate(people(count)) if grade == 3))


def sql_of(count, times):
    values = "".join(f"INSERT INTO person VALUES({n + 1},'{name}',{grade},{room});\n" for n, (name, grade, room) in enumerate(people(count)))
    return (
        "CREATE TABLE person(id INTEGER PRIMARY KEY, name TEXT, grade INTEGER, room INTEGER);\nBEGIN;\n" + values
        + "COMMIT;\n" + "SELECT id, name, room FROM person WHERE grade = 3 ORDER BY room, id;\n" * times
    ).encode()


def timed(words, given):
    began = time.perf_counter()
    ran = subprocess.run(words, input=given, stdout=subprocess.PIPE, check=False)
    return time.perf_counter() - began, ran.returncode, ran.stdout


def least(words, given, is_right):
    times = []
    for _ in range(RUNS):
        seconds, status, output = timed(words, given)
        assert is_right(status, output), (status, output[-300:])
        times.append(seconds)
    return min(times)


def shown(output):
    """What the lines of the entities show."""
    return [line.split(" ", 2)[2] for line in output.decode().splitlines() if line.split(" ", 3)[2] == "*"]


def times_of(count, times):
    """The times of the program and of sqlite3, in seconds, with so many queries."""
    rows = rows_of(count)
    given, transactions = script_of(count, times)
    lines = [f'* p#{n + 1} "{name}" {room}' for room, n, name in rows] * times
    sql_lines = [f"{n + 1}|{name}|{room}" for room, n, name in rows] * times
    end = f" commit {transactions}\n".encode()
    ours = least([PROGRAM, "x.st", "try"], given, lambda status, output: status == 0 and shown(output) == lines and output.endswith(end))
    sql = least(["sqlite3", ":memory:"], sql_of(count, times), lambda status, output: status == 0 and output.decode().splitlines() == sql_lines)
    return ours, sql


def main():
    found = {}
    for count in (10_000, 20_000):
        one, more = times_of(count, 1), times_of(count, 1 + MORE)
        each = [(b - a) / MORE for a, b in zip(one, more)]
        found[count] = one[0], each[0]
        print(f"{count:,} people: {one[0]:.4f} s; sqlite3 {one[1]:.4f} s, {one[0] / one[1]:.2f} times as long")
        print(f"    of it one for-each {each[0]:.4f} s; sqlite3 {each[1]:.4f} s, {each[0] / each[1]:.2f} times as long")
    print(f"ratio: {found[20_000][0] / found[10_000][0]:.2f}, of one for-each {found[20_000][1] / found[10_000][1]:.2f}")


if __name__ == "__main__":
    main()
