#!/usr/bin/env python3
"""Compares the definitions of `st_meaning` with the model: random scripts, computed by the checker.

    checks/definitions.py [--count N] [--seed S]

Writes a crate beside copies of the crates below it, in a folder of its own, whose contracts say that the
definitions give the lines of the model. Where the checker refuses one, it names its clause, and the
folder is kept. The first run proves the crates below first, which takes minutes.
"""

import argparse
import pathlib
import shutil
import subprocess
import sys
import tempfile

from drawn import SCHEMAS, Drawer
from language import (
    Abort, Add, Delete, Ensure, EntityLiteral, Find, ForEach, Let, Literal, Make, Print, Take, Variable, script_lines,
)  # fmt: skip

ROOT = pathlib.Path(__file__).resolve().parent.parent
BELOW = "st_text st_values st_lattice st_query st_state st_meaning"
CLAUSES = 40
SIGNS = dict(zip(["=", "/=", "<", "<=", ">", ">="], "Equal Differs Below AtMost Above AtLeast".split(), strict=True))
SPECS = """use Rattle.std.specs.Prelude.{ℕ, pos, negsuc, true, false, List, [], ◌∷◌, codes, Some, None}
use Rattle.st_values.specs.declared.value.Kind.TheVariants as kind
use Rattle.st_lattice.specs.Outline.{Outline}
use Rattle.st_query.specs.declared.query.Condition.TheVariants as condition
use Rattle.st_query.specs.declared.query.Sign.TheVariants as sign
use Rattle.st_query.specs.declared.statement.Statement.{Statement}
use Rattle.st_query.specs.declared.statement.Statement.TheVariants.{Make, Set, Add, Take, Delete, Find}
use Rattle.st_query.specs.declared.statement.Statement.TheVariants.{Ensure, Let, Print, ForEach, Abort}
use Rattle.st_query.specs.declared.term.Literal.TheVariants.{Null, Bool, Entity}
use Rattle.st_query.specs.declared.term.Term.TheVariants.{Literal, Variable}
use Rattle.st_meaning.specs.Rows.{path, text, int, is, query_of}
use Rattle.st_meaning.specs.Schemas.{plain}
"""
ANSWERS = """use Rattle.std.proofs.Common.{refl}
use Rattle.std.specs.Fmt.{digits}
use Rattle.st_query.specs.Ways.{way}
use Rattle.st_meaning.specs.Terms.{term_meaning}
use Rattle.st_meaning.specs.Checks.{term_refused}
use Rattle.st_meaning.specs.Rules.{refusal}
use Rattle.st_meaning.specs.Runs.{runs, runs_statement}
use Rattle.st_meaning.specs.Lines.{client_lines}
"""
UNFOLDING = "client_lines runs runs_statement refusal term_refused term_meaning way digits"
LIBRARY = """//! Scripts that were drawn.
#![tactic(auto)]

ghost use Rattle.std.specs.Prelude.{◌≡◌, [], ◌∷◌, codes};
ghost use Rattle.st_meaning.specs.Rows.{lines, printed_over};
ghost use Rattle.st_drawn.specs.Schemas;
"""


# ---- how things are written in a definition


def codes(text):
    escaped = text.replace("\\", "\\\\").replace('"', '\\"')
    return f'(codes "{escaped}")' if text else "[]"


def list_of(items):
    return "(" + "".join(f"{item} ∷ " for item in items) + "[])"


def integer(number):
    return f"(pos {number})" if number >= 0 else f"(negsuc {-number - 1})"


def term(written):
    match written:
        case Literal(None):
            return "(Literal Null)"
        case Literal(bool(value)):
            return f"(Literal (Bool {str(value).lower()}))"
        case Literal(int(value)):
            return f"(int {integer(value)})"
        case Literal(value):
            return f"(text {codes(value)})"
        case EntityLiteral(type_, serial):
            return f"(Literal (Entity {codes(type_)} {serial}))"
        case Variable(name):
            return f"(Variable {codes(name)})"
    return f"(path {codes(written.feature)} {term(written.inner)})"


def terms(written):
    return list_of(map(term, written))


def condition(written):
    variants = {"null": "Null", "not-null": "NotNull", "member": "Member"}
    variant = variants.get(written.sign) or f"Compare sign.{SIGNS[written.sign]}"
    return " ".join([f"condition.{variant}", *map(term, written.terms)])


def query(written):
    keys = [f"record {{ term = {term(key)}; descending = {str(is_down).lower()} }}" for key, is_down in written.keys]
    conditions = list_of(map(condition, written.conditions))
    return f"{codes(written.var)} {codes(written.type)} {conditions} {list_of(keys)} {terms(written.shown)}"


def statement(written):
    match written:
        case Make():
            cells = list_of(f"is {codes(name)} {term(value)}" for name, value in written.cells)
            variant = "Ensure" if isinstance(written, Ensure) else "Make"
            return f"{variant} {codes(written.var)} {codes(written.type)} {cells}"
        case Delete(target):
            return f"Delete {term(target)}"
        case Find():
            names = " ".join(map(codes, [written.var, written.type, written.key]))
            return f"Find {names} {term(written.value)}"
        case Let(var, value):
            return f"Let {codes(var)} {term(value)}"
        case Print():
            return f"Print {terms(written.terms)}"
        case ForEach():
            return f"ForEach (query_of {query(written)})"
        case Abort():
            return "Abort"
    variant = {Add: "Add", Take: "Take"}.get(type(written), "Set")
    return f"{variant} {codes(written.feature)} {term(written.target)} {term(written.value)}"


def attribute(a):
    names = {"integer": "kind.Int", "boolean": "kind.Bool", "string": f"(kind.Text {a.kind.of})"}
    kind = names.get(a.kind.name, f"(kind.Entity {a.kind.of})")
    flags = [f"{name} = true" for name in ("many", "unique", "no_nulls", "index") if getattr(a, name)]
    flags += [f"inverse = Some {codes(a.inverse)}"] if a.inverse else []
    base = f"plain {a.number} {a.owner} {codes(a.name)} {kind}"
    return f"record ({base}) {{ {'; '.join(flags)} }}" if flags else base


def schema(s):
    fields = {
        "name": codes(s.name),
        "names": list_of(map(codes, s.types)),
        "parents": list_of(list_of(parents) for parents in s.parents),
        "attributes": list_of(map(attribute, s.attributes)),
        "next": len(s.attributes),
    }
    written = "".join(f"  {name} = {value};\n" for name, value in fields.items())
    return f"abbrev pub {s.name} : Outline\n{s.name} = record {{\n{written}}}\n"


# ---- the crate


def write(path, text):
    path.parent.mkdir(parents=True, exist_ok=True)
    path.write_text(text)


def write_group(crate, group, scripts):
    """Scripts, and a function whose clauses say what each of them prints: its text."""
    specs, answers, clauses = [SPECS], [ANSWERS], []
    answers.append(f"use Rattle.st_drawn.proofs.group{group}.Goals as goal\n")
    for number, (schema_, transactions) in enumerate(scripts):
        name = f"script_{group}_{number}"
        written = list_of(list_of(map(statement, statements)) for statements in transactions)
        specs.append(f"abbrev pub {name} : List (List Statement)\n{name} = {written}\n")
        lines = "".join(f"{codes(line)} ∷ " for line in script_lines(schema_, transactions))
        over = f"printed_over Schemas.{schema_.name} Group{group}.{name}"
        clauses.append(f"    ensures {name} {{ {over} ≡ lines ({lines}[]) }}\n")
        clause = f"returns-clause-{name}"
        answers.append(f"pub {clause} : goal.{clause}\nunfolding {UNFOLDING}\n{clause} c = refl\n")
    write(crate / "specs" / f"Group{group}.antt", "\n".join(specs))
    write(crate / "proofs" / f"group{group}" / "Answers.antt", "\n".join(answers))
    return f"\npub fn group{group}()\n{''.join(clauses)}{{}}\n"


def write_crate(crate, scripts):
    groups = [scripts[start : start + CLAUSES] for start in range(0, len(scripts), CLAUSES)]
    functions = [write_group(crate, group, of_group) for group, of_group in enumerate(groups)]
    modules = ["Schemas", *(f"Group{group}" for group in range(len(groups)))]
    uses = "".join(f"ghost use Rattle.st_drawn.specs.{module};\n" for module in modules[1:])
    schemas = {s.name: schema(s) for s in SCHEMAS}
    write(crate / "specs" / "Schemas.antt", "\n".join([SPECS, *schemas.values()]))
    write(crate / "specs" / "Lib.antt", "".join(f"pub mod {module}\n" for module in modules))
    write(crate / "src" / "lib.rt", LIBRARY + uses + "".join(functions))


def main():
    parser = argparse.ArgumentParser(description="Compares the definitions with the model.")
    parser.add_argument("--count", type=int, default=400, help="how many scripts")
    parser.add_argument("--seed", type=int, default=1, help="which scripts")
    words = parser.parse_args()
    drawer = Drawer(words.seed)
    folder = pathlib.Path(tempfile.mkdtemp(prefix="statice-definitions-"))
    for name in BELOW.split():
        shutil.copytree(ROOT / "crates" / name, folder / "crates" / name)
    lines = [line for line in (ROOT / "crates.txt").read_text().splitlines() if line.split(":")[0] in BELOW.split()]
    write(folder / "crates.txt", "\n".join([*lines, f"st_drawn: {BELOW} sqlite_items", ""]))
    crate = folder / "crates" / "st_drawn"
    write_crate(crate, [drawer.script() for _ in range(words.count)])
    ran = subprocess.run(["rt", "check"], cwd=crate, stdout=subprocess.PIPE, text=True, check=False)
    found = [line for line in ran.stdout.splitlines() if "error" in line or line.startswith("fn st_drawn")]
    print("\n".join(found))
    if ran.returncode and not found:
        print(f"the check ended with status {ran.returncode} and judged nothing; the crate is {crate}")
        return 2
    if ran.returncode:
        print(f"differing clauses are named above; the crate is {crate}")
        return 1
    shutil.rmtree(folder)
    print(f"{words.count} scripts agree")
    return 0


if __name__ == "__main__":
    sys.exit(main())
