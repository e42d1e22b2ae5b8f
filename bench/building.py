"""Programs that are built for a measure beside copies of the crates that they need, and the processor time that they take."""

import argparse
import pathlib
import resource
import shutil
import subprocess
import tempfile

ROOT = pathlib.Path(__file__).resolve().parent.parent
RUNS = 5


def built(folder, name, crates, uses, program, given, proofs=()):
    """The program of a name, built in a folder: it uses some of the crates, has proof files besides, each with its path and its
    text, and is run once with what is given."""
    for crate in crates:
        shutil.copytree(ROOT / "crates" / crate, folder / "crates" / crate, ignore=shutil.ignore_patterns("must-fail"))
    lines = [line for line in (ROOT / "crates.txt").read_text().splitlines() if line.split(":")[0] in crates]
    (folder / "crates.txt").write_text("\n".join([*lines, f"{name}: {uses}", ""]))
    crate = folder / "crates" / name
    (crate / "src").mkdir(parents=True)
    (crate / "src" / "main.rt").write_text(program)
    for path, text in proofs:
        (crate / "proofs" / path).parent.mkdir(parents=True, exist_ok=True)
        (crate / "proofs" / path).write_text(text)
    ran = subprocess.run(["rt", "run"], cwd=crate, input=given, capture_output=True, check=False)
    if ran.returncode:
        raise SystemExit((ran.stdout + ran.stderr).decode())
    return crate / "out" / name


def measured(description, prefix, build, measure):
    """Builds a program in a folder of its own, measures it and removes the folder; where `--keep` is given, the folder stays and
    the program's path is printed."""
    parser = argparse.ArgumentParser(description=description)
    parser.add_argument("--keep", action="store_true", help="leaves the folder with the program")
    keep = parser.parse_args().keep
    folder = pathlib.Path(tempfile.mkdtemp(prefix=prefix))
    program = build(folder)
    measure(program)
    if keep:
        print(program)
    else:
        shutil.rmtree(folder)


def spent():
    """The processor time of the programs that have ended, in seconds."""
    used = resource.getrusage(resource.RUSAGE_CHILDREN)
    return used.ru_utime + used.ru_stime


def least_time(program, given, due):
    """The least processor time of some runs with what is given, in seconds; each has to print what is due."""
    found = []
    for _ in range(RUNS):
        before = spent()
        ran = subprocess.run([program], input=given, stdout=subprocess.PIPE, check=True)
        found.append(spent() - before)
        assert ran.stdout == due, ran.stdout
    return min(found)
