"""Asks the readers of scripts by a program of their own, which `rt try` runs in a copy of the crates it needs."""

import pathlib
import re
import shutil
import subprocess

ROOT = pathlib.Path(__file__).resolve().parent.parent
CRATE = "st_asked"
USED = "st_text st_values st_token st_sexp st_query st_reader"
MOST_OUTPUT = 500000  # bytes of answers in one run; `rt try` prints twice as many at most
MOST_INPUT = 2000000
ANSWER = re.compile(r"([0-9]+) (script|query|transaction) (.*)")
# It writes each byte that could be mistaken as `\` and two hexadecimal digits: in a name any that no name has, and in
# the whole any that no plain line has.
PROGRAM = r"""//! Asks the readers of scripts. A line of the input is a number, and a text in hexadecimal digits.
#![tactic(auto)]

use st_query::{Cell, Condition, Key, Literal, Query, Sign, Statement, Term, Transaction};
use st_reader::{ScriptFault, read_query, read_script, read_transaction};
use st_sexp::SexpFault;
use st_values::Letters;
use std::alloc::{AllocError, Global};
use std::fmt::Write;
use std::io;

fn main(rt: HostRuntime) -> io::Result<()> {
    let lines = io::read_to_string(rt.alloc(), rt.reader())?;
    let mut out = String::new(rt.alloc());
    for line in lines.as_str().lines() {
        let (number, digits) = line.split_once(' ').unwrap_or((line, ""));
        if let Ok(text) = hex::decode(rt.alloc(), digits) {
            push_answers(rt.alloc(), number, &text, &mut out)?;
        }
    }
    print!(rt; "{out}")
}

fn push_answers(
    alloc: Global,
    number: &str,
    text: &[u8],
    out: &mut String,
) -> Result<(), AllocError> {
    let mut told = String::new(alloc);
    match read_script(alloc, text) {
        Ok(found) if found.is_empty() => told.push_str(" nothing")?,
        Ok(found) => {
            for transaction in found.as_slice() {
                push_transaction(alloc, transaction, &mut told)?;
            }
        }
        Err(fault) => push_fault(fault, &mut told)?,
    }
    push_answer(number, "script", told.as_str(), out)?;
    let mut told = String::new(alloc);
    match read_query(alloc, text) {
        Ok(found) => {
            told.push(' ')?;
            push_query(&found, &mut told)?;
        }
        Err(fault) => push_fault(fault, &mut told)?,
    }
    push_answer(number, "query", told.as_str(), out)?;
    let mut told = String::new(alloc);
    match read_transaction(alloc, text) {
        Ok(found) => push_transaction(alloc, &found, &mut told)?,
        Err(fault) => push_fault(fault, &mut told)?,
    }
    push_answer(number, "transaction", told.as_str(), out)
}

fn push_answer(number: &str, reader: &str, told: &str, out: &mut String) -> Result<(), AllocError> {
    write!(out, "{number} {reader}")?;
    for byte in told.as_bytes() {
        let byte = *byte;
        if (32..127).contains(&byte) {
            out.push(char::from(byte))?;
        } else {
            write!(out, "\\{byte:02x}")?;
        }
    }
    out.push('\n')
}

fn push_fault(fault: ScriptFault, out: &mut String) -> Result<(), AllocError> {
    match fault {
        ScriptFault::Text(SexpFault::Unclosed { place }) => write!(out, " text 1 {place}"),
        ScriptFault::Text(SexpFault::Stray { place }) => write!(out, " text 2 {place}"),
        ScriptFault::Text(SexpFault::BadNumber { place }) => write!(out, " text 3 {place}"),
        ScriptFault::Text(SexpFault::TooDeep { place }) => write!(out, " text 4 {place}"),
        ScriptFault::Text(SexpFault::NotUtf8 { place }) => write!(out, " text 5 {place}"),
        ScriptFault::Text(SexpFault::Memory) => out.push_str(" text memory"),
        ScriptFault::Form { place } => write!(out, " form {place}"),
        ScriptFault::TooManyStatements { count } => write!(out, " statements {count}"),
        ScriptFault::BadClient { number } => write!(out, " client {number}"),
        ScriptFault::InputTooLong { bytes } => write!(out, " long {bytes}"),
        ScriptFault::Memory => out.push_str(" memory"),
    }
}

fn push_transaction(
    alloc: Global,
    found: &Transaction,
    out: &mut String,
) -> Result<(), AllocError> {
    let mut last = String::new(alloc);
    let mut count = 0u64;
    let mut before = "";
    out.push_str(" [")?;
    for statement in found.statements.as_slice() {
        let mut told = String::new(alloc);
        push_statement(statement, &mut told)?;
        if told.as_str() != last.as_str() {
            push_run(before, count, last.as_str(), out)?;
            before = if count == 0 { "" } else { "; " };
            last = told;
            count = 0;
        }
        count = count.saturating_add(1);
    }
    push_run(before, count, last.as_str(), out)?;
    out.push(']')
}

fn push_run(before: &str, count: u64, told: &str, out: &mut String) -> Result<(), AllocError> {
    match count {
        0 => Ok(()),
        1 => write!(out, "{before}{told}"),
        _ => write!(out, "{before}{count} of {told}"),
    }
}

fn push_statement(statement: &Statement, out: &mut String) -> Result<(), AllocError> {
    match statement {
        Statement::Make { var, ty, cells } => {
            push_names("make", &[var, ty], out)?;
            push_cells(cells.as_slice(), out)
        }
        Statement::Set { attribute, target, value } => push_change("set", attribute, target, value, out),
        Statement::Add { attribute, target, value } => push_change("add", attribute, target, value, out),
        Statement::Take { attribute, target, value } => push_change("take", attribute, target, value, out),
        Statement::Delete { target } => push_terms("delete", " ", &[target], out),
        Statement::Find { var, ty, key, value } => {
            push_names("find", &[var, ty, key], out)?;
            push_terms("=", "", &[value], out)
        }
        Statement::Ensure { var, ty, cells } => {
            push_names("ensure", &[var, ty], out)?;
            push_cells(cells.as_slice(), out)
        }
        Statement::Let { var, value } => {
            push_names("let", &[var], out)?;
            push_terms("", " ", &[value], out)
        }
        Statement::Print { terms } => {
            out.push_str("print")?;
            for term in terms.as_slice() {
                push_terms("", " ", &[term], out)?;
            }
            Ok(())
        }
        Statement::ForEach { query } => push_query(query, out),
        Statement::Abort => out.push_str("abort"),
    }
}

fn push_name(name: &Letters, out: &mut String) -> Result<(), AllocError> {
    for byte in name.as_slice() {
        let byte = *byte;
        if byte.is_ascii_lowercase() || byte.is_ascii_digit() || byte == b'-' || byte == b'.' {
            out.push(char::from(byte))?;
        } else {
            write!(out, "\\{byte:02x}")?;
        }
    }
    Ok(())
}

fn push_names(word: &str, names: &[&Letters], out: &mut String) -> Result<(), AllocError> {
    out.push_str(word)?;
    for name in names {
        out.push(' ')?;
        push_name(name, out)?;
    }
    Ok(())
}

fn push_cells(cells: &[Cell], out: &mut String) -> Result<(), AllocError> {
    for cell in cells {
        out.push(' ')?;
        push_name(&cell.name, out)?;
        push_terms("=", "", &[&cell.value], out)?;
    }
    Ok(())
}

fn push_change(
    word: &str,
    attribute: &Letters,
    target: &Term,
    value: &Term,
    out: &mut String,
) -> Result<(), AllocError> {
    push_names(word, &[attribute], out)?;
    push_terms("(", "", &[target], out)?;
    push_terms(")", " ", &[value], out)
}

fn push_terms(word: &str, blank: &str, terms: &[&Term], out: &mut String) -> Result<(), AllocError> {
    out.push_str(word)?;
    for term in terms {
        out.push_str(blank)?;
        push_term(term, out)?;
    }
    Ok(())
}

fn push_term(term: &Term, out: &mut String) -> Result<(), AllocError> {
    match term {
        Term::Literal(Literal::Null) => out.push_str("null"),
        Term::Literal(Literal::Int(number)) => write!(out, "{number}"),
        Term::Literal(Literal::Bool(truth)) => write!(out, "{truth}"),
        Term::Literal(Literal::Text(text)) => push_quoted(text, out),
        Term::Literal(Literal::Entity(ty, serial)) => {
            push_name(ty, out)?;
            write!(out, "#{serial}")
        }
        Term::Variable(name) => {
            out.push('$')?;
            push_name(name, out)
        }
        Term::Path(feature, inner) => {
            push_name(feature, out)?;
            out.push('(')?;
            push_term(inner.get(), out)?;
            out.push(')')
        }
    }
}

fn push_quoted(text: &Letters, out: &mut String) -> Result<(), AllocError> {
    out.push('"')?;
    for letter in text.as_str().chars() {
        match letter {
            '"' => out.push_str("\\\"")?,
            '\\' => out.push_str("\\\\")?,
            '\n' => out.push_str("\\n")?,
            _ => out.push(letter)?,
        }
    }
    out.push('"')
}

fn push_query(query: &Query, out: &mut String) -> Result<(), AllocError> {
    push_names("for-each", &[&query.var, &query.ty], out)?;
    let mut word = " where ";
    for condition in query.conditions.as_slice() {
        out.push_str(word)?;
        push_condition(condition, out)?;
        word = " and ";
    }
    word = " by ";
    for Key { term, descending } in query.keys.as_slice() {
        push_terms(word, "", &[term], out)?;
        out.push_str(if *descending { " desc" } else { " asc" })?;
        word = " then ";
    }
    word = " show ";
    for term in query.shown.as_slice() {
        push_terms(word, "", &[term], out)?;
        word = " ";
    }
    Ok(())
}

fn push_condition(condition: &Condition, out: &mut String) -> Result<(), AllocError> {
    match condition {
        Condition::Compare { sign, left, right } => {
            push_term(left, out)?;
            push_terms(sign_text(*sign), "", &[right], out)
        }
        Condition::Null(term) => {
            push_term(term, out)?;
            out.push_str(" is null")
        }
        Condition::NotNull(term) => {
            push_term(term, out)?;
            out.push_str(" is not null")
        }
        Condition::Member { value, set } => {
            push_term(value, out)?;
            push_terms(" in ", "", &[set], out)
        }
    }
}

fn sign_text(sign: Sign) -> &'static str {
    match sign {
        Sign::Equal => " = ",
        Sign::Differs => " /= ",
        Sign::Below => " < ",
        Sign::AtMost => " <= ",
        Sign::Above => " > ",
        Sign::AtLeast => " >= ",
    }
}
"""


def plain(text):
    """An answer as the program writes it."""
    return "".join(chr(byte) if 32 <= byte < 127 else f"\\{byte:02x}" for byte in text.encode())


def write_crate(folder):
    """Copies what the program uses, and writes the program beside it."""
    lines = {line.split(":")[0]: line for line in (ROOT / "crates.txt").read_text().splitlines() if ":" in line}
    copied, wanted = [], USED.split()
    while wanted:
        name = wanted.pop()
        if name in lines and name not in copied:
            copied.append(name)
            wanted += lines[name].split(":")[1].split()
    for name in copied:
        ignored = shutil.ignore_patterns("out", "must-fail")
        shutil.copytree(ROOT / "crates" / name, folder / "crates" / name, ignore=ignored)
    described = [lines[name] for name in copied]
    (folder / "crates.txt").write_text("\n".join([*described, f"{CRATE}: {USED} sqlite_items hex", ""]))
    crate = folder / "crates" / CRATE
    (crate / "src").mkdir(parents=True)
    (crate / "src" / "main.rt").write_text(PROGRAM)
    return crate


def runs(inputs, expected):
    """The lines for each run of the program, so that neither what it reads nor what it prints is too much for one."""
    lines, read, printed = [], 0, 0
    for number, text in enumerate(inputs):
        if lines and (read > MOST_INPUT or printed > MOST_OUTPUT):
            yield lines
            lines, read, printed = [], 0, 0
        lines.append(f"{number} {text.hex()}\n")
        read += len(lines[-1])
        printed += sum(len(answer.text) + 30 for answer in expected[number].values())
    yield lines


def asked(inputs, expected, folder):
    """What the readers answer to inputs: a dictionary from an input's number and a reader's name."""
    crate = write_crate(folder)
    cases = folder / "cases"
    cases.mkdir()
    for number, lines in enumerate(runs(inputs, expected)):
        (cases / f"run{number:04}").write_text("".join(lines))
    command = ["rt", "try", "--steps", "1", "--seconds", "600", "--cases", str(cases)]
    ran = subprocess.run(command, cwd=crate, stdout=subprocess.PIPE, stderr=subprocess.STDOUT, check=False)
    said = ran.stdout.decode(errors="replace")
    found = {}
    for line in said.split("\n"):
        if answer := ANSWER.fullmatch(line):
            found[int(answer[1]), answer[2]] = answer[3]
    return found, said
