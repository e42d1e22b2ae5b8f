#!/usr/bin/env python3
"""Times a store that is a chain of pages: how many rows are listed in a second, and what it takes to look for a row and to put
one in, in a store of 1,000 rows and in one of 2,000.

    python3 bench/store_time.py          builds a program beside copies of the crates that it needs, and times it
    python3 bench/store_time.py --keep   the same, and leaves the folder with the program, for a profile

A row has 14 bytes, all of them its key. The rows stand in full pages in memory. The program does what its standard input
says: `list`, `find` or `insert`, so many rows, and how often. Its processor time for a few times is taken off that for many,
the least of five runs each. At least 5 million rows a second are wanted, and twice the rows may take about twice the time.
"""

from building import built, least_time, measured

CRATE = "st_store_time"
BELOW = ("st_text", "st_values", "st_edge", "st_page", "st_image", "st_pages", "st_memory_pages", "st_store", "st_page_rows", "st_chain")
WANTED = 5_000_000
PROGRAM = """//! Lists the rows of a store, looks for them, or puts them in, as often as its input says.
#![tactic(auto)]
ghost use Rattle.std.specs.Prelude.{◌≡◌, ◌<◌, IfOk, IsTrue};
ghost use Rattle.st_store.specs.Stores.{Fits};
ghost use Rattle.st_store.specs.Chain.{left_in_chain};

use st_chain::Chain;
use st_image::Page;
use st_memory_pages::MemoryPages;
use st_page::PageFault;
use st_store::{Cursor, Place, Store};
use std::alloc::{AllocError, Global};
use std::io;

/// How many rows a page has.
const ROWS: u32 = 291;

/// The store.
fn chain() -> Chain
    ensures key { result.key ≡ 14 }
    ensures width { result.width ≡ 14 }
{
    Chain::at(Place {
        store: 131073,
        first: 2,
        key: 14,
        width: 14,
    })
}

/// The row of a number.
fn row_of(number: u32) -> [u8; 14] {
    let mut row = [128, 0, 0, 0, 0, 0, 0, 0, 0, 1, 0, 0, 0, 1];
    row[4..8].copy_from_slice(&number.to_be_bytes());
    row
}

/// The page with the rows of numbers from one on, up to another one; behind it stands the next, if it isn't the last.
fn page_from(from: u32, to: u32, next: u32) -> Page {
    let mut page = Page::blank();
    page.set_kind(2);
    page.set_store(131073);
    page.set_next(next);
    let count = to.saturating_sub(from).min(ROWS);
    page.set_count(count as u16);
    for index in 0..count {
        let at = 16 + 14 * index as usize;
        page.write(at, &row_of(from.saturating_add(index).saturating_mul(2)));
    }
    page
}

/// Pages with the rows of the even numbers below twice a count.
fn filled(alloc: Global, count: u32) -> Result<MemoryPages, AllocError> {
    let mut images = Vec::new(alloc);
    images.push(page_from(0, 0, 0))?;
    images.push(page_from(0, 0, 0))?;
    let pages = (count / ROWS).min(60000);
    for index in 0..pages + 1 {
        let from = index * ROWS;
        let is_last = index == pages || from.saturating_add(ROWS) >= count;
        images.push(page_from(from, count, if is_last { 0 } else { index + 3 }))?;
        if is_last {
            break;
        }
    }
    if images.len() > 65536 {
        return Err(AllocError);
    }
    MemoryPages::new(alloc, images, Vec::new(alloc))
}

/// How many rows are listed.
fn list(alloc: Global, pages: &mut MemoryPages) -> Result<u32, PageFault> {
    let store = chain();
    let mut cursor = store.seek(alloc, pages, &[0; 14])?;
    let mut count = 0u32;
    while has_next(alloc, store, pages, &mut cursor)? {
        count = count.saturating_add(1);
    }
    Ok(count)
}

/// Whether there is a next row, which is copied.
fn has_next(alloc: Global, store: Chain, pages: &mut MemoryPages, cursor: &mut Cursor) -> Result<bool, PageFault>
    requires width { store.width ≡ 14 }
    requires fits { Fits store cursor.old }
    ensures fits { Fits store cursor.new }
    ensures fewer { IfOk result (λ more. IsTrue more → left_in_chain store cursor.new < left_in_chain store cursor.old) }
{
    let mut row = [0; 14];
    let more = store.advance(alloc, pages, cursor, &mut row)?;
    Ok(more)
}

/// How many of so many rows are there.
fn find(alloc: Global, pages: &mut MemoryPages, count: u32) -> Result<u32, PageFault> {
    let store = chain();
    let mut row = [0; 14];
    let mut found = 0u32;
    for number in 0..count {
        let key = row_of(number.saturating_mul(2));
        found = found.saturating_add(u32::from(store.find(alloc, pages, &key, &mut row)?));
    }
    Ok(found)
}

/// Puts in rows between those that are there; how many were new.
fn insert(alloc: Global, pages: &mut MemoryPages, count: u32) -> Result<u32, PageFault> {
    let store = chain();
    let mut new = 0u32;
    for number in 0..count {
        let key = row_of(number.saturating_mul(2).saturating_add(1));
        new = new.saturating_add(u32::from(!store.insert(alloc, pages, &key)?));
    }
    Ok(new)
}

/// What a word asks for, once.
fn done(alloc: Global, word: &str, count: u32) -> Result<u32, PageFault> {
    let Ok(mut pages) = filled(alloc, count) else {
        return Err(PageFault::Memory);
    };
    match word {
        "list" => list(alloc, &mut pages),
        "find" => find(alloc, &mut pages, count),
        _ => insert(alloc, &mut pages, count),
    }
}

fn main(rt: HostRuntime) -> io::Result<()> {
    let text = io::read_to_string(rt.alloc(), rt.reader())?;
    let mut words = text.as_str().split_whitespace();
    let word = words.next().unwrap_or("");
    let count = words.next().unwrap_or("").parse::<u32>().unwrap_or(0);
    let times = words.next().unwrap_or("").parse::<u32>().unwrap_or(0);
    let mut all = 0u64;
    for _ in 0..times {
        all = all.saturating_add(u64::from(done(rt.alloc(), word, count).unwrap_or(0)));
    }
    println!(rt; "{all}")
}
"""
PROOF = """use Rattle.st_store.specs.Stores.{Fits}
use Rattle.st_store.specs.Chain.{left_in_chain}
use Rattle.st_store_time.proofs.list.Given as goal

abbrev pub invariant-loop-count : goal.invariant-loop-count
invariant-loop-count l = Fits l.store l.cursor

abbrev pub decreases-loop-count : goal.decreases-loop-count
decreases-loop-count l = left_in_chain l.store l.cursor
"""


def once(program, word, count, few, many):
    """The processor time of doing something once, in seconds."""
    one, other = (least_time(program, b"%s %d %d" % (word, count, times), b"%d\n" % (count * times)) for times in (few, many))
    return (other - one) / (many - few)


def measure(program):
    """Prints how fast rows are listed, and how long a row is found and put in."""
    seconds = once(program, b"list", 100_000, 1, 11)
    print(f"100,000 rows listed in {seconds * 1e3:.1f} ms: {100_000 / seconds / 1e6:.1f} million a second; wanted {WANTED / 1e6:.0f}")
    for word in (b"find", b"insert"):
        small, large = (once(program, word, count, 1, times) / count for count, times in ((1000, 11), (2000, 6)))
        print(f"{word.decode()}: {small * 1e6:.1f} microseconds in 1,000 rows, {large * 1e6:.1f} in 2,000, ratio {large / small:.2f}")


def main():
    def build(folder):
        uses = "st_page st_image st_memory_pages st_store st_chain"
        return built(folder, CRATE, BELOW, uses, PROGRAM, b"list 10 1", [("list/Invariants.antt", PROOF)])

    measured("Times a store that is a chain of pages.", "statice-stores-", build, measure)


if __name__ == "__main__":
    main()
