#!/usr/bin/env python3
"""Times `check_page` of `st_image` over a full leaf, of 291 rows of 14 bytes that are keys as a whole.

    python3 bench/page_time.py          builds a program beside copies of the crates that it needs, and times it
    python3 bench/page_time.py --keep   the same, and leaves the folder with the program, for a profile

The program checks the page as often as its standard input says. Its processor time with few checks is taken off that
with many, the least of five runs each. Prints how many MiB of pages are checked in a second: at least 200 are wanted.
"""

from building import built, least_time, measured

CRATE = "st_page_time"
BELOW = ("st_text", "st_values", "st_image")
FEW, MANY = 1000, 200_000
PAGE = 4096
WANTED = 200
PROGRAM = """//! Checks a full leaf as often as its input says.
#![tactic(auto)]

use st_image::{Page, Wanted, check_page};
use std::io;

/// A leaf of 291 rows of 14 bytes, whose keys end with their number.
fn leaf() -> Page {
    let mut page = Page::blank();
    page.set_kind(3);
    page.set_count(291);
    page.set_store(131073);
    for number in 0..291u16 {
        let at = 16 + 14 * usize::from(number);
        page.write(at, &[128, 0, 0, 0, 0, 0, 0, 5, 0, 1, 0, 0]);
        page.write(at + 12, &number.to_be_bytes());
    }
    page
}

/// How often the page isn't found sound.
fn wrong(page: &Page, times: u32) -> u32 {
    let mut count = 0u32;
    for _ in 0..times {
        let wanted = Wanted::Leaf {
            store: page.store(),
            key: 14,
            width: 14,
        };
        if check_page(page, wanted).is_err() {
            count = count.saturating_add(1);
        }
    }
    count
}

fn main(rt: HostRuntime) -> io::Result<()> {
    let text = io::read_to_string(rt.alloc(), rt.reader())?;
    let times = text.as_str().trim().parse::<u32>().unwrap_or(0);
    let count = wrong(&leaf(), times);
    println!(rt; "{count} of {times} are wrong")
}
"""


def taken(program, times):
    """The processor time with so many checks, in seconds."""
    return least_time(program, b"%d" % times, b"0 of %d are wrong\n" % times)


def measure(program):
    """Prints how many MiB of full leaves the program checks in a second."""
    seconds = (taken(program, MANY) - taken(program, FEW)) / (MANY - FEW)
    speed = PAGE / seconds / (1 << 20)
    print(f"a full leaf of 291 rows: {seconds * 1e6:.2f} microseconds, {speed:.0f} MiB/s; wanted {WANTED}")


def main():
    def build(folder):
        return built(folder, CRATE, BELOW, "st_image", PROGRAM, b"1")

    measured("Times the check of a full leaf.", "statice-pages-", build, measure)


if __name__ == "__main__":
    main()
