//! The driver of `bench/run`: so many turns of a side on each value and row.
//!
//! `bench cells` names them in order. `bench count SIDE TURNS WORST` takes the turns, WORST for
//! each of the worst lists, a mark before each cell and one at the end, so that a counter can cut
//! there. `bench time` prints nanoseconds for each cell that both sides have: the Rust's and ours.
//! `bench same` only sees that both sides say the same. Built without the feature `original`, the
//! driver has the library's side alone, and neither of these two, but a `memset` of its own. With
//! the feature `floor` it has no flattenings.

mod flatten;
#[cfg(not(feature = "original"))]
mod memset;
#[cfg_attr(not(feature = "original"), path = "no_original.rs")]
mod original;
mod sides;
mod values;

use std::env;
use std::hint::black_box;
use std::process::exit;
use std::time::Instant;

use flatten::Flatten;
use original::Row;
use sides::{Asked, ROOM, Read, Refused, Side};
use values::ROWS;

/// A place for a counter to cut.
#[inline(never)]
#[unsafe(no_mangle)]
extern "C" fn bench_mark() {
    black_box(());
}

enum Cell<'a> {
    Argument(&'static Row, u64, &'a Asked),
    Refused(&'a Refused),
    Read(&'a Read),
    Flatten(&'a Flatten),
    Worst(&'a Flatten),
}

/// The buffers that are lent to the library.
struct Rooms {
    slots: [u64; ROOM],
    pieces: [u64; flatten::ROOM],
}

impl Rooms {
    fn new() -> Self {
        Self { slots: [0; ROOM], pieces: [0; flatten::ROOM] }
    }
}

impl Cell<'_> {
    fn name(&self) -> String {
        match self {
            Self::Argument(_, row, asked) => format!("{row}\t{}", asked.value.name),
            Self::Refused(refused) => format!("refused\t{}", refused.name),
            Self::Read(read) => format!("read\t{}", read.name),
            Self::Flatten(flatten) => format!("flatten\t{}", flatten.name),
            Self::Worst(flatten) => format!("worst\t{}", flatten.name),
        }
    }

    #[inline(never)]
    fn turns(&self, side: Side, turns: u64, rooms: &mut Rooms) -> u64 {
        let Rooms { slots, pieces } = rooms;
        let mut sum: u64 = 0;
        match self {
            Self::Argument(row, number, asked) => {
                for _ in 0..turns {
                    let said = side(black_box(*row), black_box(*number), black_box(asked), slots);
                    sum = sum.wrapping_add(black_box(said));
                }
            }
            Self::Refused(refused) => {
                for _ in 0..turns {
                    sum = sum.wrapping_add(black_box(black_box(*refused).turn(slots)));
                }
            }
            Self::Read(read) => {
                for _ in 0..turns {
                    sum = sum.wrapping_add(black_box(black_box(*read).turn()));
                }
            }
            Self::Flatten(flatten) | Self::Worst(flatten) => {
                for _ in 0..turns {
                    sum = sum.wrapping_add(black_box(black_box(*flatten).turn(pieces)));
                }
            }
        }
        sum
    }
}

fn main() {
    let arguments: Vec<String> = env::args().skip(1).collect();
    let words: Vec<&str> = arguments.iter().map(String::as_str).collect();
    let asked = sides::asked();
    let refused = sides::refused();
    let reads = sides::reads();
    let [small, worst] = [flatten::small(), flatten::worst()];
    let mut cells: Vec<Cell<'_>> = Vec::new();
    for number in ROWS {
        let row = original::row(number);
        cells.extend(asked.iter().map(|asked| Cell::Argument(row, number, asked)));
    }
    cells.extend(refused.iter().map(Cell::Refused));
    cells.extend(reads.iter().map(Cell::Read));
    if !cfg!(feature = "floor") {
        cells.extend(small.iter().map(Cell::Flatten));
        cells.extend(worst.iter().map(Cell::Worst));
    }
    match *words {
        ["cells"] => cells.iter().for_each(|cell| println!("{}", cell.name())),
        ["same"] => same(&cells),
        ["time"] => time(&cells),
        ["count", side, turns, worst] => count(&cells, named(side), number(turns), number(worst)),
        _ => usage(),
    }
}

fn usage() -> ! {
    eprintln!("usage: bench cells | same | time | count none|rust|ours TURNS WORST");
    exit(2)
}

fn number(word: &str) -> u64 {
    word.parse().unwrap_or_else(|_| usage())
}

fn named(side: &str) -> Side {
    match side {
        "none" => sides::none,
        "rust" => rust(),
        "ours" => sides::ours,
        _ => usage(),
    }
}

fn rust() -> Side {
    sides::RUST.unwrap_or_else(|| {
        eprintln!("bench: built without the original");
        exit(2)
    })
}

fn count(cells: &[Cell<'_>], side: Side, turns: u64, worst: u64) {
    let mut rooms = Rooms::new();
    let mut sum: u64 = 0;
    for cell in cells {
        let turns = if matches!(cell, Cell::Worst(_)) { worst } else { turns };
        bench_mark();
        sum = sum.wrapping_add(cell.turns(side, turns, &mut rooms));
    }
    bench_mark();
    println!("{sum}");
}

/// Both sides say the same, or the figures would compare nothing.
fn same(cells: &[Cell<'_>]) {
    let mut rooms = Rooms::new();
    for cell in cells {
        let [rust, ours] = [rust(), sides::ours].map(|s| cell.turns(s, 1, &mut rooms));
        assert_eq!(rust, ours, "{}", cell.name());
    }
    println!("{} cells, both sides the same", cells.len());
}

/// The least of several runs: what a busy machine adds is left out as far as it can be.
fn time(cells: &[Cell<'_>]) {
    const TURNS: u64 = 20_000;
    let mut rooms = Rooms::new();
    let mut least = |cell: &Cell<'_>, side: Side| {
        let run = |_| {
            let start = Instant::now();
            black_box(cell.turns(side, TURNS, &mut rooms));
            start.elapsed().as_nanos() as f64 / TURNS as f64
        };
        (0..15).map(run).fold(f64::INFINITY, f64::min)
    };
    for cell in cells.iter().filter(|cell| matches!(cell, Cell::Argument(..))) {
        let none = least(cell, sides::none);
        let rust = least(cell, rust()) - none;
        let ours = least(cell, sides::ours) - none;
        println!("{}\t{rust:.2}\t{ours:.2}", cell.name());
    }
}
