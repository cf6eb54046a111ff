//! Variable argument lists, worked out by hand, and what random ones are made of.

use std::collections::{HashMap, HashSet};

use oracle::lists::{self, List, MOST_SCALARS};
use oracle::reader::{Area, Lent, Offsets, Part};
use oracle::values::Scalar;

use crate::common;

const DOUBLE: Scalar = Scalar { kind: 2, size: 8, align: 8 };
const X87: Scalar = Scalar { kind: 3, size: 16, align: 16 };
const QUAD: Scalar = Scalar { kind: 4, size: 16, align: 16 };

const fn integer(size: u64) -> Scalar {
    Scalar { kind: 0, size, align: size }
}

const fn lent(integer: u64, float: u64, overflow: u64) -> Lent {
    Lent { save: 176, overflow: 80, at: Offsets { integer, float, overflow } }
}

/// The area, the start and the next offsets of each scalar, which is accepted and has its size.
fn found(lent: Lent, scalars: &[Scalar]) -> Vec<(Area, u64, [u64; 3])> {
    let mut list = List::new(lent);
    let mut find = |scalar: &Scalar| {
        let part = list.read(*scalar).expect("the Rust and the rules say the same");
        assert_eq!((part.refusal, part.length), (0, scalar.size), "{scalar:?}");
        let Offsets { integer, float, overflow } = part.next;
        (part.area, part.start, [integer, float, overflow])
    };
    scalars.iter().map(&mut find).collect()
}

// ---- by hand

#[test]
fn nine_doubles() {
    let mut expected: Vec<(Area, u64, [u64; 3])> =
        (0..8).map(|at| (Area::Save, 48 + 16 * at, [0, 64 + 16 * at, 0])).collect();
    expected.push((Area::Overflow, 0, [0, 176, 8]));
    assert_eq!(found(lent(0, 48, 0), &[DOUBLE; 9]), expected);
}

#[test]
fn six_integers_then_16_and_8() {
    let mut scalars = vec![integer(8); 6];
    scalars.extend([integer(16), integer(8)]);
    let found = found(lent(0, 48, 0), &scalars);
    for (at, place) in (0..6).zip(&found) {
        assert_eq!(*place, (Area::Save, 8 * at, [8 * at + 8, 48, 0]));
    }
    let expected = [(Area::Overflow, 0, [48, 48, 16]), (Area::Overflow, 16, [48, 48, 24])];
    assert_eq!(found[6..], expected);
}

#[test]
fn one_place_is_too_few_for_16_and_stays() {
    let expected = [(Area::Overflow, 0, [40, 48, 16]), (Area::Save, 40, [48, 48, 16])];
    assert_eq!(found(lent(40, 48, 0), &[integer(16), integer(8)]), expected);
    let expected = [(Area::Save, 32, [48, 48, 0]), (Area::Overflow, 0, [48, 48, 8])];
    assert_eq!(found(lent(32, 48, 0), &[integer(16), integer(8)]), expected);
}

#[test]
fn a_hole_before_a_quad() {
    let expected = [(Area::Overflow, 0, [48, 176, 8]), (Area::Overflow, 16, [48, 176, 32])];
    assert_eq!(found(lent(48, 176, 0), &[integer(8), QUAD]), expected);
}

#[test]
fn x87_first() {
    let expected = [
        (Area::Overflow, 0, [0, 48, 16]),
        (Area::Save, 0, [8, 48, 16]),
        (Area::Save, 48, [8, 64, 16]),
    ];
    assert_eq!(found(lent(0, 48, 0), &[X87, integer(1), QUAD]), expected);
}

#[test]
fn starting_stack_offsets() {
    for (offset, rounded) in [(8, 16), (24, 32), (4, 16), (16, 16)] {
        let narrow = [(Area::Overflow, offset, [48, 176, offset + 8])];
        assert_eq!(found(lent(48, 176, offset), &[integer(4)]), narrow);
        let wide = [(Area::Overflow, rounded, [48, 176, rounded + 16])];
        assert_eq!(found(lent(48, 176, offset), &[X87]), wide);
    }
}

/// The refusal of a scalar, which has an empty part and the offsets that were handed in.
fn refusal(lent: Lent, scalar: Scalar) -> u64 {
    let part = List::new(lent).read(scalar).expect("the Rust and the rules say the same");
    let empty = Part { area: Area::Nowhere, start: 0, length: 0, next: lent.at, ..part };
    assert!(part == empty && part.refusal > 0, "{scalar:?} of {lent:?}: {part:?}");
    part.refusal
}

#[test]
fn a_scalar_is_refused_by_kind_then_size_then_alignment() {
    let good = lent(0, 48, 0);
    let no_area = Lent { save: 175, ..good };
    let refused = |lent, kind, size, align| refusal(lent, Scalar { kind, size, align });
    for lent in [good, no_area] {
        for kind in [5, 1 << 32, u64::MAX] {
            assert_eq!(refused(lent, kind, 65, 4_097), 4);
            assert_eq!(refused(lent, kind, 8, 8), 4);
        }
        for size in [0, 3, 17, 64, 65] {
            assert_eq!(refused(lent, 0, size, 4_097), 5);
            assert_eq!(refused(lent, 4, size, size), 5);
        }
        assert_eq!(refused(lent, 3, 12, 4), 5);
        assert_eq!(refused(lent, 1, 8, 8), 5);
        for align in [0, 1, 4_096, 4_097] {
            assert_eq!(refused(lent, 0, 8, align), 6);
        }
        assert_eq!(refused(lent, 3, 16, 8), 6);
    }
    assert_eq!(refused(no_area, 0, 8, 8), 8);
}

/// Whatever the scalar is, and wherever it would come from.
#[test]
fn a_save_area_or_a_register_offset_that_can_not_be() {
    let good = lent(0, 48, 0);
    let mut wrong: Vec<Lent> = vec![];
    wrong.extend([0, 175, 177].map(|save| Lent { save, ..good }));
    wrong.extend([4, 47, 56, (1 << 32) + 8, u64::MAX - 7].map(|at| lent(at, 48, 0)));
    wrong.extend([0, 40, 56, 168, 192].map(|at| lent(0, at, 0)));
    wrong.push(Lent { save: 0, overflow: 0, ..good });
    for lent in wrong {
        for scalar in [integer(8), DOUBLE, X87] {
            assert_eq!(refusal(lent, scalar), 8, "{lent:?}");
        }
    }
}

#[test]
fn an_overflow_area_that_ends_too_early() {
    for (scalar, offset, start) in
        [(integer(4), 0, 0), (integer(1), 4, 4), (X87, 8, 16), (QUAD, 16, 16)]
    {
        let end = start + scalar.size;
        let there = Lent { overflow: end, ..lent(48, 176, offset) };
        let next = [48, 176, start + scalar.size.next_multiple_of(8)];
        assert_eq!(found(there, &[scalar]), [(Area::Overflow, start, next)]);
        assert_eq!(refusal(Lent { overflow: end - 1, ..there }, scalar), 8);
    }
    for offset in [80, 81, 1 << 63, u64::MAX - 14, u64::MAX] {
        for scalar in [integer(1), DOUBLE, X87] {
            assert_eq!(refusal(lent(48, 176, offset), scalar), 8);
        }
        // What is in a register doesn't read it.
        let next = [8, 48, offset];
        assert_eq!(found(lent(0, 48, offset), &[integer(1)]), [(Area::Save, 0, next)]);
    }
}

// ---- random lists

fn printed(seed: u64, count: u64) -> String {
    let mut out = Vec::new();
    let agreed = lists::print(&mut out, seed, count).expect("a vector takes all that is written");
    agreed.expect("the Rust and the rules say the same");
    String::from_utf8(out).expect("lines are text")
}

/// A line's word and its numbers.
fn taken_apart(line: &str) -> (&str, Vec<u64>) {
    let mut words = line.split(' ');
    let word = words.next().expect("a line has a word");
    (word, words.map(|number| number.parse().expect("a number")).collect())
}

#[test]
fn the_same_seed_gives_the_same_lists() {
    assert_eq!(printed(5, 300), printed(5, 300));
    assert_ne!(printed(5, 300), printed(6, 300));
    assert!(printed(5, 300).starts_with(&printed(5, 100)));
}

/// A reader of the lines has all that it needs before each of them: the offsets that follow from a
/// read, or are lent, are those of the next one.
#[test]
fn the_lines_of_a_list_hang_together() {
    let printed = printed(3, 5_000);
    let (mut named, mut reads) = (false, 0);
    let mut start = None;
    let mut at: Option<Vec<u64>> = None;
    for line in printed.lines() {
        let (word, numbers) = taken_apart(line);
        match word {
            "list" => {
                assert!(numbers.is_empty() && !named, "{line}");
                (named, at, start) = (true, None, None);
                reads = 0;
            }
            "named" => assert!(named && numbers.len() % 6 == 0 && !numbers.is_empty(), "{line}"),
            "left" => {
                assert!(named && numbers.len() == 5, "{line}");
                assert_eq!(numbers[3], 8 * (6 - numbers[1]));
                assert_eq!(numbers[4], 48 + 16 * (8 - numbers[2]));
                (named, start) = (false, Some(vec![numbers[3], numbers[4], numbers[0]]));
            }
            "lent" => {
                assert!(!named && numbers.len() == 5, "{line}");
                assert!(numbers[0] <= 1_024 && numbers[1] <= 1_024, "{line}");
                at = Some(numbers[2..].to_vec());
                // The first of a list is at the start.
                assert!(start.take().is_none_or(|start| at == Some(start)), "{line}");
            }
            "read" => {
                assert!(numbers.len() == 10, "{line}");
                let before = at.replace(numbers[7..].to_vec()).expect("something is lent");
                if numbers[3] > 0 {
                    assert_eq!((&numbers[4..7], &numbers[7..]), (&[0; 3][..], &before[..]));
                }
                reads += 1;
                assert!(reads <= 4 * MOST_SCALARS, "{line}");
            }
            _ => panic!("no line has the word {word}"),
        }
    }
}

/// The named parameters as a sheet, in which the refused ones say so and leave the call.
#[test]
fn named_parameters_leave_what_they_leave_on_a_sheet() {
    let mut refusals: HashSet<String> = HashSet::new();
    let mut sheet: Vec<Vec<u64>> = Vec::new();
    for line in printed(4, 5_000).lines() {
        match taken_apart(line) {
            ("list", _) => sheet = vec![vec![0, 0]],
            ("named", words) => sheet.extend(words.chunks(6).map(<[u64]>::to_vec)),
            ("left", numbers) => {
                let records: Vec<&[u64]> = sheet.iter().map(Vec::as_slice).collect();
                let lines = common::lines(&records);
                let last = lines.last().expect("the fresh call has a line");
                let left: Vec<String> = last.split(' ').skip(1).take(2).map(String::from).collect();
                assert_eq!(left, [numbers[1], numbers[2]].map(|count| count.to_string()), "{last}");
                let refused = lines.iter().filter_map(|line| common::refusal(line));
                refusals.extend(refused.map(String::from));
            }
            _ => {}
        }
    }
    assert_eq!(refusals, ["4", "5", "6", "9"].map(String::from).into());
}

/// How often each answer comes says whether the lists are telling.
#[test]
fn lists_have_every_scalar_every_place_and_every_refusal() {
    let printed = printed(1, 20_000);
    let mut answers: HashMap<[u64; 2], u64> = HashMap::new();
    let mut places: HashSet<[u64; 3]> = HashSet::new();
    let mut starts: HashSet<[u64; 2]> = HashSet::new();
    for line in printed.lines() {
        match taken_apart(line) {
            ("read", numbers) => {
                *answers.entry([numbers[3], numbers[4]]).or_default() += 1;
                if numbers[4] == 1 {
                    places.insert([numbers[0], numbers[1], numbers[5]]);
                }
            }
            ("left", numbers) => {
                starts.insert([numbers[1], numbers[2]]);
            }
            _ => {}
        }
    }
    let kinds: HashSet<[u64; 2]> = HashSet::from([[0, 1], [0, 2], [4, 0], [5, 0], [6, 0], [8, 0]]);
    assert_eq!(answers.keys().copied().collect::<HashSet<_>>(), kinds);
    assert!(answers.values().all(|times| *times > 500), "{answers:?}");
    // Four sizes at six places and one at five; three formats at eight.
    assert_eq!(places.len(), 4 * 6 + 5 + 3 * 8, "{places:?}");
    assert_eq!(starts.len(), 7 * 9, "{starts:?}");
}

/// The reads of one list, apart from those between them.
#[test]
fn a_list_has_up_to_40_scalars() {
    let printed = printed(2, 20_000);
    let lists: Vec<&str> = printed.split("list\n").skip(1).collect();
    assert_eq!(lists.len(), 20_000);
    let undisturbed = lists.iter().filter(|list| list.matches("lent ").count() == 1);
    let most = undisturbed.map(|list| list.matches("read ").count()).max();
    assert!(most.is_some_and(|most| most as u64 >= MOST_SCALARS), "{most:?}");
}
