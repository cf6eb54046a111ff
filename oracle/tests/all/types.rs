//! Nested types, worked out by hand, and what random ones are made of.

use std::collections::HashMap;
use std::path::Path;

use oracle::random::Random;
use oracle::types::{self, ARRAY, Case, MOST_WORDS, RECORD, UNION};

const BAD_LIST: u64 = 3;
const BAD_KIND: u64 = 4;
const BAD_SIZE: u64 = 5;
const BAD_ALIGN: u64 = 6;
const NO_ROOM: u64 = 7;
const BAD_TYPE: u64 = 10;
const TOO_DEEP: u64 = 11;

const BYTE: [u64; 3] = [0, 1, 1];
const INT: [u64; 3] = [0, 4, 4];
const EMPTY: [u64; 3] = [RECORD, 0, 0];
/// An integer of 12 aligned to 16.
const TWELVE: [u64; 3] = [0, 12, 16];
/// A scalar of size 0 aligned to 1.
const NOTHING: [u64; 3] = [0, 0, 1];

/// Lists of these entries, whose fourth words aren't read, and a buffer that is always large enough.
fn case(entries: &[[u64; 3]], members: &[u64]) -> Case {
    let words = |&[kind, second, third]: &[u64; 3]| [kind, second, third, u64::MAX];
    let types = entries.iter().flat_map(words).collect();
    Case { types, members: members.to_vec(), buffer: 4_100 }
}

/// The line of such lists.
fn line(entries: &[[u64; 3]], members: &[u64]) -> String {
    types::line(&types::flatten(&case(entries, members)))
}

/// The refusal of such lists, 0 where there is none.
fn refusal(entries: &[[u64; 3]], members: &[u64]) -> u64 {
    types::flatten(&case(entries, members)).err().unwrap_or(0)
}

/// The size, the alignment and the number of pieces of such lists.
fn measure(entries: &[[u64; 3]], members: &[u64]) -> (u64, u64, usize) {
    let flat = types::flatten(&case(entries, members)).expect("these are accepted");
    (flat.size, flat.align, flat.pieces.len())
}

/// The entries and then so many more, each made of the one before it.
fn over(entries: &[[u64; 3]], times: u64, entry: impl Fn(u64) -> [u64; 3]) -> Vec<[u64; 3]> {
    let mut entries = entries.to_vec();
    for _ in 0..times {
        entries.push(entry(entries.len() as u64 - 1));
    }
    entries
}

/// So many arrays over the last of the entries.
fn arrays(entries: &[[u64; 3]], times: u64, count: u64) -> Vec<[u64; 3]> {
    over(entries, times, |below| [ARRAY, below, count])
}

/// So many records or unions over a byte, each of so many members that are the one before it.
fn repeated(kind: u64, times: u64, count: u64) -> (Vec<[u64; 3]>, Vec<u64>) {
    let members = (0..times).flat_map(|below| (0..count).map(move |_| below)).collect();
    (over(&[BYTE], times, |below| [kind, count * below, count]), members)
}

// ---- accepted

#[test]
fn the_example() {
    let entries = [BYTE, INT, [RECORD, 0, 2], [ARRAY, 2, 3]];
    let pieces = "0:1:1:0 0:4:4:4 0:1:1:8 0:4:4:12 0:1:1:16 0:4:4:20";
    assert_eq!(line(&entries, &[0, 1]), format!("size 24 align 4 pieces {pieces}"));
}

#[test]
fn a_scalar_moves_the_next_member_on_by_its_own_size() {
    let entries = [TWELVE, BYTE, [RECORD, 0, 2]];
    assert_eq!(line(&entries, &[0, 1]), "size 16 align 16 pieces 0:12:16:0 0:1:1:12");
    let entries = [NOTHING, INT, [RECORD, 0, 3]];
    assert_eq!(line(&entries, &[0, 1, 0]), "size 8 align 4 pieces 0:0:1:0 0:4:4:0 0:0:1:4");
}

#[test]
fn any_other_type_moves_it_on_by_its_rounded_size() {
    let entries = [TWELVE, BYTE, [RECORD, 0, 1], [RECORD, 1, 2]];
    assert_eq!(line(&entries, &[0, 2, 1]), "size 32 align 16 pieces 0:12:16:0 0:1:1:16");
    let entries = [TWELVE, BYTE, [UNION, 0, 1], [RECORD, 1, 2]];
    assert_eq!(line(&entries, &[0, 2, 1]), "size 32 align 16 pieces 0:12:16:0 0:1:1:16");
    let entries = [TWELVE, BYTE, [ARRAY, 0, 1], [RECORD, 0, 2]];
    assert_eq!(line(&entries, &[2, 1]), "size 32 align 16 pieces 0:12:16:0 0:1:1:16");
}

#[test]
fn elements_are_a_rounded_size_apart() {
    assert_eq!(line(&[TWELVE, [ARRAY, 0, 2]], &[]), "size 32 align 16 pieces 0:12:16:0 0:12:16:16");
    assert_eq!(
        line(&[NOTHING, [ARRAY, 0, 3]], &[]),
        "size 3 align 1 pieces 0:0:1:0 0:0:1:1 0:0:1:2"
    );
    assert_eq!(line(&[[2, 0, 8], [ARRAY, 0, 2]], &[]), "size 16 align 8 pieces 2:0:8:0 2:0:8:8");
}

#[test]
fn a_scalar_without_size_ends_one_behind_its_offset() {
    assert_eq!(line(&[NOTHING, [RECORD, 0, 1]], &[0]), "size 1 align 1 pieces 0:0:1:0");
    assert_eq!(line(&[NOTHING, [RECORD, 0, 2]], &[0, 0]), "size 1 align 1 pieces 0:0:1:0 0:0:1:0");
    assert_eq!(line(&[NOTHING, [UNION, 0, 2]], &[0, 0]), "size 1 align 1 pieces 0:0:1:0 0:0:1:0");
    assert_eq!(line(&[NOTHING], &[]), "size 1 align 1 pieces 0:0:1:0");
    // Only a scalar does: an empty record ends where it is.
    let entries = [INT, EMPTY, [RECORD, 0, 2]];
    assert_eq!(line(&entries, &[0, 1]), "size 4 align 4 pieces 0:4:4:0");
}

/// The last member isn't always the one that ends last: an empty one behind a scalar without size
/// ends before that.
#[test]
fn the_furthest_end_counts() {
    let entries = [[0, 0, 8], INT, EMPTY, [ARRAY, 1, 0], [RECORD, 0, 4]];
    assert_eq!(line(&entries, &[1, 0, 2, 3]), "size 16 align 8 pieces 0:4:4:0 0:0:8:8");
    let entries = [[0, 0, 1], [0, 2, 2], [RECORD, 0, 2]];
    assert_eq!(line(&entries, &[1, 0]), "size 4 align 2 pieces 0:2:2:0 0:0:1:2");
    let entries = [BYTE, [2, 8, 8], [UNION, 0, 3]];
    assert_eq!(line(&entries, &[0, 1, 0]), "size 8 align 8 pieces 0:1:1:0 2:8:8:0 0:1:1:0");
}

/// It shows where the alignment around it is no multiple of its own: 8 is rounded up to 10, 5 isn't.
#[test]
fn a_type_inside_ends_at_its_rounded_size() {
    let entries = [[0, 5, 4], [0, 1, 5], [RECORD, 0, 1], [UNION, 1, 2]];
    assert_eq!(line(&entries, &[0, 2, 1]), "size 10 align 5 pieces 0:5:4:0 0:1:5:0");
    assert_eq!(line(&entries[..3], &[0]), "size 8 align 4 pieces 0:5:4:0");
    let entries = [[0, 5, 4], [0, 1, 5], [UNION, 0, 2]];
    assert_eq!(line(&entries, &[0, 1]), "size 5 align 5 pieces 0:5:4:0 0:1:5:0");
}

#[test]
fn a_wanted_scalar_is_rounded_too() {
    assert_eq!(line(&[TWELVE], &[]), "size 16 align 16 pieces 0:12:16:0");
    assert_eq!(line(&[[4, 64, 4_096]], &[]), "size 4096 align 4096 pieces 4:64:4096:0");
    assert_eq!(line(&[INT, [3, 10, 3]], &[]), "size 12 align 3 pieces 3:10:3:0");
}

#[test]
fn alignment_0_counts_as_1_but_in_the_piece() {
    assert_eq!(line(&[[1, 5, 0]], &[]), "size 5 align 1 pieces 1:5:0:0");
    let entries = [BYTE, [0, 5, 0], [RECORD, 0, 2]];
    assert_eq!(line(&entries, &[0, 1]), "size 6 align 1 pieces 0:1:1:0 0:5:0:1");
    assert_eq!(line(&[[0, 2, 0], [ARRAY, 0, 2]], &[]), "size 4 align 1 pieces 0:2:0:0 0:2:0:2");
}

/// No alignment has to be a power of 2, and the largest is all that counts.
#[test]
fn odd_alignments() {
    let entries = [[0, 2, 3], [0, 4, 4], [RECORD, 0, 3], [ARRAY, 2, 2]];
    let pieces = "0:2:3:0 0:4:4:4 0:2:3:9 0:2:3:12 0:4:4:16 0:2:3:21";
    assert_eq!(line(&entries, &[0, 1, 0]), format!("size 24 align 4 pieces {pieces}"));
}

#[test]
fn an_array_of_0_has_an_alignment_alone() {
    let entries = [BYTE, INT, [ARRAY, 1, 0], [RECORD, 0, 2]];
    assert_eq!(line(&entries, &[0, 2]), "size 4 align 4 pieces 0:1:1:0");
    assert_eq!(line(&entries, &[2, 0]), "size 4 align 4 pieces 0:1:1:0");
    assert_eq!(line(&[TWELVE, [ARRAY, 0, 0]], &[]), "size 0 align 16 pieces");
    // It moves what stands behind it to where it is aligned.
    let entries = [BYTE, INT, [ARRAY, 1, 0], [RECORD, 0, 3]];
    assert_eq!(line(&entries, &[0, 2, 0]), "size 8 align 4 pieces 0:1:1:0 0:1:1:4");
}

#[test]
fn a_record_or_a_union_of_nothing() {
    assert_eq!(line(&[EMPTY], &[]), "size 0 align 1 pieces");
    assert_eq!(line(&[[UNION, 0, 0]], &[]), "size 0 align 1 pieces");
    assert_eq!(line(&[EMPTY, [ARRAY, 0, 1_024]], &[]), "size 0 align 1 pieces");
}

/// Members and elements from the first, depth first, each at the sum of its parents' offsets.
#[test]
fn the_order_of_the_pieces() {
    let float = [1, 4, 4];
    let entries = [BYTE, float, [RECORD, 0, 2], [ARRAY, 2, 2], [UNION, 2, 2], [RECORD, 4, 3]];
    let pieces = "1:4:4:0 1:4:4:4 0:1:1:4 1:4:4:8 0:1:1:12 1:4:4:16 0:1:1:20";
    let members = [0, 1, 1, 3, 1, 4, 0];
    assert_eq!(line(&entries, &members), format!("size 24 align 4 pieces {pieces}"));
}

#[test]
fn what_is_not_reached_makes_no_piece() {
    assert_eq!(line(&[INT, TWELVE, BYTE], &[1, 2, u64::MAX]), "size 1 align 1 pieces 0:1:1:0");
}

#[test]
fn leaves_without_size_and_types_without_leaves() {
    assert_eq!(measure(&arrays(&[EMPTY], 15, 1_024), &[]), (0, 1, 0));
    assert_eq!(measure(&arrays(&[[UNION, 0, 0]], 15, 1_024), &[]), (0, 1, 0));
    assert_eq!(measure(&arrays(&[TWELVE, [ARRAY, 0, 0]], 14, 1_024), &[]), (0, 16, 0));
    let (entries, members) = repeated(UNION, 10, 2);
    assert_eq!(measure(&entries, &members), (1, 1, 1_024));
    let (entries, members) = repeated(RECORD, 10, 2);
    assert_eq!(measure(&entries, &members), (1_024, 1, 1_024));
}

// ---- BAD_LIST

#[test]
fn lists_that_are_none() {
    for length in [0, 1, 2, 3, 5, 6, 7] {
        let types = [0, 1, 1, 0, 0, 1, 1][..length].to_vec();
        let case = Case { types, members: vec![], buffer: 4 };
        assert_eq!(types::flatten(&case), Err(BAD_LIST), "{length}");
    }
}

#[test]
fn lists_that_are_too_long() {
    assert_eq!(measure(&[BYTE; 1_024], &[]), (1, 1, 1));
    assert_eq!(refusal(&[BYTE; 1_025], &[]), BAD_LIST);
    assert_eq!(measure(&[BYTE], &[9; 4_096]), (1, 1, 1));
    assert_eq!(refusal(&[BYTE], &[9; 4_097]), BAD_LIST);
    assert_eq!(measure(&[EMPTY, [RECORD, 0, 4_096]], &[0; 4_096]), (0, 1, 0));
}

#[test]
fn bad_list_goes_first() {
    assert_eq!(refusal(&[[RECORD, 0, 1]; 1_025], &[]), BAD_LIST);
    assert_eq!(refusal(&[[9, 0, 0]], &[9; 4_097]), BAD_LIST);
    let types = vec![ARRAY, 0, 1, 0, 0];
    assert_eq!(types::flatten(&Case { types, ..Case::default() }), Err(BAD_LIST));
}

// ---- BAD_TYPE

/// Itself, a later one, none, and what narrower numbers would take for entry 0.
#[test]
fn references_that_do_not_go_back() {
    for referred in [1, 2, 3, 4, 1 << 32, 1 << 63, u64::MAX] {
        assert_eq!(refusal(&[BYTE, [ARRAY, referred, 2], BYTE], &[]), BAD_TYPE, "{referred}");
        for kind in [RECORD, UNION] {
            let entries = [BYTE, [kind, 0, 2], BYTE];
            assert_eq!(refusal(&entries, &[0, referred]), BAD_TYPE, "{kind} {referred}");
            assert_eq!(refusal(&entries, &[referred, 0]), BAD_TYPE, "{kind} {referred}");
        }
    }
    assert_eq!(refusal(&[BYTE, [ARRAY, 0, 2], BYTE], &[]), 0);
    assert_eq!(refusal(&[BYTE, [UNION, 0, 2], BYTE], &[0, 0]), 0);
}

#[test]
fn entry_0_can_refer_to_nothing() {
    assert_eq!(refusal(&[[ARRAY, 0, 1]], &[]), BAD_TYPE);
    assert_eq!(refusal(&[[ARRAY, 0, 0], BYTE], &[]), BAD_TYPE);
    assert_eq!(refusal(&[[RECORD, 0, 1]], &[0]), BAD_TYPE);
    assert_eq!(refusal(&[[UNION, 0, 0]], &[0]), 0);
}

#[test]
fn members_past_the_end_of_the_list() {
    for kind in [RECORD, UNION] {
        let of = |first, count| refusal(&[BYTE, [kind, first, count]], &[0, 0, 0]);
        for (first, count) in [(0, 0), (0, 3), (1, 2), (2, 1), (3, 0), (4, 0), (u64::MAX, 0)] {
            assert_eq!(of(first, count), 0, "{first} {count}");
        }
        for (first, count) in [(0, 4), (1, 3), (3, 1), (4, 1), (u64::MAX, 1), (u64::MAX, 3)] {
            assert_eq!(of(first, count), BAD_TYPE, "{first} {count}");
        }
        // In 64 bits these would end at 0, at 1 and at 2.
        for (first, count) in [(1, u64::MAX), (2, u64::MAX), (1 << 63, 1 << 63), (3, u64::MAX)] {
            assert_eq!(of(first, count), BAD_TYPE, "{first} {count}");
        }
    }
}

#[test]
fn an_array_of_0_is_checked_all_the_same() {
    assert_eq!(refusal(&[BYTE, [ARRAY, 1, 0], BYTE], &[]), BAD_TYPE);
    assert_eq!(refusal(&[BYTE, [ARRAY, u64::MAX, 0], BYTE], &[]), BAD_TYPE);
}

/// A bad reference goes before every other number, wherever they stand.
#[test]
fn bad_type_goes_before_the_rest() {
    let itself = [ARRAY, 1, 1];
    for other in [[5, 0, 0], [0, 65, 0], [0, 0, 4_097]] {
        assert_eq!(refusal(&[other, itself], &[]), BAD_TYPE);
        assert_eq!(refusal(&[BYTE, itself, other], &[]), BAD_TYPE);
    }
    assert_eq!(refusal(&[BYTE, [ARRAY, 1, 1_025]], &[]), BAD_TYPE);
    let mut deep = arrays(&[BYTE], 16, 1);
    deep.insert(0, [RECORD, 0, 1]);
    assert_eq!(refusal(&deep, &[]), BAD_TYPE);
}

#[test]
fn an_unknown_kind_refers_to_nothing() {
    for kind in [5, 255, 259, (1 << 32) + RECORD, u64::MAX] {
        assert_eq!(refusal(&[[kind, u64::MAX, u64::MAX], BYTE], &[]), BAD_KIND, "{kind}");
    }
}

// ---- TOO_DEEP

#[test]
fn sixteen_levels_and_seventeen() {
    for bottom in [BYTE, EMPTY] {
        for count in [0, 1] {
            assert_eq!(refusal(&arrays(&[bottom], 15, count), &[]), 0);
            assert_eq!(refusal(&arrays(&[bottom], 16, count), &[]), TOO_DEEP);
        }
    }
    for kind in [RECORD, UNION] {
        let (entries, members) = repeated(kind, 15, 1);
        assert_eq!(measure(&entries, &members), (1, 1, 1));
        let (entries, members) = repeated(kind, 16, 1);
        assert_eq!(refusal(&entries, &members), TOO_DEEP);
    }
}

/// The longest way counts, whichever member it goes through.
#[test]
fn levels_through_any_member() {
    for members in [[0, 15], [15, 0]] {
        let deep = arrays(&[BYTE], 15, 1);
        assert_eq!(refusal(&[deep.as_slice(), &[[RECORD, 0, 2]]].concat(), &members), TOO_DEEP);
        let flat = arrays(&[BYTE, BYTE], 14, 1);
        assert_eq!(refusal(&[flat.as_slice(), &[[UNION, 0, 2]]].concat(), &members), 0);
    }
}

#[test]
fn an_unknown_kind_is_a_level() {
    assert_eq!(refusal(&arrays(&[[5, 0, 0]], 15, 1), &[]), BAD_KIND);
    assert_eq!(refusal(&arrays(&[[5, 0, 0]], 16, 1), &[]), TOO_DEEP);
}

#[test]
fn what_is_not_reached_may_be_deep() {
    let mut entries = arrays(&[BYTE], 1_022, 1);
    assert_eq!(refusal(&entries, &[]), TOO_DEEP);
    entries.push(INT);
    assert_eq!(line(&entries, &[]), "size 4 align 4 pieces 0:4:4:0");
}

/// Before kinds, sizes and alignments, be they of the first entry.
#[test]
fn too_deep_goes_before_the_rest() {
    for other in [[5, 0, 0], [0, 65, 0], [0, 0, 4_097]] {
        assert_eq!(refusal(&arrays(&[other, BYTE], 16, 1), &[]), TOO_DEEP);
    }
    assert_eq!(refusal(&arrays(&[BYTE], 16, 1_024), &[]), TOO_DEEP);
    assert_eq!(refusal(&arrays(&[BYTE], 16, 1_025), &[]), TOO_DEEP);
}

// ---- kind, size, alignment

#[test]
fn a_scalar_at_its_limits() {
    assert_eq!(refusal(&[[4, 64, 4_096]], &[]), 0);
    assert_eq!(refusal(&[[5, 64, 4_096]], &[]), BAD_KIND);
    assert_eq!(refusal(&[[4, 65, 4_096]], &[]), BAD_SIZE);
    assert_eq!(refusal(&[[4, 64, 4_097]], &[]), BAD_ALIGN);
    assert_eq!(refusal(&[[5, 65, 4_097]], &[]), BAD_KIND);
    assert_eq!(refusal(&[[4, u64::MAX, u64::MAX]], &[]), BAD_SIZE);
    assert_eq!(refusal(&[[4, 64, u64::MAX]], &[]), BAD_ALIGN);
}

/// The first entry that has a refusal decides, whatever the others have, and whether it is reached.
#[test]
fn the_entries_from_the_first() {
    let wrong = [([5, 0, 0], BAD_KIND), ([0, 65, 0], BAD_SIZE), ([0, 0, 4_097], BAD_ALIGN)];
    for (first, refused) in wrong {
        for (second, _) in wrong {
            assert_eq!(refusal(&[BYTE, first, second, BYTE], &[]), refused);
            assert_eq!(refusal(&[first, [ARRAY, 0, 1], second], &[]), refused);
        }
        assert_eq!(refusal(&[first, [ARRAY, 0, 1_025]], &[]), refused);
        assert_eq!(refusal(&[BYTE, [ARRAY, 0, 1_025], first], &[]), BAD_SIZE);
    }
}

#[test]
fn the_count_of_an_array() {
    for element in [BYTE, EMPTY] {
        assert_eq!(refusal(&[element, [ARRAY, 0, 1_024]], &[]), 0);
        for count in [1_025, 1 << 32, 1 << 63, u64::MAX] {
            assert_eq!(refusal(&[element, [ARRAY, 0, count]], &[]), BAD_SIZE, "{count}");
            assert_eq!(refusal(&[element, [ARRAY, 0, count], BYTE], &[]), BAD_SIZE, "{count}");
        }
    }
}

/// A type of the largest size, 16,777,216, which has too many leaves to be answered.
fn largest() -> Vec<[u64; 3]> {
    arrays(&[[0, 16, 1]], 2, 1_024)
}

#[test]
fn the_largest_size() {
    assert_eq!(refusal(&largest(), &[]), NO_ROOM);
    for last in [[RECORD, 0, 2], [ARRAY, 2, 2]] {
        let entries = [largest().as_slice(), &[last]].concat();
        assert_eq!(refusal(&entries, &[2, 0]), BAD_SIZE);
        // Every entry is held to the limit, whether it is reached or not.
        let entries = [entries.as_slice(), &[BYTE]].concat();
        assert_eq!(refusal(&entries, &[2, 0]), BAD_SIZE);
    }
    for last in [[UNION, 0, 2], [ARRAY, 2, 1], [RECORD, 1, 1]] {
        assert_eq!(refusal(&[largest().as_slice(), &[last]].concat(), &[0, 2]), NO_ROOM);
    }
    let one_more = [largest().as_slice(), &[BYTE, [RECORD, 0, 2]]].concat();
    assert_eq!(refusal(&one_more, &[2, 3]), BAD_SIZE);
    // An array of none of them is as good as any.
    let entries = [largest().as_slice(), &[[ARRAY, 2, 0]]].concat();
    assert_eq!(line(&entries, &[]), "size 0 align 1 pieces");
}

/// The rounded size is held to it: 16,777,216 is no multiple of 3.
#[test]
fn the_largest_size_is_a_rounded_one() {
    for (align, expected) in [(1, NO_ROOM), (3, BAD_SIZE), (4_095, BAD_SIZE), (4_096, NO_ROOM)] {
        let entries = [largest().as_slice(), &[[0, 1, align], [UNION, 0, 2]]].concat();
        assert_eq!(refusal(&entries, &[2, 3]), expected, "{align}");
    }
}

/// Entries without size that are aligned by turns to 4,096 and 4,095 move each other on.
#[test]
fn the_largest_size_with_few_leaves() {
    let entries = [BYTE, [0, 1, 4_096], [0, 1, 4_095], [ARRAY, 1, 0], [ARRAY, 2, 0]];
    let entries = [entries.as_slice(), &[[RECORD, 0, 7], [ARRAY, 5, 1_024]]].concat();
    let members = [0, 3, 4, 3, 4, 3, 4];
    assert_eq!(measure(&entries[..6], &members), (16_384, 4_096, 1));
    assert_eq!(measure(&entries, &members), (16_777_216, 4_096, 1_024));
}

#[test]
fn a_byte_under_three_arrays() {
    assert_eq!(refusal(&arrays(&[BYTE], 2, 1_024), &[]), NO_ROOM);
    let entries = arrays(&[BYTE], 3, 1_024);
    assert_eq!(refusal(&entries, &[]), BAD_SIZE);
    // At the third, and not before it.
    assert_eq!(refusal(&[entries.as_slice(), &[[5, 0, 0]]].concat(), &[]), BAD_SIZE);
    let between = [&entries[..3], &[[5, 0, 0], [ARRAY, 2, 1_024]]].concat();
    assert_eq!(refusal(&between, &[]), BAD_KIND);
}

#[test]
fn bad_size_goes_before_no_room() {
    assert_eq!(refusal(&arrays(&[[0, 64, 1]], 2, 1_024), &[]), BAD_SIZE);
    let (entries, members) = repeated(RECORD, 15, 4);
    assert_eq!(refusal(&entries, &members), BAD_SIZE);
}

// ---- NO_ROOM

#[test]
fn the_most_leaves() {
    assert_eq!(measure(&arrays(&[BYTE], 1, 1_024), &[]), (1_024, 1, 1_024));
    for buffer in [4_099, 4_100, 4_128, u64::MAX] {
        for kind in [RECORD, UNION] {
            let entries = [BYTE, [ARRAY, 0, 1_024], [kind, 0, 2]];
            let more = Case { buffer, ..case(&entries, &[1, 0]) };
            assert_eq!(types::flatten(&more), Err(NO_ROOM), "{buffer}");
        }
    }
    assert_eq!(refusal(&[BYTE, [ARRAY, 0, 205], [ARRAY, 1, 5]], &[]), NO_ROOM);
    assert_eq!(refusal(&[BYTE, [ARRAY, 0, 341], [ARRAY, 1, 3]], &[]), 0);
}

/// Leaves grow at a power: 273^15 of them in 273 x 15 members, and far more where they aren't
/// reached.
#[test]
fn more_leaves_than_can_be_counted() {
    // 32^15 are no leaves at all in 64 bits.
    for (kind, times, count) in [(UNION, 15, 273), (UNION, 15, 32), (RECORD, 15, 2), (UNION, 15, 2)]
    {
        let (mut entries, members) = repeated(kind, times, count);
        assert_eq!(refusal(&entries, &members), NO_ROOM, "{kind} {count}");
        entries.push(BYTE);
        assert_eq!(refusal(&entries, &members), 0, "{kind} {count}");
    }
    let (mut entries, members) = repeated(UNION, 1_022, 4);
    entries.push(INT);
    assert_eq!(line(&entries, &members), "size 4 align 4 pieces 0:4:4:0");
}

#[test]
fn the_buffer_holds_whole_pieces() {
    for (leaves, buffer, expected) in [
        (0, 0, 0),
        (1, 0, NO_ROOM),
        (1, 3, NO_ROOM),
        (1, 4, 0),
        (2, 7, NO_ROOM),
        (2, 8, 0),
        (2, 11, 0),
        (1_024, 4_095, NO_ROOM),
        (1_024, 4_096, 0),
    ] {
        let lent = Case { buffer, ..case(&[BYTE, [ARRAY, 0, leaves]], &[]) };
        let refused = types::flatten(&lent).err().unwrap_or(0);
        assert_eq!(refused, expected, "{leaves} in {buffer}");
    }
    let lent = Case { buffer: 0, ..case(&[[0, 0, 4_097]], &[]) };
    assert_eq!(types::flatten(&lent), Err(BAD_ALIGN));
}

// ---- sheets

fn printed(sheet: &[u8]) -> Result<String, String> {
    let mut out = Vec::new();
    let agreed = types::print(&mut out, sheet).map_err(|why| why.to_string())?;
    agreed.expect("the Rust and the rules say the same");
    Ok(String::from_utf8(out).expect("lines are text"))
}

#[test]
fn a_line_for_each_case() {
    let some = case(&[BYTE, INT, [RECORD, 0, 2]], &[0, 1]);
    let none = Case::default();
    let empty = case(&[EMPTY], &[]);
    let sheet = [some, none, empty].map(|case| types::bytes(&case)).concat();
    let expected =
        "size 8 align 4 pieces 0:1:1:0 0:4:4:4\nrefused 3\nsize 0 align 1 pieces\n".to_string();
    assert_eq!(printed(&sheet), Ok(expected));
    assert_eq!(printed(&[]), Ok(String::new()));
}

#[test]
fn a_case_in_bytes() {
    let words = [4, 1, 7, 0, 1, 1, u64::MAX, 9];
    let case = Case { buffer: 7, ..case(&[BYTE], &[9]) };
    assert_eq!(types::bytes(&case), words.map(u64::to_le_bytes).concat());
}

/// It says in which case it ends, and what is missing there.
#[test]
fn a_sheet_that_ends_short() {
    let first = types::bytes(&case(&[BYTE], &[]));
    let second = types::bytes(&case(&[BYTE, INT, [RECORD, 0, 2]], &[0, 1]));
    let sheet = [first.as_slice(), &second].concat();
    for end in 1..second.len() {
        let said = printed(&sheet[..first.len() + end]).expect_err("a case isn't whole");
        assert!(said.starts_with("case 2 of the sheet: of "), "{said}");
        let what = match end {
            ..24 => "lengths",
            24..120 => "types",
            _ => "members",
        };
        assert!(said.contains(&format!("words of {what} ")), "{end}: {said}");
    }
}

#[test]
fn a_sheet_with_a_length_that_nobody_holds() {
    for (at, length) in [(0, MOST_WORDS + 1), (1, u64::MAX), (2, 1 << 63)] {
        let mut lengths = [0, 0, 0];
        lengths[at] = length;
        let said = printed(&lengths.map(u64::to_le_bytes).concat()).expect_err("it is too long");
        assert_eq!(said, format!("case 1 of the sheet: a length of {length} is above 4128"));
    }
}

// ---- random types

fn drawn(seed: u64, count: u64) -> Vec<Case> {
    let mut random = Random::new(seed);
    (0..count).map(|_| types::case(&mut random)).collect()
}

#[test]
fn a_sheet_has_the_cases_of_its_seed() {
    let sheet = |seed| {
        let mut sheet = Vec::new();
        types::write(&mut sheet, seed, 300).expect("a vector takes all that is written");
        sheet
    };
    assert_eq!(sheet(5), drawn(5, 300).iter().flat_map(types::bytes).collect::<Vec<u8>>());
    assert_ne!(sheet(5), sheet(6));
    assert_eq!(printed(&sheet(5)).map(|lines| lines.lines().count()), Ok(300));
}

#[test]
fn every_refusal_comes_often() {
    let cases = drawn(1, 20_000);
    let mut times: HashMap<u64, usize> = HashMap::new();
    for case in &cases {
        *times.entry(types::flatten(case).err().unwrap_or(0)).or_default() += 1;
    }
    assert!(times[&0] > 10_000, "{times:?}");
    let refusals = [BAD_LIST, BAD_TYPE, TOO_DEEP, BAD_KIND, BAD_SIZE, BAD_ALIGN, NO_ROOM];
    for refusal in refusals {
        assert!(times[&refusal] > 400, "{refusal}: {times:?}");
    }
    assert_eq!(times.len(), refusals.len() + 1, "{times:?}");
}

/// The limits are met on both sides, and the Rust is asked often.
#[test]
fn random_types_stand_at_the_limits() {
    let cases = drawn(2, 40_000);
    let answers: Vec<_> = cases.iter().map(types::flatten).collect();
    let times = |what: &str, refusal: u64, is_so: &dyn Fn(&Case) -> bool| {
        let both = cases.iter().zip(&answers);
        let found = both.filter(|(case, answer)| {
            answer.as_ref().err().copied().unwrap_or(0) == refusal && is_so(case)
        });
        assert!(found.count() >= 10, "{what}");
    };
    times("1,024 entries", 0, &|case| case.types.len() == 4_096);
    times("1,025 entries", BAD_LIST, &|case| case.types.len() == 4_100);
    times("4,096 members", 0, &|case| case.members.len() == 4_096);
    times("4,097 members", BAD_LIST, &|case| case.members.len() == 4_097);
    times("the Rust is asked", 0, &|case| types::scalars_of_record(case).is_some());
    let room = |more: u64| {
        move |case: &Case| {
            let roomy = Case { buffer: MOST_WORDS, ..case.clone() };
            types::flatten(&roomy)
                .is_ok_and(|flat| 4 * flat.pieces.len() as u64 == case.buffer + more)
        }
    };
    times("a buffer that fits", 0, &room(0));
    times("a buffer one word short", NO_ROOM, &room(1));
    times("more leaves than are accepted", NO_ROOM, &|case| case.buffer >= 4_100);
    let flats: Vec<_> = answers.iter().flatten().collect();
    assert!(flats.iter().filter(|flat| flat.pieces.len() == 1_024).count() > 50);
    assert!(flats.iter().filter(|flat| flat.size == 16_777_216).count() > 50);
    let asked = cases.iter().filter(|case| types::scalars_of_record(case).is_some()).count();
    assert!(asked > cases.len() / 10, "{asked}");
}

#[test]
fn no_random_list_is_longer_than_its_readers_hold() {
    for seed in 0..20 {
        for Case { types, members, buffer } in drawn(seed, 1_000) {
            let longest = (types.len() as u64).max(members.len() as u64).max(buffer);
            assert!(longest <= MOST_WORDS, "{longest}");
        }
    }
}

/// What C measures is what the sheet has: as many types and as many leaves.
#[test]
fn types_in_c() {
    let folder = Path::new(env!("CARGO_TARGET_TMPDIR")).join("types_in_c");
    std::fs::create_dir_all(&folder).expect("a folder");
    types::write_c(&folder, 3, 1_500, Some(4)).expect("files");
    let sheet = std::fs::read(folder.join("types.sheet")).expect("a sheet");
    let lines = printed(&sheet).expect("a whole sheet");
    assert_eq!((lines.lines().count(), lines.contains("refused")), (1_500, false));
    let read = |name| std::fs::read_to_string(folder.join(name)).expect("C");
    let text = read("types-0000.c") + &read("types-0001.c");
    assert_eq!(text.matches("\nTYPE(").count(), 1_500);
    assert_eq!(text.matches("\nLEAF(").count(), lines.matches(':').count() / 3);
    for word in ["struct { }", "union { }", "[0];", "long double", "void *", "int_by_64"] {
        assert!(text.contains(word), "{word}");
    }
    types::write_c(&folder, 3, 1_000, None).expect("files");
    assert!(!read("types-0000.c").contains("long double"));
}
