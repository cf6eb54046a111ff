//! The table of twelve calls (REFERENCE 9.8), each led to from a fresh call with nothing on the stack,
//! and cases beside it. The aggregates of calls 10 and 12 have other pieces than there.

use crate::common::last;

/// Arguments that lead from a fresh call to fewer registers.
const INT4: &[u64] = &[3, 1, 0, 4, 4];
const INT8: &[u64] = &[3, 1, 0, 8, 8];
const DOUBLE: &[u64] = &[3, 1, 2, 8, 8];

#[test]
fn call_1_an_integer_and_a_double() {
    let operation: &[&[u64]] = &[&[3, 2, 16, 8, 0, 2], &[5, 0, 8, 8, 0], &[5, 2, 8, 8, 8]];
    assert_eq!(last(0, &[], operation), "pieces 5 7 0 1 0 1 0:0:8 2:8:0 0 0");
}

#[test]
fn call_2_two_integers_and_one_register() {
    let operation: &[&[u64]] = &[&[3, 2, 16, 8, 0, 2], &[5, 0, 8, 8, 0], &[5, 0, 8, 8, 8]];
    assert_eq!(last(0, &[(INT8, 5)], operation), "memory 1 8 0 0 0 0 0 16");
}

#[test]
fn call_3_a_wide_integer_and_one_register() {
    assert_eq!(last(0, &[(INT8, 5)], &[&[3, 1, 0, 16, 16]]), "direct 1 8 0 0 0 0 0 16");
}

#[test]
fn call_4_an_x87_value_out_and_back() {
    let argument: &[&[u64]] = &[&[3, 2, 16, 16, 0, 1], &[5, 3, 16, 16, 0]];
    assert_eq!(last(0, &[], argument), "memory 6 8 0 0 0 0 0 16");
    let returned: &[&[u64]] = &[&[2, 2, 16, 16, 0, 1], &[5, 3, 16, 16, 0]];
    assert_eq!(last(0, &[], returned), "pieces 6 8 0 0 0 0 3:0:0 0 0");
}

#[test]
fn call_5_three_singles() {
    let operation: &[&[u64]] =
        &[&[3, 2, 12, 4, 0, 3], &[5, 1, 4, 4, 0], &[5, 1, 4, 4, 4], &[5, 1, 4, 4, 8]];
    assert_eq!(last(0, &[], operation), "pieces 6 6 0 0 0 2 2:0:0 1:8:0 0 0");
}

#[test]
fn call_6_a_wide_integer_starts_evenly_or_not() {
    assert_eq!(last(1, &[(INT8, 1)], &[&[3, 1, 0, 16, 16]]), "direct 4 8 1 2 0 0 0 0");
    assert_eq!(last(2, &[(INT8, 1)], &[&[3, 1, 0, 16, 16]]), "direct 5 8 0 2 0 0 0 0");
}

#[test]
fn call_7_five_singles() {
    let pieces: Vec<[u64; 5]> = (0..5).map(|at| [5, 1, 4, 4, 4 * at]).collect();
    let mut operation: Vec<&[u64]> = vec![&[3, 2, 20, 4, 0, 5]];
    operation.extend(pieces.iter().map(|piece| &piece[..]));
    assert_eq!(last(1, &[], &operation), "reference 7 8 0 1 0 0 0 0");
}

#[test]
fn call_8_three_doubles_and_two_registers() {
    let operation: &[&[u64]] =
        &[&[3, 2, 24, 8, 0, 3], &[5, 2, 8, 8, 0], &[5, 2, 8, 8, 8], &[5, 2, 8, 8, 16]];
    assert_eq!(last(1, &[(DOUBLE, 6)], operation), "memory 8 0 0 0 2 0 0 24");
}

#[test]
fn call_9_nothing_at_all_by_reference() {
    assert_eq!(last(4, &[], &[&[3, 2, 0, 1, 0, 0]]), "reference 3 0 0 1 0 0 0 0");
}

#[test]
fn call_10_eight_bytes_and_no_register() {
    assert_eq!(last(4, &[(INT8, 4)], &[&[3, 2, 8, 8, 0, 0]]), "pieces 0 0 0 0 0 0 0:0:8 0 8");
}

#[test]
fn call_11_a_single_and_an_integer_without_float_registers() {
    let operation: &[&[u64]] = &[&[3, 2, 8, 4, 0, 2], &[5, 1, 4, 4, 0], &[5, 0, 4, 4, 4]];
    let before: &[(&[u64], usize)] = &[(DOUBLE, 8), (INT8, 6)];
    assert_eq!(last(5, before, operation), "pieces 1 0 0 1 0 0 0:0:8 0 0");
}

#[test]
fn call_12_eight_bytes_and_one_word() {
    assert_eq!(last(9, &[(INT4, 2)], &[&[3, 1, 0, 8, 8]]), "direct 1 0 0 0 0 0 0 8");
    let aggregate: &[&[u64]] = &[&[3, 2, 8, 4, 0, 2], &[5, 0, 4, 4, 0], &[5, 1, 4, 4, 4]];
    assert_eq!(last(9, &[(INT4, 2)], aggregate), "memory 0 0 1 0 0 0 0 8");
}

/// Passed over or given: what is left is the same, so only the rules in words can tell.
#[test]
fn what_carries_nothing_is_passed_over() {
    // The last two registers fit a wide integer; the last one doesn't, evenly or not.
    assert_eq!(last(1, &[(INT8, 6)], &[&[3, 1, 0, 16, 16]]), "direct 0 8 0 2 0 0 0 0");
    assert_eq!(last(1, &[(INT8, 7)], &[&[3, 1, 0, 16, 16]]), "direct 0 8 1 0 0 0 0 16");
    assert_eq!(last(2, &[(INT8, 7)], &[&[3, 1, 0, 16, 16]]), "direct 0 8 1 0 0 0 0 16");
    // Seven words after one: one passed over for evenness, and the six that don't suffice.
    assert_eq!(last(1, &[(INT8, 1)], &[&[3, 1, 0, 56, 16]]), "direct 0 8 7 0 0 0 0 56");
    assert_eq!(last(2, &[(INT8, 1)], &[&[3, 1, 0, 56, 16]]), "direct 0 8 0 7 0 0 0 0");
    // fastcall: a wide integer is in memory and no register survives it.
    assert_eq!(last(22, &[], &[&[3, 1, 0, 8, 8]]), "direct 0 0 2 0 0 0 0 8");
    assert_eq!(last(22, &[(INT4, 1)], &[&[3, 1, 0, 8, 8]]), "direct 0 0 1 0 0 0 0 8");
    // fastcall: an aggregate is in memory and its words are counted against the registers, as far
    // as there are any. Nothing is in them.
    assert_eq!(last(22, &[], &[&[3, 2, 8, 4, 0, 0]]), "memory 0 0 2 0 0 0 0 8");
    assert_eq!(last(22, &[], &[&[3, 2, 3, 1, 0, 0]]), "memory 1 0 1 0 0 0 0 4");
    assert_eq!(last(22, &[], &[&[3, 2, 4, 4, 0, 0]]), "memory 1 0 1 0 0 0 0 4");
    assert_eq!(last(22, &[(INT4, 1)], &[&[3, 2, 12, 4, 0, 0]]), "memory 0 0 1 0 0 0 0 12");
}

#[test]
fn a_mark_is_a_state_of_row_3_alone() {
    let double: &[u64] = &[3, 1, 2, 8, 8];
    assert_eq!(last(3, &[], &[&[1], double]), "pieces 7 8 0 1 0 0 0:0:8 0 0");
    assert_eq!(last(3, &[], &[double, &[1], &[1], double]), "pieces 7 7 0 1 0 0 0:0:8 0 0");
    assert_eq!(last(3, &[], &[&[4, 1, 2, 8, 8]]), "direct 8 7 0 0 0 1 0 0");
    assert_eq!(last(1, &[], &[&[1], double]), "direct 8 7 0 0 0 1 0 0");
}

#[test]
fn a_float_without_size_is_pieces_without_a_slot() {
    assert_eq!(last(3, &[], &[&[1], &[3, 1, 1, 0, 0]]), "pieces 7 8 0 1 0 0 0 0");
}

#[test]
fn a_return_spends_each_time() {
    let large: &[u64] = &[2, 2, 100, 8, 0, 0];
    assert_eq!(last(0, &[], &[large]), "reference 5 8 0 1 0 0 0 0");
    assert_eq!(last(0, &[], &[large, INT8, large]), "reference 3 8 0 1 0 0 0 0");
    assert_eq!(last(1, &[], &[large]), "reference 8 8 0 0 0 0 0 0");
    assert_eq!(last(4, &[], &[&[2, 1, 0, 16, 16]]), "pieces 4 0 0 0 0 0 4:0:0 0 0");
    assert_eq!(last(4, &[], &[&[2, 1, 4, 16, 16]]), "reference 3 0 0 1 0 0 0 0");
}

#[test]
fn after_the_dots_row_2_keeps_its_registers() {
    assert_eq!(last(2, &[(INT8, 3)], &[&[4, 1, 0, 16, 16]]), "direct 5 8 0 0 0 0 0 16");
    assert_eq!(last(2, &[(INT8, 3)], &[&[4, 2, 16, 8, 0, 0]]), "memory 5 8 0 0 0 0 0 16");
    assert_eq!(last(2, &[(INT8, 3)], &[&[4, 2, 17, 8, 0, 0]]), "reference 5 8 0 0 0 0 0 8");
    assert_eq!(last(2, &[(INT8, 3)], &[&[4, 0]]), "ignore 5 8 0 0 0 0 0 0");
}

#[test]
fn after_the_dots_row_5_has_integers_only_for_once() {
    let double: &[u64] = &[4, 1, 2, 8, 8];
    assert_eq!(last(5, &[], &[double]), "pieces 7 8 0 1 0 0 0:0:8 0 0");
    assert_eq!(last(5, &[], &[double, DOUBLE]), "direct 7 7 0 0 0 1 0 0");
}
