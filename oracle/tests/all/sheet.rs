//! What a sheet prints where it is refused, where it stops, and where it ends.

use crate::common::{bytes, lines, printed};

#[test]
fn the_example() {
    let sheet: &[&[u64]] = &[&[0, 0], &[3, 2, 16, 8, 0, 2], &[5, 0, 8, 8, 0], &[5, 2, 8, 8, 8]];
    assert_eq!(
        printed(&bytes(sheet)),
        "fresh 6 8 0 0 0 0 0 0\npieces 5 7 0 1 0 1 0:0:8 2:8:0 0 0\n"
    );
}

#[test]
fn an_empty_sheet_prints_nothing() {
    assert_eq!(printed(&[]), "");
}

#[test]
fn words_that_nobody_reads_may_hold_anything() {
    let any = u64::MAX;
    let sheet: &[&[u64]] = &[
        &[0, 1, any, any, any, any],
        &[1, any, any, any, any, any],
        &[2, 0, any, any, any, any],
        &[3, 1, 0, 8, 8, any],
        &[3, 2, 8, 8, 0, 1],
        &[5, 0, 8, 8, 0, any],
    ];
    let expected = [
        "fresh 8 8 0 0 0 0 0 0",
        "marked 8 8 0 0 0 0 0 0",
        "ignore 8 8 0 0 0 0 0 0",
        "direct 7 8 0 1 0 0 0 0",
        "pieces 6 8 0 1 0 0 0:0:8 0 0",
    ];
    assert_eq!(lines(sheet), expected);
}

#[test]
fn a_refused_fresh_closes_the_call() {
    for description in [33, 34, 256, 1 << 32, u64::MAX] {
        let sheet: &[&[u64]] = &[&[0, 0], &[0, description], &[1]];
        assert_eq!(lines(sheet), ["fresh 6 8 0 0 0 0 0 0", "refused 0 0 0 0 0 0 1 0 0", "stop"]);
    }
}

#[test]
fn a_fresh_over_an_open_call_replaces_it() {
    // The x87 value is on the stack of the first call, the next on that of the second.
    let x87: &[u64] = &[3, 1, 3, 16, 16];
    let sheet: &[&[u64]] = &[&[0, 0], x87, &[0, 9], &[3, 1, 0, 4, 4], &[3, 1, 0, 16, 4]];
    let expected = [
        "fresh 6 8 0 0 0 0 0 0",
        "direct 6 8 0 0 0 0 0 16",
        "fresh 3 0 0 0 0 0 0 0",
        "direct 2 0 0 1 0 0 0 0",
        "direct 2 0 0 0 0 0 0 16",
    ];
    assert_eq!(lines(sheet), expected);
}

/// The refusal of one operation on row 0 with five integer registers left and 16 bytes on the stack,
/// which the operations after it still find.
fn refusal(operation: &[&[u64]]) -> String {
    let (int8, x87): (&[u64], &[u64]) = (&[3, 1, 0, 8, 8], &[3, 1, 3, 16, 16]);
    let mut sheet: Vec<&[u64]> = vec![&[0, 0], int8, x87];
    sheet.extend(operation);
    sheet.extend([int8, x87]);
    let lines = lines(&sheet);
    assert_eq!(lines[4..], ["direct 4 8 0 1 0 0 16 16", "direct 4 8 0 0 0 0 16 32"]);
    let refusal = lines[3].strip_prefix("refused 5 8 0 0 0 0 ").expect("a refusal");
    refusal.strip_suffix(" 16 16").expect("the offset that it was").to_string()
}

#[test]
fn a_scalar_is_refused_by_kind_then_size_then_alignment() {
    for operation in [2, 3, 4] {
        assert_eq!(refusal(&[&[operation, 1, 5, 65, 4_097]]), "4");
        assert_eq!(refusal(&[&[operation, 1, 4, 65, 4_097]]), "5");
        assert_eq!(refusal(&[&[operation, 1, 4, 64, 4_097]]), "6");
        assert_eq!(refusal(&[&[operation, 1, 1 << 32, 8, 8]]), "4");
        assert_eq!(refusal(&[&[operation, 1, 0, 1 << 32, 8]]), "5");
        assert_eq!(refusal(&[&[operation, 1, 0, 8, 1 << 32]]), "6");
    }
}

#[test]
fn an_aggregate_is_refused_whole_then_piece_by_piece() {
    let good: &[u64] = &[5, 4, 64, 4_096, 16_777_152];
    let bad_kind: &[u64] = &[5, 5, 65, 4_097, 16_777_217];
    let bad_size: &[u64] = &[5, 4, 65, 4_097, 0];
    let bad_offset: &[u64] = &[5, 4, 64, 4_097, 16_777_217];
    let bad_align: &[u64] = &[5, 4, 64, 4_097, 16_777_216];
    for operation in [2, 3, 4] {
        assert_eq!(refusal(&[&[operation, 2, 16_777_217, 4_097, 0, 1], bad_kind]), "5");
        assert_eq!(refusal(&[&[operation, 2, 16_777_216, 4_097, 0, 1], bad_kind]), "6");
        let whole: &[u64] = &[operation, 2, 16_777_216, 4_096, 0, 2];
        assert_eq!(refusal(&[whole, bad_kind, bad_align]), "4");
        assert_eq!(refusal(&[whole, bad_align, bad_kind]), "6");
        assert_eq!(refusal(&[whole, good, bad_size]), "5");
        assert_eq!(refusal(&[whole, good, bad_offset]), "5");
        assert_eq!(refusal(&[whole, good, bad_align]), "6");
    }
}

#[test]
fn the_limits_themselves_pass() {
    let mut sheet: Vec<&[u64]> = vec![&[0, 0], &[3, 1, 4, 64, 4_096]];
    // A piece of the largest size ends at that of the shape; at the last offset one has none.
    sheet.push(&[3, 2, 16_777_216, 4_096, 3, 1_024]);
    sheet.extend(vec![&[5, 4, 64, 4_096, 16_777_152][..]; 512]);
    sheet.extend(vec![&[5, 4, 0, 4_096, 16_777_216][..]; 512]);
    // Of the scalar 48 bytes are in registers, and the aggregate starts at the next 4,096.
    let expected =
        ["fresh 6 8 0 0 0 0 0 0", "direct 0 8 0 6 0 0 0 16", "memory 0 8 0 0 0 0 16 16781312"];
    assert_eq!(lines(&sheet), expected);
}

// ---- pieces past the shape

#[test]
fn a_piece_ends_inside_the_shape_or_is_refused() {
    let sheet: &[&[u64]] = &[
        &[0, 0],
        // Eight bytes that end at the size, one byte past it, and 63.
        &[3, 2, 8, 8, 0, 1],
        &[5, 0, 8, 8, 0],
        &[3, 2, 8, 8, 0, 1],
        &[5, 0, 8, 8, 1],
        &[3, 2, 8, 8, 0, 1],
        &[5, 0, 8, 8, 63],
        // The same by the shape's size.
        &[3, 2, 64, 8, 0, 1],
        &[5, 0, 64, 8, 0],
        &[3, 2, 63, 8, 0, 1],
        &[5, 0, 64, 8, 0],
        &[3, 2, 1, 8, 0, 1],
        &[5, 0, 64, 8, 0],
        // A size of 0 counts as 0.
        &[3, 2, 8, 8, 0, 1],
        &[5, 0, 0, 1, 8],
        &[3, 2, 8, 8, 0, 1],
        &[5, 0, 0, 1, 9],
        &[3, 2, 0, 1, 0, 1],
        &[5, 0, 0, 1, 0],
        &[3, 2, 0, 1, 0, 1],
        &[5, 0, 1, 1, 0],
        &[3, 2, 0, 1, 0, 1],
        &[5, 0, 0, 1, 1],
    ];
    let expected = [
        "fresh 6 8 0 0 0 0 0 0",
        "pieces 5 8 0 1 0 0 0:0:8 0 0",
        "refused 5 8 0 0 0 0 9 0 0",
        "refused 5 8 0 0 0 0 9 0 0",
        "memory 5 8 0 0 0 0 0 64",
        "refused 5 8 0 0 0 0 9 64 64",
        "refused 5 8 0 0 0 0 9 64 64",
        "memory 5 8 0 0 0 0 64 72",
        "refused 5 8 0 0 0 0 9 72 72",
        "ignore 5 8 0 0 0 0 72 72",
        "refused 5 8 0 0 0 0 9 72 72",
        "refused 5 8 0 0 0 0 9 72 72",
    ];
    assert_eq!(lines(sheet), expected);
}

#[test]
fn at_the_last_offset_a_piece_has_no_size() {
    let whole: &[u64] = &[3, 2, 16_777_216, 1, 0, 1];
    let sheet: &[&[u64]] = &[
        &[0, 0],
        whole,
        &[5, 0, 0, 1, 16_777_216],
        whole,
        &[5, 0, 1, 1, 16_777_216],
        whole,
        &[5, 0, 64, 1, 16_777_216],
        whole,
        &[5, 0, 1, 1, 16_777_215],
        whole,
        &[5, 0, 64, 1, 16_777_152],
    ];
    let expected = [
        "fresh 6 8 0 0 0 0 0 0",
        "memory 6 8 0 0 0 0 0 16777216",
        "refused 6 8 0 0 0 0 9 16777216 16777216",
        "refused 6 8 0 0 0 0 9 16777216 16777216",
        "memory 6 8 0 0 0 0 16777216 33554432",
        "memory 6 8 0 0 0 0 33554432 50331648",
    ];
    assert_eq!(lines(sheet), expected);
}

/// Three integers that fill a shape, one of them moved on by a byte.
#[test]
fn any_one_piece_past_the_shape_is_enough() {
    for moved in 0..3 {
        let pieces: Vec<[u64; 5]> =
            (0..3).map(|at| [5, 0, 8, 8, if at == moved { 17 } else { 8 * at }]).collect();
        for operation in [2, 3, 4] {
            let records = [&[operation, 2, 24, 8, 0, 3], &pieces[0][..], &pieces[1], &pieces[2]];
            assert_eq!(refusal(&records), "9", "piece {moved} of operation {operation}");
        }
    }
}

/// So many integers one after the other, in a shape of this size.
fn array(size: u64, count: u64) -> Vec<[u64; 6]> {
    let mut records = vec![[3, 2, size, 8, 0, count]];
    records.extend((0..count).map(|at| [5, 0, 8, 8, 8 * at, 0]));
    records
}

#[test]
fn the_last_of_1024_pieces() {
    let cases = [(8_191, "refused 6 8 0 0 0 0 9 0 0"), (8_192, "memory 6 8 0 0 0 0 0 8192")];
    for (size, expected) in cases {
        let records = array(size, 1_024);
        let mut sheet: Vec<&[u64]> = vec![&[0, 0]];
        sheet.extend(records.iter().map(|record| &record[..]));
        assert_eq!(lines(&sheet)[1..], [expected], "size {size}");
    }
}

#[test]
fn every_row_refuses_a_piece_past_the_shape() {
    for row in 0..33 {
        for operation in [2, 3, 4] {
            let fresh: &[u64] = &[0, row];
            let past: &[&[u64]] = &[&[operation, 2, 4, 4, 0, 1], &[5, 0, 4, 4, 1]];
            let inside: &[&[u64]] = &[&[operation, 2, 4, 4, 0, 1], &[5, 0, 4, 4, 0]];
            // The first leaves the call as it was, marked or not, so that the second finds it.
            let without = lines(&[&[fresh], inside].concat());
            let with = lines(&[&[fresh], past, &[&[1]], past, inside].concat());
            let counts = with[0].strip_suffix(" 0 0").expect("a fresh call's offset");
            let refused = format!("{} 9 0 0", counts.replace("fresh", "refused"));
            assert_eq!([&with[1], &with[3]], [&refused; 2], "row {row}, operation {operation}");
            assert_eq!(with[4], without[1], "row {row}, operation {operation}");
        }
    }
}

/// A piece past the shape is the last thing to be refused, wherever it stands.
#[test]
fn every_other_refusal_comes_before_a_piece_past_the_shape() {
    let past: &[u64] = &[5, 0, 8, 8, 1];
    let wrong: [(&str, &[u64]); 6] = [
        ("4", &[5, 5, 8, 8, 0]),
        ("5", &[5, 0, 65, 8, 0]),
        ("5", &[5, 0, 8, 8, 16_777_217]),
        ("5", &[5, 0, 64, 8, u64::MAX]),
        ("5", &[5, 0, u64::MAX, 8, u64::MAX]),
        ("6", &[5, 0, 8, 4_097, 0]),
    ];
    for operation in [2, 3, 4] {
        let large: &[u64] = &[operation, 2, 16_777_217, 8, 0, 1];
        assert_eq!(refusal(&[large, &[5, 0, 64, 8, 16_777_216]]), "5");
        assert_eq!(refusal(&[&[operation, 2, 8, 4_097, 0, 1], past]), "6");
        let whole: &[u64] = &[operation, 2, 8, 8, 0, 2];
        assert_eq!(refusal(&[whole, past, past]), "9");
        for (expected, bad) in wrong {
            assert_eq!(refusal(&[whole, past, bad]), expected, "{bad:?} last");
            assert_eq!(refusal(&[whole, bad, past]), expected, "{bad:?} first");
        }
        // One piece that is both, in a shape that has room for none.
        let empty: &[u64] = &[operation, 2, 0, 8, 0, 1];
        for (expected, bad) in wrong {
            assert_eq!(refusal(&[empty, bad]), expected, "{bad:?} alone");
        }
        let two: &[u64] = &[operation, 2, 0, 8, 0, 2];
        assert_eq!(refusal(&[two, &[5, 0, 8, 8, 0], &[5, 5, 8, 8, 0]]), "4");
    }
}

// ---- stops

/// Row 0, these records, and one that must not be read.
fn stops(records: &[&[u64]]) {
    let mut sheet: Vec<&[u64]> = vec![&[0, 0]];
    sheet.extend(records);
    sheet.push(&[0, 1]);
    assert_eq!(lines(&sheet), ["fresh 6 8 0 0 0 0 0 0", "stop"], "{records:?}");
}

#[test]
fn an_unknown_word_or_flag_stops() {
    for first in [6, 256, (1 << 32) + 3, u64::MAX] {
        stops(&[&[first, 1, 0, 8, 8]]);
    }
    for second in [3, 256, (1 << 32) + 1, u64::MAX] {
        for operation in [2, 3, 4] {
            stops(&[&[operation, second, 0, 8, 8]]);
        }
    }
    for flags in [4, 7, 256, (1 << 32) + 1, u64::MAX] {
        stops(&[&[3, 2, 8, 8, flags, 0]]);
    }
}

#[test]
fn a_stray_or_missing_piece_stops() {
    let piece: &[u64] = &[5, 0, 8, 8, 0];
    stops(&[piece]);
    stops(&[&[3, 2, 8, 8, 0, 1]]);
    stops(&[&[3, 2, 16, 8, 0, 2], piece]);
    assert_eq!(lines(&[piece]), ["stop"]);
    let one_more = lines(&[&[0, 0], &[3, 2, 8, 8, 0, 1], piece, piece]);
    assert_eq!(one_more[1..], ["pieces 5 8 0 1 0 0 0:0:8 0 0", "stop"]);
    assert_eq!(lines(&[&[0, 0], &[3, 2, 8, 8, 0, 1]])[1..], ["stop"]);
}

#[test]
fn a_piece_too_many_stops() {
    let mut records: Vec<&[u64]> = vec![&[3, 2, 8, 8, 0, 1_025]];
    records.extend(vec![&[5, 0, 8, 8, 0][..]; 1_025]);
    stops(&records);
    stops(&[&[3, 2, 8, 8, 0, u64::MAX]]);
}

#[test]
fn a_stop_comes_before_a_refusal() {
    stops(&[&[3, 2, u64::MAX, 8, 4, 0]]);
    stops(&[&[3, 2, 8, u64::MAX, 0, 1_025]]);
    stops(&[&[3, 2, u64::MAX, 8, 0, 2], &[5, 9, 8, 8, 0]]);
    // Also before that of a piece past the shape: a flag, a piece missing, one too many.
    stops(&[&[3, 2, 8, 8, 4, 1], &[5, 0, 8, 8, 1]]);
    stops(&[&[3, 2, 8, 8, 0, 2], &[5, 0, 8, 8, 1]]);
    let records = array(1, 1_025);
    stops(&records.iter().map(|record| &record[..]).collect::<Vec<_>>());
    // Where no call is open, nothing is refused but the fresh one.
    let closed: &[&[u64]] = &[&[0, 33], &[3, 2, 8, 8, 0, 1], &[5, 0, 8, 8, 1]];
    assert_eq!(lines(closed), ["refused 0 0 0 0 0 0 1 0 0", "stop"]);
}

#[test]
fn an_operation_without_an_open_call_stops() {
    for operation in [1, 2, 3, 4] {
        assert_eq!(lines(&[&[operation, 0]]), ["stop"]);
    }
    assert_eq!(lines(&[&[3, 1, 9, 99, 9_999]]), ["stop"]);
}

#[test]
fn a_short_record_stops() {
    let sheet = bytes(&[&[0, 0], &[3, 2, 8, 8, 0, 1], &[5, 0, 8, 8, 0]]);
    for length in 1..sheet.len() {
        let expected = match length {
            0..48 => "stop\n",
            48 => "fresh 6 8 0 0 0 0 0 0\n",
            _ => "fresh 6 8 0 0 0 0 0 0\nstop\n",
        };
        assert_eq!(printed(&sheet[..length]), expected, "{length} bytes");
    }
}
