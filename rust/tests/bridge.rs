//! A lent call by itself, and beside the calls that are values.

use barkpaddle::{
    Abi, Aggregate, Bridge, Call, Kind, Outcome, Piece, Refusal, Room, Scalar, Value, Way, limits,
};

const SYSV: Abi = Abi::SYSV_AMD64;

#[test]
fn the_record_that_goes_to_memory() {
    let mut bridge = Bridge::fresh(SYSV).expect("a description");
    let mut room = Room::new();
    for left in (1..6).rev() {
        let outcome = bridge.argument(Scalar::integer(8), &mut room).expect("accepted");
        assert_eq!((outcome.way, outcome.spent.integers_given), (Way::Direct, 1));
        assert_eq!(outcome.stacked, None);
        assert_eq!(bridge.call(), Call::from_parts(SYSV, left, 8, false, 0));
    }
    let two = [Piece::new(Kind::Integer, 8, 8, 0), Piece::new(Kind::Integer, 8, 8, 8)];
    let outcome = bridge.argument(Aggregate::new(16, 8, &two), &mut room).expect("accepted");
    assert_eq!((outcome.way, outcome.slots().len()), (Way::Memory, 0));
    assert_eq!(bytes(&outcome), Some([0, 16]));
    assert_eq!(bridge.call(), Call::from_parts(SYSV, 1, 8, false, 16));
    // A result's address takes the last one, and the next such is on the stack.
    let outcome = bridge.returns(Aggregate::new(100, 8, &[]), &mut []).expect("accepted");
    assert_eq!((outcome.way, outcome.stacked), (Way::Reference, None));
    assert_eq!(bridge.call(), Call::from_parts(SYSV, 0, 8, false, 16));
    let outcome = bridge.returns(Aggregate::new(100, 8, &[]), &mut []).expect("accepted");
    assert_eq!((outcome.way, bytes(&outcome)), (Way::Reference, Some([16, 8])));
    assert_eq!(bridge.call(), Call::from_parts(SYSV, 0, 8, false, 24));
}

/// Where on the stack an outcome's value stands, and how many bytes it has there.
fn bytes(outcome: &Outcome<'_>) -> Option<[u64; 2]> {
    outcome.stacked.map(|stacked| [stacked.offset, stacked.length])
}

#[test]
fn the_mark_is_stored() {
    let mut bridge = Bridge::fresh(Abi::WINDOWS_ARM64).expect("a description");
    for _ in 0..2 {
        assert_eq!(bridge.variadic(), Ok(()));
        assert!(bridge.call().integers_only());
    }
    let mut slots = [9; 5];
    let double = Scalar::new(Kind::Double, 8, 8);
    let outcome = bridge.variadic_argument(double, &mut slots).expect("accepted");
    assert_eq!((outcome.way, outcome.spent.integers_given), (Way::Pieces, 1));
    assert_eq!(slots, [0, 0, 8, 9, 9]);
    assert_eq!(bridge.call(), Call::from_parts(Abi::WINDOWS_ARM64, 7, 8, true, 0));
}

#[test]
fn a_refusal_leaves_the_call_and_the_buffer() {
    let two = [Piece::new(Kind::Integer, 8, 8, 0), Piece::new(Kind::Integer, 8, 8, 8)];
    let both = Value::Aggregate(Aggregate::new(16, 8, &two));
    let past = Value::Aggregate(Aggregate::new(15, 8, &two));
    let good = Call::fresh(SYSV).expect("a description");
    let refused = [
        (Call::from_parts(Abi(Abi::COUNT), 9, 9, true, u64::MAX), both, Refusal::BadAbi),
        (Call::from_parts(SYSV, 7, 8, false, 3), Value::Void, Refusal::BadCall),
        (Call::from_parts(SYSV, 6, 8, true, 3), both, Refusal::BadCall),
        (Call::from_parts(SYSV, 6, 8, false, limits::MOST_STACK + 1), both, Refusal::BadCall),
        (Call::from_parts(SYSV, 6, 8, false, u64::MAX), Value::Void, Refusal::BadCall),
        (good, Scalar::new(Kind::Unnamed(5), 65, 1).into(), Refusal::BadKind),
        (good, Scalar::integer(65).into(), Refusal::BadSize),
        (good, past, Refusal::BadExtent),
        (good, both, Refusal::NoRoom),
    ];
    for (call, value, refusal) in refused {
        let mut bridge = Bridge::from(call);
        let mut slots = [9; 5];
        assert_eq!(bridge.returns(value, &mut slots), Err(refusal));
        assert_eq!(bridge.argument(value, &mut slots), Err(refusal));
        assert_eq!(bridge.variadic_argument(value, &mut slots), Err(refusal));
        if matches!(refusal, Refusal::BadAbi | Refusal::BadCall) {
            assert_eq!(bridge.variadic(), Err(refusal));
        }
        assert_eq!((bridge.call(), slots), (call, [9; 5]));
    }
    assert_eq!(Bridge::fresh(Abi(Abi::COUNT)), Err(Refusal::BadAbi));
}

// ---- random histories

/// Splitmix64.
struct Random(u64);

impl Random {
    fn below(&mut self, limit: u64) -> u64 {
        self.0 = self.0.wrapping_add(0x9E37_79B9_7F4A_7C15);
        let mut z = self.0;
        z = (z ^ (z >> 30)).wrapping_mul(0xBF58_476D_1CE4_E5B9);
        z = (z ^ (z >> 27)).wrapping_mul(0x94D0_49BB_1331_11EB);
        (z ^ (z >> 31)) % limit
    }

    fn once_in(&mut self, times: u64) -> bool {
        self.below(times) == 0
    }

    /// A scalar, now and then past a limit.
    fn scalar(&mut self) -> Scalar {
        let kinds = if self.once_in(30) { 7 } else { 5 };
        let kind = self.below(kinds);
        let size = match kind {
            1 => 4,
            2 => 8,
            3 | 4 => 16,
            _ => [0, 1, 2, 4, 8, 8, 16, 32][self.below(8) as usize],
        };
        let size = if self.once_in(30) { limits::LARGEST_SCALAR + 1 } else { size };
        let align = match self.below(30) {
            0 => limits::LARGEST_ALIGN + 1,
            1..4 => 1 << self.below(5),
            _ => size,
        };
        Scalar::new(Kind::from_number(kind), size, align)
    }

    /// Pieces one behind the other, mostly, and often alike.
    fn pieces(&mut self, room: &mut [Piece]) -> usize {
        let count = if self.once_in(3) { self.below(10) } else { self.below(4) } as usize;
        let alike = self.once_in(2).then(|| self.scalar());
        let mut offset = 0;
        for piece in &mut room[..count] {
            let scalar = alike.unwrap_or_else(|| self.scalar());
            let at = if self.once_in(16) { self.below(24) } else { offset };
            *piece = Piece::new(scalar.kind(), scalar.size(), scalar.align(), at);
            offset += scalar.size();
        }
        count
    }

    /// A size for an aggregate of these pieces: mostly where the furthest ends, so that all are
    /// inside; now and then one less, so that a piece is one past, any, or with a hole behind them.
    fn size(&mut self, pieces: &[Piece]) -> u64 {
        let ends = pieces.iter().map(|piece| piece.offset() + piece.size());
        let furthest = ends.max().unwrap_or(0);
        match self.below(16) {
            0 => furthest.saturating_sub(1),
            1 => self.below(40),
            2 => furthest + self.below(24),
            _ => furthest,
        }
    }

    /// A call that can't be, where it isn't the mark of Windows arm64.
    fn spoil(&mut self, call: Call) -> Call {
        let (abi, integer, float) = (call.abi(), call.integer_left(), call.float_left());
        let (mark, stack) = (call.integers_only(), call.stack());
        match self.below(5) {
            0 => Call::from_parts(Abi(Abi::COUNT + self.below(3)), integer, float, false, stack),
            1 => Call::from_parts(abi, 9, float, mark, stack),
            2 => Call::from_parts(abi, integer, u64::MAX, mark, stack),
            3 => Call::from_parts(abi, integer, float, mark, limits::MOST_STACK + 1),
            _ => Call::from_parts(abi, integer, float, true, stack),
        }
    }

    /// The same call further on: as far as there is hardly any room left on the stack.
    fn at_the_end(&mut self, call: Call) -> Call {
        let (integer, float) = (call.integer_left(), call.float_left());
        let stack = limits::MOST_STACK - self.below(48);
        Call::from_parts(call.abi(), integer, float, call.integers_only(), stack)
    }
}

/// The same operations on a bridge and on calls that are values: the bridge goes its own way, and
/// after each its call is the other's. What the bridge is lent is as long as what the call is.
#[test]
fn random_histories_are_the_same_by_value() {
    const HISTORIES: u64 = 10_000;
    const OPERATIONS: u64 = 10;
    let mut random = Random(26);
    let too_many = [Piece::default(); limits::MOST_PIECES + 1];
    let mut refusals = [0; 10];
    let mut ways = [0; 5];
    let (mut on_the_stack, mut past_its_end) = (0, 0);
    for history in 0..HISTORIES {
        let abi = Abi(history % Abi::COUNT);
        let mut bridge = Bridge::fresh(abi).expect("a description");
        let mut call = Call::fresh(abi).expect("a description");
        if random.once_in(4) {
            call = random.at_the_end(call);
            bridge = Bridge::from(call);
        }
        for operation in 0..OPERATIONS {
            let kept = call;
            let spoilt = random.once_in(20);
            if spoilt {
                call = random.spoil(call);
                bridge = Bridge::from(call);
            }
            let refusal = if random.once_in(8) {
                let marked = call.variadic();
                assert_eq!(bridge.variadic().err(), marked.err());
                call = marked.unwrap_or(call);
                marked.err()
            } else {
                let mut pieces = [Piece::default(); 10];
                let value = match random.below(12) {
                    0 => Value::Void,
                    1..6 => random.scalar().into(),
                    _ => {
                        let count = random.pieces(&mut pieces);
                        let size = random.size(&pieces[..count]);
                        let mut shape = Aggregate::new(size, 8, &pieces[..count]);
                        shape.complex = random.once_in(4);
                        shape.floating = random.once_in(4);
                        match random.below(60) {
                            0 | 1 => shape.size = limits::LARGEST_SHAPE + 1,
                            2 => shape.pieces = &too_many,
                            _ => {}
                        }
                        shape.into()
                    }
                };
                let length = if random.once_in(4) { random.below(9) } else { 26 } as usize;
                let (mut by_value, mut lent) = ([7; 26], [7; 26]);
                let (room, lent_room) = (&mut by_value[..length], &mut lent[..length]);
                let (passed, outcome) = match random.below(10) {
                    0 | 1 => (call.returns(value, room), bridge.returns(value, lent_room)),
                    2..7 => (call.argument(value, room), bridge.argument(value, lent_room)),
                    _ => (
                        call.variadic_argument(value, room),
                        bridge.variadic_argument(value, lent_room),
                    ),
                };
                let place = format!("operation {operation} of history {history}: {value:?}");
                let refusal = match (passed, outcome) {
                    (Ok(passed), Ok(outcome)) => {
                        assert_eq!(outcome, passed.outcome, "{place}");
                        ways[outcome.way.number() as usize] += 1;
                        check_place(&place, call.stack(), &outcome, passed.next.stack());
                        on_the_stack += u64::from(outcome.stacked.is_some());
                        call = passed.next;
                        None
                    }
                    (passed, outcome) => {
                        assert_eq!(outcome.err(), passed.err(), "{place}");
                        let no_room = passed.err() == Some(Refusal::NoRoom);
                        past_its_end += u64::from(no_room && length == lent.len());
                        passed.err()
                    }
                };
                assert_eq!(lent, by_value, "{place}");
                if refusal.is_some() {
                    assert_eq!(lent, [7; 26], "{place}");
                }
                refusal
            };
            assert_eq!(bridge.call(), call, "operation {operation} of history {history}");
            refusals[refusal.map_or(0, Refusal::number) as usize] += 1;
            if spoilt && matches!(refusal, Some(Refusal::BadAbi | Refusal::BadCall)) {
                call = kept;
                bridge = Bridge::from(kept);
            }
        }
    }
    assert_eq!(refusals.iter().sum::<u64>(), HISTORIES * OPERATIONS);
    // Each refusal and each way was among them, or this compares less than it says. Areas are those
    // of a variable argument list, which no call has.
    for (number, &count) in refusals.iter().enumerate() {
        let of_an_area = number as u64 == Refusal::BadArea.number();
        assert!(if of_an_area { count == 0 } else { count >= 100 }, "{number} of {refusals:?}");
    }
    assert!(ways.iter().all(|&count| count >= 1_000), "{ways:?}");
    assert!(on_the_stack >= 10_000 && past_its_end >= 1_000, "{on_the_stack} {past_its_end}");
}

/// What an operation has on the stack starts behind what those before it have there, and the next
/// starts behind it.
fn check_place(place: &str, before: u64, outcome: &Outcome<'_>, after: u64) {
    match bytes(outcome) {
        None => assert_eq!(after, before, "{place}"),
        Some([offset, length]) => {
            assert!(offset >= before && length > 0 && after <= limits::MOST_STACK, "{place}");
            assert_eq!(offset + length, after, "{place}");
        }
    }
}
