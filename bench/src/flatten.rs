//! Types that are flattened, which the library alone does: small lists, and the worst ones.

const PIECE_WORDS: usize = 4;
/// No type has more pieces.
const MOST_PIECES: usize = 1_024;
/// The words of a buffer that has room for any type.
pub const ROOM: usize = MOST_PIECES * PIECE_WORDS;

#[repr(C)]
struct Flat {
    refusal: u64,
    pieces: u64,
    size: u64,
    align: u64,
}

#[rustfmt::skip]
unsafe extern "C" {
    fn barkpaddle_flatten(types: *const u64, types_length: u64, members: *const u64, members_length: u64, pieces: *mut u64, pieces_length: u64) -> Flat;
}

/// Lists that are flattened, and what is answered: a refusal, the pieces and the size.
pub struct Flatten {
    pub name: &'static str,
    pub lists: Lists,
    pub room: usize,
    pub answer: [u64; 3],
}

impl Flatten {
    #[inline(never)]
    pub fn turn(&self, pieces: &mut [u64]) -> u64 {
        let Lists { types, members } = &self.lists;
        let room = &mut pieces[..self.room];
        // SAFETY: the lists are `types` and `members`, the buffer is `room`.
        let flat = unsafe {
            barkpaddle_flatten(
                types.as_ptr(),
                types.len() as u64,
                members.as_ptr(),
                members.len() as u64,
                room.as_mut_ptr(),
                room.len() as u64,
            )
        };
        let answer = [flat.refusal, flat.pieces, flat.size];
        assert!(answer == self.answer, "{} is {answer:?}", self.name);
        flat.refusal + flat.pieces + flat.size + flat.align
    }
}

/// A list of types and one of members, as both grow by an entry at a time.
#[derive(Clone, Default)]
pub struct Lists {
    types: Vec<u64>,
    members: Vec<u64>,
}

impl Lists {
    fn entry(mut self, kind: u64, second: u64, third: u64) -> Self {
        self.types.extend([kind, second, third, 0]);
        self
    }

    fn integer(self, size: u64) -> Self {
        self.entry(0, size, size)
    }

    /// A record of members that stand in the list already.
    fn shared(self, first: u64, count: u64) -> Self {
        self.entry(256, first, count)
    }

    /// A record of members of its own.
    fn record(mut self, members: &[u64]) -> Self {
        let first = self.members.len() as u64;
        self.members.extend(members);
        self.shared(first, members.len() as u64)
    }

    fn array(self, element: u64, count: u64) -> Self {
        self.entry(258, element, count)
    }
}

/// A record, an array of it, and some that are refused.
pub fn small() -> Vec<Flatten> {
    let make = |name, room, answer, lists| Flatten { name, lists, room, answer };
    let two = Lists::default().integer(1).integer(4).record(&[0, 1]);
    let three = two.clone().array(2, 3);
    let of_itself = two.clone().array(3, 3);
    vec![
        make("{Int1, Int4}", ROOM, [0, 2, 8], two),
        make("{Int1, Int4}[3]", ROOM, [0, 6, 24], three.clone()),
        make("BAD_LIST, no entry", ROOM, [3, 0, 0], Lists::default()),
        make("BAD_TYPE of the last entry", ROOM, [10, 0, 0], of_itself),
        make("NO_ROOM for six pieces", 6 * PIECE_WORDS - 1, [7, 0, 0], three),
    ]
}

/// The lists that take most: many levels, many paths, members that are gone over for each element,
/// members that are gone over for each entry, and both of these.
pub fn worst() -> Vec<Flatten> {
    const MEMBERS: u64 = 4_096;
    let make = |name, answer, lists| Flatten { name, lists, room: ROOM, answer };
    let byte = Lists::default().integer(1);
    let empty = Lists::default().record(&[]);
    let nested = |arrays| (0..arrays).fold(byte.clone(), |lists, entry| lists.array(entry, 1));
    let doubled = |leaf| (0..15).fold(leaf, |lists: Lists, entry| lists.record(&[entry, entry]));
    let again = |lists, records| (0..records).fold(lists, |l: Lists, _| l.shared(0, MEMBERS));
    // of empty records, entry 0, and whatever else is first and last
    let members = |first, last| {
        let mut members = vec![0; MEMBERS as usize];
        (members[0], members[MEMBERS as usize - 1]) = (first, last);
        members
    };
    let elements = empty.clone().integer(1).record(&members(0, 1)).array(2, 1_024);
    let entries = again(empty.clone().record(&members(0, 0)), 1_022);
    // entry 2 has all members but the last, which is entry 2; entry 3 all but the first, a byte
    let mut both = empty.clone().integer(1).shared(0, MEMBERS - 1).shared(1, MEMBERS - 1);
    both.members = members(1, 2);
    let both = again(both, 1_019).array(3, 1_024);
    vec![
        make("arrays, 1,024 levels, TOO_DEEP", [11, 0, 0], nested(1_023)),
        make("arrays, 1,023 levels, not wanted", [0, 1, 1], nested(1_022).integer(1)),
        make("doubled fifteen times, NO_ROOM", [7, 0, 0], doubled(byte.clone())),
        make("doubled fifteen times, no leaf", [0, 0, 0], doubled(empty)),
        make("1,024 elements of 4,096 members", [0, 1_024, 1_024], elements),
        make("1,023 entries of 4,096 members", [0, 0, 0], entries),
        make("both at once", [0, 1_024, 1_024], both),
    ]
}
