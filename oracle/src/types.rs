//! Nested types and the pieces that they come to: a second reading of the rules in words.
//!
//! `oracle types` reads a sheet of types and says what each comes to. The Rust has pieces and a
//! record for scalars alone: where a type is a record of these it is asked too, and where the two
//! can't both be right, the run ends. `oracle types-generate` writes a random sheet, many of its
//! types refused; `oracle types-c` one of types that C has, and the C that measures them.

use std::fmt::Write as _;
use std::fs::{self, File};
use std::io::{self, BufWriter, Write};
use std::path::Path;

use crate::generate::past;
use crate::numbers;
use crate::random::Random;
use crate::refusals::{BAD_ALIGN, BAD_KIND, BAD_SIZE};
use crate::shapes;
use crate::values::{
    LARGEST_ALIGN, LARGEST_KIND, LARGEST_SCALAR, LARGEST_SHAPE, MOST_PIECES, Piece, Scalar,
};

/// The kinds of the entries that aren't scalars.
pub const RECORD: u64 = 256;
pub const UNION: u64 = 257;
pub const ARRAY: u64 = 258;

/// The limits: each of these numbers is still accepted.
pub const MOST_ENTRIES: u64 = 1_024;
pub const MOST_MEMBERS: u64 = 4_096;
pub const MOST_ELEMENTS: u64 = 1_024;
pub const MOST_LEVELS: u64 = 16;

/// The refusals that only types have here.
pub const BAD_LIST: u64 = 3;
pub const NO_ROOM: u64 = 7;
pub const BAD_TYPE: u64 = 10;
pub const TOO_DEEP: u64 = 11;

/// What a sheet may have of types, of members and of a buffer at most: its readers hold no more.
pub const MOST_WORDS: u64 = 4_128;

/// The words of an entry, and those of a piece.
const ENTRY_WORDS: usize = 4;
const PIECE_WORDS: u64 = 4;

/// What is flattened: the two lists, whose last entry is the type wanted, and how many words the
/// buffer has.
#[derive(Debug, Clone, Default, PartialEq, Eq)]
pub struct Case {
    pub types: Vec<u64>,
    pub members: Vec<u64>,
    pub buffer: u64,
}

/// What a type comes to.
#[derive(Debug, Clone, PartialEq, Eq)]
pub struct Flat {
    pub size: u64,
    pub align: u64,
    pub pieces: Vec<Piece>,
}

// ---- a sheet and its lines

/// Prints a line for each case of the sheet. The outer error also tells where a sheet is damaged, the
/// inner one of a contradiction.
pub fn print(out: &mut impl Write, sheet: &[u8]) -> io::Result<Result<(), String>> {
    let mut reader = Reader { rest: sheet, case: 0 };
    while let Some(case) = reader.case()? {
        let answer = flatten(&case);
        if let Some(why) = contradiction(&case, &answer) {
            return Ok(Err(format!("on case {}\n{why}", reader.case)));
        }
        writeln!(out, "{}", line(&answer))?;
    }
    Ok(Ok(()))
}

/// The line of an answer.
pub fn line(answer: &Result<Flat, u64>) -> String {
    let flat = match answer {
        Ok(flat) => flat,
        Err(refusal) => return format!("refused {refusal}"),
    };
    let mut line = format!("size {} align {} pieces", flat.size, flat.align);
    for Piece { scalar: Scalar { kind, size, align }, offset } in &flat.pieces {
        write!(line, " {kind}:{size}:{align}:{offset}").expect("a string takes it");
    }
    line
}

/// A case as it stands in a sheet: three lengths, then the words of types and those of members.
pub fn bytes(case: &Case) -> Vec<u8> {
    let lengths = [case.types.len() as u64, case.members.len() as u64, case.buffer];
    assert!(lengths.iter().all(|length| *length <= MOST_WORDS), "{lengths:?} are too many words");
    let words = lengths.iter().chain(&case.types).chain(&case.members);
    words.flat_map(|word| word.to_le_bytes()).collect()
}

struct Reader<'a> {
    rest: &'a [u8],
    /// The case that was begun last: the first is 1, as its line is.
    case: u64,
}

impl Reader<'_> {
    /// The next case, or nothing where the sheet ends.
    fn case(&mut self) -> io::Result<Option<Case>> {
        if self.rest.is_empty() {
            return Ok(None);
        }
        self.case += 1;
        let lengths = self.words(3, "lengths")?;
        if let Some(length) = lengths.iter().find(|length| **length > MOST_WORDS) {
            return Err(self.damage(format!("a length of {length} is above {MOST_WORDS}")));
        }
        let types = self.words(lengths[0], "types")?;
        let members = self.words(lengths[1], "members")?;
        Ok(Some(Case { types, members, buffer: lengths[2] }))
    }

    fn words(&mut self, count: u64, what: &str) -> io::Result<Vec<u64>> {
        let Some((words, rest)) = self.rest.split_at_checked(8 * count as usize) else {
            let left = self.rest.len();
            let why = format!("of {count} words of {what} there are {left} bytes alone");
            return Err(self.damage(why));
        };
        self.rest = rest;
        Ok(words.as_chunks().0.iter().map(|word| u64::from_le_bytes(*word)).collect())
    }

    fn damage(&self, why: String) -> io::Error {
        let why = format!("case {} of the sheet: {why}", self.case);
        io::Error::new(io::ErrorKind::InvalidData, why)
    }
}

// ---- the Rust's part

/// What the Rust says of a case instead, if it can be asked.
fn contradiction(case: &Case, answer: &Result<Flat, u64>) -> Option<String> {
    let flat = answer.as_ref().ok()?;
    let in_rust = by_the_rust(&scalars_of_record(case)?);
    let say = |flat: &Flat| line(&Ok(flat.clone()));
    (in_rust != *flat).then(|| format!("the Rust: {}\nthe rules: {}", say(&in_rust), say(flat)))
}

/// The members of a record of scalars, where it is the type wanted and the Rust takes it: it panics
/// where it has members of which none is aligned.
pub fn scalars_of_record(case: &Case) -> Option<Vec<Scalar>> {
    let entries = entries(case).ok()?;
    let Some(Entry::Record(members)) = entries.last() else { return None };
    let scalar = |member: &u64| match entries[*member as usize] {
        Entry::Scalar(scalar) => Some(scalar),
        _ => None,
    };
    let scalars: Vec<Scalar> = members.iter().map(scalar).collect::<Option<_>>()?;
    let is_taken = scalars.is_empty() || scalars.iter().any(|scalar| scalar.align != 0);
    is_taken.then_some(scalars)
}

/// The Rust's own pieces of these members, and its own record around them.
fn by_the_rust(scalars: &[Scalar]) -> Flat {
    let in_rust = |&Scalar { kind, size, align }: &Scalar| rucc_abi::Scalar {
        kind: numbers::kind(kind),
        size,
        align,
    };
    let in_numbers = |piece: &rucc_abi::Piece| {
        let rucc_abi::Scalar { kind, size, align } = piece.scalar;
        let scalar = Scalar { kind: numbers::kind_number(kind), size, align };
        Piece { scalar, offset: piece.offset }
    };
    let members: Vec<rucc_abi::Scalar> = scalars.iter().map(in_rust).collect();
    let pieces = rucc_abi::pieces(&members);
    let record = rucc_abi::record(&pieces);
    let (size, align) = (record.size, record.align);
    Flat { size, align, pieces: pieces.iter().map(in_numbers).collect() }
}

// ---- the rules

/// What the last type comes to, or the first refusal.
pub fn flatten(case: &Case) -> Result<Flat, u64> {
    let entries = entries(case)?;
    let wanted = entries.len() - 1;
    if levels(&entries)[wanted] > MOST_LEVELS {
        return Err(TOO_DEEP);
    }
    let measures = measures(&entries)?;
    let Measure { size, align, leaves, .. } = measures[wanted];
    if leaves > u128::from(MOST_PIECES.min(case.buffer / PIECE_WORDS)) {
        return Err(NO_ROOM);
    }
    let mut pieces = Vec::new();
    put(&entries, &measures, wanted, 0, &mut pieces);
    Ok(Flat { size: narrow(size), align: narrow(align), pieces })
}

fn narrow(number: u128) -> u64 {
    u64::try_from(number).expect("no type is that large")
}

/// An entry. All that it refers to are earlier ones.
enum Entry<'a> {
    Scalar(Scalar),
    Record(&'a [u64]),
    Union(&'a [u64]),
    Array { element: u64, count: u64 },
    Unknown,
}

impl Entry<'_> {
    /// The entries that it refers to, whatever an array's count.
    fn references(&self) -> &[u64] {
        match self {
            Self::Scalar(_) | Self::Unknown => &[],
            Self::Record(members) | Self::Union(members) => members,
            Self::Array { element, .. } => std::slice::from_ref(element),
        }
    }
}

/// The entries of a case, or the refusal of its lists or references.
fn entries(case: &Case) -> Result<Vec<Entry<'_>>, u64> {
    let (words, odd) = case.types.as_chunks();
    let count = words.len() as u64;
    let members = case.members.len() as u64;
    if !odd.is_empty() || count == 0 || count > MOST_ENTRIES || members > MOST_MEMBERS {
        return Err(BAD_LIST);
    }
    (0..).zip(words).map(|(number, words)| entry(number, words, &case.members)).collect()
}

fn entry<'a>(
    number: u64,
    words: &[u64; ENTRY_WORDS],
    members: &'a [u64],
) -> Result<Entry<'a>, u64> {
    let [kind, second, third, _] = *words;
    let entry = match kind {
        0..=LARGEST_KIND => Entry::Scalar(Scalar { kind, size: second, align: third }),
        RECORD => Entry::Record(listed(members, second, third)?),
        UNION => Entry::Union(listed(members, second, third)?),
        ARRAY => Entry::Array { element: second, count: third },
        _ => Entry::Unknown,
    };
    let goes_back = entry.references().iter().all(|referred| *referred < number);
    if goes_back { Ok(entry) } else { Err(BAD_TYPE) }
}

/// So many members from the first on. Where there are none, no first is read.
fn listed(members: &[u64], first: u64, count: u64) -> Result<&[u64], u64> {
    if count == 0 {
        return Ok(&[]);
    }
    // In 128 bits the sum doesn't wrap.
    let end = u128::from(first) + u128::from(count);
    if end > members.len() as u128 {
        return Err(BAD_TYPE);
    }
    Ok(&members[first as usize..end as usize])
}

/// How many levels each entry has, itself the first of them.
fn levels(entries: &[Entry]) -> Vec<u64> {
    let mut levels: Vec<u64> = Vec::new();
    for entry in entries {
        let below = entry.references().iter().map(|referred| levels[*referred as usize]).max();
        levels.push(1 + below.unwrap_or(0));
    }
    levels
}

/// What is known of an entry that no check refuses.
struct Measure {
    /// By how much a member moves the next one on: a scalar by its own size.
    advance: u128,
    /// Where it ends: a scalar of size 0 where one of size 1 does.
    end: u128,
    /// Its end rounded up to its alignment.
    size: u128,
    /// At least 1.
    align: u128,
    /// More than 128 bits hold count as the largest number that they do.
    leaves: u128,
}

/// The measure of each entry from the first on, or the refusal of the first that has one.
fn measures(entries: &[Entry]) -> Result<Vec<Measure>, u64> {
    let mut known = Vec::new();
    for entry in entries {
        known.push(measure(entry, &known)?);
    }
    Ok(known)
}

/// The measure of an entry by those of the earlier ones, or its refusal: kind, size, alignment.
fn measure(entry: &Entry, known: &[Measure]) -> Result<Measure, u64> {
    match entry {
        Entry::Unknown => Err(BAD_KIND),
        Entry::Scalar(scalar) if scalar.size > LARGEST_SCALAR => Err(BAD_SIZE),
        Entry::Scalar(scalar) if scalar.align > LARGEST_ALIGN => Err(BAD_ALIGN),
        Entry::Scalar(scalar) => Ok(of_scalar(*scalar)),
        Entry::Array { count, .. } if *count > MOST_ELEMENTS => Err(BAD_SIZE),
        _ => {
            let whole = of_whole(entry, known);
            if whole.size > u128::from(LARGEST_SHAPE) { Err(BAD_SIZE) } else { Ok(whole) }
        }
    }
}

fn of_scalar(scalar: Scalar) -> Measure {
    let advance = u128::from(scalar.size);
    let end = advance.max(1);
    let align = u128::from(scalar.align).max(1);
    Measure { advance, end, size: end.next_multiple_of(align), align, leaves: 1 }
}

/// The measure of what is made of earlier entries: an array of 0 has no part of its element, but its
/// alignment.
fn of_whole(entry: &Entry, known: &[Measure]) -> Measure {
    let parts = parts(entry, known);
    let end = parts.iter().map(|(part, offset)| offset + known[*part].end).max().unwrap_or(0);
    let aligns = entry.references().iter().map(|referred| known[*referred as usize].align);
    let align = aligns.max().unwrap_or(1);
    let size = end.next_multiple_of(align);
    let leaves =
        parts.iter().fold(0, |sum: u128, (part, _)| sum.saturating_add(known[*part].leaves));
    Measure { advance: size, end: size, size, align, leaves }
}

/// The entries that an entry is made of, each as often as it is there, and where: a record's members
/// at rounded offsets, a union's at 0, an array's elements a rounded size apart.
fn parts(entry: &Entry, known: &[Measure]) -> Vec<(usize, u128)> {
    match entry {
        Entry::Scalar(_) | Entry::Unknown => vec![],
        Entry::Record(members) => {
            let mut next: u128 = 0;
            let mut place = |member: &u64| {
                let measure = &known[*member as usize];
                let offset = next.next_multiple_of(measure.align);
                next = offset + measure.advance;
                (*member as usize, offset)
            };
            members.iter().map(&mut place).collect()
        }
        Entry::Union(members) => members.iter().map(|member| (*member as usize, 0)).collect(),
        Entry::Array { element, count } => {
            let element = *element as usize;
            let apart = known[element].size;
            (0..u128::from(*count)).map(|index| (element, index * apart)).collect()
        }
    }
}

/// Puts an entry's leaves where it is. What has none is left out, or an empty record under fifteen
/// arrays would take forever.
fn put(entries: &[Entry], known: &[Measure], number: usize, at: u128, pieces: &mut Vec<Piece>) {
    if let Entry::Scalar(scalar) = entries[number] {
        pieces.push(Piece { scalar, offset: narrow(at) });
        return;
    }
    for (part, offset) in parts(&entries[number], known) {
        if known[part].leaves > 0 {
            put(entries, known, part, at + offset, pieces);
        }
    }
}

// ---- random types

/// Writes a sheet of so many cases.
pub fn write(out: &mut impl Write, seed: u64, count: u64) -> io::Result<()> {
    let mut random = Random::new(seed);
    (0..count).try_for_each(|_| out.write_all(&bytes(&case(&mut random))))
}

/// The next case: lists of some kind, some of them spoilt, and a buffer that most of them fit.
pub fn case(random: &mut Random) -> Case {
    let mut lists = lists(random);
    if random.once_in(5) {
        spoil(random, &mut lists);
    }
    if random.once_in(16) {
        break_off(random, &mut lists);
    }
    if random.once_in(2) {
        fill_unread(random, &mut lists);
    }
    let buffer = buffer(random, &lists);
    Case { buffer, ..lists }
}

fn lists(random: &mut Random) -> Case {
    match random.between(0, 63) {
        0..=11 => record_of_scalars(random),
        12..=21 => deep(random),
        22..=24 => around_largest_size(random),
        25..=27 => around_most_elements(random),
        28 => around_most_leaves(random),
        29 | 30 => repeated(random),
        31 if random.once_in(4) => around_longest_lists(random),
        32..=34 => wild(random),
        _ => small(random),
    }
}

impl Case {
    /// How many entries there are, and so the number of the next one.
    fn count(&self) -> u64 {
        (self.types.len() / ENTRY_WORDS) as u64
    }

    /// Adds an entry, and says its number.
    fn entry(&mut self, kind: u64, second: u64, third: u64) -> u64 {
        self.types.extend([kind, second, third, 0]);
        self.count() - 1
    }

    fn scalar(&mut self, Scalar { kind, size, align }: Scalar) -> u64 {
        self.entry(kind, size, align)
    }

    /// Adds a record or a union, and its members behind the others.
    fn of_members(&mut self, kind: u64, members: &[u64]) -> u64 {
        let first = self.members.len() as u64;
        self.members.extend(members);
        self.entry(kind, first, members.len() as u64)
    }

    fn array(&mut self, element: u64, count: u64) -> u64 {
        self.entry(ARRAY, element, count)
    }

    /// An earlier entry: often one of the last three, so that most are reached.
    fn earlier(&self, random: &mut Random) -> u64 {
        let last = self.count() - 1;
        if random.once_in(2) {
            random.between(0, last)
        } else {
            last - random.between(0, last.min(2))
        }
    }
}

/// A scalar inside the domain: as C has them for the most part.
fn scalar(random: &mut Random) -> Scalar {
    let kind = random.between(0, LARGEST_KIND);
    let natural: u64 = random.pick(&[1, 1, 2, 4, 4, 8, 8, 16]);
    match random.between(0, 7) {
        0 => odd_scalar(random),
        1 => Scalar { kind, size: shapes::scalar_size(random), align: shapes::align(random) },
        2 => Scalar { kind, size: random.pick(&[0, 1, 3, 12, 64]), align: natural },
        _ => Scalar { kind, size: natural, align: natural },
    }
}

/// A scalar as no C has it. Of two such alignments the larger is rarely a multiple of the other.
fn odd_scalar(random: &mut Random) -> Scalar {
    let size = random.pick(&[0, 1, 3, 5, 12, 64]);
    let align = random.pick(&[0, 1, 3, 4, 5, 12, 16, LARGEST_ALIGN]);
    Scalar { kind: random.between(0, LARGEST_KIND), size, align }
}

/// A scalar, or now and then a record or a union of nothing.
fn bottom(random: &mut Random, lists: &mut Case) -> u64 {
    match random.between(0, 15) {
        0 => lists.of_members(RECORD, &[]),
        1 => lists.of_members(UNION, &[]),
        _ => lists.scalar(scalar(random)),
    }
}

/// A tree that is accepted for the most part.
fn small(random: &mut Random) -> Case {
    loop {
        let drawn = if random.once_in(4) { odd_scalar } else { scalar };
        let lists = Case { buffer: MOST_WORDS, ..tree(random, &drawn) };
        if flatten(&lists).is_ok() || random.once_in(8) {
            return lists;
        }
    }
}

/// A few entries of all kinds, made of such scalars. The last one is no scalar, but for the only one.
fn tree(random: &mut Random, scalar: &dyn Fn(&mut Random) -> Scalar) -> Case {
    let mut lists = Case::default();
    lists.scalar(scalar(random));
    let most = random.pick(&[2, 6, 10, 16, 24]);
    let count = random.between(most / 2, most);
    while lists.count() < count {
        let is_last = lists.count() + 1 == count;
        match random.between(if is_last { 5 } else { 0 }, 9) {
            0..=3 => lists.scalar(scalar(random)),
            4 | 5 => {
                let element = lists.earlier(random);
                lists.array(element, random.pick(&[0, 1, 2, 2, 3, 3, 4, 5, 9]))
            }
            6 if !lists.members.is_empty() => shared_members(random, &mut lists),
            _ => {
                let kind = random.pick(&[RECORD, RECORD, UNION]);
                let count = random.pick(&[0, 1, 2, 2, 3, 3, 4, 4, 5, 6]);
                let members: Vec<u64> = (0..count).map(|_| lists.earlier(random)).collect();
                lists.of_members(kind, &members)
            }
        };
    }
    lists
}

/// A record or a union of members that other ones have as well.
fn shared_members(random: &mut Random, lists: &mut Case) -> u64 {
    let length = lists.members.len() as u64;
    let first = random.between(0, length - 1);
    let count = random.between(0, (length - first).min(6));
    lists.entry(random.pick(&[RECORD, UNION]), first, count)
}

/// What the Rust can be asked about, too: scalars, some of them more than once, and a record.
fn record_of_scalars(random: &mut Random) -> Case {
    let mut lists = Case::default();
    let most = random.pick(&[2, 4, 8, 24]);
    for _ in 0..random.between(1, most) {
        lists.scalar(scalar(random));
    }
    let most = if random.once_in(32) { MOST_PIECES } else { random.pick(&[2, 4, 8, 40]) };
    let members: Vec<u64> =
        (0..random.between(0, most)).map(|_| random.between(0, lists.count() - 1)).collect();
    lists.of_members(RECORD, &members);
    lists
}

/// A chain of about sixteen levels: each entry is made of the one below, which may be there no time.
/// Now and then the last one doesn't reach it.
fn deep(random: &mut Random) -> Case {
    let mut lists = Case::default();
    let beside = bottom(random, &mut lists);
    let mut top = match random.between(0, 15) {
        0 => lists.entry(bad_kind(random), 0, 0),
        1 | 2 => lists.of_members(RECORD, &[]),
        _ => lists.scalar(scalar(random)),
    };
    // Without a leaf the counts don't matter.
    let counts: &[u64] =
        if random.once_in(8) { &[0, 1, MOST_ELEMENTS] } else { &[0, 1, 1, 1, 1, 2] };
    for _ in 1..random.pick(&[12, 15, 16, 16, 16, 17, 17, 18]) {
        top = match random.between(0, 5) {
            0 => lists.of_members(RECORD, &[top]),
            1 => lists.of_members(RECORD, &[beside, top]),
            2 => lists.of_members(UNION, &[top, beside]),
            3 => lists.of_members(UNION, &[top]),
            _ => lists.array(top, random.pick(counts)),
        };
    }
    match random.between(0, 7) {
        0 => lists.scalar(scalar(random)),
        1 => lists.of_members(RECORD, &[beside]),
        _ => top,
    };
    lists
}

/// Types of the largest size or of one just above it, which others may be made of.
fn around_largest_size(random: &mut Random) -> Case {
    let mut lists = Case::default();
    let byte = lists.scalar(Scalar { kind: 0, size: 1, align: 1 });
    let odd = lists.scalar(Scalar { kind: 0, size: 1, align: random.pick(&[3, 4_095]) });
    let largest = match random.between(0, 2) {
        0 => sparse(&mut lists),
        1 => full(&mut lists, Scalar { kind: 0, size: 16, align: 1 }, MOST_ELEMENTS),
        _ => full(&mut lists, Scalar { kind: 2, size: 64, align: 64 }, 256),
    };
    let near = match random.between(0, 5) {
        0 => lists.of_members(RECORD, &[largest, byte]),
        1 => lists.of_members(UNION, &[largest, odd]),
        2 => lists.of_members(UNION, &[byte, largest]),
        3 => lists.array(largest, random.pick(&[1, 2])),
        _ => largest,
    };
    match random.between(0, 3) {
        0 => lists.array(near, 0),
        1 => lists.of_members(RECORD, &[byte]),
        _ => near,
    };
    lists
}

/// The largest size with no more leaves than are accepted. Of entries without size that are aligned to
/// 4,096 and to 4,095 by turns, each moves the next one on, and so each element is 16,384 bytes.
fn sparse(lists: &mut Case) -> u64 {
    let byte = lists.scalar(Scalar { kind: 0, size: 1, align: 1 });
    let [mut even, mut odd] =
        [4_096, 4_095].map(|align| lists.scalar(Scalar { kind: 0, size: 1, align }));
    even = lists.array(even, 0);
    odd = lists.array(odd, 0);
    let element = lists.of_members(RECORD, &[byte, even, odd, even, odd, even, odd]);
    lists.array(element, MOST_ELEMENTS)
}

/// The largest size, of as many scalars as it takes.
fn full(lists: &mut Case, scalar: Scalar, count: u64) -> u64 {
    let scalar = lists.scalar(scalar);
    let row = lists.array(scalar, MOST_ELEMENTS);
    lists.array(row, count)
}

/// An array of the most elements, or of more, most of them without a leaf.
fn around_most_elements(random: &mut Random) -> Case {
    let mut lists = Case::default();
    let mut element = bottom(random, &mut lists);
    if !random.once_in(4) {
        element = lists.array(element, 0);
    }
    let count = if random.once_in(2) { past(random, MOST_ELEMENTS) } else { MOST_ELEMENTS };
    let array = lists.array(element, count);
    match random.between(0, 3) {
        0 => lists.scalar(scalar(random)),
        1 => lists.of_members(UNION, &[array, 0]),
        _ => array,
    };
    lists
}

/// As many leaves as are accepted, one fewer or one more.
fn around_most_leaves(random: &mut Random) -> Case {
    let mut lists = Case::default();
    let leaf = lists.scalar(scalar(random));
    let leaves = random.between(MOST_PIECES - 1, MOST_PIECES + 1);
    match random.between(0, 3) {
        0 => lists.of_members(random.pick(&[RECORD, UNION]), &vec![leaf; leaves as usize]),
        1 => {
            let part = random.between(1, leaves - 1).min(MOST_ELEMENTS);
            let arrays = [lists.array(leaf, part), lists.array(leaf, leaves - part)];
            lists.of_members(random.pick(&[RECORD, UNION]), &arrays)
        }
        _ => {
            let rows =
                (2..leaves).find(|rows| leaves.is_multiple_of(*rows)).expect("none is prime");
            let row = lists.array(leaf, leaves / rows);
            lists.array(row, rows)
        }
    };
    lists
}

/// Each entry made of the one below many times over, so that leaves grow at a power, and sizes where
/// they are records.
fn repeated(random: &mut Random) -> Case {
    let mut lists = Case::default();
    let mut top = lists.scalar(scalar(random));
    let kind = random.pick(&[RECORD, UNION]);
    let times = if random.once_in(8) { 273 } else { random.pick(&[2, 2, 4, 32]) };
    for _ in 0..random.pick(&[2, 5, 10, 11, 15]) {
        top = lists.of_members(kind, &vec![top; times]);
    }
    lists
}

/// As many entries or members as are accepted, or one more.
fn around_longest_lists(random: &mut Random) -> Case {
    let mut lists = Case::default();
    bottom(random, &mut lists);
    lists.of_members(RECORD, &[]);
    let which = random.between(1, 3);
    if which & 1 != 0 {
        lengthen_types(random, &mut lists);
    }
    if which & 2 != 0 {
        lengthen_members(random, &mut lists);
    }
    lists
}

/// Adds entries that are deeper than any that is reached may be, and a last one of the first two.
fn lengthen_types(random: &mut Random, lists: &mut Case) {
    let count = random.pick(&[MOST_ENTRIES, MOST_ENTRIES + 1]);
    while lists.count() + 1 < count {
        match random.between(0, 3) {
            0 => {
                let members = [lists.earlier(random), lists.earlier(random)];
                lists.of_members(UNION, &members)
            }
            1 => lists.array(lists.count() - 1, 1),
            _ => lists.scalar(scalar(random)),
        };
    }
    lists.of_members(UNION, &[0, 1, 0]);
}

/// Adds references to the first two entries, of which an entry is made or none.
fn lengthen_members(random: &mut Random, lists: &mut Case) {
    let count = random.pick(&[MOST_MEMBERS, MOST_MEMBERS + 1]) - lists.members.len() as u64;
    let leaves = random.pick(&[0, 3, MOST_PIECES, MOST_PIECES + 1, count]);
    let mut members = vec![1; (count - leaves) as usize];
    members.resize(count as usize, 0);
    if random.once_in(2) {
        lists.of_members(random.pick(&[RECORD, UNION]), &members);
    } else {
        lists.members.extend(members);
    }
}

/// Words that hardly ever make a type.
fn wild(random: &mut Random) -> Case {
    let mut lists = Case::default();
    let word = |random: &mut Random| match random.between(0, 7) {
        0 => random.word() >> random.between(0, 63),
        1 => u64::MAX - random.between(0, 3),
        _ => random.between(0, 4),
    };
    for _ in 0..random.between(1, 5) {
        let kind = random.pick(&[0, 1, 4, 5, 255, RECORD, RECORD, UNION, ARRAY, ARRAY, 259]);
        lists.entry(kind, word(random), word(random));
    }
    lists.members = (0..random.between(0, 6)).map(|_| word(random)).collect();
    lists
}

/// Makes one entry, or two, what they may not be.
fn spoil(random: &mut Random, lists: &mut Case) {
    for _ in 0..random.pick(&[1, 1, 1, 2]) {
        let number = random.between(0, lists.count() - 1);
        let entry = &mut lists.types[ENTRY_WORDS * number as usize..];
        match (entry[0], random.between(0, 11)) {
            (_, 0..=2) => entry[0] = bad_kind(random),
            (0..=LARGEST_KIND, 3..=6) => entry[1] = past(random, LARGEST_SCALAR),
            (0..=LARGEST_KIND, 7..=10) => entry[2] = past(random, LARGEST_ALIGN),
            (ARRAY, 3..=6) => entry[2] = past(random, MOST_ELEMENTS),
            _ => spoil_references(random, lists, number),
        }
    }
}

/// Has an entry refer to what it may not; a scalar becomes a record for it.
fn spoil_references(random: &mut Random, lists: &mut Case, number: u64) {
    let referred = bad_reference(random, lists, number);
    let length = lists.members.len() as u64;
    let entry = &mut lists.types[ENTRY_WORDS * number as usize..];
    if entry[0] <= LARGEST_KIND {
        entry[..3].copy_from_slice(&[RECORD, 0, 1]);
    }
    if entry[0] == ARRAY {
        entry[1] = referred;
        return;
    }
    let [first, count] = [entry[1], entry[2]];
    let is_listed = first.checked_add(count).is_some_and(|end| end <= length);
    match random.between(0, 4) {
        0 => entry[1] = random.pick(&[length - count.min(length) + 1, length, u64::MAX]),
        1 => entry[2] = random.pick(&[length - first.min(length) + 1, 1 << 32, u64::MAX]),
        // The two add up to 2^64, or to a little more, which 64 bits take for a small number.
        2 => entry[2] = (u64::MAX - first).saturating_add(random.between(1, 3)),
        _ if is_listed && count > 0 => {
            lists.members[(first + random.between(0, count - 1)) as usize] = referred;
        }
        _ => entry[1..3].copy_from_slice(&[u64::MAX - random.between(0, 2), 3]),
    }
}

/// The entry itself, a later one or none.
fn bad_reference(random: &mut Random, lists: &Case, number: u64) -> u64 {
    match random.between(0, 5) {
        0 | 1 => number,
        2 => random.between(number, lists.count() - 1),
        3 => lists.count(),
        4 => past(random, lists.count()),
        _ => u64::MAX,
    }
}

fn bad_kind(random: &mut Random) -> u64 {
    let far = past(random, ARRAY);
    random.pick(&[5, 6, 255, ARRAY + 1, 1 << 32, (1 << 32) + RECORD, u64::MAX, far])
}

/// Takes the last words of types away, or adds some, or leaves none.
fn break_off(random: &mut Random, lists: &mut Case) {
    match random.between(0, 3) {
        0 => lists.types.clear(),
        1 => lists.types.push(random.word()),
        _ => lists.types.truncate(lists.types.len() - random.between(1, 4) as usize),
    }
}

/// Puts any number where none is read: an entry's fourth word, and the first member where there is
/// none.
fn fill_unread(random: &mut Random, lists: &mut Case) {
    for entry in lists.types.as_chunks_mut::<ENTRY_WORDS>().0 {
        entry[3] = random.word();
        if matches!(*entry, [RECORD | UNION, _, 0, _]) && random.once_in(2) {
            entry[1] = random.pick(&[0, 1, MOST_MEMBERS, u64::MAX]);
        }
    }
}

/// The words of a buffer, which most often have room for the pieces: to the last word mostly. More
/// leaves than are accepted get room for one more.
fn buffer(random: &mut Random, lists: &Case) -> u64 {
    let roomy = Case { buffer: MOST_WORDS, ..lists.clone() };
    let pieces = match flatten(&roomy) {
        Ok(flat) => flat.pieces.len() as u64,
        Err(NO_ROOM) => MOST_PIECES + 1,
        Err(_) => 0,
    };
    let exact = PIECE_WORDS * pieces;
    match random.between(0, 15) {
        0 => exact.saturating_sub(1),
        1 => random.between(0, exact),
        2 | 3 => exact + random.between(1, 7),
        4 | 5 => random.pick(&[4_095, 4_096, 4_100, MOST_WORDS]),
        _ => exact,
    }
}

// ---- types that C has

/// How many types a file of C has: a compiler takes long for large ones.
const TYPES_OF_A_FILE: u64 = 1_000;

/// No type of C has more levels or leaves than these, or parts that are looked at to find the leaves.
const MOST_LEVELS_IN_C: u64 = 10;
const MOST_LEAVES_IN_C: usize = 200;
const MOST_PARTS_IN_C: usize = 2_000;

/// Writes so many types into the folder: as types.sheet, and as C, in several files of which each
/// makes a program that prints the lines of its types (tests/types/types.h says how). The kind is
/// that of long double, where the types may have it.
pub fn write_c(folder: &Path, seed: u64, count: u64, kind: Option<u64>) -> io::Result<()> {
    let mut random = Random::new(seed);
    let mut scalars: Vec<InC> = IN_C.to_vec();
    scalars.extend(kind.map(|kind| in_c("long double", kind, 16, 16)));
    let mut sheet = BufWriter::new(File::create(folder.join("types.sheet"))?);
    for (file, first) in (1..=count).step_by(TYPES_OF_A_FILE as usize).enumerate() {
        let lines = first..=count.min(first + TYPES_OF_A_FILE - 1);
        let types: Vec<CType> = lines.map(|line| c_type(&mut random, &scalars, line)).collect();
        types.iter().try_for_each(|drawn| sheet.write_all(&bytes(&drawn.case)))?;
        fs::write(folder.join(format!("types-{file:04}.c")), c_file(&types))?;
    }
    sheet.flush()
}

/// A scalar by its C name.
#[derive(Clone, Copy)]
struct InC {
    name: &'static str,
    scalar: Scalar,
}

const fn in_c(name: &'static str, kind: u64, size: u64, align: u64) -> InC {
    InC { name, scalar: Scalar { kind, size, align } }
}

/// The scalars of C where a pointer has eight bytes, and then those of types.h.
const IN_C: [InC; 16] = [
    in_c("char", 0, 1, 1),
    in_c("_Bool", 0, 1, 1),
    in_c("short", 0, 2, 2),
    in_c("unsigned short", 0, 2, 2),
    in_c("int", 0, 4, 4),
    in_c("long long", 0, 8, 8),
    in_c("void *", 0, 8, 8),
    in_c("__int128", 0, 16, 16),
    in_c("float", 1, 4, 4),
    in_c("double", 2, 8, 8),
    in_c("int_by_1", 0, 4, 1),
    in_c("long_long_by_4", 0, 8, 4),
    in_c("double_by_2", 2, 8, 2),
    in_c("char_by_8", 0, 1, 8),
    in_c("int_by_64", 0, 4, 64),
    in_c("float_by_16", 1, 4, 16),
];

/// A type as lists, as a declaration for each entry, and as the paths to its leaves.
struct CType {
    line: u64,
    case: Case,
    declarations: Vec<String>,
    paths: Vec<String>,
}

/// Draws the type of a line: one that C has, neither too deep nor too large.
fn c_type(random: &mut Random, scalars: &[InC], line: u64) -> CType {
    loop {
        let mut case = tree(random, &|random| random.pick(scalars).scalar);
        let entries = entries(&case).expect("the references go back");
        let wanted = entries.len() - 1;
        let mut paths = Paths { entries: &entries, found: Vec::new(), parts: 0 };
        paths.find(wanted, String::new());
        let fits = levels(&entries)[wanted] <= MOST_LEVELS_IN_C && !paths.are_too_many();
        if !fits || !c_has(&entries) {
            continue;
        }
        let paths = paths.found;
        let declare = |(number, entry)| declaration(random, scalars, line, number, entry);
        let declarations = entries.iter().enumerate().map(declare).collect();
        case.buffer = PIECE_WORDS * paths.len() as u64;
        return CType { line, case, declarations, paths };
    }
}

/// Whether C has these types, and no other size for the last one than the rules: a scalar that is
/// aligned to more than it fills can only be a member.
fn c_has(entries: &[Entry]) -> bool {
    let fills = |entry: &Entry| match entry {
        Entry::Scalar(scalar) => scalar.size.is_multiple_of(scalar.align),
        _ => true,
    };
    let elements_fill = entries.iter().all(|entry| match entry {
        Entry::Array { element, .. } => fills(&entries[*element as usize]),
        _ => true,
    });
    elements_fill && entries.last().is_some_and(fills)
}

/// An entry as C declares it. A scalar has any of the names that it can have.
fn declaration(
    random: &mut Random,
    scalars: &[InC],
    line: u64,
    number: usize,
    entry: &Entry,
) -> String {
    let name = format!("t{line}_{number}");
    let word = match entry {
        Entry::Scalar(scalar) => {
            let names: Vec<&str> =
                scalars.iter().filter(|it| it.scalar == *scalar).map(|it| it.name).collect();
            return format!("typedef {} {name};", random.pick(&names));
        }
        Entry::Array { element, count } => {
            return format!("typedef t{line}_{element} {name}[{count}];");
        }
        Entry::Record(_) => "struct",
        Entry::Union(_) => "union",
        Entry::Unknown => panic!("C has no such entry"),
    };
    let mut members = String::new();
    for (at, member) in entry.references().iter().enumerate() {
        write!(members, "t{line}_{member} m{at}; ").expect("a string takes it");
    }
    format!("typedef {word} {{ {members}}} {name};")
}

/// How C names the leaves of a type, in their order. No size and no offset has a part in it.
struct Paths<'a> {
    entries: &'a [Entry<'a>],
    found: Vec<String>,
    parts: usize,
}

impl Paths<'_> {
    fn are_too_many(&self) -> bool {
        self.found.len() > MOST_LEAVES_IN_C || self.parts > MOST_PARTS_IN_C
    }

    fn find(&mut self, number: usize, path: String) {
        self.parts += 1;
        if self.are_too_many() {
            return;
        }
        match self.entries[number] {
            Entry::Scalar(_) => self.found.push(path),
            Entry::Record(members) | Entry::Union(members) => {
                for (at, member) in members.iter().enumerate() {
                    self.find(*member as usize, format!("{path}.m{at}"));
                }
            }
            Entry::Array { element, count } => {
                for index in 0..count {
                    self.find(element as usize, format!("{path}[{index}]"));
                }
            }
            Entry::Unknown => panic!("C has no such entry"),
        }
    }
}

/// A file of these types: first they are declared, then measured, all in one array of numbers.
fn c_file(types: &[CType]) -> String {
    let mut text = "#include \"types.h\"\n\n".to_string();
    for CType { line, declarations, .. } in types {
        let last = declarations.len() - 1;
        text += &declarations.join("\n");
        text += &format!("\nstruct wanted_{line} {{ t{line}_{last} type; }};\n");
    }
    text += "\nstatic const unsigned numbers[] = {\n";
    for CType { line, paths, .. } in types {
        text += &format!("TYPE({line}, {}),\n", paths.len());
        for path in paths {
            text += &format!("LEAF({line}, {path}),\n");
        }
    }
    text + "};\n\nint main(void)\n{\n    return print(numbers, sizeof numbers / sizeof *numbers);\n}\n"
}

#[cfg(test)]
mod tests {
    use super::*;

    /// A record of these scalars, one entry each.
    fn record(scalars: &[Scalar]) -> Case {
        let mut case = Case { buffer: MOST_WORDS, ..Case::default() };
        let members: Vec<u64> = scalars.iter().map(|member| case.scalar(*member)).collect();
        case.of_members(RECORD, &members);
        case
    }

    const BYTE: Scalar = Scalar { kind: 0, size: 1, align: 1 };
    const DOUBLE: Scalar = Scalar { kind: 2, size: 8, align: 8 };
    const UNALIGNED: Scalar = Scalar { kind: 0, size: 2, align: 0 };

    #[test]
    fn the_rust_says_the_same() {
        for scalars in [&[][..], &[DOUBLE], &[BYTE, DOUBLE, UNALIGNED, BYTE]] {
            let case = record(scalars);
            let answer = flatten(&case);
            assert!(answer.is_ok(), "{scalars:?}");
            assert_eq!(scalars_of_record(&case).as_deref(), Some(scalars));
            assert_eq!(contradiction(&case, &answer), None);
        }
    }

    #[test]
    fn another_size_alignment_or_piece_contradicts() {
        let case = record(&[BYTE, DOUBLE]);
        let right = flatten(&case).expect("it is accepted");
        let other_offset = |offset| {
            let last = Piece { offset, ..right.pieces[1] };
            Flat { pieces: vec![right.pieces[0], last], ..right.clone() }
        };
        let one_piece = Flat { pieces: right.pieces[..1].to_vec(), ..right.clone() };
        let wrong = [
            Flat { size: 9, ..right.clone() },
            Flat { align: 1, ..right.clone() },
            other_offset(1),
            one_piece,
        ];
        for flat in wrong {
            let said = contradiction(&case, &Ok(flat.clone())).expect("the Rust says otherwise");
            assert!(said.contains("the Rust: size 16 align 8 pieces 0:1:1:0 2:8:8:8"), "{said}");
            assert!(said.contains(&format!("the rules: {}", line(&Ok(flat)))), "{said}");
        }
    }

    /// Where it would panic, or has no word for the type, or that is refused.
    #[test]
    fn the_rust_is_not_asked_about_all() {
        assert_eq!(scalars_of_record(&record(&[UNALIGNED, UNALIGNED])), None);
        let mut nested = record(&[BYTE]);
        nested.of_members(RECORD, &[1]);
        assert_eq!(scalars_of_record(&nested), None);
        let mut union = record(&[BYTE]);
        union.of_members(UNION, &[0]);
        assert_eq!(scalars_of_record(&union), None);
        let large = record(&[Scalar { size: 65, ..BYTE }]);
        assert_eq!(contradiction(&large, &flatten(&large)), None);
    }
}
