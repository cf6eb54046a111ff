//! The original Rust, built unchanged, answers the same: the oracle (../oracle) prints its answers,
//! and these tests print ours in the same form and compare.
//!
//! The oracle is the program that BARKPADDLE_ORACLE names, or what ../oracle/build builds. Where the
//! original's sources aren't at hand (oracle/README.md), each test says so and compares nothing.
//! BARKPADDLE_SEED is the seed of the random calls; without it a fresh one is taken. It is printed.

use std::fmt::Write as _;
use std::io::Write as _;
use std::path::PathBuf;
use std::process::{Command, Stdio};
use std::sync::OnceLock;
use std::thread;
use std::time::SystemTime;

use barkpaddle::{
    Abi, Aggregate, Architecture, Bridge, Call, Convention, Kind, Offsets, Passed, Piece, Refusal,
    Room, Rule, Rules, Scalar, System, Target, Test, VaList, Value, limits,
};

/// Tells the reader of a test's output, also where the test passes.
fn tell(what: &str) {
    writeln!(std::io::stderr(), "original: {what}").expect("standard error takes a line");
}

/// The oracle's path, or none where the sources aren't at hand.
fn oracle() -> Option<&'static PathBuf> {
    static ORACLE: OnceLock<Option<PathBuf>> = OnceLock::new();
    ORACLE
        .get_or_init(|| {
            if let Some(path) = std::env::var_os("BARKPADDLE_ORACLE") {
                return Some(PathBuf::from(path));
            }
            let script = concat!(env!("CARGO_MANIFEST_DIR"), "/../oracle/build");
            let built = Command::new(script).output().expect("oracle/build runs");
            let said = String::from_utf8_lossy(&built.stderr);
            match built.status.code() {
                Some(0) => {}
                Some(3) => {
                    tell(&format!("the original sources are not at hand, NOT COMPARED: {said}"));
                    return None;
                }
                _ => panic!("the oracle can't be built: {said}"),
            }
            let path = String::from_utf8(built.stdout).expect("a path in UTF-8");
            Some(PathBuf::from(path.trim_end()))
        })
        .as_ref()
}

/// What the oracle prints, given this on its standard input.
fn ask(oracle: &PathBuf, arguments: &[&str], input: &[u8]) -> Vec<u8> {
    let mut child = Command::new(oracle)
        .args(arguments)
        .stdin(Stdio::piped())
        .stdout(Stdio::piped())
        .spawn()
        .expect("the oracle runs");
    let mut stdin = child.stdin.take().expect("it is piped");
    let input = input.to_vec();
    let writer = thread::spawn(move || stdin.write_all(&input));
    let output = child.wait_with_output().expect("the oracle ends");
    writer.join().expect("the writer ends").expect("the oracle reads its input");
    assert!(output.status.success(), "oracle {arguments:?} ends with {}", output.status);
    output.stdout
}

/// Holds our lines against the original's.
fn compare(what: &str, original: &[u8], ours: &str) {
    let original = std::str::from_utf8(original).expect("lines are text");
    assert!(!original.is_empty(), "{what}: the original says nothing");
    for (at, (theirs, ours)) in original.lines().zip(ours.lines()).enumerate() {
        assert_eq!(theirs, ours, "{what}: line {} (the original's is left)", at + 1);
    }
    let (theirs, ours) = (original.lines().count(), ours.lines().count());
    assert_eq!(theirs, ours, "{what}: the number of lines");
    tell(&format!("{what}: {theirs} lines, all the same"));
}

fn seed() -> u64 {
    let named = std::env::var("BARKPADDLE_SEED").ok();
    named.map_or_else(
        || {
            let now = SystemTime::now().duration_since(SystemTime::UNIX_EPOCH);
            now.expect("a time after 1970").as_nanos() as u64
        },
        |seed| seed.parse().expect("BARKPADDLE_SEED is a number"),
    )
}

// ---- sheets

/// Six words of a sheet (REFERENCE 11).
type Record = [u64; 6];

fn records(sheet: &[u8]) -> impl Iterator<Item = Record> {
    assert!(sheet.chunks_exact(48).remainder().is_empty(), "whole records");
    sheet.chunks_exact(48).map(|record| {
        std::array::from_fn(|at| {
            u64::from_le_bytes(record[8 * at..8 * at + 8].try_into().expect("eight bytes"))
        })
    })
}

/// The pieces of an aggregate's record, which follow it.
fn pieces_of(record: &Record, records: &mut impl Iterator<Item = Record>) -> Vec<Piece> {
    let mut piece = || {
        let [first, kind, size, align, offset, _] = records.next().expect("a piece is due");
        assert_eq!(first, 5, "a piece is due");
        Piece::new(Kind::from_number(kind), size, align, offset)
    };
    (0..record[5]).map(|_| piece()).collect()
}

fn aggregate<'a>(record: &Record, pieces: &'a [Piece]) -> Aggregate<'a> {
    let mut aggregate = Aggregate::new(record[2], record[3], pieces);
    aggregate.complex = record[4] % 2 == 1;
    aggregate.floating = record[4] >= 2;
    aggregate
}

/// The value that an operation's record asks about. An aggregate's pieces go to `pieces`.
fn value<'p>(
    record: &Record,
    records: &mut impl Iterator<Item = Record>,
    pieces: &'p mut Vec<Piece>,
) -> Value<'p> {
    match record[1] {
        0 => Value::Void,
        1 => Scalar::new(Kind::from_number(record[2]), record[3], record[4]).into(),
        _ => {
            *pieces = pieces_of(record, records);
            aggregate(record, pieces).into()
        }
    }
}

/// The lines of a good sheet. Its calls are kept as bridges, too, which say the same.
fn lines(sheet: &[u8]) -> String {
    let mut out = String::new();
    let mut records = records(sheet);
    let mut open = None;
    let mut bridge = None;
    let (mut room, mut lent_room) = (Room::new(), Room::new());
    while let Some(record) = records.next() {
        let word = match record[0] {
            0 => {
                let fresh = Call::fresh(Abi(record[1]));
                open = fresh.ok();
                bridge = Bridge::fresh(Abi(record[1])).ok();
                assert_eq!(bridge.as_ref().map(Bridge::call), open);
                print_left(&mut out, "fresh", open, fresh.err());
                continue;
            }
            1 => {
                let call = open.expect("a call is open");
                let marked = call.variadic();
                open = Some(marked.unwrap_or(call));
                let bridge = bridge.as_mut().expect("a call is open");
                assert_eq!((bridge.variadic().err(), Some(bridge.call())), (marked.err(), open));
                print_left(&mut out, "marked", open, marked.err());
                continue;
            }
            operation => operation,
        };
        let call = open.expect("a call is open");
        let mut pieces = Vec::new();
        let value = value(&record, &mut records, &mut pieces);
        let passed = match word {
            2 => call.returns(value, &mut room),
            3 => call.argument(value, &mut room),
            _ => call.variadic_argument(value, &mut room),
        };
        let bridge = bridge.as_mut().expect("a call is open");
        let outcome = match word {
            2 => bridge.returns(value, &mut lent_room),
            3 => bridge.argument(value, &mut lent_room),
            _ => bridge.variadic_argument(value, &mut lent_room),
        };
        match (passed, outcome) {
            (Ok(passed), Ok(outcome)) => assert_eq!(outcome, passed.outcome),
            (passed, outcome) => assert_eq!(outcome.err(), passed.err()),
        }
        assert_eq!(bridge.call(), passed.map_or(call, |passed| passed.next));
        match passed {
            Ok(passed) => {
                print_passed(&mut out, call, &passed);
                open = Some(passed.next);
            }
            Err(refusal) => print_left(&mut out, "", open, Some(refusal)),
        }
    }
    out
}

/// A line without slots: what is left, the refusal where there is one, and the stack offset, which
/// stays.
fn print_left(out: &mut String, word: &str, call: Option<Call>, refusal: Option<Refusal>) {
    let word = if refusal.is_some() { "refused" } else { word };
    let (integer, float) = call.map_or((0, 0), |call| (call.integer_left(), call.float_left()));
    write!(out, "{word} {integer} {float} 0 0 0 0").expect("a string takes it");
    if let Some(refusal) = refusal {
        write!(out, " {}", refusal.number()).expect("a string takes it");
    }
    let stack = call.map_or(0, Call::stack);
    writeln!(out, " {stack} {stack}").expect("a string takes it");
}

fn print_passed(out: &mut String, call: Call, passed: &Passed<'_>) {
    let Passed { next, outcome, .. } = passed;
    let (before, after) = (call.stack(), next.stack());
    // A line has no place: it is between the two.
    let place = outcome.stacked.map(|stacked| (stacked.offset, stacked.offset + stacked.length));
    match place {
        None => assert_eq!(before, after),
        Some((start, end)) => assert!(before <= start && start < end && end == after),
    }
    let spent = outcome.spent;
    write!(out, "{} {} {}", outcome.way, next.integer_left(), next.float_left())
        .and_then(|()| write!(out, " {} {}", spent.integers_passed, spent.integers_given))
        .and_then(|()| write!(out, " {} {}", spent.floats_passed, spent.floats_given))
        .expect("a string takes it");
    for slot in outcome.slots() {
        let kind = slot.kind.number();
        write!(out, " {kind}:{}:{}", slot.offset, slot.size).expect("a string takes it");
    }
    writeln!(out, " {before} {after}").expect("a string takes it");
}

#[test]
fn random_calls() {
    let Some(oracle) = oracle() else { return };
    for seed in [21, 22, seed()] {
        tell(&format!("seed {seed}"));
        let sheet = ask(oracle, &["generate", &seed.to_string(), "100000", "good"], &[]);
        let original = ask(oracle, &["sheet"], &sheet);
        compare(&format!("random calls of seed {seed}"), &original, &lines(&sheet));
    }
}

// ---- variable argument lists

/// Reads each of the oracle's lists again. Its lines say what is asked and what is answered
/// (oracle/README.md).
#[test]
fn lists() {
    let Some(oracle) = oracle() else { return };
    for seed in [41, seed()] {
        tell(&format!("seed {seed} of the lists"));
        let original = ask(oracle, &["lists", &seed.to_string(), "100000"], &[]);
        let areas = Areas::new();
        let mut reader = Reader::new(&areas);
        let mut ours = String::with_capacity(original.len());
        for line in std::str::from_utf8(&original).expect("lines are text").lines() {
            reader.answer(line, &mut ours);
        }
        assert_eq!(reader.lists, 100_000);
        assert!(areas == Areas::new(), "what was lent was written to");
        let what = format!("{} reads of {} lists of seed {seed}", reader.reads, reader.lists);
        compare(&what, &original, &ours);
    }
}

/// As many bytes as any list is lent, each unlike those near it.
#[derive(PartialEq)]
struct Areas {
    save: Vec<u8>,
    overflow: Vec<u8>,
}

impl Areas {
    fn new() -> Self {
        let bytes = || (0..1_024).map(|at| (at % 251) as u8);
        Self { save: bytes().collect(), overflow: bytes().rev().collect() }
    }

    /// The number of the area that a part is of, and where it begins there.
    fn place(&self, part: &[u8]) -> [usize; 2] {
        let saved = start_in(&self.save, part).map(|start| [1, start]);
        let found = saved.or_else(|| start_in(&self.overflow, part).map(|start| [2, start]));
        found.expect("a part is of one of the two areas")
    }
}

/// Where a part begins in an area, by its address: its bytes alone couldn't tell.
fn start_in(area: &[u8], part: &[u8]) -> Option<usize> {
    let inside = area.as_ptr_range().contains(&part.as_ptr());
    inside.then(|| part.as_ptr() as usize - area.as_ptr() as usize)
}

/// Does what the lines ask for.
struct Reader<'a> {
    areas: &'a Areas,
    /// The caller's side: what the named parameters have left.
    call: Call,
    list: VaList<'a>,
    room: Room,
    lists: u64,
    reads: u64,
}

impl<'a> Reader<'a> {
    fn new(areas: &'a Areas) -> Self {
        let call = Call::from_parts(Abi::SYSV_AMD64, 0, 0, false, 0);
        let list = VaList::new(&[], &[], Offsets { integer: 0, float: 0, overflow: 0 });
        Self { areas, call, list, room: Room::new(), lists: 0, reads: 0 }
    }

    /// Prints the line again, with our answer in the place of the original's.
    fn answer(&mut self, line: &str, out: &mut String) {
        let (word, rest) = line.split_once(' ').unwrap_or((line, ""));
        let mut numbers = rest.split(' ').map(|number| number.parse::<u64>().expect("a number"));
        let mut next = || numbers.next().expect("there is a number more");
        match word {
            "list" => {
                self.lists += 1;
                self.call = Call::fresh(Abi::SYSV_AMD64).expect("a description");
                out.push_str(line);
            }
            "named" => {
                let words: Vec<u64> = numbers.collect();
                self.perform(&words);
                out.push_str(line);
            }
            "left" => self.print_left(next(), out),
            "lent" => {
                let (save, overflow) = (next() as usize, next() as usize);
                let offsets = Offsets { integer: next(), float: next(), overflow: next() };
                let Areas { save: saved, overflow: overflowed } = self.areas;
                self.list = VaList::new(&saved[..save], &overflowed[..overflow], offsets);
                out.push_str(line);
            }
            "read" => self.read(Scalar::new(Kind::from_number(next()), next(), next()), out),
            other => panic!("the oracle says {other}"),
        }
        out.push('\n');
    }

    /// Asks about a result or a named parameter.
    fn perform(&mut self, words: &[u64]) {
        let mut records =
            words.chunks_exact(6).map(|words| Record::try_from(words).expect("six words"));
        let record = records.next().expect("a record");
        let mut pieces = Vec::new();
        let value = value(&record, &mut records, &mut pieces);
        let passed = match record[0] {
            2 => self.call.returns(value, &mut self.room),
            _ => self.call.argument(value, &mut self.room),
        };
        self.call = passed.map_or(self.call, |passed| passed.next);
    }

    /// The oracle draws where the named parameters end on the stack.
    fn print_left(&self, overflow: u64, out: &mut String) {
        let (integers, floats) = (self.call.integer_left(), self.call.float_left());
        let offsets = Offsets::after(self.call).expect("a call of the description");
        assert_eq!(offsets.overflow, self.call.stack());
        let Offsets { integer, float, .. } = offsets;
        write!(out, "left {overflow} {integers} {floats} {integer} {float}")
            .expect("a string takes it");
    }

    fn read(&mut self, scalar: Scalar, out: &mut String) {
        self.reads += 1;
        let answer = match self.list.next(scalar) {
            Ok(part) => {
                let [area, start] = self.areas.place(part);
                format!("0 {area} {start} {}", part.len())
            }
            Err(refusal) => format!("{} 0 0 0", refusal.number()),
        };
        let (kind, size, align) = (scalar.kind().number(), scalar.size(), scalar.align());
        let Offsets { integer, float, overflow } = self.list.offsets();
        write!(out, "read {kind} {size} {align} {answer} {integer} {float} {overflow}")
            .expect("a string takes it");
    }
}

// ---- layouts

#[test]
fn layouts() {
    let Some(oracle) = oracle() else { return };
    for seed in [31, seed()] {
        let seed_text = seed.to_string();
        let shapes = ask(oracle, &["shapes", &seed_text, "20000"], &[]);
        let original = ask(oracle, &["layouts", &seed_text, "20000"], &[]);
        let mut ours = String::new();
        let mut records = records(&shapes);
        while let Some(record) = records.next() {
            let pieces = pieces_of(&record, &mut records);
            print_layouts(&mut ours, aggregate(&record, &pieces));
        }
        compare(&format!("layouts of seed {seed}"), &original, &ours);
    }
}

/// The alignments in memory on each row, or the refusal, which is the same on all and said once.
fn in_memory(shape: Aggregate<'_>) -> String {
    let on_row = |number| Call::fresh(Abi(number)).expect("a description").in_memory(shape);
    let answers: Vec<Result<u64, Refusal>> = (0..Abi::COUNT).map(on_row).collect();
    match answers.iter().copied().collect::<Result<Vec<u64>, Refusal>>() {
        Ok(aligned) => words(&aligned),
        Err(refusal) => {
            assert!(answers.iter().all(|answer| *answer == Err(refusal)), "{answers:?}");
            format!("refused {}", refusal.number())
        }
    }
}

fn print_layouts(out: &mut String, shape: Aggregate<'_>) {
    write!(out, "memory {}", in_memory(shape)).expect("a string takes it");
    let line = match barkpaddle::record(shape.pieces) {
        Ok(record) => {
            assert!(!record.complex && record.pieces == shape.pieces);
            format!("record {} {} {}", record.size, record.align, u64::from(record.floating))
        }
        Err(refusal) => format!("record refused {}", refusal.number()),
    };
    write!(out, "\n{line}\npieces").expect("a string takes it");
    let members: Vec<Scalar> = shape.pieces.iter().map(|piece| piece.scalar()).collect();
    let mut room = vec![Piece::default(); members.len()];
    for piece in barkpaddle::pieces(&members, &mut room).expect("there is room") {
        let kind = piece.kind().number();
        write!(out, " {kind}:{}:{}:{}", piece.size(), piece.align(), piece.offset())
            .expect("a string takes it");
    }
    out.push('\n');
}

// ---- descriptions

#[test]
fn rows() {
    let Some(oracle) = oracle() else { return };
    let mut ours = String::new();
    for number in 0..Abi::COUNT {
        print_row(&mut ours, number).expect("a description");
    }
    compare("rows", &ask(oracle, &["rows"], &[]), &ours);
}

fn print_row(out: &mut String, number: u64) -> Result<(), Refusal> {
    let abi = Abi(number);
    let mut line = |text: String| writeln!(out, "row {number} {text}").expect("a string takes it");
    let mut name = [0; limits::MOST_NAME_BYTES];
    line(format!("name {}", String::from_utf8_lossy(abi.name(&mut name)?)));
    let said = abi.description()?;
    let banks =
        [said.integer, said.float, u64::from(said.shared), said.integer_width, said.float_width];
    line(format!("banks {}", words(&banks)));
    let scalars = [
        format_number(said.in_memory),
        u64::from(said.wide_integer_is_all_or_nothing),
        u64::from(said.wide_integer_starts_even),
        u64::from(said.wide_integer_drains),
        u64::from(said.wide_is_by_reference),
        format_number(said.wide_integer_returns_in),
        u64::from(said.wide_integer_in_memory),
        u64::from(said.decimal_in_integers),
        u64::from(said.quad_returns_by_reference),
        u64::from(said.float_falls_to_integers),
    ];
    line(format!("scalars {}", words(&scalars)));
    let others = [
        said.return_pointer.number(),
        said.variadic.number(),
        said.stack_args.number(),
        said.narrow.number(),
        said.bit_ints.number(),
        said.cleanup.number(),
    ];
    line(format!("others {}", words(&others)));
    for rule in numbered_rules("returns", abi.return_rules()?) {
        line(rule);
    }
    for rule in numbered_rules("arguments", abi.argument_rules()?) {
        line(rule);
    }
    for size in 0..=limits::LARGEST_SCALAR {
        let answers = [
            size,
            u64::from(abi.scalar_is_by_reference(size)?),
            u64::from(abi.scalar_returns_by_reference(size)?),
            format_number(abi.wide_integer_returns_in(size)?),
        ];
        line(format!("questions {}", words(&answers)));
    }
    Ok(())
}

fn numbered_rules(list: &'static str, rules: Rules) -> impl Iterator<Item = String> {
    rules.enumerate().map(move |(at, rule)| {
        let Rule { test, travel, short, .. } = rule;
        let (test, numbers) = test_numbers(test);
        let (travel, short) = (travel.number(), short.number());
        format!("{list} {at} {test} {} {travel} {short}", words(&numbers))
    })
}

/// A test as the oracle numbers it, from 0, and its four numbers.
fn test_numbers(test: Test) -> (u64, [u64; 4]) {
    match test {
        Test::Anything => (0, [0; 4]),
        Test::Empty => (1, [0; 4]),
        Test::SizeOneOf(sizes) => (2, sizes),
        Test::SizeAtMost(limit) => (3, [limit, 0, 0, 0]),
        Test::Homogeneous(limit) => (4, [limit, 0, 0, 0]),
        Test::FloatPair => (5, [0; 4]),
        Test::X87Stack => (6, [0; 4]),
        Test::LoneFloat => (7, [0; 4]),
        Test::FloatingMode => (8, [0; 4]),
        Test::ComplexFloat => (9, [0; 4]),
        Test::Eightbytes(limit) => (10, [limit, 0, 0, 0]),
        other => panic!("no row has {other:?}"),
    }
}

fn format_number(format: Option<Kind>) -> u64 {
    format.map_or(0, Kind::number)
}

fn words(numbers: &[u64]) -> String {
    numbers.iter().map(u64::to_string).collect::<Vec<_>>().join(" ")
}

// ---- lookups

/// Asks each of the oracle's lookups again. Its lines say what was asked and what was answered.
#[test]
fn lookups() {
    let Some(oracle) = oracle() else { return };
    let original = ask(oracle, &["lookups"], &[]);
    let mut ours = String::new();
    for line in std::str::from_utf8(&original).expect("lines are text").lines() {
        let (asked, _) = line.rsplit_once(' ').expect("a question and an answer");
        writeln!(ours, "{asked} {}", looked_up(asked)).expect("a string takes it");
    }
    compare("lookups", &original, &ours);
}

fn looked_up(asked: &str) -> String {
    let words: Vec<&str> = asked.split(' ').collect();
    let number = |at: usize| words[at].parse::<u64>().expect("a number");
    let target = || Target {
        architecture: Architecture::from_number(number(1)),
        system: System::from_number(number(2)),
        msvc: number(3) != 0,
    };
    let shown = |found: Option<u64>| found.map_or("none".to_string(), |found| found.to_string());
    match words[0] {
        "target" => shown(target().abi().map(|abi| abi.0)),
        "convention" => shown(target().abi_of(Convention::from_number(number(4))).map(|abi| abi.0)),
        "asked" => {
            let name = if words[4] == "-" { "" } else { words[4] };
            shown(target().asked(name.as_bytes()).map(Convention::number))
        }
        "attribute" => {
            let mut name = [0; limits::MOST_NAME_BYTES];
            let found = Convention::from_number(number(1)).attribute(&mut name);
            let found = found.expect("there is room");
            found.map_or("none".to_string(), |name| String::from_utf8_lossy(name).into_owned())
        }
        "pops" => u64::from(Convention::from_number(number(1)).callee_pops()).to_string(),
        other => panic!("the oracle asks for {other}"),
    }
}
