//! Fresh random cases through the C face and through the second program: a million decodes, a million checks of damaged sheets,
//! every bit flip of a hundred honest sheets, and encodings and readings beside them. The stored set, with its cases that once
//! differed, goes first.
//!
//! `compare [SEED [PERCENT]]`: all of it, or a part of each amount. Without a seed the clock gives one; it is printed.
//! `compare SEED STAGE INDEX`: the one case that a progress or crash line names, printed before it is run.
//!
//! A case that differs is shrunk and printed as a line for the file `pasted`.
use second::cases::{Case, Outcome};
use second::code;
use second::decode::ordered;
use second::draw::{checking, decoding, encoding, fronting, known_block, Limits};
use second::face::{self, Face};
use second::random::Random;
use second::shrink::shrunk;
use second::stored::stored;
use std::io::Write;
use std::process::exit;
use std::sync::atomic::{AtomicU64, AtomicUsize, Ordering::Relaxed};
use std::time::{Duration, Instant, SystemTime};

/// The stored set has as many cases as it has.
const STAGES: [(&str, u64); 6] = [
    ("stored", 0),
    ("decode", 1_000_000),
    ("check", 1_000_000),
    ("flip", 100),
    ("encode", 200_000),
    ("front", 200_000),
];

const FLIPS: usize = 3;

/// For the crash line, which can look at nothing else.
static SEED: AtomicU64 = AtomicU64::new(0);
static STAGE: AtomicUsize = AtomicUsize::new(0);
static INDEX: AtomicU64 = AtomicU64::new(0);

extern "C" {
    fn signal(which: i32, handler: extern "C" fn(i32)) -> usize;
    fn write(file: i32, bytes: *const u8, count: usize) -> isize;
    fn _exit(code: i32) -> !;
}

const BUS_ERROR: i32 = 7;
const SEGMENT_ERROR: i32 = 11;

fn say(text: &str) {
    // Safe: a slice and its length. Nothing is allocated, since this runs where a call broke off.
    unsafe { write(2, text.as_ptr(), text.len()) };
}

fn say_number(mut number: u64) {
    let mut digits = [0; 20];
    let mut start = digits.len();
    loop {
        start -= 1;
        digits[start] = b'0' + (number % 10) as u8;
        number /= 10;
        if number == 0 {
            break;
        }
    }
    say(std::str::from_utf8(&digits[start..]).unwrap_or("?"));
}

/// A forbidden page was read or written.
extern "C" fn crashed(_: i32) {
    say("\na forbidden page was touched; to see the case: compare ");
    say_number(SEED.load(Relaxed));
    say(" ");
    say(STAGES[STAGE.load(Relaxed)].0);
    say(" ");
    say_number(INDEX.load(Relaxed));
    say("\n");
    // Safe: it ends the program at once.
    unsafe { _exit(1) }
}

/// Each case has numbers of its own, so that it can be drawn again without those before it.
fn own(seed: u64, stage: usize, index: u64) -> Random {
    Random::new(seed ^ Random::new((stage as u64) << 56 | index).number())
}

/// Large rooms now and then; they take much longer, in a plain search by the square.
fn limits(random: &mut Random) -> Limits {
    let room = match random.below(400) {
        0 => 4096,
        1..20 => 1000,
        _ => 250,
    };
    Limits { room, words: 12_300, entries: if random.one_in(50) { 4096 } else { 40 }, other_forms: true }
}

/// The index of a flip: the sheet's number, then 0 for the sheet as it is or the bit's number from 1.
const BITS: u64 = 1 << 32;

fn honest(seed: u64, sheet: u64) -> Case {
    let random = &mut own(seed, FLIPS, sheet * BITS);
    let entries = match sheet % 10 {
        0 => 300,
        1..4 => 100,
        _ => 30,
    };
    loop {
        let (code, symbols, known, sheet) = known_block(random, entries);
        if known.sharing == 1 {
            let length = known.message.len() as u32;
            return Case::Check { code, length, symbols, sheet: sheet.bytes(), message: length };
        }
    }
}

fn flipped(case: &Case, which: u64) -> Case {
    let mut case = case.clone();
    if let (Case::Check { sheet, .. }, Some(bit)) = (&mut case, which.checked_sub(1)) {
        sheet[bit as usize / 8] ^= 1 << (bit % 8);
    }
    case
}

fn drawn(seed: u64, stage: usize, index: u64) -> Case {
    let random = &mut own(seed, stage, index);
    let limits = limits(random);
    match stage {
        0 => stored(1).swap_remove(index as usize),
        1 => {
            let with_sheet = random.one_in(3);
            decoding(random, &limits, with_sheet)
        }
        2 => checking(random, &limits),
        FLIPS => flipped(&honest(seed, index / BITS), index % BITS),
        4 => encoding(random),
        _ => fronting(random, &limits),
    }
}

/// What is wrong with the proved code's outcome, if anything is.
fn difference(face: &mut Face, case: &Case, expected: &Outcome, late: bool) -> Option<String> {
    match face.outcome(case, late) {
        Err(stray) => Some(stray),
        Ok(outcome) if outcome != *expected => {
            let numbers = format!("expected {:?}, got {:?}", expected.numbers, outcome.numbers);
            let buffers = expected.buffers.iter().zip(&outcome.buffers);
            let places = buffers.map(|(one, other)| one.iter().zip(other).position(|(x, y)| x != y));
            Some(format!("{numbers}; first differing byte of each buffer: {:?}", places.collect::<Vec<_>>()))
        }
        Ok(_) => None,
    }
}

/// The answer's number, if there is nothing wrong.
fn compare(face: &mut Face, case: &Case, stage: usize, index: u64) -> usize {
    STAGE.store(stage, Relaxed);
    INDEX.store(index, Relaxed);
    let late = index.is_multiple_of(2);
    let mut wrong = |case: &Case, expected: &Outcome| difference(face, case, expected, late);
    let expected = case.outcome(ordered);
    let Some(first) = wrong(case, &expected) else {
        return expected.numbers[0] as usize;
    };
    println!("\n{} {index} differs: {first}", STAGES[stage].0);
    println!("as drawn, for the file `pasted`:\n{}", case.pasted());
    let smallest = shrunk(case, &mut |other| wrong(other, &other.outcome(ordered)).is_some());
    println!("shrunk: {}", wrong(&smallest, &smallest.outcome(ordered)).unwrap_or_default());
    println!("{smallest:?}\nfor the file `pasted`:\n{}", smallest.pasted());
    exit(1);
}

struct Progress {
    begin: Instant,
    shown: Instant,
}

impl Progress {
    fn show(&mut self, stage: usize, done: u64, all: u64) {
        if self.shown.elapsed() < Duration::from_millis(500) && done < all {
            return;
        }
        self.shown = Instant::now();
        let seconds = self.begin.elapsed().as_secs();
        print!("\r{seconds:>5} s  {}: {done} of {all}   ", STAGES[stage].0);
        std::io::stdout().flush().unwrap_or(());
    }
}

fn run(face: &mut Face, seed: u64, percent: u64) {
    let now = Instant::now();
    let mut progress = Progress { begin: now, shown: now };
    for row in [0, 1, 2, 3, 4, 5, 1 << 32, usize::MAX] {
        assert_eq!(face::house(row), code::house(row), "house row {row}");
    }
    for (index, case) in stored(1).iter().enumerate() {
        compare(face, case, 0, index as u64);
    }
    for (stage, (_, amount)) in STAGES.iter().enumerate().skip(1) {
        let amount = (amount * percent / 100).max(1);
        let mut numbers = [0u64; 10];
        for index in 0..amount {
            if stage == FLIPS {
                let honest = honest(seed, index);
                let Case::Check { sheet, .. } = &honest else { continue };
                for which in 0..=8 * sheet.len() as u64 {
                    let number = compare(face, &flipped(&honest, which), stage, index * BITS + which);
                    numbers[number] += 1;
                }
            } else {
                numbers[compare(face, &drawn(seed, stage, index), stage, index)] += 1;
            }
            progress.show(stage, index + 1, amount);
        }
        println!("answers by number: {numbers:?}");
    }
    println!("no difference, seed {seed}, {} s", progress.begin.elapsed().as_secs());
}

fn main() {
    let arguments: Vec<String> = std::env::args().skip(1).collect();
    let number = |place: usize| arguments.get(place).map(|word| word.parse().expect("a whole number"));
    let clock = SystemTime::now().duration_since(SystemTime::UNIX_EPOCH).map_or(1, |time| time.as_secs());
    let seed = number(0).unwrap_or(clock);
    println!("seed {seed}");
    SEED.store(seed, Relaxed);
    // Safe: the handler looks at numbers that are always whole, and ends the program.
    unsafe {
        signal(SEGMENT_ERROR, crashed);
        signal(BUS_ERROR, crashed);
    }
    let face = &mut Face::new();
    let Some(stage) = arguments.get(1).and_then(|name| STAGES.iter().position(|(stage, _)| stage == name))
    else {
        return run(face, seed, number(1).unwrap_or(100));
    };
    let index = number(2).expect("a stage goes with an index");
    let case = drawn(seed, stage, index);
    println!("{case:?}\nfor the file `pasted`:\n{}", case.pasted());
    compare(face, &case, stage, index);
    println!("no difference");
}
