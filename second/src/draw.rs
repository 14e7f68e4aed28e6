//! Random cases, good ones and refused ones, within limits that a program with fixed buffers can hold.
use crate::blocks::{any_code, any_length, any_symbols, random_code, random_message};
use crate::cases::{Case, Question, Wire};
use crate::code::Code;
use crate::damage::damaged;
use crate::decode::{ordered, Known, Verdict};
use crate::random::Random;
use crate::sheet::{Entry, Sheet};
use crate::trellis::Block;

pub struct Limits {
    /// The largest room asked with memory enough.
    pub room: u32,
    /// The largest working memory, in words.
    pub words: u32,
    /// The most entries of a sheet that is checked.
    pub entries: usize,
    /// Whether a front end may have a form that is none of the three.
    pub other_forms: bool,
}

/// How much longer than it must be an output buffer is.
fn spare(random: &mut Random) -> u32 {
    random.pick(&[0, 0, 0, 1, 7])
}

fn spoiled(random: &mut Random, code: Code) -> Code {
    let mut generators = code.generators;
    let place = random.below(u64::from(code.outputs)) as usize;
    match random.below(4) {
        0 => Code { outputs: random.pick(&[0, 1, 5, 6, u32::MAX]), ..code },
        1 => Code { memory: random.pick(&[0, 17, 18, 31, 32, 64, u32::MAX]), ..code },
        2 => {
            generators[place] = 0;
            Code { generators, ..code }
        }
        _ => {
            generators[place] = random.pick(&[2 << code.memory, (2 << code.memory) + 1, u32::MAX]);
            Code { generators, ..code }
        }
    }
}

/// Not always a wrong one: a length beside the good one asks for another number of symbols.
fn other_length(random: &mut Random, length: u32) -> u32 {
    random.pick(&[0, 201, 202, length - 1, length + 1, length + 65_536, u32::MAX, 1 << 31])
}

fn other_symbols(random: &mut Random, symbols: &mut Vec<i8>) {
    match random.below(4) {
        0 | 1 => drop(symbols.pop()),
        2 => symbols.push(1),
        _ => symbols.clear(),
    }
}

/// Exactly what is needed, a little beside it, anywhere below, or plenty.
fn about(random: &mut Random, needed: u32, plenty: u32) -> u32 {
    match random.below(12) {
        0..6 => plenty,
        6 => needed,
        7 => needed.saturating_sub(1),
        8 => random.within(0, u64::from(needed)) as u32,
        9 => needed.saturating_add(random.within(1, 3) as u32).min(plenty),
        10 => needed.saturating_sub(random.within(1, 5) as u32),
        _ => random.pick(&[0, 1, 2, 3]),
    }
}

pub fn encoding(random: &mut Random) -> Case {
    let mut code = any_code(random);
    let length = any_length(random);
    let mut message = random_message(random, length);
    if random.one_in(10) {
        let place = random.below(message.len() as u64) as usize;
        message[place] = random.pick(&[2, 3, 128, 254, 255]);
    }
    let mut out = code.block(message.len()) as u32 + spare(random);
    match random.below(16) {
        0 => message.clear(),
        1 => {
            message.resize(201, 1);
            out = code.block(201) as u32;
        }
        2 => out = code.block(message.len()) as u32 - 1,
        3 => out = 0,
        _ => {}
    }
    if random.one_in(10) {
        code = spoiled(random, code);
    }
    Case::Encode { code, message, out }
}

/// What a block needs if the room lasts: room, allowance, the sheet's bytes.
fn needs(block: &Block, limits: &Limits) -> (u32, u32, u32) {
    match ordered(block, limits.room as usize, u32::MAX) {
        Verdict::Known(known) => {
            let bytes = Sheet::honest(block, &known).bytes().len();
            (known.discovered as u32, known.steps, bytes as u32)
        }
        Verdict::Room { steps } => (limits.room, steps + 1, 100),
        Verdict::Allowance => (limits.room, u32::MAX, 100),
    }
}

pub fn decoding(random: &mut Random, limits: &Limits, with_sheet: bool) -> Case {
    let tied = random.one_in(10);
    let code = if tied { random_code(random, 4) } else { any_code(random) };
    let length = if tied { random.within(1, 9) as usize } else { any_length(random) };
    let message = random_message(random, length);
    let symbols = match tied {
        // Three weights alone: few blocks of these have a sole least message.
        true => (0..code.block(length)).map(|_| random.within(0, 2) as i8 - 1).collect(),
        false => any_symbols(random, &code, &message),
    };
    let (room, steps, bytes) = needs(&Block { code, length, symbols: &symbols }, limits);
    let length = length as u32;
    let room = about(random, room, limits.room);
    let words = (3 * room + spare(random)).min(limits.words);
    let allowance = about(random, steps, u32::MAX);
    let mut asked = Question { code, length, symbols, room, allowance, words };
    let mut message = length + spare(random);
    if random.one_in(12) {
        match random.below(8) {
            0 | 1 => asked.length = other_length(random, length),
            2 => {
                asked.length = 201;
                asked.symbols.resize(code.block(201), 3);
                message = 201;
            }
            3 => other_symbols(random, &mut asked.symbols),
            4 => (asked.room, asked.words) = (random.pick(&[4097, 4098, 65_536, u32::MAX]), limits.words),
            5 => asked.words = random.pick(&[0, 3 * room.max(1) - 1, room]),
            6 => message = length - 1,
            _ => message = 0,
        }
    }
    if random.one_in(16) {
        asked.code = spoiled(random, code);
    }
    if !with_sheet {
        return Case::Decode { asked, message };
    }
    let sheet = match random.below(8) {
        0 => bytes - 1,
        1 => random.within(0, u64::from(bytes)) as u32,
        2 => random.pick(&[0, 1, 13, 14]),
        3 => bytes + random.within(1, 40) as u32,
        _ => bytes,
    };
    Case::DecodeSheet { asked, message, sheet }
}

/// A block whose least metric comes to light within the limits, and the sheet's parts: honest if one message has the metric.
pub fn known_block(random: &mut Random, entries: usize) -> (Code, Vec<i8>, Known, Sheet) {
    loop {
        let code = any_code(random);
        let length = any_length(random);
        let message = random_message(random, length);
        let symbols = any_symbols(random, &code, &message);
        let block = Block { code, length, symbols: &symbols };
        if let Verdict::Known(known) = ordered(&block, 2 * entries, u32::MAX) {
            if known.listed.len() <= entries {
                let sheet = Sheet::honest(&block, &known);
                return (code, symbols, known, sheet);
            }
        }
    }
}

/// Entries of the greatest costs, which ask for nothing, up to a number about the most that the form takes.
fn stuffed(random: &mut Random, block: &Block, sheet: &Sheet) -> Vec<u8> {
    let count = random.pick(&[4095, 4096, 4096, 4097, 4098]);
    let mut entries = sheet.entries.clone();
    let listed: Vec<(u64, u64)> = entries.iter().map(|entry| (entry.level, entry.state)).collect();
    'all: for level in 0..=block.last_level() as u64 {
        for state in 0..1 << block.code.memory {
            if entries.len() == count {
                break 'all;
            }
            if listed.binary_search(&(level, state)).is_err() {
                entries.push(Entry { level, state, cost: u64::from(u32::MAX) - random.below(2) });
            }
        }
    }
    entries.sort();
    Sheet { entries, ..sheet.clone() }.bytes()
}

pub fn checking(random: &mut Random, limits: &Limits) -> Case {
    let entries = match random.below(40) {
        0 => limits.entries,
        1..6 => limits.entries.min(120),
        _ => limits.entries.min(40),
    };
    let (code, symbols, known, sheet) = known_block(random, entries);
    let length = known.message.len() as u32;
    let block = Block { code, length: known.message.len(), symbols: &symbols };
    let bytes = match random.below(8) {
        0 if limits.entries >= 4096 && random.one_in(20) => stuffed(random, &block, &sheet),
        0 | 1 => sheet.bytes(),
        _ => damaged(random, &block, &sheet),
    };
    let mut case = (code, length, symbols, length + spare(random));
    if random.one_in(16) {
        match random.below(5) {
            0 => case.1 = other_length(random, length),
            1 => (case.1, case.3) = (length + 1, length + 1),
            2 => other_symbols(random, &mut case.2),
            3 => case.3 = length - 1,
            _ => case.3 = 0,
        }
    }
    if random.one_in(16) {
        case.0 = spoiled(random, code);
    }
    let (code, length, symbols, message) = case;
    Case::Check { code, length, symbols, sheet: bytes, message }
}

const ODD: [f32; 12] = [
    0.0,
    -0.0,
    f32::MAX,
    f32::MIN,
    f32::MIN_POSITIVE,
    f32::from_bits(1),
    -f32::from_bits(1),
    0.5,
    -0.5,
    126.5,
    -127.5,
    0.499_999_97,
];

const ENDLESS: [u32; 5] = [0x7F80_0000, 0xFF80_0000, 0x7FC0_0000, 0xFFC0_0001, 0x7F80_0001];

fn finite(random: &mut Random) -> u32 {
    match random.below(8) {
        0..4 => ((random.within(0, 2400) as f32 - 1200.0) / 8.0).to_bits(),
        4 | 5 => (random.within(0, 256) as f32 - 128.5).to_bits(),
        6 => random.pick(&ODD).to_bits(),
        _ => loop {
            let bits = random.number() as u32;
            if f32::from_bits(bits).is_finite() {
                return bits;
            }
        },
    }
}

pub fn fronting(random: &mut Random, limits: &Limits) -> Case {
    let gains = [1.0, 1.0, 2.0, 0.5, 0.25, 3.0, 0.1, 1e-30, 1e30, f32::MAX, f32::from_bits(1)];
    let mut front_end = Wire {
        form: random.below(3) as u32,
        offset: finite(random),
        gain: random.pick(&gains).to_bits(),
        threshold: finite(random),
    };
    match random.below(14) {
        0 => front_end.gain = random.pick(&ENDLESS),
        1 => front_end.gain = random.pick(&[0.0, -0.0, -1.0, -f32::from_bits(1)]).to_bits(),
        2 => (front_end.offset, front_end.threshold) = (random.pick(&ENDLESS), random.pick(&ENDLESS)),
        3 if limits.other_forms => front_end.form = random.pick(&[3, 4, 256, u32::MAX]),
        _ => {}
    }
    let count = match random.below(60) {
        0 => 0,
        1 => 864,
        2 => 865,
        3..6 => random.within(100, 200),
        _ => random.within(1, 16),
    };
    let mut readings: Vec<u32> = (0..count).map(|_| finite(random)).collect();
    if random.one_in(6) && count > 0 {
        for _ in 0..random.within(1, 2) {
            let place = random.below(count) as usize;
            readings[place] = random.pick(&ENDLESS);
        }
    }
    let mut symbols = count as u32 + spare(random);
    if random.one_in(14) {
        symbols = random.pick(&[0, symbols.saturating_sub(8), (count as u32).saturating_sub(1)]);
    }
    Case::Front { front_end, readings, symbols }
}
