//! The stored set: the paper's blocks to try, the cases once found to differ, and random ones of every operation.
use crate::blocks::{disturbed, random_message};
use crate::cases::{Case, Question, Wire};
use crate::code::{codeword, house, Code};
use crate::decode::{literal, ordered, Verdict};
use crate::draw::{checking, decoding, encoding, fronting, Limits};
use crate::random::Random;
use crate::sheet::Sheet;
use crate::trellis::Block;

/// A program's buffers stay within 64 KiB: so does the working memory, and with it the room.
pub const LIMITS: Limits = Limits { room: 2730, words: 8192, entries: 300, other_forms: false };

const FOUR: [i8; 6] = [3, -5, -2, 1, -4, -6];

fn decode(length: u32, symbols: &[i8], room: u32, allowance: u32) -> Case {
    let symbols = symbols.to_vec();
    let asked = Question { code: house(0), length, symbols, room, allowance, words: LIMITS.words };
    Case::Decode { asked, message: length + 1 }
}

fn encode(message: &[u8]) -> Case {
    let code = house(0);
    Case::Encode { code, message: message.to_vec(), out: code.block(message.len()) as u32 }
}

/// "Blocks to try", in order; case 12 with the largest room that stands here.
pub fn blocks_to_try() -> Vec<Case> {
    let mut cases = vec![encode(&[1]), encode(&[0]), encode(&[1, 1, 1, 0, 1])];
    for (room, allowance) in [(5, 3), (4, 3), (4, 2), (3, 2), (0, 3), (1, 0)] {
        cases.push(decode(1, &FOUR, room, allowance));
    }
    cases.push(decode(1, &[0; 6], 6, 5));
    cases.push(decode(1, &[-1, -1, 2, 9, 0, 0], 6, 5));
    let twelve: Vec<i8> = b"10100101100111".iter().map(|&bit| if bit == b'1' { -1 } else { 1 }).collect();
    cases.push(decode(5, &twelve, LIMITS.room, u32::MAX));
    for (symbol, room) in [(-128, 9), (-1, 9), (0, 9), (127, 9)] {
        cases.push(decode(1, &[symbol, 0, 0, 1, 1, 1], room, u32::MAX));
    }
    cases.extend(fourteen());
    cases.push(Case::Front {
        front_end: Wire { form: 0, offset: 0, gain: 2f32.to_bits(), threshold: 0 },
        readings: [0.25f32, -0.25, 63.0, 63.25, 1000.0].map(f32::to_bits).to_vec(),
        symbols: 6,
    });
    cases.extend([encode(&[1; 200]), encode(&[1; 201])]);
    cases.extend([decode(200, &[1; 404], 2000, u32::MAX), decode(201, &[1; 406], 2000, u32::MAX)]);
    for memory in [16, 17] {
        let code = Code { memory, ..house(0) };
        cases.push(Case::Encode { code, message: vec![1], out: 40 });
    }
    cases.push(decode(1, &FOUR, 4097, 3));
    cases
}

fn fourteen() -> Vec<Case> {
    let Case::Decode { asked, message } = decode(1, &FOUR, 5, 3) else { unreachable!() };
    let symbols = asked.symbols.clone();
    let whole = Case::DecodeSheet { asked, message, sheet: 47 };
    let sheet = whole.outcome(literal).buffers.remove(1);
    let check = |sheet: &[u8]| Case::Check {
        code: house(0),
        length: 1,
        symbols: symbols.clone(),
        sheet: sheet.to_vec(),
        message: 1,
    };
    let mut dearer = sheet.clone();
    dearer[8] = 4;
    vec![check(&sheet), check(&sheet[..46]), check(&dearer), whole]
}

/// The sheet of a block that is answered: written, and then checked.
fn sheeted(case: &Case) -> Vec<Case> {
    let Case::Decode { asked, message } = case else { return vec![] };
    let written = |sheet| Case::DecodeSheet { asked: asked.clone(), message: *message, sheet };
    // With no buffer for it the size is told.
    let small = written(0).outcome(ordered).numbers;
    if small[0] != 9 {
        return vec![];
    }
    let whole = written(small[3]);
    let sheet = whole.outcome(ordered).buffers.remove(1);
    let Question { code, length, symbols, .. } = asked.clone();
    vec![whole, Case::Check { code, length, symbols, sheet, message: length }]
}

/// A sheet of many entries, as honest as it is long, and once more with its last cost raised.
fn long_sheets(random: &mut Random) -> Vec<Case> {
    let code = house(1);
    loop {
        let message = random_message(random, 120);
        let symbols = disturbed(random, &codeword(&code, &message), 40, 25);
        let block = Block { code, length: 120, symbols: &symbols };
        let verdict = ordered(&block, 4096, u32::MAX);
        let Verdict::Known(known) = verdict else { continue };
        // Long, and yet a record below 32 KiB.
        if known.sharing == 1 && (2500..3900).contains(&known.listed.len()) {
            let sheet = Sheet::honest(&block, &known);
            let mut raised = sheet.clone();
            if let Some(entry) = raised.entries.last_mut() {
                entry.cost += 1;
            }
            let check = |sheet: &Sheet| Case::Check {
                code,
                length: 120,
                symbols: symbols.clone(),
                sheet: sheet.bytes(),
                message: 120,
            };
            return vec![check(&sheet), check(&raised)];
        }
    }
}

/// The lines of the file `pasted`: cases that once differed, each by the line that `compare` printed.
pub fn pasted() -> Vec<Case> {
    let lines = include_str!("../pasted").lines().filter(|line| !line.is_empty() && !line.starts_with('#'));
    lines.map(|line| Case::unpasted(line).expect("a line of `pasted` is a record")).collect()
}

pub fn stored(seed: u64) -> Vec<Case> {
    let mut random = Random::new(seed);
    let random = &mut random;
    let mut cases = blocks_to_try();
    cases.extend(blocks_to_try().iter().flat_map(sheeted));
    cases.extend(pasted());
    cases.extend(long_sheets(random));
    for turn in 0..2000 {
        cases.push(match turn % 20 {
            0..2 => encoding(random),
            2..10 => decoding(random, &LIMITS, false),
            10..13 => decoding(random, &LIMITS, true),
            13..18 => checking(random, &LIMITS),
            _ => fronting(random, &LIMITS),
        });
    }
    cases
}

#[cfg(test)]
mod tests {
    use super::*;

    #[test]
    fn the_paper_says_so() {
        let numbers: Vec<Vec<u32>> =
            blocks_to_try().iter().map(|case| case.outcome(literal).numbers).collect();
        let four = [[0, 3, 3, 0], [3, 0, 2, 0], [4, 0, 2, 0], [3, 0, 1, 0], [3, 0, 0, 0], [4, 0, 0, 0]];
        assert_eq!(numbers[3..9], four);
        assert_eq!(numbers[9..11], [[5, 0, 5, 0], [5, 2, 5, 0]]);
        assert_eq!(numbers[11][..2], [0, 2]);
        assert_eq!(numbers[16..20], [[0, 3, 0, 0], [6, 0, 0, 0], [7, 0, 0, 0], [0, 3, 3, 47]]);
        assert_eq!(numbers[20][..3], [0, 5, 0]);
        assert_eq!(numbers[21..23], [[0, 0, 0, 404], [2, 0, 0, 0]]);
        assert_eq!([numbers[23][0], numbers[24][0]], [0, 2]);
        assert_eq!([numbers[25][0], numbers[26][0], numbers[27][0]], [0, 1, 2]);
    }

    /// What the gate runs is what seed 1 writes, so that no answer in it is a stale one.
    #[test]
    fn the_stored_files() {
        let cases = stored(1);
        let stream: Vec<u8> = cases.iter().flat_map(Case::record).collect();
        assert!(stream == include_bytes!("../stored/stream"));
        let answers: String = cases.iter().map(|case| case.answer_line(ordered) + "\n").collect();
        assert!(answers == include_str!("../stored/answers"));
    }

    #[test]
    fn the_form_s_own_example() {
        let four = &blocks_to_try()[3];
        let page = include_str!("../FORMAT.md");
        let shown: Vec<&str> = page.lines().filter_map(|line| line.strip_prefix("    ")).collect();
        assert_eq!(shown[..3].concat().replace(' ', ""), four.pasted());
        assert_eq!(shown[3], four.answer_line(literal));
    }

    #[test]
    fn records_come_back() {
        for case in stored(3).iter().take(500) {
            assert_eq!(Case::read(&case.record()).as_ref(), Some(case));
            assert_eq!(Case::unpasted(&case.pasted()).as_ref(), Some(case));
        }
    }
}
