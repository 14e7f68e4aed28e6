//! The second program held to itself: the search against the paper's letter, both against every message tried one by one, the
//! check against a second reading of its conditions and against what the messages say.
use crate::blocks::{any_symbols, disturbed, random_code, random_message};
use crate::brute::least;
use crate::cases::Case;
use crate::code::{codeword, house, Code};
use crate::damage::damaged;
use crate::decode::{literal, ordered, Known, Verdict};
use crate::random::Random;
use crate::sheet::{check, Sheet};
use crate::trellis::Block;

#[derive(Default)]
pub struct Tally {
    pub blocks: u64,
    /// By number.
    pub verdicts: [u64; 6],
    pub honest: u64,
    pub damaged: u64,
    /// Of the damaged ones.
    pub accepted: u64,
}

fn number(verdict: &Verdict) -> usize {
    match verdict {
        Verdict::Room { .. } => 3,
        Verdict::Allowance => 4,
        Verdict::Known(known) if known.sharing > 1 => 5,
        Verdict::Known(_) => 0,
    }
}

/// Room and allowance about what the block needs, on both sides of it, and anywhere below.
fn limits(random: &mut Random, known: &Known) -> (usize, u32) {
    let about = |random: &mut Random, needed: u64| match random.below(4) {
        0 => random.within(0, needed),
        1 => needed.saturating_sub(1),
        2 => needed,
        _ => needed + random.below(3),
    };
    (about(random, known.discovered as u64) as usize, about(random, u64::from(known.steps)) as u32)
}

/// Of several messages that share the least metric each search may hold another.
fn told(mut verdict: Verdict) -> Verdict {
    if let Verdict::Known(known) = &mut verdict {
        if known.sharing > 1 {
            known.message.clear();
        }
    }
    verdict
}

/// The block's verdict without limits, the same from both searches; and a few with limits.
fn searched(random: &mut Random, block: &Block, tally: &mut Tally) -> Known {
    let free = ordered(block, usize::MAX, u32::MAX);
    let Verdict::Known(known) = free else { panic!("without limits the metric is known") };
    for turn in 0..5 {
        let (room, allowance) = if turn == 0 { (usize::MAX, u32::MAX) } else { limits(random, &known) };
        let verdict = told(literal(block, room, allowance));
        assert_eq!(verdict, told(ordered(block, room, allowance)), "room {room}, allowance {allowance}");
        tally.verdicts[number(&verdict)] += 1;
    }
    tally.blocks += 1;
    known
}

/// Conditions A to D once more, entry by entry and branch by branch, with nothing shared with the check but the form.
fn carries_again(block: &Block, sheet: &Sheet) -> bool {
    let memory = block.code.memory;
    let end = block.length as u64 + u64::from(memory);
    let listed = |level: u64, state: u64| {
        sheet
            .entries
            .iter()
            .find(|entry| entry.level == level && entry.state == state)
            .map(|entry| entry.cost)
    };
    // Every allowed branch from an entry: where it starts, its cost added to the entry's, where it ends.
    let mut branches = Vec::new();
    for entry in sheet.entries.iter().filter(|entry| entry.level < end) {
        for bit in 0..if entry.level < block.length as u64 { 2 } else { 1 } {
            let register = bit << memory | entry.state;
            let mut through = entry.cost;
            for output in 0..block.code.outputs as usize {
                let symbol =
                    i32::from(block.symbols[entry.level as usize * block.code.outputs as usize + output]);
                let ones = (register & u64::from(block.code.generators[output])).count_ones();
                if (ones % 2 == 1) != (symbol < 0) {
                    through += symbol.unsigned_abs() as u64;
                }
            }
            branches.push((entry.level, entry.state, through, register >> 1));
        }
    }
    // The path: the state at a level is what the last `memory` bits of the message leave, the newest highest.
    let bit = |place: i64| {
        if place < 0 {
            0
        } else {
            u64::from(sheet.message.get(place as usize).copied().unwrap_or(0))
        }
    };
    let state = |level: u64| {
        (1..=i64::from(memory)).map(|back| bit(level as i64 - back) << (i64::from(memory) - back)).sum()
    };
    let word = codeword(&block.code, &sheet.message);
    let so_far = |level: u64| {
        let first = level as usize * block.code.outputs as usize;
        let pairs = word.iter().zip(block.symbols).take(first);
        pairs
            .filter(|(&bit, &symbol)| (bit == 1) != (symbol < 0))
            .map(|(_, symbol)| u64::from(symbol.unsigned_abs()))
            .sum::<u64>()
    };
    let a = listed(0, 0) == Some(0);
    let b = branches.iter().all(|&(level, _, through, next)| {
        through > sheet.metric || listed(level + 1, next).is_some_and(|cost| cost <= through)
    });
    let c = (0..=end).all(|level| listed(level, state(level)) == Some(so_far(level)))
        && so_far(end) == sheet.metric;
    let d = branches.iter().all(|&(level, from, through, next)| {
        next != state(level + 1) || from == state(level) || through > so_far(level + 1)
    });
    a && b && c && d
}

pub fn small(random: &mut Random, tally: &mut Tally) {
    let code = if random.one_in(4) { house(random.below(4) as usize) } else { random_code(random, 7) };
    let length = random.within(1, 9) as usize;
    let message = random_message(random, length);
    let symbols = any_symbols(random, &code, &message);
    let block = Block { code, length, symbols: &symbols };
    let known = searched(random, &block, tally);
    let least = least(&block);
    assert_eq!((known.metric, known.sharing), (least.metric, least.sharing), "{code:?} {symbols:?}");
    let sole = least.sharing == 1;
    if sole {
        assert_eq!(known.message, least.message, "{code:?} {symbols:?}");
    }
    let honest = Sheet::honest(&block, &known);
    let checked = |bytes: &[u8]| {
        let mut written = vec![9; length];
        let answer = check(&code, length, &symbols, bytes, &mut written);
        if let Some(sheet) = Sheet::read(&code, length, bytes) {
            let number = if carries_again(&block, &sheet) { 0 } else { 7 };
            assert_eq!(answer.number, number, "{code:?} {symbols:?} {bytes:?}");
        }
        if answer.number == 0 {
            // An accepted sheet's message is the only least one, however the sheet came about.
            assert!(sole && written == least.message, "{code:?} {symbols:?} {bytes:?}");
            assert_eq!(u64::from(answer.metric), least.metric);
        } else {
            assert!(written.iter().all(|&byte| byte == 9));
        }
        answer.number
    };
    if honest.entries.len() <= 4096 {
        let expected = if sole { 0 } else { 7 };
        assert_eq!(checked(&honest.bytes()), expected, "{code:?} {symbols:?}");
        tally.honest += u64::from(sole);
    }
    for _ in 0..8 {
        let bytes = damaged(random, &block, &honest);
        tally.damaged += 1;
        tally.accepted += u64::from(checked(&bytes) == 0);
    }
}

/// No brute force here: long blocks, and memories that only short blocks leave to the letter of the paper.
pub fn large(random: &mut Random, tally: &mut Tally) {
    let (code, length): (Code, u64) = match random.below(4) {
        0 => (house(random.below(3) as usize), random.within(100, 200)),
        1 => (random_code(random, 8), random.within(20, 200)),
        2 => (house(3), random.within(1, 13)),
        _ => (random_code(random, 16), random.within(1, 13)),
    };
    let message = random_message(random, length as usize);
    let symbols = match random.below(3) {
        0 => disturbed(random, &codeword(&code, &message), 40, 16),
        _ => any_symbols(random, &code, &message),
    };
    let block = Block { code, length: message.len(), symbols: &symbols };
    let known = searched(random, &block, tally);
    if known.sharing == 1 && known.listed.len() <= 4096 {
        let mut written = vec![9; message.len()];
        let bytes = Sheet::honest(&block, &known).bytes();
        assert_eq!(check(&code, message.len(), &symbols, &bytes, &mut written).number, 0);
        assert_eq!(written, known.message);
        tally.honest += 1;
    }
}

/// Cases as the search answers them, by the letter too; but for those with more reachable nodes than the letter has time for.
pub fn by_the_letter(cases: &[Case], most_nodes: u64) -> u64 {
    let nodes =
        |code: &Code, length: u64| (length + u64::from(code.memory)) << u64::from(code.memory).min(length);
    let mut tried = 0;
    for case in cases {
        if let Case::Decode { asked, .. } | Case::DecodeSheet { asked, .. } = case {
            let good = asked.code.lawful() && asked.length <= 200;
            if !good || nodes(&asked.code, u64::from(asked.length)) <= most_nodes {
                assert_eq!(case.outcome(literal), case.outcome(ordered), "{}", case.pasted());
                tried += 1;
            }
        }
    }
    tried
}

#[cfg(test)]
mod tests {
    use super::*;

    #[test]
    fn two_thousand_small_blocks_and_some_large() {
        let mut tally = Tally::default();
        for round in 0..2000 {
            small(&mut Random::new(round), &mut tally);
        }
        for round in 0..20 {
            large(&mut Random::new(round), &mut tally);
        }
        // Each verdict and each fate of a sheet has come up often.
        assert!([0, 3, 4, 5].iter().all(|&number| tally.verdicts[number] > 100));
        assert!(tally.honest > 1000 && tally.accepted > 1000 && tally.damaged - tally.accepted > 1000);
    }
}
