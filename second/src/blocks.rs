//! Random codes, messages and disturbed blocks.
use crate::code::{codeword, house, Code};
use crate::random::Random;

pub fn random_code(random: &mut Random, largest_memory: u64) -> Code {
    let memory = random.within(1, largest_memory) as u32;
    let outputs = random.within(2, 4) as u32;
    let highest = (1 << (memory + 1)) - 1;
    let mut generators = [0; 4];
    for (place, generator) in generators.iter_mut().enumerate() {
        // Behind the last output anything may stand.
        let lawful = place < outputs as usize;
        *generator = if lawful { random.within(1, highest) as u32 } else { random.number() as u32 };
    }
    Code { outputs, memory, generators }
}

pub fn any_code(random: &mut Random) -> Code {
    if random.below(5) < 2 {
        house(random.below(4) as usize)
    } else {
        random_code(random, 16)
    }
}

pub fn any_length(random: &mut Random) -> usize {
    let length = match random.below(20) {
        0..12 => random.within(1, 12),
        12..17 => random.within(13, 60),
        17..19 => random.within(61, 199),
        _ => 200,
    };
    length as usize
}

pub fn random_message(random: &mut Random, length: usize) -> Vec<u8> {
    (0..length).map(|_| random.below(2) as u8).collect()
}

/// A symbol of the given strength for each bit, plus noise of nearly normal distribution: twelve equal draws between minus and
/// plus half the spread sum up to a standard deviation of about the spread.
pub fn disturbed(random: &mut Random, word: &[u8], strength: i64, spread: u64) -> Vec<i8> {
    let mut noisy = |bit: u8| {
        let noise: i64 =
            (0..12).map(|_| random.within(0, spread) as i64 * 2 - spread as i64).sum::<i64>() / 2;
        let sent = if bit == 1 { -strength } else { strength };
        (sent + noise).clamp(-128, 127) as i8
    };
    word.iter().map(|&bit| noisy(bit)).collect()
}

/// From a clean block to mere noise; small values and zeros make ties, extremes make the largest metrics.
pub fn any_symbols(random: &mut Random, code: &Code, message: &[u8]) -> Vec<i8> {
    let word = codeword(code, message);
    match random.below(12) {
        0 => disturbed(random, &word, 40, 0),
        1..=4 => disturbed(random, &word, 40, 16),
        5..=6 => disturbed(random, &word, 40, 32),
        7 => disturbed(random, &word, 40, 60),
        8 => disturbed(random, &word, 3, 3),
        9 => word.iter().map(|_| random.within(0, 4) as i8 - 2).collect(),
        10 => word.iter().map(|_| random.pick(&[-128, -128, 127, 127, -127, 0])).collect(),
        _ => word.iter().map(|_| random.number() as i8).collect(),
    }
}
