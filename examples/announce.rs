//! The example of announce.c once more, in Rust over the safe face; it prints the same lines.
#[path = "../include/plumtassel.rs"]
mod plumtassel;

use plumtassel::{check, decode_sheet, encode, house, Answer, WORDS_PER_NODE};

const NAME: &str = "Room 7";
const BITS: usize = 8 * NAME.len();
const ROOM: usize = 2048;

fn meaning(answer: Answer) -> String {
    let meanings = [
        "done",
        "code outside the rules",
        "a length not as stated",
        "no room",
        "allowance spent",
        "tied",
        "malformed",
        "the sheet does not carry its claim",
        "a reading is not finite",
        "sheet buffer too small",
    ];
    format!("{}: {}", answer.number, meanings[answer.number as usize])
}

/// Bits of letters, highest first, and back.
fn spread(name: &str) -> Vec<u8> {
    (0..BITS).map(|i| name.as_bytes()[i / 8] >> (7 - i % 8) & 1).collect()
}

fn gather(bits: &[u8]) -> String {
    bits.chunks(8).map(|byte| byte.iter().fold(0, |letter, bit| 2 * letter + bit) as char).collect()
}

/// A bit goes out as 24 or -24, and comes in with noise of up to 32 either way.
fn received(bit: u8, seed: &mut u32) -> i8 {
    *seed = seed.wrapping_mul(1664525).wrapping_add(1013904223);
    let noise = (*seed >> 16) as i32 % 65 - 32;
    (if bit == 1 { -24 } else { 24 } + noise) as i8
}

/// A refusal ends the example with its number.
fn run() -> Result<(), Answer> {
    let code = house(1);
    let mut block = vec![0; 864];
    let count = encode(code, &spread(NAME), &mut block)?.length as usize;
    let mut seed = 7;
    let symbols: Vec<i8> = block[..count].iter().map(|&bit| received(bit, &mut seed)).collect();
    let wrong = symbols.iter().zip(&block).filter(|(symbol, bit)| (**symbol < 0) != (**bit == 1)).count();
    println!("sent     {NAME}: {BITS} bits as {count} symbols");
    println!("arrived  {wrong} symbols on the wrong side of zero");

    let (mut work, mut heard, mut sheet) = (vec![0; WORDS_PER_NODE * ROOM], vec![0; BITS], vec![0; 32807]);
    let answer = decode_sheet(code, BITS, &symbols, ROOM, u32::MAX, &mut work, &mut heard, &mut sheet)?;
    let Answer { metric, steps, length, .. } = answer;
    println!(
        "decoded  {}, {}, metric {metric}, {steps} steps, a sheet of {length} bytes",
        meaning(answer),
        gather(&heard)
    );
    sheet.truncate(length as usize);

    heard.fill(0);
    let answer = check(code, BITS, &symbols, &sheet, &mut heard)?;
    println!("checked  {}, {}, metric {}", meaning(answer), gather(&heard), answer.metric);
    sheet[8] ^= 1; // the metric's lowest bit
    if let Err(answer) = check(code, BITS, &symbols, &sheet, &mut heard) {
        println!("damaged  {}", meaning(answer));
    }
    sheet.pop();
    if let Err(answer) = check(code, BITS, &symbols, &sheet, &mut heard) {
        println!("cut      {}", meaning(answer));
    }
    Ok(())
}

fn main() {
    if let Err(answer) = run() {
        println!("refused  {}", meaning(answer));
    }
}
