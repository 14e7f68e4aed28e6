//! The lines that the examples must print, worked out here by the paper's words: examples/announce.out, and what `announce` says of
//! examples/room7.block.
use second::code::{encode, house, Answer, Code};
use second::decode::{decode, literal, Asked};
use second::sheet::{check, decode_sheet};

const NAME: &str = "Room 7";
const BITS: usize = 8 * NAME.len();
const ROOM: usize = 2048;

fn letters(bits: &[u8]) -> String {
    bits.chunks(8).map(|byte| byte.iter().fold(0, |letter, bit| 2 * letter + bit) as char).collect()
}

fn octets(bits: &[u8]) -> String {
    let octet = |byte: &[u8]| byte.iter().map(|bit| bit.to_string()).collect::<String>();
    bits.chunks(8).map(octet).collect::<Vec<_>>().join(" ")
}

fn asked(code: Code, symbols: &[i8]) -> Asked<'_> {
    Asked { code, length: BITS, symbols, room: ROOM, allowance: u32::MAX, words: 3 * ROOM }
}

/// The symbols whose sign is not that of the bit that was sent.
fn wrong(symbols: &[i8], sent: &[u8]) -> usize {
    symbols.iter().zip(sent).filter(|(symbol, bit)| u8::from(**symbol < 0) != **bit).count()
}

fn sent(code: Code) -> Vec<u8> {
    let bits: Vec<u8> = NAME.bytes().flat_map(|letter| (0..8).rev().map(move |i| letter >> i & 1)).collect();
    let mut block = vec![9; code.block(BITS)];
    let answer = encode(&code, &bits, &mut block);
    assert_eq!((answer.number, answer.length as usize), (0, block.len()));
    block
}

#[test]
fn announced_with_a_sheet() {
    let code = house(1);
    let block = sent(code);
    let mut seed = 7u32;
    let symbols: Vec<i8> = block
        .iter()
        .map(|bit| {
            seed = seed.wrapping_mul(1664525).wrapping_add(1013904223);
            let noise = (seed >> 16) as i32 % 65 - 32;
            (24 - 48 * i32::from(*bit) + noise) as i8
        })
        .collect();
    let (mut heard, mut sheet) = (vec![9; BITS], vec![9; 32_807]);
    let told = decode_sheet(literal, &asked(code, &symbols), &mut heard, &mut sheet);
    assert_eq!((told.number, letters(&heard).as_str()), (0, NAME));
    sheet.truncate(told.length as usize);
    let mut again = vec![9; BITS];
    let accepted = check(&code, BITS, &symbols, &sheet, &mut again);
    assert_eq!((accepted, &again), (Answer { metric: told.metric, ..Answer::default() }, &heard));
    sheet[8] ^= 1;
    let damaged = check(&code, BITS, &symbols, &sheet, &mut again).number;
    sheet.pop();
    let cut = check(&code, BITS, &symbols, &sheet, &mut again).number;

    let Answer { metric, steps, length, .. } = told;
    let lines = [
        format!("sent     {NAME}: {BITS} bits as {} symbols", block.len()),
        format!("arrived  {} symbols on the wrong side of zero", wrong(&symbols, &block)),
        format!("decoded  0: done, {NAME}, metric {metric}, {steps} steps, a sheet of {length} bytes"),
        format!("checked  0: done, {NAME}, metric {metric}"),
        format!("damaged  {damaged}: the sheet does not carry its claim"),
        format!("cut      {cut}: malformed"),
    ];
    let expected = include_str!("../../examples/announce.out");
    assert_eq!(lines.join("\n"), expected.trim_end());
}

#[test]
fn room_7() {
    let block = include_bytes!("../../examples/room7.block");
    let code = house(block[0] as usize);
    assert_eq!(u16::from_le_bytes([block[1], block[2]]) as usize, BITS);
    let symbols: Vec<i8> = block[3..].iter().map(|&byte| byte as i8).collect();
    assert_eq!(wrong(&symbols, &sent(code)), 9);
    let mut heard = vec![9; BITS];
    let Answer { number, metric, steps, .. } = decode(literal, &asked(code, &symbols), &mut heard);
    assert_eq!(number, 0);
    let [one, two, ..] = code.generators;
    let lines = [
        format!("code {one}, {two} of memory {}; {BITS} bits in {} symbols", code.memory, symbols.len()),
        format!("message {}", octets(&heard)),
        format!("as text {}", letters(&heard)),
        format!("metric {metric}, and no other message has as little; {steps} nodes expanded"),
    ];
    let expected = include_str!("../../crates/announce/stdout");
    assert_eq!(lines.join("\n"), expected.trim_end());
}
