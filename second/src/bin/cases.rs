//! Writes a set of cases and the second program's answers, each decided by the seed alone. FORMAT.md says how they are written.
//!
//! `cases SEED STREAM ANSWERS`
use second::decode::ordered;
use second::stored::stored;
use std::fs::write;

fn main() -> std::io::Result<()> {
    let arguments: Vec<String> = std::env::args().skip(1).collect();
    let [seed, stream, answers] = &arguments[..] else {
        eprintln!("cases SEED STREAM ANSWERS");
        std::process::exit(2);
    };
    let cases = stored(seed.parse().expect("a seed is a whole number"));
    let records: Vec<Vec<u8>> = cases.iter().map(|case| case.record()).collect();
    let lines: Vec<String> = cases.iter().map(|case| case.answer_line(ordered)).collect();
    let mut counts = [[0; 10]; 6];
    for case in &cases {
        counts[case.kind() as usize][case.outcome(ordered).numbers[0] as usize] += 1;
    }
    println!("{:>10}{}", "number", (0..10).map(|number| format!("{number:>6}")).collect::<String>());
    for (name, row) in ["", "encode", "decode", "sheet", "check", "front"].iter().zip(counts).skip(1) {
        println!("{name:>10}{}", row.map(|count| format!("{count:>6}")).concat());
    }
    for number in 0..10 {
        assert!(counts.iter().map(|row| row[number]).sum::<u32>() >= 20, "number {number} is too rare");
    }
    let longest = records.iter().map(Vec::len).max().unwrap_or(0);
    assert!(longest < 32_768, "a record of {longest} bytes");
    let bytes = records.concat();
    println!("{} cases, {} bytes, the longest record {longest}", cases.len(), bytes.len());
    write(stream, bytes)?;
    write(answers, lines.join("\n") + "\n")
}
