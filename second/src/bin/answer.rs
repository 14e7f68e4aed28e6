//! The second program's answers to a stream of cases: `answer <STREAM`. FORMAT.md says how both are written.
use second::cases::Case;
use second::decode::ordered;
use std::io::{stdin, stdout, BufWriter, Read, Write};

/// The first record and what follows it.
fn record(stream: &[u8]) -> Option<(Case, &[u8])> {
    let size = u32::from_le_bytes(*stream.first_chunk::<4>()?) as usize;
    let (record, rest) = stream.split_at_checked(size.checked_add(4)?)?;
    Some((Case::read(record)?, rest))
}

fn main() -> std::io::Result<()> {
    let mut stream = Vec::new();
    stdin().read_to_end(&mut stream)?;
    let mut rest = &stream[..];
    let mut out = BufWriter::new(stdout());
    while !rest.is_empty() {
        let Some((case, behind)) = record(rest) else {
            eprintln!("no record at byte {}", stream.len() - rest.len());
            out.flush()?;
            std::process::exit(1);
        };
        writeln!(out, "{}", case.answer_line(ordered))?;
        rest = behind;
    }
    out.flush()
}
