//! Holds the second program to itself, at length, before it judges anything.
//!
//! `agree [SEED [ROUNDS]]`
use second::agree::{by_the_letter, large, small, Tally};
use second::random::Random;
use second::stored::stored;
use std::time::Instant;

fn main() {
    let mut arguments = std::env::args().skip(1).map(|word| word.parse().expect("a whole number"));
    let seed = arguments.next().unwrap_or(1);
    let rounds: u64 = arguments.next().unwrap_or(20_000);
    let begin = Instant::now();
    println!("seed {seed}");
    let mut tally = Tally::default();
    for round in 0..rounds {
        let mut random = Random::new(seed << 32 | round);
        small(&mut random, &mut tally);
        if round % 100 == 0 {
            large(&mut random, &mut tally);
        }
    }
    let Tally { blocks, verdicts, honest, damaged, accepted } = tally;
    println!("{blocks} blocks, each by the letter, by the search and, the short ones, message by message");
    println!(
        "verdicts with and without limits: {} answered, {} room, {} allowance, {} tied",
        verdicts[0], verdicts[3], verdicts[4], verdicts[5]
    );
    println!(
        "{honest} honest sheets, all accepted; {damaged} damaged ones, {accepted} accepted, each rightly"
    );
    let tried = by_the_letter(&stored(1), 2_000_000);
    println!("{tried} decodes of the stored set answered by the letter too");
    println!("{:.1} s", begin.elapsed().as_secs_f64());
}
