//! Every message encoded and weighed: what the search is held to where L is small.
use crate::code::codeword;
use crate::trellis::{hard_bit, weight, Block};

#[derive(Debug, PartialEq, Eq)]
pub struct Least {
    pub metric: u64,
    pub sharing: u64,
    /// The first of those that share the metric.
    pub message: Vec<u8>,
}

pub fn metric(block: &Block, message: &[u8]) -> u64 {
    let word = codeword(&block.code, message);
    word.iter()
        .zip(block.symbols)
        .map(|(&bit, &symbol)| if bit != hard_bit(symbol) { weight(symbol) } else { 0 })
        .sum()
}

pub fn least(block: &Block) -> Least {
    let mut least = Least { metric: u64::MAX, sharing: 0, message: Vec::new() };
    for number in 0..1u64 << block.length {
        let message: Vec<u8> = (0..block.length).map(|place| (number >> place & 1) as u8).collect();
        let metric = metric(block, &message);
        if metric < least.metric {
            least = Least { metric, sharing: 1, message };
        } else if metric == least.metric {
            least.sharing += 1;
        }
    }
    least
}
