//! "The code table": which codes are taken, the four house codes, and the encoder.

#[derive(Clone, Copy, Debug, PartialEq, Eq)]
pub struct Code {
    pub outputs: u32,
    pub memory: u32,
    /// As many as there are outputs; those behind are not looked at.
    pub generators: [u32; 4],
}

/// The paper's number and values. Values not named in its table are 0.
#[derive(Clone, Copy, Debug, Default, PartialEq, Eq)]
pub struct Answer {
    pub number: u32,
    pub metric: u32,
    pub steps: u32,
    pub length: u32,
}

/// A refusal that hands back zeros.
pub fn refused(number: u32) -> Answer {
    Answer { number, ..Answer::default() }
}

const HOUSE: [Code; 4] = [
    Code { outputs: 2, memory: 2, generators: [7, 5, 0, 0] },
    Code { outputs: 2, memory: 6, generators: [103, 93, 0, 0] },
    Code { outputs: 2, memory: 8, generators: [303, 493, 0, 0] },
    Code { outputs: 2, memory: 16, generators: [118_025, 78_583, 0, 0] },
];

/// A row that the table lacks gives a code that every operation refuses.
pub fn house(row: usize) -> Code {
    HOUSE.get(row).copied().unwrap_or(Code { outputs: 0, memory: 0, generators: [0; 4] })
}

impl Code {
    pub fn lawful(&self) -> bool {
        (2..=4).contains(&self.outputs)
            && (1..=16).contains(&self.memory)
            && self.generators[..self.outputs as usize]
                .iter()
                .all(|&generator| (1..1 << (self.memory + 1)).contains(&generator))
    }

    /// N, for a lawful code and a message length within its limits.
    pub fn block(&self, length: usize) -> usize {
        self.outputs as usize * (length + self.memory as usize)
    }

    pub fn register(&self, bit: u32, state: u32) -> u32 {
        (bit << self.memory) + state
    }

    pub fn output(&self, register: u32, which: usize) -> u8 {
        ((register & self.generators[which]).count_ones() % 2) as u8
    }
}

pub fn good_length(length: usize) -> bool {
    (1..=200).contains(&length)
}

/// The codeword of a message: what the encoder writes once nothing is refused.
pub fn codeword(code: &Code, message: &[u8]) -> Vec<u8> {
    let tail = vec![0; code.memory as usize];
    let mut state = 0;
    let mut word = Vec::new();
    for &bit in message.iter().chain(&tail) {
        let register = code.register(u32::from(bit), state);
        word.extend((0..code.outputs as usize).map(|which| code.output(register, which)));
        state = register / 2;
    }
    word
}

pub fn encode(code: &Code, message: &[u8], out: &mut [u8]) -> Answer {
    if !code.lawful() {
        return refused(1);
    }
    if !good_length(message.len()) || out.len() < code.block(message.len()) {
        return refused(2);
    }
    if message.iter().any(|&byte| byte > 1) {
        return refused(6);
    }
    let word = codeword(code, message);
    out[..word.len()].copy_from_slice(&word);
    Answer { length: word.len() as u32, ..Answer::default() }
}

#[cfg(test)]
mod tests {
    use super::*;

    fn encoded(message: &[u8]) -> Vec<u8> {
        codeword(&house(0), message)
    }

    #[test]
    fn cases_1_to_3() {
        assert_eq!(encoded(&[1]), [1, 1, 1, 0, 1, 1]);
        assert_eq!(encoded(&[0]), [0; 6]);
        let word = encoded(&[1, 1, 1, 0, 1]);
        let sequence = |which| word.iter().skip(which).step_by(2).copied().collect::<Vec<_>>();
        assert_eq!(sequence(0), [1, 0, 1, 0, 0, 1, 1]);
        assert_eq!(sequence(1), [1, 1, 0, 1, 0, 0, 1]);
    }

    #[test]
    fn padded_octal() {
        let quarter = |octal| u32::from_str_radix(octal, 8).unwrap() / 4;
        assert_eq!([quarter("634"), quarter("564")], house(1).generators[..2]);
        assert_eq!([quarter("1632044"), quarter("1145734")], house(3).generators[..2]);
        assert_eq!([0o457, 0o755], house(2).generators[..2]);
    }

    #[test]
    fn rules() {
        let code = |outputs, memory, generators| Code { outputs, memory, generators };
        assert!((0..4).all(|row| house(row).lawful()));
        assert!(!house(4).lawful());
        assert!(code(2, 1, [1, 3, 0, u32::MAX]).lawful());
        assert!(!code(2, 1, [1, 4, 0, 0]).lawful());
        assert!(!code(3, 1, [1, 3, 0, 0]).lawful());
        assert!(code(4, 16, [1 << 16, (1 << 17) - 1, 1, 2]).lawful());
        assert!(!code(4, 16, [1 << 17, 1, 1, 1]).lawful());
        // Case 16.
        assert!(code(2, 16, [1, 1, 0, 0]).lawful());
        assert!(!code(2, 17, [1, 1, 0, 0]).lawful());
        assert!(!code(1, 2, [7, 5, 0, 0]).lawful());
        assert!(!code(5, 2, [7, 5, 7, 5]).lawful());
        assert!(!code(2, 0, [1, 1, 0, 0]).lawful());
        assert!(!code(u32::MAX, u32::MAX, [1; 4]).lawful());
    }

    #[test]
    fn refusals_in_order_and_nothing_written() {
        let broken = Code { outputs: 9, ..house(0) };
        let mut out = [9; 500];
        assert_eq!(encode(&broken, &[], &mut out), refused(1));
        assert_eq!(encode(&house(0), &[], &mut out), refused(2));
        assert_eq!(encode(&house(0), &[2; 201], &mut out), refused(2));
        assert_eq!(encode(&house(0), &[2], &mut out[..5]), refused(2));
        assert_eq!(encode(&house(0), &[0, 2], &mut out), refused(6));
        assert!(out.iter().all(|&byte| byte == 9));
        assert_eq!(encode(&house(0), &[1; 200], &mut out), Answer { length: 404, ..Answer::default() });
        assert!(out[..404].iter().all(|&byte| byte < 2) && out[404..].iter().all(|&byte| byte == 9));
    }
}
