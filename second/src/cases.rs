//! A case: one call of one operation, with all that goes in. It can be written as a record of a stream (FORMAT.md), read back,
//! and answered by the second program.
use crate::code::{encode, Answer, Code};
use crate::decode::{decode, Asked, Search};
use crate::front::{front, FrontEnd};
use crate::sheet::{check, decode_sheet};

/// Where a field has the name of an output buffer it is that buffer's length.
#[derive(Clone, Debug, PartialEq, Eq)]
pub enum Case {
    Encode { code: Code, message: Vec<u8>, out: u32 },
    Decode { asked: Question, message: u32 },
    DecodeSheet { asked: Question, message: u32, sheet: u32 },
    Check { code: Code, length: u32, symbols: Vec<i8>, sheet: Vec<u8>, message: u32 },
    Front { front_end: Wire, readings: Vec<u32>, symbols: u32 },
}

#[derive(Clone, Debug, PartialEq, Eq)]
pub struct Question {
    pub code: Code,
    pub length: u32,
    pub symbols: Vec<i8>,
    pub room: u32,
    pub allowance: u32,
    pub words: u32,
}

/// A front end as a caller's numbers: floats by their bits, so that every NaN is itself.
#[derive(Clone, Copy, Debug, PartialEq, Eq)]
pub struct Wire {
    pub form: u32,
    pub offset: u32,
    pub gain: u32,
    pub threshold: u32,
}

/// What came of a case: the numbers in the order of an answer line, and every output buffer, whole.
#[derive(Clone, Debug, PartialEq, Eq)]
pub struct Outcome {
    pub numbers: Vec<u32>,
    pub buffers: Vec<Vec<u8>>,
}

/// What output buffers hold before a call, so that untouched bytes can be told.
pub const FILL: u8 = 0xA5;

impl Question {
    fn asked(&self) -> Asked<'_> {
        Asked {
            code: self.code,
            length: self.length as usize,
            symbols: &self.symbols,
            room: self.room as usize,
            allowance: self.allowance,
            words: self.words as usize,
        }
    }
}

impl Wire {
    /// A form that is none of the three is a bad front end like any other.
    fn front_end(&self) -> FrontEnd {
        let [offset, gain, threshold] = [self.offset, self.gain, self.threshold].map(f32::from_bits);
        match self.form {
            0 => FrontEnd::Gain(gain),
            1 => FrontEnd::Offset(offset, gain),
            2 => FrontEnd::Threshold(threshold),
            _ => FrontEnd::Gain(f32::NAN),
        }
    }
}

pub fn filled(length: u32) -> Vec<u8> {
    vec![FILL; length as usize]
}

fn signed(bytes: &[u8]) -> Vec<i8> {
    bytes.iter().map(|&byte| byte as i8).collect()
}

fn unsigned(symbols: &[i8]) -> Vec<u8> {
    symbols.iter().map(|&symbol| symbol as u8).collect()
}

pub fn numbers(answer: Answer) -> Vec<u32> {
    vec![answer.number, answer.metric, answer.steps, answer.length]
}

/// Start with 1; for each byte multiply by 31 and add it, in 32 bits.
pub fn checksum(bytes: &[u8]) -> u32 {
    bytes.iter().fold(1, |sum: u32, &byte| sum.wrapping_mul(31).wrapping_add(u32::from(byte)))
}

impl Case {
    pub fn kind(&self) -> u32 {
        match self {
            Case::Encode { .. } => 1,
            Case::Decode { .. } => 2,
            Case::DecodeSheet { .. } => 3,
            Case::Check { .. } => 4,
            Case::Front { .. } => 5,
        }
    }

    pub fn outcome(&self, search: Search) -> Outcome {
        match self {
            Case::Encode { code, message, out } => {
                let mut out = filled(*out);
                Outcome { numbers: numbers(encode(code, message, &mut out)), buffers: vec![out] }
            }
            Case::Decode { asked, message } => {
                let mut message = filled(*message);
                let answer = decode(search, &asked.asked(), &mut message);
                Outcome { numbers: numbers(answer), buffers: vec![message] }
            }
            Case::DecodeSheet { asked, message, sheet } => {
                let (mut message, mut sheet) = (filled(*message), filled(*sheet));
                let answer = decode_sheet(search, &asked.asked(), &mut message, &mut sheet);
                Outcome { numbers: numbers(answer), buffers: vec![message, sheet] }
            }
            Case::Check { code, length, symbols, sheet, message } => {
                let mut message = filled(*message);
                let answer = check(code, *length as usize, symbols, sheet, &mut message);
                Outcome { numbers: numbers(answer), buffers: vec![message] }
            }
            Case::Front { front_end, readings, symbols } => {
                let readings: Vec<f32> = readings.iter().map(|&bits| f32::from_bits(bits)).collect();
                let mut symbols = signed(&filled(*symbols));
                let told = front(front_end.front_end(), &readings, &mut symbols);
                let numbers = vec![
                    told.number,
                    told.count as u32,
                    told.index as u32,
                    told.lowest.to_bits(),
                    told.highest.to_bits(),
                ];
                Outcome { numbers, buffers: vec![unsigned(&symbols)] }
            }
        }
    }

    pub fn answer_line(&self, search: Search) -> String {
        let outcome = self.outcome(search);
        let sums = outcome.buffers.iter().map(|buffer| checksum(buffer));
        let words: Vec<String> = [self.kind()]
            .into_iter()
            .chain(outcome.numbers)
            .chain(sums)
            .map(|number| number.to_string())
            .collect();
        words.join(" ")
    }

    /// The fields behind the kind, then the payload.
    fn parts(&self) -> ([u32; 14], Vec<u8>) {
        let with_code = |code: &Code, rest: [u32; 8]| {
            let [a, b, c, d] = code.generators;
            let [e, f, g, h, i, j, k, l] = rest;
            [code.outputs, code.memory, a, b, c, d, e, f, g, h, i, j, k, l]
        };
        let question = |asked: &Question, message: u32, sheet: u32| {
            let Question { length, room, allowance, words, .. } = *asked;
            let count = asked.symbols.len() as u32;
            let fields = with_code(&asked.code, [length, room, allowance, words, message, sheet, count, 0]);
            (fields, unsigned(&asked.symbols))
        };
        match self {
            Case::Encode { code, message, out } => {
                let count = message.len() as u32;
                (with_code(code, [count, 0, 0, 0, *out, 0, count, 0]), message.clone())
            }
            Case::Decode { asked, message } => question(asked, *message, 0),
            Case::DecodeSheet { asked, message, sheet } => question(asked, *message, *sheet),
            Case::Check { code, length, symbols, sheet, message } => {
                let counts = [symbols.len() as u32, sheet.len() as u32];
                let fields = with_code(code, [*length, 0, 0, 0, *message, 0, counts[0], counts[1]]);
                (fields, [unsigned(symbols), sheet.clone()].concat())
            }
            Case::Front { front_end, readings, symbols } => {
                let Wire { form, offset, gain, threshold } = *front_end;
                let count = readings.len() as u32;
                let fields = [form, offset, gain, threshold, 0, 0, 0, 0, 0, 0, *symbols, 0, count, 0];
                (fields, readings.iter().flat_map(|bits| bits.to_le_bytes()).collect())
            }
        }
    }

    pub fn record(&self) -> Vec<u8> {
        let (fields, payload) = self.parts();
        let mut body: Vec<u8> = self.kind().to_le_bytes().to_vec();
        body.extend(fields.iter().flat_map(|field| field.to_le_bytes()));
        body.extend(payload);
        [(body.len() as u32).to_le_bytes().to_vec(), body].concat()
    }

    /// The case of a whole record; nothing if its form is bad.
    pub fn read(record: &[u8]) -> Option<Case> {
        let (head, payload) = record.split_at_checked(64)?;
        let words: Vec<u32> =
            head.chunks(4).map(|word| u32::from_le_bytes(word.try_into().unwrap())).collect();
        let field = |offset: usize| words[offset / 4];
        let code = Code {
            outputs: field(8),
            memory: field(12),
            generators: [field(16), field(20), field(24), field(28)],
        };
        let question = || Question {
            code,
            length: field(32),
            symbols: signed(payload),
            room: field(36),
            allowance: field(40),
            words: field(44),
        };
        let message = field(48);
        let case = match field(4) {
            1 => Case::Encode { code, message: payload.to_vec(), out: field(48) },
            2 => Case::Decode { asked: question(), message },
            3 => Case::DecodeSheet { asked: question(), message, sheet: field(52) },
            4 => {
                let (symbols, sheet) = payload.split_at_checked(field(56) as usize)?;
                Case::Check {
                    code,
                    length: field(32),
                    symbols: signed(symbols),
                    sheet: sheet.to_vec(),
                    message,
                }
            }
            5 => Case::Front {
                front_end: Wire { form: field(8), offset: field(12), gain: field(16), threshold: field(20) },
                readings: payload
                    .chunks(4)
                    .map(|bits| bits.try_into().map(u32::from_le_bytes))
                    .collect::<Result<_, _>>()
                    .ok()?,
                symbols: field(48),
            },
            _ => return None,
        };
        // A size, a count or an idle field that does not fit: the case would have another record.
        (case.record() == record).then_some(case)
    }

    /// One line of hexadecimal digits, to be kept in the file `pasted`.
    pub fn pasted(&self) -> String {
        self.record().iter().map(|byte| format!("{byte:02x}")).collect()
    }

    pub fn unpasted(line: &str) -> Option<Case> {
        let pairs = line.as_bytes().chunks(2);
        let byte = |pair: &[u8]| u8::from_str_radix(std::str::from_utf8(pair).ok()?, 16).ok();
        Case::read(&pairs.map(byte).collect::<Option<Vec<u8>>>()?)
    }
}
