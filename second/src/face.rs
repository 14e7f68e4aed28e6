//! The proved code through its C face, with every buffer between pages that no one may touch.
use crate::cases::{numbers, Case, Outcome, Question, FILL};
use crate::code::{Answer, Code};
use crate::plumtassel::{self, raw, Report};
use std::ffi::c_void;
use std::ptr::null_mut;

extern "C" {
    fn mmap(at: *mut c_void, size: usize, may: i32, how: i32, file: i32, offset: i64) -> *mut c_void;
    fn mprotect(at: *mut c_void, size: usize, may: i32) -> i32;
}

const NOTHING: i32 = 0;
const READ_AND_WRITE: i32 = 3;
const PRIVATE_WITHOUT_FILE: i32 = 0x22;
const PAGE: usize = 4096;
/// What stands beside a buffer on the side where no forbidden page begins at once.
const SENTINEL: u8 = 0x5C;
const BESIDE: usize = 256;

/// Pages of memory between two that may be neither read nor written.
struct Guarded {
    start: *mut u8,
    size: usize,
}

/// A buffer laid at one end of them.
#[derive(Clone, Copy)]
struct Laid {
    at: usize,
    length: usize,
}

impl Guarded {
    fn new(capacity: usize) -> Guarded {
        let size = (capacity + BESIDE).next_multiple_of(PAGE);
        // Safe: fresh pages that nothing else knows of, the inner ones made usable before use.
        unsafe {
            let all = mmap(null_mut(), size + 2 * PAGE, NOTHING, PRIVATE_WITHOUT_FILE, -1, 0);
            assert!(all as isize != -1, "no memory for guarded pages");
            let start = all.cast::<u8>().add(PAGE);
            assert!(mprotect(start.cast(), size, READ_AND_WRITE) == 0, "guarded pages stay shut");
            Guarded { start, size }
        }
    }

    fn bytes(&mut self) -> &mut [u8] {
        // Safe: the inner pages are this value's alone, and usable.
        unsafe { std::slice::from_raw_parts_mut(self.start, self.size) }
    }

    /// A place for a buffer, right before the later forbidden page or right behind the earlier one, with sentinels beside it.
    fn place(&mut self, length: usize, late: bool) -> Laid {
        assert!(length + BESIDE <= self.size, "a buffer of {length} bytes has no place");
        let at = if late { self.size - length } else { 0 };
        let beside = if late { at - BESIDE } else { at + length };
        self.bytes()[beside..beside + BESIDE].fill(SENTINEL);
        Laid { at, length }
    }

    fn input(&mut self, contents: &[u8], late: bool) -> Laid {
        let laid = self.place(contents.len(), late);
        self.bytes()[laid.at..laid.at + laid.length].copy_from_slice(contents);
        laid
    }

    fn output(&mut self, length: u32, late: bool) -> Laid {
        let laid = self.place(length as usize, late);
        self.bytes()[laid.at..laid.at + laid.length].fill(FILL);
        laid
    }

    /// An empty buffer may have no address at all.
    fn address<T>(&self, laid: Laid) -> *mut T {
        if laid.length == 0 && laid.at == 0 {
            return null_mut();
        }
        // Safe: the place lies within the inner pages or at their end.
        unsafe { self.start.add(laid.at).cast() }
    }

    fn contents(&mut self, laid: Laid) -> &[u8] {
        &self.bytes()[laid.at..laid.at + laid.length]
    }

    fn surroundings_untouched(&mut self, laid: Laid) -> bool {
        let beside = if laid.at > 0 { laid.at - BESIDE } else { laid.length };
        self.bytes()[beside..beside + BESIDE].iter().all(|&byte| byte == SENTINEL)
    }
}

pub struct Face {
    message: Guarded,
    symbols: Guarded,
    work: Guarded,
    sheet: Guarded,
    readings: Guarded,
}

fn face_code(code: &Code) -> plumtassel::Code {
    plumtassel::Code { outputs: code.outputs, memory: code.memory, generators: code.generators }
}

fn answer(told: plumtassel::Answer) -> Answer {
    Answer { number: told.number, metric: told.metric, steps: told.steps, length: told.length }
}

/// What is told, answered or refused.
fn told(result: Result<plumtassel::Answer, plumtassel::Answer>) -> Answer {
    answer(result.unwrap_or_else(|refusal| refusal))
}

pub fn house(row: usize) -> Code {
    let plumtassel::Code { outputs, memory, generators } = plumtassel::house(row);
    Code { outputs, memory, generators }
}

/// For the bench: ordinary slices, no guards.
pub fn decode(asked: &Question, work: &mut [u64], message: &mut [u8], sheet: Option<&mut [u8]>) -> Answer {
    let Question { code, length, symbols, room, allowance, .. } = asked;
    let (code, length, room) = (face_code(code), *length as usize, *room as usize);
    told(match sheet {
        None => plumtassel::decode(code, length, symbols, room, *allowance, work, message),
        Some(sheet) => {
            plumtassel::decode_sheet(code, length, symbols, room, *allowance, work, message, sheet)
        }
    })
}

/// For the bench, as above.
pub fn check(code: &Code, length: usize, symbols: &[i8], sheet: &[u8], message: &mut [u8]) -> Answer {
    told(plumtassel::check(face_code(code), length, symbols, sheet, message))
}

fn unsigned(symbols: &[i8]) -> Vec<u8> {
    symbols.iter().map(|&symbol| symbol as u8).collect()
}

impl Face {
    /// Room for the largest case that is drawn.
    pub fn new() -> Face {
        Face {
            message: Guarded::new(1 << 12),
            symbols: Guarded::new(1 << 12),
            work: Guarded::new(8 * 12_544),
            sheet: Guarded::new(1 << 16),
            readings: Guarded::new(1 << 12),
        }
    }

    /// What the proved code makes of a case, its buffers right before the later forbidden pages or right behind the earlier
    /// ones. Working memory keeps what the last call left in it: no answer may depend on that.
    pub fn outcome(&mut self, case: &Case, late: bool) -> Result<Outcome, String> {
        match case {
            Case::Encode { code, message, out } => {
                let given = self.message.input(message, late);
                let written = self.symbols.output(*out, late);
                // Safe: every pointer goes with the length of its buffer. So below.
                let told = unsafe {
                    raw::plumtassel_encode(
                        face_code(code),
                        self.message.address(given),
                        given.length,
                        self.symbols.address(written),
                        written.length,
                    )
                };
                kept("message", &mut self.message, given, message)?;
                let out = after("output", &mut self.symbols, written)?;
                Ok(Outcome { numbers: numbers(answer(told)), buffers: vec![out] })
            }
            Case::Decode { asked, message } => self.decoded(asked, *message, None, late),
            Case::DecodeSheet { asked, message, sheet } => self.decoded(asked, *message, Some(*sheet), late),
            Case::Check { code, length, symbols, sheet, message } => {
                let symbols = unsigned(symbols);
                let received = self.symbols.input(&symbols, late);
                let claim = self.sheet.input(sheet, late);
                let written = self.message.output(*message, late);
                let told = unsafe {
                    raw::plumtassel_check(
                        face_code(code),
                        *length as usize,
                        self.symbols.address(received),
                        received.length,
                        self.sheet.address(claim),
                        claim.length,
                        self.message.address(written),
                        written.length,
                    )
                };
                kept("symbols", &mut self.symbols, received, &symbols)?;
                kept("sheet", &mut self.sheet, claim, sheet)?;
                let message = after("message", &mut self.message, written)?;
                Ok(Outcome { numbers: numbers(answer(told)), buffers: vec![message] })
            }
            Case::Front { front_end, readings, symbols } => {
                let readings: Vec<u8> = readings.iter().flat_map(|bits| bits.to_ne_bytes()).collect();
                let given = self.readings.input(&readings, late);
                let written = self.symbols.output(*symbols, late);
                let front = raw::FrontEnd {
                    form: front_end.form,
                    offset: f32::from_bits(front_end.offset),
                    gain: f32::from_bits(front_end.gain),
                    threshold: f32::from_bits(front_end.threshold),
                };
                let told = unsafe {
                    raw::plumtassel_front(
                        front,
                        self.readings.address(given),
                        given.length / 4,
                        self.symbols.address(written),
                        written.length,
                    )
                };
                kept("readings", &mut self.readings, given, &readings)?;
                let symbols = after("symbols", &mut self.symbols, written)?;
                let Report { number, count, index, lowest, highest } = told;
                let numbers = vec![number, count, index, lowest.to_bits(), highest.to_bits()];
                Ok(Outcome { numbers, buffers: vec![symbols] })
            }
        }
    }

    fn decoded(
        &mut self,
        asked: &Question,
        message: u32,
        sheet: Option<u32>,
        late: bool,
    ) -> Result<Outcome, String> {
        let symbols = unsigned(&asked.symbols);
        let received = self.symbols.input(&symbols, late);
        let work = self.work.place(8 * asked.words as usize, late);
        let written = self.message.output(message, late);
        let claim = self.sheet.output(sheet.unwrap_or(0), late);
        let code = face_code(&asked.code);
        let (length, room) = (asked.length as usize, asked.room as usize);
        let told = unsafe {
            match sheet {
                None => raw::plumtassel_decode(
                    code,
                    length,
                    self.symbols.address(received),
                    received.length,
                    room,
                    asked.allowance,
                    self.work.address(work),
                    asked.words as usize,
                    self.message.address(written),
                    written.length,
                ),
                Some(_) => raw::plumtassel_decode_sheet(
                    code,
                    length,
                    self.symbols.address(received),
                    received.length,
                    room,
                    asked.allowance,
                    self.work.address(work),
                    asked.words as usize,
                    self.message.address(written),
                    written.length,
                    self.sheet.address(claim),
                    claim.length,
                ),
            }
        };
        kept("symbols", &mut self.symbols, received, &symbols)?;
        if !self.work.surroundings_untouched(work) {
            return Err("a byte beside a buffer was changed: working memory".to_string());
        }
        let mut buffers = vec![after("message", &mut self.message, written)?];
        if sheet.is_some() {
            buffers.push(after("sheet", &mut self.sheet, claim)?);
        }
        Ok(Outcome { numbers: numbers(answer(told)), buffers })
    }
}

impl Default for Face {
    fn default() -> Face {
        Face::new()
    }
}

/// An input is as it was.
fn kept(name: &str, guarded: &mut Guarded, laid: Laid, contents: &[u8]) -> Result<(), String> {
    if guarded.contents(laid) != contents {
        return Err(format!("an input was changed: {name}"));
    }
    after(name, guarded, laid).map(drop)
}

/// What an output holds now.
fn after(name: &str, guarded: &mut Guarded, laid: Laid) -> Result<Vec<u8>, String> {
    if !guarded.surroundings_untouched(laid) {
        return Err(format!("a byte beside a buffer was changed: {name}"));
    }
    Ok(guarded.contents(laid).to_vec())
}
