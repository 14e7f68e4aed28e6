//! The proved library for Rust, safe: slices in place of pointers and lengths. Take it in with `#[path = ".."] mod plumtassel;` and link
//! target/staticlib/libplumtassel.a (`rustc -L native=target/staticlib`). plumtassel.h explains every parameter, unit, limit and number.
//!
//! What the header asks of a caller Rust already keeps: slices are valid for their length and aligned, and what is lent as `&mut` is lent
//! once. Each answered call is `Ok`; a refusal is `Err`, with its number, and then every output buffer is as it was.
#![allow(dead_code)]

/// A code with one input bit; the first `outputs` generators count.
#[repr(C)]
#[derive(Clone, Copy, Debug, PartialEq, Eq)]
pub struct Code {
    pub outputs: u32,
    pub memory: u32,
    pub generators: [u32; 4],
}

/// What an operation hands back; what its number does not name is 0.
#[repr(C)]
#[derive(Clone, Copy, Debug, PartialEq, Eq)]
pub struct Answer {
    pub number: u32,
    pub metric: u32,
    pub steps: u32,
    pub length: u32,
}

/// What the front end hands back.
#[repr(C)]
#[derive(Clone, Copy, Debug, PartialEq)]
pub struct Report {
    pub number: u32,
    pub count: u32,
    pub index: u32,
    pub lowest: f32,
    pub highest: f32,
}

/// How readings become symbols.
#[derive(Clone, Copy, Debug, PartialEq)]
pub enum FrontEnd {
    Gain(f32),
    Offset { offset: f32, gain: f32 },
    Threshold(f32),
}

pub const WORDS_PER_NODE: usize = 3;

/// The functions as C declares them, for who has pointers and no slices: plumtassel.h says what is asked of a caller.
pub mod raw {
    use super::{Answer, Code, Report};

    #[repr(C)]
    pub struct FrontEnd {
        pub form: u32,
        pub offset: f32,
        pub gain: f32,
        pub threshold: f32,
    }

    #[link(name = "plumtassel", kind = "static")]
    extern "C" {
        pub fn plumtassel_house(row: usize) -> Code;
        pub fn plumtassel_encode(
            code: Code,
            message: *const u8,
            length: usize,
            out: *mut u8,
            out_length: usize,
        ) -> Answer;
        pub fn plumtassel_decode(
            code: Code,
            length: usize,
            symbols: *const i8,
            count: usize,
            room: usize,
            allowance: u32,
            work: *mut u64,
            words: usize,
            message: *mut u8,
            message_length: usize,
        ) -> Answer;
        pub fn plumtassel_decode_sheet(
            code: Code,
            length: usize,
            symbols: *const i8,
            count: usize,
            room: usize,
            allowance: u32,
            work: *mut u64,
            words: usize,
            message: *mut u8,
            message_length: usize,
            sheet: *mut u8,
            sheet_length: usize,
        ) -> Answer;
        pub fn plumtassel_check(
            code: Code,
            length: usize,
            symbols: *const i8,
            count: usize,
            sheet: *const u8,
            sheet_length: usize,
            message: *mut u8,
            message_length: usize,
        ) -> Answer;
        pub fn plumtassel_front(
            front_end: FrontEnd,
            readings: *const f32,
            count: usize,
            symbols: *mut i8,
            symbols_length: usize,
        ) -> Report;
    }
}

// As the header lays them out.
const _: () = assert!(std::mem::size_of::<Code>() == 24 && std::mem::size_of::<Answer>() == 16);
const _: () = assert!(std::mem::size_of::<raw::FrontEnd>() == 16 && std::mem::size_of::<Report>() == 20);

fn answered(answer: Answer) -> Result<Answer, Answer> {
    if answer.number == 0 {
        Ok(answer)
    } else {
        Err(answer)
    }
}

/// The house code of a row, 0 to 3; of any other row all zeros, which every operation refuses 1.
pub fn house(row: usize) -> Code {
    // SAFETY: numbers only.
    unsafe { raw::plumtassel_house(row) }
}

/// Encodes: `length` is N, the symbols written.
pub fn encode(code: Code, message: &[u8], out: &mut [u8]) -> Result<Answer, Answer> {
    // SAFETY: each pointer goes with its slice's length, and a `&mut` slice overlaps no other. So in every function below.
    answered(unsafe {
        raw::plumtassel_encode(code, message.as_ptr(), message.len(), out.as_mut_ptr(), out.len())
    })
}

/// Decodes: the message that alone has the least metric. `work` holds at least 3 words for each node of `room`.
pub fn decode(
    code: Code,
    length: usize,
    symbols: &[i8],
    room: usize,
    allowance: u32,
    work: &mut [u64],
    message: &mut [u8],
) -> Result<Answer, Answer> {
    answered(unsafe {
        raw::plumtassel_decode(
            code,
            length,
            symbols.as_ptr(),
            symbols.len(),
            room,
            allowance,
            work.as_mut_ptr(),
            work.len(),
            message.as_mut_ptr(),
            message.len(),
        )
    })
}

/// The same, and the decision sheet: `length` is its bytes, or with refusal 9 the size needed.
#[allow(clippy::too_many_arguments)]
pub fn decode_sheet(
    code: Code,
    length: usize,
    symbols: &[i8],
    room: usize,
    allowance: u32,
    work: &mut [u64],
    message: &mut [u8],
    sheet: &mut [u8],
) -> Result<Answer, Answer> {
    answered(unsafe {
        raw::plumtassel_decode_sheet(
            code,
            length,
            symbols.as_ptr(),
            symbols.len(),
            room,
            allowance,
            work.as_mut_ptr(),
            work.len(),
            message.as_mut_ptr(),
            message.len(),
            sheet.as_mut_ptr(),
            sheet.len(),
        )
    })
}

/// Checks a sheet against the block.
pub fn check(
    code: Code,
    length: usize,
    symbols: &[i8],
    sheet: &[u8],
    message: &mut [u8],
) -> Result<Answer, Answer> {
    answered(unsafe {
        raw::plumtassel_check(
            code,
            length,
            symbols.as_ptr(),
            symbols.len(),
            sheet.as_ptr(),
            sheet.len(),
            message.as_mut_ptr(),
            message.len(),
        )
    })
}

/// Turns readings into symbols.
pub fn front(front_end: FrontEnd, readings: &[f32], symbols: &mut [i8]) -> Result<Report, Report> {
    let none = raw::FrontEnd { form: 0, offset: 0.0, gain: 0.0, threshold: 0.0 };
    let front_end = match front_end {
        FrontEnd::Gain(gain) => raw::FrontEnd { form: 0, gain, ..none },
        FrontEnd::Offset { offset, gain } => raw::FrontEnd { form: 1, offset, gain, ..none },
        FrontEnd::Threshold(threshold) => raw::FrontEnd { form: 2, threshold, ..none },
    };
    let report = unsafe {
        raw::plumtassel_front(
            front_end,
            readings.as_ptr(),
            readings.len(),
            symbols.as_mut_ptr(),
            symbols.len(),
        )
    };
    if report.number == 0 {
        Ok(report)
    } else {
        Err(report)
    }
}
