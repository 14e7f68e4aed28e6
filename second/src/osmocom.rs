//! libosmocore's plain Viterbi decoder, if this machine has it: looked for while the bench runs, so that nothing needs it to
//! build.
use crate::code::Code;
use std::ffi::{c_char, c_int, c_void, CString};
use std::ptr::null;

/// `struct osmo_conv_code` of osmocom/core/conv.h. Its states have the newest bit lowest.
#[repr(C)]
struct ConvCode {
    outputs: c_int,
    constraint: c_int,
    length: c_int,
    termination: c_int,
    next_output: *const [u8; 2],
    next_state: *const [u8; 2],
    next_term_output: *const u8,
    next_term_state: *const u8,
    puncture: *const c_int,
}

type Decode = unsafe extern "C" fn(*const ConvCode, *const i8, *mut u8) -> c_int;

extern "C" {
    fn dlopen(name: *const c_char, how: c_int) -> *mut c_void;
    fn dlsym(library: *mut c_void, name: *const c_char) -> *mut c_void;
}

const NOW: c_int = 2;
/// Zeros follow the message until the register is empty.
const FLUSH: c_int = 0;

#[derive(Clone, Copy)]
pub struct Library(Decode);

impl Library {
    pub fn found() -> Option<Library> {
        let versions = (10..40).map(|version| format!("libosmocore.so.{version}"));
        ["libosmocore.so".to_string()].into_iter().chain(versions).find_map(|name| {
            let (name, function) = (CString::new(name).ok()?, CString::new("osmo_conv_decode").ok()?);
            // Safe: both names end with a zero byte, and the function has the type that the library's header gives it.
            unsafe {
                let library = dlopen(name.as_ptr(), NOW);
                let place = if library.is_null() { library } else { dlsym(library, function.as_ptr()) };
                (!place.is_null()).then(|| Library(std::mem::transmute::<*mut c_void, Decode>(place)))
            }
        })
    }
}

/// The tables of one code, for messages of one length. The library takes codes of memory up to 8.
pub struct Viterbi {
    library: Library,
    code: Code,
    length: usize,
    next_output: Vec<[u8; 2]>,
    next_state: Vec<[u8; 2]>,
    last_output: Vec<u8>,
    last_state: Vec<u8>,
}

impl Viterbi {
    pub fn new(library: Library, code: Code, length: usize) -> Option<Viterbi> {
        if code.memory > 8 {
            return None;
        }
        let states = 1u32 << code.memory;
        // The library counts its register from the other end, and the first output is the highest bit.
        let outputs = |state: u32, bit: u32| {
            let ours = state.reverse_bits() >> (32 - code.memory);
            let register = code.register(bit, ours);
            (0..code.outputs as usize).fold(0, |sum, which| sum << 1 | code.output(register, which))
        };
        let next = |state: u32, bit: u32| ((state << 1 | bit) & (states - 1)) as u8;
        Some(Viterbi {
            library,
            code,
            length,
            next_output: (0..states).map(|state| [0, 1].map(|bit| outputs(state, bit))).collect(),
            next_state: (0..states).map(|state| [0, 1].map(|bit| next(state, bit))).collect(),
            last_output: (0..states).map(|state| outputs(state, 0)).collect(),
            last_state: (0..states).map(|state| next(state, 0)).collect(),
        })
    }

    /// The library's soft bits have our signs; its lowest is -127.
    pub fn decode(&self, symbols: &[i8], message: &mut [u8]) {
        assert!(message.len() >= self.length && symbols.len() == self.code.block(self.length));
        let code = ConvCode {
            outputs: self.code.outputs as c_int,
            constraint: self.code.memory as c_int + 1,
            length: self.length as c_int,
            termination: FLUSH,
            next_output: self.next_output.as_ptr(),
            next_state: self.next_state.as_ptr(),
            next_term_output: self.last_output.as_ptr(),
            next_term_state: self.last_state.as_ptr(),
            puncture: null(),
        };
        // Safe: the tables have a row for each state, and both buffers the lengths that the code and the message length ask.
        unsafe { (self.library.0)(&code, symbols.as_ptr(), message.as_mut_ptr()) };
    }
}
