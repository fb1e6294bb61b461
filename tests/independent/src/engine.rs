//! The engine's calls, linked from the libraries that `MARGIN_LIBS` names, as its header
//! `include/margin.h` declares them.

/// `struct margin_refusal`.
#[repr(C)]
#[derive(Clone, Copy, Debug, PartialEq, Eq)]
pub struct MarginRefusal {
    pub number: u8,
    pub layer: u8,
    pub line: usize,
    pub cell: usize,
    pub reference: u32,
}

extern "C" {
    fn margin_run(
        input: *const u8,
        input_len: usize,
        statement: *mut u8,
        statement_len: usize,
    ) -> i64;
    fn margin_run_told(
        input: *const u8,
        input_len: usize,
        statement: *mut u8,
        statement_len: usize,
        refusal: *mut MarginRefusal,
    ) -> i64;
}

/// The plain call, which tells no refusal but its number.
pub fn run(input: &[u8], buffer: &mut [u8]) -> i64 {
    // The call reads the input and writes the buffer within their lengths, and keeps neither.
    unsafe {
        margin_run(
            input.as_ptr(),
            input.len(),
            buffer.as_mut_ptr(),
            buffer.len(),
        )
    }
}

/// The call that tells its refusal; all parts of what it tells are set before to what no run has.
pub fn run_told(input: &[u8], buffer: &mut [u8]) -> (i64, MarginRefusal) {
    let mut refusal = MarginRefusal {
        number: 0xee,
        layer: 0xee,
        line: usize::MAX,
        cell: usize::MAX,
        reference: 0xeeee_eeee,
    };
    // A pointer may be null where its length is 0: the empty input and buffer are handed so.
    let input_start = if input.is_empty() {
        std::ptr::null()
    } else {
        input.as_ptr()
    };
    let buffer_start = if buffer.is_empty() {
        std::ptr::null_mut()
    } else {
        buffer.as_mut_ptr()
    };
    let answer = unsafe {
        margin_run_told(
            input_start,
            input.len(),
            buffer_start,
            buffer.len(),
            &mut refusal,
        )
    };
    (answer, refusal)
}
