//! The calls of memory.rt.in, by the Rust crate `data-encoding`.
use data_encoding::{Encoding, BASE32, BASE32_DNSCURVE, BASE64, BASE64_MIME, HEXLOWER};
use std::hint::black_box;
use std::slice::{from_raw_parts, from_raw_parts_mut};

const ENCODINGS: [Encoding; 5] = [HEXLOWER, BASE32, BASE32_DNSCURVE, BASE64, BASE64_MIME];

/// # Safety
///
/// The pointers and lengths are those of two buffers.
#[no_mangle]
pub unsafe extern "C" fn original_encode(
    number: u32,
    times: usize,
    input: *const u8,
    input_len: usize,
    output: *mut u8,
    output_len: usize,
) -> usize {
    let encoding = &ENCODINGS[number as usize];
    let input = unsafe { from_raw_parts(input, input_len) };
    let output = unsafe { from_raw_parts_mut(output, output_len) };
    let len = encoding.encode_len(input.len());
    for _ in 0..times {
        encoding.encode_mut(black_box(input), black_box(&mut output[..len]));
    }
    len
}

/// # Safety
///
/// The pointers and lengths are those of two buffers.
#[no_mangle]
pub unsafe extern "C" fn original_decode(
    number: u32,
    times: usize,
    input: *const u8,
    input_len: usize,
    output: *mut u8,
    output_len: usize,
) -> usize {
    let encoding = &ENCODINGS[number as usize];
    let input = unsafe { from_raw_parts(input, input_len) };
    let output = unsafe { from_raw_parts_mut(output, output_len) };
    let most = encoding.decode_len(input.len()).unwrap_or(0);
    let mut len = 0;
    for _ in 0..times {
        len = encoding
            .decode_mut(black_box(input), black_box(&mut output[..most]))
            .unwrap_or(0);
    }
    len
}
