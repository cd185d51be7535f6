//! Times of calls in nanoseconds: of the library for C, of this crate, and of the original.
//!
//! The calls of a row are made in turns, each for some microseconds. Of a call's times, the second
//! percentile is taken: the time when nothing else runs on the core.

use std::hint::black_box;
use std::time::Instant;

use data_encoding::Encoding;

const SAMPLES: usize = 2500;
const SAMPLE_NANOSECONDS: f64 = 5000.0;

extern "C" {
    fn de_encode(
        number: u32,
        input: *const u8,
        input_len: usize,
        output: *mut u8,
        output_len: usize,
        written: *mut usize,
    ) -> u32;
    fn de_decode(
        number: u32,
        input: *const u8,
        input_len: usize,
        output: *mut u8,
        output_len: usize,
        decoded: *mut [usize; 3],
    ) -> u32;
}

/// An encoding by its number, here, and in the original.
struct Row {
    name: &'static str,
    number: u32,
    ours: Encoding,
    theirs: original::Encoding,
}

macro_rules! rows {
    ($($name:ident = $number:expr),*) => {
        [$(Row {
            name: stringify!($name),
            number: $number,
            ours: data_encoding::$name,
            theirs: original::$name,
        }),*]
    };
}

/// The nanoseconds of one call, of `count` made.
fn sample(call: &mut dyn FnMut(), count: usize) -> f64 {
    let start = Instant::now();
    for _ in 0..count {
        call();
    }
    start.elapsed().as_nanos() as f64 / count as f64
}

/// The nanoseconds of each call.
fn times<const N: usize>(mut calls: [&mut dyn FnMut(); N]) -> [f64; N] {
    let count = (SAMPLE_NANOSECONDS / sample(calls[0], 200)).max(1.0) as usize;
    let mut samples = [const { Vec::new() }; N];
    for _ in 0..SAMPLES {
        for (call, samples) in calls.iter_mut().zip(&mut samples) {
            samples.push(sample(*call, count));
        }
    }
    samples.map(|mut samples| {
        samples.sort_by(f64::total_cmp);
        samples[SAMPLES / 50]
    })
}

fn in_place(row: &Row, data: &[u8], text: &str) -> [[f64; 3]; 2] {
    let text = text.as_bytes();
    let mut texts = [(); 3].map(|()| vec![0; text.len()]);
    let most = row.ours.decode_len(text.len()).unwrap();
    let mut outputs = [(); 3].map(|()| vec![0; most]);
    let [a, b, c] = &mut texts;
    let [d, e, f] = &mut outputs;
    let encoding = times([
        &mut || {
            let mut written = 0;
            let input = black_box(data);
            // SAFETY: The pointers and lengths are those of slices.
            unsafe {
                let (start, len) = (input.as_ptr(), input.len());
                de_encode(row.number, start, len, a.as_mut_ptr(), a.len(), &mut written);
            }
            black_box(written);
        },
        &mut || row.ours.encode_mut(black_box(data), black_box(b)),
        &mut || row.theirs.encode_mut(black_box(data), black_box(c)),
    ]);
    let decoding = times([
        &mut || {
            let mut decoded = [0; 3];
            let input = black_box(text);
            // SAFETY: The same.
            unsafe {
                let (start, len) = (input.as_ptr(), input.len());
                de_decode(row.number, start, len, d.as_mut_ptr(), d.len(), &mut decoded);
            }
            black_box(decoded);
        },
        &mut || _ = black_box(row.ours.decode_mut(black_box(text), black_box(e))),
        &mut || _ = black_box(row.theirs.decode_mut(black_box(text), black_box(f))),
    ]);
    [encoding, decoding]
}

fn with_memory(row: &Row, data: &[u8], text: &str) -> [[f64; 2]; 2] {
    let text = text.as_bytes();
    let encoding = times([&mut || _ = black_box(row.ours.encode(black_box(data))), &mut || {
        _ = black_box(row.theirs.encode(black_box(data)))
    }]);
    let decoding = times([&mut || _ = black_box(row.ours.decode(black_box(text))), &mut || {
        _ = black_box(row.theirs.decode(black_box(text)))
    }]);
    [encoding, decoding]
}

fn print_row(row: &Row, size: usize) {
    let data: Vec<u8> = (0..size).map(|index| (index * 7 + index / 256) as u8).collect();
    let text = row.theirs.encode(&data);
    assert_eq!(row.ours.encode(&data), text);
    print!("{:16} {size:6}", row.name);
    for [c, ours, theirs] in in_place(row, &data, &text) {
        print!(" | {c:7.0} {:+5.1} {theirs:7.0} {:4.2}", ours - c, ours / theirs);
    }
    for [ours, theirs] in with_memory(row, &data, &text) {
        print!(" | {ours:7.0} {theirs:7.0} {:4.2}", ours / theirs);
    }
    println!();
}

fn main() {
    let mut sizes: Vec<usize> =
        std::env::args().skip(1).map(|size| size.parse().unwrap()).collect();
    if sizes.is_empty() {
        sizes.extend([16, 64, 1024, 65536]);
    }
    let rows = rows![
        HEXLOWER = 0,
        BASE32 = 4,
        BASE32_DNSCURVE = 11,
        BASE64 = 12,
        BASE64_MIME = 14,
        BASE64URL_NOPAD = 17
    ];
    println!(
        "encode_mut, decode_mut: C, here +, original, ratio; encode, decode: here, original, ratio"
    );
    for row in &rows {
        for size in &sizes {
            print_row(row, *size);
        }
    }
}
