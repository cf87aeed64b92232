//! boxes FILE: the example of examples/c/boxes.c in Rust, by rustc alone, with the same statuses. A slice goes to the library as its pointer and its length.
//! tests/c/run builds it.
use std::fs::File;
use std::io::{self, Read, Write};
use std::os::raw::c_uint;
use std::process::ExitCode;

#[link(name = "malachirp", kind = "static")]
extern "C" {
    fn malachirp_read(file: *const u8, file_length: usize, coefficients: *mut i64, coefficients_length: usize, head: &mut [u8; 8], offset: &mut u64) -> c_uint;
    fn malachirp_start(
        head: &[u8; 8], coefficients: *const i64, coefficients_length: usize, store: *mut i64, store_length: usize, state: &mut [u64; 4], offset: &mut u64,
    ) -> c_uint;
    fn malachirp_run(
        head: &[u8; 8], budget: u32, store: *mut i64, store_length: usize, list: *mut u16, list_length: usize, state: &mut [u64; 4], word: &mut u32,
        offset: &mut u64,
    ) -> c_uint;
    fn malachirp_middles(kept: &[u16; 7], middles: &mut [f64; 6], offset: &mut u64) -> c_uint;
}

const FINISHED: u8 = 0;
const REFUSED: u8 = 1;
const NO_FILE: u8 = 2;
const FULL: u8 = 4;
const NOT_ALL: u8 = 5;

/// Why the program ends before the boxes are printed.
enum Early {
    Refused(String),
    Unmoved(io::Error),
}

impl From<io::Error> for Early {
    fn from(error: io::Error) -> Early {
        Early::Unmoved(error)
    }
}

fn done(call: &str, code: c_uint, offset: u64) -> Result<(), Early> {
    match code {
        0 => Ok(()),
        _ => Err(Early::Refused(format!("{call} refused {code} at {offset}"))),
    }
}

fn read(file: &[u8], coefficients: &mut [i64], head: &mut [u8; 8]) -> Result<(), Early> {
    let mut offset = 0;
    // SAFETY: each pointer goes with the length of its own slice, and no two of them overlap, as the borrows show; so below.
    let code = unsafe { malachirp_read(file.as_ptr(), file.len(), coefficients.as_mut_ptr(), coefficients.len(), head, &mut offset) };
    done("read", code, offset)
}

fn start(head: &[u8; 8], coefficients: &[i64], store: &mut [i64], state: &mut [u64; 4]) -> Result<(), Early> {
    let mut offset = 0;
    // SAFETY: as in `read`.
    let code = unsafe { malachirp_start(head, coefficients.as_ptr(), coefficients.len(), store.as_mut_ptr(), store.len(), state, &mut offset) };
    done("start", code, offset)
}

fn run(head: &[u8; 8], budget: u32, store: &mut [i64], list: &mut [u16], state: &mut [u64; 4]) -> Result<u32, Early> {
    let (mut word, mut offset) = (0, 0);
    // SAFETY: as in `read`.
    let code = unsafe { malachirp_run(head, budget, store.as_mut_ptr(), store.len(), list.as_mut_ptr(), list.len(), state, &mut word, &mut offset) };
    done("run", code, offset)?;
    Ok(word)
}

fn print_box(out: &mut impl Write, kept: &[u16; 7], variables: usize) -> Result<(), Early> {
    let (mut middles, mut offset) = ([0.0; 6], 0);
    // SAFETY: both are arrays of the lengths that the library wants.
    let code = unsafe { malachirp_middles(kept, &mut middles, &mut offset) };
    done("middles", code, offset)?;
    let parts: Vec<String> = middles.chunks(2).take(variables).map(|x| format!("{} +- {}", x[0], x[1])).collect();
    writeln!(out, "{}{}", parts.join(", "), if kept[6] == 1 { "" } else { ", too large to cut" })?;
    Ok(())
}

/// Searches, prints the word of each piece and then the boxes, and answers the status.
fn boxes(mut input: File, out: &mut impl Write) -> Result<u8, Early> {
    let mut file = Vec::new();
    input.read_to_end(&mut file)?;
    let (mut coefficients, mut store, mut list) = ([0; 192], [0; 6138], vec![0u16; 7 * 1024]);
    let (mut head, mut state, mut room) = ([0; 8], [0; 4], 2);
    read(&file, &mut coefficients, &mut head)?;
    start(&head, &coefficients, &mut store, &mut state)?;
    let status = loop {
        let word = run(&head, 25, &mut store, &mut list[..7 * room], &mut state)?;
        let [waiting, kept, visits, dropped] = state;
        writeln!(out, "{}: {visits} visits, {dropped} dropped, {kept} kept, {waiting} waiting", ["", "finished", "spent", "full"][word as usize])?;
        match word {
            1 => break FINISHED,
            3 if room == 1024 => break FULL,
            3 => room *= 2,
            _ => {}
        }
    };
    for kept in list.chunks_exact(7).take(state[1] as usize) {
        print_box(out, kept.try_into().expect("seven numbers"), head[0] as usize)?;
    }
    Ok(status)
}

/// What is printed of an early end goes out before the status says that it did.
fn ended(end: Result<u8, Early>, out: &mut impl Write) -> Result<u8, io::Error> {
    let status = match end {
        Ok(status) => status,
        Err(Early::Refused(words)) => {
            writeln!(out, "{words}")?;
            REFUSED
        }
        Err(Early::Unmoved(error)) => return Err(error),
    };
    out.flush()?;
    Ok(status)
}

fn main() -> ExitCode {
    let Some(Ok(input)) = std::env::args().nth(1).map(File::open) else {
        eprintln!("usage: boxes FILE");
        return ExitCode::from(NO_FILE);
    };
    let mut out = io::BufWriter::new(io::stdout().lock());
    let end = boxes(input, &mut out);
    ExitCode::from(ended(end, &mut out).unwrap_or_else(|error| {
        eprintln!("boxes: not all could be read or written: {error}");
        NOT_ALL
    }))
}
