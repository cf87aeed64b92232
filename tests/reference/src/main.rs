//! `reference`: the independent program at the command line. FORMATS.md and
//! CALLS.md say what each subcommand reads and prints.

#![forbid(unsafe_code)]

use std::io::{self, BufWriter, Read, Write};
use std::path::Path;
use std::process::ExitCode;
use std::{env, fs};

use reference::calls::answer::{answer_text, Memory};
use reference::calls::make::make_calls;
use reference::calls::wire::{decode, encode, MOST_FILE};
use reference::calls::{Call, Kind};
use reference::generate::generate;
use reference::program::{read_text, solve_text};
use reference::sweep::{sweep_cases, sweep_text};

const USAGE: &str = "usage: reference solve | read | sweep FILE | sweep-calls FILE
       | generate SEED COUNT DIR | calls [--whole]
       | make-calls SEED COUNT | name-calls SEED COUNT";

fn main() -> ExitCode {
    let words: Vec<String> = env::args().skip(1).collect();
    let words: Vec<&str> = words.iter().map(String::as_str).collect();
    match command(&words) {
        Ok(()) => ExitCode::SUCCESS,
        Err(fault) => {
            eprintln!("{fault}");
            ExitCode::from(2)
        }
    }
}

fn command(words: &[&str]) -> Result<(), String> {
    let mut out = BufWriter::new(io::stdout().lock());
    let done = match words {
        ["solve"] => write!(out, "{}", solve_text(&input()?)),
        ["read"] => write!(out, "{}", read_text(&input()?)),
        ["sweep", file] => write!(out, "{}", sweep_text(&bytes_of(file)?)),
        ["sweep-calls", file] => write_sweep_calls(&mut out, &bytes_of(file)?),
        ["generate", seed, count, folder] => {
            write_files(number(seed)?, number(count)?, Path::new(folder))
        }
        ["calls"] => return answer_calls(&mut out, Memory::Hashed),
        ["calls", "--whole"] => return answer_calls(&mut out, Memory::Whole),
        ["make-calls", seed, count] => make_calls(number(seed)?, number(count)? as usize)
            .try_for_each(|(_, call)| out.write_all(&encode(&call))),
        ["name-calls", seed, count] => make_calls(number(seed)?, number(count)? as usize)
            .enumerate()
            .try_for_each(|(index, (name, _))| writeln!(out, "{index} {name}")),
        _ => return Err(USAGE.to_string()),
    };
    done.and_then(|()| out.flush())
        .map_err(|fault| fault.to_string())
}

fn number(word: &str) -> Result<u64, String> {
    word.parse().map_err(|_| format!("not a number: {word}"))
}

fn input() -> Result<Vec<u8>, String> {
    let mut bytes = Vec::new();
    let read = io::stdin().lock().read_to_end(&mut bytes);
    read.map(|_| bytes).map_err(|fault| fault.to_string())
}

fn bytes_of(file: &str) -> Result<Vec<u8>, String> {
    fs::read(file).map_err(|fault| format!("{file}: {fault}"))
}

fn write_files(seed: u64, count: u64, folder: &Path) -> io::Result<()> {
    fs::create_dir_all(folder)?;
    for (name, bytes) in generate(seed, count as usize) {
        fs::write(folder.join(name), bytes)?;
    }
    Ok(())
}

/// The sweep's cases as read calls with room for every system.
fn write_sweep_calls(out: &mut impl Write, file: &[u8]) -> io::Result<()> {
    for case in sweep_cases(file) {
        let mut call = Call::new(Kind::Read);
        call.file = case;
        call.file.truncate(MOST_FILE);
        call.coefficients = vec![-1; 192];
        out.write_all(&encode(&call))?;
    }
    Ok(())
}

fn answer_calls(out: &mut impl Write, memory: Memory) -> Result<(), String> {
    let bytes = input()?;
    let mut rest = &bytes[..];
    let mut index = 0;
    while let Some((mut call, after)) = decode(rest)? {
        let text = answer_text(index, &mut call, memory);
        out.write_all(text.as_bytes())
            .map_err(|fault| fault.to_string())?;
        (rest, index) = (after, index + 1);
    }
    out.flush().map_err(|fault| fault.to_string())
}
