//! Moves the functions of a module behind others, as a linker has it that puts one module behind another:
//!
//!     cargo run --example shift -- IN OUT COUNT
//!
//! Each index of a function becomes COUNT greater. No function itself moves: where the others come from is the linker's.
use hyssopplinth::{reencode, Error, Reencode};
use std::{env, fmt, fs, process};

/// The module with each function moved behind `count` others.
struct Behind {
    count: u32,
}

/// An index would be 2^32 or more.
#[derive(Debug)]
struct TooMany {
    func: u32,
}

impl fmt::Display for TooMany {
    fn fmt(&self, f: &mut fmt::Formatter<'_>) -> fmt::Result {
        write!(f, "function {} has no index behind so many", self.func)
    }
}

impl std::error::Error for TooMany {}

impl Reencode for Behind {
    type Error = TooMany;

    fn function_index(&mut self, func: u32) -> Result<u32, Error<TooMany>> {
        func.checked_add(self.count).ok_or(Error::UserError(TooMany { func }))
    }
}

fn run() -> Result<(), Box<dyn std::error::Error>> {
    let words: Vec<String> = env::args().collect();
    let [_, input, output, count] = &words[..] else { return Err("usage: shift IN OUT COUNT".into()) };
    let made = reencode(&fs::read(input)?, &mut Behind { count: count.parse()? })?;
    fs::write(output, made)?;
    Ok(())
}

fn main() {
    if let Err(error) = run() {
        eprintln!("{error}");
        process::exit(1);
    }
}
