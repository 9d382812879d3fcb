//! How a program that re-encodes by `wasm_encoder::reencode` is written with this crate:
//!
//!     cargo run --example from_wasm_encoder -- IN OUT
//!
//! The program makes each call of the first function one of the second. What stood there for a step is a comment above it.
//!
//! With both crates a reencoder is a type with the trait `Reencode`, whose methods for indices have the same names, take the same numbers,
//! and answer a `Result` with the trait's `Error` in it. What differs:
//!
//! - There a method of the trait reads with a parser, and fills a module that the caller made. Here one call takes bytes and gives
//!   bytes, of a core module or a component, by its header.
//! - There methods that map types, items, rows or whole sections can be overridden too. Here those of indices and scopes alone.
//! - There those of a component stand in a trait of their own, and answer a number. Here they stand in the same, and answer a `Result`.
//! - There an index is asked while the bytes are read. Here all of the bytes are read before the first is asked.
use std::{env, fs, process};

// There: `use wasm_encoder::reencode::{Error, Reencode};`
use hyssopplinth::{reencode, Error, Reencode};

/// Each use of a function becomes one of another.
struct Instead {
    old: u32,
    new: u32,
}

/// Why a use is refused: it is of the other one already.
#[derive(Debug, PartialEq)]
struct InUse(u32);

// There: the same lines, to the last brace.
impl Reencode for Instead {
    type Error = InUse;

    fn function_index(&mut self, func: u32) -> Result<u32, Error<InUse>> {
        if func == self.new {
            return Err(Error::UserError(InUse(func)));
        }
        Ok(if func == self.old { self.new } else { func })
    }
}

fn run(bytes: &[u8], old: u32, new: u32) -> Result<Vec<u8>, Error<InUse>> {
    // There, in four steps: an empty `Module` of the encoder; a parser that begins at 0; `parse_core_module` of the reencoder, which takes
    // both and the bytes, its refusals handed on by `?`; and `finish` of the module, which gives the bytes. For a component there are
    // `Component`, `parse_component`, and the trait `ReencodeComponent`.
    reencode(bytes, &mut Instead { old, new })
}

fn main() {
    let words: Vec<String> = env::args().collect();
    let [_, input, output] = &words[..] else {
        eprintln!("usage: from_wasm_encoder IN OUT");
        process::exit(2)
    };
    let bytes = fs::read(input).expect("IN");
    // There: a match over the same names, where `ParseError` holds the parser's own error.
    match run(&bytes, 0, 1) {
        Ok(made) => fs::write(output, made).expect("OUT"),
        Err(Error::UserError(InUse(func))) => {
            eprintln!("function {func} is in use");
            process::exit(1)
        }
        Err(Error::ParseError { place, .. }) => {
            eprintln!("no module: the section at {place}");
            process::exit(1)
        }
        Err(error) => {
            eprintln!("status {}", error.status());
            process::exit(1)
        }
    }
}

#[cfg(test)]
mod tests {
    use super::*;

    // two functions, of which the first is the start
    const MODULE: &[u8] = b"\0asm\x01\0\0\0\x01\x04\x01\x60\0\0\x03\x03\x02\0\0\x08\x01\0\x0a\x07\x02\x02\0\x0b\x02\0\x0b";

    #[test]
    fn the_other_function_starts() {
        let made = run(MODULE, 0, 1).expect("a module");
        assert_eq!(made[19..22], [8, 1, 1]);
        assert_eq!(run(&made, 0, 1), Err(Error::UserError(InUse(1))));
    }
}
