//! Renumbers the indices of a module or component by a table of its own, as renumber.c does, from Rust.
//!
//!     rustc -O renumber.rs -L FOLDER -l static=hyssopplinth
use std::collections::HashMap;
use std::{env, fs, process};

#[repr(C)]
#[derive(Clone, Copy)]
struct Entry {
    space: u32,
    from: u32,
    to: u32,
}

#[repr(C)]
#[derive(Clone, Copy, Default)]
struct Visit {
    kind: u32,
    space: u32,
    count: u32,
    index: u32,
    section: u32,
    row: u32,
}

#[repr(C)]
#[derive(Clone, Copy, Debug, Default)]
struct Outcome {
    length: usize,
    place: u64,
    size: u64,
    status: u32,
    space: u32,
    index: u32,
    by: u32,
    count: usize,
    stated: u32,
    rows: u32,
    id: u32,
    spare: u32,
}

const TOO_SMALL: u32 = 16;
const NO_CEILING: u32 = u32::MAX;

// A slice of Rust is never null, also where it is empty.
extern "C" {
    fn reencode_raw_plain(bytes: *const u8, length: usize, ceiling: u32, room: *mut u8, count: usize, outcome: *mut Outcome) -> u32;
    fn reencode_raw_rename(bytes: *const u8, length: usize, entries: *const Entry, entry_count: usize, strict: u32, ceiling: u32,
        room: *mut u8, count: usize, outcome: *mut Outcome) -> u32;
    fn reencode_raw_visits(bytes: *const u8, length: usize, room: *mut Visit, count: usize, outcome: *mut Outcome) -> u32;
    fn reencode_raw_answer(bytes: *const u8, length: usize, answers: *const u32, answer_count: usize, ceiling: u32,
        room: *mut u8, count: usize, outcome: *mut Outcome) -> u32;
}

/// Calls with room for so many items, and once more where it was too small.
fn into<T: Clone + Default>(first: usize, call: impl Fn(*mut T, usize, *mut Outcome) -> u32) -> Result<Vec<T>, Outcome> {
    let mut outcome = Outcome::default();
    let mut room = vec![T::default(); first];
    let mut status = call(room.as_mut_ptr(), room.len(), &mut outcome);
    if status == TOO_SMALL {
        room.resize(outcome.length, T::default());
        status = call(room.as_mut_ptr(), room.len(), &mut outcome);
    }
    if status != 0 {
        return Err(outcome);
    }
    room.truncate(outcome.length);
    Ok(room)
}

fn plain(bytes: &[u8]) -> Result<Vec<u8>, Outcome> {
    into(bytes.len(), |room, count, outcome| unsafe {
        reencode_raw_plain(bytes.as_ptr(), bytes.len(), NO_CEILING, room, count, outcome)
    })
}

fn rename(bytes: &[u8], entries: &[Entry]) -> Result<Vec<u8>, Outcome> {
    into(bytes.len(), |room, count, outcome| unsafe {
        reencode_raw_rename(bytes.as_ptr(), bytes.len(), entries.as_ptr(), entries.len(), 0, NO_CEILING, room, count, outcome)
    })
}

/// Asks the hook at each visit of an index, by its space and the index.
fn answer(bytes: &[u8], hook: impl Fn(u32, u32) -> u32) -> Result<Vec<u8>, Outcome> {
    let visits: Vec<Visit> = into(bytes.len() / 8, |room, count, outcome| unsafe {
        reencode_raw_visits(bytes.as_ptr(), bytes.len(), room, count, outcome)
    })?;
    let answers: Vec<u32> = visits.iter().map(|v| if v.kind <= 1 { hook(v.space, v.index) } else { 0 }).collect();
    into(bytes.len(), |room, count, outcome| unsafe {
        reencode_raw_answer(bytes.as_ptr(), bytes.len(), answers.as_ptr(), answers.len(), NO_CEILING, room, count, outcome)
    })
}

fn main() {
    let words: Vec<String> = env::args().collect();
    let bytes = fs::read(&words[2]).expect("IN");
    let table = words.get(4).map(|path| fs::read_to_string(path).expect("TABLE")).unwrap_or_default();
    let entries: Vec<Entry> = table
        .lines()
        .map(|line| {
            let numbers: Vec<u32> = line.split_whitespace().map(|word| word.parse().expect("a number")).collect();
            Entry { space: numbers[0], from: numbers[1], to: numbers[2] }
        })
        .collect();
    let by: HashMap<(u32, u32), u32> = entries.iter().map(|entry| ((entry.space, entry.from), entry.to)).collect();
    let made = match words[1].as_str() {
        "plain" => plain(&bytes),
        "rename" => rename(&bytes, &entries),
        _ => answer(&bytes, |space, index| *by.get(&(space, index)).unwrap_or(&index)),
    };
    match made {
        Ok(made) => fs::write(&words[3], made).expect("OUT"),
        Err(outcome) => {
            eprintln!("status {} place {} size {}", outcome.status, outcome.place, outcome.size);
            process::exit(outcome.status as i32);
        }
    }
}
