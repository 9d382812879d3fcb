// The library for C and the straight re-encoder in one process, over the same modules, in turns: what tools/measure_library tells.
//
//     in_process ROUNDS FILE...
//
// Of each module a line of numbers: its bytes; of the straight re-encoder, the library's plain, the straight renaming of every
// function and the library's: the least nanoseconds of a call, the pages that were touched first in it, and how many KiB the process
// held more at its peak than before; then the same of `renumber`, `prune` and `merge`, or 0 where these refuse the module.
// The calls are declared in bindings/rust/src/ffi.rs.
#[allow(dead_code)]
mod ffi;
#[allow(dead_code)]
mod straight;

use ffi::raw::{reencode_raw_merge, reencode_raw_plain, reencode_raw_prune, reencode_raw_rename, reencode_raw_renumber};
use ffi::{Entry, Outcome};
use std::time::Instant;
use std::{env, fs, process};
use straight::{Counts, Hooks, Mapper, Renamed, Same, FUNCTION};

extern "C" {
    fn getrusage(who: i32, usage: *mut [i64; 18]) -> i32;
}

const NO_CEILING: u32 = u32::MAX;
// In the header.
const FUNCTION_SPACE: u32 = 2;
// A core module with an import, a function, a table, a memory, a global, an active element and a segment, and no export.
const SMALL: &[u8] = b"\0asm\x01\0\0\0\x01\x04\x01\x60\0\0\x02\x07\x01\x01a\x01b\0\0\x03\x02\x01\0\x04\x04\x01\x70\0\x01\x05\x03\x01\0\x01\
\x06\x06\x01\x7f\0\x41\0\x0b\x09\x07\x01\0\x41\0\x0b\x01\x01\x0a\x06\x01\x04\0\x10\0\x0b\x0b\x07\x01\0\x41\0\x0b\x01a";

/// The greatest index of a function that is asked for, and how many times the number of functions is stated.
struct Most(u32);

impl Hooks for Most {
    fn index(&mut self, space: usize, index: u32) -> u32 {
        if space == FUNCTION && index > self.0 {
            self.0 = index;
        }
        index
    }

    fn section(&mut self) {}
}

/// The pages that this process touched first until now.
fn faults() -> i64 {
    let mut usage = [0i64; 18];
    // user and system time are four numbers; then come the greatest memory, three that are none, and the faults
    unsafe { getrusage(0, &mut usage) };
    usage[8]
}

/// A number of KiB of /proc/self/status.
fn held(name: &str) -> i64 {
    let text = fs::read_to_string("/proc/self/status").unwrap_or_default();
    let line = text.lines().find_map(|line| line.strip_prefix(name)).unwrap_or(":0");
    line.trim_start_matches(':').split_whitespace().next().and_then(|word| word.parse().ok()).unwrap_or(0)
}

/// The least time of a call in nanoseconds, its pages, and its peak.
#[derive(Clone, Copy)]
struct Cost(u128, i64, i64);

/// One more round of a call, which gives whether it did what it was to do.
fn round(cost: &mut Option<Cost>, mut call: impl FnMut() -> bool) {
    // the peak is counted anew
    let _ = fs::write("/proc/self/clear_refs", "5");
    let (before, pages) = (held("VmRSS"), faults());
    let start = Instant::now();
    let done = call();
    let time = start.elapsed().as_nanos();
    let (pages, peak) = (faults() - pages, held("VmHWM") - before);
    if done {
        let least = cost.unwrap_or(Cost(u128::MAX, i64::MAX, 0));
        *cost = Some(Cost(least.0.min(time), least.1.min(pages), peak.max(least.2)));
    }
}

/// A call of the library into room that is made for it, as long as the output is.
fn into(length: usize, call: impl Fn(*mut u8, usize, *mut Outcome) -> u32) -> bool {
    let mut room: Vec<u8> = Vec::with_capacity(length);
    let mut outcome = Outcome::default();
    call(room.as_mut_ptr(), length, &mut outcome) == 0
}

/// How long the output of a call is, or none where it is refused.
fn length_of(call: impl Fn(*mut u8, usize, *mut Outcome) -> u32) -> Option<usize> {
    let (mut nothing, mut outcome) = ([0u8; 1], Outcome::default());
    match call(nothing.as_mut_ptr(), 0, &mut outcome) {
        0 | 16 => Some(outcome.length),
        _ => None,
    }
}

fn numbers_of(section: &[u8]) -> Option<(u32, &[u8])> {
    let (mut number, mut shift) = (0u64, 0);
    for (at, byte) in section.iter().enumerate().take(5) {
        number |= u64::from(byte & 127) << shift;
        shift += 7;
        if byte & 128 == 0 {
            return Some((number as u32, &section[at + 1..]));
        }
    }
    None
}

/// How many functions a module defines.
fn defined(bytes: &[u8]) -> u32 {
    let mut rest = bytes.get(8..).unwrap_or_default();
    while let Some((&id, behind)) = rest.split_first() {
        let Some((size, body)) = numbers_of(behind) else { return 0 };
        if id == 3 {
            return numbers_of(body).map_or(0, |(count, _)| count);
        }
        rest = body.get(size as usize..).unwrap_or_default();
    }
    0
}

fn measure(rounds: usize, bytes: &[u8]) -> Option<[Option<Cost>; 7]> {
    let mut most = Most(0);
    let plain_out = Mapper { hooks: &mut most }.module(bytes).ok()?;
    let functions = most.0 + 1;
    let turned: Vec<u32> = (0..functions).map(|index| functions - 1 - index).collect();
    let mut tables: [Vec<u32>; 9] = Default::default();
    tables[FUNCTION] = turned.clone();
    let entries: Vec<Entry> = turned.iter().enumerate().map(|(from, to)| Entry { space: FUNCTION_SPACE, from: from as u32, to: *to }).collect();
    let mut renamed = Renamed(Counts::default(), tables);
    let renamed_out = Mapper { hooks: &mut renamed }.module(bytes).ok()?;
    let count = defined(bytes);
    let order: Vec<u32> = (0..count).rev().collect();
    let mut kept = vec![0u32; count as usize];
    let kept = (kept.as_mut_ptr(), kept.len());
    let start = bytes.as_ptr();
    let plain = |room, length, outcome| unsafe { reencode_raw_plain(start, bytes.len(), NO_CEILING, room, length, outcome) };
    let rename =
        |room, length, outcome| unsafe { reencode_raw_rename(start, bytes.len(), entries.as_ptr(), entries.len(), 0, NO_CEILING, room, length, outcome) };
    let renumber = |room, length, outcome| unsafe { reencode_raw_renumber(start, bytes.len(), order.as_ptr(), order.len(), NO_CEILING, room, length, outcome) };
    let prune = |room, length, outcome| unsafe { reencode_raw_prune(start, bytes.len(), NO_CEILING, room, length, kept.0, kept.1, outcome) };
    let merge = |room, length, outcome| unsafe { reencode_raw_merge(start, bytes.len(), SMALL.as_ptr(), SMALL.len(), NO_CEILING, room, length, outcome) };
    // both give the same bytes
    for (wanted, by_renaming) in [(&plain_out, false), (&renamed_out, true)] {
        let mut room = vec![0u8; wanted.len()];
        let mut outcome = Outcome::default();
        let status = if by_renaming { rename(room.as_mut_ptr(), room.len(), &mut outcome) } else { plain(room.as_mut_ptr(), room.len(), &mut outcome) };
        if status != 0 || outcome.length != wanted.len() || room != *wanted {
            eprintln!("the outputs differ: status {status}");
            process::exit(1);
        }
    }
    // of `prune` the room for the kept functions must be long enough, so it is called with its own
    let lengths = [length_of(renumber), length_of(prune), length_of(merge)];
    let (plain_length, renamed_length) = (plain_out.len(), renamed_out.len());
    drop((plain_out, renamed_out));
    let mut costs = [None; 7];
    for _ in 0..rounds {
        round(&mut costs[0], || {
            let mut hooks = Same(Counts::default());
            Mapper { hooks: &mut hooks }.module(bytes).is_ok_and(|out| out.len() == plain_length)
        });
        round(&mut costs[1], || into(plain_length, plain));
        round(&mut costs[2], || Mapper { hooks: &mut renamed }.module(bytes).is_ok_and(|out| out.len() == renamed_length));
        round(&mut costs[3], || into(renamed_length, rename));
        if let Some(length) = lengths[0] {
            round(&mut costs[4], || into(length, renumber));
        }
        if let Some(length) = lengths[1] {
            round(&mut costs[5], || into(length, prune));
        }
        if let Some(length) = lengths[2] {
            round(&mut costs[6], || into(length, merge));
        }
    }
    Some(costs)
}

fn main() {
    let words: Vec<String> = env::args().skip(1).collect();
    let Some((rounds, files)) = words.split_first().and_then(|(rounds, files)| Some((rounds.parse().ok()?, files))) else {
        eprintln!("usage: in_process ROUNDS FILE...");
        process::exit(2);
    };
    for file in files {
        let Ok(bytes) = fs::read(file) else {
            eprintln!("{file}: cannot be read");
            process::exit(1);
        };
        let Some(costs) = measure(rounds, &bytes) else {
            eprintln!("{file}: no module of the straight re-encoder");
            continue;
        };
        print!("{file} {}", bytes.len());
        for cost in costs {
            let Cost(time, pages, peak) = cost.unwrap_or(Cost(0, 0, 0));
            print!(" {time} {pages} {peak}");
        }
        println!();
    }
}
